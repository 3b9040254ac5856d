#include "bezinkol.h"
#include <stdio.h>

int main(void) {
    uint8_t piece[1500];
    uint32_t state[BEZINKOL_PIECES_WORDS];
    uint64_t answer[BEZINKOL_ANSWER_WORDS] = {BEZINKOL_OK}; /* an empty input has no piece */
    size_t size, taken = 0;
    bezinkol_pieces_start(state);
    while (answer[0] == BEZINKOL_OK && (size = fread(piece, 1, sizeof piece, stdin)) > 0) { /* what is refused is so whatever follows: hang up */
        bezinkol_pieces_take(state, piece, size, answer);
        taken += size;
    }
    if (answer[0] == BEZINKOL_OK && ferror(stdin)) return 2; /* a failed read isn't the end of the text */
    bezinkol_pieces_end(state, answer);                      /* after a refusal it only says it again */
    if (answer[0] == BEZINKOL_OK) printf("%d values\n", (int)answer[1]);
    else printf("refused: %d %d after %d bytes\n", (int)answer[0], (int)answer[1], (int)taken);
    return answer[0] != BEZINKOL_OK;
}
