#include "bezinkol.h"
#include <stdio.h>

int main(void) {
    static uint8_t text[BEZINKOL_MAX_BYTES + 1], out[BEZINKOL_MAX_BYTES]; /* a byte more, so that a longer text isn't cut to a good one */
    static uint32_t table[BEZINKOL_TABLE_WORDS];
    uint64_t answer[BEZINKOL_ANSWER_WORDS];
    size_t size = fread(text, 1, sizeof text, stdin);
    if (ferror(stdin)) return 2; /* a failed read isn't the end of the card */
    bezinkol_localize(text, size, (const uint8_t *)"de", 2, out, sizeof out, table, BEZINKOL_TABLE_WORDS, answer);
    if (answer[0] == BEZINKOL_OK) fwrite(out, 1, answer[2], stdout);
    else printf("refused: %d %d\n", (int)answer[0], (int)answer[1]);
    return answer[0] != BEZINKOL_OK;
}
