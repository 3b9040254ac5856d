/* Packs a card for the store, or with -u unpacks it: store [-u] <FROM >TO
 *
 * What is written is the packing, or the compact text, and nothing else. Ends with 1 after a refusal, which is said on standard error. */
#include "bezinkol.h"
#include <stdio.h>
#include <string.h>

int main(int count, char **given) {
    /* A byte more than there may be, so that a longer input isn't cut to a good one; an output that no packing and no unpacked text is too long for. */
    static uint8_t in[BEZINKOL_MAX_BYTES + 1], out[BEZINKOL_MAX_UNPACKED];
    static uint32_t table[BEZINKOL_TABLE_WORDS];
    uint64_t answer[BEZINKOL_ANSWER_WORDS];
    int back = count == 2 && !strcmp(given[1], "-u");
    if (count != 1 && !back) return fprintf(stderr, "store [-u] <FROM >TO\n"), 2;
    size_t size = fread(in, 1, sizeof in, stdin);
    if (ferror(stdin)) return 2; /* a failed read isn't the end of the card */
    if (back) bezinkol_unpack(in, size, out, sizeof out, answer);
    else bezinkol_pack(in, size, out, sizeof out, table, BEZINKOL_TABLE_WORDS, answer);
    if (answer[0] != BEZINKOL_OK) return fprintf(stderr, "refused: %d %d\n", (int)answer[0], (int)answer[1]), 1;
    return fwrite(out, 1, answer[2], stdout) != answer[2] || fflush(stdout) ? 2 : 0;
}
