/* Judges a card and localizes it: localize CARD-FILE LANGUAGE
 *
 * Prints the verdict on the card and then the localized card. Ends with 0, with 1 after a refusal, with 2 where there is nothing to judge. */
#include "bezinkol.h"
#include <stdio.h>
#include <string.h>

/* The refusal sheet in words, and what the second number is, where it says something. */
static const struct line {
    const char *words, *second;
} sheet[] = {
    [BEZINKOL_TOO_LONG] = {"the text is over 1,048,576 bytes", NULL},
    [BEZINKOL_GRAMMAR] = {"it isn't JSON", "at byte"},
    [BEZINKOL_CHARACTER] = {"a string holds what is no character", "at byte"},
    [BEZINKOL_REPEATED_NAME] = {"a name stands twice in one object", "at byte"},
    [BEZINKOL_TOO_DEEP] = {"over 64 arrays and objects stand one inside the other", "at byte"},
    [BEZINKOL_TOO_MANY] = {"there are over 32,768 values", "at byte"},
    [BEZINKOL_SMALL_TABLE] = {"the table has too few rows", "rows needed:"},
    [BEZINKOL_WRONG_KIND] = {"a value is of the wrong kind", "at byte"},
    [BEZINKOL_MISSING] = {"a mandatory member is missing", "in the object at byte"},
    [BEZINKOL_WRONG_VALUE] = {"a value isn't allowed, or a key isn't an Id", "at byte"},
    [BEZINKOL_RULE_BROKEN] = {"members don't go together", "in the object at byte"},
    [BEZINKOL_NO_LANGUAGE] = {"the card has no such language", NULL},
    [BEZINKOL_BAD_KEY] = {"a key of the patch has a ~ without 0 or 1 after it", "at byte"},
    [BEZINKOL_OWN_LOCALIZATIONS] = {"the patch reaches into localizations itself", "by the key at byte"},
    [BEZINKOL_CLASH] = {"one key of the patch covers another", "at byte"},
    [BEZINKOL_IN_ARRAY] = {"a key of the patch goes inside an array", "at byte"},
    [BEZINKOL_NO_OBJECT] = {"a key of the patch goes through what is no object", "at byte"},
    [BEZINKOL_SHORT_OUTPUT] = {"the output is too short", "bytes needed:"},
    [BEZINKOL_INNER_REFUSAL] = {"the localized card would be refused", "with number"},
};

/* Prints a refusal. The number inside 28 is one of the sheet too. */
static int refused(const uint64_t *answer) {
    const struct line *why = &sheet[answer[0]];
    printf("refused %d: %s", (int)answer[0], why->words);
    if (why->second) printf(", %s %d", why->second, (int)answer[1]);
    if (answer[0] == BEZINKOL_INNER_REFUSAL) printf(": %s", sheet[answer[1]].words);
    putchar('\n');
    return 1;
}

int main(int count, char **given) {
    /* A byte more than a text may have: a longer file is then refused with 1, and isn't cut to a text that may be a good one. */
    static uint8_t text[BEZINKOL_MAX_BYTES + 1];
    /* Room for every card, so 7 and 27 can't come. They are static since they'd take much of a stack; a thread would have its own. */
    static uint32_t table[BEZINKOL_TABLE_WORDS];
    static uint8_t out[BEZINKOL_MAX_BYTES];
    uint64_t answer[BEZINKOL_ANSWER_WORDS];

    FILE *file = count == 3 ? fopen(given[1], "rb") : NULL;
    if (!file) return fprintf(stderr, "localize CARD-FILE LANGUAGE\n"), 2;
    size_t size = fread(text, 1, sizeof text, file);
    if (ferror(file)) return fprintf(stderr, "%s can't be read\n", given[1]), 2;
    fclose(file);

    /* Lengths count elements: bytes of the text, words of the table. */
    bezinkol_judge(text, size, table, BEZINKOL_TABLE_WORDS, answer);
    if (answer[0] != BEZINKOL_OK) return refused(answer);
    printf("a card of %d values\n", (int)answer[1]);

    /* Localizing judges by itself; judging before it was for the verdict alone. The table gets the rows of what is in `out`. */
    bezinkol_localize(text, size, (const uint8_t *)given[2], strlen(given[2]), out, sizeof out, table, BEZINKOL_TABLE_WORDS, answer);
    if (answer[0] != BEZINKOL_OK) return refused(answer);
    printf("localized to %s: %d values, %d bytes\n", given[2], (int)answer[1], (int)answer[2]);
    fwrite(out, 1, answer[2], stdout); /* there is no NUL after it */
    putchar('\n');

    /* The table: row 0 is the card. Row 1 is its first member, which every card has, and each member tells the row of the next; the last tells 0. */
    const uint32_t *row;
    for (size_t member = 1; member; member = row[BEZINKOL_ROW_NEXT]) {
        row = table + member * BEZINKOL_ROW_WORDS;
        int name = (int)(row[BEZINKOL_ROW_NAME_END] - row[BEZINKOL_ROW_NAME_START]);
        printf("byte %4d: %.*s\n", (int)row[BEZINKOL_ROW_VALUE_START], name, (const char *)out + row[BEZINKOL_ROW_NAME_START]);
    }
    return 0;
}
