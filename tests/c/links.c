/* Holds the parents and the next siblings of rows to what the other words say: links read|judge|localize|pack <CASES
 *
 * With `read` it reads texts of its own first: some whose rows a person has counted, and some made by chance, up to the limits. Then it makes the calls of
 * the stored cases, and of each that accepts it looks at the rows that are left. */
#include "cases.h"
#include "chance.h"

static const struct text {
    const char *text;
    uint32_t rows, parents[10], next[10];
} texts[] = {
    {"1", 1, {0}, {0}},
    {"[]", 1, {0}, {0}},
    {"{\"a\":[1]}", 3, {0, 0, 1}, {0, 0, 0}},
    {"[1,2]", 3, {0, 0, 0}, {0, 2, 0}},
    {" { \"a\" : { \"b\" : { \"c\" : 1 } } , \"d\" : 2 } ", 5, {0, 0, 1, 2, 0}, {0, 4, 0, 0, 0}},
    {"[[1,2],[3,[4]],5]", 9, {0, 0, 1, 1, 0, 4, 4, 6, 0}, {0, 4, 3, 0, 8, 6, 0, 0, 0}},
    {"[[],{},[[]],{}]", 6, {0, 0, 0, 0, 3, 0}, {0, 2, 3, 5, 0, 0}},
    {"{\"a\":[],\"b\":{\"c\":[],\"d\":{}},\"e\":[]}", 6, {0, 0, 0, 2, 2, 0}, {0, 2, 5, 4, 0, 0}},
    {"[[[[]]],[[]],[]]", 7, {0, 0, 1, 2, 0, 4, 0}, {0, 4, 0, 0, 6, 0, 0}},
    {NULL, 0, {0}, {0}}};

static uint32_t table[BEZINKOL_TABLE_WORDS];
static size_t calls, rows_seen;

static uint32_t word(const uint32_t *rows, size_t row, int which) { return rows[row * BEZINKOL_ROW_WORDS + (size_t)which]; }

static int wrong(const char *why, size_t row) {
    printf("tests/c: row %zu: %s\n", row, why);
    return 1;
}

/* By the places of the values alone: the last array or object that hasn't ended yet is the parent, and the child that it had before gets its next sibling. */
static int by_places(const uint32_t *rows, size_t count) {
    static uint32_t next[BEZINKOL_MAX_VALUES];
    uint32_t open[BEZINKOL_MAX_DEPTH], before[BEZINKOL_MAX_DEPTH];
    size_t depth = 0;
    memset(next, 0, count * sizeof *next);
    for (uint32_t row = 0; row < count; row++) {
        uint32_t start = word(rows, row, BEZINKOL_ROW_VALUE_START);
        while (depth && word(rows, open[depth - 1], BEZINKOL_ROW_VALUE_END) <= start) depth--;
        if (word(rows, row, BEZINKOL_ROW_PARENT) != (depth ? open[depth - 1] : 0)) return wrong("another parent than by its places", row);
        if (depth && before[depth - 1]) next[before[depth - 1]] = row;
        if (depth) before[depth - 1] = row;
        if (word(rows, row, BEZINKOL_ROW_KIND) < BEZINKOL_ARRAY) continue;
        if (depth == BEZINKOL_MAX_DEPTH) return wrong("too deep", row);
        open[depth] = row;
        before[depth++] = 0;
    }
    for (size_t row = 0; row < count; row++)
        if (word(rows, row, BEZINKOL_ROW_NEXT) != next[row]) return wrong("another next sibling than by its places", row);
    return 0;
}

/* By the values below: climbing ends, the children of a row are listed whole and in order, and the next sibling stands behind what is below. */
static int by_counts(const uint32_t *rows, size_t count) {
    size_t children = 0;
    if (word(rows, 0, BEZINKOL_ROW_PARENT) || word(rows, 0, BEZINKOL_ROW_NEXT)) return wrong("the root has a parent or a sibling", 0);
    for (size_t row = 0; row < count; row++) {
        size_t steps = 0, below = word(rows, row, BEZINKOL_ROW_BELOW), next = word(rows, row, BEZINKOL_ROW_NEXT), listed = 0;
        for (size_t up = row; up; up = word(rows, up, BEZINKOL_ROW_PARENT), steps++) {
            if (steps == BEZINKOL_MAX_DEPTH || word(rows, up, BEZINKOL_ROW_PARENT) >= up) return wrong("climbing doesn't end", row);
        }
        if (next && (next != row + 1 + below || word(rows, next, BEZINKOL_ROW_PARENT) != word(rows, row, BEZINKOL_ROW_PARENT)))
            return wrong("the next sibling isn't the row behind it", row);
        for (size_t child = below ? row + 1 : 0; child; child = word(rows, child, BEZINKOL_ROW_NEXT), children++) {
            if (listed >= below || child > row + below || word(rows, child, BEZINKOL_ROW_PARENT) != row) return wrong("its list has what is no child", row);
            listed += 1 + word(rows, child, BEZINKOL_ROW_BELOW);
        }
        if (listed != below) return wrong("its list hasn't all children", row);
    }
    return children == count - 1 ? 0 : wrong("not every row is a child of one", 0);
}

/* The number of rows is part of the answer, so it is held to the table first. */
static int check(const uint32_t *rows, size_t words, uint64_t count) {
    if (!count || count > words / BEZINKOL_ROW_WORDS || count > BEZINKOL_MAX_VALUES) return wrong("the row count can't be", (size_t)count);
    calls++;
    rows_seen += count;
    return by_places(rows, count) || by_counts(rows, count);
}

/* Reads a text, and checks that it has so many rows, or at least one where that is 0. */
static int read_own(const char *text, size_t size, size_t rows) {
    uint64_t answer[BEZINKOL_ANSWER_WORDS];
    uint8_t *lent_text = lent(text, size);
    memset(table, 255, sizeof table);
    bezinkol_read(lent_text, size, table, BEZINKOL_TABLE_WORDS, answer);
    free(lent_text);
    if (answer[0] || (rows && answer[1] != rows)) return wrong("a text of the test is refused, or has other rows", (size_t)answer[1]);
    return check(table, BEZINKOL_TABLE_WORDS, answer[1]);
}

static int own_texts(void) {
    static char text[BEZINKOL_MAX_BYTES];
    for (const struct text *one = texts; one->text; one++) {
        if (read_own(one->text, strlen(one->text), one->rows)) return 1;
        for (size_t row = 0; row < one->rows; row++) {
            if (word(table, row, BEZINKOL_ROW_PARENT) != one->parents[row] || word(table, row, BEZINKOL_ROW_NEXT) != one->next[row])
                return wrong("another parent or sibling than a person counted", row);
        }
    }
    for (size_t i = 0; i < 400; i++) {
        size_t values = 1 + dice(300);
        if (read_own(text, by_chance(text, values, 1 + dice(6)), values)) return 1;
    }
    for (uint32_t ends = 1; ends < 8; ends++)
        if (read_own(text, by_chance(text, BEZINKOL_MAX_VALUES, ends), BEZINKOL_MAX_VALUES)) return 1;
    return 0;
}

int main(int count, char **given) {
    if (count != 2) return 2;
    char service = *given[1];
    if (service == 'r' && own_texts()) return 1;
    for (const char *line; (line = next_line());) {
        struct call c = call_of(service, line);
        make(&c);
        if (!c.answer[0] && check(c.table, c.words, c.answer[1])) {
            printf("tests/c: bezinkol_%s: %.300s\n", given[1], line);
            return 1;
        }
        give_back(&c);
    }
    printf("tests/c: bezinkol_%s: the parents and next siblings of %zu rows, in %zu tables, go with their other words\n", given[1], rows_seen, calls);
    return 0;
}
