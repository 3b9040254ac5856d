/* Chance that is the same in every run, and texts made by it. Include cases.h before. */
static uint64_t chance = 9;

static inline uint32_t dice(uint32_t below) {
    chance = chance * 6364136223846793005u + 1442695040888963407u;
    return (uint32_t)(chance >> 33) % below;
}

/* Writes a text of so many values by chance; before each of them a container ends one time in `ends`, and maybe another: the fewer end, the deeper it
 * gets. Returns its length, which is below 30 bytes a value. */
static inline size_t by_chance(char *out, size_t values, uint32_t ends) {
    static const char *const leaves[] = {"0", "null", "\"\"", "-1.5", "true", "false", "20e+3", "\"\\ud83d\\uDE00\"", "\"\xc3\xa9\xe2\x82\xac\\n\"",
        "\"\xf0\x9f\x98\x80x\"", "[]", "{}"}; /* the two containers last: at the greatest depth there are none */
    char close[BEZINKOL_MAX_DEPTH];
    size_t size = 0, depth = 0;
    int first = 1;
    out[size++] = '[', close[depth++] = ']';
    for (size_t i = 1; i < values; i++) {
        while (depth > 1 && dice(ends) == 0) out[size++] = close[--depth], first = 0;
        if (!first) out[size++] = ',';
        if (close[depth - 1] == '}') size += (size_t)sprintf(out + size, "\"%zu\":", i);
        first = depth < BEZINKOL_MAX_DEPTH && dice(2);
        if (first) {
            int object = (int)dice(2);
            out[size++] = object ? '{' : '[', close[depth++] = object ? '}' : ']';
        } else {
            size += (size_t)sprintf(out + size, "%s", leaves[dice(depth < BEZINKOL_MAX_DEPTH ? 12 : 10)]);
        }
    }
    while (depth) out[size++] = close[--depth];
    return size;
}
