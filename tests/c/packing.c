/* Holds packing and unpacking to the second implementation and to each other: packing <CASES
 *
 * A line of the cases is one of
 *   NUMBER SECOND WRITTEN SUM TEXT   what packing answers a text, and a sum of the packing; UNTOLD where the second implementation wasn't asked
 *   ~PACKING                         a packing, or what is none, and in the line below what of it and of that near it (`near`) can be unpacked
 *   .INDEX VALUES BYTES SUM ..       with a sum of the compact text; all else is 53
 * Each text is packed, unpacked and packed again. Then the same is done with texts made by chance, and bytes made by chance are unpacked. What is lent is
 * filled with ones before a call and looked at wholly after it, with marks on either side. */
#include "cases.h"
#include "chance.h"

#define UNTOLD 99
#define PAD 64
#define MARK 0xa5
#define MARK_WORD 0xa5a5a5a5u
#define MARK_LONG 0xa5a5a5a5a5a5a5a5u
#define WIDEST 65535
#define SHORT_TEXTS 40000 /* made by chance */
#define LONG_TEXTS 40
#define ANY_BYTES 3000000 /* made by chance, and unpacked */

struct told {
    uint64_t number, second, written;
};

/* An output, with room for marks on either side of what is lent of it. */
struct output {
    uint8_t before[PAD], bytes[ROOM + PAD];
};

static struct output first, second, third;
static uint32_t table[PAD + BEZINKOL_TABLE_WORDS + PAD];
static const uint8_t *given; /* that a call is about at the moment */
static size_t given_size, calls, accepted;

static void hold(int good, const char *why) {
    if (good) return;
    printf("tests/c: packing: %s: %zu bytes, ", why, given_size);
    for (size_t i = 0; i < given_size && i < 300; i++) printf(given[i] > 31 && given[i] < 127 && given[i] != '%' ? "%c" : "%%%02x", given[i]);
    putchar('\n');
    exit(1);
}

static void fill(struct output *out, size_t room) {
    memset(out->before, MARK, PAD);
    memset(out->bytes, 255, room);
    memset(out->bytes + room, MARK, PAD);
}

/* Behind what is used all is zero, and the marks are there. */
static void look(const struct output *out, size_t room, size_t used) {
    hold(used <= room, "more was written than there is room for");
    int same = 1;
    for (size_t i = 0; i < PAD; i++) same &= out->before[i] == MARK && out->bytes[room + i] == MARK;
    hold(same, "a call wrote beside the output");
    for (size_t i = used; i < room; i++) same &= !out->bytes[i];
    hold(same, "what is unused of the output isn't zero");
}

static void fill_table(size_t words) {
    for (size_t i = 0; i < PAD; i++) table[i] = table[PAD + words + i] = MARK_WORD;
    memset(table + PAD, 255, words * sizeof *table);
}

static void look_at_table(size_t words, size_t used) {
    hold(used <= words, "more rows than there is room for");
    int same = 1;
    for (size_t i = 0; i < PAD; i++) same &= table[i] == MARK_WORD && table[PAD + words + i] == MARK_WORD;
    hold(same, "a call wrote beside the table");
    for (size_t i = used; i < words; i++) same &= !table[PAD + i];
    hold(same, "what is unused of the table isn't zero");
}

static struct told pack(const uint8_t *text, size_t size, struct output *out, size_t room, size_t words) {
    uint64_t answer[BEZINKOL_ANSWER_WORDS + 1] = {9, 9, 9, MARK_LONG};
    fill(out, room);
    fill_table(words);
    bezinkol_pack(text, size, out->bytes, room, table + PAD, words, answer);
    calls++;
    struct told t = {answer[0], answer[1], answer[2]};
    hold(answer[3] == MARK_LONG, "a call wrote beside the answer");
    hold(t.number <= 7 || t.number == BEZINKOL_TOO_WIDE || t.number == BEZINKOL_SHORT_STORE, "packing gives a number that it hasn't");
    hold(!t.number || !t.written, "a refusal has a third number");
    hold(t.number != BEZINKOL_TOO_WIDE || !t.second, "51 has a second number");
    hold(t.number != BEZINKOL_SHORT_STORE || (t.second > room && t.second <= BEZINKOL_MAX_PACKED), "52 where there is room, or for too much");
    look(out, room, t.number ? 0 : t.written);
    look_at_table(words, t.number ? 0 : t.second * BEZINKOL_ROW_WORDS);
    return t;
}

static struct told unpacked(const uint8_t *packed, size_t size, struct output *out, size_t room) {
    uint64_t answer[BEZINKOL_ANSWER_WORDS + 1] = {9, 9, 9, MARK_LONG};
    fill(out, room);
    bezinkol_unpack(packed, size, out->bytes, room, answer);
    calls++;
    struct told t = {answer[0], answer[1], answer[2]};
    hold(answer[3] == MARK_LONG, "a call wrote beside the answer");
    hold(!t.number || t.number == BEZINKOL_SHORT_STORE || t.number == BEZINKOL_NOT_PACKED, "unpacking gives a number that it hasn't");
    hold(!t.number || !t.written, "a refusal has a third number");
    hold(t.number != BEZINKOL_NOT_PACKED || !t.second, "53 has a second number");
    hold(t.number != BEZINKOL_SHORT_STORE || (t.second > room && t.second <= BEZINKOL_MAX_UNPACKED), "52 where there is room, or for too much");
    look(out, room, t.number ? 0 : t.written);
    return t;
}

static int is(struct told t, uint64_t number, uint64_t then, uint64_t written) { return t.number == number && t.second == then && t.written == written; }

/* The words of a table that has room for any text of so many bytes. */
static size_t words_for(size_t size) {
    size_t words = (size / 2 + 1) * BEZINKOL_ROW_WORDS;
    return words < BEZINKOL_TABLE_WORDS ? words : BEZINKOL_TABLE_WORDS;
}

static struct told reading(const uint8_t *text, size_t size, uint32_t *rows) {
    uint64_t answer[BEZINKOL_ANSWER_WORDS];
    bezinkol_read(text, size, rows, words_for(size), answer);
    return (struct told){answer[0], answer[1], 0};
}

/* Do the fields of a packing go with the rows of its text? Returns the place behind the field of a row, which has a name where it stands in an object. */
static size_t by_rows(const uint8_t *packed, size_t at, size_t end, const uint32_t *rows, size_t row, int named) {
    const uint32_t *one = rows + row * BEZINKOL_ROW_WORDS;
    for (int value = !named; value < 2; value++) {
        hold(at + 3 <= end, "a head goes beyond what it stands in");
        size_t inside = at + 3, after = inside + packed[at + 1] * 256u + packed[at + 2];
        hold(after <= end, "a content goes beyond what it stands in");
        hold(packed[at] == (value ? one[BEZINKOL_ROW_KIND] : 8), "a field has another tag than its row has a kind");
        at = after;
        if (!value) continue;
        if (one[BEZINKOL_ROW_KIND] < BEZINKOL_NUMBER) hold(inside == after, "there is a content in a word");
        if (one[BEZINKOL_ROW_KIND] == BEZINKOL_NUMBER) hold(after - inside == one[BEZINKOL_ROW_VALUE_END] - one[BEZINKOL_ROW_VALUE_START], "other digits");
        if (one[BEZINKOL_ROW_KIND] < BEZINKOL_ARRAY) continue;
        for (size_t child = one[BEZINKOL_ROW_BELOW] ? row + 1 : 0; child; child = rows[child * BEZINKOL_ROW_WORDS + BEZINKOL_ROW_NEXT])
            inside = by_rows(packed, inside, after, rows, child, one[BEZINKOL_ROW_KIND] == BEZINKOL_OBJECT);
        hold(inside == after, "the fields of a container don't fill it");
    }
    return at;
}

/* Unpacks what was packed, with too little room and with enough, reads that, and packs it again. Returns the bytes of the compact text, in `second`. */
static size_t and_back(const uint8_t *packed, size_t size, uint64_t rows) {
    static uint32_t own[BEZINKOL_TABLE_WORDS];
    struct told t = unpacked(packed, size, &second, 0);
    hold(t.number == BEZINKOL_SHORT_STORE, "what was packed can't be unpacked");
    size_t needed = t.second;
    hold(is(unpacked(packed, size, &second, needed - 1), BEZINKOL_SHORT_STORE, needed, 0), "52 with a byte too little");
    hold(is(unpacked(packed, size, &second, needed + 5), 0, rows, needed), "with more room another answer");
    hold(is(unpacked(packed, size, &second, needed), 0, rows, needed), "with just enough room another answer");
    hold(is(reading(second.bytes, needed, own), 0, rows, 0), "the unpacked text isn't read to as many rows");
    hold(is(pack(second.bytes, needed, &third, size, words_for(needed)), 0, rows, size), "the unpacked text isn't packed");
    hold(!memcmp(third.bytes, packed, size), "the unpacked text has another packing");
    return needed;
}

/* A text that reading accepts and that isn't too wide. */
static void good_text(const uint8_t *text, size_t size, uint64_t rows, size_t needed, const uint32_t *read_rows) {
    size_t words = words_for(size), few = rows * BEZINKOL_ROW_WORDS;
    hold(is(pack(text, size, &first, needed - 1, few), BEZINKOL_SHORT_STORE, needed, 0), "52 with a byte too little");
    hold(is(pack(text, size, &first, needed, few - 1), BEZINKOL_SMALL_TABLE, rows, 0), "7 with a word too little");
    hold(is(pack(text, size, &first, needed + 5, words), 0, rows, needed), "with more room another answer");
    hold(is(pack(text, size, &first, needed, words), 0, rows, needed), "with just enough room another answer");
    hold(!memcmp(table + PAD, read_rows, words * sizeof *table), "other rows than reading leaves");
    hold(by_rows(first.bytes, 0, needed, read_rows, 0, 0) == needed, "the fields don't fill the packing");
    hold(and_back(first.bytes, needed, rows) <= size, "the compact text is longer");
    accepted++;
}

/* Packs a text in all these ways. Returns what is answered with room enough. */
static struct told try_text(const uint8_t *text, size_t size) {
    static uint32_t rows[BEZINKOL_TABLE_WORDS];
    given = text, given_size = size;
    struct told r = reading(text, size, rows), t = pack(text, size, &first, 0, words_for(size));
    if (r.number) {
        hold(is(t, r.number, r.second, 0), "reading says otherwise");
        hold(is(pack(text, size, &first, 40, words_for(size)), r.number, r.second, 0), "with more room another refusal");
        return t;
    }
    hold(t.number == BEZINKOL_TOO_WIDE || t.number == BEZINKOL_SHORT_STORE, "an empty output is taken");
    if (t.number == BEZINKOL_TOO_WIDE) {
        hold(is(pack(text, size, &first, ROOM - PAD, words_for(size)), BEZINKOL_TOO_WIDE, 0, 0), "too wide, but not with more room");
        hold(is(pack(text, size, &first, 0, r.second * BEZINKOL_ROW_WORDS - 1), BEZINKOL_SMALL_TABLE, r.second, 0), "51 before 7");
        return t;
    }
    good_text(text, size, r.second, t.second, rows);
    return (struct told){0, r.second, t.second};
}

/* What is near a packing, by its index, is written to `out`: each byte changed in CHANGES ways, then cut at each place, without each byte, with a byte more
 * before each and at the end. Returns its size, or -1 behind the last. */
#define CHANGES 12
static ptrdiff_t near(const uint8_t *packed, size_t size, size_t index, uint8_t *out) {
    static const uint8_t changes[CHANGES] = {1, 2, 4, 8, 16, 32, 64, 128, 3, 7, 15, 255}, more[] = {0, 1, 5, 8, 34, 49, 128, 255};
    if (index == 0) return memcpy(out, packed, size), (ptrdiff_t)size;
    index--;
    memcpy(out, packed, size);
    if (index < size * CHANGES) return out[index / CHANGES] ^= changes[index % CHANGES], (ptrdiff_t)size;
    index -= size * CHANGES;
    if (index < size) return (ptrdiff_t)index;
    index -= size;
    if (index < size) return memmove(out + index, packed + index + 1, size - index - 1), (ptrdiff_t)size - 1;
    index -= size;
    if (index >= (size + 1) * sizeof more) return -1;
    size_t at = index / sizeof more;
    memcpy(out + at + 1, packed + at, size - at);
    out[at] = more[index % sizeof more];
    return (ptrdiff_t)size + 1;
}

/* Unpacks any bytes; what is accepted must be what packing writes. */
static struct told try_bytes(const uint8_t *bytes, size_t size) {
    given = bytes, given_size = size;
    struct told t = unpacked(bytes, size, &second, 0);
    if (t.number == BEZINKOL_NOT_PACKED) return t;
    uint64_t needed = t.second;
    t = unpacked(bytes, size, &second, needed);
    hold(is(t, 0, t.second, needed), "with just enough room it isn't accepted");
    and_back(bytes, size, t.second);
    accepted++;
    return t;
}

/* The packing of a line and what is near it. Returns how many calls for each there were. */
static size_t near_case(const char *line) {
    static uint8_t packed[ROOM], other[ROOM];
    size_t size = unpack(&line, 0, packed), index = 0;
    const char *answers = next_line();
    if (!answers || *answers++ != '.') abort();
    size_t next = *answers ? number(&answers) : SIZE_MAX;
    for (ptrdiff_t bytes; (bytes = near(packed, size, index, other)) >= 0; index++) {
        uint8_t *own = lent(other, (size_t)bytes);
        struct told t = try_bytes(own, (size_t)bytes);
        if (index == next) {
            size_t values = number(&answers), written = number(&answers);
            hold(is(t, 0, values, written), "the second implementation accepts it, or with other numbers");
            hold(sum_of_bytes(second.bytes, written) == number(&answers), "the second implementation has another text");
            next = *answers ? number(&answers) : SIZE_MAX;
        } else {
            hold(is(t, BEZINKOL_NOT_PACKED, 0, 0), "the second implementation refuses it");
        }
        free(own);
    }
    return index;
}

static void cases(void) {
    static uint8_t room[ROOM];
    size_t texts = 0, packings = 0, good = 0;
    for (const char *line; (line = next_line());) {
        if (*line == '~') {
            packings += near_case(line + 1);
            continue;
        }
        struct told t;
        t.number = number(&line), t.second = number(&line), t.written = number(&line);
        uint64_t sum = number(&line);
        size_t size = unpack(&line, 0, room);
        uint8_t *own = lent(room, size);
        struct told said = try_text(own, size);
        good += !said.number;
        hold(t.number == UNTOLD || is(said, t.number, t.second, t.written), "the second implementation says otherwise");
        hold(t.number || sum_of_bytes(first.bytes, t.written) == sum, "the second implementation has another packing");
        free(own);
        texts++;
    }
    if (!texts || !packings) exit(1);
    printf("tests/c: packing answers %zu texts as the second implementation and reading do; %zu are accepted, unpacked and packed again\n", texts, good);
    printf("tests/c: unpacking answers %zu packings and what is near them as the second implementation does, in %zu calls\n", packings, calls);
}

/* Strings, names and numbers about the widest content; the same with the content in arrays. */
static void widest(void) {
    static uint8_t text[ROOM];
    static const char *const forms[][3] = {{"\"", "a", "\""}, {"", "1", ""}, {"{\"", "n", "\":null}"}, {"[[\"", "a", "\"]]"}, {"\"", "\xc3\xa9", "\""},
        {"\"", "\\n", "\""}, {"\"", "\\u0001", "\""}, {"{\"k\":\"", "\\ud83d\\ude00", "\"}"}, {"[", "null,", "null]"}};
    static const size_t around[] = {0, 0, 6, 6, 0, 0, 0, 7, 3}, each[] = {1, 1, 1, 1, 2, 1, 1, 4, 3};
    for (size_t form = 0; form < sizeof forms / sizeof *forms; form++) {
        size_t most = (WIDEST - around[form]) / each[form];
        for (size_t count = most - 1; count <= most + 1; count++) {
            size_t size = strlen(forms[form][0]), one = strlen(forms[form][1]), end = strlen(forms[form][2]);
            memcpy(text, forms[form][0], size);
            for (size_t i = 0; i < count; i++, size += one) memcpy(text + size, forms[form][1], one);
            memcpy(text + size, forms[form][2], end);
            struct told t = try_text(text, size + end);
            hold(count > most ? t.number == BEZINKOL_TOO_WIDE : t.number == 0, "another answer about the widest content");
            hold(count != most || t.written == around[form] + each[form] * most + 3, "the widest packing has another length");
        }
    }
}

/* A head by chance, mostly a short one. */
static size_t any_head(uint8_t *out, size_t left) {
    out[0] = (uint8_t)(dice(16) ? 1 + dice(8) : dice(256));
    out[1] = (uint8_t)(dice(64) ? 0 : dice(256));
    out[2] = (uint8_t)(dice(4) ? dice((uint32_t)left + 1) : dice(8));
    return 3;
}

/* Bytes by chance: any, or fields by chance, or a packing with some bytes changed. */
static size_t any_bytes(uint8_t *out) {
    static const char some[] = "0123.-eE+\"\\/a\n\x01\x1f\x7f\xc3\xa9\xed\xa0\x80\xef\xbf\xbe\xf0\x9f\x98\x80";
    size_t size = dice(40), at = 0;
    if (dice(8) == 0) {
        for (; at < size; at++) out[at] = (uint8_t)dice(256);
        return size;
    }
    while (at + 3 < size) {
        size_t head = at;
        at += any_head(out + at, size - at - 3);
        if (out[head] < 6 || out[head] == 8)
            for (size_t left = dice(4) ? out[head + 2] : dice(3); left && at < size; left--) out[at++] = (uint8_t)some[dice(sizeof some - 1)];
    }
    if (size >= 3 && dice(4)) out[1] = 0, out[2] = (uint8_t)(at - 3);
    return at;
}

/* Words, numbers and small containers one in the other by chance, which are packings for the most part. Returns the size. */
static size_t any_fields(uint8_t *out, uint32_t depth) {
    static const char *const leaves[] = {"\1", "\2", "\3", "\0040", "\4-1", "\0041e5", "\4-0.50", "\5", "\5a", "\5\n\x01", "\5\xc3\xa9", "\5\"\\", "\00401",
        "\5\xed\xa0\x80"}; /* a tag and a content; the last two are none */
    uint32_t which = dice(depth ? 22 : 13 + !dice(8));
    size_t size = 3;
    if (which < 14) {
        size_t inside = strlen(leaves[which]) - 1;
        memcpy(out + 3, leaves[which] + 1, inside);
        out[0] = (uint8_t)leaves[which][0], size += inside;
    } else {
        out[0] = which % 2 ? 6 : 7;
        for (uint32_t left = dice(4); left; left--) {
            if (out[0] == 7) out[size] = 8, out[size + 1] = 0, out[size + 2] = 1, out[size + 3] = (uint8_t)('a' + dice(6)), size += 4;
            size += any_fields(out + size, depth - 1);
        }
    }
    out[1] = (uint8_t)((size - 3) / 256), out[2] = (uint8_t)((size - 3) % 256);
    return size;
}

/* Bytes by chance. What is accepted must be what packing writes, and a fair part should be. */
static void by_bytes(void) {
    static uint8_t room[ROOM];
    accepted = 0;
    for (size_t i = 0; i < ANY_BYTES; i++) {
        size_t size = i % 4 ? any_bytes(room) : any_fields(room, 1 + dice(4));
        if (i % 8 == 4 && size) room[dice((uint32_t)size)] ^= (uint8_t)(1 << dice(8));
        try_bytes(room, size);
    }
    hold(accepted > ANY_BYTES / 20, "hardly any bytes made by chance are accepted");
    printf("tests/c: any bytes unpacked, %d times; %zu were packings and are packed to the same bytes\n", ANY_BYTES, accepted);
}

/* Texts by chance; a long one may be too wide. */
static void by_texts(void) {
    static uint8_t text[BEZINKOL_MAX_BYTES];
    accepted = 0;
    for (size_t i = 0; i < SHORT_TEXTS + LONG_TEXTS; i++) {
        size_t values = i < SHORT_TEXTS ? 1 + dice(40) : 1 + dice(BEZINKOL_MAX_VALUES / 2), size = by_chance((char *)text, values, 1 + dice(6));
        struct told t = try_text(text, size);
        hold(t.number ? t.number == BEZINKOL_TOO_WIDE && i >= SHORT_TEXTS : t.second == values, "a text made by chance is refused, or has other rows");
    }
    printf("tests/c: and %d texts made by chance, of which %zu are accepted\n", SHORT_TEXTS + LONG_TEXTS, accepted);
}

int main(void) {
    cases();
    widest();
    by_texts();
    by_bytes();
    return 0;
}
