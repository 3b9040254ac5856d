/* Holds reading in pieces to whole reading: pieces <CASES
 *
 * A case is an answer, after how many bytes it comes (0: at the end) and a text; the number is UNTOLD where the second implementation wasn't asked. Each text
 * is read byte by byte, cut in two, and in pieces by chance. Then the same is done with texts made by chance, and calls are made with any words as state. */
#include "cases.h"
#include "chance.h"

#define UNTOLD 99
#define EVERY 2000  /* a text of at most so many bytes is cut in two at every place */
#define CUT 4000000 /* bytes that are read where a longer one is cut near one of its ends, or between: the longer it is, the fewer places */
#define BESIDE 0xa5a5a5a5a5a5a5a5u
#define SHORT_TEXTS 60000 /* made by chance */
#define LONG_TEXTS 60
#define STATES 300000

/* An answer, and after how many bytes of the text it comes: 0 for the end. */
struct told {
    uint64_t number, second;
    size_t after;
};

/* What a call is lent, with a word on either side that it must leave. */
struct reader {
    uint32_t before, state[BEZINKOL_PIECES_WORDS], behind;
    uint64_t answer[BEZINKOL_ANSWER_WORDS], last;
};

static const uint8_t *text; /* that is read at the moment */
static size_t size, calls, repeated;

static void hold(int good, const char *why, size_t at) {
    if (good) return;
    printf("tests/c: reading in pieces: %s, at byte %zu of the %zu of ", why, at, size);
    for (size_t i = 0; i < size && i < 300; i++) printf(text[i] > 31 && text[i] < 127 && text[i] != '%' ? "%c" : "%%%02x", text[i]);
    putchar('\n');
    exit(1);
}

/* The words of a state need not be cleared, so they are filled with something. */
static void begin(struct reader *r) {
    memset(r, 0xa5, sizeof *r);
    bezinkol_pieces_start(r->state);
    hold(r->before == (uint32_t)BESIDE && r->behind == (uint32_t)BESIDE, "the start wrote beside its words", 0);
}

/* Gives a piece, or with NULL tells the end. With `still` no word of the state may change. */
static void call(struct reader *r, const uint8_t *piece, size_t bytes, int still, size_t at) {
    uint32_t was[BEZINKOL_PIECES_WORDS];
    memcpy(was, r->state, sizeof was);
    memset(r->answer, 0xa5, sizeof r->answer);
    if (piece) bezinkol_pieces_take(r->state, piece, bytes, r->answer);
    else bezinkol_pieces_end(r->state, r->answer);
    calls++;
    hold(r->before == (uint32_t)BESIDE && r->behind == (uint32_t)BESIDE && r->last == BESIDE, "a call wrote beside what it was lent", at);
    uint64_t said = r->answer[0];
    hold((said <= 3 || said == 5 || said == 6) && !r->answer[2], "an answer that there isn't", at);
    hold(!still || !memcmp(was, r->state, sizeof was), "a call changed the state that may not", at);
}

static void answered(const struct reader *r, uint64_t number, uint64_t second, size_t at) {
    hold(r->answer[0] == number && r->answer[1] == second, "another answer", at);
}

/* Gives a part of the text. A short one is a copy that ends where it ends, so that a checker of memory sees a step beyond. */
static void give(struct reader *r, const struct told *t, size_t from, size_t to) {
    int was = t->after && from >= t->after, is = t->after && to >= t->after;
    uint8_t *own = to - from < 64 ? lent(text + from, to - from) : NULL;
    call(r, own ? own : text + from, to - from, was || from == to, to);
    free(own);
    answered(r, is ? t->number : 0, is ? t->second : 0, to);
}

/* Tells the end, and goes on after it: nothing changes any more. */
static void finish(struct reader *r, const struct told *t) {
    call(r, NULL, 0, t->after != 0, size);
    answered(r, t->number, t->second, size);
    const size_t more[] = {0, 1, size < 3000 ? size : 3000, 0};
    for (int i = 0; i < 4; i++) {
        if (more[i] > size) continue;
        call(r, i < 3 ? text : NULL, more[i], 1, size);
        answered(r, t->number, t->second, size);
    }
}

/* Byte by byte, to find when there is an answer and which; in short texts with an empty piece behind each byte. */
static struct told by_bytes(void) {
    struct told t = {0, 0, 0};
    struct reader r, ended;
    begin(&r);
    for (size_t at = 0; at < size && !t.after; at++) {
        call(&r, text + at, 1, 0, at);
        if (r.answer[0]) t = (struct told){r.answer[0], r.answer[1], at + 1};
        else answered(&r, 0, 0, at);
        if (size > EVERY) continue;
        call(&r, text + at, 0, 1, at);
        answered(&r, t.number, t.second, at);
    }
    if (!t.after) {
        ended = r;
        call(&ended, NULL, 0, 0, size);
        t = (struct told){ended.answer[0], ended.answer[1], 0};
    }
    finish(&r, &t);
    return t;
}

static void cut_in_two(const struct told *t, size_t at) {
    struct reader r;
    begin(&r);
    give(&r, t, 0, at);
    give(&r, t, at, size);
    finish(&r, t);
}

/* In two at every place, and of a long text at both ends and between. */
static void cut_at_places(const struct told *t) {
    size_t most = CUT / (size + 1), edge = size <= EVERY ? size : most > 300 ? 300 : most < 20 ? 20 : most;
    for (size_t at = 0; at <= edge; at++) cut_in_two(t, at);
    if (size <= EVERY) return;
    for (size_t at = 0; at <= edge; at++) {
        cut_in_two(t, size - at);
        cut_in_two(t, dice((uint32_t)size));
    }
}

/* In pieces of at most so many bytes, of which some are empty; now and then the state goes on as a copy. */
static void cut_by_chance(const struct told *t, size_t most) {
    struct reader r, other;
    begin(&r);
    for (size_t at = 0, more; at < size; at += more) {
        more = dice(4) ? dice((uint32_t)most + 1) : 0;
        if (more > size - at) more = size - at;
        if (!dice(8)) {
            begin(&other);
            memcpy(other.state, r.state, sizeof r.state);
            memset(&r, 255, sizeof r);
            r = other;
        }
        give(&r, t, at, at + more);
    }
    finish(&r, t);
}

static struct told by_reading(const uint8_t *bytes, size_t count) {
    static uint32_t table[BEZINKOL_TABLE_WORDS];
    uint64_t answer[BEZINKOL_ANSWER_WORDS];
    size_t words = (count / 2 + 1) * BEZINKOL_ROW_WORDS;
    bezinkol_read(bytes, count, table, words < BEZINKOL_TABLE_WORDS ? words : BEZINKOL_TABLE_WORDS, answer);
    return (struct told){answer[0], answer[1], 0};
}

/* Whole reading looks at the length first and compares names. In all else it says the same; and but for 3, which may wait for up to 11 bytes, the
 * byte at fault brings the answer. */
static void agree(const struct told *t) {
    struct told whole = by_reading(text, size);
    if (whole.number == BEZINKOL_REPEATED_NAME) {
        repeated++;
        hold(!t->number || t->second > whole.second, "it is refused before a repeated name", t->after);
    } else if (whole.number == BEZINKOL_TOO_LONG) {
        hold(t->number == BEZINKOL_TOO_LONG ? !t->second && t->after == BEZINKOL_MAX_BYTES + 1 : t->after && t->after <= BEZINKOL_MAX_BYTES,
            "a text that is too long isn't refused as it should be", t->after);
    } else {
        hold(t->number == whole.number && t->second == whole.second, "whole reading says otherwise", t->after);
    }
    if (!t->number || t->number == BEZINKOL_TOO_LONG) return;
    if (t->second == size) hold(!t->after, "refused at its end, before the end", t->after);
    else if (t->number == BEZINKOL_CHARACTER)
        hold(!t->after || (t->after > t->second && t->after <= t->second + 12), "a 3 comes too early or too late", t->after);
    else hold(t->after == t->second + 1, "the byte at fault doesn't bring the answer", t->after);
}

/* Reads the text in all these ways. */
static struct told read_cut(int rounds) {
    struct told t = by_bytes();
    agree(&t);
    cut_at_places(&t);
    for (int i = 0; i < rounds; i++) cut_by_chance(&t, size < 100 || i == 0 ? 1 + dice(12) : 1 + dice((uint32_t)size / 4 + 1));
    return t;
}

/* The texts of the cases. Returns how many there are. */
static size_t case_texts(void) {
    static uint8_t room[ROOM];
    size_t texts = 0;
    for (const char *line; (line = next_line()); texts++) {
        struct told given;
        given.number = number(&line), given.second = number(&line), given.after = number(&line);
        size = unpack(&line, 0, room);
        uint8_t *own = lent(room, size);
        text = own;
        struct told t = read_cut(3);
        hold(given.number == UNTOLD || (given.number == t.number && given.second == t.second && given.after == t.after),
            "the second implementation says otherwise", t.after);
        hold(given.number != UNTOLD || by_reading(text, size).number == t.number, "nobody tells the answer", t.after);
        free(own);
    }
    return texts;
}

/* What may follow, beside each byte alone: the rest of an escape or of a character that is open. */
static const char *const following[] = {"\\n", "\\uDC00", "uDC00", "DC00", "C00", "00", "\x80\x80", "\xa0\x80", "\x9f\xbf", "\x80\x80\x80",
    "\x90\x80\x80", "\xbf\xbf\xbd", "\\uDC00\"", "\x80\"", "\\uD800", "u0041", NULL};

static int differs(const struct told *t, const uint8_t *bytes, size_t count) {
    struct told now = by_reading(bytes, count);
    return now.number != t->number || now.second != t->second;
}

/* Has a beginning a refusal that nothing of that changes? */
static int certain(size_t count) {
    static uint8_t longer[ROOM];
    struct told first = by_reading(text, count);
    if (!first.number) return 0;
    memcpy(longer, text, count);
    for (int byte = 0; byte < 256; byte++) {
        longer[count] = (uint8_t)byte;
        if (differs(&first, longer, count + 1)) return 0;
    }
    for (const char *const *more = following; *more; more++) {
        memcpy(longer + count, *more, strlen(*more));
        if (differs(&first, longer, count + strlen(*more))) return 0;
    }
    return 1;
}

/* Holds the byte that brought an answer to whole reading alone. Where that compares names it says too little. */
static void in_time(const struct told *t) {
    if (by_reading(text, size).number == BEZINKOL_REPEATED_NAME) return;
    hold(!t->after || certain(t->after), "it is refused though it isn't certain", t->after);
    hold(!certain(t->after ? t->after - 1 : size), "it goes on though a refusal is certain", t->after);
}

static const char *const alphabets[] = {NULL, "[]{},: \"a1", "-0123.eE+, ", "\"\\u0dDcCfF89bn", "truefalsn,[ ",
    "\x80\x8f\x90\x9f\xa0\xbd\xbe\xbf\xb7\xc2\xdf\xe0\xe1\xed\xef\xf0\xf3\xf4\""};

/* A byte by chance: any, or one of an alphabet. */
static uint8_t any_byte(const char *of) { return (uint8_t)(of ? of[dice((uint32_t)strlen(of))] : (char)dice(256)); }

/* Bytes by chance behind the beginning of a text. Returns their number. */
static size_t random_bytes(uint8_t *out) {
    static const char *const begun[] = {"", "", "[", "{", "\"", "[\"", "{\"", "{\"a\":", "{\"a\":1,", "[1,", "[-", "[1e", "[t", "[[],{}", "\"\\u", "\"\\ud83f",
        "\"\\ud83f\\u", "\"\\uDBFF\\udf", "\"\xe2", "\"\xf0\x9f"};
    const char *head = begun[dice(sizeof begun / sizeof *begun)], *of = alphabets[dice(sizeof alphabets / sizeof *alphabets)];
    size_t count = strlen(head), most = count + 1 + dice(40);
    memcpy(out, head, count);
    for (; count < most; count++) out[count] = any_byte(of);
    return count;
}

/* A good text by chance with a few bytes changed, put in or taken out, or cut off. */
static size_t damaged(uint8_t *out, size_t values) {
    size_t count = by_chance((char *)out, 1 + dice((uint32_t)values), 1 + dice(6));
    for (uint32_t left = dice(4); left && count > 2; left--) {
        size_t at = dice((uint32_t)count);
        uint32_t how = dice(3);
        if (how == 0) memmove(out + at, out + at + 1, count-- - at - 1);
        if (how == 1) memmove(out + at + 1, out + at, count++ - at);
        if (how) out[at] = any_byte(alphabets[dice(sizeof alphabets / sizeof *alphabets)]);
    }
    return dice(3) ? count : dice((uint32_t)count + 1);
}

/* Texts by chance: many short ones, which are held to what may follow too, and some of many values. Returns their bytes. */
static size_t own_texts(void) {
    static uint8_t room[ROOM];
    size_t bytes = 0;
    for (int i = 0; i < SHORT_TEXTS; i++, bytes += size) {
        size = i % 2 ? random_bytes(room) : damaged(room, 24);
        uint8_t *own = lent(room, size);
        text = own;
        struct told t = read_cut(2);
        if (i % 4 < 2) in_time(&t);
        free(own);
    }
    for (int i = 0; i < LONG_TEXTS; i++, bytes += size) {
        size = damaged(room, BEZINKOL_MAX_VALUES / (1u << i % 8));
        text = room;
        struct told t = by_bytes();
        agree(&t);
        for (int j = 0; j < 6; j++) cut_by_chance(&t, 1 + dice(3000));
    }
    return bytes;
}

/* Words that a state may have, and words that it hardly has. */
static uint32_t any_word(void) {
    static const uint32_t edges[] = {0, 1, 63, 64, 65, 32767, 32768, 32769, 1048575, 1048576, 1048577, 0x7fffffff, 0x80000000, 0xffffffff};
    uint32_t how = dice(4);
    if (how == 0) return dice(65536) << 16 | dice(65536);
    if (how == 1) return dice(128);
    return how == 2 ? edges[dice(sizeof edges / sizeof *edges)] : dice(1 << 21);
}

/* A call by two readers with the same words: they say and leave the same. */
static void call_both(struct reader *r, struct reader *twin, const uint8_t *piece, size_t bytes, int still) {
    call(r, piece, bytes, still, 0);
    call(twin, piece, bytes, still, 0);
    hold(!memcmp(r->state, twin->state, sizeof r->state) && !memcmp(r->answer, twin->answer, sizeof r->answer), "two calls with the same words differ", 0);
}

/* A state of any words, in the midst of a text: some pieces, the end, and calls after the answer. */
static void odd_state(uint32_t words) {
    static uint8_t room[ROOM];
    struct reader r, twin;
    size = damaged(room, 12), text = room;
    begin(&r);
    bezinkol_pieces_take(r.state, text, dice((uint32_t)size + 1), r.answer);
    while (words--) r.state[dice(BEZINKOL_PIECES_WORDS)] = any_word();
    twin = r;
    int over = 0;
    for (uint32_t i = dice(4); i && !over; i--) {
        call_both(&r, &twin, text, dice((uint32_t)size + 1), 0);
        over = r.answer[0] || r.answer[1];
    }
    if (!over) call_both(&r, &twin, NULL, 0, 0);
    uint64_t said = r.answer[0], second = r.answer[1];
    for (int i = 0; i < 3; i++) {
        call_both(&r, &twin, i < 2 ? text : NULL, i ? size : 0, 1);
        answered(&r, said, second, 0);
    }
}

int main(void) {
    struct reader one, other;
    memset(&one, 0, sizeof one);
    bezinkol_pieces_start(one.state);
    begin(&other);
    hold(!memcmp(one.state, other.state, sizeof one.state), "a start leaves a word as it was", 0);
    size_t texts = case_texts();
    hold(texts > 0, "there are no cases", 0);
    printf("tests/c: reading in pieces answers %zu texts as whole reading does, however they are cut, in %zu calls; %zu of them have a repeated name\n",
        texts, calls, repeated);
    calls = 0;
    size_t bytes = own_texts();
    printf("tests/c: and so %zu bytes made by chance, in %zu calls\n", bytes, calls);
    for (uint32_t i = 0; i < STATES; i++) odd_state(1 + i % 12);
    printf("tests/c: and it answers whatever words its state has, of %d states\n", STATES);
    return 0;
}
