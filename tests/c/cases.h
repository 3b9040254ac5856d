/* Stored cases for C: the notation and the form of crates/cases_run, the calls, and the sums that the stored answers have. */
#include "bezinkol.h"
#include <stdint.h>
#include <stdio.h>
#include <stdlib.h>
#include <string.h>

#define ROOM 1050000 /* bytes of the longest text of a case */
#define LINE 200000

static uint8_t base[ROOM];

/* The decimal number at *at; *at goes on behind the byte that ends it. */
static inline size_t number(const char **at) {
    size_t n = 0;
    while (**at >= '0' && **at <= '9') n = n * 10 + (size_t)(*(*at)++ - '0');
    if (**at) ++*at;
    return n;
}

static inline int hex(char c) { return c >= '0' && c <= '9' ? c - '0' : c >= 'a' && c <= 'f' ? c - 'a' + 10 : 0; }

/* Adds to the digits of a piece, taken as one number; what doesn't fit is dropped. */
static inline void raise_by(uint8_t *piece, size_t size, size_t more) {
    while (size--) {
        if (piece[size] < '0' || piece[size] > '9') continue;
        more += (size_t)(piece[size] - '0');
        piece[size] = (uint8_t)('0' + more % 10);
        more /= 10;
    }
}

/* The text that a line stands for, up to a byte that ends it; *line goes on behind that byte. Returns the text's length. */
static inline size_t unpack(const char **line, char end, uint8_t *out) {
    const char *at = *line;
    size_t size = 0;
    while (*at && *at != end) {
        if (*at != '%') {
            out[size++] = (uint8_t)*at++;
        } else if (at[1] == '*' || at[1] == '#' || at[1] == '=') {
            char kind = at[1];
            at += 2;
            size_t one = number(&at), two = number(&at);
            if (kind == '*') {
                for (size_t i = 0; i < one; i++, size++) out[size] = out[size - two];
            } else if (kind == '#') {
                for (size_t step = number(&at); one--; size += two) {
                    memcpy(out + size, out + size - two, two);
                    raise_by(out + size, two, step);
                }
            } else {
                for (size_t i = one; i < two; i++) out[size++] = base[i];
            }
        } else {
            out[size++] = (uint8_t)(hex(at[1]) * 16 + hex(at[2]));
            at += 3;
        }
    }
    *line = *at ? at + 1 : at;
    return size;
}

/* A copy of bytes or words that ends where what is lent ends, so that a checker of memory sees a step beyond. */
static inline void *lent(const void *from, size_t bytes) {
    void *room = malloc(bytes ? bytes : 1);
    if (!room) abort();
    if (bytes) {
        if (from) memcpy(room, from, bytes);
        else memset(room, 255, bytes);
    }
    return room;
}

static inline uint64_t sum_of_words(const uint32_t *table, size_t words) {
    uint64_t sum = 0;
    for (size_t i = 0; i < words; i++) sum = (sum * 65599 + table[i]) % 4294967291u;
    return sum;
}

static inline uint64_t sum_of_bytes(const uint8_t *bytes, size_t size) {
    uint64_t sum = 0;
    for (size_t i = 0; i < size; i++) sum = (sum * 65599 + bytes[i]) % 4294967291u;
    return sum;
}

/* The next case of standard input as a line, or NULL; a base text on the way is kept. */
static inline const char *next_line(void) {
    static char line[LINE];
    while (fgets(line, sizeof line, stdin)) {
        line[strcspn(line, "\n")] = 0;
        if (*line == '!') {
            const char *at = line + 1;
            unpack(&at, 0, base);
        } else if (*line) {
            return line;
        }
    }
    return NULL;
}

/* A call: what is lent, and the answer. `language` is for localizing alone; for that, packing and unpacking there is an `out`; unpacking has no table. */
struct call {
    char service; /* the first letter of read, judge, localize, pack, unpack */
    uint8_t *text, *language, *out;
    size_t size, named, room, words;
    uint32_t *table;
    uint64_t answer[BEZINKOL_ANSWER_WORDS];
};

/* The call of a case: the words of the table, for services with an output its bytes, for localizing the language, and the text. */
static inline struct call call_of(char service, const char *line) {
    static uint8_t text[ROOM], language[ROOM];
    struct call c = {.service = service, .answer = {9, 9, 9}};
    if (service != 'u') c.words = number(&line);
    if (service == 'l' || service == 'p' || service == 'u') c.room = number(&line);
    if (service == 'l') c.named = unpack(&line, ' ', language);
    c.size = unpack(&line, 0, text);
    c.text = lent(text, c.size), c.language = lent(language, c.named);
    c.out = lent(NULL, c.room), c.table = lent(NULL, c.words * sizeof *c.table);
    return c;
}

static inline void make(struct call *c) {
    if (c->service == 'r') bezinkol_read(c->text, c->size, c->table, c->words, c->answer);
    else if (c->service == 'j') bezinkol_judge(c->text, c->size, c->table, c->words, c->answer);
    else if (c->service == 'p') bezinkol_pack(c->text, c->size, c->out, c->room, c->table, c->words, c->answer);
    else if (c->service == 'u') bezinkol_unpack(c->text, c->size, c->out, c->room, c->answer);
    else bezinkol_localize(c->text, c->size, c->language, c->named, c->out, c->room, c->table, c->words, c->answer);
}

static inline void give_back(struct call *c) {
    free(c->text);
    free(c->language);
    free(c->out);
    free(c->table);
}
