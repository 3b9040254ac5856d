/* Times the exported functions: reads requests from standard input, writes a reply for each to standard output. bench/run drives it.
 *
 * It needs no C library, so that the kit alone can build it; the three calls of Linux on x86-64 that it makes are written out. */
#include "bezinkol.h"

/* A request, followed by the bytes of the text and of the language. */
struct request {
    uint32_t service; /* 0 read, 1 judge, 2 localize, 3 read in pieces, 4 pack, 5 unpack what the text packs to */
    uint32_t samples; /* the least of so many is given */
    uint32_t calls;   /* so many calls make a sample */
    uint32_t size, named, room, words;
};

struct reply {
    uint64_t least; /* nanoseconds of a sample */
    uint64_t answer[BEZINKOL_ANSWER_WORDS];
    uint64_t rows, out; /* sums of all that was lent to be written: of the table and of the output */
};

static uint8_t text[BEZINKOL_MAX_BYTES * 2], language[4096], out[BEZINKOL_MAX_BYTES * 2];
static uint32_t table[BEZINKOL_TABLE_WORDS * 2];

/* The two functions that the library asks for. Built with -fno-builtin, so that a loop isn't taken for a call of itself. */
void *memcpy(void *restrict to, const void *restrict from, size_t size) {
    uint8_t *at = to;
    const uint8_t *in = from;
    typedef uint8_t sixteen __attribute__((vector_size(16), aligned(1)));
    for (; size >= 16; size -= 16, at += 16, in += 16) *(sixteen *)at = *(const sixteen *)in;
    for (; size; size--) *at++ = *in++;
    return to;
}

void *memset(void *to, int byte, size_t size) {
    uint8_t *at = to;
    for (; size && ((size_t)at & 15); size--) *at++ = (uint8_t)byte;
    typedef uint8_t sixteen __attribute__((vector_size(16)));
    sixteen all;
    for (int i = 0; i < 16; i++) all[i] = (uint8_t)byte;
    for (; size >= 16; size -= 16, at += 16) *(sixteen *)at = all;
    for (; size; size--) *at++ = (uint8_t)byte;
    return to;
}

static long system_call(long number, long a, long b, long c) {
    long result;
    __asm__ volatile("syscall" : "=a"(result) : "a"(number), "D"(a), "S"(b), "d"(c) : "rcx", "r11", "memory");
    return result;
}

static void end(int status) {
    for (;;) system_call(231, status, 0, 0); /* exit_group */
}

/* Moves exactly so many bytes; the end of the requests ends the program. */
static void move(long number, long file, void *bytes, size_t size) {
    for (size_t done = 0; done < size;) {
        long more = system_call(number, file, (long)((uint8_t *)bytes + done), (long)(size - done));
        if (more <= 0) end(done || more);
        done += (size_t)more;
    }
}

/* The time that this process took: what other processes take doesn't count. */
static uint64_t now(void) {
    struct {
        int64_t seconds, nanoseconds;
    } time;
    system_call(228, 2, (long)&time, 0); /* clock_gettime, CLOCK_PROCESS_CPUTIME_ID */
    return (uint64_t)time.seconds * 1000000000u + (uint64_t)time.nanoseconds;
}

#define PIECE 1500 /* bytes: about what a wire brings at once */

/* Reads the text in pieces, as a caller does who hangs up at a refusal. A library from before request 10 can't be asked. */
static void read_pieces(const struct request *r, uint64_t *answer) {
#ifdef PIECES
    uint32_t state[BEZINKOL_PIECES_WORDS];
    bezinkol_pieces_start(state);
    answer[0] = BEZINKOL_OK;
    for (size_t at = 0; at < r->size && answer[0] == BEZINKOL_OK; at += PIECE)
        bezinkol_pieces_take(state, text + at, r->size - at < PIECE ? r->size - at : PIECE, answer);
    bezinkol_pieces_end(state, answer);
#else
    (void)r, (void)answer;
    end(2);
#endif
}

#define PACK 4
#define UNPACK 5

#ifdef STORE
static uint8_t packed[BEZINKOL_MAX_PACKED];
static size_t packed_size;
#endif

/* Packs the text, or unpacks its packing. A library from before request 12 can't be asked. */
static void store(const struct request *r, uint64_t *answer) {
#ifdef STORE
    if (r->service == PACK) bezinkol_pack(text, r->size, out, r->room, table, r->words, answer);
    else bezinkol_unpack(packed, packed_size, out, r->room, answer);
#else
    (void)r, (void)answer;
    end(2);
#endif
}

/* Makes the packing that is to be unpacked, and lends an output of just the bytes that are needed. */
static void lend_store(struct request *r) {
#ifdef STORE
    uint64_t answer[BEZINKOL_ANSWER_WORDS];
    bezinkol_pack(text, r->size, packed, sizeof packed, table, r->words, answer);
    packed_size = answer[2];
#endif
    uint64_t said[BEZINKOL_ANSWER_WORDS];
    r->room = 0;
    store(r, said);
    if (said[0] == BEZINKOL_SHORT_STORE) r->room = (uint32_t)said[1];
}

static void call(const struct request *r, uint64_t *answer) {
    if (r->service == 0) bezinkol_read(text, r->size, table, r->words, answer);
    else if (r->service == 1) bezinkol_judge(text, r->size, table, r->words, answer);
    else if (r->service == 2) bezinkol_localize(text, r->size, language, r->named, out, r->room, table, r->words, answer);
    else if (r->service < PACK) read_pieces(r, answer);
    else store(r, answer);
}

static void time_request(const struct request *r, struct reply *to) {
    to->least = ~(uint64_t)0;
    for (uint32_t i = 0; i < r->samples; i++) {
        uint64_t from = now();
        for (uint32_t j = 0; j < r->calls; j++) call(r, to->answer);
        uint64_t took = now() - from;
        if (took < to->least) to->least = took;
    }
    to->rows = to->out = 0;
    for (uint32_t i = 0; i < r->words; i++) to->rows = to->rows * 65599 + table[i];
    for (uint32_t i = 0; (r->service == 2 || r->service >= PACK) && i < r->room; i++) to->out = to->out * 65599 + out[i];
}

static void serve(void) {
    struct request r;
    struct reply to;
    for (;;) {
        move(0, 0, &r, sizeof r);
        if (r.size > sizeof text || r.named > sizeof language || r.room > sizeof out || r.words > sizeof table / sizeof *table) end(2);
        move(0, 0, text, r.size);
        move(0, 0, language, r.named);
        if (r.service >= PACK) lend_store(&r);
        time_request(&r, &to);
        move(1, 1, &to, sizeof to);
    }
}

/* The kernel leaves the stack aligned; a function expects it so before the call. */
/* PLACE bytes behind the start move the library, which is linked behind this file. */
#define QUOTED(x) #x
#define TEXT_OF(x) QUOTED(x)
__asm__(".globl _start\n_start:\n    xor %ebp, %ebp\n    call serve_from_start\n    .skip " TEXT_OF(PLACE) "\n");
__attribute__((used)) void serve_from_start(void) { serve(); }
