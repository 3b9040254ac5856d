/* Measures the most stack that a service takes: stack read|judge|localize|pack|unpack <CASES. Fails where that is more than the header says, of any text or of a short one.
 *
 * Each call runs on a thread whose stack was filled with a pattern beforehand; the lowest place that lost its pattern is how deep the calls went. Short texts
 * have a stack of their own. The calls are those of the stored cases and, first, those below, which nest as deep as the limits let them and end in the
 * deepest calls of the machine code (an escape of two surrogates, in a string at the bottom; an object of many names; a patch of many entries). It is counted
 * from the caller's frame, so it is a little over what a call takes. */
#define _XOPEN_SOURCE 700
#include "cases.h"
#include <pthread.h>

#define PATTERN 0x5a
#define STACK ((size_t)4 << 20)

#define CARD "{\"@type\":\"Card\",\"version\":\"1.0\",\"uid\":\"u1\","
#define PAIR "\"\\ud83d\\ude00\""
#define LISTS "\"x\":[%*62,1;" PAIR "]%*62,1;"
#define OBJECTS "\"y\":{\"a\":%*310,5;" PAIR "}%*62,1;"
#define SOME "{\"\":\"\",\"00000\":\"\"%#200,11,7919;}"
#define MORE "{\"\":\"\",\"00000\":\"\"%#1100,11,7919;}"
#define MOST "{\"\":\"\",\"00000\":\"\"%#30000,11,7919;}"
#define DEEP(OBJECT) "[%*62,1;" OBJECT "]%*62,1;"
#define DEEP_CARD(OBJECT) CARD "\"x\":[%*61,1;" OBJECT "]%*61,1;}"
#define LANGUAGE(ENTRIES) ",\"localizations\":{\"de\":{" ENTRIES "}}}"

/* Cases of reading and judging: the words of the table and a text. */
static const char *const texts[] = {
    "16384 [%*63,1;" PAIR "]%*63,1;", "0 [%*63,1;" PAIR "]%*63,1;", "16384 [%*64,1;", "16384 {\"a\":%*315,5;" PAIR "}%*63,1;",
    "16384 " CARD LISTS "}", "16384 " CARD OBJECTS "}", "16384 " CARD "\"name\":{\"components\":[{\"kind\":" PAIR "}]}}",
    "16384 " DEEP(SOME), "16384 " DEEP(MORE), "262144 " DEEP(MOST), "16384 " DEEP_CARD(SOME), "16384 " DEEP_CARD(MORE), "262144 " DEEP_CARD(MOST), NULL};

/* Cases of localizing: the words of the table, the bytes of the output, the language and a text. */
static const char *const cards[] = {
    "16384 2000 de " CARD LISTS LANGUAGE(""), "16384 2000 de " CARD OBJECTS LANGUAGE("\"y/a%*122,2;\":{\"a\":%*295,5;" PAIR "}%*59,1;"),
    "16384 2000 de " CARD OBJECTS LANGUAGE("\"y/a%*122,2;/\\ud83d\\ude00\":null"),
    "16384 2000 de " CARD OBJECTS LANGUAGE("\"y/a%*120,2;/b\":[%*58,1;" PAIR "]%*58,1;"),
    "16384 9000 de " CARD OBJECTS LANGUAGE("\"y/a%*122,2;/n00000\":true,\"y/a%*122,2;/n07919\":true%#18,140,7919;"),
    "16384 9000 de " CARD OBJECTS LANGUAGE("\"m\":null,\"n00000\":true%#230,14,7919;"),
    "16384 9000 de " CARD OBJECTS LANGUAGE("\"y/a%*122,2;\":[0,%*3200,2;0],\"m\":null"),
    "16384 90000 de " CARD OBJECTS LANGUAGE("\"y/a%*122,2;/n00000\":true,\"y/a%*122,2;/n07919\":true%#300,140,7919;"),
    "16384 90000 de " CARD OBJECTS LANGUAGE("\"m\":null,\"n00000\":true%#2100,14,7919;"),
    "262144 400000 de " CARD LISTS "," OBJECTS ",\"z\":" MOST LANGUAGE("\"m\":null,\"z/n00000\":true%#100,16,7919;"), NULL};

/* Cases of packing: the words of the table, the bytes of the output and a text. */
static const char *const packed[] = {
    "16384 400 [%*63,1;" PAIR "]%*63,1;", "16384 0 [%*63,1;" PAIR "]%*63,1;", "16384 900 {\"a\":%*315,5;" PAIR "}%*63,1;", "16384 70000 " DEEP(SOME),
    "16384 70000 " DEEP(MORE), "262144 70000 " DEEP(MOST), NULL};

/* Cases of unpacking are all stored: tests/make_packing.py has those of the greatest depth. */
static const char *const none[] = {NULL};

static const char *const *own_cases(char service) { return service == 'l' ? cards : service == 'p' ? packed : service == 'u' ? none : texts; }

/* What the header says, of any text and of a short one. */
static const struct said {
    char service;
    size_t any, brief;
} says[] = {{'r', BEZINKOL_READ_STACK, BEZINKOL_READ_STACK_4K}, {'j', BEZINKOL_JUDGE_STACK, BEZINKOL_JUDGE_STACK_4K},
    {'l', BEZINKOL_LOCALIZE_STACK, BEZINKOL_LOCALIZE_STACK_4K}, {'p', BEZINKOL_PACK_STACK, BEZINKOL_PACK_STACK_4K},
    {'u', BEZINKOL_UNPACK_STACK, BEZINKOL_UNPACK_STACK_4K}};

static struct call call;

/* Texts of at most so many bytes, and longer ones: a stack for each, and where on it a call was made. */
static struct kind {
    char *stack;
    const char *top;
} kinds[2];

static struct kind *kind_of(size_t size) { return &kinds[size > BEZINKOL_SHORT_BYTES]; }

static void *run(void *none) {
    kind_of(call.size)->top = __builtin_frame_address(0);
    make(&call);
    return none;
}

/* Makes the call of a case on its stack. */
static void call_on(char service, const char *line) {
    call = call_of(service, line);
    pthread_attr_t how;
    pthread_t thread;
    if (pthread_attr_init(&how) || pthread_attr_setstack(&how, kind_of(call.size)->stack, STACK) || pthread_create(&thread, &how, run, NULL)) abort();
    if (pthread_join(thread, NULL) || pthread_attr_destroy(&how)) abort();
    give_back(&call);
}

/* The bytes of a stack that calls took. */
static size_t used(const struct kind *of) {
    size_t low = 0;
    while (low < STACK && of->stack[low] == PATTERN) low++;
    return (size_t)(of->top - of->stack) - low;
}

static int compare(const char *service, const char *texts, size_t took, size_t said) {
    printf("tests/c: bezinkol_%s took %zu bytes of stack at most, of %s; the header says %zu\n", service, took, texts, said);
    return took > said;
}

int main(int count, char **given) {
    if (count != 2) return 2;
    char service = *given[1];
    for (int i = 0; i < 2; i++) {
        if (!(kinds[i].stack = aligned_alloc(4096, STACK))) abort();
        memset(kinds[i].stack, PATTERN, STACK);
    }
    for (const char *const *line = own_cases(service); *line; line++) {
        call_on(service, *line);
        if (call.answer[0] == BEZINKOL_GRAMMAR || call.answer[0] == BEZINKOL_NOT_PACKED) abort(); /* then it isn't the text that was meant */
    }
    for (const char *line; (line = next_line());) call_on(service, line);
    size_t brief = used(&kinds[0]), any = used(&kinds[1]) > brief ? used(&kinds[1]) : brief;
    const struct said *said = says;
    while (said->service != service) said++;
    return compare(given[1], "any text", any, said->any) + compare(given[1], "short texts", brief, said->brief);
}
