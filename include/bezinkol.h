/* Bezinkol: the card intake, for those who link it from C (Linux on x86-64).
 *
 * `rt lib`, in crates/bezinkol, writes out/libbezinkol.a there, which asks for nothing of a C library but `memset` and `memcpy`. examples/c shows the use.
 *
 * A caller's duties
 *
 *   pointers  Each is good for as many elements as its length says: bytes for `text`, `piece`, `packed`, `language` and `out`, 32-bit words for `table`,
 *             nine of them for `state`, three 64-bit words for `answer`. It is aligned for its type and not null, also where the length is 0.
 *   lengths   Count elements, not bytes: a table of one row has table_len 8. No text needs a NUL at its end; a NUL inside is a byte like any other.
 *   overlap   What is written (`table`, `out`, `state`, `answer`) shares no byte with any other buffer. `text`, `piece`, `packed` and `language` are only
 *             read: the language may lie inside the text.
 *   threads   While a call runs, no other thread writes what it reads, or uses what it writes.
 *   stack     There is as much as the constants below say, which is less for a short text. What a signal handler takes of the same stack comes on top.
 *
 * Nothing else is asked. Any bytes and any lengths are answered, and nothing need be tested beforehand: a text that is too long, a table or an output
 * that is too small (of length 0 too) is a refusal like any other. What was lent as `text`, `piece` or `packed` isn't trusted, and isn't changed.
 *
 * What a call does
 *
 *   It ends and leaves one answer, which hangs on the bytes read and on the lengths alone, for reading in pieces on its nine words too; only the start of
 *   reading in pieces has no answer. No memory is allocated, nothing else is kept after the call and there is no other state between calls, so calls from
 *   several threads, with buffers of their own, don't touch each other. How long a call takes is not promised.
 *
 *   answer[0]   0, or the refusal's number
 *   answer[1]   the row count (of unpacking, which has no table, the number of values), or the refusal's second number; of reading in pieces what is said below
 *   answer[2]   the bytes written by localizing, packing and unpacking; 0 after reading, whole or in pieces, after judging and after any refusal
 *
 *   All three words are always written, and so is every word of the table, every byte of the output and every word of the state:
 *   after a refusal     all of the table and all of the output is zero;
 *   after acceptance    the table begins with answer[1] rows of eight words, the output with answer[2] bytes; the rest of both is zero.
 */
#ifndef BEZINKOL_H
#define BEZINKOL_H

#include <stddef.h>
#include <stdint.h>

#ifdef __cplusplus
extern "C" {
#endif

/* The limits: the bytes of a text, the arrays and objects that stand one inside the other, the values of a text. */
#define BEZINKOL_MAX_BYTES 1048576
#define BEZINKOL_MAX_DEPTH 64
#define BEZINKOL_MAX_VALUES 32768

/* How much to lend so that there always is room: a table of BEZINKOL_TABLE_WORDS words (then 7 isn't given), and an output as long as the card text,
 * so one of BEZINKOL_MAX_BYTES bytes for any text (then 27 isn't given). For a text of n bytes (n + 1) / 2 rows are enough. All that is lent is cleared or
 * filled at each call, so for small texts small buffers are quicker: 1 MiB of table costs more than to judge a card. */
#define BEZINKOL_ROW_WORDS 8
#define BEZINKOL_TABLE_WORDS (BEZINKOL_ROW_WORDS * BEZINKOL_MAX_VALUES)
#define BEZINKOL_ANSWER_WORDS 3

/* The most bytes that a packing has, and six times as many: with so long an output 52 isn't given, by packing and by unpacking. For a packing of n bytes an
 * output of 6 * n is enough. */
#define BEZINKOL_MAX_PACKED 65538
#define BEZINKOL_MAX_UNPACKED (6 * BEZINKOL_MAX_PACKED)

/* The words that reading in pieces keeps from call to call. */
#define BEZINKOL_PIECES_WORDS 9

/* The bytes of stack that a call needs, for any text and for one of at most BEZINKOL_SHORT_BYTES bytes. By the frames of the machine code
 * for x86-64 of this kit (rattle-kit-13f) no call takes more than 285 KiB for reading and judging and 319 KiB for localizing, and for a
 * short text no more than 29, 29 and 36 KiB: what is said here is more by 35 KiB or more, for short texts by 11, 27 and 28; reading in
 * pieces takes 464 bytes. Packing takes what reading does, unpacking 88 KiB, and 11 for a packing of at most BEZINKOL_SHORT_BYTES bytes:
 * what is said here is more by 40 and 13. tests/c counts them again (frames.py), measures calls at the limits (stack.c), and fails where
 * it is more than is said here; another kit may write other machine code. */
#define BEZINKOL_READ_STACK 327680
#define BEZINKOL_JUDGE_STACK 327680
#define BEZINKOL_LOCALIZE_STACK 393216
#define BEZINKOL_SHORT_BYTES 4096
#define BEZINKOL_READ_STACK_4K 40960
#define BEZINKOL_JUDGE_STACK_4K 57344
#define BEZINKOL_LOCALIZE_STACK_4K 65536
#define BEZINKOL_PIECES_STACK 1024
#define BEZINKOL_PACK_STACK 327680
#define BEZINKOL_PACK_STACK_4K 40960
#define BEZINKOL_UNPACK_STACK 131072
#define BEZINKOL_UNPACK_STACK_4K 24576

/* The words of a row. There is one row a value, parents before children, in the order of the text; row 0 is the root. Places count bytes from 0, from the
 * start of the text that was read (of the output, after localizing); ends are exclusive. The root and the elements of arrays have the name 0, 0.
 *
 * Rows are numbered from 0, and row r has the words from r * BEZINKOL_ROW_WORDS on. A value's parent is the array or object that it directly stands in, its
 * next sibling the value that follows it there. So of the rows of an accepted text:
 *   climbing    from parent to parent ends at row 0, in as many steps as the value has arrays and objects around it, so in at most
 *               BEZINKOL_MAX_DEPTH. The root's own parent is 0 too: stop at row 0.
 *   children    A value with values below has its first child in the next row, r + 1; from there the next siblings, up to a 0, are just its children, in
 *               their order. Row 0 is nobody's sibling, so 0 always means that there is none.
 *   siblings    Where row r has a next sibling, that is row r + 1 + below. */
enum {
    BEZINKOL_ROW_KIND = 0,
    BEZINKOL_ROW_NAME_START = 1, /* without its quotes, as it is written */
    BEZINKOL_ROW_NAME_END = 2,
    BEZINKOL_ROW_VALUE_START = 3, /* a string with its quotes */
    BEZINKOL_ROW_VALUE_END = 4,
    BEZINKOL_ROW_BELOW = 5,  /* how many values are inside, at any depth: so many rows follow before the next one beside it */
    BEZINKOL_ROW_PARENT = 6, /* the row of the array or object that it directly stands in; 0 for the root too */
    BEZINKOL_ROW_NEXT = 7    /* the row of the next value in the same array or object; 0 where there is none */
};

/* The kinds of a row. */
enum {
    BEZINKOL_NULL = 1,
    BEZINKOL_FALSE = 2,
    BEZINKOL_TRUE = 3,
    BEZINKOL_NUMBER = 4,
    BEZINKOL_STRING = 5,
    BEZINKOL_ARRAY = 6,
    BEZINKOL_OBJECT = 7
};

/* The refusal sheet: what answer[0] says, and what answer[1] then is. There are no other numbers: 34 is the program's own.
 * Reading gives 1 to 7, judging 11 to 14 too, localizing 21 to 28 too, reading in pieces 1, 2, 3, 5 and 6, packing 1 to 7, 51 and 52, unpacking 52 and 53.
 * Which one comes first where several things are wrong: docs/REFUSALS.md. A name says its refusal's case in the sources (`Value`, `Inner`), with a word more where that alone would say too little.
 * Of 22 to 26, answer[1] is a place in what was lent as `text`: the opening quote of the patch's key that is at fault, as it is written there. Of several
 * keys that break the condition this is the smallest in byte order, with JSON's escapes undone, and ~0 and ~1 not. */
enum {
    BEZINKOL_OK = 0,                 /* accepted; the row count. Of a piece: go on */
    BEZINKOL_TOO_LONG = 1,           /* text over 1,048,576 bytes; 0 */
    BEZINKOL_GRAMMAR = 2,            /* not RFC 8259; the first byte that can't continue, or the text's length */
    BEZINKOL_CHARACTER = 3,          /* bad UTF-8, a lone surrogate, a noncharacter; its first byte */
    BEZINKOL_REPEATED_NAME = 4,      /* a name already in the same object; the later name's opening quote */
    BEZINKOL_TOO_DEEP = 5,           /* the 65th open array or object; its bracket */
    BEZINKOL_TOO_MANY = 6,           /* a 32,769th value begins; its first byte */
    BEZINKOL_SMALL_TABLE = 7,        /* fewer whole rows than the text has values; the rows needed, each of eight words */
    BEZINKOL_WRONG_KIND = 11,        /* JSON kind wrong for the type; the value's first byte */
    BEZINKOL_MISSING = 12,           /* mandatory member missing; the object's first byte */
    BEZINKOL_WRONG_VALUE = 13,       /* value not allowed, or map key not an Id; the value's first byte */
    BEZINKOL_RULE_BROKEN = 14,       /* a rule between members broken; the object's first byte */
    BEZINKOL_NO_LANGUAGE = 21,       /* no such language in the card; 0 */
    BEZINKOL_BAD_KEY = 22,           /* a key with ~ not followed by 0 or 1; the key's opening quote, as for 23 to 26 */
    BEZINKOL_OWN_LOCALIZATIONS = 23, /* a pointer whose first part is localizations */
    BEZINKOL_CLASH = 24,             /* one pointer is a prefix of another */
    BEZINKOL_IN_ARRAY = 25,          /* a pointer goes inside an array */
    BEZINKOL_NO_OBJECT = 26,         /* a part before the last doesn't lead to an object that exists */
    BEZINKOL_SHORT_OUTPUT = 27,      /* output shorter than needed; the bytes needed */
    BEZINKOL_INNER_REFUSAL = 28,     /* the localized card would itself be refused; that refusal's number, 5 or 11 to 14, without its place */
    BEZINKOL_TOO_WIDE = 51,          /* a content of the packing would be over 65,535 bytes; 0 */
    BEZINKOL_SHORT_STORE = 52,       /* output shorter than packing or unpacking needs; the bytes needed */
    BEZINKOL_NOT_PACKED = 53         /* no text packs to these bytes; 0 */
};

/* Reads a text into rows: any JSON text of RFC 8259 that keeps RFC 7493's rules for strings and names, within the limits. */
void bezinkol_read(const uint8_t *text, size_t text_len, uint32_t *table, size_t table_len, uint64_t answer[BEZINKOL_ANSWER_WORDS]);

/* Judges a text as a card: on acceptance the card's rows are left in the table. */
void bezinkol_judge(const uint8_t *text, size_t text_len, uint32_t *table, size_t table_len, uint64_t answer[BEZINKOL_ANSWER_WORDS]);

/* Judges a text as a card, writes it localized to a language into `out`, judges that too, and leaves its rows, whose places are in `out`, in the
 * table. The language is the key of `localizations`, decoded (no quotes, no escapes), and compared byte for byte. The table has to hold the rows of
 * the card text; the localized card has no more. */
void bezinkol_localize(const uint8_t *text, size_t text_len, const uint8_t *language, size_t language_len, uint8_t *out, size_t out_len,
                       uint32_t *table, size_t table_len, uint64_t answer[BEZINKOL_ANSWER_WORDS]);

/* Reads a text that comes in pieces of any length, as from a wire, and keeps none of it: `start` begins a text, `take` is given its bytes piece by piece,
 * `end` is told that there are no more. Beside the duties above:
 *
 *   answer    Of a piece: 0, 0, 0 is "go on". A refusal comes with the first byte after which it is certain whatever follows, and has its place in the
 *             whole text; the caller may hang up. Of the end: 0, the number of values, 0, or a refusal. However the text is cut, the answers agree.
 *             An empty piece changes no word that a `start`, `take` or `end` left. Nor does any `take` or `end` after a refusal or the end, which gives
 *             the same answer again; only a `start` begins anew.
 *   numbers   1, 2, 3, 5 and 6. The byte behind the last that a text may have gives 1, unless a refusal was certain before it. 4 and 7 are never given,
 *             since names aren't compared and there is no table: a text that is accepted here may still be refused by bezinkol_read, with 4 or 7.
 *   text      It leaves no rows and no byte of the text. What is to be judged later the caller has to keep, and lends as a whole.
 *   state     Nine words that the caller keeps, aligned, and that no other thread uses while a call runs. They need not be cleared, since `start` writes
 *             all of them. There is no pointer in them: memcpy makes a copy, and each goes on by itself. Words that no `start`, `take` or `end` left
 *             mean some state too (docs/RULES.md, 9.6), and a call with them ends and answers; but what it then says is about no text.
 *   stack     BEZINKOL_PIECES_STACK bytes, whatever the piece. */
void bezinkol_pieces_start(uint32_t state[BEZINKOL_PIECES_WORDS]);
void bezinkol_pieces_take(uint32_t state[BEZINKOL_PIECES_WORDS], const uint8_t *piece, size_t piece_len, uint64_t answer[BEZINKOL_ANSWER_WORDS]);
void bezinkol_pieces_end(uint32_t state[BEZINKOL_PIECES_WORDS], uint64_t answer[BEZINKOL_ANSWER_WORDS]);

/* Packs a text for the store, any that bezinkol_read accepts, and leaves its rows, whose places are in `text`, in the table.
 *
 * A packing is one field: a byte with the tag, two with the length of the content, the high one first, and the content. Tags 1 to 7 are the kinds of rows, and
 * tag 8 is a member's name, which stands before its value. The content of a string or a name is its characters in UTF-8, without escapes; that of a number its
 * digits as they are written; that of an array or object its fields, in their order; null, false and true have none. `{"a":[1]}` packs to
 * 07 00 0B 08 00 01 61 06 00 04 04 00 01 31.
 *
 * Refused is first what reading refuses, then content of over 65,535 bytes (51), then an output that is too short (52, with the bytes needed). Two texts have
 * the same packing just where they have the same value: members in the same order, strings the same once decoded, numbers the same as they are written. */
void bezinkol_pack(const uint8_t *text, size_t text_len, uint8_t *out, size_t out_len, uint32_t *table, size_t table_len,
                   uint64_t answer[BEZINKOL_ANSWER_WORDS]);

/* Unpacks what bezinkol_pack wrote, and nothing else: any other bytes are 53, and then an output that is too short is 52, with the bytes needed. It writes the
 * compact text, without white space, in which only what must be is escaped; bezinkol_pack packs that to the same bytes again. */
void bezinkol_unpack(const uint8_t *packed, size_t packed_len, uint8_t *out, size_t out_len, uint64_t answer[BEZINKOL_ANSWER_WORDS]);

#ifdef __cplusplus
}
#endif

#endif
