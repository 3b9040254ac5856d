"""Holds the second reader in pieces to a plain oracle, and to answers decided by hand: python3 tests/second/check_pieces.py

The oracle takes a refusal for certain where each of FOLLOWING, put behind the bytes that have come, leaves it as it is.
"""
import contextlib
import itertools
import random
import sys

import reading
from pieces import Pieces, measure, told

LOW, LAST = b"\\uDC00", b"\\udffd"
TAILS = [bytes(some) for size in (1, 2, 3) for some in itertools.product((0x80, 0x8F, 0x90, 0x9F, 0xA0, 0xBF), repeat=size)]
FOLLOWING = [
    *(bytes([byte]) for byte in b' "0]}:,u\\'),  # first, since one of them changes most of what can change
    *(bytes([byte]) for byte in b"\t\n1789AaBbCcDdEeFfGg-+.[{/nrtlsx\x00\x1f\x7f\xc2\xe0\xed\xf0\xf4\xff"),
    b"true", b"null", b"false", b"rue", b"ull", b"alse", b"ue", b"ll", b"lse", b"se", b'""', b'"a"', b'a"', b'":1}', b":1}", b"1]", b"[]]", b"{}}", b"]]]", b"}]}",
    b"\\n", b"\\u0041", b"u0041", b"0041", b"041", b"41", b"41\"", b"\\uD800", b"uD800", b"FFFE", b"FFE", b"FE",
    *(low[cut:] + end for low in (LOW, LAST) for cut in range(6) for end in (b"", b'"')),
    *TAILS, b'\x80"', b'\x80\x80"', b'\x90\x80\x80"', b'\xa0\x80"']

# Decided by hand: a text, its answer, and after how many bytes it comes (0: at the end).
DECIDED = [
    (b"", (2, 0), 0), (b" ", (2, 1), 0), (b"x", (2, 0), 1), (b"\xef\xbb\xbf1", (2, 0), 1), (b"\xff", (2, 0), 1), (b" ]", (2, 1), 2), (b"tru", (2, 3), 0),
    (b"trx", (2, 2), 3), (b"true", (0, 1), 0), (b"truee", (2, 4), 5), (b"nul ", (2, 3), 4), (b"1 1", (2, 2), 3), (b"[] ]", (2, 3), 4),
    # a number ends with the byte behind it, or the end
    (b"12", (0, 1), 0), (b"12 ", (0, 1), 0), (b"01", (2, 1), 2), (b"-", (2, 1), 0), (b"-x", (2, 1), 2), (b"1.", (2, 2), 0), (b"1.e", (2, 2), 3),
    (b"1e+", (2, 3), 0), (b"1e+]", (2, 3), 4), (b"[1.5e3]", (0, 2), 0), (b"[1}", (2, 2), 3), (b"-0.0e-0", (0, 1), 0), (b"1]", (2, 1), 2), (b"1\x00", (2, 1), 2),
    # objects and arrays
    (b"[1,2", (2, 4), 0), (b"[1,]", (2, 3), 4), (b"[,", (2, 1), 2), (b"{,", (2, 1), 2), (b'{"a" 1', (2, 5), 6), (b'{"a":}', (2, 5), 6), (b'{"a":1,}', (2, 7), 8),
    (b'{"a":1]', (2, 6), 7), (b"[}", (2, 1), 2), (b'{"a":1,"a":2}', (0, 3), 0), (b'{"a":1,"a":x', (2, 11), 12), (b'{"a":{"a":[1,"x"]}}', (0, 5), 0),
    # strings and short escapes
    (b'"', (2, 1), 0), (b'"a', (2, 2), 0), (b'"a\x1f', (2, 2), 3), (b'"\\', (2, 2), 0), (b'"\\x', (2, 2), 3), (b'"\\u', (2, 3), 0), (b'"\\uG', (2, 3), 4),
    (b'"\\u00', (2, 5), 0), (b'"\\u00"', (2, 5), 6), (b'"\x7f"', (0, 1), 0), (b'{"\\q', (2, 3), 4), (b'"\\\xc3', (2, 2), 3),
    # a high surrogate waits until what follows can be no whole low one
    (b'"\\uD800', (3, 1), 0), (b'"\\uD800"', (3, 1), 8), (b'"\\uD800a', (3, 1), 8), (b'"\\uD800\x00', (3, 1), 8), (b'"\\uD800\xff', (3, 1), 8),
    (b'"\\uD800\\', (3, 1), 0), (b'"\\uD800\\n', (3, 1), 9), (b'"\\uD800\\x', (3, 1), 9), (b'"\\uD800\\u', (3, 1), 0), (b'"\\uD800\\u0', (3, 1), 10),
    (b'"\\uD800\\uG', (3, 1), 10), (b'"\\uD800\\uD', (3, 1), 0), (b'"\\uD800\\uDB', (3, 1), 11), (b'"\\uDBFF\\ud8', (3, 1), 11), (b'"\\ud800\\udz', (3, 1), 11),
    (b'"\\uD800\\uDC', (3, 1), 0), (b'"\\uD800\\uDCz', (3, 1), 12), (b'"\\uD800\\uDC0', (3, 1), 0), (b'"\\uD800\\uDC0"', (3, 1), 13), (b'"\\uD800\\uDC00', (2, 13), 0),
    (b'"\\uD800\\uDC00"', (0, 1), 0), (b'"\\uD83F\\uDFF', (3, 1), 0), (b'"\\uD83F\\uDFFD', (2, 13), 0), (b'"\\uD83F\\uDFFE', (3, 1), 13), (b'"\\udbff\\udfff', (3, 1), 13),
    (b'"\\uD80', (2, 6), 0), (b'"\\uD80x', (2, 6), 7), (b'{"\\uD800":', (3, 2), 9), (b'["\\uD800\\uD800', (3, 2), 12),
    # a low one alone, or a noncharacter: 2 where its digits break off, 3 once they are whole
    (b'"\\uDC0', (2, 6), 0), (b'"\\uDC0z', (2, 6), 7), (b'"\\uDC0"', (2, 6), 7), (b'"\\uDC00', (3, 1), 7), (b'"\\udfff', (3, 1), 7), (b'"\\uFDD', (2, 6), 0),
    (b'"\\uFDDx', (2, 6), 7), (b'"\\uFDD0', (3, 1), 7), (b'"\\uFDCF', (2, 7), 0), (b'"\\uFFF', (2, 6), 0), (b'"\\uFFFD', (2, 7), 0), (b'"\\ufffe', (3, 1), 7),
    # UTF-8: at the first byte that no good sequence has
    (b'"\x80', (3, 1), 2), (b'"\xc0', (3, 1), 2), (b'"\xc1', (3, 1), 2), (b'"\xf5', (3, 1), 2), (b'"\xff', (3, 1), 2), (b'"\xc2', (3, 1), 0), (b'"\xc2"', (3, 1), 3),
    (b'"\xc2\x00', (3, 1), 3), (b'"\xc2\x80', (2, 3), 0), (b'"\xe0\x9f', (3, 1), 3), (b'"\xe0\xa0', (3, 1), 0), (b'"\xe0\xa0\x7f', (3, 1), 4), (b'"\xed\x9f', (3, 1), 0),
    (b'"\xed\xa0', (3, 1), 3), (b'"\xef\xbf', (3, 1), 0), (b'"\xef\xbf\xbd', (2, 4), 0), (b'"\xef\xbf\xbe', (3, 1), 4), (b'"\xef\xb7\x8f', (2, 4), 0),
    (b'"\xef\xb7\x90', (3, 1), 4), (b'"\xef\xb7\xaf', (3, 1), 4), (b'"\xef\xb7\xb0', (2, 4), 0), (b'"\xf0\x8f', (3, 1), 3), (b'"\xf0\x90', (3, 1), 0),
    (b'"\xf0\x9f\x98', (3, 1), 0), (b'"\xf0\x9f\x98"', (3, 1), 5), (b'"\xf0\x9f\xbf', (3, 1), 0), (b'"\xf0\x9f\xbf\xbe', (3, 1), 5), (b'"\xf4\x8f', (3, 1), 0),
    (b'"\xf4\x8f\xbf\xbd"', (0, 1), 0), (b'"\xf4\x8f\xbf\xbf', (3, 1), 5), (b'"\xf4\x90', (3, 1), 3), (b'"\xf4\xc2', (3, 1), 3), (b'["ab\xc3', (3, 4), 0),
    # depth: 5 at the bracket, before 6
    (b"[" * 64, (2, 64), 0), (b"[" * 65, (5, 64), 65), (b"[" * 64 + b"{", (5, 64), 65), (b"[" * 64 + b"x", (2, 64), 65), (b"[" * 64 + b"]" * 64, (0, 64), 0)]

# The same with limits of 9 bytes, a depth of 2 and 3 values.
NARROW = [
    (b"[1,2,3", (6, 5), 6), (b'[1,2,"', (6, 5), 6), (b"[1,2,x", (2, 5), 6), (b"[1,2,", (2, 5), 0), (b"[1,2]", (0, 3), 0), (b"[[[", (5, 2), 3), (b"[[1,[", (5, 4), 5),
    (b"[[1],[", (6, 5), 6), (b"[[]]", (0, 2), 0), (b"       1 ", (0, 1), 0), (b"        x", (2, 8), 9), (b"         x", (1, 0), 10), (b"         1", (1, 0), 10),
    (b"          ", (1, 0), 10), (b"x         ", (2, 0), 1), (b'"abcdefg"', (0, 1), 0), (b'"abcdefgh"', (1, 0), 10), (b'"abcdefg\xc2', (3, 8), 0),
    (b'"abcdefg\xc2"', (1, 0), 10), (b'"abcdefg\xc2\x80', (1, 0), 10), (b'"abcdefg\x80\x80', (3, 8), 9), (b'"a\\uD800"', (3, 2), 9), (b'"ab\\uD800"', (1, 0), 10),
    (b'"ab\\uDC00"', (3, 3), 9), (b"1" * 10, (1, 0), 10), (b"1" * 9, (0, 1), 0)]


@contextlib.contextmanager
def limits(size, depth, values):
    """Other limits for a while."""
    before = reading.MOST_BYTES, reading.MOST_DEPTH, reading.MOST_VALUES
    reading.MOST_BYTES, reading.MOST_DEPTH, reading.MOST_VALUES = size, depth, values
    try:
        yield
    finally:
        reading.MOST_BYTES, reading.MOST_DEPTH, reading.MOST_VALUES = before


def strings():
    """Characters, escapes and what is nearly one, with each byte that matters at each place."""
    leads, tails = b"\xc1\xc2\xdf\xe0\xe1\xed\xef\xf0\xf3\xf4\xf5", b'\x7f\x80\x8f\x90\x9f\xa0\xb7\xbf\xc0"'
    for lead, one, two in itertools.product(leads, tails, tails):
        yield bytes([34, lead, one, two])
    for lead, one, two, three in itertools.product(b"\xf0\xf1\xf4", b"\x80\x90\x9f\xbf", b"\x80\xbf\xc0", b'\x80\xbd\xbe\xbf"'):
        yield bytes([34, lead, one, two, three])
    for digits in itertools.product(b"dDfF", b"78BCdF", b"0Df", b"0EfxD"):
        yield b'"\\u' + bytes(digits) + b"\\uDC00"
    for base in (b'"\\uD83F\\uDFFD"', b'"\\ud800\\udc00"', b'{"\\uDBFF\\uDFFF":1}', b'"\\uDC00"', b'"\\uFDD0"', b'"\\"\\/\\n\\u0041"'):
        for at in range(len(base)):
            yield base[:at]
            for other in b'"\\uDdCcBb8F0xG\x00\x1f\x80\xc3 ':
                yield base[:at] + bytes([other]) + base[at + 1:]


def numbers():
    for size in range(1, 5):
        for some in itertools.product(b"-07.e+", repeat=size):
            yield bytes(some)
            yield b"[" + bytes(some) + b"]"


def built():
    """Tokens in a row, and words that break off."""
    for some in itertools.product((b"[", b"]", b"{", b"}", b",", b":", b'"a"', b"1", b" "), repeat=3):
        yield b"".join(some)
        yield b'{"k":' + b"".join(some)
    for word, more in itertools.product((b"null", b"true", b"false"), (b"", b"x", b" ", b"]", b"\x00", b"\xff", b"l", b"E")):
        for cut in range(len(word) + 1):
            yield b"[" + word[:cut] + more


def damaged():
    """A good text with a byte or two put in, taken out or changed."""
    dice = random.Random(1)
    good = b' {"a":[1,-2.5e+3,\t0],"b":{"\\u0061":null,"\xc3\xa9\\n":true},"c\\"":"x\\ud83d\\uDE00\xe2\x82\xac\xf0\x9f\x98\x80","d":[[],{},false]} '
    for _ in range(600):
        text = bytearray(good)
        for _ in range(dice.randint(1, 2)):
            at = dice.randrange(len(text))
            text[at:at + dice.randrange(2)] = bytes([dice.choice(b'"\\{}[],:0-eudD8 \x00\x80\xc3\xed\xf0\xff')] * dice.randrange(2))
        yield bytes(text)


def others():
    """The texts of which nothing was decided, each once."""
    return list(dict.fromkeys(itertools.chain(strings(), numbers(), built(), damaged())))


KNOWN = {}  # what the oracle said of a beginning: many texts share one


def certain(text):
    """The refusal that none of FOLLOWING changes, or None."""
    if text not in KNOWN:
        first = measure(text)
        KNOWN[text] = first if first[0] and all(measure(text + more) == first for more in FOLLOWING) else None
    return KNOWN[text]


def plainly(text):
    """The answer and the byte that brings it, by the words of the request."""
    for size in range(len(text) + 1):
        if size > reading.MOST_BYTES:
            return 1, 0, size
        found = certain(text[:size])
        if found:
            return *found, size
    return *measure(text), 0


def steady(text, dice):
    """Does the reader give that answer from that byte on, with pieces of any length, also empty ones, and still after the end?"""
    number, second, after = told(text)
    reader, at, most = Pieces(), 0, dice.choice((1, 3, len(text) + 1))
    while at < len(text):
        size = dice.randint(0, most)
        at += size
        if reader.take(text[at - size:at]) != ((number, second) if after and min(at, len(text)) >= after else (0, 0)):
            return False
    return all(said == (number, second) for said in (reader.end(), reader.take(b""), reader.take(b"1]"), reader.end()))


def faults_of(texts, dice):
    """Texts of which the second reader, the oracle and what was decided differ."""
    for text, decided in texts:
        said, plain = told(text), plainly(text)
        if said != plain or decided not in (None, said):
            yield f"{text!r}: {said}, plainly {plain}" + (f", decided {decided}" if decided else "")
        elif not steady(text, dice):
            yield f"{text!r}: cut otherwise it has another answer than {said}"


def main():
    dice = random.Random(10)
    decided = [(text, (*answer, after)) for text, answer, after in DECIDED]
    narrow = [(text, (*answer, after)) for text, answer, after in NARROW]
    plain = [(text, None) for text in others()]
    faults = list(faults_of(decided + plain, dice))
    KNOWN.clear()
    with limits(9, 2, 3):
        faults += faults_of(narrow + plain[::5], dice)
    for fault in faults:
        print(fault)
    print(f"reading in pieces: {len(decided) + len(narrow)} texts with the byte that brings the answer, {len(plain) + len(plain[::5])} others, each held to "
        f"{len(FOLLOWING)} continuations, {len(faults)} faults")
    return 1 if faults else 0


if __name__ == "__main__":
    sys.exit(main())
