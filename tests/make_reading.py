"""The cases of reading: texts with the words of the lent table."""
import itertools

import make_names
import make_strings
from make_judging import Dice
from make_names import LARGE, sized
from store import WORDS, Case, Made, lent, rows_of

import intake
from duds import ASKED
from reading import MOST_BYTES, MOST_DEPTH, MOST_VALUES, MOST_WORDS, ROW_WORDS
from rulings import LINKED

RICH = (
    b' {"a" : [1, -2.5e+3,\t0.25E-1,-0, 1e9 ],\n"b":{"\\u0061":null,"\xc3\xa9\\n":true , "":false},\r\n"c\\"\\/":"x\\ud83d\\uDE00\xe2\x82\xac\\u00e9 \x7f",'
    b'"d":[[],{},[{"k":{"k":[[0]]}}],"",{"a":"a","A":"\\\\"}],"\xf0\x9f\x98\x80":[ ] ,"last":{ }} ')


def rulings():
    for case in ASKED:
        if case["service"] == "read":
            yield lent(case["words"], case["text"]), case["text"]


def depths():
    for opens in (31, 32, 33, *range(MOST_DEPTH - 2, MOST_DEPTH + 3)):
        yield WORDS, b"[" * opens + b"]" * opens
        yield WORDS, b'{"a":' * (opens - 1) + b"{}" + b"}" * (opens - 1)
        yield WORDS, b'[{"a":' * (opens // 2) + b"0" + b"}]" * (opens // 2)
        yield WORDS, b"[" * (opens - 1) + b"0,[],{},[]" + b"]" * (opens - 1)
        yield WORDS, b"[" * opens
        yield WORDS, b"[" * (opens - 1) + b"{x"
    most, last = MOST_DEPTH, MOST_DEPTH - 1
    yield WORDS, b"[" * last + b"[]" + b"]" * (last - 1) + b",[" * last + b"[]"
    yield WORDS, b"[[]," + b"[" * last + b"]" * last + b"," + b"[" * most
    yield WORDS, b'{"a":1,"b":' + b"[" * last + b"]" * last + b',"a":' + b"[" * most
    others = MOST_VALUES - most
    yield MOST_WORDS, b"[" * most + b"0," * (others - 1) + b"0" + b"]" * most
    yield MOST_WORDS, b"[" * most + b"0," * (others - 1) + b"0,[" + b"]" * (most + 1)
    yield MOST_WORDS, b"[" * last + b"0," * (others + 1) + b"[" + b"]" * most


def counts():
    for values in (2047, 2048, 2049, *range(MOST_VALUES - 2, MOST_VALUES + 2)):
        words = MOST_WORDS if values > 2049 else ROW_WORDS * values
        yield words, b"[" + b"0," * (values - 2) + b"0]"
        yield words, b"[" + b"[]," * (values - 2) + b"{}]"
        yield words, b"[" + b'{"a":0},' * ((values - 1) // 2) + b'"x"' * (values % 2 == 0) + b"]"
    for first in (b"1", b'"', b"t", b"[", b"{", b"-", b"]", b",", b":", b"", b"x", b"+"):
        yield 600, b"[" + b"0," * (MOST_VALUES - 1) + first


def lengths():
    for size in (65535, 65536, 65537):  # a store for the names of a shorter text may be smaller, and the program's buffer ends there
        yield 60, b" " * (size - 1) + b"0"
        yield 60, b"0" + b" " * (size - 1)
        yield 60, b'"' + b"a" * (size - 2) + b'"'
        yield 60, b" " * size
        yield 60, b"x" * size
        yield 60, b'"' + b"\xc3\xa9" * ((size - 1) // 2)
    for size in (MOST_BYTES - 1, MOST_BYTES, MOST_BYTES + 1):
        yield 60, Made(f" %*{size - 2},1;0")
        yield 60, Made(f'"a%*{size - 3},1;"')
        yield 60, Made(f" %*{size - 1},1;")
    for size in (MOST_BYTES, MOST_BYTES + 1):
        yield 60, Made(f"0 %*{size - 2},1;")
        yield 60, Made(f"0 %*{size - 3},1;x")
        yield 60, Made(f"1%*{size - 1},1;")
        yield 60, Made(f'["%5cu00e9%*{(size - 4) // 6 * 6 - 6},6;" %*{(size - 4) % 6 - 1},1;]')
        yield 60, Made(f"x%*{size - 1},1;")
        yield 60, Made(f'%0a%*{size - 3},1;"%c3')
        yield 60, Made(f'"a%*{size - 2},1;')
        yield 60, Made(f'"%c3%a9%*{size - 4},2;"')
        yield 60, Made(f'"%c3%a9%*{size - 3},2;')
        yield 60, Made(f'{{"a":"b%*{size - 13},1;","a":')
    yield 60, Made(f" %*{1050000 - 2},1;0")


def tables():
    texts = [b"0", b'{"a":[1]}', b' {"a" : [ 1 , 2 ] , "b" : { } } ', b"[[[[[[]]]]]]", b"[0,1,2,3,4,5,6,7,8,9]", b'{"a":{"b":{"c":{"d":0}}}}']
    for text in texts:
        whole = ROW_WORDS * rows_of(text)
        for words in sorted({
                0, 1, 5, 6, 7, 8, 9, 15, 16, whole - ROW_WORDS - 1, whole - ROW_WORDS, whole - 2, whole - 1, whole, whole + 1, whole + ROW_WORDS - 1,
                whole + ROW_WORDS, 600}):
            if words >= 0:
                yield words, text
    faulty = [
        b"", b"x", b"[1,2,3,x]", b'[1,2,3,"\\uD800"]', b'[1,2,3,{"a":1,"\\u0061":2}]', b"[1,2,3," + b"[" * MOST_DEPTH, b'{"a":1,"b":2,"c":3,"b":4}',
        b"[" + b"0," * MOST_VALUES + b"0]",
        b"[1,2,3", b"[1,2,3]]", b" " * 65537]
    for text in faulty:
        for words in (0, 6, 7, 8, 9, 16, 31, 32, 40, 48, 81):
            yield words, text
    for words in (0, 81, MOST_WORDS, LARGE):
        yield words, Made(f" %*{MOST_BYTES},1;")
    full = b"[" + b"{}," * (MOST_VALUES - 2) + b"0]"  # and one value more
    for words in (
            0, ROW_WORDS, WORDS, MOST_WORDS - ROW_WORDS - 1, MOST_WORDS - ROW_WORDS, MOST_WORDS - 1, MOST_WORDS, MOST_WORDS + 1, MOST_WORDS + ROW_WORDS,
            LARGE):
        yield words, full
        yield words, full[:-1] + b",0]"


CHILDREN = (b"0", b"[]", b"{}", b'""', b"[1]", b'{"x":1}', b"[[]]", b'[{"x":[]},2]', b"[1,2]", b'{"x":{},"y":{"z":[]}}')


def grown(dice, depth):
    """A value put together by chance."""
    if depth == 0 or dice.below(3) == 0:
        return dice.one(CHILDREN[:4])
    some = [grown(dice, depth - 1) for _ in range(dice.below(6))]
    if dice.below(2) == 0:
        return b"[" + b",".join(some) + b"]"
    return b"{" + b",".join(b'"%s":%s' % pair for pair in zip(make_names.LETTERS, some)) + b"}"


def linked():
    """Parents and next siblings: every child before, between and after others; containers that end together before a sibling of one of them; values by
    chance; and many children of one parent. With tables that are just enough, and for some texts also too small."""
    some = [text for text, _, _ in LINKED]
    for depth in (1, 2, 3, 20, MOST_DEPTH - 1):
        some += [b"[" * depth + b"[]" + b",0]" * depth, b"[" * depth + b"[]" + b"]" * (depth - 1) + b",[0]]", b"[0," * depth + b"[]" + b"]" * depth]
        some += [b'{"a":' * depth + b"1" + b',"b":2}' * depth, b'{"b":[],"a":' * depth + b"{}" + b"}" * depth]
    for text in some:
        whole = ROW_WORDS * rows_of(text)
        for words in (whole - ROW_WORDS, whole - 2, whole - 1, whole):
            yield words, text
    more = []
    for one, other in itertools.product(CHILDREN, repeat=2):
        more += [b"[%s,%s]" % (one, other), b'{"a":%s,"b":%s}' % (one, other), b"[0,%s,[%s],0]" % (one, other), b'[{"a":%s},%s]' % (one, other)]
    dice = Dice(9)
    more += [b"[" + b",".join(grown(dice, 5) for _ in range(4)) + b"]" for _ in range(24)]
    for count in (2000, MOST_VALUES - 1):
        more += [Made(f"[0,%*{2 * (count - 2)},2;0]"), Made(f"[[],%*{3 * (count - 2)},3;[]]"), Made(f"[[[0]],%*{6 * (count // 3 - 2)},6;0]")]
        more += [Made(f"[{{}},[0,%*{2 * (count - 5)},2;0],1]")]
    for text in more:
        yield ROW_WORDS * rows_of(text), text


def names():
    for one in make_strings.SPELLED:
        for other in make_strings.SPELLED:
            yield sized(b'{"' + one + b'":1,"' + other + b'":2}')
    some = [b"", b"a", b"\\u0061", b"A", b"aa", b"\\u0061a", b"\\n", b"\\u000a", b"\\u000A", b"/", b"\\/", b"\xc3\xa9", b"\\u00e9",
        b"\\u00E9", b"\xf0\x9f\x98\x80", b"\\ud83d\\ude00"]
    for one, other in itertools.product(some, repeat=2):
        yield sized(b'{"' + one + b'":1,"' + other + b'":2}')
        yield sized(b'{"' + one + b'":{"' + other + b'":1},"z":[{"' + other + b'":2}]}')
    for text in (
            b'{"a":1,"b":2,"c":3,"a":4}', b'{"a":1,"b":2,"b":3,"a":4}', b'{"a":{"a":{"a":1}}}', b'[{"a":1},{"a":2}]', b'{"a":1,"a":',
            b'{"a":1,"a":x}', b'{"a":1,"a\\',
            b'{"a":1,"a\\u', b'{"a":1,"a"}', b'{"a":1,"a" ', b'{"a":1 "a"', b'{"a":1,,"a"', b'{"a":[{"a":1,"b":[{"a":1}]}],"b":1,"a":1}',
            b'{"a":{"b":1},"b":{"a":1,"b":2,"a":3}}'):
        yield sized(text)


def short():
    """All short texts over a few alphabets: numbers, structure, literals, single bytes."""
    for size in range(1, 5):
        for some in itertools.product((b"-", b"0", b"7", b".", b"e", b"+"), repeat=size):
            yield 31, b"".join(some)
        for some in itertools.product((b"[", b"]", b"{", b"}", b",", b":", b'"a"', b"1"), repeat=size):
            yield 31, b"".join(some)
    for word in (b"null", b"true", b"false"):
        for cut in range(len(word) + 1):
            for more in (b"", b"x", b" ", b"]", b"\x00", b"\xff", b"l", b"E"):
                yield 31, word[:cut] + more
                yield 31, b"[" + word[:cut] + more
    for byte in range(256):
        one = bytes([byte])
        for text in (one, one + b"1", b"1" + one, b"[" + one, b"[1" + one, b"{" + one, b'{"a"' + one, b'{"a":' + one, b'"' + one + b'"',
            b"-" + one, b"[0" + one + b"1]", b"1." + one):
            yield 31, text
    for form in (b"0", b"-0", b"-1", b"10", b"1.0", b"0.10", b"-1.5e3", b"1E+2", b"1e-0", b"0e0", b"123456789012345678901234567890", b"1e999"):
        for cut in range(len(form) + 1):
            yield 31, b"[" + form[:cut] + b"]"
        yield 31, b"[" + form + b"," + form + b"]"


def damaged(text):
    """A text cut at each byte; with each byte replaced, left out or doubled."""
    for at in range(len(text) + 1):
        yield 313, text[:at]
    for at in range(len(text)):
        for other in b'\x00 "\\{}[],:0-ez\x80\xc3\xff':
            yield 313, text[:at] + bytes([other]) + text[at + 1:]
        yield 313, text[:at] + text[at + 1:]
        yield 313, text[:at + 1] + text[at:]


def strings():
    for text in make_strings.texts():
        yield 31, text


def groups():
    """The cases, by the base text that they share."""
    assert intake.read(RICH, 313)[0] == 0 and len(RICH) < 313
    plain = itertools.chain(rulings(), depths(), counts(), lengths(), tables(), linked(), names(), short(), strings())
    for base, cases in ((b"", plain), (RICH, damaged(RICH)), *make_names.groups()):
        yield base, (Case("reading", words, text) for words, text in cases)
