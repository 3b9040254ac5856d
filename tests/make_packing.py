"""The cases of packing and of unpacking: texts, and packings, with what is lent."""
import functools
import itertools

import make_judging
import make_localizing
import make_reading
import make_strings
from store import Case, Made, lent, noted, plain, rows_of

from check_packing import PAIRS, REFUSED, SHORT, NOT_PACKED
from duds import ASKED
from packing import DIGITS, HEAD, NAME, WIDEST, fields_of, unpack
from reading import ARRAY, MOST_DEPTH, MOST_WORDS, NULL, NUMBER, OBJECT, ROW_WORDS, STRING, Refused, tree

STEP = 29  # of the other services' texts one in so many is packed, but none of
LONG = 3000  # so many bytes,
BROAD = 1000  # and none with a base text of so many, whose line is long
FEW = 200  # bytes of a packing that is unpacked again
RICH = make_reading.RICH


def packed(text):
    """The packing of a text, or None."""
    try:
        return fields_of(text, tree(text, MOST_WORDS))
    except Refused:
        return None


def unpacked_size(packing):
    """The bytes of the compact text."""
    return unpack(packing, 0)[1]


def words_of(text):
    """The words that a text needs, or some."""
    return ROW_WORDS * (rows_of(text) or 2)


def decided():
    """What was decided by hand: with just what is needed, with a byte or a row less, and with some more."""
    for text, packing, _ in PAIRS:
        words, room = words_of(text), len(packing)
        yield from ((words, room, text), (words, room - 1, text), (words + 5, room + 3, text), (words - 1, room, text))
    yield from ((lent(words, text), min(room, 66000), text) for text, words, room, _ in REFUSED)
    yield from ((lent(case["words"], case["text"]), case["room"], case["text"]) for case in ASKED if case["service"] == "pack")


def rooms():
    """Every output that is too short for a text, and some that aren't; tables beside them."""
    for text in (b'{"a":[1]}', rb' [ "\u00e9\n" , { "" : null } ] '):
        for room in range(len(packed(text)) + 3):
            yield words_of(text), room, text
        for words in range(0, words_of(text) + 9, 5):
            yield words, len(packed(text)) - words % 2, text
    for room in range(0, len(packed(RICH)) + 2, 7):
        yield words_of(RICH), room, RICH


def wide():
    """About the widest content, by recipes: in strings with escapes, in names, numbers, deep inside, and by many small fields."""
    for more in (-1, 0, 1):
        for recipe, rows in (
                ('"%%5cn%%*%d,2;"' % (2 * (WIDEST + more) - 2), 1), ('"%%5cud83d%%5cuDE00%%*%d,12;%s"' % (12 * 16382, "a" * (WIDEST - 65532 + more)), 1),
                ("1%%*%d,1;e5" % (WIDEST + more - 3), 1), ('[[[["a%%*%d,1;"]]]]' % (WIDEST - 12 + more - 1), 5),
                ('{"a":{"b%%*%d,1;":null}}' % (WIDEST - 13 + more - 1), 3), ('{"a%%*%d,1;":"","b%%*%d,1;":""}' % (32760, WIDEST - 12 - 32761 + more - 1), 3),
                ('{"a":"b%%*%d,1;"}' % (WIDEST - 7 + more - 1), 2), ("[1,%%*%d,2;%s]" % (2 * 16381, ("1.5", "-1.5", "-1.55")[more + 1]), 16384)):
            for words, room in ((ROW_WORDS * rows, WIDEST + HEAD), (ROW_WORDS * rows, WIDEST + HEAD - 1), (ROW_WORDS * rows - 1, 0)):
                yield words, room, Made(recipe)
    for values, short in itertools.product((21845, 21846, 21847), (0, 1)):  # as many values as a packing has at most
        yield ROW_WORDS * values, WIDEST + HEAD - short, Made("[{},%%*%d,3;[]]" % (3 * (values - 3)))
    yield ROW_WORDS * 5959, WIDEST, Made('{"":null,"00000":null%#5956,13,7919;}')


def texts_of(groups):
    """One in STEP of the texts that other services are asked about, by their base texts."""
    seen, count = set(), 0
    for base, cases in groups:
        if len(base) >= BROAD:
            continue
        some = []
        for case in cases:
            if case.text not in seen and len(case.text) < LONG:
                seen.add(case.text)
                count += 1
                some += [case.text] if count % STEP == 0 else []
        yield base, some


@functools.lru_cache(maxsize=1)
def others():
    return [(base, texts) for one in (make_reading, make_judging, make_localizing) for base, texts in texts_of(one.groups()) if texts]


def fitted(texts):
    """With just enough room, or by turns with a little more or less."""
    for at, text in enumerate(texts):
        packing = packed(text)
        room = len(packing) if packing else 40
        yield words_of(text) + (0, 3, 0, 0, 8)[at % 5], max(0, room + (0, 2, 0, -1, 0)[at % 5]), text


def groups():
    """The cases of packing, by the base text that they share."""
    for base, some in ((b"", itertools.chain(decided(), rooms(), wide())), (RICH, fitted([RICH])), *((base, fitted(texts)) for base, texts in others())):
        yield base, [Case("packing", words, text, room) for words, room, text in some]


# packings


def field(tag, content):
    """A field by itself, as the request writes it."""
    return bytes([tag]) + len(content).to_bytes(2, "big") + content


def decided_packings():
    for text, packing, back in PAIRS:
        size = len(back or text)
        yield from ((size, packing), (size - 1, packing), (size + 3, packing))
    for packing in NOT_PACKED:
        yield from ((0, packing), (40, packing))
    yield from ((room, packing) for packing, room, _ in SHORT)
    yield from ((case["room"], case["text"]) for case in ASKED if case["service"] == "unpack")


def contents():
    """Strings and names of what strings of reading's have inside, as it is written there; and numbers of a few bytes."""
    for at, text in enumerate(make_strings.texts()):
        inside = text[1:-1]
        if max(inside, default=0) > 127 and at % 4 == 0:
            yield 40, field(STRING, inside) if at % 8 else field(OBJECT, field(NAME, inside) + field(NULL, b""))
    for byte in range(256):
        yield 40, field(STRING, bytes([byte]))
        yield 40, field(NUMBER, b"1" + bytes([byte]) if byte % 2 else bytes([byte]))
        yield 40, field(byte, b"")
    for size in (1, 2, 3, 4):
        for at, some in enumerate(itertools.product(b"-07.e+", repeat=size)):
            if size < 4 or (DIGITS.fullmatch(bytes(some)) and at % 4 == 1) or at % 11 == 0:
                yield 40, field(NUMBER, bytes(some))


def near(packing, others, step=1):
    """A packing cut at each byte, with bytes behind it, and with each byte changed, left out or doubled; of all that one in `step`."""
    changed = [packing + bytes([more]) for more in (0, 1, 8, 255)] + [packing[:at] for at in range(len(packing))]
    for at in range(len(packing)):
        for other in others:
            changed.append(packing[:at] + bytes([other]) + packing[at + 1:])
        changed += [packing[:at] + bytes([packing[at] ^ 1]) + packing[at + 1:], packing[:at] + packing[at + 1:], packing[:at + 1] + packing[at:]]
    yield from changed[::step]


def damaged():
    """What is near a short packing, near a card of each kind of value, and some of what is near a longer one."""
    small = packed(b'{"a":[1]}')
    yield b"", [(40, some) for some in near(small, (0, 1, 4, 5, 8, 9, 255))]
    each = packed(rb'{"n":null,"a":[true,-1.5e3,""],"\u00e9":{"x":"\u0001"}}')
    yield each, [(100, some) for some in near(each, (0, 2, 3, 7, 8, 65, 128, 255), 3)]
    rich = packed(RICH)
    yield rich, [(400, some) for some in near(rich, (0, 5, 6, 200), 7)]


def named(count, more=b"", name="00000", step=7919):
    """The recipe of an object of so many members, each a name of digits with null, and some members more."""
    size = count * 11 + len(more)
    return Made("%%07%%%02x%%%02x%%08%%00%%05%s%%01%%00%%00%%#%d,11,%d;%s" % (size // 256, size % 256, name, count - 1, step, "".join("%%%02x" % b for b in more)))


def nested(inside, levels, tag):
    """A field in so many arrays, or objects of one member: heads alone come before it."""
    whole = inside
    for _ in range(levels):
        whole = field(tag, (field(NAME, b"") if tag == OBJECT else b"") + whole)
    return Made(plain(whole[:len(whole) - len(inside)]) + noted(inside))


def nests():
    """The greatest depth, with a string, what is no character, many names and a repeated one at the bottom; and one deeper."""
    good, bad = field(STRING, "\U0001f600\n".encode()), field(STRING, b"\xf0\x9f\x98")
    names = [named(count, more) for count in (1, 20, 300, 5000) for more in (b"", field(NAME, b"00000") + field(NULL, b""))]
    for tag in (ARRAY, OBJECT):
        for bottom, levels in ((good, MOST_DEPTH), (bad, MOST_DEPTH), (good, MOST_DEPTH + 1), *((some, MOST_DEPTH - 1) for some in names), (names[0], MOST_DEPTH)):
            yield 70000, nested(bottom, levels, tag)


def many():
    """Objects of many members, of which none or the last or one between stands twice; the widest."""
    null = field(NULL, b"")
    for count in (2, 7, 8, 9, 10, 16, 17, 40, 300, 5956):
        for step in (1, 7919, 99999):
            if count < 5956 or step == 7919:
                yield 16 * count, named(count, step=step)
                yield 16 * count + 20, named(count, field(NAME, b"00000") + null, step=step)
        yield 16 * count + 20, named(count, field(NAME, b"0000") + null)
        yield 16 * count + 20, named(count, field(NAME, b"%05d" % (7919 * (count // 2) % 100000)) + null)
        yield 16 * count - 1, named(count)
    for byte, size in (("a", 1), ("%01", 6), ("%22", 2), ("%7f", 1), ("%0d", 2)):
        for room in (size * WIDEST + 2, size * WIDEST + 1):
            yield room, Made("%%05%%ff%%ff%s%%*65534,1;" % byte)
    yield 400000, Made("%05%ff%ff%01%*65533,1;%80")
    yield 400000, Made("%05%ff%ff%01%*65535,1;")
    for count in (21845, 21844):
        yield 6 * count, Made("%%06%%ff%%ff%%02%%00%%00%%*%d,3;" % (3 * count - 3))
    yield 2, Made("%06%ff%ff%08%00%00%*65532,3;")
    yield 2, Made("%06%ff%ff%05%00%00%*65532,3;")
    yield 65537, Made("%06%ff%ff%05%00%00%*65532,3;")
    yield 70000, Made("%07%ff%ff%08%00%00%05%00%00%*65526,6;")
    yield 9, Made("%00%*1049999,1;")
    yield 9, Made("%05%ff%ff%*1049990,1;")


def packings():
    """The packings of other services' texts, by their base texts' packings."""
    for base, texts in others():
        some = []
        for text in texts:
            packing = packed(text)
            if packing and len(packing) < FEW:
                some.append(packing)
        yield (packed(base) or b"") if base else b"", [(max(0, unpacked_size(one) + (0, 0, 2, -1)[at % 4]), one) for at, one in enumerate(some)]


def sweeps():
    """Every output that is too short, and some that aren't."""
    for text in (b'{"a":[1]}', rb'["\u0001\"",{"":null}]', b"[null,true,false]"):
        for room in range(len(text) + 3):
            yield room, packed(text)


def unpacked():
    """The cases of unpacking, by the packing that they share."""
    for base, some in ((b"", itertools.chain(decided_packings(), contents(), nests(), many(), sweeps())), *damaged(), *packings()):
        yield base, [Case("unpacking", 0, packing, room) for room, packing in some]
