"""Holds packing and unpacking, as the second implementation has them, to answers decided by hand and to each other: python3 tests/second/check_packing.py

Packings are written as bytes in hexadecimal, with plain text in single quotes between them.
"""
import itertools
import random
import re
import sys

import packing as second
from packing import pack, unpack
from reading import MOST_BYTES, MOST_WORDS, read

ALL = MOST_WORDS
ROOM = 400000  # more than any packing's compact text has
FEW = 600  # words, and bytes, for a short text


def h(said):
    """The bytes that are meant."""
    return b"".join(text.encode() if text else bytes.fromhex(code) for text, code in re.findall(r"'([^']*)'|([0-9a-f]+)", said))


# Pairs of a text and its packing, which unpacks to a third: that text where nothing is said.
PAIRS = [
    # each kind, alone
    (b"null", h("01 0000"), None), (b"false", h("02 0000"), None), (b"true", h("03 0000"), None), (b"0", h("04 0001 '0'"), None), (b'""', h("05 0000"), None),
    (b"[]", h("06 0000"), None), (b"{}", h("07 0000"), None), (b" \t\n\r[ ] ", h("06 0000"), b"[]"), (b'"a"', h("05 0001 'a'"), None),
    # the request's own, spaces, order, empty names
    (b'{"a":[1]}', h("07 000b 08 0001 'a' 06 0004 04 0001 '1'"), None), (b' { "a" : [ 1 ] } ', h("07 000b 08 0001 'a' 06 0004 04 0001 '1'"), b'{"a":[1]}'),
    (b"[null,false,true]", h("06 0009 01 0000 02 0000 03 0000"), None), (b'{"b":1,"a":2}', h("07 0010 08 0001 'b' 04 0001 '1' 08 0001 'a' 04 0001 '2'"), None),
    (b'{"a":2,"b":1}', h("07 0010 08 0001 'a' 04 0001 '2' 08 0001 'b' 04 0001 '1'"), None), (b'{"":""}', h("07 0006 08 0000 05 0000"), None),
    (b'{"":{"":{}}}', h("07 000c 08 0000 07 0006 08 0000 07 0000"), None), (b"[[],[[]],{}]", h("06 000c 06 0000 06 0003 06 0000 07 0000"), None),
    (b'[{"a":null},{"a":null}]', h("06 0014 07 0007 08 0001 'a' 01 0000 07 0007 08 0001 'a' 01 0000"), None),
    (b'{"a":{"a":1},"A":1}', h("07 0017 08 0001 'a' 07 0008 08 0001 'a' 04 0001 '1' 08 0001 'A' 04 0001 '1'"), None),
    # numbers as written
    (b"-0", h("04 0002 '-0'"), None), (b"-0.0", h("04 0004 '-0.0'"), None), (b"0e0", h("04 0003 '0e0'"), None), (b"1E400", h("04 0005 '1E400'"), None),
    (b"1e+400", h("04 0006 '1e+400'"), None), (b"1.0", h("04 0003 '1.0'"), None), (b"1", h("04 0001 '1'"), None), (b"10e-1", h("04 0005 '10e-1'"), None),
    (b"123456789012345678901234567890.10", h("04 0021 '123456789012345678901234567890.10'"), None),
    # strings and names decoded; only what must be escaped is, in the shortest way
    (rb'"\u0061\u00e9\u20AC\ud83d\uDE00"', h("05 000a 61 c3a9 e282ac f09f9880"), "\"aé€😀\"".encode()), (rb'"\/"', h("05 0001 '/'"), b'"/"'), (b'"/"', h("05 0001 '/'"), None),
    (rb'"\"\\"', h("05 0002 22 5c"), None), (rb'"\u0022\u005C"', h("05 0002 22 5c"), rb'"\"\\"'), (rb'"\b\f\n\r\t"', h("05 0005 08 0c 0a 0d 09"), None),
    (rb'"\u0008\u000C\u000a\u000D\u0009"', h("05 0005 08 0c 0a 0d 09"), rb'"\b\f\n\r\t"'), (rb'"\u0000"', h("05 0001 00"), None), (rb'"\u001F"', h("05 0001 1f"), rb'"\u001f"'),
    (rb'"\u000B\u000e"', h("05 0002 0b 0e"), rb'"\u000b\u000e"'), (rb'"\u007f"', h("05 0001 7f"), b'"\x7f"'), (b'"\x7f"', h("05 0001 7f"), None),
    (rb'"\u0080"', h("05 0002 c280"), b'"\xc2\x80"'), (rb'"\u2028\u2029"', h("05 0006 e280a8 e280a9"), b'"\xe2\x80\xa8\xe2\x80\xa9"'),
    (rb'"\uFEFF"', h("05 0003 efbbbf"), b'"\xef\xbb\xbf"'), (rb'"\ufffd\uFDCF\ufdf0"', h("05 0009 efbfbd efb78f efb7b0"), b'"\xef\xbf\xbd\xef\xb7\x8f\xef\xb7\xb0"'),
    (rb'"\uD7FF\uE000"', h("05 0006 ed9fbf ee8080"), b'"\xed\x9f\xbf\xee\x80\x80"'), (rb'"\uDBFF\uDFFD"', h("05 0004 f48fbfbd"), b'"\xf4\x8f\xbf\xbd"'),
    (rb'"\uD800\uDC00"', h("05 0004 f0908080"), b'"\xf0\x90\x80\x80"'), (rb'"\\u0061"', h("05 0006 5c 'u0061'"), None), (b'"<\'&>"', h("05 0004 '<' 27 '&>'"), None),
    (rb'{"\u0061\/\n":1}', h("07 000a 08 0003 61 2f 0a 04 0001 '1'"), rb'{"a/\n":1}'), (rb'{"\"":"\u0001"}', h("07 0008 08 0001 22 05 0001 01"), None),
    (b"".join((b'"', *(b"\\u%04x" % code for code in range(32)), b'"')), h("05 0020") + bytes(range(32)),
     rb'"\u0000\u0001\u0002\u0003\u0004\u0005\u0006\u0007\b\t\n\u000b\f\r\u000e\u000f\u0010\u0011\u0012\u0013\u0014\u0015\u0016\u0017\u0018\u0019\u001a\u001b\u001c\u001d\u001e\u001f"'),
    # a length of two bytes, the high one first
    (b'"' + b"a" * 255 + b'"', h("05 00ff") + b"a" * 255, None), (b'"' + b"a" * 256 + b'"', h("05 0100") + b"a" * 256, None),
    (b'"' + b"a" * 258 + b'"', h("05 0102") + b"a" * 258, None), (b"1" * 513, h("04 0201") + b"1" * 513, None),
    (b"[" + b"0," * 63 + b"0]", h("06 0100") + h("04 0001 '0'") * 64, None), (b'{"' + b"n" * 256 + b'":0}', h("07 0107 08 0100") + b"n" * 256 + h("04 0001 '0'"), None),
    # the widest: 65,535 bytes of a string, a number, an array, an object; a name is never so long, since its object is longer
    (b'"' + b"a" * 65535 + b'"', h("05 ffff") + b"a" * 65535, None), (b"1" * 65535, h("04 ffff") + b"1" * 65535, None),
    (b"[" + b"null," * 21844 + b"null]", h("06 ffff") + h("01 0000") * 21845, None), (b'["' + b"a" * 65532 + b'"]', h("06 ffff 05 fffc") + b"a" * 65532, None),
    (b'{"' + b"n" * 65529 + b'":null}', h("07 ffff 08 fff9") + b"n" * 65529 + h("01 0000"), None),
    (b'{"":"' + b"a" * 65529 + b'"}', h("07 ffff 08 0000 05 fff9") + b"a" * 65529, None), (b'"' + rb"\u0001" * 65535 + b'"', h("05 ffff") + b"\1" * 65535, None),
    (b'"' + b"\xc3\xa9" * 32767 + b'\x7f"', h("05 ffff") + b"\xc3\xa9" * 32767 + b"\x7f", None),
    # the greatest depth
    (b"[" * 64 + b"]" * 64, b"".join(h("06") + (3 * (63 - at)).to_bytes(2, "big") for at in range(64)), None),
    (b'{"":' * 63 + b"{}" + b"}" * 63, b"".join((h("08 0000") if at else b"") + h("07") + (6 * (63 - at)).to_bytes(2, "big") for at in range(64)), None),
    (b"[" * 63 + b"[0]" + b"]" * 63, b"".join(h("06") + (3 * (63 - at) + 4).to_bytes(2, "big") for at in range(64)) + h("04 0001 '0'"), None)]

# What packing refuses: the text, the words of the table, the bytes of the output, and the answer.
REFUSED = [
    # reading's come first, whatever is lent
    (b"", 0, 0, (2, 0)), (b"x", ALL, 9, (2, 0)), (b"[1", 0, 0, (2, 2)), (rb'"\ud800"', 0, 0, (3, 1)), (b'"\xff"', ALL, 9, (3, 1)), (rb'"\uFFFE"', ALL, 9, (3, 1)),
    (b'{"a":1,"a":1}', 0, 0, (4, 7)), (rb'{"a":1,"\u0061":1}', ALL, 99, (4, 7)), (rb'{"/":1,"\/":1}', ALL, 99, (4, 7)), (rb'{"\u000a":1,"\n":1}', ALL, 99, (4, 12)),
    (b"[" * 65 + b"]" * 65, ALL, 999, (5, 64)), (b"[" + b"0," * 32767 + b"0]", ALL, ROOM, (6, 65535)), (b" " * MOST_BYTES + b"0", ALL, 9, (1, 0)),
    (b'{"a":1,"a":"' + b"a" * 65536 + b'"}', 0, 0, (4, 7)),
    # then 7
    (b"1", 7, 9, (7, 1)), (b'{"a":[1]}', 23, 14, (7, 3)), (b'{"a":[1]}', 0, 0, (7, 3)), (b'"' + b"a" * 65536 + b'"', 0, ROOM, (7, 1)),
    (b'["' + b"a" * 65536 + b'"]', 15, 0, (7, 2)), (b"[" + b"0," * 32766 + b"0]", ALL - 1, ROOM, (7, 32768)),
    # then 51, wherever the content is
    (b'"' + b"a" * 65536 + b'"', 8, ROOM, (51, 0)), (b'"' + b"a" * 65536 + b'"', 8, 0, (51, 0)), (b'"' + rb"\u0061" * 65536 + b'"', 8, ROOM, (51, 0)),
    (b"1" * 65536, 8, ROOM, (51, 0)), (b'{"' + b"n" * 65536 + b'":1}', 16, ROOM, (51, 0)), (b'{"' + b"n" * 65535 + b'":1}', 16, ROOM, (51, 0)),
    (b'{"' + b"n" * 65530 + b'":null}', 16, ROOM, (51, 0)), (b'{"":"' + b"a" * 65530 + b'"}', 16, ROOM, (51, 0)), (b'["' + b"a" * 65533 + b'"]', 16, ROOM, (51, 0)),
    (b'["' + b"a" * 65535 + b'"]', 16, 65540, (51, 0)), (b"[" + b"null," * 21845 + b"null]", ALL, ROOM, (51, 0)), (b"[" + b"0," * 32766 + b"0]", ALL, ROOM, (51, 0)),
    (b'[[[["' + b"a" * 65536 + b'"]]]]', ALL, 0, (51, 0)), (b'[["' + b"a" * 32764 + b'"],["' + b"a" * 32764 + b'"]]', ALL, ROOM, (51, 0)),
    (b'"' + rb"\u0001" * 65536 + b'"', 8, ROOM, (51, 0)), (b'"' + b"\xc3\xa9" * 32768 + b'"', 8, ROOM, (51, 0)),
    # then 52, with the bytes needed
    (b'{"a":[1]}', 24, 13, (52, 14)), (b'{"a":[1]}', 24, 0, (52, 14)), (b"null", 8, 2, (52, 3)), (b"null", 8, 0, (52, 3)), (rb'"\u0061"', 8, 3, (52, 4)),
    (b'"' + b"a" * 65535 + b'"', 8, 65537, (52, 65538)), (b'"' + b"a" * 65535 + b'"', 8, 65535, (52, 65538)), (b"[" * 64 + b"]" * 64, ALL, 191, (52, 192))]

# What unpacking refuses as 53.
NOT_PACKED = [
    # no field, half a head, a length that isn't there, bytes left over
    b"", h("01"), h("01 00"), h("05"), h("05 00"), h("01 0000 00"), h("01 0000 01 0000"), h("05 0001"), h("05 0002 'a'"), h("05 0001 'ab'"), h("05 0100 'a'"),
    h("04 0001 '1' 20"), h("20 04 0001 '1'"), h("06 0000 06 0000"), h("07 000b 08 0001 'a' 06 0004 04 0001 '1' 00"), h("05 0000 0a"),
    # the same inside of arrays and objects: lengths that don't add up
    h("06 0001 01"), h("06 0002 01 00"), h("06 0003 01 0001"), h("06 0004 01 0000 00"), h("06 0002 01 0000"), h("06 0004 01 0000"), h("06 0004 05 0002 'a'"),
    h("06 0005 05 0002 'a' 01 0000"), h("07 000b 08 0001 'a' 06 0003 04 0001 '1'"), h("07 000b 08 0001 'a' 06 0005 04 0001 '1'"),
    h("07 000a 08 0001 'a' 06 0004 04 0001 '1'"), h("07 000c 08 0001 'a' 06 0004 04 0001 '1'"), h("06 0007 06 0003 01 0001 'a'"),
    # the low byte first
    h("05 0100 'a'"), h("06 0300 01 0000"),
    # tags: none, beyond, a name that stands elsewhere
    h("00 0000"), h("09 0000"), h("ff 0000"), h("41 0000"), h("08 0001 'a'"), h("08 0000"), h("06 0003 08 0000"), h("06 0007 08 0001 'a' 01 0000"), h("06 0003 00 0000"),
    h("06 0003 09 0000"), h("07 0006 08 0000 00 0000"), h("07 0006 08 0000 09 0000"), h("08 0001 'a' 01 0000"), h("85 0000"),
    # fields of an object: a name and a value by turns
    h("07 0003 08 0000"), h("07 0003 01 0000"), h("07 0006 01 0000 08 0000"), h("07 0006 08 0000 08 0000"), h("07 0007 08 0000 08 0001 'a'"), h("07 0006 01 0000 01 0000"),
    h("07 0007 05 0001 'a' 01 0000"), h("07 0009 08 0000 01 0000 01 0000"), h("07 0009 08 0000 01 0000 08 0000"), h("07 000a 08 0000 01 0000 08 0001 'a'"),
    h("07 000a 08 0000 08 0001 'a' 01 0000"),
    # content in null, false and true
    h("01 0001 00"), h("01 0004 'null'"), h("02 0001 00"), h("02 0005 'false'"), h("03 0001 '1'"), h("03 0004 'true'"), h("06 0004 01 0001 00"), h("03 0003 01 0000"),
    # a number that isn't one number
    h("04 0000"), h("04 0001 '-'"), h("04 0002 '01'"), h("04 0002 '+1'"), h("04 0002 '1.'"), h("04 0002 '.5'"), h("04 0002 '1e'"), h("04 0003 '1e+'"), h("04 0002 '1' 20"),
    h("04 0002 20 '1'"), h("04 0003 '1,2'"), h("04 0002 '1' 0a"), h("04 0002 '1' 00"), h("04 0001 'a'"), h("04 0004 '1e5.'"), h("04 0003 '--1'"), h("04 0003 'NaN'"),
    h("04 0004 'null'"), h("04 0003 '0x1'"), h("04 0002 '-' 00"), h("04 0003 '-01'"), h("04 0002 '00'"), h("04 0003 '1 2'"), h("04 0004 '1e 5'"), h("04 0003 22 '1' 22"),
    h("04 0003 '1e+' 35"), h("04 0002 d9a1"),
    # a number, or a character, that goes on behind its content
    h("06 0008 04 0002 '1.' 04 0001 '5'"), h("06 0009 05 0001 c3 05 0002 a9 'a'"), h("05 0001 c3 a9"),
    # characters: bad UTF-8, surrogates, noncharacters; in names too
    h("05 0001 80"), h("05 0001 bf"), h("05 0001 c3"), h("05 0001 ff"), h("05 0002 c080"), h("05 0002 c1bf"), h("05 0002 c328"), h("05 0003 e08080"), h("05 0003 e09fbf"),
    h("05 0002 e282"), h("05 0003 eda080"), h("05 0003 edbfbf"), h("05 0006 eda0bd edb880"), h("05 0004 f0808080"), h("05 0004 f08fbfbf"), h("05 0003 f09f98"),
    h("05 0004 f4908080"), h("05 0004 f5808080"), h("05 0003 efb790"), h("05 0003 efb7af"), h("05 0003 efbfbe"), h("05 0003 efbfbf"), h("05 0004 f09fbfbe"),
    h("05 0004 f09fbfbf"), h("05 0004 f48fbfbe"), h("05 0004 f48fbfbf"), h("05 0005 'a' efbfbe 'a'"), h("07 0007 08 0001 80 01 0000"), h("07 0009 08 0003 efbfbf 01 0000"),
    h("07 0009 08 0003 eda080 01 0000"), h("07 0008 08 0002 c080 01 0000"), h("05 0003 'a' 80 'a'"),
    # a name twice in an object
    h("07 000c 08 0000 01 0000 08 0000 01 0000"), h("07 000e 08 0001 'a' 01 0000 08 0001 'a' 02 0000"), h("07 0015 08 0001 'a' 01 0000 08 0001 'b' 01 0000 08 0001 'a' 01 0000"),
    h("06 000f 07 000c 08 0000 01 0000 08 0000 01 0000"), h("07 0012 08 0000 07 000c 08 0000 01 0000 08 0000 01 0000"), h("07 000e 08 0001 0a 01 0000 08 0001 0a 01 0000"),
    # over the depth
    b"".join(h("06") + (3 * (64 - at)).to_bytes(2, "big") for at in range(65)),
    b"".join((h("08 0000") if at else b"") + h("07") + (6 * (64 - at)).to_bytes(2, "big") for at in range(65)),
    b"".join(h("06") + (3 * (64 - at)).to_bytes(2, "big") for at in range(64)) + h("07 0000"),
    # texts, and the widest with a byte more or less
    b'{"a":[1]}', b"null", h("05 ffff") + b"a" * 65534, h("05 ffff") + b"a" * 65536, h("06 ffff") + h("01 0000") * 21846, h("06 ffff") + h("01 0000") * 21844,
    h("05 0000") + b"a" * 65536]

# What unpacking refuses as 52: the packing, the bytes lent and those needed. 53 comes first.
SHORT = [
    (h("01 0000"), 3, 4), (h("01 0000"), 0, 4), (h("05 0000"), 1, 2), (h("07 000b 08 0001 'a' 06 0004 04 0001 '1'"), 8, 9), (h("05 0001 01"), 7, 8), (h("05 0001 22"), 3, 4),
    (h("05 0001 0a"), 3, 4), (h("05 0001 7f"), 2, 3), (h("05 0001 2f"), 2, 3), (h("05 ffff") + b"\1" * 65535, 393211, 393212), (h("05 ffff") + b"a" * 65535, 65536, 65537),
    (h("06 0009 01 0000 02 0000 03 0000"), 16, 17)]


def faults_of_decided():
    for text, packed, back in PAIRS:
        rows = read(text, ALL)[1]
        said, again = pack(text, ALL, len(packed)), unpack(packed, ROOM)
        if said[:3] != (0, rows, len(packed)) or said[4] != packed or said[3] != read(text, ALL)[2]:
            yield f"{text[:80]!r}: packed to {said[:3]} {said[4][:80].hex(' ')}"
        if again[:3] != (0, rows, len(back or text)) or again[3].rstrip(b"\0") != (back or text):
            yield f"{text[:80]!r}: unpacked to {again[:3]} {again[3][:80].rstrip(chr(0).encode())!r}"
        if pack(text, 8 * rows, len(packed) - 1)[:3] != (52, len(packed), 0) or unpack(packed, len(back or text) - 1)[:3] != (52, len(back or text), 0):
            yield f"{text[:80]!r}: a byte short"
    for text, words, room, wanted in REFUSED:
        said = pack(text, words, room)
        if said != (*wanted, 0, [0] * words, bytes(room)):
            yield f"{text[:80]!r} on {words} and {room}: {said[:3]}, decided {wanted}"
    for packed in NOT_PACKED:
        for room in (0, 1000):
            if unpack(packed, room) != (53, 0, 0, bytes(room)):
                yield f"{packed[:80].hex(' ')}: {unpack(packed, room)[:3]}, decided 53"
    for packed, room, needed in SHORT:
        if unpack(packed, room) != (52, needed, 0, bytes(room)) or unpack(packed, needed)[::2] != (0, needed):
            yield f"{packed[:80].hex(' ')} on {room}: {unpack(packed, room)[:3]}, decided 52 {needed}"


def faults_of_limits():
    """The limits of values and of bytes, which nothing that is packed can break: so smaller ones, asked of `[null,null]`."""
    kept, packed = (second.MOST_VALUES, second.MOST_BYTES), h("06 0006 010000 010000")
    for values, size, wanted in ((3, 11, 0), (2, 11, 53), (3, 10, 53)):
        second.MOST_VALUES, second.MOST_BYTES = values, size
        for room in (11, 12):
            if unpack(packed, room)[0] != wanted:
                yield f"{packed.hex(' ')} with {values} values and {size} bytes: {unpack(packed, room)[:3]}, decided {wanted}"
    second.MOST_VALUES, second.MOST_BYTES = kept


def small_texts():
    """All texts that are built in two steps of a few leaves."""
    leaves = [b"null", b"false", b"true", b"0", b"-0", b"10", b'""', b'"a"', rb'"\n"', rb'"\u0001"', b'"\xc3\xa9"', b"[]", b"{}"]
    once = leaves + [b"[%s]" % b",".join(some) for size in (1, 2) for some in itertools.product(leaves, repeat=size)]
    once += [b'{"a":%s}' % leaf for leaf in leaves] + [b'{"a":%s,"b":%s}' % some for some in itertools.product(leaves, repeat=2)]
    return list(dict.fromkeys(once + [form % one for form in (b"[%s]", b'{"":%s}', b"[0,%s]", b'{"b":{"b":%s}}') for one in once]))


def near(packed, dice):
    """A packing with a few bytes changed, put in or taken out."""
    some = bytearray(packed)
    for _ in range(dice.randint(1, 3)):
        at = dice.randrange(len(some) + 1)
        some[at:at + dice.randrange(2)] = bytes([dice.choice((*range(12), *b"a01-e.", 0x7F, 0x80, 0xC3, 0xFF))] * dice.randrange(2))
    return bytes(some)


def packed_of(text):
    """The packing of a short text, on a table and an output that are large enough."""
    number, _, written, _, out = pack(text, FEW, FEW)
    assert number == 0, text
    return out[:written]


def faults_of_others(packings):
    """By the request's words: what packing wrote is accepted, and of what is near it just what packing writes too; no two values share a packing."""
    dice, known = random.Random(12), set(packings.values())
    if len(known) < len(packings):
        yield "two texts have one packing"
    for text, packed in packings.items():
        number, values, size, out = unpack(packed, FEW)
        if (number, values) != read(text, FEW)[:2] or out[:size] != text:
            yield f"{text!r}: packed to {packed.hex(' ')}, which is unpacked to {number} {values} {out[:size]!r}"
        for _ in range(12):
            other = near(packed, dice)
            number, _, size, out = unpack(other, FEW)
            if number == 0 and packed_of(out[:size]) != other:
                yield f"{other.hex(' ')}: unpacked to {out[:size]!r}, which has another packing"
            if number and other in known:
                yield f"{other.hex(' ')}: refused, though packing writes it"


def main():
    packings = {text: packed_of(text) for text in small_texts()}
    faults = [*faults_of_decided(), *faults_of_limits(), *faults_of_others(packings)]
    for fault in faults:
        print(fault)
    count = len(PAIRS) + len(REFUSED) + len(NOT_PACKED) + len(SHORT)
    print(f"packing: {count} answers decided by hand, {len(packings)} texts with what is near their packings, {len(faults)} faults")
    return 1 if faults else 0


if __name__ == "__main__":
    sys.exit(main())
