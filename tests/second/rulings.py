"""The inputs of the rulings (AMB-01 to AMB-52, and those on the key at fault) and the specimens of the rules paper, each with the answer that we take.

`{..` at the start of a text stands for `{` and the three mandatory members. Wanted is OK, (number, second) or the bytes that are written.
The table has a row for each value that a text may have, the output is as long as the text, the language is `de`, unless stated.
"""
from program import WORDS
from reading import MOST_DEPTH, MOST_WORDS

MUST = b'"@type":"Card","version":"1.0","uid":"u1"'
OK = "accepted"
END = "the end"


def whole(text):
    return b"{" + MUST + text[3:] if text.startswith(b"{..") else text


def case(service, text, wanted, words=MOST_WORDS, room=None, language=b"de"):
    text = whole(text)
    return {
        "service": service, "text": text, "wanted": whole(wanted) if isinstance(wanted, bytes) else wanted,
        "words": words, "room": len(text) if room is None else room, "language": language}


def read(text, wanted, **more):
    return case("read", text, wanted, **more)


def judge(text, wanted, **more):
    return case("judge", text, wanted, **more)


def localize(text, wanted, **more):
    return case("localize", text, wanted, **more)


def program(text, wanted):
    """The program's line for an input; the table is its own."""
    return case("program", text, wanted, words=WORDS)


def pieces(*calls, wanted):
    """Reading in pieces: what is given piece by piece, or END, and what the last call answers. Wanted is (number, second), "go on" (0, 0)."""
    return {**case("pieces", b"".join(call for call in calls if call != END), wanted, words=0), "calls": calls}


def pack(text, wanted, room=None, **more):
    """Packing; the output has room for any packing of the text, unless stated. Wanted may be the packing."""
    return case("pack", text, wanted, room=min(4 * len(text), 65538) if room is None else room, **more)


def unpack(packed, wanted, room=None):
    """Unpacking; there is no table, and the output has room for the compact text, unless stated."""
    return case("unpack", packed, wanted, words=0, room=6 * len(packed) if room is None else room)


def grown(first, last):
    """A card whose property x holds objects down to the last depth, and a patch that adds a value to the innermost."""
    levels = MOST_DEPTH - 2
    deep = b'{"a":' * levels + b"{}" + b"}" * levels
    return b'{..,"x":' + deep + b',"localizations":{"de":{' + first + b'"x' + b"/a" * levels + b'/k":' + last + b"}}}"


RULINGS = [
    # AMB-01 The place of no. 2 inside literals, numbers and escapes
    read(rb'nulx', (2, 3)),
    read(rb'01', (2, 1)),
    read(rb'1.e5', (2, 2)),
    read(rb'1e5.5', (2, 3)),
    read(rb'"\x41"', (2, 2)),
    read(rb'"\u12G4"', (2, 5)),
    read(rb'[1 2]', (2, 3)),
    read(rb'1x', (2, 1)),
    read(rb'+1', (2, 0)),
    read(rb'-x', (2, 1)),
    # AMB-02 Tokens cut by the end of the text; texts of white space only
    read(rb'-', (2, 1)),
    read(rb'1.', (2, 2)),
    read(rb'[1e+', (2, 4)),
    read(rb'nul', (2, 3)),
    read(rb'"\u12', (2, 5)),
    read(rb'   ', (2, 3)),
    read(b'', (2, 0)),
    # AMB-03 Byte order marks that are not at the start, and U+FEFF in strings
    read(b'\xef\xbb\xbf{}', (2, 0)),
    read(b' \xef\xbb\xbf1', (2, 1)),
    read(b'"\xef\xbb\xbf"', OK),
    read(rb'"\uFEFF"', OK),
    read(b'\xef\xbb\xbf' + b' ' * 1048574, (1, 0)),
    read(b'\xef\xbb\xbf' + b' ' * 1048573, (2, 0)),
    # AMB-04 NUL and other controls
    read(b'1\x00', (2, 1)),
    read(b'"\x00"', (2, 1)),
    read(b'\x0c1', (2, 0)),
    read(b'"\x7f"', OK),
    # AMB-05 UTF-8 sequences cut by the end: 3 or 2?
    read(b'"\xe2\x82', (3, 1)),
    read(b'"\xc3', (3, 1)),
    read(b'"\xc3\x01"', (3, 1)),
    read(b'"\xc3\xa9', (2, 3)),
    # AMB-06 Which byte of a malformed sequence
    read(b'"\xe2(\xa1"', (3, 1)),
    read(b'"\xf0\x9f\x98"', (3, 1)),
    read(b'"\xed\xa0\x80"', (3, 1)),
    read(b'"\xe2\x82\xac\x80"', (3, 4)),
    read(b'"\xe2\x82\xe2\x82\xac"', (3, 1)),
    # AMB-07 A high surrogate escape at the end of the text, or before a broken escape
    read(rb'"\uD800', (3, 1)),
    read(rb'"\uD800\uDC0', (3, 1)),
    read(rb'"\uD800\uDC0G"', (3, 1)),
    read(rb'"\uD80', (2, 6)),
    read(rb'"\uD800\x"', (3, 1)),
    read(rb'"\uD800\uD800\uDC00"', (3, 1)),
    # AMB-08 The place of a noncharacter that is written as a surrogate pair
    read(rb'"\uD83F\uDFFE"', (3, 1)),
    read(rb'"ab\uDBFF\uDFFF"', (3, 3)),
    read(rb'"\uFFFE', (3, 1)),
    read(rb'"\uD83F\uDFFE', (3, 1)),
    # AMB-09 A repeated name with nothing after it
    read(rb'{"a":1,"a"', (4, 7)),
    read(rb'{"a":1,"a"x', (4, 7)),
    read(rb'{"a":1,"a', (2, 9)),
    read(rb'{"a":1,"a\uD800":2}', (3, 9)),
    read(b'{"a":1,"a\x0a":2}', (2, 9)),
    # AMB-10 No. 4 against faults between the two names
    read(rb'{"a":"\uD800","a":1}', (3, 6)),
    read(rb'{"a":1,"a":"\uD800"}', (4, 7)),
    read(rb'{"a":1,"a":2,"a":3}', (4, 7)),
    # AMB-11 5 and 6 on one bracket
    read(b'[' * 64 + b'0,' * 32704 + b'[', (5, 65472)),  # the 32,769th value and the 65th bracket
    # AMB-12 When does a value begin?
    read(b'[' + b'0,' * 32767 + b'-x', (6, 65535)),
    read(b'[' + b'0,' * 32767 + b'tru', (6, 65535)),
    read(b'[' + b'0,' * 32767 + b'x', (2, 65535)),
    read(b'[' + b'0,' * 32767 + rb'"\uD800"', (6, 65535)),
    # AMB-13 Empty tables, and lengths that are no multiple of eight
    read(rb'{"a":[1]}', (7, 3), words=23),
    read(rb'{"a":[1]}', OK, words=31),
    read(rb'0', (7, 1), words=0),
    read(rb'x', (2, 0), words=0),
    judge(rb'5', (7, 1), words=7),
    read(rb'1', (7, 1), words=6),  # a row, when it had six words
    read(rb'1', (7, 1), words=7),
    read(rb'1', OK, words=8),
    read(rb'1', OK, words=15),
    read(rb'[1]', (7, 2), words=15),
    read(rb'[1]', OK, words=16),
    read(rb'[1,2]', (7, 3), words=18),
    # AMB-14 Null: 11 or 13?
    judge(rb'{..,"kind":null}', (11, 50)),
    judge(rb'{"@type":"Card","version":"1.0","uid":null}', (11, 38)),
    judge(rb'{..,"kind":"group","members":{"a":null}}', (11, 73)),
    # AMB-15 A root that is no object
    judge(rb' []', (11, 1)),
    judge(rb'null', (11, 0)),
    # AMB-16 A nested @type of the wrong kind
    judge(rb'{..,"name":{"full":"A","@type":5}}', (11, 70)),
    judge(rb'{..,"name":{"full":"A","@type":null}}', (11, 70)),
    judge(rb'{"@type":5,"version":"1.0","uid":"u"}', (11, 9)),
    # AMB-17 14 on the parent hides 11 on the member
    judge(rb'{..,"name":{"full":5}}', (14, 50)),
    judge(rb'{..,"name":{"components":{}}}', (14, 50)),
    judge(rb'{..,"name":{"isOrdered":1,"components":[{"kind":"given","value":"Ann"}],"defaultSeparator":""}}', (14, 50)),
    judge(rb'{..,"kind":5,"members":{}}', (14, 0)),
    # AMB-18 members of the right kind with wrong entries
    judge(rb'{..,"members":{"a":1}}', (14, 0)),
    judge(rb'{..,"members":{"a":false}}', (14, 0)),
    judge(rb'{..,"members":[]}', (11, 53)),
    # AMB-19 Entries without a String kind: do they satisfy "an entry whose kind isn't separator"?
    judge(rb'{..,"name":{"components":[5]}}', (11, 65)),
    judge(rb'{..,"name":{"components":[{"value":"x"}]}}', (12, 65)),
    judge(rb'{..,"name":{"components":[{"kind":5,"value":"x"}]}}', (11, 73)),
    judge(rb'{..,"name":{"isOrdered":true,"components":[{"kind":"separator","value":"-"},5]}}', (11, 115)),
    # AMB-20 Empty component lists
    judge(rb'{..,"name":{"full":"A","components":[]}}', (14, 50)),
    judge(rb'{..,"addresses":{"a1":{"components":[]}}}', OK),
    judge(rb'{..,"addresses":{"a1":{"isOrdered":true,"components":[{"kind":"separator","value":"-"}]}}}', OK),
    judge(rb'{..,"addresses":{"a1":{"isOrdered":true,"components":[],"defaultSeparator":","}}}', OK),
    # AMB-21 Two separators in a row with something odd between them
    judge(rb'{..,"name":{"isOrdered":true,"components":[{"kind":"given","value":"Ann"},{"kind":"separator","value":"-"},5,{"kind":"separator","value":"-"}]}}',
    (11, 146)),
    judge(rb'{..,"name":{"components":[{"kind":"separator"},{"kind":"given","value":"Ann"}]}}', (14, 50)),
    # AMB-22 A map key that is no Id, and the entry's own faults
    judge(rb'{..,"emails":{"":{}}}', (12, 56)),
    judge(rb'{..,"emails":{"a b":5}}', (11, 59)),
    judge(rb'{..,"addresses":{"":{"defaultSeparator":","}}}', (13, 59)),
    judge(rb'{..,"emails":{"@type":"x"}}', (11, 61)),
    # AMB-23 Ids are measured decoded
    judge(rb'{..,"addresses":{"' + rb'\u0061' * 255 + rb'":{}}}', OK),
    judge(rb'{..,"addresses":{"\u0061":{}}}', OK),
    # AMB-24 Several numbers on the Card's own row
    judge(rb'{"@type":5,"version":"1.0"}', (12, 0)),
    judge(rb'{"members":{},"@type":"Card"}', (12, 0)),
    judge(rb'{..,"created":"x","members":{}}', (14, 0)),
    # AMB-25 Duties of 001 that 01 names only by the type: prodId, address, countryCode, timeZone
    judge(rb'{..,"prodId":""}', OK),
    judge(rb'{..,"emails":{"e1":{"address":"not an address"}}}', OK),
    judge(rb'{..,"addresses":{"a1":{"countryCode":"Germany","timeZone":"x"}}}', OK),
    # AMB-26 An Address with nothing in it
    judge(rb'{..,"addresses":{"a1":{}}}', OK),
    # AMB-27 Known names where they aren't listed; names that differ in case; `extra`
    judge(rb'{..,"addresses":{"a1":{"label":5,"sortAs":5}}}', OK),
    judge(rb'{..,"emails":{"e1":{"address":"x","features":5}}}', OK),
    judge(rb'{..,"Emails":5,"extra":1}', OK),
    # AMB-28 localizations that hold something else than objects
    judge(rb'{..,"localizations":{"de":5}}', (11, 65)),
    judge(rb'{..,"localizations":{"":{"~":null,"a":1,"a/b":2}}}', OK),
    localize(rb'{..,"localizations":{"de":{},"fr":5}}', (11, 73)),
    # AMB-29 pref written with a fraction, an exponent or a sign
    judge(rb'{..,"emails":{"e1":{"address":"x","pref":1e0}}}', (13, 80)),
    judge(rb'{..,"emails":{"e1":{"address":"x","pref":-0}}}', (13, 80)),
    judge(rb'{..,"emails":{"e1":{"address":"x","pref":18446744073709551617}}}', (13, 80)),
    # AMB-30 UTCDateTime at its edges
    judge(rb'{..,"created":"0000-02-29T00:00:00Z"}', OK),
    judge(rb'{..,"created":"2010-10-10T10:10:10.Z"}', (13, 53)),
    judge(rb'{..,"created":"2010-10-10T10:10:10.00000000000000000000000000000000000000001Z"}', OK),
    # AMB-31 A card without localizations
    localize(rb'{..}', (21, 0)),
    localize(rb'{..,"localizations":{}}', (21, 0)),
    localize(rb'{..,"localizations":{"de":{}}}', (21, 0), language=rb'fr'),
    # AMB-32 A language key written with escapes
    localize(rb'{..,"localizations":{"\u0064e":{}}}', rb'{..}'),
    localize(rb'{..,"localizations":{"\u0064e":{}}}', (21, 0), language=rb'\u0064e'),
    localize(rb'{..,"loc\u0061lizations":{"de":{}}}', rb'{..}'),
    localize(rb'{..,"localizations":{"de":{}}}', (21, 0), language=b'\xff'),
    # AMB-33 7 when localizing counts the card text
    localize(rb'{..,"name":{"full":"Ann"},"localizations":{"de":{}}}', (7, 8), words=56),
    localize(rb'{..,"name":{"full":"Ann"},"localizations":{"de":{}}}', rb'{..,"name":{"full":"Ann"}}', words=64),
    # AMB-34 22 looks at decoded keys, of the asked language only
    localize(rb'{..,"localizations":{"de":{"\u007e":1}}}', (22, 66)),
    localize(rb'{..,"localizations":{"de":{"~\u0031":1}}}', rb'{..,"/":1}'),
    localize(rb'{..,"localizations":{"fr":{"~":1},"de":{}}}', rb'{..}'),
    localize(rb'{..,"localizations":{"de":{"a~":null}}}', (22, 66)),
    localize(rb'{..,"localizations":{"de":{"~~0":1}}}', (22, 66)),
    localize(rb'{..,"localizations":{"de":{"~/x":1}}}', (22, 66)),
    # AMB-35 The pointers `localizations`, `localizations/x`, `localizations~1x`, `localizations/`
    localize(rb'{..,"localizations":{"de":{"localizations/x":null}}}', (23, 66)),
    localize(rb'{..,"localizations":{"de":{"localizations~1x":1}}}', rb'{..,"localizations/x":1}'),
    localize(rb'{..,"localizations":{"de":{"localizations/":1}}}', (23, 66)),
    localize(rb'{..,"localizations":{"de":{"/localizations":1}}}', (26, 66)),
    # AMB-36 Prefix pairs: empty parts, nulls, absent targets
    localize(rb'{..,"name":{"full":"Ann"},"localizations":{"de":{"name":null,"name/full":null}}}', (24, 88)),
    localize(rb'{..,"localizations":{"de":{"":1,"/x":2}}}', (24, 66)),
    localize(rb'{..,"localizations":{"de":{"":1,"x":2}}}', rb'{..,"":1,"x":2}'),
    localize(rb'{..,"localizations":{"de":{"a":1,"a/":2}}}', (24, 66)),
    localize(rb'{..,"localizations":{"de":{"q":null,"q/r":null}}}', (24, 66)),
    localize(rb'{..,"localizations":{"de":{"a":1,"\u0061":2}}}', (4, 72)),
    # AMB-37 "At each part, the last too, a value reached that is an array is no. 25"
    localize(rb'{..,"name":{"full":"Ann","components":[{"kind":"given","value":"Ann"}]},"localizations":{"de":{"name/components":null}}}',
    rb'{..,"name":{"full":"Ann"}}'),
    localize(rb'{..,"name":{"full":"Ann","components":[{"kind":"given","value":"Ann"}]},"localizations":{"de":{"name/components/0":1}}}', (25, 134)),
    localize(rb'{..,"x":[],"localizations":{"de":{"x":1}}}', rb'{..,"x":1}'),
    localize(rb'{..,"name":{"full":"Ann","components":[{"kind":"given","value":"Ann"}]},"localizations":{"de":{"name/components/-":1}}}', (25, 134)),
    # AMB-38 Null where the parent is missing, is a leaf or an array
    localize(rb'{..,"localizations":{"de":{"nope/x":null}}}', (26, 66)),
    localize(rb'{..,"name":{"full":"Ann"},"localizations":{"de":{"name/full/x":null}}}', (26, 88)),
    localize(rb'{..,"x":[],"localizations":{"de":{"x/0":null}}}', (25, 73)),
    localize(rb'{..,"name":{"full":"Ann"},"localizations":{"de":{"name/x":null}}}', rb'{..,"name":{"full":"Ann"}}'),
    # AMB-39 25 of one entry against 26 of another
    localize(rb'{..,"x":[],"localizations":{"de":{"nope/a":1,"x/0":1}}}', (25, 84)),
    localize(rb'{..,"x":[],"localizations":{"de":{"x/0":1,"nope/a":1}}}', (25, 73)),
    localize(rb'{..,"x":{"y":1},"localizations":{"de":{"x/y/z/0":1}}}', (26, 78)),
    # AMB-40 27 before 28
    localize(rb'{..,"localizations":{"de":{"uid":null}}}', (27, 32), room=0),
    localize(rb'{..,"localizations":{"de":{"uid":null}}}', (28, 12), room=43),
    # AMB-41 Which rows decide the number inside 28
    localize(rb'{..,"localizations":{"de":{"kind":5,"created":"x"}}}', (28, 13)),
    localize(rb'{..,"localizations":{"de":{"created":"x","kind":5}}}', (28, 13)),
    localize(grown(rb'"kind":5,', b'[]'), (28, 5)),
    # AMB-42 The inner refusal's own second number
    localize(rb'{..,"name":{"full":"Ann","components":[{"kind":"given","value":"Ann"}]},"localizations":{"de":{"name/full":null,"name/components":null}}}',
    (28, 14)),
    # AMB-43 The second number of 27
    localize(rb'{..,"name":{"full":"Ann"},"localizations":{"de":{}}}', (27, 65), room=64),
    localize(rb'{..,"name":{"full":"Ann"},"localizations":{"de":{}}}', rb'{..,"name":{"full":"Ann"}}', room=65),
    # AMB-44 How names are spelled in the output
    localize(rb'{..,"\u0061":1,"localizations":{"de":{"a":2}}}', rb'{..,"\u0061":2}'),
    localize(rb'{..,"localizations":{"de":{"\u0061\/\u0009":2}}}', (26, 66)),
    localize(rb'{..,"localizations":{"de":{"\u0061~1\u0009\u007f\u001F":2}}}', b'{..,"a/\\t\x7f\\u001f":2}'),
    localize(rb'{..,"localizations":{"de":{"x":{"\u0061":1}}}}', rb'{..,"x":{"\u0061":1}}'),
    # AMB-45 The order of added members
    localize(rb'{..,"localizations":{"de":{"A":1,"\n":2}}}', rb'{..,"\n":2,"A":1}'),
    localize(rb'{..,"localizations":{"de":{"\ud83d\ude00":1,"\uffee":2}}}', b'{..,"\xef\xbf\xae":2,"\xf0\x9f\x98\x80":1}'),
    localize(rb'{..,"localizations":{"de":{"a~1":1,"a!":2,"a0":3}}}', rb'{..,"a!":2,"a/":1,"a0":3}'),
    localize(rb'{..,"localizations":{"de":{"a!":1,"a":2}}}', rb'{..,"a":2,"a!":1}'),
    # AMB-46 The key "" and the key "/"
    localize(rb'{..,"localizations":{"de":{"":1}}}', rb'{..,"":1}'),
    localize(rb'{..,"localizations":{"de":{"/":1}}}', (26, 66)),
    localize(rb'{..,"":{},"localizations":{"de":{"/":1}}}', rb'{..,"":{"":1}}'),
    localize(rb'{..,"a":{},"localizations":{"de":{"a/":1}}}', rb'{..,"a":{"":1}}'),
    # AMB-47 No. 25 against RFC 9553's own text and example
    localize(rb'{..,"name":{"components":[{"kind":"given","value":"Ann"}]},"localizations":{"de":{"name/components/0/phonetic":"x"}}}', (25, 121)),
    # AMB-48 Where 5 can come from in 28
    localize(grown(b'', b'[]'), (28, 5)),
    localize(grown(b'', b'""'), OK),
    # AMB-49 Refusal and what was already written
    localize(rb'{..,"localizations":{"de":{"uid":null}}}', (28, 12), room=500),
    read(rb'[1,x', (2, 3), words=60),
    # AMB-50 `@type` as a key of a map or set
    judge(rb'{..,"emails":{"e1":{"address":"x","contexts":{"@type":true}}}}', OK),
    judge(rb'{..,"name":{"full":"A","sortAs":{"@type":"x"}}}', OK),
    judge(rb'{..,"addresses":{"@type":{}}}', (13, 64)),
    judge(rb'{..,"localizations":{"@type":{}}}', OK),
    # AMB-51 The small program: its table, its end of line, its exit status, more input than its buffer
    program(b'', (2, 0)),
    program(b' ' * 65537, (34, 0)),
    program(b'{..}\x0a', OK),
    judge(b' ' * 65537, (2, 65537)),
    judge(b' ' * 1048577, (1, 0)),
    # AMB-52 A byte of 128 or more inside an escape
    read(b'"\\\xc3\xa9"', (2, 2)),
    read(b'"\\u12\xff4"', (2, 5)),
    read(b'"\\uD800\\\xc3\xa9"', (3, 1)),
    # The key at fault: the place of its opening quote in the card text
    localize(rb'{..,"localizations":{"de":{ "z" : 1 , "a~" : 2}}}', (22, 77)),
    localize(b'{..,"localizations":{"de":{\n"a~":1,"b~":1}}}', (22, 67)),
    localize(rb'{"localizations":{"de":{"a~":1}},"@type":"Card","version":"1.0","uid":"u1"}', (22, 24)),
    localize(rb'{..,"localizations":{"fr":{"a~":1},"de":{"b~":1}}}', (22, 80)),
    localize(rb'{..,"localizations":{"fr":{"a~":1},"de":{"b~":1}}}', (22, 66), language=rb'fr'),
    localize(rb'{..,"localizations":{"de":{"\u0062~":1,"a~":1}}}', (22, 78)),
    localize(rb'{..,"localizations":{"de":{"b~":1,"\u0061~":1}}}', (22, 73)),
    # the number first, over all entries; then the key
    localize(rb'{..,"localizations":{"de":{"a":1,"a/b":1,"localizations":1,"z~":1}}}', (22, 98)),
    localize(rb'{..,"localizations":{"de":{"a":1,"a/b":1,"localizations/x":1,"localizations/fr":1}}}', (23, 100)),
    localize(rb'{..,"localizations":{"de":{"localizations/fr":null,"localization\u0073":null}}}', (23, 90)),
    localize(rb'{..,"x":[],"localizations":{"de":{"a/b/c":1,"x/1":1,"x/0":1}}}', (25, 91)),
    # of clashing pairs all keys count, and no search ends at the first pair
    localize(rb'{..,"localizations":{"de":{"a/b/c":1,"a/b":1,"a":1}}}', (24, 84)),
    localize(rb'{..,"localizations":{"de":{"a/b":1,"a!":1,"a":1}}}', (24, 81)),
    localize(rb'{..,"localizations":{"de":{"b/c":1,"b/c/d":1,"b!":1,"b!/x":1}}}', (24, 84)),
    # keys are ordered by their bytes, decoded: neither as written, nor part by part, nor with `~0` and `~1` undone
    localize(rb'{..,"localizations":{"de":{"\u0061/x":1,"]/x":1}}}', (26, 79)),
    localize(rb'{..,"localizations":{"de":{"a/b/x":1,"a!/x":1}}}', (26, 76)),
    localize(rb'{..,"localizations":{"de":{"a~1/x":1,"aB/x":1}}}', (26, 76)),
    localize(rb'{..,"localizations":{"de":{"a/b":1,"a/":1,"/a":1}}}', (26, 81)),
]

# Texts with the parents and the next siblings of their rows, as a person counts them.
LINKED = [
    (b'{"a":[1]}', [0, 0, 1], [0, 0, 0]),
    (b'1', [0], [0]),
    (b'[]', [0], [0]),
    (b'[1,2]', [0, 0, 0], [0, 2, 0]),
    (b'{"a":{"b":{"c":1}},"d":2}', [0, 0, 1, 2, 0], [0, 4, 0, 0, 0]),
    (b'[[],{},1]', [0, 0, 0, 0], [0, 2, 3, 0]),
    (b'[1,[],{}]', [0, 0, 0, 0], [0, 2, 3, 0]),
    (b'[[1,2],[3,[4]],5]', [0, 0, 1, 1, 0, 4, 4, 6, 0], [0, 4, 3, 0, 8, 6, 0, 0, 0]),
    (b'[[[[]]],[[]],[]]', [0, 0, 1, 2, 0, 4, 0], [0, 4, 0, 0, 6, 0, 0]),
    (b'{"a":[1,{"b":2}],"c":[{}],"d":3}', [0, 0, 1, 1, 3, 0, 5, 0], [0, 5, 3, 0, 0, 7, 0, 0]),
]

SPECIMENS = [
    # the three rows are compared in check.py
    read(b'', (2, 0)),
    read(rb'{"a":1,"\u0061":2}', (4, 7)),
    read(rb'"\uD800"', (3, 1)),
    read(b'[' * 64 + b']' * 64, OK),
    read(b'[' * 65 + b']' * 65, (5, 64)),
    read(b'[' + b'0,' * 32766 + b'0]', OK),
    read(b'[' + b'0,' * 32767 + b'0]', (6, 65535)),
    read(b' ' * 1048575 + b'0', OK),
    read(b' ' * 1048576 + b'0', (1, 0)),
    judge(b'{..,"emails":{"e1":{"address":"x","pref":1}}}', OK),
    judge(b'{..,"emails":{"e1":{"address":"x","pref":100}}}', OK),
    judge(b'{..,"emails":{"e1":{"address":"x","pref":0}}}', (13, 80)),
    judge(b'{..,"emails":{"e1":{"address":"x","pref":101}}}', (13, 80)),
    judge(b'{..,"emails":{"e1":{"address":"x","pref":1.0}}}', (13, 80)),
    judge(b'{..,"addresses":{"' + b'a' * 255 + b'":{}}}', OK),
    judge(b'{..,"addresses":{"' + b'a' * 256 + b'":{}}}', (13, 315)),
    judge(b'{..,"addresses":{"":{}}}', (13, 59)),
    judge(b'{..,"created":"2010-10-10T10:10:10.003Z"}', OK),
    judge(b'{..,"created":"2010-10-10T10:10:10.000Z"}', (13, 53)),
    judge(b'{..,"created":"2000-02-29T00:00:00Z"}', OK),
    judge(b'{..,"created":"1900-02-29T00:00:00Z"}', (13, 53)),
    localize(
        b'{..,"name":{"full":"Ann"},"localizations":{"de":{"ex.com:b":2,"name/full":"Anne","ex.com:a": 1}}}',
        b'{..,"name":{"full":"Anne"},"ex.com:a":1,"ex.com:b":2}'),
    localize(
        b'{..,"emails":{},"localizations":{"de":{"emails/e1":{"address":"a"},"emails/e10":{"address":"b"}}}}',
        b'{..,"emails":{"e1":{"address":"a"},"e10":{"address":"b"}}}'),
    localize(b'{..,"name":{"full":"Ann"},"localizations":{"de":{"name":{"full":"A"},"name/full":"B"}}}', (24, 88)),
    localize(b'{..,"name":{"full":"Ann"},"localizations":{"de":{"name/full":"B","name":{"full":"A"}}}}', (24, 104)),
    localize(b'{..,"name":{"components":[{"kind":"given","value":"A"}]},"localizations":{"de":{"name/components/0":1}}}', (25, 119)),
    localize(b'{..,"name":{"full":"Ann"},"localizations":{"de":{"name/full/x":1}}}', (26, 88)),
    localize(b'{..,"localizations":{"de":{"uid":null}}}', (28, 12)),
    localize(b'{..,"x":[1, 2],"localizations":{"de":{}}}', b'{..,"x":[1,2]}'),
    localize(
        b'{..,"name":{"full":"A","components":[{"kind":"given","value":"A"}]},"localizations":{"de":{"name/full":null,"name/components":null}}}',
        (28, 14)),
    localize(
        b'{..,"name":{"full":"A","components":[{"kind":"given","value":"A"}]},"localizations":{"de":{"name/full":null}}}',
        b'{..,"name":{"components":[{"kind":"given","value":"A"}]}}'),
    localize(
        b'{..,"name":{"full":"A","components":[{"kind":"given","value":"A"}]},"localizations":{"de":{"name/components":null}}}',
        b'{..,"name":{"full":"A"}}'),
    # `~01` is `~1`, not `/`
    localize(b'{..,"localizations":{"de":{"a~01b":1}}}', b'{..,"a~1b":1}'),
]
