"""The cases of localizing: cards with a language and the lengths of what is lent."""
import itertools
import os

import make_keys
import make_strings
from make_judging import HEAD, Dice, card
from make_keys import PATCH, counted
from store import ROOT, Case, Made, rows_of, told_of
from store import lent as lent_words

import intake
from duds import ASKED
from reading import MOST_BYTES, MOST_DEPTH, MOST_VALUES, MOST_WORDS, ROW_WORDS, Reader

GIVEN = b'{"kind":"given","value":"Ann"}'
OWN = (
    b'"name":{"full":"Ann","components":[' + GIVEN + b']},"emails":{"e1":{"address":"a@b"},"e10":{"address":"c@d"}},"x":[1,[2]],"y":{"a":{"b":{"c":null}},"s":"t"},"z":1')


def patched(patch, own=OWN, after=b""):
    return card(own, b'"localizations":{"de":{' + patch + b"}}" + after)


BASE = patched(b"")


def lent(text, language=b"de", words=None, room=None):
    """A case; the table has some words more than the text needs, the output is as long as the text."""
    if words is None:
        rows = rows_of(text)
        words = ROW_WORDS * rows + 13 if rows else 100
    return Case("localizing", words, text, len(text) if room is None else room, language)


def rulings():
    for case in ASKED:
        if case["service"] == "localize":
            yield Case("localizing", lent_words(case["words"], case["text"]), case["text"], case["room"], case["language"])


CONDITIONS = {
    22: b'"q~":1', 23: b'"localizations/x":null', 24: b'"name":{"full":"B"},"name/full":"C"', 25: b'"x/0":1', 26: b'"nope/a":null', 28: b'"uid":null'}


def conditions():
    """Every set of conditions in one patch, in both orders, with and without room and the language; and the card's own refusals before them."""
    for size in range(len(CONDITIONS) + 1):
        for some in itertools.combinations(CONDITIONS, size):
            entries = [CONDITIONS[n] for n in some]
            for order in (entries, entries[::-1]):
                text = patched(b",".join(order))
                yield lent(text)
                yield lent(text, room=20)
            yield lent(text, language=b"fr")
            yield lent(text, language=b"fr", room=0)
    for own in (b'"kind":5', b'"created":"x"', b'"name":{}', b'"members":{}', b'"kind":5,"kind":6', b'"emails":{"a":{}}'):
        yield lent(patched(CONDITIONS[22], own))
        yield lent(patched(CONDITIONS[22], own), words=7, room=0)
    yield lent(patched(CONDITIONS[22]), words=8, room=0)


def unread():
    """Texts that reading refuses, each with a patch at fault beside."""
    for own in (b'"k":x', b'"k":"\\uD800"', b'"k":"\xc3"', b'"k":1,"\\u006b":2', b'"k":' + b"[" * MOST_DEPTH + b"]" * MOST_DEPTH,
        b'"k":[' + b"0," * MOST_VALUES + b"0]", b'"k":"' + b"k" * 65536 + b'"', b'"k":"' + b"k" * MOST_BYTES + b'"'):
        for patch in (b"", CONDITIONS[22]):
            yield lent(patched(patch, own))
            yield lent(patched(patch, own), words=0, room=0)
    entries = [b'"z%d":%d' % (i * 7 % 11, i) for i in range(11)]
    for more in (b'"z11":0', b'"z3":0', b'"\\u007a4":0', b'"~":0,"z5":0', b'"z6":x'):  # a name twice in an object of many, which the patch is
        yield lent(patched(b",".join(entries + [more])))
        yield lent(patched(b'"k/z":1', b'"k":{' + b",".join(entries + [more]) + b"}"))
    for text in (b"", b" ", b"5", b"null", b"[]", b'"de"', patched(b"")[:-1], patched(b"") + b"}"):
        yield lent(text)
        yield lent(text, room=30)


def buffers():
    """Outputs and tables that are just enough, one short, empty and long."""
    for patch in (b"", b'"z":null', b'"uid":null', b'"a~1b":"c","name/full":"B"', b'"x":[1, 2, 3]', b'"~":1'):
        text = patched(patch)
        whole = ROW_WORDS * rows_of(text)
        _, _, written, _, _ = intake.localize(text, b"de", MOST_WORDS, len(text))
        for room in (0, 1, written - 1, written, written + 1, len(text), len(text) + 100):
            if room >= 0:
                yield lent(text, room=room)
        for words in (0, ROW_WORDS, whole - ROW_WORDS, whole - 1, whole, whole + ROW_WORDS - 1, whole + ROW_WORDS):
            yield lent(text, words=words)
            yield lent(text, words=words, room=0)
    yield lent(patched(b'"uid":null'), room=10)
    yield lent(card(b'"w":"' + b"w" * 60000 + b'"', b'"localizations":{"de":{}}'))
    yield lent(card(b'"w":' + b" " * 60000 + b"0", b'"localizations":{"de":{"w":1}}'))
    yield lent(card(b'"localizations":{"de":{"w":"' + b"w" * 60000 + b'"}}'))


def languages():
    for held in (b'"de":{"z":2},"fr":{"z":3},"":{"z":4}', b'"\\u0064e":{"z":2},"fr":{"z":3}', b'"DE":{"z":2}',
        b'"de-AT":{"z":2},"d":{"z":3}', b'"d\\u00e9":{"z":2}', b""):
        text = card(b'"z":1', b'"localizations":{' + held + b"}")
        for language in (b"de", b"fr", b"", b"d", b"de-AT", b"DE", b"\\u0064e", b"d\xc3\xa9", b"d\xe9", b"\xff", b"de "):
            yield lent(text, language)
    for text in (card(), card(b'"Localizations":{"de":{}}'), card(b'"loc\\u0061lizations":{"de":{"z":1}}'), card(b'"x":{"localizations":{"de":{}}}')):
        yield lent(text)
    held = b'"localizations":{"de":{"z":1}}'
    for members in itertools.permutations((held, b'"a":1', b'"@type":"Card","version":"1.0","uid":"u1"')):
        yield lent(b"{" + b",".join(members) + b"}")


def keys():
    """Escapes of pointers and of names; empty parts; names that a pointer meets in the card."""
    for byte in range(128):
        yield lent(patched(b'"\\u%04x":1' % byte, b'"z":1'))
        yield lent(patched(b'"z/\\u%04x":1,"z/b\\u%04X":2' % (byte, byte), b'"z":{"b":0}'))
    for key in (
            b"~0", b"~1", b"~00", b"~01", b"~10", b"~11", b"~0~1", b"~1~0", b"~01~10", b"~2", b"~", b"a~", b"~~", b"~~0", b"~0~", b"~/0",
            b"\\u007e0", b"~\\u0030", b"~\\u0031x", b"~a", b"a~1b/c", b"a~0b"):
        yield lent(patched(b'"' + key + b'":1', b'"a/b":{"c":0},"a~b":0,"~1":0'))
    for key in (b"", b"/", b"//", b"a/", b"/a", b"a//", b"a//b", b"\\/", b"a\\/b", b"a\\u002fb", b"b/c/d", b"b/c", b"b/c/e", b"b/c/d/e",
        b"b//", b"b/", b" b", b"B"):
        for value in (b"1", b"null"):
            yield lent(patched(b'"' + key + b'":' + value, b'"":{"":{"":1},"a":2},"a":{"":{"b":3}},"b":{"c":{"d":4}}'))
    for key in (b"\xc3\xa9", b"\\u00e9", b"k/\xe2\x82\xac", b"k/\\u20AC", b"k/\\ud83d\\ude00/x", b"k/\xf0\x9f\x98\x80/x", b"k\\\\",
        b"k\\\"", b"k\\b\\f\\n\\r\\t", b"\\u2028", b"\xe2\x80\xa8"):
        for value in (b"1", b"null", b'{ "\\u0061" : [ 1 ] }'):
            yield lent(patched(b'"' + key + b'":' + value, b'"\\u00e9":0,"k":{"\\u20ac":0,"\\uD83D\\uDE00":{"x":0}},"k\\u005c":0'))


def prefixes():
    """Which pairs clash: over whole parts."""
    some = [b"", b"/", b"/a", b"a", b"a/", b"a/b", b"a/bc", b"ab", b"a/b/c", b"a~1b", b"a~0", b"name", b"name/full", b"emails/e1",
        b"emails/e10", b"emails/e1/address"]
    for one, other in itertools.permutations(some, 2):
        yield lent(patched(b'"' + one + b'":null,"' + other + b'":null'))


def walks():
    for key in (
            b"x", b"x/0", b"x/0/1", b"x/1/0", b"x/-", b"x/a/b", b"z/a", b"z/a/b", b"y/s/t", b"y/s", b"y/q", b"y/q/r", b"y/a/b/c",
            b"y/a/b/c/d", b"y/a/b/d", b"y/a", b"name/components", b"name/components/0",
            b"name/components/0/phonetic", b"name/full/x", b"name/q", b"nope", b"nope/x", b"emails/e1/pref", b"emails/e2",
            b"emails/e1/contexts/work", b"uid/x", b"@type/x", b"de", b"localizations",
            b"localizations/de", b"localizations~1de", b"y/localizations", b"/localizations", b"localizationsx"):
        for value in (b"null", b"1", b'{"a":1}', b"[]", b'{"address":"e"}', b'"t"'):
            yield lent(patched(b'"' + key + b'":' + value))
    for one, other in itertools.permutations((b'"x/0":1', b'"nope/a":1', b'"z/a":1', b'"y/a/b/c/d":1', b'"name/components/0":1', b'"y/q":1'), 2):
        yield lent(patched(one + b"," + other))


def members():
    """Members kept, replaced, removed and added in one object, white space and escapes in what is copied."""
    names = (b"a", b"b", b"c")
    for fate in itertools.product((b"keep", b"null", b'"new"'), repeat=3):
        for added in (b"", b'"y/d":4', b'"y/e":5,"y/d":4', b'"y/0":0,"y/bb":1'):
            entries = [b'"y/' + name + b'":' + value for name, value in zip(names, fate) if value != b"keep"] + ([added] if added else [])
            yield lent(patched(b",".join(entries), b'"y":{"a":1,"b":2,"c":3}'))
    spaced = b' "y" : { "a" : [ 1 , { "b" : " c " } , [ ] ] , "d" : { } , "\\u0065" : "\\u0066" , "g" : -1.5e+3 } '
    for patch in (
            b"", b'"y/a":null', b'"y/d":[ ]', b'"y/e":{ "f" : [ 1 , 2 ] , "\\u0067" : "\\/" }', b'"y":null', b'"y":0', b'"w":{ "v" : { } }',
            b'"y/d/q":" "', b' "y/g" : null ,\n"y/h"\t: 1e5 ',
            b'"y/e":null,"y/d":null,"y/a":null,"y/g":null', b'"y/\\u0065":true'):
        yield lent(patched(patch, spaced))
        yield lent(b" \n" + patched(patch, spaced) + b"\t")
    for name in (b"created", b"kind", b"language", b"members", b"prodId", b"emails", b"@type", b"version", b"uid", b"name", b"phones", b"addresses"):
        for value in (b"null", b"5", b'"x"', b'"group"', b"{}", b'{"full":"B"}', b'{"a":true}', b'{"a":{"address":"x"}}',
            b'{"a b":{"address":"x","number":"5"}}', b'{"a":{"defaultSeparator":","}}'):
            yield lent(patched(b'"' + name + b'":' + value))
    for patch in (
            b'"kind":"group","members":{"a":true}', b'"members":{"a":true},"kind":"group"', b'"members":{"a":true}',
            b'"kind":"group","members":{"a":false}', b'"name/full":null,"name/components":null',
            b'"name/full":null', b'"name/components":null', b'"name/components":[]', b'"name/components":[{"kind":"separator","value":""}]',
            b'"name/isOrdered":true,"name/defaultSeparator":","',
            b'"name/defaultSeparator":","', b'"emails/e1/pref":101', b'"emails/e1/address":null', b'"emails/e1":null,"emails/e10":null',
            b'"emails/a b":{"address":"x"}', b'"emails/c~1d":{"address":"x"}',
            b'"emails/c":{}', b'"addresses":{"a":{}},"created":"2010-10-10T10:10:10Z"', b'"kind":5,"created":"x"',
            b'"created":"x","kind":5', b'"version":"2.0"', b'"@type":"Name"', b'"name/@type":"Nam\\u0065"'):
        yield lent(patched(patch))


def key_at(text, quote):
    """The decoded key whose opening quote stands at a place."""
    reader = Reader(text)
    reader.at = quote
    return reader.string()


def in_every_order(entries, own=OWN, named=None):
    """The entries in every order: the number, the key that it names, output and table are the same; the key's place moves."""
    answers, places = set(), set()
    for order in itertools.permutations(entries):
        case = lent(patched(b",".join(order), own))
        number, second, written, inner, table, output = told_of(case)
        if 22 <= number <= 26:
            assert named is None or case.text.startswith(b'"' + named + b'":', second)
            places.add(second)
            second = key_at(case.text, second)
        answers.add((number, second, written, inner, tuple(table), output))
        yield case
    assert len(answers) == 1 and len(places) != 1 and (named is None or places)


def orders():
    """The order of a patch's entries: in no answer, but for the place of a key."""
    for entries in (
            (b'"b":1', b'"a":2', b'"ab":3', b'"B":4'), (b'"\\ud83d\\ude00":1', b'"\\uffee":2', b'"\\u00e9":3', b'"~0":4'), (b'"a~1":1',
            b'"a!":2', b'"a0":3', b'"a":4'),
            (b'"\\n":1', b'"\\u0000":2', b'"\\"":3', b'"\\\\":4'), (b'"z":null', b'"y/a/b/c":1', b'"emails/e2":{"address":"x"}',
            b'"w":[ ]'), (b'"q~":1', b'"x/0":1', b'"nope/a":1', b'"uid":null'),
            (b'"name/full":null', b'"name/components":null', b'"kind":5', b'"x":null')):
        yield from in_every_order(entries)


def named_keys():
    """Keys at fault: in every order, and wherever they stand."""
    for keys, named in make_keys.PERMUTED:
        yield from in_every_order([make_keys.entry(key) for key in keys], make_keys.OWN, named)
    yield from map(lent, make_keys.texts())
    for faults in make_keys.FAULTS:  # they come before a short output, and after a small table
        for keys in faults.values():
            yield lent(make_keys.keyed(*keys), room=0)
            yield lent(make_keys.keyed(*keys), words=40, room=0)


def large():
    """Depth that grows; many entries; many members."""
    last = MOST_DEPTH - 2
    deep = b'{"a":' * last + b"{}" + b"}" * last
    for ups in (last - 2, last - 1, last):
        for value in (b"[]", b"{}", b'""', b"[[]]", b"[[[]]]", b'{"b":{}}'):
            yield lent(patched(b'"x' + b"/a" * ups + b'/k":' + value, b'"x":' + deep))
    yield lent(patched(b'"kind":5,"x' + b"/a" * last + b'/k":[]', b'"x":' + deep))
    yield lent(patched(b'"x' + b"/a" * last + b'/k":[],"a~":1', b'"x":' + deep))
    yield lent(patched(b'"x' + b"/a" * last + b'/k":[]', b'"x":' + deep), room=300)
    yield lent(patched(b'"x' + b"/a" * (last + 1) + b'":[]', b'"x":' + deep))
    yield lent(patched(b'"x' + b"/a" * (last + 1) + b'/k":[]', b'"x":' + deep))
    yield lent(patched(b'"x' + b"/a" * last + b'":null', b'"x":' + deep))
    yield lent(patched(b'"w":' + b"[" * 29 + b"]" * 29))
    yield lent(patched(b'"y/a/b/w":' + b"[" * 29 + b"]" * 29))
    for below in (last - 3, last - 2, last - 1, last):
        for opened, closed in ((b"[", b"]"), (b'{"a":', b"}")):
            value = opened * below + b"0" + closed * below
            yield lent(patched(b'"w":' + value))
            yield lent(patched(b'"y/w":' + value))
            yield lent(patched(b'"y/a/b/w":' + value))
            yield lent(patched(b'"y/a/b/c":' + value + b',"z":null'))
            yield lent(patched(b'"z":2', b'"y":' + value))
    numbers = [(i * 7919) % 600 for i in range(600)]
    yield lent(patched(b",".join(b'"n%d":%d' % (i, i) for i in numbers)))
    yield lent(patched(b",".join(b'"n%d":%d' % (i, i) for i in numbers) + b',"n5/x":1'))
    yield lent(patched(b",".join(b'"w/n%d":null' % i for i in numbers), b'"w":{' + b",".join(b'"n%d":0' % i for i in range(601)) + b"}"))


def many():
    """Patches of as many entries as a working store may end at, and more."""
    for count in (63, 64, 65, 66, 1023, 1024, 1025):
        for step in (1, 7919, 99999):
            yield lent(Made(f"{HEAD}{PATCH}{counted(count, step)}}}}}}}"))
        yield lent(Made(f'{HEAD}{PATCH}{counted(count)},"n07919/x":0}}}}}}'))
        yield lent(Made(f'{HEAD}{PATCH}{counted(count)},"n07919":0}}}}}}'))
        yield lent(Made(f'{HEAD},"w":{{"a":0}}{PATCH}{counted(count, name="w/n")},"w/a":null,"w":{{}}}}}}}}'))
        yield lent(Made(f'{HEAD},"w":{{"a":0}}{PATCH}{counted(count, name="w/n")},"w/a":null}}}}}}'))
        yield lent(Made(f'{HEAD},"w":{{{counted(count, 31)}}}{PATCH}{counted(count, name="w/n", value="{}")}}}}}}}'))
        yield lent(Made(f'{HEAD},"w":{{{counted(count, 31)}}}{PATCH}{counted(count, 1, "w/n", "null")},"kind":5}}}}}}'))
    for value in ("null", "{}"):  # the same thousand names, in another order
        yield lent(Made(f'{HEAD},"w":{{{counted(1000, 100)}}}{PATCH}{counted(1000, 7900, "w/n", value)}}}}}}}'))
    for count in (2047, 2048, 2049):
        yield lent(Made(f"{HEAD}{PATCH}{counted(count)}}}}}}}"))
    for values in (62, 63, 64, 1022, 1023, 1024, 2046, 2047, 2048, 3000):  # of one entry, its own value not counted
        for patch in (f'"w":[0,%*{2 * (values - 2)},2;0]', f'"w":[0,%*{2 * (values - 2)},2;0],"w/a":0', f'"x":1,"w":{{{counted(values - 1)}}}'):
            yield lent(Made(f"{HEAD}{PATCH}{patch}}}}}}}"))
    yield lent(Made(f'{HEAD},"w":{{"a":0}}{PATCH}{counted(3000)},"w/a":null}}}}}}'))
    yield lent(Made(f'{HEAD},"w":{{"a":0}}{PATCH}{counted(3000)},"no/a":null}}}}}}'))


def greatest():
    """Cards of as many values, languages and bytes as may be, and one more."""
    own = rows_of(card(b'"x":[]', b'"localizations":{"de":{"z":1}}'))
    for values in (2048, 2049, MOST_VALUES, MOST_VALUES + 1):
        text = Made(f'{HEAD},"x":[0,%*{2 * (values - own - 2)},2;0]{PATCH}"z":1}}}}}}')
        assert values > MOST_VALUES or rows_of(text) == values
        whole = ROW_WORDS * values
        for words in (0, whole - ROW_WORDS, whole - 1, whole, whole + ROW_WORDS):
            if words <= MOST_WORDS + ROW_WORDS:
                yield lent(text, words=words)
        yield lent(text, words=min(whole, MOST_WORDS), room=60)
        yield lent(Made(f'{HEAD},"x":[0,%*{2 * (values - own - 2)},2;0]{PATCH}"x":1}}}}}}'), words=min(whole, MOST_WORDS))
        yield lent(Made(f'{HEAD}{PATCH}"x":[ 0 ,%*{4 * (values - own - 1)},4; 0]}}}}}}'), words=min(whole, MOST_WORDS))
    group = f'{HEAD},"kind":"group","members":{{"":true,"m00000":true%#30000,14,7919;}}{PATCH}'
    yield lent(Made(group + '"members/m00000":null,"members/n":true}}}'))
    yield lent(Made(group + '"members/m07919":false}}}'))
    yield lent(Made(group + '"kind":null}}}'))
    languages = f'{HEAD},"localizations":{{"":{{"z":1}},"l00000":{{}}%#20000,12,7919;,"de":{{"z":2}}}}}}'
    for language in (b"", b"de", b"l07919", b"l00000", b"l", b"l000000"):
        yield lent(Made(languages), language)
    for size in (MOST_BYTES, MOST_BYTES + 1):
        empty = len(HEAD + PATCH + "}}}")
        yield lent(Made(f"{HEAD}{PATCH}}}}}}} %*{size - empty - 1},1;"))
        yield lent(Made(f"{HEAD}{PATCH}}}}}}} %*{size - empty - 2},1;x"))
        yield lent(Made(f" %*{size - 1},1;"))
        yield lent(Made(f'{HEAD},"w":"w%*{size - empty - 8},1;"{PATCH}}}}}}}'))
        yield lent(Made(f'{HEAD},"w":"w%*{size - empty - 18},1;"{PATCH}"kind":"x"}}}}}}'))
        yield lent(Made(f'{HEAD},"w":"w%*{size - empty - 8 - 8},1;"{PATCH}"w":null}}}}}}'))
        yield lent(Made(f'{HEAD}{PATCH}"w":"w%*{size - empty - 7},1;"}}}}}}'))
        yield lent(Made(f'{HEAD}{PATCH}"w":"w%*{size - empty - 7},1;"}}}}}}'), room=size - empty)
        yield lent(Made(f'{HEAD}{PATCH}"w":"w%*{size - empty - 7 - 11},1;","uid":null}}}}}}'))
        yield lent(Made(f'{HEAD}{PATCH}"w%*{size - empty - 5},1;":0}}}}}}'))
        yield lent(Made(f'{HEAD}{PATCH}"w%*{size - empty - 6},1;~":0}}}}}}'))


def figures():
    for number, language in ((20, b"yue"), (33, b"jp"), (39, b"uk-Cyrl"), (40, b"es"), (6, b"de"), (33, b"ja")):
        with open(os.path.join(ROOT, "tests", "cards", f"figure-{number:02}.json"), "rb") as figure:
            yield lent(figure.read(), language)


def chance(count):
    """Patches put together by chance."""
    dice = Dice(6901)
    keys = [b"z", b"w", b"v", b"name/full", b"name/q", b"y/s", b"y/a", b"y/a/b", b"y/a/b/c", b"y/a/b/d", b"emails/e1", b"emails/e2",
        b"emails/e10/label", b"emails", b"x", b"kind", b"members",
            b"language", b"u~1v", b"u~0", b"\\u0041", b"name", b"y"]
    rare = [b"x/0", b"nope/a", b"~", b"localizations", b"name/full/x", b"uid", b"version", b"y/s/t"]
    values = [b"null", b"null", b"1", b'"t"', b'"group"', b"[]", b"{}", b'{"address":"e"}', b'{"full":"B"}', b'{ "b" : [ 1 ] }', b"true",
        b'{"a":true}']
    for _ in range(count):
        some = dice.several(keys, 4) + (dice.several(rare, 1) if dice.below(4) == 0 else [])
        yield lent(patched(b",".join(b'"' + key + b'":' + dice.one(values) for key in some)))


NAMED = card(b'"localizations":{"de":{"":1}}')


def strings():
    """Strings as keys: a new member shows what they spell, and two new members how they are ordered."""
    for text in make_strings.good():
        yield lent(NAMED.replace(b'"":1', text + b":1"))
    for one, other in itertools.combinations(make_strings.SPELLED, 2):
        yield lent(NAMED.replace(b'"":1', b'"' + one + b'":1,"' + other + b'":2'))


def groups():
    """The cases, by the base text that they share."""
    yield BASE, itertools.chain(
        rulings(), conditions(), unread(), buffers(), languages(), keys(), prefixes(), walks(), members(), orders(), large(), figures(), chance(800))
    yield NAMED, strings()
    yield make_keys.BASE, named_keys()
    yield from ((base, map(lent, texts)) for base, texts in make_keys.chance(10, 60))
    yield from ((base, map(lent, texts)) for base, texts in make_keys.together())
    yield b"", itertools.chain(many(), greatest(), map(lent, make_keys.recipes()))
