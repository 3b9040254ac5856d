"""The cases of judging: cards with the words of the lent table."""
import glob
import itertools
import os

from store import ROOT, Case, Made, lent, noted, rows_of

import intake
from duds import ASKED
from reading import MOST_BYTES, MOST_DEPTH, MOST_VALUES, MOST_WORDS, ROW_WORDS, tree
from rulings import MUST

GIVEN = b'{"kind":"given","value":"A"}'
APART = b'{"kind":"separator","value":"-"}'

# each type: the members around a property that is tried, and the types of its properties
TYPES = {
    "Card": (b"%s", {
        b"@type": "Card", b"version": "1.0", b"uid": "text", b"created": "time", b"updated": "time", b"kind": "text", b"language": "text",
        b"prodId": "text",
        b"members": "set", b"name": "name", b"emails": "emails", b"phones": "phones", b"addresses": "addresses", b"localizations": "objects"}),
    "Name": (b'"name":{"full":"A",%s}', {
        b"@type": "Name", b"components": "parts", b"isOrdered": "flag", b"defaultSeparator": "text", b"full": "text", b"sortAs": "texts",
        b"phoneticScript": "text", b"phoneticSystem": "text"}),
    "NameComponent": (b'"name":{"components":[{"kind":"given","value":"A",%s}]}', {
        b"@type": "NameComponent", b"value": "text", b"kind": "text", b"phonetic": "text"}),
    "EmailAddress": (b'"emails":{"e1":{"address":"x",%s}}', {
        b"@type": "EmailAddress", b"address": "text", b"contexts": "set", b"pref": "pref", b"label": "text"}),
    "Phone": (b'"phones":{"p1":{"number":"5",%s}}', {
        b"@type": "Phone", b"number": "text", b"features": "set", b"contexts": "set", b"pref": "pref", b"label": "text"}),
    "Address": (b'"addresses":{"a1":{"full":"A",%s}}', {
        b"@type": "Address", b"components": "parts", b"isOrdered": "flag", b"countryCode": "text", b"coordinates": "text",
        b"timeZone": "text", b"contexts": "set",
        b"full": "text", b"defaultSeparator": "text", b"pref": "pref", b"phoneticScript": "text", b"phoneticSystem": "text"}),
    "AddressComponent": (b'"addresses":{"a1":{"components":[{"kind":"name","value":"A",%s}]}}', {
        b"@type": "AddressComponent", b"value": "text", b"kind": "text", b"phonetic": "text"}),
}

# values of every kind, tried on every property
VALUES = [
    b"null", b"false", b"true", b"0", b"1", b"100", b"101", b"-1", b"1.0", b'""', b'"x"', b'"group"', b'"2010-10-10T10:10:10Z"', b"[]",
    b"[5]", b"[" + GIVEN + b"]", b"{}",
    b'{"a":true}', b'{"a":false}', b'{"a":null}', b'{"a":1}', b'{"a":"x"}', b'{"a":{}}', b'{"a b":{}}', b'{"a":{"address":"x"}}',
    b'{"a":{"number":"5"}}', b'{"full":"x"}']


def card(*members):
    return b"{" + b",".join((MUST,) + members) + b"}"


def member(name, value):
    return b'"' + name + b'":' + value


def escaped(name, at=0):
    """A name with one letter as an escape."""
    return name[:at] + b"\\u%04x" % name[at] + name[at + 1:]


def placed(around, inside):
    """The members of a type around a tried one, which replaces an equal name there."""
    name = inside.split(b":")[0]
    for own in (b'"full":"A",', b'"address":"x",', b'"number":"5",', b'"value":"A",', b'"kind":"given",', b'"kind":"name",'):
        if own.startswith(name + b":") and own in around:
            if own + b"%s" in around:
                return around.replace(own + b"%s", inside)
            return around.replace(own, b"").replace(b"%s", inside)
    return around.replace(b"%s", inside)


def in_card(around, inside):
    if around == b"%s":
        kept = [m for m in MUST.split(b",") if m.split(b":")[0] != inside.split(b":")[0]]
        return b"{" + b",".join(kept + [inside]) + b"}"
    return card(placed(around, inside))


def properties():
    """Every property of every type with values of every kind; by an escaped name; and names that only look known."""
    for around, known in TYPES.values():
        for name, kind in known.items():
            for value in VALUES + [b'"' + kind.encode() + b'"']:
                yield in_card(around, member(name, value))
            wrong = b"5" if kind != "pref" else b'"5"'
            for at in range(len(name)):
                yield card(placed(around, member(escaped(name, at), wrong)))
            for near in (name.upper(), name.capitalize(), name + b"s", name[:-1], name[1:], name + b"\\u0000", b" " + name):
                if near not in known:
                    yield card(placed(around, member(near, wrong)))


def types():
    names = [b"Card", b"Name", b"NameComponent", b"AddressComponent", b"Address", b"EmailAddress", b"Phone", b"Resource", b"", b"name", b"Group"]
    for around, _ in TYPES.values():
        for name in names:
            yield in_card(around, b'"@type":"' + name + b'"')
            if name:
                yield in_card(around, b'"@type":"' + escaped(name, len(name) - 1) + b'"')


def mandatory():
    members = MUST.split(b",")
    for size in range(4):
        for some in itertools.permutations(members, size):
            yield b"{" + b",".join(some) + b"}"
            yield b" {" + b",".join(some + (b'"kind":5',)) + b"}"
    for wrong in (b'"version":"1"', b'"version":"1.00"', b'"version":"2.0"', b'"version":1.0', b'"version":"1\\u002e0"', b'"@type":"card"',
        b'"@type":"Card "', b'"@type":"C\\u0061rd"'):
        yield b"{" + b",".join([wrong] + [m for m in members if m.split(b":")[0] != wrong.split(b":")[0]]) + b"}"
    for part in (b"{}", b'{"kind":"given"}', b'{"value":"A"}', b'{"kind":null,"value":"A"}', b'{"kind":"given","value":null}',
        b'{"kind":5}', b'{"@type":"x"}', GIVEN):
        yield card(b'"name":{"components":[' + part + b"]}")
        yield card(b'"addresses":{"a":{"components":[' + part + b"]}}")
    for entry in (b"{}", b'{"address":null}', b'{"pref":0}', b'{"label":"x"}', b'{"number":"5"}', b'{"address":"x"}'):
        yield card(b'"emails":{"a":' + entry + b"}")
        yield card(b'"phones":{"a":' + entry + b"}")


def between():
    """The rules between members of a Name and of an Address, over all that they look at; and those of the Card."""
    odd = b'{"kind":5,"value":"A"}'
    lists = [
        None, b"{}", b"", GIVEN, APART, GIVEN + b"," + APART, APART + b"," + GIVEN, b",".join((GIVEN, APART, APART, GIVEN)),
        b",".join((APART, GIVEN, APART)),
        GIVEN + b",5," + APART, APART + b",5," + APART, APART + b"," + odd + b"," + APART, b"5", b"{}", b'{"kind":"separator"}', odd,
        b'{"kind":"sep\\u0061rator","value":""}',
        b'{"kind":"Separator","value":""}', b'["separator"]', APART + b"," + GIVEN + b"," + APART + b"," + APART]
    for around in (b'"name":{%s}', b'"addresses":{"a":{%s}}'):
        for i, parts in enumerate(lists):
            for ordered in (None, b"true", b"false", b"1"):
                for apart in (None, b'","', b"5"):
                    for full in (None, b'"A"', b"null"):
                        inside = [m for m in (
                            None if parts is None else b'"components":' + (parts if i == 1 else b"[" + parts + b"]"),
                            ordered and b'"isOrdered":' + ordered, apart and b'"defaultSeparator":' + apart, full and b'"full":' + full) if m]
                        if i < 12 or apart is None:
                            yield card(around.replace(b"%s", b",".join(inside)))
    for kind in (None, b'"group"', b'"gro\\u0075p"', b'"Group"', b'"individual"', b'""', b"null", b'["group"]'):
        for members in (b"{}", b'{"a":true}', b'{"a":false}', b'{"a":1}', b'{"a":true,"b":null}', b"[]", b"null", b'"x"'):
            some = [m for m in (kind and b'"kind":' + kind, b'"members":' + members) if m]
            yield card(*some)
            yield card(*reversed(some))
    yield card(b'"kind":"group"')


def keys():
    """Keys of the Id maps: each byte, lengths, escapes, and a bad key beside other faults of the entry."""
    for byte in range(128):
        one = b"\\u%04x" % byte if byte < 32 or byte in (34, 92) else bytes([byte])
        yield card(b'"addresses":{"' + one + b'":{}}')
    for key in (b"\xc3\xa9", b"\\u00e9", b"a\xf0\x9f\x98\x80", b"\\u0041-_9", b"a.b", b"@type", b"a" * 254, b"a" * 255, b"a" * 256,
        b"\\u0061" * 255, b"\\u0061" * 256, b"-" * 255 + b"!", b"a" * 300):
        yield card(b'"addresses":{"' + key + b'":{}}')
    entries = [b"5", b"null", b"[]", b"{}", b'{"address":"x","number":"5"}', b'{"pref":0}', b'{"defaultSeparator":","}', b'{"@type":"x"}',
        b'{"address":5,"number":5}']
    for around in (b'"emails":{"%s":', b'"phones":{"%s":', b'"addresses":{"%s":'):
        for key in (b"ok", b"", b"a b"):
            for entry in entries:
                yield card(around.replace(b"%s", key) + entry + b"}")
    yield card(b'"emails":{"a":{"address":"x"},"b c":{"address":"y"},"d":5}')
    yield card(b'"emails":{"a":{"address":"x"},"b":5,"c d":{"address":"y"}}')


def times():
    good = b"2010-10-10T10:10:10Z"
    tried = [good, b"0000-02-29T00:00:00Z", b"9999-12-31T23:59:59Z", b"", b" " + good, good + b" ", good[:-1], good[:-1] + b"z",
        good + b"Z", good[:-1] + b"+00:00", b"-" + good, b"2010\\u002d10-10T10:10:10\\u005a"]
    for year in (1600, 1700, 1900, 1999, 2000, 2004, 2100, 2400):
        tried += [b"%04d-02-%02dT10:10:10Z" % (year, day) for day in (28, 29, 30)]
    for month in range(14):
        tried += [b"2010-%02d-%02dT10:10:10Z" % (month, day) for day in (0, 1, 28, 29, 30, 31, 32)]
    tried += [b"2010-10-10T%02d:10:10Z" % hour for hour in (0, 9, 19, 20, 23, 24, 29, 30, 99)]
    tried += [b"2010-10-10T10:%02d:10Z" % minute for minute in (0, 9, 59, 60, 99)]
    tried += [b"2010-10-10T10:10:%02dZ" % second for second in (0, 9, 59, 60, 61, 99)]
    for part in (b".", b".0", b".1", b".10", b".01", b".003", b".000", b".5x", b".-5", b",5", b".5.5", b"." + b"0" * 40 + b"1",
        b"." + b"9" * 300, b"." + b"9" * 300 + b"0", b".1 ", b".\xc2\xb2"):
        tried.append(good[:-1] + part + b"Z")
    for at in range(len(good)):
        tried += [good[:at] + other + good[at + 1:] for other in (b"/", b":", b"a", b"0", b"9", b"-", b"T", b"", b"\xc3\xa9", b"10")]
    for one in tried:
        yield card(b'"created":"' + one + b'"')
    for one in tried[:12]:
        yield card(b'"updated":"' + one + b'"')


def numbers():
    for n in (
            b"0", b"1", b"2", b"9", b"10", b"99", b"100", b"101", b"109", b"110", b"199", b"200", b"1000", b"10000", b"-0", b"-1", b"-100",
            b"1.0", b"1.5", b"100.0", b"1e0", b"1E0", b"1e2", b"10e-1",
            b"256", b"257", b"356", b"65537", b"4294967297", b"9007199254740991", b"9007199254740992", b"18446744073709551616",
            b"18446744073709551617", b"18446744073709551716", b"1" * 60, b"1" + b"0" * 5000):
        yield card(b'"emails":{"e1":{"address":"x","pref":' + n + b"}}")
        if len(n) < 4:
            yield card(b'"phones":{"e1":{"number":"x","pref":' + n + b"}}")
            yield card(b'"addresses":{"e1":{"pref":' + n + b"}}")


def sets():
    for inside in (
            b"", b'"a":true', b'"":true', b'"a":true,"b":true', b'"a":true,"b":false', b'"a":false,"b":null', b'"a":null,"b":false',
            b'"a":1', b'"a":"true"', b'"a":{}', b'"@type":true', b'"@type":"x"'):
        for around in (
                b'"kind":"group","members":{%s}', b'"emails":{"e":{"address":"x","contexts":{%s}}}', b'"phones":{"p":{"number":"5","features":{%s}}}',
                b'"phones":{"p":{"number":"5","contexts":{%s}}}', b'"addresses":{"a":{"contexts":{%s}}}',
                b'"name":{"full":"A","sortAs":{%s}}', b'"localizations":{%s}'):
            yield card(around.replace(b"%s", inside))
    for inside in (b'"de":{"~":1,"a":null,"a/b":5,"localizations":0}', b'"de":{},"fr":{}', b'"de":{},"fr":[]',
        b'"de":{"uid":5},"de-AT":"x"', b'"":{"":{}}'):
        yield card(b'"localizations":{' + inside + b"}")
    yield card(b'"kind":"group","members":{' + b",".join(b'"m%d":true' % i for i in range(400)) + b"}")
    yield card(b'"kind":"group","members":{' + b",".join(b'"m%d":true' % i for i in range(400)) + b',"last":false}')


def repeated():
    """Names that stand twice in a card of many members: in a group, in the card, and beside a fault of the card."""
    for last in (b"m20", b"m0", b"m11", b"\\u006d5"):
        names = [b"m%d" % (i * 7 % 20) for i in range(20)] + [last]
        yield card(b'"kind":"group","members":{' + b",".join(b'"%s":true' % name for name in names) + b"}")
    others = b",".join(b'"%c":{"uid":0}' % letter for letter in b"jbhdgcfeia")
    for last in (b'"k":0', b'"uid":"u2"', b'"\\u0075id":"u2"', b'"e":{"uid":0}', b'"a":{"b":0,"b":0}', b'"a":{"b":x}'):
        yield card(others, last)
        yield card(b'"kind":5', others, last)


def pairs():
    """Two faults in one card, in both orders; and a fault of the text beside one of the card."""
    faults = [
        b'"kind":5', b'"created":"x"', b'"updated":[]', b'"language":null', b'"members":{}', b'"members":[]', b'"name":{}',
        b'"name":{"full":"A","@type":"x"}', b'"name":5', b'"emails":{"a":{}}',
        b'"emails":{"a b":{"address":"x"}}', b'"phones":{"p":{"number":"5","pref":0}}', b'"addresses":{"a":{"defaultSeparator":","}}',
        b'"addresses":{"":[]}', b'"localizations":{"de":5}',
        b'"prodId":{}', b'"@type":"Other"', b'"version":1', b'"uid":true', b'"name":{"components":[5]}', b'"extra":{"kind":5}']
    for one, other in itertools.permutations(faults, 2):
        names = [f.split(b":")[0] for f in (one, other)]
        if names[0] != names[1]:
            kept = [m for m in MUST.split(b",") if m.split(b":")[0] not in names]
            yield b"{" + b",".join([one] + kept + [other]) + b"}"
    for inside in itertools.permutations([b'"full":5', b'"isOrdered":"x"', b'"sortAs":{"a":5}', b'"components":[' + APART + b"]", b'"@type":1'], 2):
        yield card(b'"name":{' + b",".join(inside) + b"}")
    for text in (b'{"kind":5,"uid":"\\uD800"}', b'{"kind":5,"kind":6}', b'{"kind":5', b'[5,]', b'{"kind":5}]', b'{"kind":' + b"[" * MOST_DEPTH,
        b"[" + b"0," * MOST_VALUES + b"0]", b" " * 65537):
        yield text
    for text in (b"null", b"5", b'"Card"', b"[]", b" [] ", b"true", b" \n{}", b"[" + card() + b"]"):
        yield text


RICH = card(
    b'"kind":"group","created":"2010-10-10T10:10:10.5Z","members":{"a":true},"language":"de","prodId":"p","ex.com:x":{"kind":5}',
    b'"name":{"@type":"Name","components":[' + GIVEN + b"," + APART + b',{"@type":"NameComponent","kind":"surname","value":"B","phonetic":"b"}],"isOrdered":true,'
    b'"defaultSeparator":" ","full":"A-B","sortAs":{"surname":"B"},"phoneticScript":"Latn","phoneticSystem":"ipa"}',
    b'"emails":{"e1":{"@type":"EmailAddress","address":"a@b","contexts":{"work":true},"pref":1,"label":"l"}}',
    b'"phones":{"p_1":{"number":"5","features":{"voice":true},"contexts":{},"pref":100,"label":""}}',
    b'"addresses":{"a-1":{"components":[{"kind":"name","value":"S"}],"countryCode":"DE","coordinates":"geo:","timeZone":"x","contexts":{"billing":true},"full":"S","pref":7}}',
    b'"localizations":{"de":{"name/full":5}}')


def damaged():
    """The rich card with each byte replaced or left out, and each of its values replaced."""
    for at in range(len(RICH)):
        for other in (b"x", b"5", b""):
            yield RICH[:at] + other + RICH[at + 1:]
    for value in tree(RICH, MOST_WORDS).all():
        for other in (b"null", b"{}", b"5", b'"x"', b"[]", b"true", b"false"):
            yield RICH[:value.start] + other + RICH[value.end:]


class Dice:
    """Numbers that only look like chance, the same on each machine."""

    def __init__(self, seed):
        self.state = seed

    def below(self, n):
        self.state = (self.state * 6364136223846793005 + 1442695040888963407) % 2 ** 64
        return (self.state >> 33) % n

    def one(self, some):
        return some[self.below(len(some))]

    def several(self, some, most):
        """At most so many different ones."""
        return list(dict.fromkeys(self.one(some) for _ in range(self.below(most + 1))))


def chance(count):
    """Cards put together by chance from known names and odd values."""
    dice = Dice(9553)
    names = sorted({name for _, known in TYPES.values() for name in known} | {b"a", b"e1", b"x y"})
    leaves = [b"null", b"true", b"true", b"false", b"1", b"0", b'"x"', b'"separator"', b'"group"', b'"Name"', b'"2010-10-10T10:10:10Z"', b"[]", b"{}"]

    def value(depth):
        if depth == 0 or dice.below(3) == 0:
            return dice.one(leaves)
        if dice.below(4) == 0:
            return b"[" + b",".join(value(depth - 1) for _ in range(dice.below(4))) + b"]"
        return b"{" + b",".join(member(name, value(depth - 1)) for name in dice.several(names, 4)) + b"}"

    for _ in range(count):
        tops = dice.several([b"name", b"emails", b"phones", b"addresses", b"kind", b"members", b"created", b"localizations", b"x"], 3)
        yield card(*(member(name, value(3)) for name in tops))


def buffers():
    """The table's length; white space before the card; a line feed after it."""
    for words in (0, 6, 7, 8, 31, 32, 33, 39, 40, 600):
        yield words, card()
        yield words, b"{}"
        yield words, b"5"
        yield words, b"5x"
    yield 100, b"\r\n\t " + card() + b"\n"
    yield 100, b"  " + card(b'"kind" : 5 ')


def sized(text):
    rows = rows_of(text)
    return (ROW_WORDS * rows + 13 if rows else 100), text


HEAD = noted(b"{" + MUST)  # of a card whose text is made by a recipe
GROUP = HEAD + ',"kind":"group","members":{"":true,"m00000":true'


def deep():
    """A property that is nested as deep as may be, and deeper."""
    for below in (31, 32, MOST_DEPTH - 2, MOST_DEPTH - 1, MOST_DEPTH):
        yield card(b'"x":' + b"[" * below + b"]" * below)
        yield card(b'"x":' + b'{"kind":' * below + b"5" + b"}" * below)
        yield card(b'"x":' + b'[{"name":' * (below // 2) + b"[" * (below % 2) + b"]" * (below % 2) + b"0" * (below % 2 == 0) + b"}]" * (below // 2))
        yield card(b'"x":[' + b"[" * (below - 1) + b"]" * (below - 1) + b',{}],"kind":5')
        yield card(b'"kind":5', b'"x":' + b"[" * below + b"]" * below)


def large():
    """Cards of many values and of many bytes, with the words of the table."""
    own = len(tree(card(), MOST_WORDS).inside) + 2  # the values of a card with an empty array
    for values in (2048, 2049, MOST_VALUES - 1, MOST_VALUES, MOST_VALUES + 1):
        text = card(b'"x":[' + b"0," * (values - own - 1) + b"0]")
        enough = ROW_WORDS * values
        for words in (0, enough - ROW_WORDS, enough - 1, enough, enough + ROW_WORDS):
            if words <= MOST_WORDS + ROW_WORDS:
                yield words, text
        yield MOST_WORDS, card(b'"kind":5', b'"x":[' + b"0," * (values - own - 2) + b"0]")
    for count in (1500, 20000, MOST_VALUES - own - 3):  # a group, and what may be wrong with its last member
        whole = f"{GROUP}%#{count},14,7919;"
        words = ROW_WORDS * (count + own + 3)
        yield words, Made(whole + "}}")
        yield words - ROW_WORDS, Made(whole + "}}")
        yield words, Made(whole.replace('"group"', '"Group"') + "}}")
        for last in ('"n":false', '"n":null', '"m00000":true', '"m07919":true', '"%5cu006d00000":true', '"n":true},"name":{'):
            yield words + 4 * ROW_WORDS, Made(f"{whole},{last}}}}}")
    for entry, step, values in (('"e00000":{"address":"x"}', 31, 2), ('"e00000":{"address":"x","pref":7}', 310, 3)):  # the digit of `pref` stays
        entries = f'{HEAD},"emails":{{"e":{{"address":"x"}},{entry}%#{10000},{len(entry) + 1},{step};'
        yield ROW_WORDS * (10000 * values + 12), Made(entries + "}}")
        yield MOST_WORDS, Made(entries + ',"e f":{"address":"x"}}}')
        yield MOST_WORDS, Made(entries + ',"e_f":{"address":"x","pref":0}}}')
    part, apart = '{"kind":"given","value":"A"}', '{"kind":"separator","value":"-"}'
    both = f",{part},{apart}"
    for ordered in ("true", "false"):
        parts = f'{HEAD},"name":{{"isOrdered":{ordered},"components":[{part}{both}%*{len(both) * 5000},{len(both)};'
        yield MOST_WORDS, Made(parts + "]}}")
        yield MOST_WORDS, Made(parts + f",{apart}]}}}}")
        yield MOST_WORDS, Made(parts + f",{part},5]}}}}")


def long():
    """Cards as long as may be and a byte longer: padded, bad at the last byte, blank, with one long string, and cut."""
    for size in (65536, 65537, MOST_BYTES, MOST_BYTES + 1):
        own = len(card())
        yield 100, Made(f"{HEAD}}} %*{size - own - 1},1;")
        yield 100, Made(f" %*{size - own - 1},1;{HEAD}}}")
        yield 100, Made(f"{HEAD} %*{size - own - 1},1;}}")
        yield 100, Made(f"{HEAD}}} %*{size - own - 2},1;x")
        yield 100, Made(f"{HEAD}}} %*{size - own - 2},1;,")
        yield 100, Made(f" %*{size - 1},1;")
        yield 100, Made(f'{HEAD},"x":"y%*{size - own - 8},1;"}}')
        yield 100, Made(f'{HEAD},"kind":"y%*{size - own - 11},1;"}}')
        yield 100, Made(f'{HEAD},"x":"y%*{size - own - 6},1;')
        yield 100, Made(f'{HEAD},"x":"y%*{size - own - 12},1;%5cud800')
        yield 100, Made(f'{HEAD},"kind":5 %*{size - own - 10},1;}}')
        yield 100, Made(f'{HEAD},"created":"2010-10-10T10:10:10.1%*{size - own - 35},1;Z"}}')


def figures():
    for path in sorted(glob.glob(os.path.join(ROOT, "tests", "cards", "figure-*.json"))):
        with open(path, "rb") as figure:
            text = figure.read()
        assert intake.judge(text, MOST_WORDS)[0] == 0, path
        yield text


def groups():
    """The cases, by the base text that they share."""
    asked = ((lent(case["words"], case["text"]), case["text"]) for case in ASKED if case["service"] == "judge")
    texts = itertools.chain(
        properties(), types(), mandatory(), between(), keys(), times(), numbers(), sets(), repeated(), pairs(), deep(), figures(), chance(500))
    damage = itertools.chain([RICH], damaged())
    for base, cases in ((b"", itertools.chain(buffers(), large(), long())), (card(), itertools.chain(asked, map(sized, texts))), (RICH, map(sized, damage))):
        yield base, (Case("judging", words, text) for words, text in cases)
