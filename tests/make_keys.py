"""Cards whose patches break conditions, for the cases of localizing: which number is answered, and which key it names. Several keys for each number and
several numbers; keys whose order by bytes isn't that of their parts, of their spelling, or of what `~0` and `~1` stand for; pairs that clash, in any order;
keys wherever they may stand in a text; patches of many entries, up to the limits."""
import itertools

from make_judging import HEAD, Dice, card
from store import Made

from reading import MOST_BYTES, MOST_DEPTH
from rulings import MUST

OWN = b'"a":{"b":{"c":0}},"h":[[],{}],"s":"t","x":[1]'


def held(entries, before=b"", after=b""):
    """The member `localizations`, in which other languages may stand before and after."""
    return b'"localizations":{' + before + b'"de":{' + entries + b"}" + after + b"}"


def patched(*entries, own=OWN):
    return card(own, held(b",".join(entries)))


BASE = patched()


def entry(key, value=b"1"):
    return b'"' + key + b'":' + value


def keyed(*keys):
    """A card with a patch of these keys, as they are written."""
    return patched(*map(entry, keys))


# Sets of keys that stand in every order, and the key that is named, as it is written.
PERMUTED = [
    ((b"a", b"a!", b"a/b"), b"a"),
    ((b"a", b"a/b", b"a/b/c"), b"a"),
    ((b"b/c", b"b/c/d", b"b!", b"b!/x"), b"b!"),
    ((b"p/q/r", b"p", b"o/n", b"o"), b"o"),
    ((b"p/q", b"p/q/r", b"p!", b"o"), b"p/q"),
    ((b"", b"/", b"/a", b"//"), b""),
    ((b"q\\/r", b"\\u0071", b"r", b"q~1r"), b"\\u0071"),
    ((b"a~0/x", b"a~1/x", b"aB/x", b"\\u0061!/x"), b"\\u0061!/x"),
    ((b"a~0/x", b"a~1/x", b"a\\u007f/x", b"a~01/x"), b"a~0/x"),
    ((b"\\u0061q/x", b"]/x", b"^/x", b"\\u005e/y"), b"]/x"),
    ((b"\\ud83d\\ude00/x", b"\\uffee/x", b"\xc3\xa9/x", b"\xf0\x9f\x98\x80/w"), b"\xc3\xa9/x"),
    ((b"localizations/fr", b"localization\\u0073/de", b"localizations~1x", b"localizations"), b"localizations"),
    ((b"localizations/fr", b"localization\\u0073/de", b"localizations!", b"a"), b"localization\\u0073/de"),
    ((b"x/1", b"x/0", b"no/a", b"s/b"), b"x/0"),
    ((b"h/1/z", b"h/0/0", b"a/b/c/d", b"x/9"), b"h/0/0"),
    ((b"s/b", b"no/a", b"a/b/c/d", b"z"), b"a/b/c/d"),
    ((b"x", b"x/0", b"no/a", b"x/0/1"), b"x"),
    ((b"b~", b"a~2", b"a", b"a/b"), b"a~2"),
    ((b"z~", b"localizations/x", b"x/0", b"no/a"), b"z~"),
]

# Two keys for each number, once with small keys for the small numbers and once with large ones.
FAULTS = [
    {22: (b"b~", b"\\u0061b~2"), 23: (b"localizations/b", b"localizations/a"), 24: (b"m/q", b"m"), 25: (b"x/1", b"x/0"), 26: (b"y/b", b"y/a")},
    {22: (b"z~", b"y~/"), 23: (b"localizations/b", b"localizations"), 24: (b"k/q", b"k"), 25: (b"h/1/b", b"h/0/a"), 26: (b"c/b", b"a/d/e")},
]


def several():
    """Every set of numbers, two keys for each, in three orders."""
    for faults in FAULTS:
        for size in range(1, len(faults) + 1):
            for some in itertools.combinations(faults, size):
                keys = [key for number in some for key in faults[number]]
                yield from (keyed(*order) for order in (keys, keys[::-1], keys[::2] + keys[1::2]))


def standing():
    """The key at fault among good ones, first and last; with white space; in a card whose members stand in any order; beside other languages."""
    good = [entry(b"g%d" % i, b'"\\u00e9 \xc3\xa9"') for i in range(6)]
    for key in (b"\\u0062~", b"localizations", b"a/b/c/d", b"x/0"):
        for place in (0, 3, 6):
            yield patched(*good[:place], entry(key, b"null"), *good[place:])
        for blank in (b" ", b"\t", b"\r\n", b" \n \t "):
            yield patched(*good[:2], blank + b'"' + key + b'"' + blank + b":" + blank + b"[" + blank + b"]" + blank)
            yield blank + card(b'"x":[1]', held(blank + entry(key) + blank))
        members = (held(entry(key), b'"fr":{"~":1},', b',"es":{"a~":1}'), b'"\xc3\xa9":"\\n","x":[1]', MUST)
        yield from (b"{" + b",".join(order) + b"}" for order in itertools.permutations(members))
        yield card(OWN, held(entry(key), b'"":{"a":1,"a/b":2},'))
        yield card(OWN, held(entry(key), after=b',"d\\u0065~":{}'))
    for one, other in ((b"q", b"q/r"), (b"\\u0071", b"q\\/r"), (b"q", b"\\u0071/r"), (b"~0", b"~0/~1"), (b"", b"/"), (b"a", b"a/b/c")):
        for between in ([], good[:3], [entry(b"q!"), entry(b"q0/x")]):
            yield patched(entry(one), *between, entry(other))
            yield patched(*good[3:], entry(other), *between, entry(one))


def alike():
    """Keys that begin alike for a long way; keys of many parts."""
    for size in (7, 8, 9, 64, 300):
        same = b"y" * size
        for ends in (
                (b"b/x", b"a/x"), (b"/x", b"!/x"), (b"/b/x", b"/a/x"), (b"/x", b"\\u0021/x"), (b"~1/x", b"~0/x"), (b"", b"/x"), (b"~", b"a~"),
                (b"!", b"!/x", b"/x", b"/x/y")):
            yield keyed(*(same + end for end in ends))
            yield keyed(*(same + end for end in reversed(ends)))
    for count in (3, 62, 63, 64, 65, 1000):
        way = b"a" + b"/b" * (count - 1)
        yield keyed(way + b"/a")
        yield keyed(way + b"/a", way)
        yield keyed(way + b"/a", way + b"!", b"z")
        yield keyed(way[::-1] + b"/x", way)


def spelled_ways():
    """`localizations` and the language spelled by escapes: the key stands further on."""
    for member in (b"localizations", b"\\u006cocalizations", b"localization\\u0073"):
        for language in (b"de", b"\\u0064e", b"d\\u0065", b"\\u0064\\u0065"):
            for key in (b"b~", b"localizations", b"a/b/c/d", b"x/0", b"good"):
                yield card(OWN, b'"' + member + b'":{"fr":{"~":1},"' + language + b'":{' + entry(key) + b"}}")


# What may follow a beginning that keys have in common: tildes in any company, escapes of them, slashes, and the bytes beside these.
TAILS = (
    b"~0a", b"~1a", b"~01", b"~00", b"~1", b"~0~1", b"~1~0", b"a", b"!", b"\\u007e0b", b"~\\u0031b", b"\\u007e\\u0030c", b"\\u0061b", b"\\n", b"\xc3\xa9",
    b"\\u00e9a", b"b/a")


def eights():
    """Keys that are told apart behind beginnings of up to 17 bytes, since bytes are compared eight at a time: which of them clashes, and which member each
    replaces or adds; names with slashes and tildes among the members."""
    names = {b"": b"", b"/": b"~1", b"~": b"~0", b"~1": b"~01", b"/a": b"~1a", b"0": b"0", b"\\u002fb": b"~1b", b"\\u007e0": b"~00", b"z": b"\\u007a", b"/~/": b"~1~0~1"}
    for size in (0, 1, 5, 6, 7, 8, 9, 14, 15, 16, 17):
        for same in sorted({b"y" * size, (b"~1~0" * 5)[:size - size % 2] + b"y" * (size % 2)}):
            for tail in TAILS[size % 4::4]:
                yield keyed(*(same + other for other in TAILS), same + tail + b"/x")
        same = b"y" * size
        inside = b'"w":{' + b",".join(entry(same + name, b"[]") for name in names) + b"}"
        for some in (list(names), list(names)[::-2], list(names)[1::3]):
            yield patched(*(entry(b"w/" + same + names[name], b"{}") for name in some), own=inside)
            yield patched(*(entry(b"w/" + same + names[name] + b"q", b"{}") for name in some), entry(b"w/" + same + b"~1", b"null"), own=inside)


LETTERS = [b"%c" % letter for letter in b"abcdefghijklmnopq"]


def holding(parts):
    """The member of a card with objects one inside the other, by these names; the innermost has a member for each letter."""
    value = b"{" + b",".join(entry(letter, b"[]") for letter in LETTERS) + b"}"
    for part in parts[:0:-1]:
        value = b'{"o":{},' + entry(part, value) + b"}"
    return entry(parts[0], value)


def together():
    """Seventeen entries whose keys begin alike, so that they go on together so far: in objects one inside the other; and one more whose way is spelled in
    another manner, stops sooner, branches off, or leads nowhere. Each time the text of the seventeen, and those with one more."""
    for way in (b"w", b"w/v", b"w/vvvvvvvv", b"w/v/uu/t", b"ww/vvvvvvvvv/u/t/s/r/q"):
        parts = way.split(b"/")
        spelled = [b"\\u%04x" % way[0] + way[1:], way[:-1] + b"\\u%04x" % way[-1], b"\\/".join(parts), way.replace(b"/", b"\\/", 1)]
        others = [one + b"/z" for one in spelled] + [
            way + b"/zz", b"/".join(parts[:-1] + [b"o", b"x"]), way, way + b"/a", way + b"/a/x", way + b"/z/x", way[:-1] + b"/x", way + b"!", way + b"~1x", way + b"~/x",
            way + b"/\xc3\xa9", b"\xc3\xa9", b"w/o/x", b"o"]
        for name in (b"", b"n"):
            keys = [way + b"/" + letter + name for letter in LETTERS]
            good = [entry(key, b"{}") for key in keys]
            more = [[]] + [[entry(key)] for key in sorted(set(others) - set(keys))]
            yield patched(*good, own=holding(parts)), [patched(*good, *one, own=holding(parts)) for one in more]


# Names that are taken by chance, and as parts of keys: bytes around `/`, tildes, nothing at all, and another alphabet.
NAMES = {
    b"a": b"a", b"b": b"\\u0062", b"a!": b"a!", b"a0": b"a0", b"": b"", b"ab": b"ab", b"~": b"~0", b"/": b"~1", b"a/": b"\\u0061~1", b"\\u00e9": b"\xc3\xa9", b"x": b"x"}


def some_object(dice, depth):
    """An object by chance: its names, and what stands there; of the others an array, or a scalar."""
    return {
        name: some_object(dice, depth - 1) if depth and dice.below(5) else dice.one([b"0", b'"s"', b"[]", b'[{"a":1}]'])
        for name in dice.several(list(NAMES), 4) + [dice.one(list(NAMES))]}


def written(value):
    return value if isinstance(value, bytes) else b"{" + b",".join(entry(name, written(below)) for name, below in value.items()) + b"}"


def some_key(dice, value):
    """The parts of a key by chance, which mostly keep to names that are there, and seldom go on where nothing is."""
    name = dice.one(list(value) if isinstance(value, dict) and dice.below(8) else list(NAMES))
    below = value.get(name, b"") if isinstance(value, dict) else b""
    return [NAMES[name]] + (some_key(dice, below) if dice.below(8) < (5 if isinstance(below, dict) else 1) else [])


def some_keys(dice, own):
    """Some keys by chance; most of those that clash are left out, and now and then there is one of another fault."""
    keys = []
    for key in (some_key(dice, own) for _ in range(dice.below(14) + 1)):
        clash = any(key[:len(other)] == other[:len(key)] for other in keys)
        if key not in keys and (not clash or dice.below(12) == 0):
            keys.append(key)
    return [b"/".join(key) for key in keys] + ([dice.one([b"a~", b"~2/a", b"localizations/a"])] if dice.below(16) == 0 else [])


def chance(cards, patches):
    """Cards by chance, each without entries, and with patches by chance."""
    dice = Dice(2002)
    for _ in range(cards):
        own = some_object(dice, 3)
        inside = written(own)[1:-1]
        yield patched(own=inside), [
            patched(*(entry(key, dice.one([b"null", b"1", b"{}", b'{"a":[1]}'])) for key in some_keys(dice, own)), own=inside) for _ in range(patches)]


# ---- many entries, by recipes

PATCH = ',"localizations":{"de":{'


def counted(count, step=7919, name="n", value="[]", tail=""):
    """So many members with numbers in their names; 7919 gives an order that looks like chance. (No digit stands in the value: it would count on too.)"""
    first, second = (f'"{name}{number:05}{tail}":{value}' for number in (0, step))
    return f"{first},{second}%#{count - 2},{len(second) + 1},{step};"


def spread(count, factor, name="n", value="[]", tail=""):
    """The same by numbers that are spread evenly: whatever the factor is, these are the same names, in another order."""
    assert 100000 % count == 0
    return counted(count, 100000 // count * factor % 100000, name, value, tail)


def made(entries, own=""):
    return Made(f"{HEAD}{own and ','}{own}{PATCH}{entries}}}}}}}")


def many():
    """Patches of very many entries: good ones; with a key at fault; with nothing but faults."""
    flat = '"w":{' + spread(12500, 31) + "}"
    nested = '"w":{' + spread(10000, 31, value='{"a":[]}') + "}"
    yield made(spread(12500, 7919, "w/n", "{}"), flat)
    yield made(spread(12500, 1, "w/n", "null"), flat)
    yield made(spread(12500, 7919, "v"), flat)
    yield made(spread(10000, 7919, "w/n", "{}", "/a"), nested)
    yield made(spread(10000, 10007, "w/n", "{}", "/b"), nested)
    flat = '"w":{' + spread(4000, 31) + "}"
    for fault in ('"w/n00000/x":0', '"w/n07925/x":0', '"w":0', '"v/x":0', '"w/n~":0,"w/m~":0', '"localizations/b":0,"localizations/a":0'):
        yield made(spread(4000, 7919, "w/n", "{}") + "," + fault, flat)
        yield made(fault + "," + spread(4000, 7919, "w/n", "{}"), flat)
    nested = '"w":{' + spread(4000, 31, value='{"a":[]}') + "}"
    for fault in (
            '"w/n00050/a":0,"w/n00025/a":0,"w/n00050/a/b":0', '"w/n00050/a/0":0,"w/n00025/a/0":0', '"w/n00050/d/c":0,"w/n00025/d/c":0', '"w/n99999/a":0'):
        yield made(spread(4000, 7919, "w/n", "{}", "/b") + "," + fault, nested)
    for name, tail in (("x/", ""), ("s/", ""), ("no/", ""), ("~", ""), ("localizations/", ""), ("w/n", "/z")):
        yield made(spread(5000, 7919, name, "true", tail) + ',"zz":1', '"x":[1],"s":"t","w":{' + spread(5000, 31) + "}")
    yield made(spread(4000, 7919, "m") + "," + spread(4000, 31, "m", tail="/x"))
    yield made(spread(4000, 31, "m", tail="/x") + "," + spread(4000, 7919, "m") + ',"m!":0,"m!/x":0')


def limits():
    """As many entries and values as a text may have; keys that fill a text; places near the last."""
    yield made(counted(16378, 1, "w/n", "{}"), '"w":{' + counted(16378, 1) + "}")
    yield made(counted(16377, 1, "w/n", "{}") + ',"w/n00001/x":0', '"w":{' + counted(16377, 1) + "}")
    yield made(counted(10918, 1, value="{}", tail="/a"), counted(10918, 1, value='{"a":[]}'))
    yield made(spread(25000, 7919))
    yield made(spread(25000, 7919) + ',"n00012/x":0')
    way = "x" + "/a" * (MOST_DEPTH - 2)
    deep = f'"x":{{"a":%*{5 * (MOST_DEPTH - 3)},5;{{{spread(2500, 31, value="true")}}}' + "}" * (MOST_DEPTH - 2)
    yield made(spread(2500, 7919, way + "/n", "null"), deep)
    yield made(spread(2500, 7919, way + "/n", "false") + f',"{way}/n00040/y":0', deep)
    yield made(spread(2500, 7919, way + "/n", "false", "/z"), deep)
    for size in (1000, 200000):
        yield made(f'"a/b%*{2 * size},2;":0,"a/b":1', '"a":{"b":{}}')
        yield made(f'"q/b%*{2 * size},2;":0', '"a":{"b":{}}')
        yield made(f'"q/b%*{2 * size},2;/c":0,"q/b%*{2 * size},2;":0')
        yield made(f'"a/q%*{size},1;":0,"a/q":null,"b":0', '"a":{"b":{}}')
    room = MOST_BYTES - len(HEAD + PATCH + "}}}")
    for key in ("b~", "b/x"):
        filled = room - len(f'"z":"","{key}":0')
        yield made(f'"z":"z%*{filled - 1},1;","{key}":0')
        yield made(f'"{key}":0,"z":"z%*{filled - 1},1;"')


def texts():
    """All that share one base text, but for those in every order."""
    return itertools.chain(several(), standing(), alike(), spelled_ways(), eights())


def recipes():
    return itertools.chain(many(), limits())
