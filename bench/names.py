"""The inputs of `bench/run --names`, which asks what the check for repeated names costs: ordinary cards, objects that grow, and texts of a stranger who
picks the names. Each has a text that its time is held to."""
import collections
import itertools
import random

from kinds import LIMIT, MOST_WORDS, NAME, RICH, ROW_WORDS, card

# `beside` is the text that the time is held to, with the same table, `held` says what it is, and `most` how much longer this one may take. Ordinary
# cards are held to the other build.
Input = collections.namedtuple("Input", "name text words beside held most", defaults=(None, "the other build", None))

MEMBERS = 1500


def members(names, value=b"0", end=b"}"):
    return b"{" + b",".join(b'"%s":%s' % (name, value) for name in names) + end


def listed(texts):
    return b"[" + b",".join(texts) + b"]"


def with_memo(size):
    """A rich card with so many bytes of prose."""
    prose = b"Rang twice, left a card with the neighbour and will come again on Monday. "
    return card(RICH, b'"memo":"%s"' % (prose * (size // len(prose) + 1))[:size])


def plain(size):
    """Rich cards in one text of just this length: at most ten, which have nearly as many values as a text may, and memos fill up what is left."""
    count = min(10, (size - 1) // len(with_memo(0) + b","))
    rest = size - len(listed([with_memo(0)] * count))
    return listed([with_memo(rest // count)] * (count - 1) + [with_memo(rest - rest // count * (count - 1))])


def mixed(some):
    """In an order that no predictor of branches learns."""
    dice = random.Random(13)
    return sorted(some, key=lambda _: dice.random())


def uuids(count):
    """Names of 36 bytes with a beginning in common."""
    return [b"urn:uuid:03a0e51f-d1aa-4385-%08d" % i for i in range(count)]


def escaped(name):
    return b"".join(b"\\u%04x" % byte for byte in name)


def group(count, form):
    """A group's card."""
    return card(NAME, b'"kind":"group","members":' + members([form % i for i in range(count)], b"true"))


def ordinary():
    """Cards whose objects have at most a dozen members, with tables that are large, small and too small."""
    dozen = b"@type kind label pref contexts full components isOrdered countryCode coordinates timeZone phonetic".split()
    others = b",".join(b'"%s%d":%s' % (b"x-", i, members(dozen, b'"as it is"')) for i in range(8))
    for name, text, rows in (("small card", card(NAME), 9), ("rich card", card(RICH), 188), ("a dozen members an object", card(NAME, others), 113)):
        yield name, text, MOST_WORDS
        yield f"{name}, {rows} rows", text, ROW_WORDS * rows
        yield f"{name}, 1 row", text, ROW_WORDS
    yield "ten rich cards", listed([card(RICH)] * 10), MOST_WORDS
    yield "plain cards", plain(LIMIT), MOST_WORDS


def grown():
    """An object of m members beside one of half as many."""
    names = {count: mixed([b"urn:uuid:%015d" % (i * 7919) for i in range(count)]) for count in (250, 500, 1000, 2000)}
    for count in (500, 1000, 2000):
        yield f"{count:,} members, mixed", members(names[count]), members(names[count // 2])


def nest(levels, count, inner):
    """Objects inside each other, each with names before and after the next."""
    before, after = (b",".join(b'"urn:uuid:%09d":0' % i for i in part) for part in (range(count), range(count, 2 * count)))
    return (b"{" + before + b',"in":') * levels + inner + (b"," + after + b"}") * levels


def hostile():
    """Texts of a stranger who picks the names."""
    names = uuids(MEMBERS)
    short = [b"a"]  # with which no beginning is common to all
    yield "group card, 1,500 of 35", group(MEMBERS, b"urn:uuid:03a0e51f-d1aa-4385-%07d")
    yield "1,500 of 36, ascending", members(names)
    yield "descending", members(names[::-1])
    yield "mixed", members(mixed(names))
    yield "mixed, and a short one", members(mixed(names + short))
    letters = [bytes([byte]) for byte in range(0x23, 0x7F) if byte != 0x5C]
    alike = [b"x" * 680 + letter for letter in letters]
    yield "the last byte differs", members(mixed(alike))
    yield "the same, and a short one", members(mixed(alike + short))
    codes = [b"%06d" % (i * 613) for i in range(MEMBERS)]
    yield "all escaped", members(mixed([escaped(code) for code in codes]))
    yield "escaped inside", members(mixed([name[:9] + escaped(name[9:10]) + name[10:] for name in names[:1000]] + names[1000:1300]))
    yield "a 30 KB name, 1,800 short", members([b"a" * 30000] + [b"a" * 6 + b"%06d" % i for i in range(1800)])
    yield "the same, escaped", members([b"\\u0061" + b"a" * 30000] + mixed([b"\\u0061%06d" % i for i in range(1800)]))
    yield "29 objects, one in the other", nest(28, 30, b"{}")
    yield "the same, a fault inside", nest(28, 30, b"x")
    yield "150 objects of 12", listed([members(mixed([name[-29:] for name in names[:12]]))] * 150)
    yield "objects of 8 members", listed([members(uuids(8))] * 175)
    yield "objects of 9 members", listed([members(uuids(9))] * 155)
    turned = [b"".join(letters[i] for i in some) for some in itertools.islice(itertools.permutations(range(8)), 0, 40320, 20)]
    yield "the same bytes, in any order", members(mixed(turned))
    yield "twice, first and last", members(names[:-1] + names[:1])
    yield "a fault at the end", members(names, end=b"")
    yield "too many for the table", members([b"%x" % (i * 40503 % 65536) for i in range(2048)])


def inputs():
    """All of them, in the order of the table."""
    yield Input("the text 1", b"1", ROW_WORDS)
    for name, text, words in ordinary():
        yield Input(name, text, words, most=1.1)
    for name, text, half in grown():
        yield Input(name, text, MOST_WORDS, half, "half the members", 2.3)
    for name, text in hostile():
        assert len(plain(len(text))) == len(text) <= LIMIT, name
        most = 3 if name.startswith(("group", "1,500")) else None
        yield Input(name, text, MOST_WORDS, plain(len(text)), "plain cards", most)
        if name.startswith(("group", "all", "29")):
            yield Input(name + ", no table", text, 0, plain(len(text)), "plain cards", most)
