"""The inputs of `bench/run --entries`, which asks what the entries of a patch cost: cards with as many members as entries, each size twice the one
before, up to the limits."""
import collections

from kinds import NAME, card, entries
from names import escaped, mixed

LONGEST, MOST_VALUES = 1 << 20, 32768  # bytes and values that a text may have
LEAST, SIZES = 400, 6  # entries, or parts, of the smallest size, and how many sizes there are at most
DEEPEST = 63  # objects below the card's own

# A sort of patch: its name, a card text for so many entries (or parts of a key), how many these are at the limits, and whether its time is held to that of
# judging: not where the card is refused, and not where a stranger makes comparisons dear.
Sort = collections.namedtuple("Sort", "name text most held")


def members(names, value=b"0"):
    return b",".join(b'"%s":%s' % (name, value) for name in names)


def numbered(form, count):
    """Names by a form with a number, which all take the same room."""
    return [form % i for i in range(count)]


def patched(own, keys, value=b"0"):
    """A card with some members of its own, and a patch that sets all of these keys, in mixed order."""
    return card(NAME, *own, held=entries(members(mixed(keys), value)))


def one_object(key, held=b"n%05d", value=b"0", new=b"1"):
    """An object with so many members, and as many entries by a form of key."""
    return lambda count: patched([b'"x":{' + members(mixed(numbered(held, count)), value) + b"}"], numbered(key, count), new)


def own_members(key):
    """The same, where the members are objects of the card itself."""
    return lambda count: patched([members(mixed(numbered(b"x%05d", count)), b'{"a":0}')], numbered(key, count))


def added(count):
    return patched([], numbered(b"n%05d", count))


def squared(count):
    """As many objects as the square root, with as many members each; the entries replace every member."""
    side = int(count ** 0.5)
    inner = b"{" + members(numbered(b"n%03d", side)) + b"}"
    names = numbered(b"o%03d", side)
    return patched([b'"x":{' + members(mixed(names), inner) + b"}"], [b"x/%s/n%03d" % (name, i) for name in names for i in range(side)])


def nest(inner, levels, name):
    """Objects, one in the other."""
    return b'"x":' + b'{"%s":' % name * levels + inner + b"}" * levels


def deep(key, name=b"a", part=b"a"):
    """The members stand in the innermost object, so every key has as many parts as may be; the objects between have one name, by this part of a key."""
    way = b"x" + b"/" + (part + b"/") * (DEEPEST - 2)
    return lambda count: patched([nest(b"{" + members(mixed(numbered(b"n%05d", count))) + b"}", DEEPEST - 2, name)], numbered(way + key, count))


def every_depth(count):
    """Members at every depth; the entries replace them all."""
    each = count // DEEPEST
    names = numbered(b"n%05d", each)
    inner = members(names)
    text = b'"x":{' + inner + b"}"
    for _ in range(DEEPEST - 2):
        text = b'"x":{' + inner + b"," + text + b"}"
    return patched([text], [b"x/" * depth + name for depth in range(1, DEEPEST) for name in names])


def many_parts(count):
    """One key of so many parts, into an object with a member for each four of them."""
    held = b'"x":{' + members(mixed(numbered(b"n%06d", count // 4))) + b"}"
    return patched([held], [b"x/" + b"y/" * count + b"z"])


def long_part(count):
    """One key with a part as long as so many parts are, among members whose names begin as it does."""
    held = b'"x":{' + members(mixed(numbered(b"y" * 40 + b"%06d", count // 20))) + b"}"
    return patched([held], [b"x/" + b"y" * count])


def long_keys(name, part):
    """Names of members that begin alike for a long way, and what stands for this in a key."""
    return lambda count: patched([b'"x":{' + members(mixed(numbered(name + b"%05d", count))) + b"}"], numbered(b"x/" + part + b"%05d", count))


def spelled(count):
    """Keys of escapes alone, and of tildes."""
    return patched([b'"x":{' + members(mixed(numbered(b"/~%05d", count))) + b"}"], [b"x/~1~0" + escaped(b"%05d" % i) for i in range(count)])


def clash_last(count):
    return patched([], numbered(b"n%05d", count) + [b"n%05d/x" % (count - 1)])


def all_clash(count):
    return patched([], [b"n%05d" % i for i in range(count // 2)] + [b"n%05d/x" % i for i in range(count // 2)])


def chain(count):
    """Of so many keys each is a prefix of the next, up to ten parts."""
    return patched([], [b"n%05d" % i + b"/x" * parts for i in range(count // 10) for parts in range(10)])


def sorts():
    yield Sort("replaced", one_object(b"x/n%05d"), 16370, True)
    yield Sort("removed", one_object(b"x/n%05d", new=b"null"), 16370, True)
    yield Sort("added", added, 32740, True)
    yield Sort("added to as many", one_object(b"x/m%05d"), 16370, True)
    yield Sort("entered, of one object", one_object(b"x/n%05d/a", value=b'{"a":0}'), 10910, True)
    yield Sort("entered, of the card", own_members(b"x%05d/a"), 10910, True)
    yield Sort("entered, to add", own_members(b"x%05d/b"), 10910, True)
    yield Sort("objects of many", squared, 16000, True)
    yield Sort("deep pointers", deep(b"n%05d"), 6900, True)
    yield Sort("deep pointers, to add", deep(b"m%05d"), 6900, True)
    yield Sort("at every depth", every_depth, 10000, True)
    yield Sort("long keys", long_keys(b"y" * 300, b"y" * 300), 1650, True)
    yield Sort("spelled by escapes", spelled, 16370, True)
    yield Sort("parts of tildes", deep(b"n%05d", b"/", b"~1"), 4900, False)
    yield Sort("names of tildes", long_keys(b"/" * 100, b"~1" * 100), 3000, False)
    yield Sort("behind an escape", long_keys(b"\\n" + b"y" * 300, b"\\n" + b"y" * 300), 1640, False)
    yield Sort("one key of many parts", many_parts, 130000, False)
    yield Sort("one key of one long part", long_part, 260000, True)
    yield Sort("no parent: 26", one_object(b"no/n%05d"), 16370, False)
    yield Sort("into arrays: 25", one_object(b"x/n%05d/0", value=b"[]"), 16370, False)
    yield Sort("a clash with the last: 24", clash_last, 32740, False)
    yield Sort("all clash: 24", all_clash, 32700, False)
    yield Sort("prefixes in a row: 24", chain, 30000, False)


def sizes(sort):
    """From the limits down, half as many each time; smallest first."""
    count, some = sort.most, []
    while count >= LEAST and len(some) < SIZES:
        some.insert(0, count)
        count //= 2
    return some
