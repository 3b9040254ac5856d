"""Texts with repeated names, and with names that only look so, for the cases of reading: which place wins, what counts as a name, whose object it is in,
objects of few and of many members, names that begin alike, and texts of every length that a working store may be sized by."""
import itertools

from store import WORDS, Made, rows_of

from reading import MOST_BYTES, MOST_DEPTH, MOST_VALUES, MOST_WORDS, ROW_WORDS

LETTERS = [bytes([byte]) for byte in b"abcdefghijklmnopqrstuvwxyz"]
FEW, MORE = (8, 9), (10, 16, 17)  # up to eight names may be compared in pairs, more be sorted
LARGE = 262200  # the words of the table of crates/cases_run, which has room to spare


def sized(text, spare=13):
    """A text with a table that has some words more than it needs; at most two hundred where it is refused."""
    rows = rows_of(text)
    return (ROW_WORDS * rows + spare if rows else 200), text


def mixed(some, step=7):
    """The same things, in another order: the step and their number have no common divisor."""
    return [some[i * step % len(some)] for i in range(len(some))]


def in_mixed_order(some):
    """As many things as a prime, by a step that the order can't be guessed from; the others stay behind."""
    count = max(n for n in range(2, len(some) + 1) if all(n % k for k in range(2, int(n ** 0.5) + 1)))
    return mixed(some[:count], max(1, count * 5 // 8)) + some[count:]


def shortest():
    """2,048 distinct names, none of them longer than need be."""
    plain = [bytes([byte]) for byte in range(0x21, 0x7F) if byte not in b'"\\%']
    pairs = [one + other for one in plain[:48] for other in plain[:48]]
    return [b""] + in_mixed_order(plain) + in_mixed_order(pairs)[:2047 - len(plain)]


NAMES = shortest()


def members(names, end=b"}"):
    """An object with these names."""
    return b"{" + b",".join(b'"%s":0' % name for name in names) + end


DENSE = members(NAMES)


def escaped(name):
    """A name of ASCII with all its bytes as escapes."""
    return b"".join(b"\\u%04x" % byte for byte in name)


def again(names, *pairs, spelled=bytes):
    """The names, where at the second place of each pair the name of the first stands again, maybe spelled otherwise."""
    names = list(names)
    for first, second in pairs:
        names[second] = spelled(names[first])
    return names


# the earliest place wins

AHEAD = [b"n", b"B", b"zz", b"ab", b"", b"m", b"c0"]


def patterns(ahead, *sizes):
    """Every order of so many of a few names, behind others."""
    for size, some in sizes:
        for names in itertools.product(LETTERS[:some], repeat=size):
            yield members(ahead + list(names))


def ordered(size):
    """Names that ascend, that descend, and that are mixed."""
    names = LETTERS[:size]
    return names, names[::-1], mixed(names)


def positions():
    """Objects about the size from which names are sorted: a repeated name at each place."""
    for size in FEW + MORE:
        for names in ordered(size):
            yield members(names)
            for second in range(1, size):
                yield members(again(names, (second // 2, second)))
                if names == sorted(names):
                    yield members(again(names, (0, second)))
                    yield members(again(names, (second - 1, second)))


def far_apart(size):
    """Places of repeated names in an object of so many: one pair, three of a kind, and two pairs, where the smaller name comes first and where the larger."""
    middle, last = size // 2, size - 1
    for pair in ((0, 1), (0, middle), (0, last), (1, last), (middle, middle + 1), (middle, last), (last - 1, last)):
        yield [pair]
    for one, two, three in ((1, 2, 3), (0, middle, last), (2, middle, middle + 1), (last - 2, last - 1, last)):
        yield [(one, two), (one, three)]
    for one, two, three, four in ((1, 2, 3, 4), (1, 3, middle, last), (2, 3, middle, last), (2, 3, last - 1, last)):
        yield [(one, three), (two, four)]
        yield [(one, four), (two, three)]


def many():
    """The same in objects of up to 200 members, and some of 1,500; spelled alike, and with escapes."""
    for size in (10, 17, 40, 200):
        for pairs in far_apart(size):
            for spelled in (bytes, escaped):
                yield members(again(NAMES[:size], *pairs, spelled=spelled))
    yield members(NAMES[:1500])
    for pairs in ([(1, 1499)], [(750, 751)], [(3, 700), (3, 1400)], [(900, 1200), (2, 1300)], [(2, 1200), (900, 1300)]):
        yield members(again(NAMES[:1500], *pairs))
    yield members(again(NAMES[:1500], (400, 1499), spelled=escaped))
    yield members(again(NAMES[:1500], (1498, 1499)), end=b"")


# what is equal decoded, and what is not

SPELLINGS = [
    [b""], [b"a", rb"\u0061"], [rb"a\u0000"], [b"ab", rb"a\u0062", rb"\u0061b", rb"\u0061\u0062"], [b"/", rb"\/", rb"\u002f", rb"\u002F"],
    [rb"\"", rb"\u0022"], [rb"\\", rb"\u005c", rb"\u005C"], [rb"\b", rb"\u0008"], [rb"\f", rb"\u000c", rb"\u000C"],
    [rb"\n", rb"\u000a", rb"\u000A"], [rb"\r", rb"\u000d"], [rb"\t", rb"\u0009"], [rb"\u0000"], [b"\x7f", rb"\u007f"],
    [b"\xc3\xa9", rb"\u00e9", rb"\u00E9"], [b"\xc3\xa8", rb"\u00e8"], [b"e\xcc\x81", rb"e\u0301"], [b"\xe2\x82\xac", rb"\u20ac", rb"\u20AC"], [b"\xef\xbb\xbf", rb"\ufeff"],
    [b"\xf0\x9f\x98\x80", rb"\ud83d\ude00", rb"\uD83D\uDE00"], [b"\xf0\x9f\x98\x81", rb"\ud83d\ude01"], [b"\xee\x80\x80", rb"\ue000"],
    [rb"a\"", rb"a\u0022"], [rb"a\"b", rb"\u0061\u0022b"], [rb"a\\", rb"a\u005c"], [rb"a\\\"", rb"\u0061\\\u0022"], [rb"a\/\n", rb"a/\u000a"],
    [b"u0061", rb"\u0075\u0030061"], [rb"\\u0061", rb"\u005cu0061"]]
DISTINCT = [one[0] for one in SPELLINGS]


def spelled():
    """Names by their spellings, each beside a full set of others: last, first, and in an object of few."""
    yield members(DISTINCT)
    yield members(mixed(DISTINCT))
    yield members([one[-1] for one in SPELLINGS])
    for at, some in enumerate(SPELLINGS):
        for other in some:
            yield members(DISTINCT + [other])
            yield members([other] + DISTINCT)
            yield members([some[0], DISTINCT[at - 1], DISTINCT[at - 2], other])
    begun = [[name for name in some if name.startswith(b"\\")] for some in SPELLINGS]
    for some in begun:
        rest = [more[0] for more in begun if more and more is not some]  # all names then begin with a backslash
        for one, other in itertools.permutations(some, 2):
            yield members([one] + rest[:9] + [other])


# a name counts once it is closed

AFTER = [
    b"", b" ", b"}", b",", b"x", b"0", b":", b": ", b":}", b":]", b":x", b":tru", b":01", b":-", b':"', b':"\\', b':"\\x"', b':"\\ud800"',
    b':"\xff"', b':"\x1f"', b":[", b":[0", b":[0,]", b":[x", b":{", b':{"', b':{"c"', b':{"c":0,"c"', b':{"c":0,"c":0}}', b":{x", b":" + b"[" * (MOST_DEPTH - 1),
    b":" + b"[" * MOST_DEPTH, b":0", b":0]", b":0 0}", b":0,", b":0,}", b':0,"', b':0,"\\ud800":0}', b':0,"\xff":0}', b":0}", b":0}}", b":0}\x00"]
OPEN = [
    b"", b"\\", b"\\u", b"\\u00", b"\\u006", b"\\x", b"\\ud800", b"\\ud800\\u0061", b"\\udc00", b"\\ufffe", b"\xff", b"\xc3", b"\xed\xa0\x80",
    b"\xef\xbf\xbf", b"\x1f", b"\n"]


def closed():
    """A name, repeated or new, before whatever can be wrong; and one that isn't closed or doesn't spell, where it would else be repeated."""
    for size, each in ((1, 1), (7, 4), (8, 1), (20, 4)):
        own = members(NAMES[1:size + 1], end=b"")
        for after in AFTER[::each]:
            yield own + b',"%s"' % NAMES[1] + after
            yield own + b',"new"' + after
        for more in OPEN[::each]:
            yield own + b',"' + NAMES[1] + more
            yield own + b',"' + more + NAMES[1] + b'":0}'
        for after in (b":x", b':"\xff', b':0,"c":0,"c":', b":[", b':0,"' + NAMES[1] + b'"'):
            yield members(again(NAMES[1:size + 3], (0, size)), end=b"") + b',"last"' + after


# each object has names of its own

def nest(levels, before, after, inner=b"{}"):
    """Objects inside each other, each with names before and after the next."""
    head = b"{" + b"".join(b'"%s":0,' % name for name in before) + b'"in":'
    tail = b"".join(b',"%s":0' % name for name in after) + b"}"
    return head * levels + inner + tail * levels


NARROW = (MOST_DEPTH - 1, (b"a", b"b"), (b"c", b"d"))
WIDE = (MOST_DEPTH - 1, LETTERS[:5], LETTERS[5:10])


def nested(shape):
    """A nest with one name changed into an earlier one of its object, at each level before and after; and a fault in its middle."""
    levels, before, after = shape
    text = nest(*shape)
    yield text
    size, back = len(b'{"in":') + 6 * len(before), 6 * len(after) + 1  # of a level's bytes before the next, and after it
    for level in range(levels):
        at = level * size + 8  # the second name
        yield text[:at] + before[0] + text[at + 1:]
        at = len(text) - (level + 1) * back + 6 * (level % len(after)) + 2
        yield text[:at] + (b"in", *before)[level % (len(before) + 1)] + text[at + 1:]
    for inner in (b"x", b'{"a":0,"a":0}', b'{"a":0,"b":0,"a"', b"[[]]", b'{"in":{}}', b'"\\ud800"', b""):
        whole = nest(levels, before, after, inner)
        yield whole
        for level in (0, 1, levels // 2, levels - 1):
            at = level * size + 8
            yield whole[:at] + before[0] + whole[at + 1:]


DOZEN = LETTERS[:12]
OWN = b"{" + b",".join(b'"%s":%s' % (name, members(DOZEN)) for name in DOZEN)


def own():
    """The same names inside and outside, before and after, with objects and arrays between."""
    yield from (
        b'{"a":{"a":{"a":0}},"b":{"a":0,"b":0}}', b'{"a":[{"a":0},{"a":0}],"b":[[{"b":0}]]}', b'[{"a":0},{"a":0},{"a":0,"a":0}]',
        b'{"a":0,"a":{"c":0,"c":0}}', b'{"a":{"c":0,"c":0},"a":0}', b'{"a":0,"b":{"c":0,"c":0},"a":0}', b'{"a":0,"a":{"c":x}}',
        b'{"a":{"c":0,"d":0},"c":0,"d":0,"a":0}', b'{"a":0,"b":[{"a":0},[0,{"b":0}]],"a":0}', b'{"a":[],"b":[[],[]],"a":[]}', b'{"a":{},"b":{},"a":{}}',
        b'{"":{"":{"":{}}},"b":{"":0},"":0}', b'{"a":{"b":0},"b":{"a":0,"b":{"a":0},"a":0}}', b'[{"a":0,"b":0},"a",{"b":0},"b"]',
        b'{"a":"a","b":"a","c":["a","a"]}', b'{"a":0,"b":"\\"a\\":","a":0}')
    inner, twice, broken = members(DOZEN), members(again(DOZEN, (3, 11))), members(DOZEN, end=b',"z":x}')
    for size in (3, 8, 9, 12):
        for value in (inner, b"[" + inner + b"," + inner + b"]", b'{"a":' + inner + b"}"):
            text = b"{" + b",".join(b'"%s":%s' % (name, value) for name in DOZEN[:size])
            yield text + b"}"
            yield text + b',"%s":0}' % DOZEN[size // 2]
            for faulty in (twice, broken):
                yield text + b',"z":' + faulty + b',"a":0}'
                yield text + b',"a":' + faulty + b"}"
    dozens = b"[" + b",".join([inner] * 150)
    yield dozens + b"]"
    yield dozens + b"," + twice + b"]"
    yield dozens + b"," + members(again(DOZEN, (4, 7)), end=b"")


# names that begin alike

BEGINNING = b"urn:uuid:03a0e51f-d1aa-4385-"


def at_escape(name, at):
    return name[:at] + escaped(name[at:at + 1]) + name[at + 1:]


def beside(names):
    """Names that are like those of an object: equal to one, a beginning of one or of all, longer, or different at the end only."""
    one = names[len(names) // 2]
    size = len(one)
    yield from (one, one[:-1], one[:-2], one[:1], b"", one + b"a", one[:-1] + b"~", one[:-1] + b"\xc3\xa9", b"v" + one[1:])
    for at in (0, size // 2, size - 2, size - 1):
        yield at_escape(one, at)
        yield at_escape(one[:-1] + b"~", at)
    yield escaped(one)
    yield escaped(one[:-1])


def alike():
    """Such names at the end of an object, and at its start, where they cut what all have in common."""
    for size in (2, 7, 8, 12):
        names = [BEGINNING + letter for letter in LETTERS[:size]]
        yield members(names)
        for other in beside(names):
            yield members(names + [other])
            if size != 2:
                yield members([other] + names)
    some = [BEGINNING[:cut] for cut in range(14)]
    yield members(some)
    yield members(some[::-1])
    yield members(mixed(some, 5) + [some[9]])
    for size in (2, 10):
        long = [BEGINNING * 10 + letter for letter in LETTERS[:size]]
        yield members(long)
        yield members(long + [long[1]])
        yield members(long + [at_escape(long[1], 200)])
        yield members([at_escape(long[1][:-1] + b"~", 279)] + long)
    last = [at_escape(BEGINNING + letter, 4) for letter in LETTERS[:10]]
    yield members(last)
    yield members(last + [BEGINNING + b"a"])
    yield members([BEGINNING + b"a"] + last)
    yield members(last + [at_escape(BEGINNING + b"c", 5)])


def runs_of_characters():
    """Characters that follow each other, raw and as escapes."""
    for first in (0xE0, 0x20A0, 0x1F600):
        characters = [chr(first + i) for i in range(16)]
        units = [one.encode("utf-16-be").hex("-", 2).encode() for one in characters]
        yield [one.encode() for one in characters], [b"\\u" + unit.replace(b"-", b"\\u") for unit in units]


def parts():
    """Names whose common beginning ends inside a character, and names of escapes alone."""
    for raw, by_escapes in runs_of_characters():
        for names, others in ((raw, by_escapes), (by_escapes, raw)):
            yield members(names)
            yield members(names[::-1])
            for size in (3, 9, 16):
                yield members(names[:size] + [others[size // 2]])
                yield members([others[size // 2]] + names[:size])
                yield members(names[:size] + [b"x" + others[1], b"x" + names[1]])


# limits

def at_limit():
    """Texts of about 2,048 values, with the words of the table, and of as many as there may be: 4 comes before 6 where its place is smaller, and both
    before 7."""
    lent = (0, 1, WORDS - ROW_WORDS, WORDS - 1, WORDS, WORDS + 12)
    for names in (
            NAMES[:2046], NAMES[:2047], NAMES, again(NAMES[:2047], (1, 2046)), again(NAMES[:2047], (2045, 2046)),
            again(NAMES[:2047], (500, 1000), (500, 1500)), again(NAMES, (2, 2047)), again(NAMES, (7, 1024))):
        for words in lent:
            yield words, members(names)
    for words in lent:
        yield words, b"[" + b"0," * 2046 + b"0]"
        yield words, b"[" + b"0," * 2047 + b"0]"
    for own in (b'{"a":0,"a":0}', members(LETTERS[:10] + LETTERS[:1]), members(LETTERS[:11])):
        count = own.count(b":")
        for before in range(MOST_VALUES - count - 3, MOST_VALUES + 1):
            yield 0, b"[" + b"0," * before + own + b"]"


# names that are counted, in an order that looks like chance: more than a text may have

STEP = 7919
COUNTED = Made(f'{{"":[],"00000":[]%#{MOST_VALUES + 1},11,{STEP};')


def counted_name(at):
    """The name of a member of COUNTED, by its place; the first is empty."""
    return "%05d" % ((at - 1) * STEP % 100000)


def counted_end(count):
    """Where so many members of COUNTED end."""
    return 6 + 11 * (count - 1)


def counted(count, more="}", repeated=()):
    """So many members of COUNTED, where at the second place of each pair the name of the first stands again, and what follows them."""
    recipe, done = "", 0
    for first, second in sorted(repeated, key=lambda pair: pair[1]):
        recipe += f'%={done},{counted_end(second)};,"{counted_name(first)}":[]'
        done = counted_end(second + 1)
    return Made(f"{recipe}%={done},{counted_end(count)};{more}", COUNTED)


def in_order(count, step, more="}"):
    """So many names that ascend or descend, by a step of 1 or of 99999."""
    second = "%05d" % ((50000 + step) % 100000)
    return Made(f'{{"50000":[],"{second}":[]%#{count - 2},11,{step};{more}')


def greatest():
    """Objects of up to as many members as there may be, on both sides of each number that a working store may end at; with the words of the table."""
    for count in (63, 64, 65, 66, 1022, 1023, 1024, 1025, 1026, 2048, 4096):
        for repeated in ((), ((1, count - 1),), ((count - 2, count - 1),), ((3, count // 2), (2, count - 1))):
            yield ROW_WORDS * count + 13, counted(count, repeated=repeated)
        for step in (1, 99999):
            yield 0, in_order(count, step)
            yield 0, in_order(count, step, ',"50000":[]}')
            yield 0, in_order(count, step, ',"%5cu0035000%5cu0030":{')
    for count in (20000, MOST_VALUES - 1):
        middle, last = count // 2, count - 1
        for repeated in (
                (), ((1, last),), ((last - 1, last),), ((1, 2),), ((middle, middle + 1),), ((3, 9000), (3, 12000)), ((2, 19000), (9, 10000))):
            yield 0, counted(count, repeated=repeated)
        yield 0, counted(count, "")
        yield 0, counted(count, f',"{counted_name(count // 3)}"')
        yield 0, counted(count - 1, ',"%5cu0030000%5cu0030":[]}')
        for step in (1, 99999):
            yield 0, in_order(count, step)
            yield 0, in_order(count - 1, step, ',"50000":[]}')


def full():
    """Tables for as many members as there may be, and what may follow all but one of them."""
    most = MOST_VALUES - 1
    for words in (1, MOST_WORDS - ROW_WORDS, MOST_WORDS - 1, MOST_WORDS, LARGE):
        yield words, counted(most)
        yield words, counted(most, repeated=((500, 30000),))
        yield words, counted(most + 1)
    first, middle, last = (counted_name(at) for at in (1, 16000, most - 2))
    for more in (
            '}', ',"m~":0}', ',"m~":0,"l~":0}', ',"m~":0,"m~":0}', f',"m~":0,"{first}":0}}', f',"m~":0,"{last}":0}}', ',"m~":0,"l~" 0}', f',"{middle}":0}}',
            ',"%5cu0030%5cu0030%5cu0030%5cu0030%5cu0030":0}', ',"m~":0'):
        yield 600, counted(most - 1, more)
    for own, after in (('{"a":0,"a":0}', ""), ('{"a":0,"b":0}', ',"00000":[]')):  # an object of few inside one of many
        yield 0, counted(most - 3, ',"m~":' + own + after + "}")
        yield 0, counted(20000, ',"m~":' + own + after + "}")
    objects = f"[%=0,1040;}},{{%=7,1040;}}%*{1036 * 339},1036;"  # many of some members, each with names of its own
    yield 0, Made(objects + "]", COUNTED)
    yield 0, Made(objects + ',{"a":0,"a"', COUNTED)


ALIKE = ',"the-members-of-the-hospitals-00000":[]'


def alike_and_many():
    """Long names that begin alike, to the last byte of a text."""
    size, some = len(ALIKE), MOST_BYTES // len(ALIKE) - 2
    for step in (1, STEP, 99999):
        yield 0, Made(f'{{"":[]{ALIKE}%#1499,{size},{step};}}')
        yield 0, Made(f'{{"":[]{ALIKE}%#{some},{size},{step};}}')
        yield 0, Made(f'{{"":[]{ALIKE}%#{some},{size},{step};{ALIKE}')
    whole = f'{{"":[]{ALIKE}%#{some},{size},{STEP};'
    left = MOST_BYTES - len(Made(whole)) - 1
    yield 0, Made(f"{whole} %*{left - 1},1;}}")
    yield 0, Made(f"{whole} %*{left},1;}}")


def small_tables():
    """Short texts with every table about their size."""
    repeated = ([b"a", b"a"], again(LETTERS[:9], (0, 8)), again(LETTERS[:9], (3, 4)), again(LETTERS[:17], (2, 9), (2, 16)))
    for names in (LETTERS[:2], LETTERS[:8], LETTERS[:9], LETTERS[:17], *repeated):
        whole = ROW_WORDS * (len(names) + 1)
        for words in sorted({0, 1, ROW_WORDS, whole - ROW_WORDS - 1, whole - ROW_WORDS, whole - 1, whole, whole + ROW_WORDS - 1, WORDS + 12}):
            yield words, members(names)
            yield words, members(names, end=b"")


def of_length(size, start, end, name=None):
    """A text of so many bytes, with as many names as fit; the last may be told, and its value fills what is left."""
    count, used = 0, len(start) + len(b"{") + len(end)
    told = b'"%s":' % (b"~~~" if name is None else name)
    while count < len(NAMES) - 40 and used + len(NAMES[count]) + len(b'"":0,') + len(told) < size:
        used += len(NAMES[count]) + len(b'"":0,')
        count += 1
    left = size - used - len(told)
    text = start + members(NAMES[:count], end=b"," + told + b"1" + b"0" * (left - 1) + end)
    assert len(text) == size
    return text


def lengths():
    """Texts on both sides of each length that a working store may end at, as full of names as can be, with the words of the table."""
    deep = b'{"":' * (MOST_DEPTH - 1)  # four bytes a name, the least that there is
    powers = (256, 512, 1024, 2048, 4096, 8192, 16384, 65536)
    for size in [power + more for power in powers for more in (-1, 0, 1)] + [32768]:
        for words, name in ((WORDS, None), (0, None), (0, NAMES[2]), (WORDS, NAMES[20])):
            yield words, of_length(size, b"", b"}", name)
        if size > 300:
            yield 0, of_length(size, deep, b"}" * MOST_DEPTH)
            yield 0, of_length(size, deep, b"}" * MOST_DEPTH, NAMES[3])
        for name in (NAMES[4], b"~~"):
            yield 0, of_length(size, b"", b',"%s"' % name)  # ends with a name, just closed


def longest():
    """The same of a text as long as may be, and a byte longer."""
    count = MOST_VALUES - 2
    for size in (MOST_BYTES, MOST_BYTES + 1):
        left = size - len(counted(count, ""))
        for words, name in ((MOST_WORDS, "~~~~~"), (0, counted_name(2))):
            yield words, counted(count, f',"{name}":1%*{left - 11},1;}}')
        for name in (counted_name(4), "~~~~~"):
            yield 0, counted(count, f' %*{left - 9},1;,"{name}"')


LONG_NAMES = [b"urn:uuid:03a0e51f-d1aa-4385-%08d" % i for i in range(1500)]
GROUP = members(LONG_NAMES)


def group():
    """A group's 1,500 names of 36 bytes."""
    yield GROUP
    yield members(LONG_NAMES[:1499], end=b"")
    for pairs in ([(0, 1499)], [(749, 750)], [(3, 700), (3, 1400)], [(900, 1300), (2, 1400)]):
        yield members(again(LONG_NAMES, *pairs))
    yield members(LONG_NAMES[:1499] + [at_escape(LONG_NAMES[700], 9)])
    yield members(LONG_NAMES[:1499] + [at_escape(LONG_NAMES[700][:-1] + b"x", 35)])


def texts():
    """By the base text that they share."""
    yield b"", patterns([], (2, 2), (3, 3), (4, 3), (5, 2))
    yield members(AHEAD), patterns(AHEAD, (4, 3))
    yield b"".join(map(members, ordered(MORE[-1]))), positions()
    yield members(DISTINCT) * 2, spelled()
    yield nest(*NARROW), nested(NARROW)
    yield nest(*WIDE), nested(WIDE)
    yield OWN, own()
    yield members([BEGINNING + letter for letter in DOZEN]), alike()
    yield b"".join(members(names) for both in runs_of_characters() for names in both), parts()
    yield GROUP, group()


def groups():
    """The words of the table and the texts, by their base text."""
    for base, some in texts():
        yield base, map(sized, some)
    yield DENSE, itertools.chain(map(sized, many()), map(sized, closed()), at_limit(), small_tables(), lengths())
    yield COUNTED, itertools.chain(greatest(), full(), alike_and_many(), longest())
