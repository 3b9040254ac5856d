"""Reading a second time: a text becomes values and rows, or is refused with 1 to 7."""
import functools
import itertools
import re

MOST_BYTES, MOST_DEPTH, MOST_VALUES, ROW_WORDS = 1048576, 64, 32768, 8  # the limits, which all that is written in Python has from here
MOST_WORDS = MOST_VALUES * ROW_WORDS  # of a table that is never too small
NULL, FALSE, TRUE, NUMBER, STRING, ARRAY, OBJECT = 1, 2, 3, 4, 5, 6, 7


class Refused(Exception):
    """A refusal: its number on the sheet, its second number, and for 28 the place of the refusal inside (in the localized card)."""

    def __init__(self, number, second, inner=0):
        super().__init__(number, second)
        self.number, self.second, self.inner = number, second, inner


class Value:
    """A value of a text. `name` is the decoded member name (None for the root and for elements), `key` the places of its inside."""

    def __init__(self, kind, start, name, key):
        self.kind, self.start, self.name, self.key = kind, start, name, key
        self.end, self.below, self.inside, self.names, self.string = None, 0, [], set(), None
        self.row, self.parent, self.next = None, 0, 0  # rows: its own, that of what it stands in, and that of the value behind it there

    def all(self):
        yield self
        for child in self.inside:
            yield from child.all()

    def member(self, name):
        return next((child for child in self.inside if child.name == name), None)


SPACE = re.compile(rb"[ \t\n\r]*")
PLAIN = re.compile(rb'[ !#-\[\]-\x7f]+')  # characters of one byte that stand for themselves
SHORT = {b'"': '"', b"\\": "\\", b"/": "/", b"b": "\b", b"f": "\f", b"n": "\n", b"r": "\r", b"t": "\t"}
HEX = re.compile(rb"[0-9A-Fa-f]{4}")
LOW = re.compile(rb"\\u[Dd][C-Fc-f][0-9A-Fa-f]{2}")
LITERALS = {b"n": (b"null", NULL), b"f": (b"false", FALSE), b"t": (b"true", TRUE)}

# The number grammar of RFC 8259: from a state, by a class of byte, to the next; a number may end in the states of WHOLE.
DIGITS, LATER = b"0123456789", b"123456789"
STEPS = {
    "begin": [(b"-", "minus"), (b"0", "zero"), (LATER, "int")],
    "minus": [(b"0", "zero"), (LATER, "int")],
    "zero": [(b".", "point"), (b"eE", "e")],
    "int": [(DIGITS, "int"), (b".", "point"), (b"eE", "e")],
    "point": [(DIGITS, "frac")],
    "frac": [(DIGITS, "frac"), (b"eE", "e")],
    "e": [(b"+-", "sign"), (DIGITS, "exp")],
    "sign": [(DIGITS, "exp")],
    "exp": [(DIGITS, "exp")],
}
WHOLE = {"zero", "int", "frac", "exp"}


def noncharacter(code):
    return 0xFDD0 <= code <= 0xFDEF or code % 0x10000 in (0xFFFE, 0xFFFF)


def raw_character(text, at):
    """The character whose UTF-8 begins at a place, and its length; None if there is none."""
    for size in (1, 2, 3, 4):
        try:
            return text[at:at + size].decode("utf-8", "strict"), size
        except UnicodeDecodeError:
            pass
    return None


class Reader:
    def __init__(self, text):
        self.text, self.at, self.values = text, 0, 0

    def byte(self, at=None):
        at = self.at if at is None else at
        return self.text[at:at + 1]

    def refuse(self, at=None):
        """No. 2: the byte here can't continue. (Past the end the place is the text's length.)"""
        raise Refused(2, min(self.at if at is None else at, len(self.text)))

    def space(self):
        self.at = SPACE.match(self.text, self.at).end()

    def take(self, wanted):
        for one in wanted:
            if self.byte() != bytes([one]):
                self.refuse()
            self.at += 1

    def escape(self):
        """The character that an escape stands for; its backslash is here."""
        at = self.at
        letter = self.byte(at + 1)
        if letter in SHORT:
            self.at += 2
            return SHORT[letter]
        if letter != b"u":
            self.refuse(at + 1)
        for place in range(at + 2, at + 6):
            if not re.fullmatch(rb"[0-9A-Fa-f]", self.byte(place)):
                self.refuse(place)
        code = int(self.text[at + 2:at + 6], 16)
        self.at += 6
        if 0xD800 <= code <= 0xDBFF and LOW.fullmatch(self.text[at + 6:at + 12]):
            low = int(self.text[at + 8:at + 12], 16)
            self.at += 6
            code = 0x10000 + (code - 0xD800) * 0x400 + (low - 0xDC00)
        if 0xD800 <= code <= 0xDFFF or noncharacter(code):
            raise Refused(3, at)
        return chr(code)

    def string(self):
        """The decoded bytes of a string whose opening quote is here."""
        self.take(b'"')
        said = []
        while self.byte() != b'"':
            one = self.byte()
            if one == b"" or one < b" ":
                self.refuse()
            if one == b"\\":
                said.append(self.escape())
                continue
            run = PLAIN.match(self.text, self.at)
            if run:
                said.append(run[0].decode())
                self.at = run.end()
                continue
            found = raw_character(self.text, self.at)
            if found is None or noncharacter(ord(found[0])):
                raise Refused(3, self.at)
            said.append(found[0])
            self.at += found[1]
        self.at += 1
        return "".join(said).encode("utf-8")

    def number(self):
        state = "begin"
        while True:
            one = self.byte()
            after = next((to for those, to in STEPS[state] if one and one in those), None)
            if after is None:
                if state not in WHOLE:
                    self.refuse()
                return
            state, self.at = after, self.at + 1

    def value(self, depth, name=None, key=(0, 0)):
        """The value that begins here, below `depth` open arrays and objects."""
        one, start = self.byte(), self.at
        if not one or one not in b'{["-0123456789tfn':
            self.refuse()
        if one in b"[{" and depth == MOST_DEPTH:
            raise Refused(5, start)
        if self.values == MOST_VALUES:
            raise Refused(6, start)
        self.values += 1
        begun = self.values
        made = Value(NUMBER, start, name, key)
        if one in LITERALS:
            word, made.kind = LITERALS[one]
            self.take(word)
        elif one == b'"':
            made.kind, made.string = STRING, self.string()
        elif one == b"[":
            made.kind = ARRAY
            self.items(made, b"]", lambda: self.value(depth + 1))
        elif one == b"{":
            made.kind = OBJECT
            self.items(made, b"}", lambda: self.named(made, depth + 1))
        else:
            self.number()
        made.end, made.below = self.at, self.values - begun
        return made

    def items(self, made, close, item):
        self.at += 1
        self.space()
        if self.byte() == close:
            self.at += 1
            return
        while True:
            self.space()
            made.inside.append(item())
            self.space()
            if self.byte() == close:
                self.at += 1
                return
            self.take(b",")

    def named(self, made, depth):
        quote = self.at
        name = self.string()
        key = (quote + 1, self.at - 1)
        if name in made.names:
            raise Refused(4, quote)
        made.names.add(name)
        self.space()
        self.take(b":")
        self.space()
        return self.value(depth, name, key)

    def whole(self):
        self.space()
        root = self.value(0)
        self.space()
        if self.at < len(self.text):
            self.refuse()
        return root


def numbered(root):
    """Numbers the rows of a tree, and tells each child of an array or object its parent's and that of the child behind it."""
    values = list(root.all())
    for row, value in enumerate(values):
        value.row = row
    for value in values:
        for child, behind in itertools.zip_longest(value.inside, value.inside[1:]):
            child.parent = value.row
            child.next = behind.row if behind else 0


@functools.lru_cache(maxsize=8)
def parsed(text):
    """The root value of a text, with rows numbered, or its refusal, one of 2 to 6. The last few are kept: a text may be asked with several tables."""
    try:
        root = Reader(text).whole()
    except Refused as no:
        return no
    numbered(root)
    return root


def tree(text, words):
    """The root value of a text; raises 1 to 7."""
    if len(text) > MOST_BYTES:
        raise Refused(1, 0)
    root = parsed(text)
    if isinstance(root, Refused):
        raise Refused(root.number, root.second)
    if words // ROW_WORDS < root.below + 1:
        raise Refused(7, root.below + 1)
    return root


def table_of(root, words):
    told = []
    for v in root.all():
        told += [v.kind, v.key[0], v.key[1], v.start, v.end, v.below, v.parent, v.next]
    return told + [0] * (words - len(told))


def read(text, words):
    try:
        root = tree(text, words)
    except Refused as no:
        return no.number, no.second, [0] * words
    return 0, root.below + 1, table_of(root, words)
