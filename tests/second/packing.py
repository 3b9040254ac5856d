"""Packing and unpacking a second time, from the request for them and the rules paper: a text becomes tagged fields, and fields become the compact text.

    pack(text, words, room)   -> (number, second, written, table, output): reading's refusals, then 51, then 52
    unpack(packed, room)      -> (number, second, written, output): 53, then 52

Packing goes by the tree that reading makes. Unpacking knows nothing of it: it cuts fields by itself, and tells characters and numbers without the reader, so that
a slip of one side isn't made on the other too.
"""
import re

from reading import MOST_BYTES, MOST_DEPTH, MOST_VALUES, NUMBER, STRING, Refused, table_of, tree

WIDE, SHORT, NOT_PACKED = 51, 52, 53
NAME = 8  # the tag of a member's name; the others are the kinds of rows
HEAD = 3  # bytes of a tag and a length
WIDEST = 65535  # bytes that a length of two bytes can say


def field(tag, content):
    if len(content) > WIDEST:
        raise Refused(WIDE, 0)
    return bytes([tag, len(content) // 256, len(content) % 256]) + content


def fields_of(text, value):
    """The field of a value; a member's name has one of its own before it."""
    name = b"" if value.name is None else field(NAME, value.name)
    if value.kind == NUMBER:
        content = text[value.start:value.end]
    elif value.kind == STRING:
        content = value.string
    else:
        content = b"".join(fields_of(text, child) for child in value.inside)
    return name + field(value.kind, content)


def pack(text, words, room):
    try:
        root = tree(text, words)
        out = fields_of(text, root)
        if room < len(out):
            raise Refused(SHORT, len(out))
    except Refused as no:
        return no.number, no.second, 0, [0] * words, bytes(room)
    return 0, root.below + 1, len(out), table_of(root, words), out + bytes(room - len(out))


class NotPacked(Exception):
    """No packing writes this."""


LITERALS = {1: b"null", 2: b"false", 3: b"true"}
DIGITS = re.compile(rb"-?(0|[1-9][0-9]*)(\.[0-9]+)?([eE][+-]?[0-9]+)?")
NO_CHARACTERS = re.compile("[\ufdd0-\ufdef%s]" % "".join(chr(plane * 65536 + low) for plane in range(17) for low in (65534, 65535)))
# What RFC 8259 demands an escape for, and the one that 01 gives it.
ESCAPES = {chr(code): "\\u00%02x" % code for code in range(32)} | {
    "\b": r"\b", "\f": r"\f", "\n": r"\n", "\r": r"\r", "\t": r"\t", '"': r'\"', "\\": r"\\"}


def cut(part):
    """The fields of a part, one behind the other, as tags with contents: they fill it."""
    at = 0
    while at < len(part):
        if len(part) - at < HEAD:
            raise NotPacked
        tag, size = part[at], part[at + 1] * 256 + part[at + 2]
        at += HEAD
        if len(part) - at < size:
            raise NotPacked
        yield tag, part[at:at + size]
        at += size


def quoted(content):
    """A string or a name as the compact text has it."""
    try:
        said = content.decode("utf-8")
    except UnicodeDecodeError as no:
        raise NotPacked from no
    if NO_CHARACTERS.search(said):
        raise NotPacked
    return b'"' + "".join(ESCAPES.get(one, one) for one in said).encode() + b'"'


def elements(content, depth):
    """The texts of an array's fields, and how many values they are."""
    texts, values = [], 0
    for tag, inside in cut(content):
        text, count = value_of(tag, inside, depth)
        texts.append(text)
        values += count
    return texts, values


def members(content, depth):
    """The same of an object's, which are a name and a value by turns."""
    texts, values, names, name = [], 0, set(), None
    for tag, inside in cut(content):
        if name is None:
            if tag != NAME or inside in names:
                raise NotPacked
            names.add(inside)
            name = quoted(inside)
        else:
            text, count = value_of(tag, inside, depth)
            texts.append(name + b":" + text)
            values += count
            name = None
    if name is not None:
        raise NotPacked
    return texts, values


def value_of(tag, content, depth):
    """The compact text of a field that stands in so many arrays and objects, and how many values it has."""
    if tag in LITERALS and not content:
        return LITERALS[tag], 1
    if tag == 4 and DIGITS.fullmatch(content):
        return content, 1
    if tag == 5:
        return quoted(content), 1
    if tag in (6, 7) and depth < MOST_DEPTH:
        texts, values = (elements if tag == 6 else members)(content, depth + 1)
        return (b"[%s]" if tag == 6 else b"{%s}") % b",".join(texts), values + 1
    raise NotPacked


def compact(packed):
    """The compact text of a packing, and how many values it has. Neither can be too long or too many, so short a packing is; but they are asked for."""
    fields = list(cut(packed))
    if len(fields) != 1:
        raise NotPacked
    text, values = value_of(*fields[0], 0)
    if len(text) > MOST_BYTES or values > MOST_VALUES:
        raise NotPacked
    return text, values


def unpack(packed, room):
    try:
        text, values = compact(packed)
    except NotPacked:
        return NOT_PACKED, 0, 0, bytes(room)
    if room < len(text):
        return SHORT, len(text), 0, bytes(room)
    return 0, values, len(text), text + bytes(room - len(text))
