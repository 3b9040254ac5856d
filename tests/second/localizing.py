"""Localizing a second time: the patch of a language is applied to a card; refusals 21 to 28. 22 to 26 name the key
at fault by the place of its opening quote in the card text."""
import re

from judging import card_tree, judge
from reading import ARRAY, NULL, OBJECT, Refused


class Node:
    """A value to be written: its own token, or its brackets and what is inside: by name, or by place in an array, the name token (None if added) and the
    node."""

    def __init__(self, text, value):
        self.kind, self.token = value.kind, text[value.start:value.end]
        self.inside = {
            place if child.name is None else child.name: [text[child.key[0] - 1:child.key[1] + 1], Node(text, child)]
            for place, child in enumerate(value.inside)}

    def written(self):
        if self.kind == ARRAY:
            return b"[" + b",".join(node.written() for _, node in self.inside.values()) + b"]"
        if self.kind == OBJECT:
            kept = [(token, node) for token, node in self.inside.values() if token is not None]
            added = sorted(name for name, (token, _) in self.inside.items() if token is None)
            both = kept + [(quoted(name), self.inside[name][1]) for name in added]
            return b"{" + b",".join(token + b":" + node.written() for token, node in both) + b"}"
        return self.token


def quoted(name):
    """A name as an added member's token: escaped only where RFC 8259 demands it."""
    short = {8: b"\\b", 9: b"\\t", 10: b"\\n", 12: b"\\f", 13: b"\\r", 34: b'\\"', 92: b"\\\\"}
    return b'"' + b"".join(short.get(b) or (b"\\u%04x" % b if b < 32 else bytes([b])) for b in name) + b'"'


def parts(key):
    return [part.replace(b"~1", b"/").replace(b"~0", b"~") for part in key.split(b"/")]


def walk(start, pointer):
    """The object that holds the last part; or the number 25 or 26."""
    here = start
    for part in pointer[:-1]:
        if here.kind != OBJECT:
            return 25 if here.kind == ARRAY else 26
        if part not in here.inside:
            return 26
        here = here.inside[part][1]
    if here.kind != OBJECT:
        return 25 if here.kind == ARRAY else 26
    return here


def clashing(pointers):
    """The keys of all pairs of which one pointer is a prefix of the other. (Every beginning that is as long as some pointer is looked for among them.)"""
    sizes = {len(pointer) for pointer in pointers}
    for pointer, key in pointers.items():
        for size in sizes:
            if size < len(pointer) and pointer[:size] in pointers:
                yield from (key, pointers[pointer[:size]])


def faults(start, keys):
    """All of 22 to 26 that the keys of a patch break, each with a key. (What a malformed key points to isn't asked: 22 is the smallest.)"""
    broken = {(22, key) for key in keys if re.search(rb"~(?![01])", key)}
    if broken:
        return broken
    pointers = {tuple(parts(key)): key for key in keys}
    assert len(pointers) == len(keys)
    broken = {(23, key) for pointer, key in pointers.items() if pointer[0] == b"localizations"}
    broken |= {(24, key) for key in clashing(pointers)}
    walks = ((walk(start, pointer), key) for pointer, key in pointers.items())
    return broken | {(end, key) for end, key in walks if end in (25, 26)}


def put(start, key, patch):
    """One entry of a patch: sets or removes one property."""
    pointer = parts(key)
    holder, name = walk(start, pointer), pointer[-1]
    if patch.kind == NULL:
        holder.inside.pop(name, None)
    elif name in holder.inside:
        holder.inside[name][1] = patch
    else:
        holder.inside[name] = [None, patch]


def localized(text, language, words, room):
    """The bytes of the localized card; raises every refusal."""
    root = card_tree(text, words)
    languages = root.member(b"localizations")
    chosen = languages.member(language) if languages else None
    if chosen is None:
        raise Refused(21, 0)
    start = Node(text, root)
    start.inside.pop(b"localizations")
    quotes = {entry.name: entry.key[0] - 1 for entry in chosen.inside}
    broken = faults(start, quotes)
    if broken:
        number, key = min(broken)  # the smallest number first, over all entries; then the smallest key, decoded, in byte order
        raise Refused(number, quotes[key])
    for entry in chosen.inside:
        put(start, entry.name, Node(text, entry))
    out = start.written()
    if room < len(out):
        raise Refused(27, len(out))
    number, place, _ = judge(out, words)
    if number:
        assert number in (5, 11, 12, 13, 14), number
        raise Refused(28, number, place)
    assert len(out) <= len(text)
    return out


def told(text, language, words, room):
    """All that localizing answers: (number, second, written, the place inside 28, table, output)."""
    try:
        out = localized(text, language, words, room)
    except Refused as no:
        return no.number, no.second, 0, no.inner, [0] * words, bytes(room)
    number, rows, table = judge(out, words)
    return number, rows, len(out), 0, table, out + bytes(room - len(out))


def localize(text, language, words, room):
    number, second, written, _, table, output = told(text, language, words, room)
    return number, second, written, table, output
