"""Reading in pieces a second time, from the rules paper and the request for it: it keeps the text, and asks whole reading what can still change.

    told(text)   -> (number, second, after): the answer to a text, however it is cut, and after how many bytes it comes (0: at the end)
    Pieces()     the same as a reader: take(piece), end() -> (number, second), where 0, 0 of a piece is "go on"

The measure is whole reading without nos. 1, 4 and 7. It goes from left to right, and a fault that it finds rests on no byte behind the one that it is found
at; so of the faults of a text that has come so far only two sorts can still go away: the text's own end (2 at its length), and bytes that are no
character yet (3).
"""
import re

import reading
from reading import Reader, Refused

HIGH = rb"\\u[Dd][89ABab][0-9A-Fa-f]{2}"  # the escape of a high surrogate
HALF = re.compile(HIGH + rb"(\\(u([Dd]([C-Fc-f][0-9A-Fa-f]?)?)?)?)?")  # and what of a low one may have come behind it, but for the last digit
# What characters of more than one byte begin with. 64 of them in a row have that in common, and the first of such a row is never a noncharacter.
BEGUN = {
    chr(code).encode()[:size] for code in range(0x80, 0x110000, 64) if not 0xD800 <= code <= 0xDFFF for size in range(1, len(chr(code).encode()))}


class Measure(Reader):
    """Whole reading without 1, 4 and 7: 1 and 7 aren't a reader's own."""

    def named(self, made, depth):
        made.names = set()  # no. 4 aside: no name was there before
        return super().named(made, depth)


def measure(text):
    """The refusal of a text, one of 2, 3, 5 and 6 with its place, or 0 and the number of its values."""
    reader = Measure(text)
    try:
        reader.whole()
    except Refused as no:
        return no.number, no.second
    return 0, reader.values


def awaits(rest):
    """May what stands at the place of a 3 become a character by bytes that follow? An escape that isn't whole is none yet; of a whole one only a high
    surrogate waits, for a low one."""
    if rest[:1] == b"\\":
        return len(rest) < 6 or HALF.fullmatch(rest) is not None
    return rest in BEGUN


def loose(text, number, place):
    """May what whole reading says of a text be another thing once more bytes follow?"""
    return number == 0 or number == 2 and place == len(text) or number == 3 and awaits(text[place:])


def told(text):
    """What is certain stays so, whatever follows: so the whole is asked first, and then at which byte its refusal came. Bytes beyond the limit are never
    read."""
    kept = text[:reading.MOST_BYTES]
    number, place = measure(kept)
    if loose(kept, number, place):
        return (1, 0, reading.MOST_BYTES + 1) if len(text) > reading.MOST_BYTES else (number, place, 0)
    after = place + 1
    while number == 3 and awaits(kept[place:after]):
        after += 1
    return number, place, after


class Pieces:
    """The reader; a new one is a start."""

    def __init__(self):
        self.text, self.said = b"", None

    def take(self, piece):
        if self.said is None:
            self.text += piece
            number, second, after = told(self.text)
            self.said = (number, second) if after else None
        return self.said or (0, 0)

    def end(self):
        if self.said is None:
            self.said = told(self.text)[:2]
        return self.said
