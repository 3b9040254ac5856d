"""The cases of reading in pieces: texts with lengths of pieces. Each text is read as one piece too."""
import itertools

import make_reading
from store import Case, Made

from check_pieces import DECIDED
from reading import MOST_BYTES, MOST_DEPTH, MOST_VALUES

SIZES = 1, 2, 3, 7, 1500
STEP = 40  # of reading's texts one in so many is read in pieces, but none of
LONG = 100000  # so many bytes, of which `limits` has its own,
WIDE = 1000  # and none with a base text of so many, whose line is long
MANY = b"[" + b",".join([make_reading.RICH] * 25) + b"]"


def decided():
    """The texts whose answer was decided by hand, with the byte that brings it."""
    for text, _, _ in DECIDED:
        yield SIZES[:3], text


def ends(size):
    """Texts of so many bytes, of which all that is wrong is so at their last bytes, or after them."""
    blank, string = " %%*%d,1;", '"a%%*%d,1;'
    yield blank % (size - 1)
    for last in ("0", "x", "[", "-", '"', "%ff"):
        yield blank % (size - 2) + last
    yield string % (size - 2)
    for last in (
            '"', "%0a", "%80", "%c3", "%e2%82", "%f0%9f%98", "%c3a", "%5c", "%5cx", "%5cu123", "%5cud800", '%5cud800"', "%5cud800%5cudc0", "%5cud83f%5cudffe",
            "%5cudc00"):
        yield string % (size - 2 - len(Made(last))) + last
    yield "1%%*%d,1;" % (size - 1)
    yield blank % (size - 2 - MOST_DEPTH) + "[%%*%d,1;" % MOST_DEPTH
    for last in ("0", "x"):
        yield blank % (size - 2 * MOST_VALUES - 1) + "[0,%%*%d,2;" % (2 * MOST_VALUES - 4) + last


def limits():
    """Texts that end at the byte limit, those with a byte more, and those whose last byte is beyond it: of what is beyond nothing is said but 1, and what is
    certain before stays. Some go byte by byte, which takes its time."""
    sizes = 7, 1500, MOST_BYTES
    for at, recipe in enumerate(ends(MOST_BYTES)):
        yield sizes, Made(recipe)
        yield sizes if at % 3 else (1, *sizes), Made(recipe + '"')
    for recipe in ends(MOST_BYTES + 1):
        yield sizes, Made(recipe)
    for recipe in ("x%*1049999,1;", " %*1049999,1;"):
        yield (1, 3), Made(recipe)


def cut(texts):
    """Texts with the lengths, of which the greatest is for long ones."""
    for text in texts:
        yield SIZES if len(text) > SIZES[-1] else SIZES[:-1], text


def deep_and_many():
    """About the greatest depth and the most values."""
    yield from cut(text for _, text in (*make_reading.depths(), *make_reading.counts()))


def damaged():
    """A long text, and some of it with a byte changed, left out or doubled, or cut."""
    yield from cut((MANY, *(text for _, text in itertools.islice(make_reading.damaged(MANY), 0, None, 1801))))


def some(cases, seen):
    """Of reading's texts one in STEP, each counted once."""
    texts = [text for text in dict.fromkeys(case.text for case in cases) if text not in seen and len(text) < LONG]
    seen.update(texts)
    yield from cut(texts[STEP - 1::STEP])


def groups():
    """The cases, by the base text that they share."""
    first = [*decided(), *limits(), *deep_and_many()]
    seen = {text for _, text in first}
    others = ((base, some(cases, seen)) for base, cases in make_reading.groups() if len(base) < WIDE)
    for base, pairs in ((b"", first), (MANY, damaged()), *others):
        yield base, [Case("feeding", 0, text, sizes=sizes) for sizes, text in pairs]
