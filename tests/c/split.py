"""Writes the stored cases of a service, and the answers that its C function gives them: python3 tests/c/split.py SERVICE CASES ANSWERS

With `store CASES` all texts of the stored cases, each with what packing answers, and some packings with what of that near them can be unpacked (packing.c).
With `pieces CASES` the texts of second/check_pieces.py, those of second/duds.py for it and those of reading, each with what a reader in pieces answers and
after how many bytes (0: at the end).
"""
import glob
import os
import sys

sys.path.insert(0, os.path.join(os.path.dirname(os.path.abspath(__file__)), ".."))
from store import ROOT, answer_in_c, lines_for, plain, stored, sum_of

from check_packing import PAIRS, NOT_PACKED
from check_pieces import DECIDED, others
from duds import ASKED
from packing import fields_of, unpack
from pieces import told
from reading import MOST_WORDS, Refused, tree

LONG = 4096  # bytes: of a longer text the second implementation is asked only where whole reading doesn't tell, since it takes its time
UNTOLD = 99, 0, 0
WHOLE = 1000  # bytes of a packing of which all that is near is unpacked
SPACES = {"reading": 1, "judging": 1, "localizing": 3, "packing": 2}  # before the text of a case's line


def in_pieces():
    """Each text once. By 1 and 4 whole reading tells nothing of the rest of a text, and by 3 not which byte brings it."""
    asked = [case["text"] for case in ASKED if case["service"] == "pieces" and len(case["text"]) <= LONG]
    seen = dict.fromkeys([text for text, _, _ in DECIDED] + asked + others())
    lines, base = ["%d %d %d %s" % (*told(text), plain(text)) for text in seen], ""
    for one in stored():
        text = one.case.text
        if one.case.service != "reading" or text in seen:
            continue
        seen[text] = None
        if one.base != base:
            base = one.base
            lines.append(base)
        said = told(text) if len(text) <= LONG or one.wanted.split()[0] in ("1", "3", "4") else UNTOLD
        lines.append("%d %d %d %s" % (*said, one.line.split(" ", 1)[1]))
    return lines


def packed(text):
    """What packing answers where all that is lent suffices, a sum of the packing, and that."""
    try:
        root = tree(text, MOST_WORDS)
        out = fields_of(text, root)
    except Refused as no:
        return no.number, no.second, 0, 0, b""
    return 0, root.below + 1, len(out), sum_of(out), out


def near(packing):
    """A packing and what is near it, in the order of packing.c."""
    yield packing
    for at in range(len(packing)):
        for change in (1, 2, 4, 8, 16, 32, 64, 128, 3, 7, 15, 255):
            yield packing[:at] + bytes([packing[at] ^ change]) + packing[at + 1:]
    for at in range(len(packing)):
        yield packing[:at]
    for at in range(len(packing)):
        yield packing[:at] + packing[at + 1:]
    for at in range(len(packing) + 1):
        for more in (0, 1, 5, 8, 34, 49, 128, 255):
            yield packing[:at] + bytes([more]) + packing[at:]


def near_lines():
    """Packings of cards, and of what was decided by hand, also what is decided to be none."""
    cards = []
    for path in sorted(glob.glob(os.path.join(ROOT, "tests", "cards", "*.json"))):
        with open(path, "rb") as file:
            cards.append(packed(file.read())[4])
    for packing in dict.fromkeys([packing for _, packing, _ in PAIRS] + NOT_PACKED + cards):
        if 0 < len(packing) <= WHOLE:
            said = ((index, unpack(some, 6 * len(some))) for index, some in enumerate(near(packing)))
            yield "~" + plain(packing)
            yield "." + " ".join("%d %d %d %d" % (index, values, size, sum_of(out[:size])) for index, (number, values, size, out) in said if not number)


def in_store():
    """Each text once."""
    seen, lines, base = set(), list(near_lines()), ""
    for one in stored():
        text = one.case.text
        if one.case.service not in SPACES or text in seen:
            continue
        seen.add(text)
        if one.base != base:
            base = one.base
            lines.append(base)
        said = packed(text)[:4] if len(text) <= LONG else (UNTOLD[0], 0, 0, 0)
        lines.append("%d %d %d %d %s" % (*said, one.line.split(" ", SPACES[one.case.service])[-1]))
    return lines


def write(path, lines):
    with open(path, "w", encoding="latin-1", newline="\n") as file:
        file.writelines(line + "\n" for line in lines)


def main(service, cases, answers=None):
    if answers is None:
        write(cases, {"pieces": in_pieces, "store": in_store}[service]())
        return
    lines, said = lines_for(service)
    write(cases, lines)
    write(answers, map(answer_in_c, said) if service == "localizing" else said)


if __name__ == "__main__":
    main(*sys.argv[1:])
