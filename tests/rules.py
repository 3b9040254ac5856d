"""Holds the examples of docs/RULES.md (section 1.3 has their notation) to the second implementation, and the files that it names to what is there:
python3 tests/rules.py"""
import os
import re
import sys

from store import ROOT

import intake
import packing
from pieces import told
from reading import MOST_BYTES, MOST_WORDS
from rulings import MUST

ROW = re.compile(r"^\| (read|judge|localize|pack|unpack) \| (.*) \| (.*) \|$", re.M)
IN_PIECES = re.compile(r"^\| pieces \| (.*) \| (.*) \| (.*) \|$", re.M)
PIECE = re.compile(r"(?:([\d,]+) × )?`([^`]*)`")
LENT = re.compile(r", (?:(table) of (\d+) words|(output) of (\d+) bytes|(language) `([^`]*)`)$")


def bytes_of(piece):
    """What a piece in backquotes stands for."""
    text = piece.encode()
    if text.startswith(b"{M"):
        text = b"{" + MUST + text[2:]
    return re.sub(rb"<([0-9A-F]{2})>", lambda found: bytes([int(found[1], 16)]), text)


def case_of(said, most=None):
    """The text of an input, and what is lent with it: an output of `most` bytes, or one as long as the text, unless it says so."""
    words, room, language = MOST_WORDS, most, b"de"
    lent = LENT.search(said)
    if lent:
        said = said[:lent.start()]
        words = int(lent[2]) if lent[1] else words
        room = int(lent[4]) if lent[3] else room
        language = lent[6].encode() if lent[5] else language
    text = b"".join(bytes_of(piece) * int((count or "1").replace(",", "")) for count, piece in PIECE.findall(said))
    return text, words, len(text) if room is None else room, language


def counted(number, name):
    return f"{number} {name}" + "s" * (number != 1)


def answer_in_store(service, whole, text, words, room):
    """What packing or unpacking answers, in the page's words: of an acceptance the whole that is written, or both counts."""
    if service == "pack":
        number, second, written, _, output = packing.pack(text, words, room)
    else:
        number, second, written, output = packing.unpack(text, room)
    if number:
        return f"{number} at {second}" if 2 <= number <= 6 else f"{number}, {second}"
    counts = f"{counted(second, 'row' if service == 'pack' else 'value')}, {counted(written, 'byte')}"
    return bytes(output[:written]) if whole else counts


def answer_of(service, text, words, room, language):
    """An answer in the page's words."""
    if service == "localize":
        number, second, written, _, output = intake.localize(text, language, words, room)
    else:
        number, second, _ = getattr(intake, service)(text, words)
    if number == 0:
        return bytes(output[:written]) if service == "localize" else counted(second, "row")
    return f"{number} at {second}" if 2 <= number <= 14 and number != 7 or 22 <= number <= 26 else f"{number}, {second}"


def answer_in_pieces(text):
    """What reading in pieces answers, and after how many bytes, in the page's words."""
    number, second, after = told(text)
    answer = f"{number} at {second}" if number > 1 else f"1, {second}" if number else counted(second, "value")
    return f"{answer}, after {counted(after, 'byte') if after else 'the end'}"


def examples(page):
    """Each example: its service, its text, the answer, and the one that the page gives."""
    for service, said, wanted in ROW.findall(page):
        whole = wanted.startswith("`")
        if service in ("pack", "unpack"):
            case = case_of(said, MOST_BYTES)
            answer = answer_in_store(service, whole, *case[:3])
        else:
            case = case_of(said)
            answer = answer_of(service, *case)
        yield service, case[0], answer, bytes_of(wanted.strip("`")) if whole else wanted
    for said, wanted, after in IN_PIECES.findall(page):
        text = case_of(said)[0]
        yield "pieces", text, answer_in_pieces(text), f"{wanted}, after {after}"


def missing(page):
    """The files that the page names, `crate/specs/{One,Other}.antt`, and nobody has."""
    for folder, names in re.findall(r"`(\w+/specs/)\{?([\w,]+)\}?\.antt`", page):
        for name in names.split(","):
            if not os.path.exists(os.path.join(ROOT, "crates", folder, name + ".antt")):
                yield f"{folder}{name}.antt"


def main():
    count = faults = 0
    with open(os.path.join(ROOT, "docs", "RULES.md"), encoding="utf-8") as file:
        page = file.read()
    for name in missing(page):
        faults += 1
        print(f"{name} is nowhere")
    for service, text, answer, wanted in examples(page):
        count += 1
        if answer != wanted:
            faults += 1
            print(f"{service} {text[:200]!r}: the page says {wanted}, answered {answer}")
    print(f"rules: {count} examples, {faults} faults")
    return 1 if faults or not count else 0


if __name__ == "__main__":
    sys.exit(main())
