"""Holds the cards of docs/REFUSALS.md and docs/TRAINING.md to the answers that the pages give, and the names in docs/PROMISES.md and docs/DUDS.md to what
the crates declare: python3 tests/docs.py"""
import glob
import os
import re
import sys

from store import ROOT

import intake
from duds import edits
from packing import pack, unpack
from program import line
from reading import MOST_WORDS, ROW_WORDS
from rulings import whole

SHEET = re.compile(r"^\| (\d+) \|.*\| ([^|]*) \|$")


def page_of(name):
    with open(os.path.join(ROOT, "docs", name), encoding="utf-8") as page:
        return page.read()


def text_of(card):
    """A card as the sheet writes it: bytes in backquotes, and counts of them."""
    text = b""
    for count, part in re.findall(r"(?:([\d,]+) × )?`([^`]*)`", card.split("→")[0]):
        text += part.encode() * (int(count.replace(",", "")) if count else 1)
    return whole(text)


def asked(number, card):
    """The answer to a line of the sheet: the program for its own number, packing and unpacking from 51 on, localizing from 21 on, reading or judging else."""
    blank = re.match(r"([\d,]+) spaces", card)
    if blank:
        return intake.read(b" " * int(blank[1].replace(",", "")), MOST_WORDS)[:2]
    text = text_of(re.split(" asked | with | packed| unpacked", card)[0])
    if number == 34:
        return line(text)
    room = re.search(r"with (\d+) bytes", card)
    if number > 50:
        lent = int(room[1]) if room else 6 * len(text)
        return (unpack(text, lent) if number == 53 else pack(text, MOST_WORDS, lent))[:2]
    if number > 20:
        return intake.localize(text, b"de", MOST_WORDS, int(room[1]) if room else len(text))[:2]
    rows = re.search(r"with (\d+) rows", card)
    return (intake.read if number == 6 else intake.judge)(text, ROW_WORDS * int(rows[1]) if rows else MOST_WORDS)[:2]


def sheet():
    """Each line of the sheet: what it says, and what is answered."""
    for line in page_of("REFUSALS.md").splitlines():
        found = SHEET.match(line)
        if found:
            number, card = int(found[1]), found[2].strip()
            told = re.search(r"→ (\d+)(?: at |, )(\d+)", card)
            yield card, (int(told[1]), int(told[2])) if told else (number, 0), asked(number, card)


def training():
    """The cards of the training page, in their order, with what the page says of them."""
    blocks = re.findall(r"(?:^    .*\n)+", page_of("TRAINING.md"), re.M)
    cards = ["".join(line.strip() for line in block.splitlines()).encode() for block in blocks]
    wanted = [(4, 43), (4, 43), (26, 107), (28, 14), b'{"@type":"Card","version":"1.0","uid":"u1","emails":{}}', (24, 88), (24, 84)]
    if len(cards) != len(wanted):
        yield "the page's cards", len(wanted), len(cards)
    for card, answer in zip(cards, wanted):
        number, second, written, _, output = intake.localize(card, b"de", MOST_WORDS, len(card))
        yield card, answer, (number, second) if number else bytes(output[:written])


# What declares a name in the logic: `data X`, or `x y : ..` at the start of a line, which fields and constructors are too.
MARKS = r"^\s*(?:(?:pub|abbrev|unfoldable|local)\s+)*"
HEAD = re.compile(MARKS + r"(?:data|record|ruleset|mod)\s+([^\s({:]+)", re.M)
TYPED = re.compile(MARKS + r"([^\s(){}:=|]+(?:[ \t]+[^\s(){}:=|]+)*)\s+:(?=\s)", re.M)
PARAMETERS = re.compile(MARKS + r"(?:data|record)\s+\S+((?:\s*[({][^(){}]*[)}])*)", re.M)
# And in the code: an item, a field, a case of an enum.
ITEM = re.compile(r"\b(?:fn|struct|enum|trait|const|mod)\s+(\w+)")
FIELD = re.compile(r"^    (?:pub )?([a-z]\w*): ", re.M)
ENUM = re.compile(r"\benum \w+ \{(.*?)\n\}", re.S)
CASE = re.compile(r"^    ([A-Z]\w*)", re.M)


def files(ending):
    """The files of the crates with such an ending, without their comments."""
    for folder in ("src", "specs", "proofs"):
        for path in glob.glob(os.path.join(ROOT, "crates", "*", folder, "**", "*" + ending), recursive=True):
            with open(path, encoding="utf-8") as file:
                yield re.sub(r"(?:^|\s)(?:--|//).*", "", file.read())


def declared():
    """All names that a file of a crate declares."""
    found = set(os.listdir(os.path.join(ROOT, "crates")))
    for text in files(".antt"):
        found.update(HEAD.findall(text))
        for names in TYPED.findall(text):
            found.update(names.split())
        for some in PARAMETERS.findall(text):
            found.update(word for names in re.findall(r"[({]([^:(){}]*):", some) for word in names.split())
    for text in files(".rt"):
        found.update(ITEM.findall(text) + FIELD.findall(text))
        for cases in ENUM.findall(text):
            found.update(CASE.findall(cases))
    return found


# Backquoted words of the two pages that are no names of ours: of C, of the language, and the folders of each crate.
OTHERS = {"isspace", "requires", "specs", "proofs", "ReadsAtMost"}


def named(page):
    """The names in backquotes: words, and paths of words (`json_reader::names::{slice, slice_is}`, `Patched.keeps`)."""
    for quoted in re.findall(r"`([^`]*)`", page):
        if re.fullmatch(r"\.?[A-Za-z][\w'-]*(?:(?:::|\.)(?:[\w'-]+|\*|\{[\w, ]+\}))*", quoted) and not quoted.endswith((".antt", ".rt", ".md")):
            yield from (word for word in re.findall(r"[\w'-]+", quoted))


def unknown():
    """What the two pages name and nothing declares: files, must-fail edits, and names in backquotes."""
    known = declared() | OTHERS
    crates = "|".join(sorted(os.listdir(os.path.join(ROOT, "crates"))))
    for name in ("PROMISES.md", "DUDS.md"):
        page = page_of(name)
        for path in re.findall(rf"(?:{crates})/[\w/]+\.(?:antt|rt)", page):
            if not os.path.exists(os.path.join(ROOT, "crates", path)):
                yield f"{name}: {path}"
        for crate, edit in re.findall(rf"[| ,]({crates})/([a-z0-9_]+)(?=[ ,])", page):
            if not os.path.exists(os.path.join(ROOT, "crates", crate, "must-fail", edit + ".edit")):
                yield f"{name}: {crate}/{edit}"
        for word in named(page):
            if word not in known:
                yield f"{name}: {word}"


def untold():
    """Must-fail edits that no case of second/duds.py tells apart, and names there that are no edit."""
    paths = glob.glob(os.path.join(ROOT, "crates", "*", "must-fail", "*.edit"))
    there = {"/".join((path.split(os.sep)[-3], os.path.basename(path)[:-len(".edit")])) for path in paths}
    yield from (f"{edit}: no case in tests/second/duds.py" for edit in there - edits())
    yield from (f"{edit}: in tests/second/duds.py, and no must-fail edit" for edit in edits() - there)


def main():
    cases = [*sheet(), *training()]
    faults = [case for case in cases if case[1] != case[2]]
    for card, wanted, answer in faults:
        print(f"{card}: the page says {wanted}, answered {answer}")
    names = sorted(set(unknown()))
    for name in names:
        print(f"{name} is declared nowhere")
    missing = sorted(untold())
    for line in missing:
        print(line)
    print(f"docs: {len(cases)} cards, {len(faults)} faults; {len(names)} names that nothing declares; "
        f"{len(edits())} must-fail edits, {len(missing)} without a case")
    return 1 if faults or names or missing or len(cases) != 30 else 0


if __name__ == "__main__":
    sys.exit(main())
