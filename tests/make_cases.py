"""Makes crates/cases_run/stdin and stdout: the cases of every service below a line with its name, and what the second implementation answers.

    python3 tests/make_cases.py [--check]

With `--check` it only compares.
"""
import os
import sys

import make_feeding
import make_judging
import make_localizing
import make_packing
import make_program
import make_reading
from store import ROOT, lines_of

SERVICES = {
    "reading": make_reading.groups, "judging": make_judging.groups, "localizing": make_localizing.groups, "program": make_program.groups,
    "feeding": make_feeding.groups, "packing": make_packing.groups, "unpacking": make_packing.unpacked}
LIMIT = 1850000  # the program's input buffer is larger by fifty thousand bytes

# the numbers of the sheet that each service can answer, and those that can stand second in 28
SHEET = {
    "reading": range(8), "judging": [*range(8), *range(11, 15)], "localizing": [*range(8), *range(11, 15), *range(21, 29)],
    "program": [0, *range(2, 8), *range(11, 15), 34], "feeding": [0, 1, 2, 3, 5, 6], "packing": [*range(8), 51, 52],
    "unpacking": [0, 52, 53]}
INSIDE = (5, 11, 12, 13, 14)


def joined():
    """All lines, and all answers."""
    lines, answers = [], []
    for name, groups in SERVICES.items():
        some, said = lines_of(groups())
        assert not any(line.startswith("@") for line in some), name
        assert sum(not line.startswith("!") for line in some) == len(said), name
        numbers = {tuple(map(int, line.split()[:2])) for line in said}
        assert {first for first, _ in numbers} == set(SHEET[name]), name
        assert {second for first, second in numbers if first == 28} == (set(INSIDE) if name == "localizing" else set()), name
        lines += ["@" + name] + some
        answers += said
        print(f"{name}: {len(said)} cases")
    size = sum(len(line) + 1 for line in lines)
    assert size <= LIMIT, size
    return lines, answers


def store(name, lines):
    """Writes one of the program's two files, or compares it."""
    path = os.path.join(ROOT, "crates", "cases_run", name)
    text = "".join(line + "\n" for line in lines).encode("latin-1")
    if "--check" in sys.argv:
        with open(path, "rb") as old:
            if old.read() != text:
                sys.exit(f"crates/cases_run/{name} is not what the second implementation says")
    else:
        with open(path, "wb") as new:
            new.write(text)


def main():
    lines, answers = joined()
    store("stdin", lines)
    store("stdout", answers)


if __name__ == "__main__":
    main()
