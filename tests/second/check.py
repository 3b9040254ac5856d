"""Holds the second implementation to the rulings, the specimens and the cases against wrong programs: python3 tests/second/check.py"""
import sys

import intake
from duds import ASKED, DUDS, LATER
from packing import pack, unpack
from pieces import Pieces
from program import said
from reading import ROW_WORDS
from rulings import END, LINKED, OK, RULINGS, SPECIMENS, whole


def answer(case):
    """What the second implementation says of a case, as (number, second, table, output)."""
    if case["service"] == "localize":
        number, second, written, table, output = intake.localize(case["text"], case["language"], case["words"], case["room"])
        return number, second, table, output[:written] if number == 0 else output
    if case["service"] == "pack":
        number, second, written, table, output = pack(case["text"], case["words"], case["room"])
        return number, second, table, output[:written] if number == 0 else output
    if case["service"] == "unpack":
        number, second, written, output = unpack(case["text"], case["room"])
        return number, second, [], output[:written] if number == 0 else output
    if case["service"] == "pieces":
        reader = Pieces()
        return *[reader.end() if call == END else reader.take(call) for call in case["calls"]][-1], [], b""
    number, second, table = (said if case["service"] == "program" else getattr(intake, case["service"]))(case["text"], case["words"])
    return number, second, table, b""


def fault(case):
    """Why a case fails, or None."""
    number, second, table, output = answer(case)
    wanted = case["wanted"]
    if number and (any(table) or any(output)):
        return "not zero after a refusal"
    if len(table) != case["words"]:
        return "a table of another length"
    if wanted == OK or isinstance(wanted, bytes):
        if number:
            return f"refused with {number} {second}"
        return f"wrote {output}" if isinstance(wanted, bytes) and output != wanted else None
    return None if (number, second) == wanted else f"answered {number} {second}"


def main():
    faults = 0
    for case in ASKED + [case for _, case, _ in LATER]:
        why = fault(case)
        if why:
            faults += 1
            print(f"{case['service']} {case['text'][:200]!r}: {why}, wanted {case['wanted']}")
    for edits, case, wrong in DUDS + LATER:
        if (whole(wrong) if isinstance(wrong, bytes) else wrong) == case["wanted"]:
            faults += 1
            print(f"{edits}: the wrong program is right")
    rows = intake.read(b'{"a":[1]}', 24)
    if rows != (0, 3, [7, 0, 0, 0, 9, 2, 0, 0, 6, 2, 3, 5, 8, 1, 0, 0, 4, 0, 0, 6, 7, 0, 1, 0]):
        faults += 1
        print("the three rows:", rows)
    for text, parents, siblings in LINKED:
        number, count, table = intake.read(text, ROW_WORDS * len(parents))
        if (number, count, table[6::ROW_WORDS], table[7::ROW_WORDS]) != (0, len(parents), parents, siblings):
            faults += 1
            print(f"the parents and siblings of {text!r}: {table[6::ROW_WORDS]} {table[7::ROW_WORDS]}")
    print(f"{len(RULINGS)} inputs of rulings, {len(SPECIMENS) + 1} specimens, {len(LINKED)} texts with parents and siblings, "
        f"{len(DUDS + LATER)} inputs against wrong programs, {faults} faults")
    return 1 if faults else 0


if __name__ == "__main__":
    sys.exit(main())
