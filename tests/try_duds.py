"""Runs the wrong programs: each must-fail edit of the code below `cases_run` is applied to a copy, and the copy's program, unproved, must miss a case that
tests/second/duds.py has against it: python3 tests/try_duds.py [CRATE/EDIT ..]

It takes some twenty minutes and isn't part of tests/run. The reader in pieces is in no program of the kit, so the copy has one for it. Edits of definitions make no
program, and those of `bezinkol` are in none.
"""
import glob
import os
import re
import shutil
import subprocess
import sys
import tempfile

from store import ROOT, Case, answer_of, line_of

from duds import DUDS, LATER, UNSEEN
from pieces import Pieces
from rulings import END

CALLED = {"read": "reading", "judge": "judging", "localize": "localizing", "program": "program", "pack": "packing", "unpack": "unpacking"}
CRATES = ("laws", "text", "code_points", "json_reader", "pieces", "packing", "contact", "answers", "formats", "pointers", "output", "patch",
    "fields", "vault", "card", "desk")
WORDS = 600  # of a table: the interpreter takes so many steps and no more
LONG = 10000

# A line of its input is a piece, `.` the end, and an empty one a start; for each it writes what is answered.
IN_PIECES = """// Reads in pieces.
#![tactic(auto)]

use pieces::reader::{end, said, start, take};
use std::io;
use std::io::Read;
use wire::Held;

fn call(held: Held, line: &[u8]) -> Held {
    if line.len() == 0 {
        return start();
    }
    if line[0] == b'.' {
        return end(held);
    }
    take(held, line)
}

fn main(rt: HostRuntime) -> io::Result<()> {
    let mut input = [0u8; 4096];
    let mut source = rt.stdin();
    let mut size = 0;
    while size < input.len() {
        let n = source.read(&mut input[size..])?;
        if n == 0 {
            break;
        }
        size = size + n;
    }
    let mut held = start();
    let mut from = 0;
    let mut at = 0;
    while at < size {
        if input[at] == b'\\n' {
            held = call(held, &input[from..at]);
            from = at + 1;
            let number = said(held).number;
            let second = said(held).second;
            println!(rt; "{number} {second}")?;
        }
        at = at + 1;
    }
    Ok(())
}
"""


def code_edits():
    """The edits of code: the crate and the name, and by the file what is replaced by what. What they change of a proof is in no program."""
    for crate in CRATES:
        for path in sorted(glob.glob(os.path.join(ROOT, "crates", crate, "must-fail", "*.edit"))):
            with open(path, encoding="utf-8") as file:
                parts = re.split(r"^file: ", file.read(), flags=re.M)[1:]
            changes = [(os.path.join("crates", crate, part.split("\n", 1)[0]),
                        list(zip(re.findall(r"^old: (.*)$", part, re.M), re.findall(r"^new: (.*)$", part, re.M))))
                       for part in parts if part.startswith("src/")]
            if changes:
                yield f"{crate}/{os.path.basename(path)[:-len('.edit')]}", changes


def cases_against(edit):
    for edits, case, _ in DUDS + LATER:
        if edit in edits.split() and case["service"] == "pieces":
            yield Case("pieces", 0, case["calls"])
        elif edit in edits.split():
            extra = (case["room"], case["language"]) if case["service"] == "localize" else (case["room"],) if "pack" in case["service"] else ()
            words = case["words"] if case["service"] == "program" else min(case["words"], WORDS)
            yield Case(CALLED[case["service"]], words, case["text"], *extra)


def batches(cases):
    """The cases by runs: an input of the program, or a long text, takes many of the interpreter's steps, and has a run of its own; reading in pieces has its own
    program."""
    alone = [case for case in cases if case.service == "program" or case.service == "packing" and len(case.text) > LONG]
    yield [case for case in cases if case.service == "pieces"]
    yield [case for case in cases if case.service != "pieces" and case not in alone]
    yield from ([case] for case in alone)


def write(path, text):
    with open(path, "w", encoding="latin-1", newline="\n") as file:
        file.write(text)


def in_pieces(calls):
    """The lines of some calls, and the answers."""
    reader, lines, answers = Pieces(), "\n", "0 0\n"
    for call in calls:
        lines += ".\n" if call == END else call.decode("latin-1") + "\n"
        answers += "%d %d\n" % (reader.end() if call == END else reader.take(call))
    return lines, answers


def run(room, cases):
    """Runs a program of the copy on some cases."""
    if cases and cases[0].service == "pieces":
        name, said = "in_pieces", [in_pieces(case.text) for case in cases]
    else:
        name, said = "cases_run", [(f"@{case.service}\n{line_of(case)}\n", answer_of(case) + "\n") for case in cases]
    asked = os.path.join(room, "asked")
    os.makedirs(asked, exist_ok=True)
    write(os.path.join(asked, "cases"), "".join(lines for lines, _ in said))
    write(os.path.join(asked, "cases.stdout"), "".join(answers for _, answers in said))
    folder = os.path.join(room, "crates", name)
    return subprocess.run(["rt", "try", "--cases", asked], cwd=folder, stdin=subprocess.DEVNULL, capture_output=True, check=False)


def told(room, edit, changes):
    """Does the program with the edit miss one of its cases?"""
    for path, pairs in changes:
        with open(os.path.join(ROOT, path), encoding="utf-8") as file:
            text = file.read()
        for old, new in pairs:
            assert text.count(old) == 1, (edit, old)
            text = text.replace(old, new)
        with open(os.path.join(room, path), "w", encoding="utf-8") as file:
            file.write(text)
    done = run(room, list(cases_against(edit)))
    for path, _ in changes:
        shutil.copy(os.path.join(ROOT, path), os.path.join(room, path))
    return b" output=differs " in done.stdout + done.stderr


def main(wanted):
    faults = count = 0
    with tempfile.TemporaryDirectory() as room:
        shutil.copytree(os.path.join(ROOT, "crates"), os.path.join(room, "crates"), ignore=shutil.ignore_patterns("out"))
        shutil.copy(os.path.join(ROOT, "crates.txt"), room)
        os.makedirs(os.path.join(room, "crates", "in_pieces", "src"))
        write(os.path.join(room, "crates", "in_pieces", "src", "main.rt"), IN_PIECES)
        with open(os.path.join(room, "crates.txt"), "a", encoding="utf-8") as file:
            file.write("in_pieces: wire pieces\n")
        tried = [one for one in code_edits() if one[0] not in UNSEEN and (not wanted or one[0] in wanted)]
        for cases in batches([case for edit, _ in tried for case in cases_against(edit)]):
            if run(room, cases).returncode:
                sys.exit("wrong programs: the right one fails their cases")
        for edit, changes in tried:
            count += 1
            if not told(room, edit, changes):
                faults += 1
                print(f"{edit}: the wrong program answers its cases rightly, or didn't run")
    print(f"wrong programs: {count} run, {faults} not told apart")
    return 1 if faults or not count else 0


if __name__ == "__main__":
    sys.exit(main(sys.argv[1:]))
