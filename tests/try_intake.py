"""Runs the program ./intake on the figures, on the judging inputs of the rulings and on inputs at its own limits, and compares what it prints and the
status that it tells the shell; then the script around it: its use, a failed read, and what it is built again for.

    python3 tests/try_intake.py
"""
import contextlib
import glob
import os
import shutil
import subprocess
import sys
import tempfile

from store import ROOT

from duds import ASKED
from program import BUFFER, ROWS, line
from rulings import whole

GOOD = whole(b"{..}")
USE = b"./intake < card.json"
SHEET = b"docs/REFUSALS.md"


def padded(text, size, end=b""):
    """A text with spaces behind it, and an end, so many bytes in all."""
    return text + b" " * (size - len(text) - len(end)) + end


def valued(count):
    """A card of so many values: its own four, an array and what is in that."""
    return whole(b'{..,"x":[' + b",".join([b"0"] * (count - 5)) + b"]}")


def nested(depth):
    """A card so deep."""
    return whole(b'{..,"x":' + b"[" * (depth - 1) + b"]" * (depth - 1) + b"}")


def listed(count):
    """The beginning of an array of so many values, itself among them: it ends with the first byte of the last one."""
    return b"[" + b"0," * (count - 2) + b"0"


def limits():
    """Inputs about the buffer, the rows and the limits of a text, with the line that is wanted."""
    for size in (BUFFER, BUFFER + 1):
        judged = size == BUFFER
        yield padded(GOOD, size), (0, 4) if judged else (34, 0)
        yield b" " * size, (2, size) if judged else (34, 0)
        yield padded(b"x", size), (2, 0) if judged else (34, 0)  # a fault at once
        yield padded(GOOD, size, b"x"), (2, size - 1) if judged else (34, 0)  # a fault at the end: of the longer one what fits would pass
        yield padded(b"[]", size), (11, 0) if judged else (34, 0)
        yield padded(valued(ROWS), size), (0, ROWS) if judged else (34, 0)
        yield padded(valued(ROWS + 1), size), (7, ROWS + 1) if judged else (34, 0)
        yield padded(nested(65), size), (5, 110) if judged else (34, 0)
    yield padded(GOOD, 70000, b"x"), (34, 0)
    yield padded(GOOD, 200000), (34, 0)
    yield b"x" * 200000, (34, 0)
    yield valued(ROWS), (0, ROWS)
    yield valued(ROWS + 1), (7, ROWS + 1)
    yield listed(ROWS) + b"]", (11, 0)
    yield listed(ROWS + 1) + b"]", (7, ROWS + 1)
    yield nested(64), (0, 67)
    yield nested(65), (5, 110)
    # 32,768 values have 65,535 bytes, so 6 is said only of a text that ends early
    yield listed(32768) + b"]", (7, 32768)
    yield listed(32769), (6, BUFFER - 1)
    yield listed(32769)[:-1], (2, BUFFER - 1)
    yield b"[" * 64 + b"0," * 32704 + b"0" + b"]" * 63, (6, BUFFER - 64)
    yield b"", (2, 0)
    yield b"\x00", (2, 0)


def inputs():
    """All inputs, with the line that a person wrote down, or None."""
    for path in sorted(glob.glob(os.path.join(ROOT, "tests", "cards", "figure-*.json"))):
        with open(path, "rb") as figure:
            yield figure.read(), None
    for text in dict.fromkeys(case["text"] for case in ASKED if case["service"] in ("judge", "program")):
        yield text, None
    yield from limits()


def start(*words, room=ROOT, **more):
    """Runs the script."""
    return subprocess.run([os.path.join(room, "intake"), *words], capture_output=True, check=False, **more)


def printed():
    """What is wrong with the lines that are printed; the first thing said is how many there were."""
    cases = list(inputs())
    yield len(cases)
    for text, wanted in cases:
        number, second = line(text)
        if wanted not in (None, (number, second)):
            yield f"{text[:80]!r} and so on, {len(text)} bytes: {wanted} is wanted, the second implementation says {number} {second}"
        run = start(input=text)
        if run.stdout != b"%d %d\n" % (number, second) or run.stderr or run.returncode != (1 if number else 0):
            yield f"{text[:80]!r} and so on, {len(text)} bytes: printed {run.stdout!r} with status {run.returncode}, wanted {number} {second}"


def told(run, status, lines=0, words=()):
    """Is this the status, with so many lines on standard error (None: any) and words, or nothing, on standard output?"""
    said = all(word in run.stdout for word in words) if words else not run.stdout
    return said and run.returncode == status and lines in (None, run.stderr.count(b"\n"))


@contextlib.contextmanager
def kept_aside(path):
    """A file that may be changed, and is put back."""
    with open(path, "rb") as file:
        held, stat = file.read(), os.stat(path)
    try:
        yield path
    finally:
        with open(path, "wb") as file:
            file.write(held)
        os.utime(path, ns=(stat.st_atime_ns, stat.st_mtime_ns))


def grown(path, more):
    with open(path, "ab") as file:
        file.write(more)


def kit_at(path, version, check):
    """A kit that says which one it is, and does this where it should prove and build."""
    with open(path, "w", encoding="utf-8") as file:
        file.write(f'#!/bin/sh\n[ "$1" = version ] && echo "{version}" && exit\n{check}\n')
    os.chmod(path, 0o755)


class Copy:
    """The script and the crates in a folder of their own, with a kit that can't build: what would be built again has no verdict."""

    def __init__(self, room):
        self.room, self.crates, self.kit = room, os.path.join(room, "crates"), os.path.join(room, "kit", "rt")
        shutil.copytree(os.path.join(ROOT, "crates"), self.crates, ignore=shutil.ignore_patterns("out"))
        for name in ("intake", "crates.txt"):
            shutil.copy(os.path.join(ROOT, name), room)
        os.mkdir(os.path.dirname(self.kit))
        kit_at(self.kit, subprocess.run(["rt", "version"], capture_output=True, check=True, text=True).stdout.strip(), "echo no; exit 1")
        home = os.environ.get("RATTLE_HOME") or os.path.dirname(os.path.dirname(os.path.realpath(shutil.which("rt"))))
        self.env = dict(os.environ, PATH=os.path.dirname(self.kit) + os.pathsep + os.environ["PATH"], RATTLE_HOME=home)

    def run(self, *words):
        return start(*words, room=self.room, input=GOOD, env=self.env)

    def by_shell(self, command):
        """A command in the copy's folder, with a good card in `card`."""
        with open(os.path.join(self.room, "card"), "wb") as card:
            card.write(GOOD)
        return subprocess.run(["bash", "-c", command], cwd=self.room, env=self.env, capture_output=True, timeout=60, check=False)

    def same(self):
        return told(self.run(), 0, 0, [b"0 4\n"])

    def again(self):
        return told(self.run(), 2, 2)

    def changed(self, path, after):
        """A file grown by a line feed: what the script then does."""
        with kept_aside(os.path.join(self.crates, path)) as there:
            grown(there, b"\n")
            return after()


def uses(copy):
    """How the script may be called, before and after the program is built."""
    yield "-h before anything is built", told(copy.run("-h"), 0, 0, [USE, SHEET, b"0 ", b"1 ", b"2 "])
    yield "--help", told(copy.run("--help"), 0, 0, [USE, SHEET])
    yield "-h that can't be written", copy.by_shell("./intake -h > /dev/full").returncode == 2
    yield "an argument", told(copy.run("card.json"), 2, 1)
    yield "-h and an argument", told(copy.run("-h", "card.json"), 2, 1)
    yield "nothing built, and it can't be", copy.again()
    shutil.copytree(os.path.join(ROOT, "target", "bin"), os.path.join(copy.room, "target", "bin"))
    yield "built", copy.same()
    yield "standard input closed", told(copy.by_shell("./intake <&-"), 2, 1)
    yield "a line that can't be written", copy.by_shell("./intake < card > /dev/full").returncode == 2
    yield "by a link, from another folder", told(copy.by_shell("mkdir x; ln -s ../intake x/link; cd x; CDPATH=/ ./link < ../card"), 0, 0, [b"0 4\n"])


def builds(copy):
    """What the program is built again for."""
    os.utime(os.path.join(copy.crates, "json_reader", "src", "limits.rt"))
    yield "a source touched", copy.same()
    for path in ("json_reader/src/limits.rt", "contact/specs/Verdict.antt", "text/proofs/Laws.antt", "desk/src/limits.rt", "intake/src/main.rt"):
        yield f"{path} changed", copy.changed(path, copy.again)
        yield f"{path} put back", copy.same()
    for path in ("desk/must-fail/long_text_cut.edit", "cases_run/src/main.rt", "bezinkol/src/lib.rt", "intake/stdin"):
        yield f"{path} changed", copy.changed(path, copy.same)
    with kept_aside(os.path.join(copy.room, "crates.txt")) as there:
        grown(there, b"# a comment\nanother: laws\n")
        yield "a crate that the program doesn't stand on", copy.same()
        grown(there, b"json_reader : laws text code_points repeats io\n")
        yield "a crate that it stands on, on others", copy.again()
    with kept_aside(os.path.join(copy.room, "target", "bin", "intake")) as there:
        grown(there, b"\n")
        yield "another program", copy.again()
    yield "the same once more", copy.same()
    kit_at(copy.kit, "another", "echo no; exit 1")
    yield "another kit", copy.again()
    kit_at(copy.kit, "another", "mkdir -p out && printf '#!/bin/sh\\nkill -9 $$\\n' > out/intake && chmod +x out/intake")
    yield "a program that is ended", told(copy.run(), 2, None)


def around():
    """The script around the program: each test, and whether it went well."""
    with tempfile.TemporaryDirectory() as room:
        copy = Copy(room)
        yield from uses(copy)
        yield from builds(copy)


def main():
    start(input=GOOD)  # builds the program, if need be
    count, *faults = printed()
    folder = os.open(ROOT, os.O_RDONLY)  # which can't be read as a file
    tests = [("a failed read", told(start(stdin=folder), 2, 1)), *around()]
    faults += [f"{name}: not as it should be" for name, well in tests if not well]
    for fault in faults:
        print(fault)
    print(f"intake: {count} inputs and {len(tests)} tests of the script, {len(faults)} faults")
    return 1 if faults else 0


if __name__ == "__main__":
    sys.exit(main())
