"""Stored cases: their notation, their form on a line, what the second implementation answers, and the two files of crates/cases_run. All that is
written in Python reads and writes them here; crates/cases_run/src and tests/c/cases.h do the same in their languages."""
import collections
import functools
import os
import platform
import re
import shutil
import sys

ROOT = os.path.dirname(os.path.dirname(os.path.abspath(__file__)))
sys.path.insert(0, os.path.join(ROOT, "tests", "second"))
import packing
import pieces
from judging import judge
from localizing import told
from program import WORDS, said
from reading import MOST_WORDS, Refused, read, tree

FAR = 24  # a run, or a part of the base text, at least so long is written shorter
LONG = 300  # of a text that is so long, or whose base text is, any part may be a copy
SHOWN = 400  # a shorter localized card is in the answer itself
SERVICES = ("reading", "judging", "localizing", "program", "feeding", "packing", "unpacking")
SHORT = 4096  # a text with fewer bytes has at most 2,048 values: so many rows are WORDS

# A call: the service, the words of the lent table and the text; localizing has the bytes of the lent output and the language too. The program has a table
# of WORDS words, and is given nothing but an input. Feeding is reading in pieces: it has no table, and lengths of pieces. Packing has an output too; unpacking
# has no table, and its text is a packing.
Case = collections.namedtuple("Case", "service words text room language sizes", defaults=(0, b"", ()))

# A case as it is stored: its number from 1 on, the call, the line with what is wanted, and the lines of the base text (or "") and of the case.
Stored = collections.namedtuple("Stored", "number case wanted base line")


def plain(text):
    """Bytes that stand for themselves, the others as %hh."""
    return "".join(chr(b) if 32 <= b < 127 and b != 37 else "%%%02x" % b for b in text)


def alike(one, at, other, start):
    """How many bytes are the same from two places on; in one text the second is the earlier, and what is copied may run into the copy."""
    size = 0
    while at + size < len(one) and start + size < len(other) and one[at + size] == other[start + size]:
        size += 1
    return size


@functools.lru_cache(maxsize=4)
def parts(text):
    """The parts of FAR bytes that a text has, and where the first of each stands."""
    found = {}
    for at in range(len(text) - FAR + 1):
        found.setdefault(text[at:at + FAR], at)
    return found


def copied(text, at, base, seen):
    """What stands at a place as a copy of an earlier part, or of a part of the base text: its size and its notation."""
    back, there = at - seen.get(text[at:at + FAR], at), parts(base).get(text[at:at + FAR])
    size = alike(text, at, text, at - back) if back else 0
    more = alike(text, at, base, there) if there is not None else 0
    if more > size:
        return more, "%%=%d,%d;" % (there, there + more)
    return size, "%%*%d,%d;" % (size, back)


def runs(text, base=b""):
    """A text with its long runs (`0,0,0,0,..`) as repeats of what stands before, and where texts are long, with copies of any part."""
    said, start, at, seen, old = [], 0, 0, {}, 0
    while at < len(text):
        for back in (1, 2, 5, 6, 8):
            size = alike(text, at, text, at - back) if back <= at else 0
            if size >= FAR:
                copy = "%%*%d,%d;" % (size, back)
                break
        else:
            size = 0
            if max(len(text), len(base)) >= LONG:
                while old < at:
                    seen[text[old:old + FAR]] = old
                    old += 1
                size, copy = copied(text, at, base, seen)
        if size >= FAR:
            said += [plain(text[start:at]), copy]
            at += size
            start = at
        else:
            at += 1
    return "".join(said) + plain(text[start:])


class Made(bytes):
    """A text that is made by a recipe, a line in the notation: it may be long, and what repeats in it need not be looked for."""

    def __new__(cls, recipe, base=b""):
        made = super().__new__(cls, unpacked(recipe, base))
        made.recipe = recipe
        return made


def noted(text, base=b""):
    """The notation of a text; what it shares with the base text at its two ends is copied from there."""
    if isinstance(text, Made):
        return text.recipe
    head = len(os.path.commonprefix([text, base]))
    tail = len(os.path.commonprefix([text[head:][::-1], base[head:][::-1]]))
    head, tail = (n if n >= FAR else 0 for n in (head, tail))
    first = "%%=0,%d;" % head if head else ""
    last = "%%=%d,%d;" % (len(base) - tail, len(base)) if tail else ""
    line = first + runs(text[head:len(text) - tail], base) + last
    assert unpacked(line, base) == text
    return line


def raised(piece, step):
    """A piece with a number added to its digits, which are taken as one number; what doesn't fit is dropped."""
    digits = bytes(byte for byte in piece if byte in b"0123456789")
    after = iter(b"%0*d" % (len(digits), (int(digits) + step) % 10 ** len(digits)))
    return bytes(next(after) if byte in b"0123456789" else byte for byte in piece)


def unpacked(line, base=b""):
    """What the notation stands for: the same rules as crates/cases_run, to see that a line says what was meant."""
    text = bytearray()
    for byte, kind, numbers, own in re.findall(r"%([0-9a-f]{2})|%([*#=])([\d,]+);|([^%]+)", line):
        if byte:
            text.append(int(byte, 16))
        elif own:
            text += own.encode()
        elif kind == "*":
            more, back = map(int, numbers.split(","))
            text += (text[len(text) - back:] * (more // back + 1))[:more]
        elif kind == "#":
            more, size, step = map(int, numbers.split(","))
            for _ in range(more):
                text += raised(text[len(text) - size:], step)
        else:
            start, end = map(int, numbers.split(","))
            text += base[start:end]
    return bytes(text)


def rows_of(text):
    """The rows that a text needs, or None where reading refuses it."""
    try:
        return tree(text, MOST_WORDS).below + 1
    except Refused:
        return None


def sum_of(numbers):
    """The sum of a table or a buffer, as in crates/cases_run."""
    total = 0
    for n in numbers:
        total = (total * 65599 + n) % 4294967291
    return total


def lent(words, text):
    """The words of a table that is to be large enough: not all that a text may need, where this one is short."""
    return min(words, WORDS) if len(text) < SHORT else words


def line_of(case, base=b""):
    """The line of a case."""
    text = noted(case.text, base)
    if case.service == "program":  # a line of its own: it isn't empty, and doesn't begin as other lines do
        return "%%%02x" % ord(text[0]) + text[1:] if text[:1] in ("!", "@") else text or "%*0,1;"
    if case.service == "localizing":
        return f"{case.words} {case.room} {noted(case.language).replace(' ', '%20')} {text}"
    if case.service == "feeding":
        return f"{','.join(map(str, case.sizes))} {text}"
    if case.service == "packing":
        return f"{case.words} {case.room} {text}"
    if case.service == "unpacking":
        return f"{case.room} {text}"
    return f"{case.words} {text}"


def case_of(service, line, base=b""):
    """The case of a line."""
    if service == "localizing":
        words, room, language, text = line.split(" ", 3)
        return Case(service, int(words), unpacked(text, base), int(room), unpacked(language))
    if service == "packing":
        words, room, text = line.split(" ", 2)
        return Case(service, int(words), unpacked(text, base), int(room))
    if service == "program":
        return Case(service, WORDS, unpacked(line, base))
    words, text = line.split(" ", 1)
    if service == "feeding":
        return Case(service, 0, unpacked(text, base), sizes=tuple(map(int, words.split(","))))
    if service == "unpacking":
        return Case(service, 0, unpacked(text, base), int(words))
    return Case(service, int(words), unpacked(text, base))


def told_of(case):
    """What the second implementation answers: (number, second, written, the place inside 28, table, output)."""
    if case.service == "localizing":
        return told(case.text, case.language, case.words, case.room)
    if case.service == "feeding":
        return *pieces.told(case.text)[:2], 0, 0, [], b""
    if case.service == "packing":
        number, second, written, table, output = packing.pack(case.text, case.words, case.room)
        return number, second, written, 0, table, output
    if case.service == "unpacking":
        number, second, written, output = packing.unpack(case.text, case.room)
        return number, second, written, 0, [], output
    number, second, table = {"reading": read, "judging": judge, "program": said}[case.service](case.text, case.words)
    return number, second, 0, 0, table, b""


def fed(case):
    """The line of reading in pieces: the answer, how many bytes have come with the piece that brings it, first of the whole as one piece, and that it stays."""
    number, second, after = pieces.told(case.text)
    came = [min(-(-after // size) * size, len(case.text)) for size in (len(case.text) or 1, *case.sizes)]
    return " ".join(map(str, (number, second, *came, 1)))


def answer_of(case):
    """The same as the line that is stored."""
    if case.service == "feeding":
        return fed(case)
    number, second, written, inner, table, output = told_of(case)
    if case.service == "packing":
        return f"{number} {second} {written} {sum_of(table)} {sum_of(output)}"
    if case.service == "unpacking":
        return f"{number} {second} {written} {sum_of(output)}"
    if case.service != "localizing":
        return f"{number} {second} {sum_of(table)}"
    shown = " " + output[:written].decode("latin-1") if 0 < written < SHOWN else ""
    return f"{number} {second} {written} {inner} {sum_of(table)} {sum_of(output)}{shown}"


def lines_of(groups):
    """The lines of groups of cases, each with a base text, and an answer for each case."""
    lines, answers = [], []
    for base, cases in groups:
        if base:
            lines.append("!" + noted(base))
        for case in dict.fromkeys(cases):
            lines.append(line_of(case, base))
            answers.append(answer_of(case))
    return lines, answers


def run_words(program):
    """The words that run a program of the kit: by its emulator where the machine isn't x86-64."""
    machine = platform.machine()
    if machine == "x86_64":
        return [program]
    kit = os.environ.get("RATTLE_HOME") or os.path.dirname(os.path.dirname(os.path.realpath(shutil.which("rt") or "")))
    tools = os.path.join(kit, "on", machine, "toolchain")
    library = os.path.join(tools, "lib")
    return [os.path.join(tools, "bin", "qemu-x86_64"), os.path.join(library, "ld-linux-x86-64.so.2"), "--library-path", library, program]


def kept(name):
    """The lines of one of the two stored files."""
    with open(os.path.join(ROOT, "crates", "cases_run", name), encoding="latin-1", newline="\n") as file:
        return file.read().split("\n")[:-1]


def sections():
    """The stored lines: the service and the line, base texts among them."""
    service = None
    for line in kept("stdin"):
        if line.startswith("@"):
            service = line[1:]
        else:
            yield service, line


def stored():
    """All stored cases."""
    base, base_line, number, answers = b"", "", 0, kept("stdout")
    for service, line in sections():
        if line.startswith("!"):
            base, base_line = unpacked(line[1:]), line
        else:
            number += 1
            yield Stored(number, case_of(service, line, base), answers[number - 1], base_line, line)


def lines_for(wanted):
    """The lines of one service, base texts among them, and the answers."""
    lines, answers, all_answers = [], [], iter(kept("stdout"))
    for service, line in sections():
        answer = None if line.startswith("!") else next(all_answers)
        if service == wanted:
            lines.append(line)
            answers += [answer] if answer else []
    return lines, answers


def answer_in_c(answer):
    """The stored answer of localizing as the C function gives it, which has no room for the place inside 28."""
    return re.sub(r"^(\d+ \d+ \d+) \d+ ", r"\1 ", answer)
