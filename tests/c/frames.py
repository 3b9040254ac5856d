"""What the archive's machine code can take of the stack at most: the frames along its deepest calls. Also that it has no state and what it links to.

    python3 tests/c/frames.py crates/bezinkol/out/libbezinkol.a include/bezinkol.h

Needs objdump (`OBJDUMP` names another one). A function's frame is every push and every step of the stack pointer before its first call's arguments, so
it is rather too large; what this can't follow (a call through a pointer, a frame of no fixed size, a recursion not named below) ends it with an error.
"""
import os
import re
import subprocess
import sys

# How often a function that calls itself, also through others, can be open at once. Depth 64 is 64 containers and a value in the last; all but sorting
# go from a value to one inside it, also the walk of a pointer, however many parts its key has. Sorting, which is compiled for each order, halves at most 32,768
# rows or places down to one.
OPEN = {"json_reader::values::read_value": 65, "json_reader::values::read_container": 64, "card::walk::breach_at": 65,
    "patch::writing::copy_value": 65, "patch::writing::put_value": 65, "laws::sort::sort_run": 16,
    "vault::pack::put_value": 65, "vault::values::put_value": 65}
# These only a text of more than BEZINKOL_SHORT_BYTES bytes reaches, which has more than 1,024 names or more than 640 entries, or a packing of more
# than 6,144 bytes: they are left out of the figure for short texts. Behind a generic function stands the size of its arrays.
LONG = {"json_reader::read::read_long", "json_reader::sort::sort_many", "patch::compose::compose_in::<=4096>", "patch::compose::compose_in::<=32768>",
    "fields::walk::survey_in::<=10923>"}
OBJDUMP = os.environ.get("OBJDUMP", "objdump")
PROBES = {0x1000, 0xC00}  # a large frame is taken by steps of one of these; where that is a loop, its size is in r11


def functions(archive):
    """The instructions of each function, and the relocation after a call."""
    found, name = {}, None
    dump = subprocess.run([OBJDUMP, "-dr", "--no-show-raw-insn", archive], check=True, capture_output=True, text=True).stdout
    for line in dump.splitlines():
        head = re.fullmatch(r"[0-9a-f]+ <(.*)>:", line)
        if head:
            name = head[1]
            found[name] = []
        elif name and "\t" in line:
            found[name].append(line.split("\t", 1)[1].strip())
    return found


def of_any_type(name):
    """The name of a function that is compiled for each type or number, without these."""
    return name.split("::<", 1)[0]


def frame_of(name, code):
    """The size of a function's frame, the bytes below it that are used without a step, and each call with what is pushed for it."""
    frame = pushed = below = looped = 0
    taken, calls = False, []
    for line in code:
        step = re.match(r"(sub|add) +\$0x([0-9a-f]+),%(rsp|r11)$", line)
        size = int(step[2], 16) if step else 8
        if step and step[3] == "r11":
            looped = size
        elif line.startswith("push") or step and step[1] == "sub":
            if taken:
                pushed += size
            else:
                frame += looped if step and size in PROBES and looped else size
                taken = bool(step) and size not in PROBES
                looped = 0 if step else looped
        elif step:
            pushed -= size if size <= pushed else 0
        elif re.match(r"call +0 <", line):
            calls.append((name, pushed))
        elif "R_X86_64_PLT32" in line:
            calls.append((re.search(r"\t(?:\.text\.)?(\S+)-0x4", line)[1], pushed))
        elif re.match(r"call +\*|(?!cmp|test).*,%rsp$", line):
            raise SystemExit(f"tests/c: {name}: {line}: can't follow the stack")
        for low in re.findall(r"-0x([0-9a-f]+)\(%rsp", line):
            below = max(below, int(low, 16))
    return frame, below, calls


def without(some, frames):
    """The same functions, where nothing calls some of them."""
    return {name: (frame, below, [call for call in calls if call[0] not in some]) for name, (frame, below, calls) in frames.items() if name not in some}


def reached(name, frames):
    """All functions that a call of this one can call."""
    found, left = set(), [name]
    while left:
        for to, _ in frames[left.pop()][2]:
            if to not in found:
                found.add(to)
                left.append(to)
    return found


def deepest(name, frames, known):
    """The bytes below a call's return address. Functions that call each other in a circle are all open as often as they can be."""
    if name not in known:
        circle = {to for to in reached(name, frames) if name in reached(to, frames)}
        rounds = out = 0
        for one in circle or {name}:
            frame, below, calls = frames[one]
            rounds += OPEN[of_any_type(one)] * (frame + 8 + max(pushed for to, pushed in calls if to in circle)) if circle else frame
            out = max([out, below] + [8 + pushed + deepest(to, frames, known) for to, pushed in calls if to not in circle])
        known[name] = rounds + out
    return known[name]


def main(archive, header):
    symbols = subprocess.run([OBJDUMP, "-t", archive], check=True, capture_output=True, text=True).stdout
    outside = re.findall(r"\*UND\*\s+\S+\s+(\S+)", symbols)
    sections = subprocess.run([OBJDUMP, "-h", archive], check=True, capture_output=True, text=True).stdout
    state = re.findall(r"\s(\.t?(?:data|bss)\S*)\s", sections)
    if not set(outside) <= {"memcpy", "memset"} or state:
        raise SystemExit(f"tests/c: the archive asks for {outside} and has the writable sections {state}")
    with open(header, encoding="utf-8") as file:
        text = file.read()
    frames = {name: frame_of(name, code) for name, code in functions(archive).items()}
    frames["memset"] = frames["memcpy"] = (0, 0, [])
    if LONG - set(frames):
        raise SystemExit(f"tests/c: the archive has no {sorted(LONG - set(frames))}")
    for constant, which, some in (("STACK", "any text", frames), ("STACK_4K", "a short text", without(LONG, frames))):
        known = {}
        for service in ("read", "judge", "localize", "pack", "unpack"):
            said = int(re.search(rf"BEZINKOL_{service.upper()}_{constant} (\d+)", text)[1])
            most = 8 + deepest("bezinkol_" + service, some, known)
            print(f"tests/c: bezinkol_{service} can take {most} bytes of stack for {which} by its frames; the header says {said}")
            if said < most:
                raise SystemExit("tests/c: that is more than the header says")
    said = int(re.search(r"BEZINKOL_PIECES_STACK (\d+)", text)[1])
    most = max(8 + deepest("bezinkol_pieces_" + call, frames, {}) for call in ("start", "take", "end"))
    print(f"tests/c: reading in pieces can take {most} bytes of stack by its frames; the header says {said}")
    if said < most:
        raise SystemExit("tests/c: that is more than the header says")


main(*sys.argv[1:])
