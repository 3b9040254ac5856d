"""Instructions of one call: the emulator runs each by itself and writes a line for it.

The count is exact and the same on every machine. It is no time: instructions differ in what they take.
"""
import os
import subprocess
import tempfile


def run_of(emulator, program, request):
    """The instructions that a program takes with one request."""
    with tempfile.TemporaryDirectory() as room:
        log = os.path.join(room, "log")
        os.mkfifo(log)
        process = subprocess.Popen([emulator, "-one-insn-per-tb", "-d", "exec,nochain", "-D", log, program], stdin=subprocess.PIPE, stdout=subprocess.DEVNULL)
        process.stdin.write(request)
        process.stdin.close()
        with open(log, "rb") as lines:
            total = sum(line.startswith(b"Trace") for line in lines)
        if process.wait():
            raise SystemExit("bench: the timer failed under the emulator")
        return total


def call_of(emulator, program, request_of):
    """The instructions of one call: what a request with two takes more than one with one."""
    once, twice = (run_of(emulator, program, request_of(calls)) for calls in (1, 2))
    return twice - once
