"""The cases of the program: inputs, at its own limits and at those of a text. It judges what fits into its buffer, and says 34 of any longer input."""
from make_judging import HEAD, card, figures
from store import Case, Made

from duds import ASKED
from program import BUFFER, ROWS, WORDS
from reading import MOST_BYTES, MOST_DEPTH, MOST_VALUES


def asked():
    """Inputs with an answer that a person wrote down, also those that are judged elsewhere with a table that is large enough."""
    for case in ASKED:
        if case["service"] == "program" or case["service"] == "judge" and case["words"] >= WORDS:
            yield case["text"]


def short():
    """Inputs of few bytes, also those that look like other lines of a stored file."""
    yield from (b"", b" ", b"\n", b"\x00", b"@", b"@program", b"!", b"!x", b"%", b"{}", b"5", b"x", b"\xff", b'"\xff"', b"[]\n", b"[[]", b'{"a":1,"a":2}')
    yield card() + b"\n"
    yield b"\xef\xbb\xbf" + card()


def lengths():
    """About the end of the buffer, and of a text: good, bad, blank, cut; whatever is longer is 34."""
    own = len(card())
    for size in (BUFFER - 1, BUFFER, BUFFER + 1, BUFFER + 2, 200000, MOST_BYTES, MOST_BYTES + 1, 1050000):
        yield Made(f"{HEAD}}} %*{size - own - 1},1;")
        yield Made(f" %*{size - 1},1;")
        yield Made(f"x%*{size - 1},1;")
    for size in (BUFFER - 1, BUFFER, BUFFER + 1):
        yield Made(f" %*{size - own - 1},1;{HEAD}}}")
        yield Made(f"{HEAD}}} %*{size - own - 2},1;x")
        yield Made(f'{HEAD},"x":"y%*{size - own - 8},1;"}}')
        yield Made(f'{HEAD},"x":"y%*{size - own - 6},1;')
        yield Made(f'{HEAD},"x":"y%*{size - own - 12},1;%5cud800')
        yield Made(f'{HEAD},"kind":5 %*{size - own - 10},1;}}')
        yield Made(f'{HEAD},"uid":"u2" %*{size - own - 12},1;}}')
        yield Made(f'{HEAD} %*{size - own},1;')
        yield Made(f'"a%*{size - 2},1;')
        yield Made(f'"a%*{size - 3},1;"')
        yield Made(f"%00%*{size - 1},1;")
        yield Made(f"[0,%*{size - 4},2;0")


def counts():
    """About the rows of the table, which are fewer than the values of a text may be; the rules of a card come after them."""
    own = 5
    for values in (ROWS - 1, ROWS, ROWS + 1, 3000, MOST_VALUES - 64):
        yield card(b'"x":[' + b"0," * (values - own - 1) + b"0]")
        yield card(b'"kind":[' + b"0," * (values - own - 1) + b"0]")
        yield card(b'"x":[' + b"0," * (values - own - 1) + b"0}")
        yield b"[" + b"0," * (values - 2) + b"0]"
    yield card(b'"kind":"group","members":{' + b",".join(b'"m%d":true' % i for i in range(ROWS - 6)) + b"}")
    yield card(b'"kind":"group","members":{' + b",".join(b'"m%d":true' % i for i in range(ROWS - 5)) + b"}")
    yield b"[" + b"0," * (MOST_VALUES - 2) + b"0]"
    yield b"[" + b"0," * (MOST_VALUES - 1) + b"0"  # fills the buffer, and its last byte begins a value too many
    yield b"[" + b"0," * (MOST_VALUES - 1) + b"x"
    yield b"[" + b"0," * (MOST_VALUES - 1) + b"0]"


def depths():
    for below in (32, MOST_DEPTH - 1, MOST_DEPTH):
        yield card(b'"x":' + b"[" * below + b"]" * below)
        yield card(b'"x":' + b'{"a":' * below + b"0" + b"}" * below)
        yield card(b'"kind":' + b"[" * below + b"]" * below)
    yield card(b'"x":[' + b"0," * ROWS + b"[" * MOST_DEPTH)


def groups():
    """The cases, by the base text that they share."""
    inputs = [*asked(), *short(), *lengths(), *counts(), *depths(), *figures()]
    yield card(), (Case("program", WORDS, text) for text in inputs)
