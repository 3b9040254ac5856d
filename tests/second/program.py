"""The program a second time: what it says of an input, from the request for larger cards and the rules paper."""
from judging import judge
from reading import ROW_WORDS

BUFFER, ROWS = 65536, 2048  # which the program keeps, whatever the limits of a text are
WORDS = ROWS * ROW_WORDS


def said(given, words=WORDS):
    """34 first of all, where the input is over the buffer; else what judging answers with the rows of a table of so many words."""
    return (34, 0, [0] * words) if len(given) > BUFFER else judge(given, words)


def line(given):
    """The two numbers of the line that it prints."""
    return said(given)[:2]
