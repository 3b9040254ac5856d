"""The card intake a second time: reading, judging and localizing, written from the rules paper, the rulings and RFC 9553, and not from the
crates. It is slow and plain on purpose. The stored answers of the test programs come from here.

    read(text, words)                      -> (number, second, table)
    judge(text, words)                     -> (number, second, table)
    localize(text, language, words, room)  -> (number, second, written, table, output)

`words` is the length of the lent table in words, `room` that of the lent output in bytes. On acceptance number is 0 and second the row count.
"""
from judging import judge
from localizing import localize
from reading import read

__all__ = ["read", "judge", "localize"]
