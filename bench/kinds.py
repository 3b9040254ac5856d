"""The kinds of input that are timed: a name, the text, the language that is asked for and the words of the lent table, which are those of whole rows."""
import os
import sys

sys.path.append(os.path.join(os.path.dirname(os.path.dirname(os.path.abspath(__file__))), "tests", "second"))
from reading import ROW_WORDS  # the words of a row, which all that is written in Python has from there

MOST_WORDS = 2048 * ROW_WORDS
LIMIT = 65536  # bytes of the long texts here: with these two, builds from before the limits were raised take them too; bench/limits.py has longer ones
OVER_BYTES, OVER_DEPTH, OVER_VALUES = 1048577, 65, 32769  # one more than a text may have

MUST = b'"@type":"Card","version":"1.0","uid":"urn:uuid:03a0e51f-d1aa-4385-8a53-e29025acd8af"'
ONE_ENTRY = b'"localizations":{"de":{"name/full":"Anna"}}'
NAME = b'"name":{"full":"Ann"}'

RICH = b",".join([
    b'"created":"2022-09-30T14:35:10Z","updated":"2024-01-02T03:04:05Z","kind":"individual","language":"en","prodId":"-//Mutual//Intake 1.0//EN"',
    b'"name":{"full":"Dr. Ann Mary Example-Smith","isOrdered":true,"defaultSeparator":" ","components":['
    + b",".join(b'{"@type":"NameComponent","kind":"%s","value":"%s"}' % part for part in (
        (b"title", b"Dr."), (b"given", b"Ann"), (b"given2", b"Mary"), (b"surname", b"Example"), (b"separator", b"-"), (b"surname2", b"Smith")))
    + b'],"sortAs":{"surname":"Example","given":"Ann"}}',
    b'"emails":{' + b",".join(
        b'"e%d":{"@type":"EmailAddress","address":"ann.%d@example.com","contexts":{"work":true},"pref":%d,"label":"desk %d"}' % (i, i, i + 1, i)
        for i in range(4)) + b"}",
    b'"phones":{' + b",".join(
        b'"p%d":{"@type":"Phone","number":"tel:+1-555-555-%04d","features":{"voice":true,"text":true},"contexts":{"private":true},"pref":%d}' % (
            i, i, i + 1) for i in range(4)) + b"}",
    b'"addresses":{' + b",".join(
        b'"a%d":{"@type":"Address","full":"%d Main Street, Springfield","countryCode":"US","coordinates":"geo:46.1,15.2","timeZone":"Etc/UTC",'
        b'"contexts":{"delivery":true},"isOrdered":false,"components":[{"kind":"number","value":"%d"},{"kind":"name","value":"Main Street"},'
        b'{"kind":"locality","value":"Springfield"},{"kind":"postcode","value":"12345"}]}' % (i, i, i) for i in range(3)) + b"}",
    b'"organizations":{"o1":{"name":"Example Mutual","units":[{"name":"Claims"},{"name":"Cheques"}]}},"notes":{"n1":{"note":"rings twice"}}',
])


def card(*members, held=ONE_ENTRY):
    return b"{" + b",".join((MUST,) + members + (held,)) + b"}"


def entries(*some):
    return b'"localizations":{"de":{' + b",".join(some) + b"}}"


def filled(unit, room=LIMIT - 400):
    """Text of one kind, in strings of about a thousand bytes, up to near the limit."""
    each = unit * (1000 // len(unit))
    return b'"x":[' + b",".join([b'"' + each + b'"'] * (room // (len(each) + 3))) + b"]"


def long_names(count, form=b"%d"):
    """Names with a long beginning in common."""
    return [b"a-name-with-a-long-beginning-" + form % i for i in range(count)]


def ordinary():
    yield "small card", card(NAME)
    yield "rich card", card(RICH)
    members = b",".join(b'"urn:uuid:%026d":true' % i for i in range(1500))  # 35 bytes each: with 36 the text is too long
    yield "group of 1,500 members", card(NAME, b'"kind":"group","members":{' + members + b"}")
    yield "long ASCII strings", card(NAME, filled(b"The quick brown fox jumps. "))
    yield "other scripts", card(NAME, filled("Жужжат пчёлы 電話番号 été ".encode()))
    yield "escapes", card(NAME, filled(b"\\u00e9\\n\\ud83d\\ude00\\\\"))
    yield "numbers", card(NAME, b'"x":[' + b",".join([b"0", b"-1", b"12.5", b"-3.25e+10", b"1234567890123"] * 400) + b"]")
    yield "deep arrays", card(NAME, b'"x":[' + b",".join([b"[" * 29 + b"]" * 29] * 68) + b"]")
    yield "deep objects", card(NAME, b'"x":[' + b",".join([b'{"a":' * 29 + b"0" + b"}" * 29] * 65) + b"]")
    yield "1,000 unknown members", card(NAME, *(b'"member%d":%d' % (i, i) for i in range(1000)))
    yield "1,000 known members", card(NAME, b'"emails":{' + b",".join(b'"e%d":{"address":"a%d@example.com"}' % (i, i) for i in range(1000)) + b"}")


def localized():
    held = b'"x":{' + b",".join(b'"n%d":%d' % (i, i) for i in range(1000)) + b"}"
    shuffled = [(i * 7919) % 1000 for i in range(1000)]
    yield "1 entry", card(RICH, held=entries(b'"name/full":"Anna"'))
    yield "10 entries", card(RICH, held=entries(*(
        b'"%s":"x"' % key for key in (b"name/full", b"emails/e0/label", b"emails/e1/label", b"phones/p0/label", b"phones/p1/label",
                                      b"addresses/a0/full", b"addresses/a1/full", b"addresses/a2/full", b"title", b"language"))))
    yield "1,000 entries, added", card(NAME, held=entries(*(b'"n%d":%d' % (i, i) for i in shuffled)))
    yield "1,000 entries, replaced", card(NAME, held, held=entries(*(b'"x/n%d":%d' % (i, i) for i in shuffled)))
    yield "1,000 entries, removed", card(NAME, held, held=entries(*(b'"x/n%d":null' % i for i in shuffled)))


def hostile():
    """Texts of a stranger who wants to keep the intake busy."""
    names = long_names(1500)
    yield "text over the limit", b"[" * OVER_BYTES
    yield "only spaces", b" " * LIMIT
    yield "string without an end", b'["' + b"a" * (LIMIT - 2)
    yield "bad UTF-8 at the end", b'["' + b"a" * (LIMIT - 4) + b"\xc3\xff"
    yield "one long number", b"1" * LIMIT
    yield "too deep at the end", b"[" + b"0," * 2000 + b"[" * OVER_DEPTH
    yield "a value too many", b"[" + b"0," * (OVER_VALUES - 1) + b"0]"
    yield "a name twice, at the end", b"{" + b",".join(b'"%s":0' % name for name in names + names[-1:]) + b"}"
    spelled = [b"".join(b"\\u%04x" % c for c in b"same") + b"\\u%04x\\u%04x" % (0x100 + i // 32, 0x100 + i % 32) for i in range(1400)]
    yield "names of escapes", b"{" + b",".join(b'"%s":0' % name for name in spelled) + b"}"
    yield "card refused at its end", card(RICH, filled(b"a", 50000), held=b'"localizations":{"de":5}')
    clashing = [b'"x/%s":1' % name for name in long_names(1400)]
    yield "a clash at the end", card(NAME, b'"x":{}', held=entries(*clashing, clashing[-1].replace(b'":', b'/y":')))
    parts = b"a/" * 26
    deep = b'"x":' + b'{"a":' * 27 + b"{}" + b"}" * 27
    yield "long pointers", card(NAME, deep, held=entries(*(b'"x/%s%04d":1' % (parts, i) for i in range(900))))
    tildes = [b'"%s%d":1' % (b"~1~0" * 9, i) for i in range(1300)]
    yield "pointers of tildes", card(NAME, held=entries(*tildes))


def kinds():
    for name, text in ordinary():
        yield name, text, b"de", MOST_WORDS
    yield "small card, 64 rows", card(NAME), b"de", 64 * ROW_WORDS
    yield "the text 1, 1 row", b"1", b"de", ROW_WORDS
    for group in (localized, hostile):
        for name, text in group():
            yield name, text, b"de", MOST_WORDS
