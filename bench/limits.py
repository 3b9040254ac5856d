"""The inputs of `bench/run --limits`, which asks what a byte costs near the limits: texts of one make, of 16 KiB and of 1 MiB, each with a table of just its
rows."""
import collections

from kinds import NAME, card
from names import mixed, with_memo

SHORT, LONG = 1 << 14, 1 << 20  # bytes

# A make: its name and a text of so many bytes or a little less.
Make = collections.namedtuple("Make", "name text")


def repeated(unit, size, head=b"", tail=b""):
    """As many units as fit, with commas between."""
    return head + b",".join([unit] * ((size - len(head) - len(tail) + 1) // (len(unit) + 1))) + tail


def numbered(form, size, order=list):
    """Members by a form with a number, which all take the same room."""
    count = size // (len(form % 0) + 1)
    return b",".join(order([form % i for i in range(count)]))


def in_card(make):
    """A card with one more member, of so many bytes in all."""
    room = len(card(NAME, b""))
    return lambda size: card(NAME, make(size - room))


def strings(unit):
    each = b'"' + unit * (1000 // len(unit)) + b'"'
    return lambda size: repeated(each, size, b'"x":[', b"]")


EMAIL = b'"e%06d":{"address":"ann.example@example.com","label":"the desk at the far end of the hall, upstairs"}'
ADDRESS = (b'"a%06d":{"full":"1 Main Street, Springfield, in the yard behind the baker, second stair, third floor, left","components":['
           b'{"kind":"locality","value":"Springfield, by the old mill at the river, where the road ends"}],"countryCode":"US"}')
UUID = b'"urn:uuid:03a0e51f-d1aa-4385-8a53-%012d":true'
OTHER = b'"member%06d":"as it is, and as it was before"'


def makes():
    yield Make("rich cards with memos", lambda size: repeated(with_memo(3900), size, b"[", b"]"))
    yield Make("a card with long strings", in_card(strings(b"The quick brown fox jumps. ")))
    yield Make("a card with other scripts", in_card(strings("Жужжат пчёлы 電話番号 été ".encode())))
    yield Make("a card with escapes", in_card(strings(b"\\u00e9\\n\\ud83d\\ude00\\\\")))
    yield Make("a card with long numbers", in_card(lambda size: repeated(b"-3.1415926535897932384626433832795e+10", size, b'"x":[', b"]")))
    yield Make("a card with deep arrays", in_card(lambda size: repeated(b"[" * 60 + b'"' + b"a" * 2000 + b'"' + b"]" * 60, size, b'"x":[', b"]")))
    yield Make("a card with email addresses", in_card(lambda size: b'"emails":{' + numbered(EMAIL, size - 20) + b"}"))
    yield Make("a card with addresses", in_card(lambda size: b'"addresses":{' + numbered(ADDRESS, size - 20) + b"}"))
    yield Make("a group, members ascending", in_card(lambda size: b'"kind":"group","members":{' + numbered(UUID, size - 40) + b"}"))
    yield Make("a group, members mixed", in_card(lambda size: b'"kind":"group","members":{' + numbered(UUID, size - 40, mixed) + b"}"))
    yield Make("other members, ascending", in_card(lambda size: numbered(OTHER, size - 10)))
    yield Make("other members, mixed", in_card(lambda size: numbered(OTHER, size - 10, mixed)))
