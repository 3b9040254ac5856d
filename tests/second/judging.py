"""Judging a second time: a text is read and held to what a Card must keep; refusals 11 to 14."""
import re

from reading import ARRAY, FALSE, NUMBER, OBJECT, STRING, TRUE, Refused, table_of, tree


def is_id(name):
    return bool(re.fullmatch(rb"[A-Za-z0-9_-]{1,255}", name))


def is_day(year, month, day):
    leap = year % 4 == 0 and (year % 100 != 0 or year % 400 == 0)
    return 1 <= month <= 12 and 1 <= day <= [31, 29 if leap else 28, 31, 30, 31, 30, 31, 31, 30, 31, 30, 31][month - 1]


def is_time(said):
    found = re.fullmatch(rb"([0-9]{4})-([0-9]{2})-([0-9]{2})T([0-9]{2}):([0-9]{2}):([0-9]{2})(\.[0-9]*[1-9])?Z", said)
    if not found:
        return False
    year, month, day, hour, minute, second = (int(found[i]) for i in range(1, 7))
    return is_day(year, month, day) and hour <= 23 and minute <= 59 and second <= 59


class Rule:
    """What a type asks of a value: the kinds it may have, and the numbers (13) or inner values (entered) that it looks at."""

    def __init__(self, *kinds):
        self.kinds = kinds

    def allowed(self, text, value):
        return True

    def entered(self, value):
        return []


class Spelled(Rule):
    """A string that passes a test."""

    def __init__(self, test):
        super().__init__(STRING)
        self.test = test

    def allowed(self, text, value):
        return self.test(value.string)


class Pref(Rule):
    def allowed(self, text, value):
        digits = text[value.start:value.end]
        return bool(re.fullmatch(rb"[0-9]{1,3}", digits)) and 1 <= int(digits) <= 100


class OnlyTrue(Rule):
    def allowed(self, text, value):
        return value.kind == TRUE


class Each(Rule):
    """An array or object, each of whose values keeps one rule; a key that isn't an Id is 13 at its value."""

    def __init__(self, kind, of, ids=False):
        super().__init__(kind)
        self.of, self.ids = of, ids

    def entered(self, value):
        return [(child, self.of, self.ids and not is_id(child.name)) for child in value.inside]


class Type(Rule):
    """An object type by name, with its properties; `!` after a name: mandatory. `between` tells whether the rules between members hold."""

    def __init__(self, name, properties, between=lambda value: True):
        super().__init__(OBJECT)
        self.must = [p[:-1].encode() for p in properties if p.endswith("!")]
        self.known = {p.rstrip("!").encode(): rule for p, rule in properties.items()}
        self.known[b"@type"] = Spelled(lambda said: said == name)
        self.between = between

    def entered(self, value):
        return [(child, self.known[child.name], False) for child in value.inside if child.name in self.known]


def there(value, name, *kinds):
    """The member of that name, where it has one of those kinds."""
    found = value.member(name)
    return found if found and found.kind in kinds else None


def separator(entry):
    kind = there(entry, b"kind", STRING) if entry.kind == OBJECT else None
    return bool(kind) and kind.string == b"separator"


def separators_kept(value):
    """The rules on separators that a Name and an Address share."""
    components = there(value, b"components", ARRAY)
    ordered = there(value, b"isOrdered", TRUE)
    marks = [separator(entry) for entry in components.inside] if components else []
    in_a_row = any(a and b for a, b in zip(marks, marks[1:]))
    if in_a_row or (any(marks) and not ordered):
        return False
    return not there(value, b"defaultSeparator", STRING) or bool(ordered and components)


def name_kept(value):
    components = there(value, b"components", ARRAY)
    if not components and not there(value, b"full", STRING):
        return False
    if components and all(separator(entry) for entry in components.inside):
        return False
    return separators_kept(value)


def card_kept(value):
    kind = there(value, b"kind", STRING)
    return not there(value, b"members", OBJECT) or (bool(kind) and kind.string == b"group")


TEXT, FLAG, UTC = Rule(STRING), Rule(FALSE, TRUE), Spelled(is_time)
PREF, SET = Pref(NUMBER), Each(OBJECT, OnlyTrue(FALSE, TRUE))
PART = {"value!": TEXT, "kind!": TEXT, "phonetic": TEXT}
SPOKEN = {"isOrdered": FLAG, "defaultSeparator": TEXT, "full": TEXT, "phoneticScript": TEXT, "phoneticSystem": TEXT}
REACH = {"contexts": SET, "pref": PREF, "label": TEXT}

NAME = Type(b"Name", {**SPOKEN, "components": Each(ARRAY, Type(b"NameComponent", PART)), "sortAs": Each(OBJECT, TEXT)}, name_kept)
ADDRESS = Type(b"Address", {
    **SPOKEN, "components": Each(ARRAY, Type(b"AddressComponent", PART)), "countryCode": TEXT, "coordinates": TEXT, "timeZone": TEXT,
    "contexts": SET, "pref": PREF}, separators_kept)
EMAIL = Type(b"EmailAddress", {"address!": TEXT, **REACH})
PHONE = Type(b"Phone", {"number!": TEXT, "features": SET, **REACH})
CARD = Type(b"Card", {
    "@type!": TEXT, "version!": Spelled(lambda said: said == b"1.0"), "uid!": TEXT, "created": UTC, "updated": UTC, "kind": TEXT,
    "language": TEXT, "prodId": TEXT, "members": SET, "name": NAME, "emails": Each(OBJECT, EMAIL, ids=True),
    "phones": Each(OBJECT, PHONE, ids=True), "addresses": Each(OBJECT, ADDRESS, ids=True), "localizations": Each(OBJECT, Rule(OBJECT))},
    card_kept)


def breaches(text, value, rule, bad_key=False):
    """All (row, number) that a value and what is entered below it break."""
    if value.kind not in rule.kinds:
        return [(value.row, 11)]
    found = []
    if isinstance(rule, Type):
        if any(not value.member(name) for name in rule.must):
            found.append((value.row, 12))
        if not rule.between(value):
            found.append((value.row, 14))
    if bad_key or not rule.allowed(text, value):
        found.append((value.row, 13))
    for child, of, bad in rule.entered(value):
        found += breaches(text, child, of, bad)
    return found


def card_tree(text, words):
    """The root of a card that passes; raises 1 to 14."""
    root = tree(text, words)
    found = breaches(text, root, CARD)
    if found:
        row, number = min(found)
        raise Refused(number, list(root.all())[row].start)
    return root


def judge(text, words):
    try:
        root = card_tree(text, words)
    except Refused as no:
        return no.number, no.second, [0] * words
    return 0, root.below + 1, table_of(root, words)
