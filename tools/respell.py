#!/usr/bin/env python3
"""Brings the names of this repository to the spelling of Rattle's kit 13: run once, at the top, after the kit's own script.

    python3 tools/respell.py            rewrites the files below crates/ and crates.txt, and prints names that fall together
    python3 tools/respell.py --check    prints what it would do, and writes nothing

Definitions, lemmas, constructors and fields get snake case (`docOf`, `scan-step` -> `doc_of`, `scan_step`), facts that had a dash get camel case.
Two crates have the names of libraries of the kit, and get others. Functions of src/, exported C names, strings, inputs and outputs keep theirs.
A name that a file brings from elsewhere, and the names that Rattle makes (below `c`, `tie` and the like), stay.
"""

import os
import re
import sys

CRATES = {"json": "json_reader", "unicode": "code_points"}
WORD = r"[^\s(){}.;,@\"«»\[\]\\]+"
TOKEN = re.compile(r"(?P<string>\"(?:[^\"\\\n]|\\.)*\")|(?P<comment>--[^\n]*)|(?P<path>" + WORD + r"(?:\." + WORD + r")*)")
HEAD = re.compile(r"(?m)^[ \t]*(?:(?:abbrev|unfoldable|pub|private)[ \t]+)*((?:[^\s():{}.;,λ\"]+[ \t]+)+):(?=\s)")
TYPE = re.compile(r"(?m)^[ \t]*(?:pub[ \t]+)?(?:record|data)[ \t]+([^\s({:]+)")
MADE = {"c", "tie", "goal", "w", "l", "given"}
# behind these fields of what Rattle makes stand fields of this repository's records
OWN_BEHIND = {"ensures", "requires", "invariant"}
# names that would fall together with others, and what stands for them instead
APART = {
    "after-item": "after_item_lem",
    "all-rules": "all_rules_lem",
    "answer-words": "answer_words_lem",
    "any-string": "any_string_case",
    "asIs": "as_it_is",
    "bad-key": "bad_key_case",
    "below_at": "below_at_lem",
    "bracket-kind": "bracket_kind_lem",
    "by-fault": "by_fault_lem",
    "by-judge": "by_judge_lem",
    "by-room": "by_room_lem",
    "by_entries": "by_entries_lem",
    "by_name": "by_name_lem",
    "cardRows": "rows_of_card",
    "content-of": "content_of_lem",
    "cut-at": "cut_at_lem",
    "days-of": "days_of_lem",
    "digit-of": "digit_of_lem",
    "distinct-items": "distinct_items_lem",
    "end-at": "end_at_lem",
    "escape-at": "escape_at_lem",
    "exp-turn": "exp_turn_lem",
    "first-row": "first_row_lem",
    "frac-turn": "frac_turn_lem",
    "goOn": "go_on_answer",
    "head-or": "head_or_lem",
    "in-array": "in_array_case",
    "in-patch": "in_patch_lem",
    "in-range": "within_range",
    "inside-at": "inside_at_lem",
    "inside-named": "inside_named_lem",
    "is-less": "is_less_lem",
    "is_digit": "is_digit_lem",
    "is_same": "is_same_lem",
    "items-from": "items_from_lem",
    "key-at": "key_at_lem",
    "key-order": "key_order_same",
    "later-on": "later_on_lem",
    "leaf-named": "leaf_named_lem",
    "least-clash": "least_clash_lem",
    "line-start": "line_start_is",
    "low-at": "low_at_lem",
    "mark_on": "mark_on_lem",
    "member-with": "member_with_lem",
    "member_of": "member_of_lem",
    "name-at": "name_at_lem",
    "name-end": "name_ends",
    "name-start": "name_starts",
    "names_in": "names_in_lem",
    "no-clash": "no_clash_lem",
    "no-language": "no_language_case",
    "no-object": "no_object_case",
    "noMember": "no_member_there",
    "no_key": "no_key_lem",
    "no_line": "no_line_lem",
    "node-named": "node_named_lem",
    "none-bad": "none_bad_lem",
    "not-packed": "not_packed_says",
    "on-hex": "on_hex_lem",
    "onRow": "on_this_row",
    "oneKey": "key_alone",
    "own-localizations": "own_localizations_case",
    "own_name": "own_name_lem",
    "part-next": "part_next_lem",
    "quoted-at": "quoted_at_lem",
    "raw_at": "raw_at_lem",
    "row-after": "row_after_lem",
    "row_words": "row_words_lem",
    "rule-cases": "rule_cases_lem",
    "rule-start": "rule_start_is",
    "run_end": "run_end_lem",
    "run_on": "run_on_lem",
    "short-of": "short_of_lem",
    "smaller-key": "smaller_key_lem",
    "start-at": "start_at_lem",
    "text-doc": "text_doc_lem",
    "tree-of": "tree_of_it",
    "type-in": "type_in_lem",
    "unit-at": "unit_at_lem",
    "unless-more": "unless_more_lem",
    "value-at": "value_at_lem",
    "value-draft": "value_draft_lem",
    "value-with": "value_with_lem",
    "with-key": "with_key_lem",
    "with-patch": "with_patch_lem",
}


def files(root, end):
    for folder, dirs, names in os.walk(os.path.join(root, "crates")):
        dirs[:] = sorted(d for d in dirs if d != "out")
        for name in sorted(names):
            if name.endswith(end):
                yield os.path.join(folder, name)


def read(path):
    with open(path, encoding="utf-8") as it:
        return it.read()


def bare(text):
    """The text without comments and strings."""
    return re.sub(r"(?m)\"(?:[^\"\\\n]|\\.)*\"|(?:^|(?<=\s))--[^\n]*", "", text)


def declared(text):
    out = set()
    for m in HEAD.finditer(bare(text)):
        out.update(n for n in m.group(1).split() if n not in ("pub", "where", "let", "in", "record", "data", "module", "abbrev", "unfoldable"))
    out.update(m.group(1) for m in TYPE.finditer(bare(text)))
    return out


def new_name(name):
    if name in APART:
        return APART[name]
    if re.match(r"[A-Z]", name):
        if "-" not in name:
            return name
        return "".join(p[:1].upper() + p[1:] for p in name.split("-"))
    if not re.match(r"[a-z_]", name):
        return name
    parts = re.sub(r"(?<=[a-z0-9])(?=[A-Z])", "-", name).split("-")
    return "_".join(p[:1].lower() + p[1:] if i else p for i, p in enumerate(parts))


def is_plain(name):
    """Spelled as wanted already: such a name is another's too, so it is turned only where a file declares or brings it."""
    return re.fullmatch(r"[a-z0-9_]+", name) is not None


def brought(text, modules):
    """The names in plain spelling that a file brings from one of these modules, by name."""
    out = set()
    for m in re.finditer(r"(?m)^[ \t]*(?:pub )?use ([^\s{;]+?)\.\{([^}]*)\}", text):
        for it in m.group(2).split(","):
            name = it.split(" as ")[0].strip()
            if m.group(1) in modules.get(name, ()):
                out.add(name)
    return out


def module_of(root, path):
    crate, rest = os.path.relpath(path, os.path.join(root, "crates")).split(os.sep, 1)
    return f"Rattle.{crate}." + rest[: -len(".antt")].replace(os.sep, ".")


def foreign(text, ours):
    """The names that a file brings from libraries that are not this repository's."""
    out = set()
    for m in re.finditer(r"(?m)^(?:pub )?(?:ghost )?use ([^\s{;]+?)\.\{([^}]*)\}", text):
        head = m.group(1).split(".")
        if not (head[0] == "Rattle" and len(head) > 1 and head[1] in ours) and len(head) > 1:
            for it in m.group(2).split(","):
                out.add(it.split(" as ")[-1].strip())
    return out


def turn(text, table, keep):
    """One file of antt, or the ghost parts of a file of code: the words of the table, but those of keep and those that Rattle makes."""

    def one(m):
        if m.group("string"):
            return m.group()
        if m.group("comment"):
            return re.sub(r"`([^`\n]*)`", lambda k: "`" + turn(k.group(1), table, keep) + "`", words_in(m.group(), table, keep))
        parts = m.group("path").split(".")
        made = parts[0] in MADE and len(parts) > 1
        out = []
        for p in parts:
            if made and p in OWN_BEHIND:
                made = False
                out.append(p)
            elif p in keep or (made and "-" in p) or (len(parts) > 1 and p in APART and is_plain(p)):
                out.append(p)
            else:
                out.append(table.get(p, p))
        return ".".join(out)

    return TOKEN.sub(one, text)


def words_in(text, table, keep):
    """Prose: only words with a capital inside, which are no English."""
    return re.sub(r"(?<![\w-])[a-z]+[a-z0-9]*[A-Z]\w*(?![\w-])", lambda m: m.group() if m.group() in keep else table.get(m.group(), m.group()), text)


def turn_code(text, table, keep):
    """The ghost items and the clauses of a file of code, and its comments."""
    out = []
    at = 0
    for m in re.finditer(r"(?m)^[ \t]*(?:ghost use [^;]*;|(?:requires|ensures)\*?(?: \w+)? \{)|//[^\n]*", text):
        if m.start() < at:
            continue
        out.append(text[at : m.start()])
        end = m.end()
        if m.group().rstrip().endswith("{"):
            depth = 1
            while depth:
                depth += {"{": 1, "}": -1}.get(text[end], 0)
                end += 1
        piece = text[m.start() : end]
        if piece.startswith("//"):
            out.append(re.sub(r"`([^`\n]*)`", lambda k: "`" + turn(k.group(1), table, keep) + "`", words_in(piece, table, keep)))
        else:
            out.append(turn(piece, table, keep))
        at = end
    out.append(text[at:])
    return "".join(out)


def crates_renamed(text, code):
    for old, new in CRATES.items():
        text = re.sub(r"\bRattle\." + old + r"\b(?!_)", "Rattle." + new, text)
        if code:
            text = re.sub(r"(?<![\w:.])" + old + r"::", new + "::", text)
            text = re.sub(r"`" + old + r"::", "`" + new + "::", text)
        else:
            text = re.sub(r"`" + old + r"::", "`" + new + "::", text)
    return text


def tables(root):
    """The names of this repository that get another spelling: those of specs/ and of lemmas everywhere, those of one function's proof there."""
    wide, own, modules = set(), {}, {}
    for path in files(root, ".antt"):
        names = declared(read(path))
        if os.path.basename(path) == "Proof.antt" or "/Proof/" in path:
            own[path] = names
        else:
            wide |= names
            for n in names:
                if n in APART and is_plain(n):
                    modules.setdefault(n, set()).add(module_of(root, path))
    table = {n: new_name(n) for n in wide if new_name(n) != n}
    return table, own, modules


def main(argv):
    root = os.getcwd()
    if not all(os.path.isdir(os.path.join(root, "crates", old)) for old in CRATES):
        print("respell: this tree has the new spelling already, or isn't the top of the repository: nothing was changed")
        return 2
    ours = set(os.listdir(os.path.join(root, "crates")))
    table, own, modules = tables(root)
    write = "--check" not in argv
    changed = 0
    for path in list(files(root, ".antt")) + list(files(root, ".rt")):
        text = read(path)
        code = path.endswith(".rt")
        keep = foreign(text, ours) - set(CRATES)
        plain = declared(text) | brought(text, modules) if not code else brought(text, modules)
        here = {n: to for n, to in table.items() if not is_plain(n) or n in plain}
        for n in own.get(path, ()):
            if new_name(n) != n and not re.match(r"(returns|invariant-loop|decreases-loop)", n):
                here.setdefault(n, new_name(n))
        # names of one file that fall together
        used = {p for m in TOKEN.finditer(bare(text)) if m.group("path") for p in m.group("path").split(".")}
        seen = {}
        for n in sorted(used):
            to = n if n in keep else here.get(n, n)
            if to in seen and seen[to] != n:
                print(f"{os.path.relpath(path, root)}: {seen[to]} and {n} both {to}")
            seen[to] = n
        new = turn_code(text, here, keep) if code else turn(text, here, keep)
        new = crates_renamed(new, code)
        if new != text:
            changed += 1
            if write:
                with open(path, "w", encoding="utf-8") as it:
                    it.write(new)
    print(f"{len(table)} names, {changed} files")
    if write:
        lines = read(os.path.join(root, "crates.txt"))
        for old, new in CRATES.items():
            lines = re.sub(r"(?<![\w])" + old + r"(?![\w])", new, lines)
            if os.path.isdir(os.path.join(root, "crates", old)):
                os.rename(os.path.join(root, "crates", old), os.path.join(root, "crates", new))
        with open(os.path.join(root, "crates.txt"), "w", encoding="utf-8") as it:
            it.write(lines)
    return 0


if __name__ == "__main__":
    raise SystemExit(main(sys.argv[1:]))
