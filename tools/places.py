#!/usr/bin/env python3
"""The places of docs/DESIGN-PASS.md in the sources, point by point.

    tools/places.py [COMMIT]     of a commit, or of the tree as it stands; a line for each place, and a count for each point

It goes by text and finds what can be told so: a reader decides which place is one.
"""
import re
import subprocess
import sys
from collections import defaultdict


def sources(commit):
    if commit:
        names = subprocess.run(["git", "ls-tree", "-r", "--name-only", commit, "crates"], capture_output=True, text=True, check=True).stdout
        for name in names.split("\n"):
            if "/src/" in name and name.endswith(".rt"):
                yield name, subprocess.run(["git", "show", f"{commit}:{name}"], capture_output=True, text=True, check=True).stdout
    else:
        names = subprocess.run(["git", "ls-files", "crates"], capture_output=True, text=True, check=True).stdout
        for name in names.split("\n"):
            if "/src/" in name and name.endswith(".rt"):
                yield name, open(name).read()


def plain(text):
    return "\n".join(line.split("//")[0] for line in text.split("\n") if not re.match(r"\s*(ghost )?use ", line))


def block(text, start):
    """From an opening brace to behind the one that closes it."""
    depth = 0
    for k in range(start, len(text)):
        depth += (text[k] == "{") - (text[k] == "}")
        if depth == 0:
            return k + 1
    return len(text)


def functions(text):
    """(name, parameters, body) of each function."""
    for m in re.finditer(r"\bfn (\w+)", text):
        k = text.find("(", m.end())
        depth, j = 0, k
        while True:
            depth += (text[j] == "(") - (text[j] == ")")
            j += 1
            if depth == 0:
                break
        head = re.search(r"^\{|\{$", text[j:], re.M)
        brace = text.find("\n{", j)
        same = text.find("{", j)
        body = None
        rest = text[j:j + 400]
        if re.match(r"[^\n]*\{\n", rest) and not re.match(r"\s*(requires|ensures)", rest):
            body = j + rest.find("{")
        elif brace >= 0:
            at = re.compile(r"^\s*\{\s*$", re.M).search(text, j)
            body = text.find("{", at.start()) if at else None
        if body is None:
            continue
        params = [p.strip() for p in re.split(r",(?![^<(\[]*[>)\]])", text[k + 1:j - 1]) if p.strip()]
        yield m.group(1), params, text[body:block(text, body)]


def enums(text):
    for m in re.finditer(r"\benum (\w+)[^{]*\{", text):
        inside = text[m.end():block(text, m.end() - 1) - 1]
        variants = re.findall(r"^\s*(\w+)\s*(\([^)]*\))?,", inside, re.M)
        yield m.group(1), variants


def main():
    commit = sys.argv[1] if len(sys.argv) > 1 else None
    found = defaultdict(list)
    bodies = defaultdict(list)
    for path, raw in sources(commit):
        text = plain(raw)
        where = path[len("crates/"):].replace("/src/", "::").replace(".rt", "")
        for name, variants in enums(text):
            payload = [v for v in variants if v[1]]
            if len(variants) == 2 and payload:
                found["1 an enum of two variants, one of which holds something"].append(f"{where} {name}")
            elif len(variants) <= 4 and any(re.search(r"(Bad|No|Wrong|Not|Short)\w*$", v[0]) for v in variants):
                found["1 an enum with an answer and faults side by side"].append(f"{where} {name}")
        for m in re.finditer(r"const (NONE|NO_\w+|OVER|CODED|NOWHERE|MET|FULL)\b", text):
            found["1 a number that stands for none"].append(f"{where} {m.group(1)}")
        kinds = re.findall(r"const ([A-Z_0-9]+): (?:usize|u8|u16|u32) = \d+;", text)
        runs = [k for k in kinds if k in ("NULL", "FALSE", "TRUE", "NUMBER", "STRING", "ARRAY", "OBJECT", "NAME", "ARRIVES", "IN_ARRAY", "NO_OBJECT")]
        if runs:
            found["1 numbers for kinds"].append(f"{where} {', '.join(runs)}")
        for name, params, body in functions(text):
            if re.search(r"return 1[1-4];", body):
                found["1 numbers for refusals"].append(f"{where} {name}")
            shape = re.sub(r"\b[A-Z][A-Z_0-9]*\b|\b\d[\w]*\b|\b(u8|u16|u32|u64|usize)\b|(?<=as )\w+", "#", body)
            names = {}
            shape = re.sub(r"\b[a-z_]\w*\b", lambda w: names.setdefault(w.group(0), f"v{len(names)}"), shape)
            shape = re.sub(r"\s+", " ", shape)
            if len(shape) > 55:
                bodies[shape].append(f"{where} {name}")
            for m in re.finditer(r"\b(while\b[^\n{]*|loop) \{", body):
                inner = body[m.start():block(body, m.end() - 1)]
                if re.search(r"\b(\w+) (\+=|-=) 1;|\b(\w+) = \3 [+-] 1;", inner):
                    found["3 a loop that counts an index"].append(f"{where} {name}")
            if re.search(r"_order$|^is_same$|^is_less$", name):
                found["4 an order or equality by hand"].append(f"{where} {name}")
            if len(re.findall(r"\b(\w+): \w+\.\1,", body)) >= 3:
                found["4 a struct copied field by field"].append(f"{where} {name}")
            if re.search(r"_on_paper$|^on_paper$|^fault_of$", name):
                found["4 a conversion by hand"].append(f"{where} {name}")
            if len(params) >= 7:
                found["5 a function of seven parameters or more"].append(f"{where} {name} ({len(params)})")
            plain_names = [p.split(":")[0].strip() for p in params]
            if "text" in plain_names and "table" in plain_names:
                found["5 text and table together"].append(f"{where} {name}")
            if "words" in plain_names and "numbers" in plain_names:
                found["5 words and numbers together"].append(f"{where} {name}")
            if "rows" in plain_names and "cues" in plain_names:
                found["6 parallel lists of rows, cues and walks"].append(f"{where} {name}")
            if any(re.search(r": bool$", p) for p in params):
                found["7 a flag as a parameter"].append(f"{where} {name}")
    for shape, where in bodies.items():
        if len(where) > 1:
            found["2 functions alike but for names, types and numbers"].append(" = ".join(where))
    for point in sorted(found):
        print(f"{point}: {len(found[point])}")
        for place in found[point]:
            print(f"    {place}")


main()
