#!/usr/bin/env python3
"""Brings the names of this repository's definitions, fields and lemmas to one spelling.

usage: python3 tools/snake_names.py [ROOT]

Types and facts are in upper camel case (`OtherSlotsStay`), everything else in snake case (`page_at`, `is_full`,
`one_page`). A dash stays in a lemma's name where it joins the names of definitions (`height-plug`). Names of Rust
items, strings, inputs and outputs are left alone, and so are names that Rattle makes, as those of goals.
Prints each name that changed; stops before any write where two names of one module would fall together.
"""

import os
import re
import sys

KEYWORDS = {"use", "mod", "pub", "unfolding", "where", "let", "in", "record", "data", "elim", "open", "abbrev", "unfoldable"}
# words of the library that a lemma's name may join with a definition's
LIBRARY = {"length", "take", "drop", "set", "nth", "append", "cond", "swap", "map", "filter"}
NAME = r"[^\s:(){}\[\],;.=→×≡≢|`\"]+"
TOP = re.compile(rf"(?:(?:abbrev|unfoldable|pub)\s+)*(?:(record|data)\s+)?({NAME})\s*(?::|\(|\{{)")
INNER = re.compile(rf"\s+(?:(?:abbrev|unfoldable|pub)\s+)*(?:(record|data)\s+)?({NAME})\s+:\s")
TOKEN = re.compile(r"[^\s(){}\[\],;.:=λ`\"]+")


def files(root):
    for folder, dirs, names in os.walk(os.path.join(root, "crates")):
        dirs[:] = sorted(d for d in dirs if d != "out")
        for name in sorted(names):
            yield os.path.join(folder, name)


def read(path):
    with open(path, encoding="utf-8") as f:
        return f.read()


def declarations(path):
    """(name, whether it is a type or fact, whether it is a function of the file itself) for each declaration."""
    for line in read(path).split("\n"):
        start = line.split()[:1]
        if not start or start[0] in ("use", "mod", "let", "module") or start[0].startswith("--"):
            continue
        inner = line[0].isspace()
        found = (INNER if inner else TOP).match(line)
        if not found or found.group(2) in KEYWORDS or ": goal." in line:
            continue
        of = line.split(":", 1)[-1]
        fact = bool(found.group(1)) or re.search(r"Type \d+( where)?$", line.rstrip()) is not None
        yield found.group(2), fact, not inner and not fact and "≡" not in of


def camel(name):
    parts = [p for p in re.split(r"[-_]", name) if p]
    return "".join(p[:1].upper() + p[1:] for p in parts)


def snake(name):
    name = re.sub(r"(?<=[a-z0-9])(?=[A-Z])", "_", name.replace("-", "_"))
    return re.sub(r"[A-Z]+", lambda m: m.group(0).lower(), name)


def table(root):
    seen = {}
    for path in files(root):
        if path.endswith(".antt"):
            for name, fact, function in declarations(path):
                seen.setdefault(name, [set(), fact, function])[0].add(path)
                seen[name][1] |= fact
    known = LIBRARY | {n for n, (_, fact, function) in seen.items() if function and not fact and "-" not in n}
    new = {}
    for name, (_, fact, function) in seen.items():
        if not re.search(r"[A-Z-]", name):
            continue
        if fact:
            to = camel(name) if "-" in name or name[0].islower() else name
        elif not function and "-" in name and all(p in known for p in name.split("-")):
            to = name
        else:
            to = snake(name)
        if to != name:
            new[name] = to
    for name, to in new.items():
        both = seen[name][0] & seen.get(to, [set()])[0]
        if both:
            sys.exit(f"{name} and {to} would fall together in {sorted(both)[0]}")
    twice = {}
    for name, to in new.items():
        if to in twice and seen[name][0] & seen[twice[to]][0]:
            sys.exit(f"{name} and {twice[to]} would both be {to}")
        twice[to] = name
    return new


def turn(text, new):
    return TOKEN.sub(lambda m: new.get(m.group(0), m.group(0)), text)


def turn_code(line, new, mark):
    """The code of a line by every name, its comment by names in camel case alone, its strings not at all."""
    code, dash, comment = line.partition(mark)
    parts = code.split('"')
    if mark == "//":
        parts[::2] = [turn(p, new) for p in parts[::2]]
    else:
        parts = [turn(p, new) for p in parts]
    odd = {n: to for n, to in new.items() if "-" not in n}
    return '"'.join(parts) + dash + turn(comment, odd)


def main(argv):
    root = argv[0] if argv else "."
    new = table(root)
    for path in files(root):
        if path.endswith(".antt"):
            mark = "--"
        elif path.endswith((".rt", ".edit")):
            mark = "//"
        else:
            continue
        old = read(path)
        text = "\n".join(turn_code(line, new, mark) for line in old.split("\n"))
        if text != old:
            with open(path, "w", encoding="utf-8") as f:
                f.write(text)
    for name in sorted(new):
        print(name, "->", new[name])


if __name__ == "__main__":
    main(sys.argv[1:])
