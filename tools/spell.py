#!/usr/bin/env python3
"""Spells the repository's own names as the kit's library does, once, after the kit's port.py.

usage: python3 tools/spell.py        at the top of the repository

- A dash in a name of specs/ or proofs/ becomes an underscore; a type's name loses it and is in camel case. Names that the check makes (in Proof.antt)
  keep theirs, and so does the table of refusals, which has the paper's spelling: in snake case `Behind` and `BadHead` would be one with the tests
  `behind` and `bad_head`.
- In comments only names between backquotes are turned, and the paper's word "read-through" is written as the paper has it.
- Edits in must-fail/ get the operators, fields and names of the files that they edit.
"""
import os
import re
import sys

DEFINED = re.compile(r"^\s*(?:pub |abbrev |unfoldable )*([^\s(){}.,;:]+) :(?:\s|$)")
TYPE = re.compile(r"^(?:pub )?(?:data|record) ([^\s(){}.,;:]+)")
# The words of an older library that edits cite.
OLDER = [
    (re.compile(r"\bgetD\b"), "get_or"),
    (re.compile(r"(?<![\w◌])_(\|\||&&|\+|\*|-|≡|≤|<|\+\+|∷|/|%|then|-ℤ|≤ℤ|<ℤ)_(?![\w◌])"), r"◌\1◌"),
    (re.compile(r"\(([^\W\d][\w'₀-₉]*) \.([a-z]\w*)\)"), r"\1.\2"),
    (re.compile(r"([^\W\d][\w'₀-₉]*) \.([a-z]\w*)"), r"\1.\2"),
]


def files(*ends):
    for folder, dirs, names in os.walk("crates"):
        dirs[:] = sorted(d for d in dirs if d != "out")
        for name in sorted(names):
            if name.endswith(ends):
                yield os.path.join(folder, name)


def read(path):
    with open(path, encoding="utf-8") as f:
        return f.read()


def spelled(name):
    if name[0].isupper():
        first, *rest = name.split("-")
        return first + "".join(r[:1].upper() + r[1:] for r in rest)
    return name.replace("-", "_")


def own_names():
    found = set()
    for path in files(".antt"):
        if path.endswith("Proof.antt"):
            continue
        for line in read(path).split("\n"):
            for pattern in (DEFINED, TYPE):
                m = pattern.match(line)
                if m and "-" in m.group(1) and re.match(r"[^\W\d]", m.group(1)):
                    found.add(m.group(1))
    return {name: spelled(name) for name in found}


def turned_before():
    """Names that the kit's port.py spelled anew: edits, which it leaves alone, have them with a dash."""
    found = set()
    for path in files(".antt"):
        for line in read(path).split("\n"):
            m = DEFINED.match(line)
            if m and "_" in m.group(1):
                found.add(m.group(1))
    return {name.replace("_", "-"): name for name in found}


def together(table):
    """Names that would be one where they were two, in one file that defines or imports both."""
    new = {}
    for old, to in table.items():
        new.setdefault(to, set()).add(old)
    clashes = []
    for path in files(".antt"):
        there = set(re.findall(r"[^\W\d][\w'-]*", read(path)))
        for to, olds in new.items():
            both = {o for o in olds if o in there} | ({to} & there)
            if len(both) > 1:
                clashes.append((path, to, sorted(both)))
    return clashes


def turn(text, table):
    return re.sub(r"[^\W\d_](?:[\w'-]*[\w'])?", lambda m: table.get(m.group(0), m.group(0)), text)


def turn_comment(text, table):
    text = re.sub(r"`([^`]*)`", lambda m: "`" + turn(m.group(1), table) + "`", text)
    parts = re.split(r"(`[^`]*`)", text)
    return "".join(p if p.startswith("`") else re.sub(r"\bread_through(s?)\b", r"read-through\1", p) for p in parts)


def turn_file(text, table, mark):
    lines = []
    for line in text.split("\n"):
        m = re.search(r"(?<!\S)" + mark + r"(?= |$)", line)
        cut = m.start() if m else len(line)
        lines.append(turn(line[:cut], table) + turn_comment(line[cut:], table))
    return "\n".join(lines)


def turn_edit(text, table):
    lines = []
    for line in text.split("\n"):
        if line.startswith(("old: ", "new: ")):
            if not re.search(r"\buse (lib|mathlib|Prim)\b", line) and "//" not in line:
                for pattern, to in OLDER:
                    line = line[:5] + pattern.sub(to, line[5:])
            line = line[:5] + turn(line[5:], table)
        lines.append(line)
    return "\n".join(lines)


def write(path, text):
    if text != read(path):
        with open(path, "w", encoding="utf-8") as f:
            f.write(text)


def main():
    if not os.path.isdir("crates"):
        sys.exit("spell: run it at the top of the repository")
    table = own_names()
    for clash in together(table):
        print("spell: falls together:", *clash)
    for path in files(".antt"):
        write(path, turn_file(read(path), table, "--"))
    for path in files(".rt"):
        write(path, turn_file(read(path), table, "//"))
    before = turned_before() | table
    for path in files(".edit"):
        write(path, turn_edit(read(path), before))
    print(f"spell: {len(table)} names")


if __name__ == "__main__":
    main()
