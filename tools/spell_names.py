#!/usr/bin/env python3
"""Brings the repository's own definitions, lemmas and their variables to today's spelling: words in snake case, joined by `_`.

usage: python3 tools/spell_names.py          rewrites specs/, proofs/, the clauses and comments of src/, must-fail/ and the pages, in place
       python3 tools/spell_names.py --look   only tells where a new name falls together with one that is there

It goes by text. Functions of src/, types, modules, fields of C structs and strings keep their names, and names of the kit's that hold a capital do, too.
It runs once, after port.py; on what has the new spelling it does nothing.
"""
import os
import re
import sys

# What the kit names so.
KIT = re.compile(r"^(bool|sint|uint|mut_slice|shr_slice|walk)_(Lawful|Makes|Tells|Meets)$")
# A name that would fall together with another one, or that was cut in the wrong place.
CHOSEN = {
    "getD-table": "get_or-table",
    "byNumber": "length_by_number",
    "nameIn": "name_in_definition",
    "ownRuns": "own_run_claims",
    "ruleFound": "as_rule_found",
}
WORD = re.compile(r"(?<![\w'])[A-Za-z_][\w'?-]*")
CAMEL = re.compile(r"^[a-z]\w*?[A-Z]")


def snake(name):
    if name in CHOSEN:
        return CHOSEN[name]
    parts = []
    for part in name.split("-"):
        if re.match(r"^[a-z]", part):
            part = re.sub(r"([a-z0-9'])([A-Z])", r"\1_\2", part).lower()
        parts.append(part)
    return "-".join(parts)


def paths(root, ending):
    for folder, dirs, files in os.walk(os.path.join(root, "crates")):
        dirs[:] = sorted(d for d in dirs if d != "out")
        for f in sorted(files):
            if f.endswith(ending):
                yield os.path.join(folder, f)


def read(path):
    with open(path, encoding="utf-8") as f:
        return f.read()


def code_of(text):
    """The lines of an antt file without its comments."""
    return "\n".join("" if l.lstrip().startswith("--") else l for l in text.split("\n"))


def names(root):
    found = set()
    for p in paths(root, ".antt"):
        for w in WORD.findall(code_of(read(p))):
            if CAMEL.match(w) and not KIT.match(w):
                found.add(w)
    return {w: snake(w) for w in found}


def turned(text, table, in_source):
    """The text with the names of the table; in a source file string literals stay."""
    pieces = re.split(r'("(?:[^"\\\n]|\\.)*")', text) if in_source else [text]
    for i, piece in enumerate(pieces):
        if i % 2 == 0:
            pieces[i] = WORD.sub(lambda m: table.get(m.group(0), m.group(0)), piece)
    return "".join(pieces)


def look(root, table):
    new = {}
    for old, to in sorted(table.items()):
        new.setdefault(to, []).append(old)
    for to, olds in new.items():
        if len(olds) > 1:
            print(f"two names become one: {olds} -> {to}")
    for p in list(paths(root, ".antt")) + list(paths(root, ".rt")):
        text = code_of(read(p)) if p.endswith(".antt") else read(p)
        words = set(WORD.findall(text))
        for old, to in sorted(table.items()):
            if old in words and re.search(r"(?<![\w.'-])" + re.escape(to) + r"(?![\w'?-])(?!\.)", text):
                print(f"{p}: {old} -> {to}, which the file has")


def main():
    root = os.path.dirname(os.path.dirname(os.path.abspath(__file__)))
    table = names(root)
    if "--look" in sys.argv[1:]:
        look(root, table)
        return
    pages = [os.path.join(root, "README.md")]
    pages += [os.path.join(root, "docs", f) for f in sorted(os.listdir(os.path.join(root, "docs"))) if f.endswith(".md")]
    for p in [q for e in (".antt", ".rt", ".edit", ".md") for q in paths(root, e)] + pages:
        text = read(p)
        to = turned(text, table, p.endswith(".rt"))
        if to != text:
            with open(p, "w", encoding="utf-8") as f:
                f.write(to)


if __name__ == "__main__":
    main()
