#!/usr/bin/env python3
"""Spells the repository's own definitions and lemmas as today's Rattle does: words in snake case, types in camel case.

usage: python3 tools/spell_names.py [--check]        at the top of the repository, once, after the kit's port.py

It collects the names that the repository's .antt files declare, computes each new spelling, and writes it wherever the name
stands as a whole word: in .antt files, in .rt files and must-fail edits outside strings, and in code spans of pages.
Names that Rattle makes (declared at a type `goal.x`) stay, and a name behind a dot turns only if a record declares it.
Functions of src/, strings, inputs and outputs keep their names. --check writes nothing and lists the table.
A line 'meets:' names a file that has a new spelling already, for another thing.
"""

import os
import re
import sys

WORD = r"[^\s(){}.;,@\"«»]+"
BINDERS = r"(?: \([^()]*(?:\([^()]*\)[^()]*)*\)| \{[^{}]*\})*"
DECLARED = re.compile(rf"^( *)((?:abbrev |pub |unfoldable )*)({WORD}){BINDERS} :(?: (\S*)|$)")
TYPE = re.compile(rf"^( *)(?:pub |abbrev )*(record|data|inductive|module) ({WORD})")
ODD = re.compile(r"[a-z0-9][A-Z]|-")
# Where the rule would spell two names alike, or a word has another name today.
APART = {
    "all-lists": "all_lists_lem",
    "root-import": "root_import_lem",
    "symbol-rows": "symbol_rows_lem",
    "getD-exchanged": "get_or_exchanged",
    "getD-homes": "get_or_homes",
}


def files(root):
    for folder, dirs, names in os.walk(root):
        dirs[:] = sorted(d for d in dirs if d not in ("out", "target", ".git", "tools"))
        for name in sorted(names):
            if name.endswith((".antt", ".rt", ".edit", ".md")):
                yield os.path.join(folder, name)


def spelled(name):
    if name in APART:
        return APART[name]
    if name[0].isupper():
        return "".join(part[0].upper() + part[1:] for part in name.split("-"))
    return re.sub(r"(?<=[a-z0-9])[A-Z]", lambda m: "_" + m[0].lower(), name).replace("-", "_")


def declared(text):
    """The names of a file that are its own, each with whether a record declares it as a field."""
    blocks = []
    for line in text.splitlines():
        if not line.strip() or line.lstrip().startswith("--"):
            continue
        depth = len(line) - len(line.lstrip())
        while blocks and depth <= blocks[-1][0]:
            blocks.pop()
        head = TYPE.match(line)
        if head:
            blocks.append((depth, head[2]))
            if head[2] != "module":
                yield head[3], False
            continue
        found = DECLARED.match(line)
        if found and not (found[4] or "").startswith("goal.") and found[3] not in ("let", "use"):
            yield found[3], bool(blocks) and blocks[-1][1] == "record"


def table(paths):
    plain, fields = {}, {}
    for path in paths:
        if path.endswith(".antt"):
            with open(path, encoding="utf-8") as f:
                for name, field in declared(f.read()):
                    if ODD.search(name) and not (name[0].isupper() and "-" not in name):
                        (fields if field else plain)[name] = spelled(name)
    return plain, fields


def turn_antt(text, plain, fields):
    def turn_part(part):
        def word(m):
            if m.start() > 0 and part[m.start() - 1] == ".":
                return fields.get(m[0], m[0])
            return plain.get(m[0]) or fields.get(m[0]) or m[0]

        return re.sub(WORD, word, part)

    # In a comment only a word in camel case is surely a name.
    words = {name: new for name, new in {**fields, **plain}.items() if "-" not in name}
    pieces = re.split(r"(--[^\n]*)", text)
    return "".join(turn_words(p, words) if i % 2 else turn_part(p) for i, p in enumerate(pieces))


def turn_words(text, both):
    return re.sub(r"(?<![\w-])[A-Za-z][\w]*(?:-\w+)*(?![\w-])", lambda m: both.get(m[0], m[0]), text)


def turn_source(text, both):
    words = {name: new for name, new in both.items() if "-" not in name}
    pieces = re.split(r'(b?"(?:[^"\\\n]|\\.)*"|//[^\n]*)', text)
    return "".join((p if p.lstrip("b")[:1] == '"' else turn_words(p, words)) if i % 2 else turn_words(p, both) for i, p in enumerate(pieces))


def turn_page(text, both):
    words = {name: new for name, new in both.items() if "-" not in name}
    return re.sub(r"`[^`\n]+`", lambda m: turn_words(m[0], words), text)


def main(argv):
    check = "--check" in argv
    paths = list(files("."))
    plain, fields = table(paths)
    both = {**fields, **plain}
    if check:
        for name in sorted(both):
            print(f"{name}\t{both[name]}{'  field' if name in fields else ''}")
    for path in paths:
        with open(path, encoding="utf-8") as f:
            text = f.read()
        if path.endswith(".antt"):
            new = turn_antt(text, plain, fields)
        elif path.endswith(".md"):
            new = turn_page(text, both)
        else:
            new = turn_source(text, both)
        had = set(re.findall(WORD, text))
        met = sorted({n for n in had if n in both and both[n] in had})
        if met and not path.endswith(".md"):
            print(f"meets: {path}: {', '.join(met)}")
        if new != text and not check:
            with open(path, "w", encoding="utf-8") as f:
                f.write(new)


if __name__ == "__main__":
    main(sys.argv[1:])
