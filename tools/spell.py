#!/usr/bin/env python3
"""Brings this repository's own names in specs/, proofs/ and contracts to one spelling.

usage: python3 tools/spell.py [--list]       at the top of the repository

Definitions, lemmas, fields and rules of ours are written in snake case, and types and facts in upper camel case:
`work-of` becomes `work_of`, `Well-formed` becomes `WellFormed`, `fileOf` becomes `file_of`. Goals that the check names, and
names of std, keep their spelling. With --list the names are printed and nothing is written.
It was run once, after the toolchain's own script had turned the rest to today's language.
"""

import os
import re
import sys

WORD = r"[^\s(){}\[\].,;:λ|\"«»]+"
MARKS = "pub|abbrev|unfoldable|data|record"
# Lemmas and definitions that would have the name of a function of src/ beside them.
APART = {
    "table-stands": "table_stands_lem",
    "examples-stand": "examples_stand_lem",
    "end-word": "end_word_lem",
    "turn-word": "turn_word_lem",
}
# Names that only a pattern or a binder has.
BOUND = ["good-J", "jobs-are", "some-arc", "wanted-same", "yes-J", "yes-y"]


def files(top, ends):
    for folder, dirs, names in os.walk(top):
        dirs[:] = sorted(d for d in dirs if d != "out")
        for name in sorted(names):
            if name.endswith(ends):
                yield os.path.join(folder, name)


def is_goal(line):
    return ": goal." in line or ": given." in line or ": need." in line


def declared(path):
    """The names that a file declares: definitions, lemmas, fields, rules, and what a let binds."""
    with open(path, encoding="utf-8") as f:
        lines = f.read().split("\n")
    for at, line in enumerate(lines):
        text = line.strip()
        if not text or text.startswith(("--", "use ", "pub mod ", "mod ")):
            continue
        for bound in re.findall(r"\blet (" + WORD + r") [:=]", text):
            yield bound
        if is_goal(text):
            continue
        found = re.match(r"^(?:(?:" + MARKS + r") )*(" + WORD + r")((?: [({].*)?) :(?: |$)", text)
        below = lines[at + 1].strip() if at + 1 < len(lines) else ""
        if not found and below.startswith(":"):
            found = re.match(r"^(?:(?:" + MARKS + r") )*(" + WORD + r")((?: [({].*)?)$", text)
        if found:
            yield found.group(1)


def imported(path):
    """The names that a file takes from elsewhere than this repository."""
    with open(path, encoding="utf-8") as f:
        text = f.read()
    for module, names in re.findall(r"^(?:ghost )?use ([^\s{]+)\.\{([^}]*)\}", text, re.M):
        if not re.match(r"Rattle\.(" + "|".join(OWN) + r")\.", module):
            for name in names.split(","):
                yield name.strip().split(" as ")[0].strip()


def aliases(path):
    """The names that a file gives to what it imports."""
    with open(path, encoding="utf-8") as f:
        for line in f:
            if re.match(r"(ghost )?use ", line.strip()):
                yield from re.findall(r" as ([\w'-]+)", line)


def spelled(name):
    if name in APART:
        return APART[name]
    if not re.fullmatch(r"[A-Za-z][\w'-]*", name):
        return name
    if name[0].isupper():
        return "".join(part[:1].upper() + part[1:] for part in re.split(r"[-_]", name))
    name = name.replace("-", "_")
    return re.sub(r"(?<=[a-z])([A-Z])(?=[a-z])", lambda m: "_" + m.group(1).lower(), name)


def turned(text, names):
    """The text with each whole word that is one of the names spelled anew."""

    def one(found):
        word = found.group(0)
        return names.get(word, word)

    return re.sub(r"[A-Za-z][\w'-]*", one, text)


def turned_edit(text, names):
    """An edit: what it writes in a file of specs/ or in a clause. Its other lines are code."""
    out, specs = [], False
    for line in text.split("\n"):
        if line.startswith("file: "):
            specs = line.endswith(".antt")
        elif specs or re.match(r"(old|new): (pub )?(ghost|requires|ensures)\b", line):
            line = turned(line, names)
        out.append(line)
    return "\n".join(out)


def turned_source(text, names):
    """A source file: ghost items and clauses alone. Comments and code keep their words."""
    out, depth, ghost = [], 0, False
    for line in text.split("\n"):
        if not ghost and re.match(r"\s*(pub )?(ghost|requires|ensures)\b", line):
            ghost, depth = True, 0
        if ghost and not line.strip().startswith("//"):
            line = turned(line, names)
            depth += line.count("{") - line.count("}")
            if depth <= 0 and ("}" in line or line.rstrip().endswith(";")):
                ghost = False
        out.append(line)
    return "\n".join(out)


OWN = sorted(d for d in os.listdir("crates") if os.path.isdir("crates/" + d)) if os.path.isdir("crates") else []


def main():
    antt = list(files("crates", ".antt"))
    source = list(files("crates", ".rt"))
    names = {name: spelled(name) for name in BOUND}
    for path in antt:
        for name in declared(path):
            if spelled(name) != name:
                names[name] = spelled(name)
    for path in antt + source:
        for name in aliases(path):
            if spelled(name) != name:
                names[name] = spelled(name)
    if "--list" in sys.argv[1:]:
        for n in sorted(names):
            print(n, names[n])
        return
    for path in antt + source + list(files("crates", ".edit")):
        with open(path, encoding="utf-8") as f:
            old = f.read()
        theirs = set(imported(path))
        mine = {n: names[n] for n in names if n not in theirs}
        if path.endswith(".antt"):
            new = "\n".join(l if l.strip().startswith("--") else turned(l, mine) for l in old.split("\n"))
        elif path.endswith(".edit"):
            new = turned_edit(old, mine)
        else:
            new = turned_source(old, mine)
        if new != old:
            with open(path, "w", encoding="utf-8") as f:
                f.write(new)


main()
