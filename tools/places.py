#!/usr/bin/env python3
"""Lists places in crates/*/src where an older form of the language may still stand, for docs/DESIGN-PASS.md.

    tools/places.py            the count of candidates, point by point
    tools/places.py 3          the candidates of point 3, line by line

A candidate is a line or a pair of functions that has the shape of an older form. Which of them are places, that page says.
"""
import collections
import difflib
import itertools
import pathlib
import re
import sys

ROOT = pathlib.Path(__file__).resolve().parent.parent

# The shapes that one line shows, by point.
LINES = {
    1: [
        r"\benum \w+",
        r"^\s*(pub )?\w+: bool\b",
        r"-> bool\b",
        r"\b(code|number): u8\b",
        r"-> u8\b",
        r"None => unreachable\(\)",
        r"else \{\s*$",
        r"Err\(\w+\) => (return )?Err\(",
        r"None => (return )?(None|Err\()",
        r"\w+ => Some\(|Some\(\w+\) => \w+,$|Ok\(\w+\) => \w+,$",
    ],
    3: [r"\bfor .* in .*\.\.", r"\bwhile ", r"\bloop \{"],
    4: [
        r"\bimpl.* (PartialEq|Eq|PartialOrd|Ord|Clone|Copy|From<.*>|TryFrom<.*>|(fmt::)?Display|(fmt::)?Debug) for\b",
        r"\bfn (same|eq|cmp|clone|copy|to_\w+|from_\w+|number\w*|text|sentence)\b",
    ],
    6: [r"\[\w+; \w+\]", r"\b(count|len|length): (u8|usize)\b", r"Vec<", r"\bat: usize\b"],
    7: [r"\bfn\(", r"\bdyn\b", r"\bFn(Mut|Once)?\(", r"^\s*match "],
}

FUNCTION = re.compile(
    r"^ *(?:pub(?:\(crate\))? )?fn (\w+)(.*?)(?=^ *(?:pub(?:\(crate\))? )?fn |^impl|^struct|^pub struct|^(?:pub )?enum|^#\[|\Z)",
    re.M | re.S,
)
CLAUSE = re.compile(r"^ *(?:requires|ensures) *\w* *\{(.*)\} *$", re.M)
PARAMETER = re.compile(r"(\w+): ([^,()]+)[,)]")


def sources():
    for path in sorted(ROOT.glob("crates/*/src/**/*.rt")):
        yield path.relative_to(ROOT), path.read_text()


def functions():
    for path, text in sources():
        for found in FUNCTION.finditer(text):
            yield f"{path}:{found.group(1)}", found.group(2)


def lines(point):
    for path, text in sources():
        for number, line in enumerate(text.splitlines(), 1):
            bare = line.split("//")[0]
            if any(re.search(shape, bare) for shape in LINES[point]):
                yield f"{path}:{number}: {line.strip()}"


# Functions whose bodies, with names and numbers taken out, are nearly the same.
def twins():
    shapes = []
    for name, text in functions():
        body = text.split("\n{" if "\n{" in text else "{", 1)[-1]
        shape = re.sub(r"\b\w+\b", "x", re.sub(r"//.*", "", body)).split()
        if len(shape) >= 8:
            shapes.append((name, shape))
    for (a, x), (b, y) in itertools.combinations(shapes, 2):
        if abs(len(x) - len(y)) <= len(x) // 5:
            ratio = difflib.SequenceMatcher(None, x, y, autojunk=False).ratio()
            if ratio >= 0.9:
                yield f"{a}  {b}  {ratio:.2f}"


# Clauses, and pairs of parameters, that stand in the head of three or more functions of one crate.
def repeats():
    clauses, pairs = collections.defaultdict(set), collections.defaultdict(set)
    for name, text in functions():
        crate = name.split("/")[1]
        for clause in CLAUSE.findall(text):
            for fact in re.split(r" × ", clause.strip()):
                clauses[crate, fact.strip("() ")].add(name)
        head = text.split("\n", 1)[0] if ")" in text.split("\n", 1)[0] else text.split(")", 1)[0] + ")"
        found = sorted(set(PARAMETER.findall(head)))
        for pair in itertools.combinations(found, 2):
            pairs[crate, " and ".join(f"{n}: {t}" for n, t in pair)].add(name)
    for kind, table in (("fact", clauses), ("parameters", pairs)):
        for (crate, what), names in sorted(table.items()):
            if len(names) >= 3:
                yield f"{crate}: {kind} {what} in {len(names)} functions"


def proofs():
    for path in sorted(ROOT.glob("crates/*/proofs/**/*.antt")):
        count = len(re.findall(r"^pub ", path.read_text(), re.M))
        yield f"{path.relative_to(ROOT)}: {count} answers or lemmas"


def candidates(point):
    if point in LINES:
        return list(lines(point))
    return list({2: twins, 5: repeats, 8: proofs}[point]())


def main():
    if len(sys.argv) > 1:
        for line in candidates(int(sys.argv[1])):
            print(line)
        return
    for point in range(1, 9):
        print(f"point {point}: {len(candidates(point))} candidates")


main()
