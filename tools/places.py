#!/usr/bin/env python3
"""Counts the places in crates/*/src that docs/DESIGN-PASS.md speaks of, point by point.

    tools/places.py [--list] [TREE]

With --list each place is named. TREE is a checkout, by default this one.
"""
import re
import sys
from pathlib import Path

ARGS = [a for a in sys.argv[1:] if a != "--list"]
ROOT = Path(ARGS[0]) if ARGS else Path(__file__).resolve().parent.parent
LIST = "--list" in sys.argv


def sources():
    for path in sorted(ROOT.glob("crates/*/src/*.rt")):
        yield path, path.read_text()


def lines(pattern):
    """Each line of code that matches."""
    found = []
    for path, text in sources():
        for i, line in enumerate(text.split("\n"), 1):
            if not line.lstrip().startswith("ghost use") and re.search(pattern, line):
                found.append(f"{path.relative_to(ROOT)}:{i}: {line.strip()}")
    return found


def functions(test):
    """Each function whose list of parameters passes the test."""
    found = []
    for path, text in sources():
        for m in re.finditer(r"\bfn (\w+)(?:<[^>]*>)?\(([^{]*?)\)(?: ->|\n|\s*\{)", text):
            if test(re.sub(r"\s+", " ", m.group(2))):
                found.append(f"{path.relative_to(ROOT)}: fn {m.group(1)}")
    return found


def has(*names):
    return lambda p: all(re.search(rf"\b{n}: ", p) for n in names)


POINTS = [
    ("1", "own enums with a case of refusal", lines(r"^    (Refused|Fault)\b")),
    ("1", "fields that say whether another holds", lines(r"^    pub (right|ended): bool,")),
    ("1", "numbers for a refusal", lines(r"Refused\((7|8)\)|== 8 \{|\bfault: (u32|7|0)\b|^    Fault\(u32, u32\)")),
    ("1", "functions that answer a count for none", lines(r"^// .*, or (n|the count|how many there are)\b")),
    ("1", "constants that stand for none", lines(r"^(pub )?const (NONE|NO_\w+|FAR|WAITS)\b")),
    ("1", "parameters and fields that number a kind or a style", lines(r"\b(kind|style): u32\b")),
    ("3", "loops by while", lines(r"^\s*while ")),
    ("4", "answers of true or false by return", lines(r"\breturn (true|false);")),
    ("5", "functions of x, y and z", functions(has("x", "y", "z"))),
    ("5", "functions of x and y without z", functions(lambda p: has("x", "y")(p) and not has("z")(p) and "&[u32]" in p)),
    ("6", "functions of a slice and a count of its entries", functions(lambda p: "[u" in p and re.search(r"\b(n|m|t|count): (usize|u16)\b", p))),
    ("7", "parameters that switch a step", lines(r"\b(upper|falling|joining|closed|report|below): bool\b")),
]

for point, what, found in POINTS:
    print(f"{point}  {len(found):4}  {what}")
    if LIST:
        for place in found:
            print(f"         {place}")
