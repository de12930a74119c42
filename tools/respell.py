#!/usr/bin/env python3
"""Respells this repository's own definitions and lemmas, as respell.tsv beside this file has them.

usage: tools/respell.py        at the top of a repository that port.py has just turned

A row is an old name, its new name and, where the row holds in some files only, the ends of their paths. Whole names turn: in .antt files
outside comments and in comments' words, in .rt files outside strings, in the lines old: and new: of must-fail edits, and between back quotes
in README.md and docs/. A row with files turns no name behind a dot, and none before ' ='. A name that a file takes from a library of the kit
stays in that file. A second run changes nothing.
"""

import os
import re

HERE = os.path.dirname(os.path.realpath(__file__))
WORD = re.compile(r'"(?:[^"\\\n]|\\.)*"|[^\s(){}.;,@"«»`\[\]]+')
everywhere, somewhere = {}, []
with open(os.path.join(HERE, "respell.tsv"), encoding="utf-8") as rows:
    for row in rows:
        old, new, *ends = row.rstrip("\n").split("\t")
        if ends:
            somewhere.append((old, new, tuple(ends[0].split())))
        else:
            everywhere[old] = new


OWN = set(os.listdir("crates"))
USE = re.compile(r"\buse ([^\s;{]+)\.\{([^}]*)\}")


def lent(text):
    """The names that a file takes from modules that are not the repository's own."""
    names = set()
    for module, items in USE.findall(text):
        steps = module.split(".")
        if steps[0] != "Rattle" or steps[1] not in OWN:
            names.update(WORD.findall(items))
    return names


def turned(text, stay=frozenset()):
    return WORD.sub(lambda m: m[0] if m[0] in stay else everywhere.get(m[0], m[0]), text)


def turned_file(path, text):
    for old, new, ends in somewhere:
        if path.endswith(ends) and not re.search(rf"(?<![\w-]){new}(?![\w-])", text):
            text = re.sub(rf"(?<![\w.'-]){old}(?![\w'-])(?! =)", new, text)
    return turned(text, lent(text))


def turned_edit(text):
    return re.sub(r"(?m)^((?:old|new): )(.*)$", lambda m: m[1] + turned(m[2]), text)


def turned_page(text):
    return re.sub(r"`[^`\n]*`", lambda m: turned(m[0]), text)


def paths():
    for folder, folders, files in os.walk("crates"):
        folders[:] = [f for f in folders if f != "out"]
        yield from (os.path.join(folder, f) for f in files)
    yield "README.md"
    yield from (os.path.join("docs", f) for f in os.listdir("docs"))


for path in paths():
    how = turned_file if path.endswith((".antt", ".rt")) else turned_edit if path.endswith(".edit") else turned_page if path.endswith(".md") else None
    if how is None or os.path.basename(path) == "PORT.md":
        continue
    with open(path, encoding="utf-8") as file:
        text = file.read()
    new = how(path, text) if how is turned_file else how(text)
    if new != text:
        with open(path, "w", encoding="utf-8") as file:
            file.write(new)
