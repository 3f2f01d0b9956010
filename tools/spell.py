#!/usr/bin/env python3
"""Spells the repository's own definitions as today's Rattle does: words and record fields in snake case.

usage: tools/spell.py [--list]

Run once at the top of the repository, after port.py. It rewrites the .rt and .antt files of crates/ and, in their lines
'old:' and 'new:', the .edit files. A definition in lower camel case gets snake case (sceneFields, scene_fields), a record's
field or a constructor with a dash gets an underscore (few-packets, few_packets). Lemmas keep their dashes, which today's
spelling has for them; one that would fall together with a definition gets _lem. Functions of src/, strings, inputs and
outputs keep their names. --list prints the names and writes nothing.
"""
import os
import re
import sys

WORD = re.compile(r"(?<![A-Za-z0-9_'’₀-₉])([A-Za-z_][A-Za-z0-9_]*)")
CAMEL = re.compile(r"[a-z][a-z0-9]*(?:[A-Z][a-z0-9]*)+\Z")
NAME = r"[^\s(){}.;,@\"«»\[\]\\:]+"
DEF = re.compile(r"^(\s*)((?:(?:pub|abbrev|unfoldable|infixr|infixl)\s+)*)(" + NAME + r")\s*:\s")
TYPE = re.compile(r"^(\s*)(?:pub )?(record|data)\s")
# Lemmas that would fall together with a definition, and words whose camel case was the older library's.
APART = {"index_number": "c_sample", "laid_out": "shelf", "too_long": "capture_laws rules", "no_room": "shelf_writer", "set_apart": "rules"}
LIBRARY = {"getD": "get_or"}


def snake(word):
    return re.sub(r"(?<=[a-z0-9])([A-Z])", lambda m: "_" + m.group(1).lower(), word)


def files(endings):
    for folder, folders, names in os.walk("crates"):
        folders[:] = sorted(it for it in folders if it != "out")
        for name in sorted(names):
            if name.endswith(endings):
                yield os.path.join(folder, name)


def read(path):
    with open(path, encoding="utf-8") as f:
        return f.read()


def names():
    """Returns the camel words, and the fields and constructors with a dash, that the files define."""
    camel, dashed, lemmas = set(), set(), set()
    for path in files((".antt", ".rt")):
        inside = None
        for line in read(path).splitlines():
            code = re.sub(r'"[^"]*"', "", line.split("//" if path.endswith(".rt") else "-- ")[0])
            camel.update(it for it in re.findall(r"\b[A-Za-z_][A-Za-z0-9_]*", code) if CAMEL.match(it))
            if path.endswith(".rt"):
                continue
            start = TYPE.match(line)
            if start:
                inside = len(start[1])
            elif inside is not None and line.strip() and len(line) - len(line.lstrip()) <= inside:
                inside = None
            found = DEF.match(line)
            if found and "-" in found[3]:
                field = inside is not None and len(found[1]) > inside
                (dashed if field or "/specs/" in path else lemmas).add(found[3])
    return camel, dashed - lemmas, dashed & lemmas


def main():
    camel, dashed, both = names()
    table = {it: snake(it) for it in camel} | LIBRARY
    fields = {it: it.replace("-", "_") for it in dashed | both}
    if "--list" in sys.argv[1:]:
        print("".join(f"{old} {new}\n" for old, new in sorted((table | fields).items())), end="")
        return
    dash = re.compile(r"(?<![\w'-])(" + "|".join(sorted(map(re.escape, fields), key=len, reverse=True)) + r")(?![\w'-])")
    parted = re.compile(r'("(?:[^"\\\n]|\\.)*")')

    def turned(text, source):
        if source:
            parts = parted.split(text)
        else:
            parts = [text]
        for i, part in enumerate(parts):
            if i % 2 == 0:
                part = WORD.sub(lambda m: table.get(m[1], m[1]), part)
                parts[i] = dash.sub(lambda m: fields[m[1]], part)
        return "".join(parts)

    for path in files((".rt", ".antt", ".edit")):
        text = read(path)
        crate = path.split("/")[1]
        if path.endswith(".edit"):
            lines = text.split("\n")
            new = "\n".join(turned(it, True) if it.startswith(("old:", "new:")) else it for it in lines)
        else:
            for name, crates in APART.items():
                if crate in crates.split() and "/proofs/" in path:
                    text_new = re.sub(r"(?<![\w.'-])" + name + r"(?![\w'-])", name + "_lem", text)
                    text = text_new
            new = turned(text, path.endswith(".rt"))
        if new != read(path):
            with open(path, "w", encoding="utf-8") as f:
                f.write(new)


main()
