#!/usr/bin/env python3
"""Spells this repository's definitions, fields and lemmas in snake case, as today's Rattle does: isSpace becomes is_space.

usage: tools/snake_names.py [--check]     at the top of the repository, once, after the kit's port.py

A name turns where it begins with a small letter and holds a capital behind it; a dash joins two names, and each of them turns by
itself. Types, facts and modules keep their capitals, and so do functions, which are in snake case already; byte and string
literals stay. Two lemmas would then have a definition's name, and are renamed first (FIRST). It turns the .antt, .rt and .edit
files of crates/, and what pages say in backticks. --check names the places where a new name meets an older one.
"""
import glob
import os
import re
import sys

TOKEN = re.compile(r"b'[^']*'|b\"[^\"]*\"|\"(?:[^\"\\]|\\.)*\"|[^\W\d][\w'\-]*")
CODE = re.compile(r"`[^`\n]*`")
FIRST = {
    "crates/markers/proofs/MarkerLaws.antt": ("after_run", "run_after"),
    "crates/meet/proofs/": ("last_line", "last_line_lem"),
}


def turned(part):
    if not part or not part[0].islower():
        return part
    part = re.sub(r"(?<=[a-z0-9])([A-Z])", lambda m: "_" + m.group(1).lower(), part)
    return re.sub(r"[A-Z]", lambda m: m.group(0).lower(), part)


def snake(word):
    if word.startswith(("b'", 'b"', '"')):
        return word
    return "-".join(turned(it) for it in word.split("-"))


def files():
    for folder, dirs, names in os.walk("crates"):
        dirs[:] = sorted(it for it in dirs if it not in ("out", "data"))
        for name in sorted(names):
            if name.endswith((".antt", ".rt", ".edit")):
                yield os.path.join(folder, name)


def pages():
    yield from (it for it in sorted(glob.glob("*.md") + glob.glob("docs/**/*.md", recursive=True)) if "PORT" not in it and "RULES" not in it)


def read(path):
    with open(path, encoding="utf-8") as it:
        return it.read()


def write(path, text):
    with open(path, "w", encoding="utf-8") as it:
        it.write(text)


def main():
    check = sys.argv[1:] == ["--check"]
    for path in files():
        text = read(path)
        new = text
        for start, (old, to) in FIRST.items():
            if path.startswith(start):
                new = re.sub(rf"(?<![\w.'\-]){old}(?![\w.'\-])", to, new)
        if check:
            made = {snake(it) for it in TOKEN.findall(new) if snake(it) != it}
            alone = set(re.findall(r"(?<![\w.'\-])([a-z][\w']*)(?![\w.'\-])", re.sub(r"--.*|//.*", "", new)))
            for word in sorted(made & alone):
                print(f"{path}: {word}")
            continue
        new = TOKEN.sub(lambda m: snake(m.group(0)), new)
        if new != text:
            write(path, new)
    for path in pages():
        text = read(path)
        new = CODE.sub(lambda m: TOKEN.sub(lambda w: snake(w.group(0)), m.group(0)), text)
        if new != text and not check:
            write(path, new)


if __name__ == "__main__":
    main()
