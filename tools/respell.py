#!/usr/bin/env python3
"""Respells the project's own definitions and lemmas: snake case for words, as tools/respell.tsv lists them, old and new.

  tools/respell.py     in the project's root, once, right after the port to today's Rattle respelled the library's names

Turns whole words in specs/, proofs/, the clauses and `ghost use` lines of src/ and the must-fail edits, and the words in
backquotes in README.md and docs/. It also gives the crate `json` the name `json_text`, since the library has a `json`."""
import os
import re
import subprocess

ROOT = os.path.dirname(os.path.dirname(os.path.realpath(__file__)))
WORD = re.compile(r"""[^\s(){}\[\];,.:λ"`]+""")
CRATE = {"json": "json_text"}
# parameters of definitions
LOCALS = "byteLength hasScene bufferLength componentType viewRecords byteOffset viewOffset nodeStarts nodeLengths sceneStarts sceneLengths byteStride hasBin binLength namedState"


def table():
    with open(os.path.join(ROOT, "tools", "respell.tsv"), encoding="utf-8") as f:
        return dict(line.rstrip("\n").split("\t") for line in f)


NAMES = table()
PARAMETERS = {w: re.sub("([A-Z])", lambda m: "_" + m.group(1).lower(), w) for w in LOCALS.split()}


def words(text, names=NAMES):
    return WORD.sub(lambda m: names.get(m.group(0), m.group(0)), text)


def terms(text):
    """A file of definitions or proofs: parameters too, but for comments, where they are words of the format."""
    lines = paths(words(text)).split("\n")
    for i, line in enumerate(lines):
        cut = line.find("--")
        cut = len(line) if cut < 0 else cut
        lines[i] = words(line[:cut], PARAMETERS) + line[cut:]
    return "\n".join(lines)


def paths(text):
    for old, new in CRATE.items():
        text = re.sub(rf"\bRattle\.{old}\.", f"Rattle.{new}.", text)
    return text


def code(text):
    """A source file: its texts between quotes stay."""
    parts = re.split(r'(b?"(?:\\.|[^"\\])*")', text)
    parts = [p if i % 2 else words(p) for i, p in enumerate(parts)]
    text = paths("".join(parts))
    for old, new in CRATE.items():
        text = re.sub(rf"(?m)^(\s*use ){old}::", rf"\g<1>{new}::", text)
        text = re.sub(rf"(?<![\w:.]){old}::", f"{new}::", text)
    return text


def quoted(text):
    return re.sub(r"`[^`\n]*`", lambda m: words(m.group(0)), text)


def turn(path, by):
    with open(path, encoding="utf-8") as f:
        old = f.read()
    new = by(old)
    if new != old:
        with open(path, "w", encoding="utf-8") as f:
            f.write(new)


def main():
    for old, new in CRATE.items():
        subprocess.run(["git", "mv", f"crates/{old}", f"crates/{new}"], cwd=ROOT, check=True)
    with open(os.path.join(ROOT, "crates.txt"), encoding="utf-8") as f:
        listed = f.read()
    for old, new in CRATE.items():
        listed = re.sub(rf"(?m)(?<=[ ^]){old}\b|^{old}(?=:)", new, listed)
    with open(os.path.join(ROOT, "crates.txt"), "w", encoding="utf-8") as f:
        f.write(listed)
    for folder, _, names in os.walk(os.path.join(ROOT, "crates")):
        for name in names:
            path = os.path.join(folder, name)
            if name.endswith(".antt"):
                turn(path, terms)
            elif name.endswith((".rt", ".edit")):
                turn(path, code)
    for name in ["README.md"] + [f"docs/{n}" for n in sorted(os.listdir(os.path.join(ROOT, "docs"))) if n.endswith(".md")]:
        turn(os.path.join(ROOT, name), quoted)


main()
