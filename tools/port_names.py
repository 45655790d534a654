#!/usr/bin/env python3
"""Brings the repository's own definitions and lemmas to snake case, as today's Rattle spells them: branchEnds -> branch_ends.

usage: python3 tools/port_names.py        at the top of the repository, once, after port.py

A name is taken where it is one of the proof language: a word of a .antt file, or of a clause, with a lower-case first letter and a capital in it.
Functions of src/, exported names, strings, inputs and outputs have no such names, and keep theirs. Two lemmas would share the name of the definition
that they speak of: they get `_lem`. Comments, edits and pages follow.
"""
import os
import re

WORD = re.compile(r"[A-Za-z_◌][\w'₀-₉ᵢⱼ-]*")
CAMEL = re.compile(r"[a-z0-9][A-Z]")
# A lemma that would have the name of its definition.
LEMMAS = {
    "crates/walk/proofs/EndsLaws.antt": {"first_ends": "first_ends_lem"},
    "crates/walk/proofs/Laws.antt": {"first_ends": "first_ends_lem"},
    "crates/network/proofs/Words.antt": {"joined_by": "joined_by_lem"},
}


def files(top, endings):
    for folder, inner, names in os.walk(top):
        inner[:] = sorted(d for d in inner if d not in ("out", "target", ".git"))
        for name in sorted(names):
            if name.endswith(endings):
                yield os.path.join(folder, name)


def read(path):
    with open(path, encoding="utf-8", newline="") as file:
        return file.read()


def snake(word):
    parts = []
    for part in word.split("-"):
        if part[:1].islower():
            part = re.sub(r"([a-z0-9])([A-Z])", r"\1_\2", part).lower()
        parts.append(part)
    return "-".join(parts)


def own_names():
    found = set()
    for path in files("crates", (".antt",)):
        for word in WORD.findall(re.sub(r"--.*", "", read(path))):
            if any(part[:1].islower() and CAMEL.search(part) for part in word.split("-")):
                found.add(word)
    return {word: snake(word) for word in found}


def turned(text, names):
    return WORD.sub(lambda m: names.get(m.group(), m.group()), text)


def main():
    names = own_names()
    known = {word for path in files("crates", (".antt", ".rt")) for word in WORD.findall(read(path))} | set(names.values())
    pages = list(files("docs", (".md",))) + ["README.md"]
    for path in list(files("crates", (".antt", ".rt", ".edit"))) + pages:
        text = read(path)
        new = turned(turned(text, LEMMAS.get(path, {})), names)
        if path in pages:
            # port.py respelled some definitions and no page.
            new = WORD.sub(lambda m: snake(m.group()) if CAMEL.search(m.group()) and snake(m.group()) in known else m.group(), new)
        if new != text:
            with open(path, "w", encoding="utf-8", newline="") as file:
                file.write(new)
    print(f"port_names: {len(names)} names")


main()
