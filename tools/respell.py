#!/usr/bin/env python3
"""Respells the repository's own definitions and lemmas after the toolchain's port script has run.

usage: python3 tools/respell.py        once, at the top of the repository

Words are in snake case, a fact keeps its capital, and a dash stands only between two names: an own
definition, a ghost member or a word of the library. Functions of src/, strings, inputs and outputs
are left alone. Names that would fall together with another are given in APART.
"""

import os
import re
import sys

TOKEN = re.compile(r"(?<![\w'\-⟦])[A-Za-z_][\w']*(?:-[\w'*]+)*")
DECLARED = re.compile(r"(?m)^[ ]*((?:abbrev |unfoldable |pub |data |record |ruleset )*)([^\s:(){}«»]+) :(?!=)")
RULESET = re.compile(r"(?m)^[ ]*(?:pub )?ruleset ([^\s=]+)")
GHOST = re.compile(r"ghost (\w+)\b(?= *[:=])")
# words of the library that stand between dashes
WORDS = set("""take drop length append map flat_map reverse replicate get_or set put_mid sum fold cons nil zeros
    min max suc zero add sub mul div mod pow bit_xor xor cond lt le eqb""".split())
# a new name that would otherwise fall together with a field, a parameter or another name
APART = {
    "bit-xor": "bit_xor_lem",
    "block-of": "block_made",
    "check-of": "check_made",
    "fields-of": "fields_of_lem",
    "message-of": "message_of_lem",
    "message-size": "message_size_lem",
    "mis-cells": "mis_cells_lem",
    "mis-word": "mis_word_lem",
    "tis-made": "tis_made_lem",
}


def snake(word):
    if not re.match(r"[a-z]", word):
        return word
    word = re.sub(r"getD", "get_or", word)
    return re.sub(r"(?<=[a-z0-9])([A-Z])", lambda m: "_" + m.group(1).lower(), word)


def files(root):
    for folder, dirs, names in os.walk(os.path.join(root, "crates")):
        dirs[:] = sorted(d for d in dirs if d not in ("out", "target"))
        for name in sorted(names):
            if name.endswith((".rt", ".antt")):
                yield os.path.join(folder, name)


def read(path):
    with open(path, encoding="utf-8") as f:
        return f.read()


def gather(root):
    """The names declared in specs/ and proofs/, and of these the definitions (no lemmas)."""
    declared, definitions = set(), set()
    for path in files(root):
        text = read(path)
        if path.endswith(".rt"):
            for m in GHOST.finditer(text):
                if m.group(1) != "use":
                    declared.add(m.group(1))
                    definitions.add(m.group(1))
            continue
        in_proof = re.search(r"/(Answers|Invariants|Proof)\.antt$", path)
        for m in DECLARED.finditer(text):
            line = text[m.start():text.find("\n", m.start())]
            if in_proof and ": goal." in line:
                continue
            declared.add(m.group(2))
            if re.search(r"abbrev|unfoldable", m.group(1)):
                definitions.add(m.group(2))
        declared.update(m.group(1) for m in RULESET.finditer(text))
    return declared, definitions


def new_name(name, definitions):
    if name in APART:
        return APART[name]
    parts = [snake(p) for p in name.split("-")]
    known = {snake(d) for d in definitions if "-" not in d} | WORDS
    out = parts[0]
    for before, part in zip(parts, parts[1:]):
        out += ("-" if before in known and part in known or part[:1].isupper() or before[:1].isupper() else "_") + part
    return out


def turn(text, names, in_proof):
    def one(m):
        name = m.group(0)
        # behind a dot in a function's proof stands a step or a fact that the check names
        if in_proof and "-" in name and text[m.start() - 1] == ".":
            return name
        return names.get(name, name)

    return TOKEN.sub(one, text)


def main(root, show):
    declared, definitions = gather(root)
    names = {}
    for name in sorted(declared):
        to = new_name(name, definitions)
        if to != name:
            names[name] = to
    if show:
        taken = {}
        for path in files(root):
            for m in TOKEN.finditer(read(path)):
                taken.setdefault(m.group(0), set()).add(path)
        back = {}
        for name, to in names.items():
            back.setdefault(to, []).append(name)
        for to, olds in sorted(back.items()):
            if len(olds) > 1 or to in taken:
                print("together:", to, "<-", olds, "in", sorted(p.split("crates/")[1] for p in taken.get(to, ()))[:6])
        for name, to in names.items():
            print("name:", name, "->", to)
        return
    for path in files(root):
        text = read(path)
        new = turn(text, names, re.search(r"/(Answers|Invariants|Proof)\.antt$", path))
        if new != text:
            with open(path, "w", encoding="utf-8") as f:
                f.write(new)


if __name__ == "__main__":
    main(".", "--show" in sys.argv)
