#!/usr/bin/env python3
"""Brings the repository's own names of antt to one spelling: definitions, lemmas, fields and constructors in snake case.

usage: python3 tools/respell.py [FOLDER]     rewrites the files below FOLDER (or here) in place; run once, right after the kit's port.py

A name is respelled where specs/ or proofs/ define it: goodLength and good-length become good_length. Types, modules, the names of
Rattle functions and those that Rattle generates for a proof stay. Code, strings, inputs and outputs stay.
"""
import os
import re
import sys

ROOT = os.path.abspath(sys.argv[1] if len(sys.argv) > 1 else ".")
TOKEN = re.compile(r"[^\s(){}\[\].;,«»\"`]+")
DEFINED = re.compile(r"^\s*((?:(?:abbrev|unfoldable|pub) )*)((?:[^\s:(){}.;,]+ )+):(?=\s|$)\s*(\S*)")
# Lemmas that port.py brought to snake case and that now would share a definition's name, each with the crates where it is cited
# (none named: all). A lemma that would have its definition's name ends in _lem.
LEMMAS = {
    "good_length": (),
    "in_bytes": (),
    "same_bytes": (),
    "said_at": (),
    "too_short": (),
    "goes_on": ("comparing",),
    "is_state": ("host_state", "log_lines"),
    "is_within": ("numbered", "host_state", "saved"),
}


def texts(*ends):
    for folder, dirs, files in os.walk(os.path.join(ROOT, "crates")):
        dirs[:] = sorted(d for d in dirs if d not in ("out", ".git"))
        for f in sorted(files):
            if f.endswith(ends):
                yield os.path.join(folder, f)


def snake(name):
    name = re.sub(r"(?<=[a-z0-9])([A-Z])", lambda m: "_" + m.group(1).lower(), name)
    return name.replace("-", "_")


def defined():
    """The names that specs/ and proofs/ define, and those of them that are a record's fields."""
    names = set()
    for path in texts(".antt"):
        for line in open(path, encoding="utf-8"):
            m = DEFINED.match(line)
            if not m or line.lstrip().startswith("--") or m.group(3).startswith(("tie.", "goal.")):
                continue
            for name in m.group(2).split():
                if name not in ("abbrev", "unfoldable", "pub", "data", "record", "let", "where", "λ"):
                    names.add(name)
    return names


def table():
    names = defined()
    words = {snake(n) for n in names if "-" not in n and re.search(r"[A-Z]", n)} | {"position_of", "frame_of", "is_refused"}
    made = {}
    for name in names:
        if not re.match(r"[a-z]", name) or not re.search(r"[A-Z-]", name):
            continue
        new = snake(name)
        if "-" in name and new in words:
            new += "_lem"
        if re.match(r"^[a-z][a-z0-9_']*$", new):
            made[name] = new
    return names, made


def apart(path, text):
    """The lemmas above, renamed where a file of proofs/ defines or cites one, before any definition comes to its name."""
    parts = os.path.relpath(path, ROOT).split(os.sep)
    if not path.endswith(".antt") or "proofs" not in parts:
        return text
    for name, crates in LEMMAS.items():
        if not crates or parts[1] in crates:
            text = re.sub(r"(?<![^\s(){}\[\];,])" + name + r"(?![^\s(){}\[\].;,])", name + "_lem", text)
    return text


def turn(text, made, hand):
    def one(m):
        name = m.group(0)
        new = made.get(name)
        if new is None:
            return name
        # In a proof by hand a name behind a dot is a step of the code, which Rattle names.
        if hand and m.start() > 0 and text[m.start() - 1] == "." and "-" in name:
            return name
        return new
    return TOKEN.sub(one, text)


def turn_code(text, made):
    """Clauses, imports and comments of a .rt file; no string."""
    parts = re.split(r'("(?:[^"\\\n]|\\.)*")', text)
    return "".join(p if i % 2 else turn(p, made, False) for i, p in enumerate(parts))


def main():
    names, made = table()
    together = {}
    for old, new in made.items():
        together.setdefault(new, []).append(old)
    changed = 0
    for path in texts(".antt", ".rt", ".edit"):
        text = was = open(path, encoding="utf-8").read()
        text = apart(path, text)
        tokens = set(TOKEN.findall(text))
        for new, olds in together.items():
            here = [o for o in olds if o in tokens]
            if here and (len(here) > 1 or new in tokens):
                print(f"look: {os.path.relpath(path, ROOT)}: {' '.join(here)} beside {new}")
        if path.endswith(".rt"):
            to = turn_code(text, made)
        else:
            to = turn(text, made, path.endswith("/Proof.antt"))
        if to != was:
            open(path, "w", encoding="utf-8").write(to)
            changed += 1
    print(f"respell: {len(made)} names in {changed} files")


main()
