#!/usr/bin/env python3
"""Renames this repository's choice by a computed test, if◌then◌else◌ of base's specs/Choice, to when◌then◌else◌.

usage: python3 tools/rename_choice.py     at the top; run once

The kit's Prelude has an operator of the first name, of another level and fixity, and takes no other under it. In .antt files the word
`if` outside comments becomes `when`, in .rt files within clauses alone, in must-fail edits where the text has a `then`.
"""
import os
import re

OLD, NEW = "if\u25ccthen\u25ccelse\u25cc", "when\u25ccthen\u25ccelse\u25cc"
WORD = re.compile(r"(?<![^\s(){}\[\];,\u00ab])if(?![^\s(){}\[\];,])")


def antt(text):
    out = []
    for line in text.split("\n"):
        code, mark, rest = line.partition("--")
        if mark and code and not code[-1].isspace():
            code, mark, rest = line, "", ""
        out.append(WORD.sub("when", code) + mark + rest)
    return "\n".join(out)


def clauses(text):
    def one(m):
        depth, i = 0, m.end() - 1
        while True:
            depth += {"{": 1, "}": -1}.get(text[i], 0)
            i += 1
            if depth == 0:
                return i
    out, at = [], 0
    for m in re.finditer(r"(?m)^\s+(?:requires|ensures)\b[^{\n]*\{", text):
        if m.start() < at:
            continue
        end = one(m)
        out += [text[at:m.end()], WORD.sub("when", text[m.end():end])]
        at = end
    return "".join(out) + text[at:]


def edit(text):
    return "\n".join(WORD.sub("when", l) if l[:5] in ("old: ", "new: ") and " then " in l else l for l in text.split("\n"))


for folder, dirs, files in os.walk("crates"):
    dirs[:] = [d for d in dirs if d != "out"]
    for f in files:
        path = os.path.join(folder, f)
        if not f.endswith((".antt", ".rt", ".edit")):
            continue
        text = was = open(path, encoding="utf-8").read()
        if f.endswith(".antt") and OLD in text:
            text = antt(text)
        elif f.endswith(".rt") and OLD in text:
            text = clauses(text)
        elif f.endswith(".edit"):
            text = edit(text)
        text = text.replace(OLD, NEW)
        if text != was:
            open(path, "w", encoding="utf-8").write(text)
