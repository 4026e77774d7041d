#!/usr/bin/env python3
"""model.py: writes stdout of this crate into its own folder, from stdin. It is a plain model of the reading and its positions (docs/RULES.md, 5 and 18),
written from the rules: it reads all of the bytes at once, since no cut may change an answer."""
import pathlib

ADDRESSES = [0x00, 0x0E, 0x10, 0x12, 0x13, 0x14, 0x80, *range(0x90, 0x98), 0xC0, 0xC2, 0xC4, 0xC8, 0xCC, 0xCE, 0xEA, 0xEC, 0xEE]


def check(body):
    r = 0
    for b in body:
        r ^= b
        for _ in range(8):
            r = (r << 1 ^ 0xD5) & 255 if r & 128 else r << 1
    return r


def first(s):
    """The first answer of a string and how many bytes it drops, or None where more is needed."""
    if not s:
        return None
    if s[0] not in ADDRESSES:
        return f"1 {s[0]} 0", 1
    if len(s) < 2:
        return None
    if not 2 <= s[1] <= 62:
        return f"2 {s[1]} 0", 1
    size = s[1] + 2
    if len(s) < size:
        return None
    calculated = check(s[2 : size - 1])
    if calculated != s[size - 1]:
        return f"3 {calculated} {s[size - 1]}", 1
    return f"0 {s[:size].hex()}", size


here = pathlib.Path(__file__).parent
stream = (here / "stdin").read_bytes()
at = 0
answers = ""
while answer := first(stream[at:]):
    answers += f"@{at} {answer[0]}, "
    at += answer[1]
with open(here / "stdout", "w") as out:
    for way in ["by value", "lent", "saved"]:
        for size in [1, 2, 3, 7, 16, 64, 4096]:
            out.write(f"{way}, {size}: {answers}{len(stream) - at} held @{at}\n")
