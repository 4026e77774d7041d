#!/usr/bin/env python3
"""model.py: writes stdin, a kit log of many entries, and stdout, its lines, into its own folder. It is written from docs/RULES.md, 16: what stands in stdout
comes from here and not from the program."""
import pathlib

ADDRESSES = [0x00, 0x0E, 0x10, 0x12, 0x13, 0x14, 0x80, *range(0x90, 0x98), 0xC0, 0xC2, 0xC4, 0xC8, 0xCC, 0xCE, 0xEA, 0xEC, 0xEE]


def check(body):
    r = 0
    for b in body:
        r ^= b
        for _ in range(8):
            r = (r << 1 ^ 0xD5) & 255 if r & 128 else r << 1
    return r


def frame(address, *body):
    return bytes([address, len(body) + 1, *body, check(body)])


def groups(n):
    out = []
    while n > 127:
        out.append(n % 128 + 128)
        n //= 128
    return bytes(out + [n])


# Each count of decimal digits and of groups, with the numbers on both sides of it; then whatever comes.
seconds = [0, 1, 2**32 - 1]
for k in range(1, 10):
    seconds += [10**k - 1, 10**k]
for k in range(1, 5):
    seconds += [128**k - 1, 128**k]

# Every payload length with every address, so that frames are cut by the program's reads at every place.
state = 1
entries = []
for i in range(61 * 24):
    state = state * 1103515245 + 12345 & 0x7FFFFFFF
    payload = [(state >> 8) + i * j & 255 for j in range(i % 61)]
    s = seconds[i] if i < len(seconds) else state >> state % 31
    entries.append((s, frame(ADDRESSES[i % 24], i & 255, *payload)))

log = groups(1)
lines = []
for s, f in entries:
    log += groups(s) + groups(len(f)) + f
    lines.append(f"{s} frame {f[0]:02X} {f[2]:02X} {len(f) - 4}\n")
here = pathlib.Path(__file__).parent
(here / "stdin").write_bytes(log)
(here / "stdout").write_text("".join(lines) + "end\n")
