#!/usr/bin/env python3
"""model.py: writes stdin and stdout of this crate into its own folder. It is a plain model of the kit log (docs/RULES.md, 16), written from the rules: what
stands in stdout comes from here and not from the program."""
import pathlib

ADDRESSES = {0x00, 0x0E, 0x10, 0x12, 0x13, 0x14, 0x80, *range(0x90, 0x98), 0xC0, 0xC2, 0xC4, 0xC8, 0xCC, 0xCE, 0xEA, 0xEC, 0xEE}
SECONDS = [0, 127, 128, 16383, 16384, 2**32 - 1]


def check(body):
    r = 0
    for b in body:
        r ^= b
        for _ in range(8):
            r = (r << 1 ^ 0xD5) & 255 if r & 128 else r << 1
    return r


def frame(address, *body):
    return bytes([address, len(body) + 1, *body, check(body)])


def is_frame(f):
    return 4 <= len(f) <= 64 and f[0] in ADDRESSES and f[1] + 2 == len(f) and check(f[2:-1]) == f[-1]


def groups(n):
    out = []
    while n > 127:
        out.append(n % 128 + 128)
        n //= 128
    return bytes(out + [n])


def entry(seconds, f):
    return groups(seconds) + groups(len(f)) + f


# ---- reading


class Refused(Exception):
    """A number, and how many bytes were taken."""


def number(s, i):
    value = 0
    for k in range(5):
        if i == len(s):
            raise Refused(9, i)
        b = s[i]
        i += 1
        value += (b % 128) << 7 * k
        if b < 128:
            if (k > 0 and b == 0) or value >= 2**32:
                raise Refused(9, i)
            return value, i
    raise Refused(9, i)


def read(s):
    """The entries, how many bytes are taken, and the number of the end."""
    entries = []
    try:
        first, i = number(s, 0)
        if first != 1:
            raise Refused(9, i)
        while i < len(s):
            seconds, i = number(s, i)
            size, i = number(s, i)
            if not 4 <= size <= 64:
                raise Refused(10, i)
            for k in range(size):
                if i + k == len(s):
                    raise Refused(9, i + k)
                b = s[i + k]
                wrong = (k == 0 and b not in ADDRESSES) or (k == 1 and b + 2 != size) or (k == size - 1 and b != check(s[i + 2 : i + k]))
                if wrong:
                    raise Refused(10, i + k + 1)
            entries.append((seconds, s[i : i + size]))
            i += size
    except Refused as r:
        return entries, r.args[1], r.args[0]
    return entries, i, 0


# ---- what is stored

items, lines = b"", []


def item(kind, content):
    global items
    assert len(content) < 255
    items += bytes([len(content) + 1]) + kind + content


def heading(text):
    item(b"h", text.encode())
    lines.append("-- " + text)


def spelled(s):
    return s.hex()


def log_line(s):
    entries, taken, end = read(s)
    again = ", written again the same" if end == 0 else ""
    return spelled(s) + ":" + "".join(" %d %s," % (t, spelled(f)) for t, f in entries) + " taken %d, end %d" % (taken, end) + again


def reads(*logs):
    for s in logs:
        item(b"r", bytes(s))
        lines.append(log_line(bytes(s)))


heading("entries written; with one byte less; with none")
ping = frame(0xC8, 0)
full = frame(0xEE, *range(61))
frames = [ping, frame(0xEA, 8, 1, 2), frame(0x00, 9), frame(0xC8, 0x1E, *range(250, 256)), frame(0x80, 0x14, *[0x55] * 10), full]
bad = [b"", ping[:3], full[:-1] + bytes([full[-1] ^ 1]), bytes([0xC7]) + ping[1:], bytes([0xC8, 3, 0, 0]), ping + b"\0"]
written = b"\1"
for i, f in enumerate(frames + bad + [bytes([0xC8, 63] + [0] * 63)] + frames):
    item(b"w", bytes([i % 6]) + f)
    t = SECONDS[i % 6]
    e = entry(t, f)
    if is_frame(f):
        lines.append("%d %s: %s, in %d bytes 5, in 0 bytes 5" % (t, spelled(f), spelled(e), len(e) - 1))
        written += e
    else:
        lines.append("%d %s: 10, in 0 bytes 10" % (t, spelled(f)))

heading("every beginning of a log of three entries")
three = b"\1" + entry(0, ping) + entry(300, frame(0xEA, 8, 1, 2)) + entry(2**32 - 1, frame(0x00, 9))
reads(*[three[:k] for k in range(len(three) + 1)])

heading("one byte of it changed")
for k, b in enumerate(three):
    for v in sorted({(b + 1) % 256, (b - 1) % 256, b ^ 128, 0, 255, 3, 4, 64, 65} - {b}):
        reads(three[:k] + bytes([v]) + three[k + 1 :])

heading("both sides of each number")
for t in [0, 127, 128, 16383, 16384, 2**21 - 1, 2**21, 2**28 - 1, 2**28, 2**32 - 1]:
    reads(b"\1" + entry(t, ping))
p = b"\4" + ping
reads(b"\1\x80\0" + p, b"\1\x80\x80\x80\x80\x10" + p, b"\1\x80\x80\x80\x80\x80\1" + p, b"\1\xff\xff\xff\xff\x7f" + p, b"\1\x81\x80\0" + p)
reads(b"\1\0\3" + ping[:3], b"\1" + entry(5, full), b"\1" + entry(5, full[:-1] + bytes([full[-1] ^ 1])), b"\1\0\x41\xc8\x3f" + bytes(63))
reads(b"\1\0\0", b"\1\0\x83\0", b"\1\0\xff\x7f", b"\1\0\x80\x80\x80\x80\x10", b"\2" + entry(0, ping), b"\0", b"\x81\0", b"\x81\x01", b"\x80" * 5, b"\x80" * 4)
reads(b"\1" + entry(0, bytes([0xC7, 2, 0, 0])), b"\1" + entry(0, bytes([0xC8, 3, 0, 0])), b"\1" + entry(0, bytes([0xC8, 2, 0, 1])))
reads(b"\1" + entry(0, ping) + entry(1, ping)[:-1] + b"\1" + entry(2, ping))

heading("after the end")
for s in [b"\1", b"", b"\2", three, three[:-1], three[:-1] + b"\0"]:
    item(b"e", s)
    n = read(s)[2]
    more = "more" if n == 0 else "%d" % n
    said = ", end %d, end %d, piece - %s taken 0, piece 01- %d taken 0, piece - %d taken 0, end %d" % (n, n, more, n or 9, n or 9, n or 9)
    lines.append(log_line(s).partition(", end ")[0] + said)

heading("all entries written, as one log")
lines.append(log_line(written))

here = pathlib.Path(__file__).parent
(here / "stdin").write_bytes(items)
(here / "stdout").write_text("".join(l + "\n" for l in lines))
