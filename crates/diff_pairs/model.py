#!/usr/bin/env python3
"""model.py: writes data, pairs of files NAME.left and NAME.right, and stdout, what diff says of each, and of single calls at the edges, into its own folder. It is a plain model of the reading
(docs/RULES.md, 5), the lines (13) and the comparison, written from the rules: what stands in stdout comes from here and not from the program."""
import itertools
import pathlib

ADDRESSES = [0x00, 0x0E, 0x10, 0x12, 0x13, 0x14, 0x80, *range(0x90, 0x98), 0xC0, 0xC2, 0xC4, 0xC8, 0xCC, 0xCE, 0xEA, 0xEC, 0xEE]


def check(body):
    r = 0
    for b in body:
        r ^= b
        for _ in range(8):
            r = (r << 1 ^ 0xD5) & 255 if r & 128 else r << 1
    return r


def frame(address, *body):
    return bytes([address, len(body) + 1, *body, check(body)])


def wrong(address, carried, *body):
    return bytes([address, len(body) + 1, *body, carried])


# ---- What diff says

def first(data):
    """The first answer, and how many bytes it drops. Of a frame all bytes count, of a refusal its word and what it carries."""
    if not data:
        return None, 0
    if data[0] not in ADDRESSES:
        return ("sync", data[0]), 1
    if len(data) == 1:
        return None, 0
    n = data[1] + 2
    if n < 4 or n > 64:
        return ("length", data[1]), 1
    if len(data) < n:
        return None, 0
    right = check(data[2:n - 1])
    return (("frame", *data[:n]), n) if right == data[n - 1] else (("crc", right, data[n - 1]), 1)


def reading(data):
    answers, at = [], 0
    while True:
        answer, dropped = first(data[at:at + 64])
        if answer is None:
            return answers, data[at:]
        answers.append(answer)
        at += dropped


def line(answer):
    if answer is None:
        return "-"
    word, *values = answer
    if word == "frame":
        return f"frame {values[0]:02X} {values[2]:02X} {len(values) - 4}"
    return " ".join([word, *(f"{v:02X}" for v in values)])


def compared(left, right):
    (lefts, left_tail), (rights, right_tail) = reading(left), reading(right)
    pairs = list(itertools.zip_longest(lefts, rights))
    lines = [f"{i} {line(a)} | {line(b)}\n" for i, (a, b) in enumerate(pairs, 1) if a != b]
    if left_tail != right_tail:
        lines.append(f"tail held {len(left_tail)} | held {len(right_tail)}\n")
    return "".join(lines) + f"agree {len(pairs) + 1 - len(lines)} differ {len(lines)}\n"


# ---- The pairs

state = 1


def below(n):
    global state
    state = state * 1103515245 + 12345 & 0x7FFFFFFF
    return (state >> 12) % n


def telemetry(n):
    """A frame of n bytes."""
    return frame(ADDRESSES[below(24)], below(256), *(below(256) for _ in range(n - 4)))


def changed(f, *places):
    """The frame with other bytes at these places, and its check byte."""
    body = [b ^ 0x5A if i in places else b for i, b in enumerate(f)]
    return frame(body[0], *body[2:-1])


battery = frame(0xC8, 0x08, 0x00, 0x78, 0x00, 0x0F, 0x00, 0x05, 0xDC, 0x32)
link = frame(0xEA, 0x14, 1, 2, 100, 5, 0, 2, 3, 4, 99, 0xF6)
ping = frame(0xC8, 0x00)
bad = wrong(0xC8, 0x01, 0x00)
largest = frame(0xEE, 0x7F, *range(60))
waits = bytes([0xC8, 0x02, 0x00])
pairs = {}

# Frames, every kind of refusal and a tail, twice; nothing, twice; and all of it beside nothing.
some = battery + b"\x55" + ping + bad + link + b"\xC8\x3F" + largest + waits
pairs["equal"] = some, some
pairs["empty"] = b"", b""
pairs["one_empty"] = some, b""

# The right file ends inside the sixth frame: its tail is what is there of it.
frames = [battery, link, ping, telemetry(26), telemetry(19), largest, telemetry(7), telemetry(30)]
pairs["beginning"] = b"".join(frames), b"".join(frames)[:sum(map(len, frames[:5])) + 40]

# A byte of the third frame is lost on the way: its candidate reaches into the next one, and the places behind are others.
frames = [battery, link, frame(0xC8, 0x09, 0x27, 0x74, 0x05), battery, link, ping, battery]
whole = b"".join(frames)
lost = len(battery) + len(link) + 4
pairs["lost"] = whole, whole[:lost] + whole[lost + 1:]

# Equal lines over other payloads: in the first byte, the middle one, the last one; where the check byte is the same too; and where frames that are the
# same stand at other positions, behind a longer one.
twins = next((frame(0xC8, 0x1E, 0, 0), frame(0xC8, 0x1E, a, b)) for a in range(1, 256) for b in range(256) if check([0x1E, a, b]) == check([0x1E, 0, 0]))
assert twins[0][-1] == twins[1][-1] and len(twins[0]) == len(twins[1])
pairs["payload"] = (battery + link + ping + battery + largest + twins[0] + largest + battery + ping + link,
                    battery + changed(link, 3) + ping + changed(battery, 6) + changed(largest, 62) + twins[1] + largest + changed(battery, 10) + largest + link)

# The same kind with other values: a byte that is no address; a length byte; a calculated check byte and the same carried one, and the other way round;
# frames of another address, with the same check byte, of another type, and of another length.
pairs["values"] = (b"\x55" + b"\x56" + b"\xC8\x3F\x55" + wrong(0xC8, 0x01, 0x01, 0x55) + wrong(0xC8, 0x01, 0x01, 0x55) + ping + ping + ping + battery,
                   b"\x54" + b"\x56" + b"\xC8\x01\x55" + wrong(0xC8, 0x01, 0x02, 0x55) + wrong(0xC8, 0x02, 0x01, 0x55) + frame(0xEA, 0x00) + frame(0xC8, 0x01)
                   + frame(0xC8, 0x00, 0x00) + battery)

# Tails of other lengths; of the same length, 63 bytes with another last one; and with another first one alone.
pairs["tails"] = ping + waits, ping
pairs["tail_bytes"] = ping + largest[:63], ping + largest[:62] + b"\x00"
pairs["tail_first"] = waits, b"\xEA" + waits[1:]

# Refusals that agree, though other bytes of their candidates differ: 3F behind an address is `length 3F`, and then `sync 3F`, whichever address it was.
# So two wrong frames of such pairs, with the same remainder, give the same answers all the way. At the end one wrong frame, to two addresses.
def pairs_of(addresses):
    return [0x7A, *(b for a in addresses for b in (a, 0x3F))]


one = pairs_of([0xC8, 0xEA, 0xEE])
other = next(pairs_of(a) for a in itertools.product(ADDRESSES, repeat=3) if check(pairs_of(a)) == check(one) and all(x != y for x, y in zip(a, [0xC8, 0xEA, 0xEE])))
pairs["same_refusals"] = (wrong(0xC8, 0x55, *one) + b"\xC8\x3F" + b"\x00\xFF" + wrong(0xC8, 0x55, 0x01, 0x02) + ping,
                          wrong(0xC8, 0x55, *other) + b"\xEC\x3F" + b"\x97\xFF" + wrong(0x90, 0x55, 0x01, 0x02) + ping)

# Each kind beside each kind, and, behind the end of the right file, each kind beside a dash.
# A wrong frame `bad` is `crc`, `sync`, `length` and `sync`.
lefts = [ping * 4, bad, ping, bad, bad + ping, bad, b"\xC8\x3F" + ping * 2, bad + ping]
rights = [bad, ping * 4, ping, bad, b"\x56" + bad, b"\xC8\x3F" + ping * 2, bad]
pairs["kinds"] = b"".join(lefts), b"".join(rights)


def kinds(left, right):
    a, b = reading(left)[0], reading(right)[0]
    return {(x[0] if x else "-", y[0] if y else "-") for x, y in itertools.zip_longest(a, b)}


words = ["frame", "sync", "length", "crc"]
missing = {(x, y) for x in words for y in [*words, "-"]} - kinds(*pairs["kinds"])
assert not missing, missing

# The same files, exchanged: each kind behind the end of the left one.
pairs["swapped"] = pairs["kinds"][::-1]

# Files of more than three blocks of 65,536 bytes, most of whose frames agree.
BLOCK = 65536
left, right = b"", b""


def both(n):
    global left, right
    f = telemetry(n)
    left, right = left + f, right + f


def until(of, n):
    """Frames on both sides, until that side has n bytes."""
    while n - len(of()) > 136:
        both(4 + below(61))
    rest = n - len(of())
    for size in [rest] if rest <= 64 else [rest // 2, rest - rest // 2] if rest <= 128 else [64, rest // 2 - 32, rest - 32 - rest // 2]:
        both(size)
    assert len(of()) == n


def apart(a, b):
    global left, right
    left, right = left + a, right + b


# The first block ends behind an address. That frame has another last byte of payload, the one before it another first one.
until(lambda: left, BLOCK - 31)
apart(telemetry(30), b"")
right += changed(left[-30:], 3)
apart(telemetry(26), b"")
right += changed(left[-26:], 24)
for _ in range(3):
    both(26)
# From here on what agrees stands at other positions, 63 bytes further in the right file.
apart(b"\x55", telemetry(64))
# The second block ends inside a wrong frame on the left; its byte 131,072, on the right, is a changed one of a payload.
until(lambda: left, 2 * BLOCK - 2)
cut = right
apart(bad, ping + frame(0xEA, 0x00) + battery + b"\x55")
until(lambda: right, 3 * BLOCK)
n, at = 2 * BLOCK, 0
while True:
    answer, dropped = first(right[at:at + 64])
    if at + dropped > n:
        break
    at += dropped
assert answer[0] == "frame" and at + 3 <= n < at + dropped - 1 and n < len(cut), (at, dropped)
right = right[:at] + changed(right[at:at + dropped], n - at) + right[at + dropped:]
# The third one ends, on the right, with a frame; the next one is another.
apart(ping, battery)
until(lambda: left, 200000)
apart(largest[:40], largest[:40])
pairs["blocks"] = left, right

# ---- Single calls at the edges (RULES 19.10)

MOST = 2**64 - 1


def call(left, left_ends, right, right_ends, agree, differ, room):
    """What a call shows, and its text."""
    if agree + differ + 1 + len(left) + len(right) > MOST:
        return f"refused 12 0 0 {agree} {differ} 0 bytes\n"
    done, text = [0, 0], ""
    while True:
        (a, n), (b, k) = first(left[done[0]:]), first(right[done[1]:])
        if room - len(text) < 95:
            wants = "room"
        elif a is None and not left_ends:
            wants = "left"
        elif b is None and not right_ends:
            wants = "right"
        elif a is None and b is None:
            wants, same = "nothing", left[done[0]:] == right[done[1]:]
            text += "" if same else f"tail held {len(left) - done[0]} | held {len(right) - done[1]}\n"
            agree, differ = agree + same, differ + (not same)
            text += f"agree {agree} differ {differ}\n"
        else:
            text += "" if a == b else f"{agree + differ + 1} {line(a)} | {line(b)}\n"
            agree, differ = agree + (a == b), differ + (a != b)
            done = [done[0] + n, done[1] + k]
            continue
        return f"{wants} {done[0]} {done[1]} {agree} {differ} {len(text)} bytes\n{text}"


edges = {
    "rooms": [(b"", True, b"", True, 0, 0, 95), (b"", True, b"", True, 0, 0, 94), (ping, True, bad, True, 0, 0, 128)],
    "sides": [(b"", False, b"", False, 0, 0, 128), (b"", True, b"", False, 0, 0, 128), (waits, False, b"\x55", True, 0, 0, 128),
              (b"\x55", True, waits, False, 0, 0, 128), (b"\x55\xC8", False, b"\x55\xC8", False, 0, 0, 128)],
    "counts": [(b"", True, b"", True, MOST - 1, 0, 95), (b"", True, b"", True, 0, MOST - 1, 95), (b"", True, b"", True, MOST, 0, 95),
               (b"", True, b"", True, MOST, MOST, 95), (b"\x55", True, b"", True, MOST - 2, 0, 128), (b"\x55", True, b"", True, MOST - 1, 0, 128),
               (b"", True, b"\x55", True, 1, MOST - 2, 128)],
}

here = pathlib.Path(__file__).parent
(here / "data").mkdir(exist_ok=True)
text = ""
for name, (left, right) in pairs.items():
    (here / "data" / f"{name}.left").write_bytes(left)
    (here / "data" / f"{name}.right").write_bytes(right)
    text += f"{name}:\n" + compared(left, right)
for name, calls in edges.items():
    text += f"{name}:\n" + "".join(call(*c) for c in calls)
(here / "stdout").write_text(text)
