#!/usr/bin/env python3
"""Writes the two pair images that the examples read, samples/q212.pair and samples/instructions.pair, and what the
examples must print of them, examples/restart.expected and, without the payloads, examples/wheel.expected: first
q212.pair, then instructions.pair.

The images come from writer.py, the text from the tables of what each pair holds in the end; nothing is taken from the
port or from the examples. A table says it by hand: no reader of logs stands between. The pairs are as the library wrote
them before it wrote forward checks, and stay so, byte for byte. Run by hand when a pair changes.
"""
import os

from writer import ATTR, CREATE, CTZ, DELETE, FILE, HARD, INLINE, appended, block, entry_tags, tag

HERE = os.path.dirname(os.path.abspath(__file__))
PROG, DIRECTORY, SUPERBLOCK, DIR_STRUCT, REMOVED = 16, 0x002, 0x0FF, 0x200, 1023


def seconds(number):
    return number.to_bytes(4, "little")


def entries(*parts):
    """(type, id, data) as the writer's entries and their data; data None is a removal."""
    listed, data = [], b""
    for kind, id, body in parts:
        listed.append((kind, id, len(data), REMOVED if body is None else len(body)))
        data += body or b""
    return listed, data


def log(size, revision, first, *later):
    """A block: its first commit, and the later ones behind it."""
    image, end, last = block(size, PROG, entry_tags(*entries(*first)), revision)
    for commit in later:
        image, _, end, last = appended(image, PROG, end, last, *entries(*commit), None, forward=False)
    return image


def save(name, *blocks):
    with open(os.path.join(HERE, name), "wb") as f:
        f.write(b"".join(blocks))


def shown_name(name):
    """Document 01: "Name bytes outside 0x21 to 0x7e, and the backslash, print as \\xHH"."""
    return "".join(chr(b) if 0x21 <= b <= 0x7E and b != 0x5C else f"\\x{b:02x}" for b in name)


def shown(held, tail=None, payloads=True):
    """What the examples print. `held` has slot, name, payload's length and the deadline, a number or a text; a missing
    one is `-`."""
    def line(mark, slot):
        payload = f" payload {slot[2]}" if payloads else ""
        return f"{mark} {slot[0]} {shown_name(slot[1])}{payload} deadline {slot[3]}"

    due = sorted((s for s in held if s[2] != "-" and isinstance(s[3], int)), key=lambda s: (s[3], s[0]))
    lines = [line("due", s) for s in due]
    lines += [line("NO DEADLINE", s) for s in held if s[2] != "-" and not isinstance(s[3], int)]
    lines += [line("NO PAYLOAD", s) for s in held if s[2] == "-" and s[3] != "-"]
    return lines + ([f"goes on in blocks {tail[0]} and {tail[1]}"] if tail else [])


# ---- document 01's listing pair: "second block all 0xff; first 128 bytes, revision 1, .."
Q212 = log(128, 1, [(CREATE, 0, b""), (FILE, 0, b"q212"), (INLINE, 0, b"abc"), (ATTR, 0, b"\x90\x5f\x01\x00")])
LISTING = "01000000 bfefffff 40000004 71323132 20000007 616263 17500007 905f0100 674ffc09 4738e44d"
assert Q212 == bytes.fromhex(LISTING).ljust(128, b"\xff")
save("q212.pair", Q212, b"\xff" * 128)
Q212_HELD = [(0, b"q212", 3, 90000)]  # 0x15f90

# ---- a yard's instructions. Block 0 is the older one, and must not be read: its deadline is too early.
OLD = log(512, 6, [(CREATE, 0, b""), (FILE, 0, b"q212"), (INLINE, 0, b"abc"), (ATTR, 0, seconds(1))])
HEAD = seconds(9)  # the CTZ struct's first word: the file's last block
NEW = log(
    512, 7,
    # the superblock and a directory, which are no instructions, though the directory has a deadline's attribute
    [(CREATE, 0, b""), (SUPERBLOCK, 0, b"littlefs"), (INLINE, 0, bytes(24)),
     (CREATE, 1, b""), (DIRECTORY, 1, b"done"), (DIR_STRUCT, 1, seconds(6) + seconds(7)), (ATTR, 1, seconds(5)),
     (CREATE, 2, b""), (FILE, 2, b"q212"), (INLINE, 2, b"abc"), (ATTR, 2, seconds(100)),
     (CREATE, 3, b""), (FILE, 3, b"q213"), (INLINE, 3, b"lift 7"), (ATTR, 3, seconds(3600)), (0x375, 3, b"\x01"),
     (HARD, 1023, seconds(4) + seconds(5))],
    # a deadline set anew; a long instruction, in blocks of its own; an instruction that is gone again
    [(ATTR, 2, seconds(90000)),
     (CREATE, 4, b""), (FILE, 4, b"gone"), (INLINE, 4, b"x"), (ATTR, 4, seconds(7)), (DELETE, 4, b""),
     (CREATE, 4, b""), (FILE, 4, b"q214"), (CTZ, 4, HEAD + seconds(4096)), (ATTR, 4, seconds(86400))],
    # the two faults: a deadline that was taken away, and a payload that was cut to nothing
    [(CREATE, 5, b""), (FILE, 5, b"q215"), (INLINE, 5, b"move to 12 C"), (ATTR, 5, seconds(60)),
     (CREATE, 6, b""), (FILE, 6, b"q216"), (INLINE, 6, b"lower"), (ATTR, 6, seconds(5400))],
    [(ATTR, 5, None), (INLINE, 6, b"")],
    # as late as q214, under a name that is no plain text; a deadline of the wrong size; an empty file
    [(CREATE, 7, b""), (FILE, 7, b"q217 \\\xb5"), (INLINE, 7, b"go"), (ATTR, 7, seconds(86400)),
     (CREATE, 8, b""), (FILE, 8, b"q218"), (INLINE, 8, b"stop"), (ATTR, 8, b"\x3c\x00"),
     (CREATE, 9, b""), (FILE, 9, b"note"), (INLINE, 9, b"")])
save("instructions.pair", OLD, NEW)
HELD = [(2, b"q212", 3, 90000), (3, b"q213", 6, 3600), (4, b"q214", 4096, 86400), (5, b"q215", 12, "-"),
        (6, b"q216", "-", 5400),
        (7, b"q217 \\\xb5", 2, 86400), (8, b"q218", 4, "of 2 bytes"), (9, b"note", "-", "-")]

for example, payloads in (("restart", True), ("wheel", False)):
    with open(os.path.join(HERE, "..", "examples", f"{example}.expected"), "w") as f:
        lines = shown(Q212_HELD, payloads=payloads) + shown(HELD, tail=(4, 5), payloads=payloads)
        f.write("\n".join(lines) + "\n")
