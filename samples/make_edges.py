#!/usr/bin/env python3
"""Writes the pairs at the edges that the program `check_edges` fetches (crates/check_edges/data), and what it must
print (crates/check_edges/stdout).

What is expected is worked out here from document 01, beside each pair; nothing is taken from the program. Run by hand
when the set changes.
"""
import os
import zlib

HERE = os.path.join(os.path.dirname(os.path.abspath(__file__)), "..", "crates", "check_edges")
SIZE = 128


def checksum(data):
    """The register over the bytes from 0xffffffff, with no final inversion."""
    return zlib.crc32(data) ^ 0xffffffff


def tag(kind, id, size):
    return kind << 20 | id << 10 | size


def block(entries, check_size, revision=1):
    """One commit: the tags chained, the check tag 0x500 of the given size, its checksum, then erased flash."""
    data, previous = revision.to_bytes(4, "little"), 0xffffffff
    for this, body in entries + [(tag(0x500, 1023, check_size), b"")]:
        data += (this ^ previous).to_bytes(4, "big") + body
        previous = this
    data += checksum(data).to_bytes(4, "little")
    return data.ljust(SIZE, b"\xff")


PAIRS = [
    # a name raises the count to id + 1: 1,023 is found; 4 + (4 + 1) + (4 + 19) = 32
    ("count-1023", block([(tag(0x001, 1022, 1), b"a")], 19), "found rev 1 end 32 count 1023"),
    # "count above 1,023": -2, with the record as read
    ("count-1024", block([(tag(0x001, 1023, 1), b"a")], 19), "refused -2 rev 1 end 32 count 1024"),
    # 4 + (4 + 120) = 128: the end is the block size
    ("end-at-the-block", block([], 120), "found rev 1 end 128 count 0"),
    # one byte more, and one program unit more: the entry passes the block though its checksum fits, so nothing is valid
    ("end-a-byte-past", block([], 121), "refused -84"),
    ("end-a-unit-past", block([], 136), "refused -84"),
    # document 01's case (10)
    ("all-erased", b"\xff" * SIZE, "refused -84"),
]

os.makedirs(os.path.join(HERE, "data"), exist_ok=True)
lines, names = [], []
for name, first, said in PAIRS:
    with open(os.path.join(HERE, "data", name), "wb") as f:
        f.write(first + b"\xff" * SIZE)
    names.append(name)
    lines.append(f"{name}: {said}")
# an empty file, and one whose halves are no block: -22
for name, data in (("empty", b""), ("too-short", b"\xff" * 64)):
    with open(os.path.join(HERE, "data", name), "wb") as f:
        f.write(data)
    names.append(name)
    lines.append(f"{name}: refused -22")
names.append("missing")
lines.append("missing: cannot be read")
open(os.path.join(HERE, "args"), "w").write("\n".join(names) + "\n")
open(os.path.join(HERE, "stdout"), "w").write("\n".join(lines) + "\n")
