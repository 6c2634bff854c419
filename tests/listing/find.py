#!/usr/bin/env python3
"""The program find against the listings that samples/make_listings.py worked out: a name that is there
shows the lines of the lowest slot that has it, as the listing has them; others show none; and what is refused to the
listing is refused to find. One question for each case; names, kinds of other names and rules take turns.

    tests/listing/find.py samples/listings PROGRAM..

Prints the first difference and exits 1, or one line.
"""
import re
import subprocess
import sys

from run import unrolled

folder, *program = sys.argv[1:]
shown = {"found": 0, "none": 0, "refused": 0}


def texts(name):
    """The listing of each case; a long one is there by its checksum only, and is left out."""
    with open(f"{folder}/{name}", encoding="latin-1", newline="\n") as f:
        parts = re.split(r"^== (\S+)\n", f.read(), flags=re.M)[1:]
    return {case: text for case, text in zip(parts[::2], parts[1::2]) if " bytes, CRC-32 " not in text}


def name_bytes(text):
    return re.sub(rb"\\x(..)", lambda m: bytes.fromhex(m[1].decode()), text.encode("latin-1"))


def slots(text):
    """Type and name of each slot that has one, and its lines, in the order of the listing."""
    for lines in re.findall(r"^slot .*\n(?:attr .*\n)*", text, flags=re.M):
        _, _, kind, name, *_ = lines.split(None, 5)
        if kind != "-":
            yield (int(kind, 16), name_bytes(name)), lines


def has(case, image, rule, kind, name, expected):
    words = [*program, str(kind), name, "16", "0", "1", str(rule)]
    done = subprocess.run(words, input=image, capture_output=True, timeout=60)
    if done.stdout.decode("latin-1") != expected or done.stderr:
        sys.exit(f"find {kind} {name!r} of {case}, rule {rule}: {done.stdout!r} {done.stderr!r}, not {expected!r}")
    shown["refused" if expected.startswith("refused") else "none" if expected == "none\n" else "found"] += 1


def others(kind, name):
    """Names near one that is there: the other type, a prefix, a longer one, one with another last byte."""
    return [(kind ^ 3, name), (kind, name[:-1]), (kind, name + b"."), (kind, name[:-1] + bytes([name[-1] ^ 1])),
            (kind + 0x100, name), (kind + 0x800, name), (kind, name * 1023)]


listings = texts("expected"), texts("expected-littlefs")
with open(f"{folder}/cases") as f:
    for turn, line in enumerate(f):
        case, runs = line.split()
        rule = turn % 2
        text = listings[rule].get(case)
        if text is None:
            continue
        image = unrolled(runs)
        if text.splitlines()[-1].startswith("refused"):
            has(case, image, rule, 1, b"q212", text.splitlines()[-1] + "\n")
            continue
        there = {}
        for key, lines in slots(text):
            there.setdefault(key, lines)
        # an argument has no zero byte
        keys = [key for key in there if 0 not in key[1]] or [(1, b"q212")]
        asked = keys[turn // 2 % len(keys)]
        if turn // 2 % 3 == 0:
            asked = others(*asked)[turn // 6 % 7]
        if asked[1] and 0 not in asked[1]:
            has(case, image, rule, *asked, there.get(asked, "none\n"))
has("an empty name", b"", 0, 1, b"", "refused -22\n")
if min(shown.values()) < 10:
    sys.exit(f"too few: {shown}")
print("find: " + ", ".join(f"{n} {what}" for what, n in shown.items()) + ", as the listings have it")
