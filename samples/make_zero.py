#!/usr/bin/env python3
"""Takes metadata pairs out of volumes that a real littlefs in C wrote on flash that erases to 0x00, with what that
littlefs shows of them, and writes samples/zero/.

    samples/make_zero.py VOLUMES      VOLUMES: what `volumes write 00 VOLUMES` wrote (samples/volumes.c)

Run by hand when the set changes; the result is kept in the repository. zero/README.md says what the files have.
"""
import os
import sys

from make_real import TAKE, few

ZERO = os.path.join(os.path.dirname(os.path.abspath(__file__)), "zero")
TAKE = {**TAKE, "churn-256": 99}  # of that volume all


def pairs_of(text):
    """The lines of each pair, with the `pair` line first."""
    found = []
    for line in text.splitlines():
        if line.startswith("pair "):
            found.append([])
        found[-1].append(line)
    return found


def is_full(lines):
    """Whether the log ends with its block: there littlefs takes the check tag 0x500, on this flash too."""
    return lines[0].split()[2] == lines[1].split()[4]


def main(volumes):
    os.makedirs(ZERO, exist_ok=True)
    out = []
    for name, most in TAKE.items():
        with open(os.path.join(volumes, name + ".txt")) as f, open(os.path.join(volumes, name + ".img"), "rb") as g:
            pairs, image = pairs_of(f.read()), g.read()
        taken = few(pairs, most)
        for lines in (lines for lines in pairs if lines in taken or is_full(lines)):
            _, file, size, _, n0, n1, *_ = lines[0].split()
            blocks = (image[int(n) * int(size):(int(n) + 1) * int(size)] for n in (n0, n1))
            with open(os.path.join(ZERO, file), "wb") as f:
                f.write(b"".join(blocks))
            out += lines
    with open(os.path.join(ZERO, "shown.txt"), "w") as f:
        f.write("\n".join(out) + "\n")
    counts = (f"{sum(line.startswith(kind + ' ') for line in out)} {what}"
              for kind, what in (("pair", "pairs"), ("slot", "slots"), ("attr", "attributes")))
    print(", ".join(counts))


if __name__ == "__main__":
    if len(sys.argv) != 2:
        sys.exit(__doc__)
    main(sys.argv[1])
