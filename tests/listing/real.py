#!/usr/bin/env python3
"""Lists every pair of samples/real or samples/zero by littlefs's rule: record, slots and user attributes must be what
the littlefs that wrote the pairs shows (shown.txt; real/README.md has its lines).

    tests/listing/real.py samples/real crates/list/out/list      prints each difference and exits 1, or one line with what
                                                            was compared

A struct is listed with its length: of inline data that is the size, of a directory or a CTZ list it is 8.
"""
import difflib
import os
import subprocess
import sys

LITTLEFS, INLINE, NO_TAIL = "1", 0x201, ("4294967295",) * 2


def pairs(text):
    """The lines of each pair, as words."""
    found = []
    for line in text.splitlines():
        words = line.split()
        if words[0] == "pair":
            found.append([])
        found[-1].append(words)
    return found


def name(digits):
    """As the listing shows it: bytes outside 0x21 to 0x7e, and the backslash, as \\xHH."""
    return "".join(chr(b) if 0x21 <= b <= 0x7E and b != 0x5C else f"\\x{b:02x}" for b in bytes.fromhex(digits))


def record_lines(first, _, rev, end, __, count, erased, split, *tail):
    tail = "none" if split == "0" and tail == NO_TAIL else " ".join(["hard" if split == "1" else "soft", *tail])
    return [f"rev {rev}", f"block {first}", f"end {end}", f"count {count}", f"tail {tail}",
            f"erased {'yes' if erased == '1' else 'no'}"]


def slot_line(id, type, label, struct, size, _):
    return f"slot {id} {int(type):03x} {name(label)} {int(struct):03x} {size if int(struct) == INLINE else 8}"


def attr_line(id, type, data):
    return f"attr {id} {0x300 + int(type):03x} {data}"


def listed(folder, program, pair):
    _, file, _, prog, n0, n1, *_ = pair
    with open(os.path.join(folder, file), "rb") as image:
        done = subprocess.run([*program, prog, n0, n1, LITTLEFS], stdin=image, capture_output=True, timeout=60)
    return (done.stdout + done.stderr).decode("latin-1").splitlines()


def compared(shown, have):
    """The expected lines of a pair, and the listed ones.

    While a move is pending littlefs shows the slots behind the moved one as if it were gone; it is in the log still, so
    the listing has them one further. Of the moved slot and the one behind it, which littlefs shows in its place,
    shown.txt has nothing; that both are listed the count says."""
    moved = next((int(id) for kind, id, *_ in shown if kind == "hidden"), 1023)
    want = record_lines(*shown[1][1:])
    for kind, id, *words in shown[2:]:
        if kind != "hidden":
            want.append((slot_line if kind == "slot" else attr_line)(int(id) + (int(id) > moved), *words))
    count = sum(line.startswith("slot ") for line in have)
    unseen = tuple(f"{kind} {id} " for kind in ("slot", "attr") for id in (moved, moved + 1))
    return want + [f"slots {shown[1][6]}"], [line for line in have if not line.startswith(unseen)] + [f"slots {count}"]


def main(folder, *program):
    counts, differences = {"pair": 0, "slot": 0, "attr": 0}, 0
    with open(os.path.join(folder, "shown.txt")) as f:
        every = pairs(f.read())
    for shown in every:
        want, have = compared(shown, listed(folder, program, shown[0]))
        for line in difflib.ndiff(want, have):
            if line[0] in "-+":
                differences += 1
                print(f"{shown[0][1]}: {'littlefs shows' if line[0] == '-' else 'listed'}: {line[2:]}")
        for kind in counts:
            counts[kind] += sum(words[0] == kind for words in shown)
    print(f"{os.path.basename(folder)} pairs by littlefs's rule: {counts['pair']} pairs, {counts['slot']} slots, "
          f"{counts['attr']} attributes, {differences} differences")
    return 1 if differences or not all(counts.values()) else 0


if __name__ == "__main__":
    if len(sys.argv) < 3:
        sys.exit(__doc__)
    sys.exit(main(*sys.argv[1:]))
