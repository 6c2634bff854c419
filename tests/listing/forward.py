#!/usr/bin/env python3
"""The forward checks that a real littlefs wrote are those that this library lays: of each commit of each pair, whether
it carries one, where that stands, and its bytes, beside what samples/writer.py lays of the same entries in the same
place.

    tests/listing/forward.py DIRECTORY ERASED     samples/real ff, samples/zero 00, or a directory of whole volumes,
                                                  NAME.img.gz with NAME.json

Prints each difference and exits 1, or one line with what was compared. littlefs sums the unit behind a commit as it is:
where that was not erased, it would differ.
"""
import collections
import os
import sys

ROOT = os.path.join(os.path.dirname(os.path.abspath(__file__)), "..", "..", "samples")
sys.path.insert(0, ROOT)
from reader import FORWARD, Log  # noqa: E402
from real_commits import blocks  # noqa: E402
from writer import with_forward  # noqa: E402


def differs(block, at, entries):
    """Whether the commit whose check stands at `at` has other entries than the library would lay in its place."""
    laid = [(tag.word, data) for tag, data in entries]
    given = [entry for entry, (tag, _) in zip(laid, entries) if tag.type != FORWARD]
    start = at - sum(4 + len(data) for _, data in laid)
    return laid != with_forward(len(block.image), block.prog, start, given, block.erased)


def main(directory, erased):
    counts, sizes, differences = collections.Counter(), collections.Counter(), 0
    for block in blocks(directory, erased):
        log = Log(block.image)
        counts["blocks"] += log.ends is not None
        for at, entries in log.commits:
            counts["commits"] += 1
            sizes[block.prog] += sum(tag.type == FORWARD for tag, _ in entries)
            if differs(block, at, entries):
                differences += 1
                print(f"{block.name}: the commit whose check stands at {at} has another forward check, or one too many")
    found = ", ".join(f"{number} of {prog} bytes" for prog, number in sorted(sizes.items()))
    print(f"forward checks that littlefs wrote on flash of 0x{erased:02x}: {found}, in {counts['commits']} commits of "
          f"{counts['blocks']} blocks; {differences} differences")
    return 1 if differences or not sum(sizes.values()) else 0


if __name__ == "__main__":
    if len(sys.argv) != 3 or sys.argv[2] not in ("ff", "00"):
        sys.exit(__doc__)
    sys.exit(main(sys.argv[1], int(sys.argv[2], 16)))
