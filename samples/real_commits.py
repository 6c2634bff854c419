#!/usr/bin/env python3
"""The commits that a real littlefs appended to its logs, as write cases: the same entries in the same place must give
littlefs's own bytes. What is expected is these bytes and what the reader reads in them; the writer works out none. Only
the padding behind a checksum, which littlefs fills with 0xff up to the end of the program unit, stays erased.

    samples/real_commits.py DIRECTORY ERASED OUT

DIRECTORY is samples/real with ERASED ff, samples/zero with 00, or one of whole volumes, NAME.img.gz with NAME.json.
Writes a case for each commit that the library takes too into OUT/cases and OUT/expected, and says how many there are,
and why the others are none. Run by hand; of the commits in samples/real and samples/zero make_writes.py has some.
"""
import collections
import glob
import gzip
import json
import os
import sys

from reader import DOCUMENT_01, FORWARD, LITTLEFS, SUPER, Log, directory, fetched
from write_cases import case, record, write
from writer import end_of, filled

REAL = os.path.join(os.path.dirname(os.path.abspath(__file__)), "real")
FORWARD_LENGTH, CHECK_LENGTH = 12, 8  # with their tags, the check without its padding
# a block of a pair: which of the two it is, the numbers of both, and what its flash erases to
Block = collections.namedtuple("Block", "name image prog place numbers erased")


class Commit:
    """A commit of a block's log, numbered from 0, and the block before it and after it: littlefs's own bytes as far as
    the log went then, and erased bytes in place of what came later, and of this commit's padding."""

    def __init__(self, block, log, number):
        self.name, self.block = f"{block.name}-commit-{number}", block
        ends = [at + check.length for (at, _), check in zip(log.commits, log.checks)]
        self.starts, self.ends = ends[number - 1], ends[number]
        at, entries = log.commits[number]
        self.before, self.after = (filled(block.image[:end], len(block.image), block.erased)
                                   for end in (self.starts, at + CHECK_LENGTH))
        self.given = [(tag, data) for tag, data in entries if tag.type != FORWARD]
        self.forward = len(self.given) < len(entries)


def pair_of(name, folder=REAL):
    """The two images of a pair, and the numbers that its name ends with."""
    with open(os.path.join(folder, name + ".pair"), "rb") as f:
        image = f.read()
    return (image[:len(image) // 2], image[len(image) // 2:]), tuple(map(int, name.split("-")[-2:]))


def of_pairs(folder):
    """The pairs that shown.txt names: name, images, numbers and program size."""
    with open(os.path.join(folder, "shown.txt")) as f:
        shown = [line.split() for line in f if line.startswith("pair ")]
    for _, file, _, prog, *_ in shown:
        name = file[:-len(".pair")]
        yield name, *pair_of(name, folder), int(prog)


def of_volumes(folder):
    """The same of every pair of the volumes."""
    for file in sorted(glob.glob(os.path.join(folder, "*.img.gz"))):
        name = os.path.basename(file)[:-len(".img.gz")]
        with gzip.open(file) as f, open(os.path.join(folder, name + ".json")) as g:
            image, volume = f.read(), json.load(g)
        size, prog = volume["geometry"]["block_size"], volume["geometry"]["prog_size"]
        for numbers in (tuple(pair["blocks"]) for pair in volume["seen"]["pairs"]):
            images = tuple(image[number * size:(number + 1) * size] for number in numbers)
            yield f"{name}-{numbers[0]}-{numbers[1]}", images, numbers, prog


def blocks(folder, erased):
    """Both blocks of every pair of samples/real or samples/zero, or of a directory of whole volumes."""
    pairs = of_pairs if os.path.exists(os.path.join(folder, "shown.txt")) else of_volumes
    for name, images, numbers, prog in pairs(folder):
        for place in (0, 1):
            yield Block(f"{name}-block-{place}", images[place], prog, place, numbers, erased)


def appends(folder, erased):
    """Every commit but the first of its log: with that one the block was written anew, and littlefs lays no creates
    then."""
    for block in blocks(folder, erased):
        log = Log(block.image)
        for number in range(1, len(log.commits)):
            yield Commit(block, log, number)


def left_out(commit):
    """Why this commit is no case: the library refuses it, or may end it elsewhere. None where all bytes must agree."""
    size, prog = len(commit.before), commit.block.prog
    laid = commit.starts + sum(tag.length for tag, _ in commit.given)
    # littlefs counts a forward check into the end also where there is no room for it, up to the block's end: there the
    # library, which counts only what it lays, may end before it
    assert commit.ends == end_of(prog, min(laid + FORWARD_LENGTH + CHECK_LENGTH, size)), commit.name
    if not 4 <= prog <= 512:
        return "of another program size than 4 to 512"
    if not commit.forward:
        assert commit.ends == size, commit.name
        later = size > end_of(prog, laid + CHECK_LENGTH)
        return f"without forward check, ending {'later than' if later else 'with'} the library's"
    slots = Log(commit.before).slots(LITTLEFS)
    if slots is None:
        return "behind a log that is not regular"
    if any(tag.type == SUPER for tag, _ in commit.given) or directory(slots, commit.given, DOCUMENT_01) is None:
        return "with an entry that a commit does not take"
    return None


def cases(folder, erased):
    """The commits that are cases."""
    return (commit for commit in appends(folder, erased) if left_out(commit) is None)


def few(commits):
    """Of each block the first, and for each block size one of each list of types and lengths: the others say the same
    again."""
    seen = set()
    for commit in commits:
        kind = (len(commit.before), *((tag.type, tag.size) for tag, _ in commit.given))
        if not {commit.block.name, kind} <= seen:
            yield commit
        seen |= {commit.block.name, kind}


def add_case(commit):
    """The commit by littlefs's rule, with the other block erased."""
    block, entries, data = commit.block, [], b""
    for tag, body in commit.given:
        entries.append((tag.type, tag.id, len(data), tag.size))
        data += body
    other = filled(b"", len(block.image), block.erased)
    images, after = ((image, other) if block.place == 0 else (other, image)
                     for image in (commit.before, commit.after))
    number, log = fetched(b"".join(after), block.prog)
    assert (number, log.ends) == (block.place, commit.ends), commit.name
    case(f"littlefs-{commit.name}", "commit", len(other), block.prog, images, entries, data, record(log, block.prog),
         after, numbers=block.numbers, rules=LITTLEFS, erased=block.erased)


def main(folder, erased, out):
    for commit in cases(folder, erased):
        add_case(commit)
    write(out)
    reasons = collections.Counter(left_out(commit) or "taken" for commit in appends(folder, erased))
    print(f"{sum(reasons.values())} commits: " + "; ".join(f"{n} {reason}" for reason, n in reasons.most_common()))


if __name__ == "__main__":
    if len(sys.argv) != 4 or sys.argv[2] not in ("ff", "00"):
        sys.exit(__doc__)
    main(sys.argv[1], int(sys.argv[2], 16), sys.argv[3])
