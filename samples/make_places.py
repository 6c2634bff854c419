#!/usr/bin/env python3
"""Prints what the program check_place must print, worked out by writer.py from document 01 and document 02's forward
check and erased byte: what a commit of one attribute of four bytes lays behind a log, or why it is refused.

    python3 samples/make_places.py > crates/check_place/stdout
"""
from writer import ATTR, check_type, coincides, commit_bytes, end_of, forward_check, tag, with_forward

STORES = 1000


def said(erased, prog, image, off, last, data=b"data"):
    """ "-28", then why there is no room, "-204"; or the record and the seed, where it begins, the limit, the tag before
    it, the forward check if it is carried, and the check: its tag as stored, and the checksum. """
    laid = with_forward(len(image), prog, off, [(tag(ATTR, 0, 4), data)], erased)
    stored, _ = commit_bytes(prog, off, b"", last, laid, check_type(erased))
    if end_of(prog, off + len(stored)) > len(image):
        return "-28"
    if off % prog:
        return "-211"
    # erased bytes behind the end tag are no valid tag: the top bits of the two differ
    if (erased ^ last >> 24) < 0x80:
        return "-212"
    behind = [at for at in range(off, len(image)) if image[at] != erased]
    if behind:
        return "-213 at %d" % behind[0]
    if coincides(b"", stored, erased):
        return "-204"
    word, check = int.from_bytes(stored[-8:-4], "big"), int.from_bytes(stored[-4:], "little")
    forward = ""
    if len(laid) > 1:
        assert laid[1] == forward_check(prog, erased=erased)
        forward = "forward %d %08x " % (prog, int.from_bytes(laid[1][1][4:], "little"))
    begins = "record 12 end %d seed 34 from %d left %d behind %08x" % (off, off, STORES, last)
    return "%s %scheck %08x %08x" % (begins, forward, word, check)


def blank(size, erased=0xFF):
    return bytes([erased]) * size


ONES, ZEROS = 0x500FFC08, 0xD01FFC08
WRITTEN = blank(90) + b"\xfe" + blank(9) + b"\x7f" + blank(29)
# with these four bytes one of the three checksums is four erased bytes
SAME, SAME_ZEROS = b"\xf8\xf9\xaf\xc4", b"\x76\x79\x9a\xfb"
for words, *case in [
    ("of a pair", 0xFF, 16, blank(256), 32, ONES),
    # sizes that fit no pair: no multiple of the program size, and fewer than 128 bytes
    ("no multiple", 0xFF, 7, blank(130), 28, ONES),
    ("below 128", 0xFF, 4, blank(100), 28, ONES),
    # as much room as a forward check asks for, as a commit without one does, and a byte less than each
    ("a unit left", 0xFF, 7, blank(63), 28, ONES),
    ("a byte less", 0xFF, 7, blank(62), 28, ONES),
    ("full", 0xFF, 7, blank(49), 28, ONES),
    ("too short", 0xFF, 7, blank(48), 28, ONES),
    # an end that is no multiple of the program size, an end tag of the other byte, a room that is written to, a
    # checksum that coincides; of two the first
    ("short, aside", 0xFF, 7, blank(48), 30, ONES),
    ("aside", 0xFF, 7, blank(130), 30, ONES),
    ("aside, other tag", 0xFF, 7, blank(130), 30, ZEROS),
    ("other tag", 0xFF, 7, blank(130), 28, ZEROS),
    ("other tag, written", 0xFF, 7, WRITTEN, 28, ZEROS),
    ("written", 0xFF, 7, WRITTEN, 28, ONES),
    ("written, coincides", 0xFF, 7, WRITTEN, 28, ONES, SAME),
    ("coincides", 0xFF, 7, blank(130), 28, ONES, SAME),
    ("zeros", 0x00, 7, blank(130, 0), 28, ZEROS),
    ("zeros, other tag", 0x00, 7, blank(130, 0), 28, ONES),
    ("zeros, coincides", 0x00, 7, blank(130, 0), 28, ZEROS, SAME_ZEROS),
]:
    print("%s: %s" % (words, said(*case)))
