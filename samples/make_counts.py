#!/usr/bin/env python3
"""Prints what the program check_counts must print, worked out from Python's own whole numbers and its CRC-32.

    python3 samples/make_counts.py > crates/check_counts/stdout
"""
import zlib

WORDS = 1 << 20
MASK = (1 << 32) - 1


def answers(a):
    """Document 01's numbers: npw2 from the length of a - 1, ctz from the lowest set digit, popc from the ones."""
    npw2 = max(1, ((a - 1) & MASK).bit_length())
    ctz = (a & -a).bit_length() - 1 if a else 0
    return npw2, ctz, bin(a).count("1")


def corners():
    for k in range(32):
        yield from ((1 << k) - 1, 1 << k, (1 << k) + 1)
    yield MASK


def word(i):
    """The i-th word: spread over all words, then shifted down or up."""
    spread, digits = (i * 0x9E3779B1) & MASK, i // 2 % 32
    return (spread << digits) & MASK if i % 2 else spread >> digits


for a in corners():
    print("%08x npw2 %d ctz %d popc %d" % (a, *answers(a)))
register = zlib.crc32(bytes(n for i in range(WORDS) for n in answers(word(i)))) ^ MASK
print("words", WORDS)
print("by counts %08x" % register)
print("by shifts %08x" % register)
