#!/usr/bin/env python3
"""The fourth number of the programs list, audit and find, the rule of a regular log: 0 is document 01's, as where there
is none, 1 is littlefs's, any other is refused; and what is no number is not understood.

    tests/listing/rules.py PAIR PROGRAM..     PAIR: one that only littlefs's rule takes; PROGRAM: with the words that
                                              stand before the numbers

Prints the first difference and exits 1, or one line.
"""
import subprocess
import sys

pair, *program = sys.argv[1:]


def shown(*words):
    with open(pair, "rb") as image:
        done = subprocess.run([*program, *words], stdin=image, capture_output=True, text=True, timeout=60)
    return done.stdout, done.stderr


def has(words, holds):
    if not holds(*shown(*words)):
        sys.exit(f"{' '.join(program + words)}: {shown(*words)}")


numbers = ["16", "0", "1"]
for words in ([], numbers, numbers + ["0"], numbers + ["00"]):
    has(words, lambda text, said: text.endswith("refused -202\n") and not said)
for rule in ("1", "01"):
    has(numbers + [rule], lambda text, said: text and "refused" not in text and not said)
for rule in ("2", "3", "10", "256", "257", "65536", "65537", "4294967295"):
    has(numbers + [rule], lambda text, said: text == "refused -22\n" and not said)
for rule in (["x"], [""], ["-1"], ["1x"], ["4294967296"], ["4294967297"], ["1", "1"]):
    has(numbers + rule, lambda text, said: not text and said.startswith("usage: "))
print(f"{' '.join(program)}: 0 and 1 are rules, other numbers are refused")
