#!/usr/bin/env python3
"""Deadlines of every length, by the examples that read them: only one of four bytes is read, and any other is told with
its length. They go by the audit's rule, so the pairs are the audit's: the cases audit-deadline-of-N.

    tests/examples/deadlines.py DEADLINE RESTART     the commands that print a deadline and a controller's restart
"""
import sys

from programs import cases, said

PREFIX = "audit-deadline-of-"


def tried(data, size, deadline, restart):
    """Slot 0 is u, with a payload of three bytes and a deadline of so many, all zero where there are four."""
    told = {deadline: (0, "0\n", ""), restart: (0, "due 0 u payload 3 deadline 0\n", "")}
    if size != 4:
        told = {deadline: (1, "", f"slot 0 has a deadline of {size} bytes\n"),
                restart: (0, f"NO DEADLINE 0 u payload 3 deadline of {size} bytes\n", "")}
    for command, expected in told.items():
        answer = said(command, data)
        if answer != expected:
            sys.exit(f"{command}, deadline of {size} bytes: {answer}, not {expected}")


sizes = {int(name[len(PREFIX):]): data for name, data in cases().items() if name.startswith(PREFIX)}
if not {0, 4, 5} <= sizes.keys():
    sys.exit(f"samples/listings lacks the cases {PREFIX}N")
for size, data in sizes.items():
    tried(data, size, *sys.argv[1:])
