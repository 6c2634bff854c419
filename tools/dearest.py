#!/usr/bin/env python3
"""What the gate's time goes to.

    rt ci | tools/dearest.py watch FILE   passes every line on, and notes each crate proved in FILE
    tools/dearest.py report FILE          prints the ten dearest steps beside rt ci, and how long the gate took for what

FILE has a line for each thing noted: at which second, what it is (step or crate), its name. The gate notes its steps as
they begin, a crate is noted as it ends. Several crates are proved at a time, and rt tries their edits and runs the
programs behind them, so only the totals are told apart.
"""
import re
import sys
import time

PROVED = re.compile(r"rt: (?P<name>\w+) (proved|is kept)")
RT = "rt ci"


def watch(file):
    with open(file, "a", encoding="utf-8") as notes:
        for raw in sys.stdin.buffer: # rt may cut a line within a character
            sys.stdout.buffer.write(raw)
            sys.stdout.buffer.flush()
            said = PROVED.match(raw.decode("utf-8", "replace"))
            if said:
                print(int(time.time()), "crate", said["name"], file=notes)


def noted(file):
    with open(file, encoding="utf-8") as notes:
        rows = [line.rstrip("\n").split(" ", 2) for line in notes]
    return [(int(at), what, name) for at, what, name in rows]


def steps(notes, now):
    """The gate's own steps, each from where it begins to where the next does."""
    begun = [(at, name) for at, what, name in notes if what == "step"]
    ends = [at for at, _ in begun[1:]] + [now]
    return [(at, end, name) for (at, name), end in zip(begun, ends)]


def totals(notes, now):
    """Seconds until the last crate is proved, of what rt does behind that, and of all other steps."""
    own = steps(notes, now)
    began, ended = next(((at, end) for at, end, name in own if name.startswith(RT)), (now, now))
    proved = max((at for at, what, _ in notes if what == "crate"), default=began)
    return {"proving": proved - began, "must-fail edits and programs": ended - proved,
            "the rest": now - own[0][0] - (ended - began)}


def report(file):
    now, notes = int(time.time()), noted(file)
    dear = [(end - at, name) for at, end, name in steps(notes, now) if not name.startswith(RT)]
    for took, name in sorted(dear, key=lambda step: -step[0])[:10]:
        print(f"{took:5} s  {name}")
    print(", ".join(f"{name} {took // 60} min {took % 60} s" for name, took in totals(notes, now).items()))


def main(args):
    if len(args) != 2 or args[0] not in ("watch", "report"):
        sys.exit(__doc__)
    (watch if args[0] == "watch" else report)(args[1])


main(sys.argv[1:])
