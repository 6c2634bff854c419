#!/usr/bin/env python3
"""The wheel from an index beside the one by lookups: of every listing's pair that is regular by littlefs's rule `wheel`
prints what `restart` prints, without the payloads, and exits as it does; any other it refuses with -202.

    tests/examples/wheel.py RESTART WHEEL..     the commands of a controller's restart and of the wheel from an index
"""
import re
import sys

from programs import LISTINGS, cases, said

PAYLOAD = re.compile(r" payload (-|[0-9]+)(?= deadline )")


def irregular():
    """The names of the cases that the listing refuses with -202, by littlefs's rule."""
    with open(f"{LISTINGS}/expected-littlefs") as f:
        texts = f.read().split("== ")[1:]
    return {text.split("\n", 1)[0] for text in texts if text.endswith("refused -202\n")}


def tried(name, data, refused, restart, wheels):
    status, text, _ = said(restart, data)
    expected = (1, "") if refused else (status, PAYLOAD.sub("", text))
    for wheel in wheels:
        *answer, why = said(wheel, data)
        if tuple(answer) != expected or refused != ("-202" in why):
            sys.exit(f"{wheel}, {name}: {answer} {why}, not {expected}")


refused, pairs = irregular(), cases()
if not refused or not refused < pairs.keys():
    sys.exit("samples/listings has no irregular pair, or one that is no case")
for name, data in pairs.items():
    tried(name, data, name in refused, sys.argv[1], sys.argv[2:])
print(f"wheels from an index: {len(pairs)} pairs, {len(refused)} of them irregular, as restart has them by lookups")
