"""Write cases as lines, and what each must answer and leave; make_writes.py says how a case is written.

The scripts beside it put their cases together with it.
"""
import os

from reader import DOCUMENT_01
from writer import runs

CASES, EXPECTED = [], []


def entry_text(entries):
    parts = []
    for e in entries:
        if parts and parts[-1][0] == e:
            parts[-1][1] += 1
        else:
            parts.append([e, 1])
    return ",".join(f"{k:x}:{i}:{o}:{n}*{times}" for (k, i, o, n), times in parts) or "-"


def fnv1a(image):
    """FNV-1a of an image. Not a CRC-32: each commit ends with that sum of itself, so it would not tell what whole
    commits hold, only where they end."""
    value = 0x811C9DC5
    for byte in image:
        value = (value ^ byte) * 0x01000193 % 2 ** 32
    return value


def case(name, op, size, prog, images, entries, data, answer, after, numbers=(0, 1), count=0, seed=7,
         rules=DOCUMENT_01, erased=0xFF, limit=None):
    """`answer` is what is printed behind the name; `after` the two images. A case that is made for another erased byte
    too has that at the end of its name."""
    name += "" if erased == 0xFF else f"-erased-{erased:02x}"
    CASES.append(" ".join(map(str, (name, op, size, prog, *numbers, count, seed, rules, f"{erased:02x}",
                                    "-" if limit is None else limit, runs(images[0]), runs(images[1]),
                                    entry_text(entries), runs(data)))))
    EXPECTED.append(f"{name}: {answer} images {fnv1a(after[0]):08x} {fnv1a(after[1]):08x}")


def record(log, prog):
    """What is printed of the record, as the reader reads the log."""
    forward = "none" if log.forward is None else f"{log.forward[0]} {log.forward[1]:08x}"
    erased = "yes" if log.erased(prog) else "no"
    return (f"end {log.ends} tag {log.last:08x} count {log.count} rev {log.revision} erased {erased} "
            f"forward {forward}")


def write(directory):
    """The cases so far, into two files of this directory."""
    os.makedirs(directory, exist_ok=True)
    for name, lines in (("cases", CASES), ("expected", EXPECTED)):
        with open(os.path.join(directory, name), "w") as f:
            f.write("\n".join(lines) + "\n")
    print(f"{len(CASES)} cases")
