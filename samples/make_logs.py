#!/usr/bin/env python3
"""Writes samples/logs/cases, inputs of the program log, and the text that each must give: expected, and full with
--full.

What is expected is worked out here from document 01's walk and the layout that docs/FORMAT.md tells, by a walk and a
rendering of its own; nothing is taken from the port. Cases and texts have the form of samples/make_listings.py, and
tests/listing/run.py shows the program's texts in the same form. Run by hand when the set changes.
"""
import os
import random
import zlib

from writer import runs

ROOT = os.path.dirname(os.path.abspath(__file__))
HERE = os.path.join(ROOT, "logs")
NO_SLOT = 1023
NAMES = {0x001: "reg", 0x002: "dir", 0x0FF: "superblock", 0x200: "dirstruct", 0x201: "inlinestruct", 0x202: "ctzstruct",
         0x401: "create", 0x4FF: "delete", 0x5FF: "fcrc", 0x600: "softtail", 0x601: "hardtail", 0x7FF: "movestate"}
CLASSES = ("name", "unknown", "struct", "userattr", "splice", "crc", "tail", "gstate")
HEADING = "off       tag       type name          id  len  data"


def summed(register, data):
    """The register behind the bytes, with no final inversion."""
    return zlib.crc32(data, register ^ 0xFFFFFFFF) ^ 0xFFFFFFFF


# ---- the text
def bytes_shown(data, places):
    return "".join(f"{b:02x} " for b in data).ljust(3 * places) + " " + "".join(
        chr(b) if 32 <= b <= 126 else "." for b in data)


def tag_shown(at, tag):
    kind, id, size = tag >> 20 & 0x7FF, tag >> 10 & 0x3FF, tag & 0x3FF
    name = "ccrc" if kind & 0x780 == 0x500 else NAMES.get(kind, CLASSES[kind >> 8])
    id, size = "." if id == NO_SLOT else id, "x" if size == 0x3FF else size
    return f"{at:08x}: {tag:08x}  {kind:03x}  {name:<12}{id:>4} {size:>4}"


def rows(at, data, full):
    return [f"      {at + i:08x}: {bytes_shown(data[i:i + 16], 16)}" for i in range(0, len(data), 16)] if full else []


def walked(block, full):
    """The lines of a block's walk, and where its last commit ends."""
    lines, at, previous, register, end = [], 4, 0xFFFFFFFF, summed(0xFFFFFFFF, block[:4]), None
    while True:
        if len(block) - at < 4:
            return lines + [f"stops at {at:08x}: the block ends"], end
        raw = block[at:at + 4]
        tag = int.from_bytes(raw, "big") ^ previous
        if tag >> 31:
            return lines + [f"stops at {at:08x}: no valid tag, the word there is {raw.hex()}"], end
        kind, size = tag >> 20 & 0x7FF, tag & 0x3FF
        length = 4 if size == 0x3FF else 4 + size
        check = kind & 0x780 == 0x500
        read = 8 if check else 12 if kind & 0x700 == 0x600 or kind == 0x5FF else 4
        columns = tag_shown(at, tag)
        if at + max(length, read) > len(block):
            return lines + [columns, f"stops at {at:08x}: the entry passes the end of the block"], end
        data = block[at + 4:at + length]
        if check:
            stored, computed = int.from_bytes(block[at + 4:at + 8], "little"), summed(register, raw)
            if stored != computed:
                return lines + [f"{columns}  checksum {stored:08x} does not fit, computed {computed:08x}",
                                f"stops at {at:08x}: the checksum does not fit"], end
            lines.append(f"{columns}  checksum {stored:08x} fits")
            previous, register, end = tag ^ (kind & 1) << 31, 0xFFFFFFFF, at + length
        else:
            lines.append(columns + ("  " + bytes_shown(data[:8], 8) if data and not full else ""))
            previous, register = tag, summed(register, block[at:at + length])
        lines += rows(at + 4, data, full)
        at += length


def count_of(block):
    """The slots that the last commit leaves, by document 01's fetch."""
    at, previous, register, count, taken = 4, 0xFFFFFFFF, summed(0xFFFFFFFF, block[:4]), 0, 0
    while len(block) - at >= 4:
        tag = int.from_bytes(block[at:at + 4], "big") ^ previous
        kind, id, size = tag >> 20 & 0x7FF, tag >> 10 & 0x3FF, tag & 0x3FF
        length, chunk = 4 if size == 0x3FF else 4 + size, kind & 0xFF
        if tag >> 31 or at + length > len(block):
            break
        previous, register = tag, summed(register, block[at:at + 4])
        if kind & 0x780 == 0x500:
            if at + 8 > len(block) or register != int.from_bytes(block[at + 4:at + 8], "little"):
                break
            previous, register, taken = tag ^ (kind & 1) << 31, 0xFFFFFFFF, count
        else:
            if (kind & 0x700 == 0x600 or kind == 0x5FF) and at + 12 > len(block):
                break
            register = summed(register, block[at + 4:at + length])
            if kind < 0x100:
                count = max(count, id + 1)
            elif kind & 0x700 == 0x400:
                count = max(count + chunk - (256 if chunk > 127 else 0), 0) % 65536
        at += length
    return taken


def raw_log(data, full):
    half = len(data) // 2
    if len(data) % 2 or not 256 <= len(data) <= 65536:
        return "refused -22\n"
    text, ends, revisions = "", [], []
    blocks = data[:half], data[half:]
    for number, block in enumerate(blocks):
        lines, end = walked(block, full)
        ends.append(end)
        revisions.append(int.from_bytes(block[:4], "little"))
        closing = "nothing is committed" if end is None else f"committed up to {end:08x}"
        text += "\n".join([f"block {number} rev {revisions[-1]}", HEADING] + lines + [closing, "", ""])
    if half % 16:
        return text + "refused -22\n"
    newer = 0 < (revisions[1] - revisions[0]) % 2 ** 32 < 1 << 31
    found = [n for n in ((1, 0) if newer else (0, 1)) if ends[n] is not None]
    if not found:
        return text + "refused -84\n"
    if count_of(blocks[found[0]]) > 1023:
        return text + "refused -2\n"
    return text + f"block {found[0]} answers\n"


# ---- inputs
def entry(kind, id, data=b"", removal=False):
    return kind << 20 | id << 10 | (0x3FF if removal else len(data)), data


def block(size, commits, revision=1, check=0x500, sizes=(), fill=b"\xff", broken=0):
    """A block of these commits, each ended on a multiple of 16, or by a check of the size given; `broken` alters the
    last checksum."""
    data, previous, start = revision.to_bytes(4, "little"), 0xFFFFFFFF, 0
    for k, entries in enumerate(commits):
        for word, body in entries:
            data += (word ^ previous).to_bytes(4, "big") + body
            previous = word
        length = sizes[k] if k < len(sizes) else 4 + -(len(data) + 8) % 16
        word = check << 20 | NO_SLOT << 10 | length
        data += (word ^ previous).to_bytes(4, "big")
        sum = summed(0xFFFFFFFF, data[start:]) ^ (broken if k == len(commits) - 1 else 0)
        data = (data + sum.to_bytes(4, "little"))[:len(data) + max(4, length)].ljust(len(data) + length, b"\xff")
        previous, start = word ^ (check & 1) << 31, len(data)
    return data.ljust(size, fill)[:size]


CASES, EXPECTED, FULL = [], [], []


def case(name, data, want=None, whole=None):
    """`want` and `whole` are the two texts written out by hand, where there are any: the rendering must agree."""
    CASES.append(f"{name} {runs(data)}")
    for full, given, texts in ((False, want, EXPECTED), (True, whole, FULL)):
        text = raw_log(data, full)
        assert given is None or text == given, (name, text)
        texts.append(f"== {name}\n" + (text if len(text) <= 2000
                                       else f"{len(text)} bytes, CRC-32 {zlib.crc32(text.encode()):08x}\n"))


def pair(name, first, second=None, want=None, whole=None):
    case(name, first + (b"\xff" * len(first) if second is None else second), want, whole)


# An erased block: the walk takes its first word for a name without data, which no check follows.
ERASED = f"""block 1 rev 4294967295
{HEADING}
00000004: 00000000  000  name           0    0
stops at 00000008: no valid tag, the word there is ffffffff
nothing is committed

"""
SLOT = [entry(0x401, 0), entry(0x001, 0, b"q212"), entry(0x201, 0, b"abc"), entry(0x374, 0, b"\x90\x5f\x01\x00")]
# document 01's listing block; its bytes and its checksum stand there
Q212 = f"""block 0 rev 1
{HEADING}
00000004: 40100000  401  create         0    0
00000008: 00100004  001  reg            0    4  71 32 31 32              q212
00000010: 20100003  201  inlinestruct   0    3  61 62 63                 abc
00000017: 37400004  374  userattr       0    4  90 5f 01 00              ._..
0000001f: 500ffc0d  500  ccrc           .   13  checksum 4de43847 fits
"""
pair("document-01", block(128, [SLOT]), None, Q212 + """stops at 00000030: no valid tag, the word there is ffffffff
committed up to 00000030

""" + ERASED + "block 0 answers\n", f"""block 0 rev 1
{HEADING}
00000004: 40100000  401  create         0    0
00000008: 00100004  001  reg            0    4
      0000000c: 71 32 31 32                                      q212
00000010: 20100003  201  inlinestruct   0    3
      00000014: 61 62 63                                         abc
00000017: 37400004  374  userattr       0    4
      0000001b: 90 5f 01 00                                      ._..
0000001f: 500ffc0d  500  ccrc           .   13  checksum 4de43847 fits
      00000023: 47 38 e4 4d ff ff ff ff ff ff ff ff ff           G8.M.........
stops at 00000030: no valid tag, the word there is ffffffff
committed up to 00000030

""" + ERASED + "block 0 answers\n")
pair("erased", b"\xff" * 128, None, ERASED.replace("block 1", "block 0") + ERASED + "refused -84\n")
pair("zeroed", bytes(128), bytes(128), "".join(f"""block {n} rev 0
{HEADING}
stops at 00000004: no valid tag, the word there is 00000000
nothing is committed

""" for n in (0, 1)) + "refused -84\n")

# torn: a second commit cut after any number of its bytes, and one whose checksum is another
second = block(128, [SLOT, [entry(0x401, 1), entry(0x001, 1, b"q213"), entry(0x374, 1, b"\x07\x00\x00\x00")]])
for cut in range(48, 81):
    pair(f"torn-at-{cut}", second[:cut] + b"\xff" * (128 - cut))
torn = second[:56] + b"\xff" * 72
pair("torn-in-a-name", torn, None, Q212 + """00000030: 40100400  401  create         1    0
00000034: 00100404  001  reg            1    4  ff ff ff ff              ....
stops at 0000003c: no valid tag, the word there is ffffffff
committed up to 00000030

""" + ERASED + "block 0 answers\n")
pair("checksum-broken", block(128, [SLOT], broken=0x80000000), None, Q212.replace(
    "checksum 4de43847 fits", "checksum cde43847 does not fit, computed 4de43847")
     + """stops at 0000001f: the checksum does not fit
nothing is committed

""" + ERASED + "refused -84\n")
pair("newer-block-torn", block(128, [SLOT], 4), block(128, [SLOT], 5, broken=1))
pair("newer-block", block(128, [SLOT], 4), block(128, [SLOT], 5))
pair("revision-wraps", block(128, [SLOT], 0xFFFFFFFF), block(128, [SLOT], 0))

# foreign: a text, noise, another file system's zeros and counts
text = (b"CONTAINER TERMINAL 7, CRANE 4, SHIFT PROTOCOL\r\n" * 20)[:512]
pair("foreign-text", text[:256], text[256:512])
random.seed(20261115)
for k in range(12):
    noise = bytes(random.randrange(256) for _ in range(2 * 512))
    case(f"foreign-noise-{k}", noise)
# noise that begins with tags: the first bits of each word are those of a valid tag
for k in range(12):
    words = []
    previous = 0xFFFFFFFF
    for _ in range(64):
        tag = random.randrange(1 << 31) & ~0x3F0
        words.append((tag ^ previous).to_bytes(4, "big") + bytes(random.randrange(256) for _ in range(tag & 0xF)))
        previous = tag
    case(f"foreign-tags-{k}", (bytes(4) + b"".join(words)).ljust(1024, b"\xff")[:1024] + b"\xff" * 1024)

# types by name: each that has one, and others of each class
kinds = sorted(NAMES) + [0x000, 0x003, 0x0FE, 0x100, 0x1FF, 0x203, 0x2FF, 0x300, 0x374, 0x3FF, 0x400, 0x402, 0x4FE]
kinds += [0x580, 0x5FE, 0x602, 0x6FF, 0x700, 0x7FE]
pair("types", block(1024, [[entry(kind, kind % 1023, bytes([kind & 0xFF] * 8)) for kind in kinds]]))
pair("removals", block(256, [[entry(kind, 9, removal=True) for kind in (0x001, 0x201, 0x374, 0x401, 0x7FF)]]))
pair("ids", block(512, [[entry(0x374, id, b"\x00") for id in (0, 9, 10, 99, 100, 999, 1000, 1022, 1023)]]))
pair("lengths", block(8192, [[entry(0x374, 0, bytes(range(32, 32 + n))) for n in range(34)]
                             + [entry(0x201, 0, bytes(n)) for n in (99, 100, 255, 256, 999, 1000, 1022)]]))
pair("letters", block(512, [[entry(0x001, 0, bytes(range(256)))]]))
# tails and forward checks shorter and longer than the eight bytes that are read
pair("wide", block(256, [[entry(kind, NO_SLOT, bytes(range(n)))
                          for kind in (0x600, 0x601, 0x5FF) for n in (0, 3, 8, 12)]]))

# checks: sizes of less than four, a flipped bit 31, several commits, one after the other
for size in (4, 5, 13, 100):
    pair(f"check-of-{size}", block(256, [SLOT, [], SLOT], sizes=(size, size)))
for size in (0, 1, 2, 3):
    pair(f"check-of-{size}", block(256, [SLOT], sizes=(size,)))
pair("check-501", block(256, [SLOT, [entry(0x374, 0, b"\x01")]], check=0x501))
pair("check-57f", block(256, [SLOT], check=0x57F))
pair("commits", block(512, [[]] * 20))

# forward checks as the library lays them: of the 16 erased bytes behind each commit; and a second commit stopped behind
# its own, which no check follows
forward = entry(0x5FF, NO_SLOT, (16).to_bytes(4, "little") + summed(0xFFFFFFFF, b"\xff" * 16).to_bytes(4, "little"))
carried = block(128, [SLOT + [forward], [entry(0x374, 0, b"\x10\x0e\x00\x00"), forward]])
CARRIED = Q212[:Q212.index("0000001f")] + """\
0000001f: 5ffffc08  5ff  fcrc           .    8  10 00 00 00 e5 39 4c c0  .....9L.
0000002b: 500ffc11  500  ccrc           .   17  checksum fe088cb1 fits
00000040: 37400004  374  userattr       0    4  10 0e 00 00              ....
00000048: 5ffffc08  5ff  fcrc           .    8  10 00 00 00 e5 39 4c c0  .....9L.
"""
pair("forward-checks", carried, None, CARRIED + """\
00000054: 500ffc08  500  ccrc           .    8  checksum f6e17053 fits
stops at 00000060: no valid tag, the word there is ffffffff
committed up to 00000060

""" + ERASED + "block 0 answers\n")
pair("forward-check-torn", carried[:84] + b"\xff" * 44, None, CARRIED + """\
stops at 00000054: no valid tag, the word there is ffffffff
committed up to 00000040

""" + ERASED + "block 0 answers\n")

# the end of a block: a commit that fills it, entries that reach it, reads that pass it, less than a tag's room
pair("ends-full", block(128, [[entry(0x201, 0, bytes(104))]], sizes=(8,)))
for left in range(0, 14):
    body = [entry(0x201, 0, bytes(128 - 4 - 4 - left))]
    pair(f"ends-with-{left}-left", block(128, [body]))
for kind in (0x600, 0x5FF, 0x500, 0x374):
    for left in (4, 7, 8, 11, 12):
        at = 128 - left
        data = bytes(4) + (0x20100000 | at - 8 ^ 0xFFFFFFFF).to_bytes(4, "big") + bytes(at - 8)
        data += ((0x20100000 | at - 8) ^ (kind << 20 | NO_SLOT << 10)).to_bytes(4, "big")
        pair(f"ends-{kind:x}-{left}", data.ljust(128, b"\x00"))

# whole blocks of 32,768 bytes: the most tags, the longest texts, and one commit up to the last byte
room = 32768 - 4 - 8
pair("full-of-tags", block(32768, [[entry(0x374, 0)] * (room // 4)]),
     block(32768, [[entry(0x401, 0)] * (room // 4)], 2))
pair("full-of-bytes", block(32768, [[entry(0x374, 1022, b"\x00")] * (room // 5)]),
     block(32768, [[entry(0x201, 1022, b"\x7f")] * (room // 5)], 2))
pair("full-of-entries", block(32768, [[entry(0x201, 0, bytes(1022))] * (room // 1026) + [entry(0x300, 0, bytes(930))]]))
pair("full-of-checks", block(32768, [[]] * 2047), block(32768, [[]] * 2047, 0xFFFFFFFF))

# what can't be two blocks
case("empty", b"", "refused -22\n", "refused -22\n")
case("odd", block(128, [SLOT]) + b"\xff" * 127, "refused -22\n")
case("too-short-a-block", b"\xff" * 254, "refused -22\n")
case("65538-bytes", b"\xff" * 65538, "refused -22\n")
case("far-too-long", b"\xff" * 70000, "refused -22\n")
# two blocks that fetch refuses for their size are shown
case("no-multiple-of-16", block(132, [SLOT]) + b"\xff" * 132)
pair("count-1024", block(128, [[entry(0x001, 1023, b"a")]]))
pair("irregular", block(128, [[entry(0x001, 5, b"a")]]))

# pairs that a real littlefs wrote
for name in sorted(os.listdir(os.path.join(ROOT, "real"))):
    if name.endswith(".pair"):
        with open(os.path.join(ROOT, "real", name), "rb") as f:
            case("real-" + name[:-5], f.read())

for name, lines in (("cases", CASES), ("expected", EXPECTED), ("full", FULL)):
    with open(os.path.join(HERE, name), "w") as f:
        f.write("\n".join(lines) + "\n" if name == "cases" else "".join(lines))
