#!/usr/bin/env python3
"""Writes samples/listings/cases, inputs of the programs list and audit, and the text that each must give: expected and
audited by document 01's rule of a regular log, expected-littlefs and audited-littlefs by littlefs's.

What is expected is worked out here from document 01 and the sentence of littlefs's rule alone, by a walk, a directory
(reader.py) and a rendering of its own; nothing is taken from the port. A case is one line, `NAME BYTES`, the bytes as
runs of hex (aa*9 is aa nine times), joined by commas, - for none. What is expected of it is a line `== NAME` and the
text behind it, or, for a text of more than 2,000 bytes, a line with its length and CRC-32. tests/listing/run.py shows
the program's text in the same form. Run by hand when the set changes.
"""
import os
import random
import zlib

from reader import (CHECK, CREATE, CTZ, DELETE, DIR, DIR_STRUCT, DOCUMENT_01, FILE, FORWARD, HARD, INLINE, LITTLEFS,
                    MOVE, NO_SLOT, SOFT, SUPER, attributes, fetched, summed)
from writer import runs

ROOT = os.path.dirname(os.path.abspath(__file__))
HERE = os.path.join(ROOT, "listings")
PROG = 16


# ---- document 01's text
def shown(name):
    """ "Name bytes outside 0x21 to 0x7e, and the backslash, print as \\xHH." """
    return "".join(chr(b) if 0x21 <= b <= 0x7E and b != 0x5C else f"\\x{b:02x}" for b in name)


def listing(data, rule):
    number, log = fetched(data, PROG)
    if number is None:
        return f"refused {log}\n"
    tail = f"{'hard' if log.split else 'soft'} {log.tail[0]} {log.tail[1]}" if log.has_tail() else "none"
    lines = [f"rev {log.revision}", f"block {number}", f"end {log.ends}", f"count {log.count}", f"tail {tail}",
             f"erased {'yes' if log.erased(PROG) else 'no'}"]
    slots = log.slots(rule)
    if slots is None:
        lines.append("refused -202")
    for id, slot in enumerate(slots or []):
        name, struct = slot.get("name"), slot.get("struct")
        lines.append(f"slot {id} " + (f"{name[0]:03x} {shown(name[1])}" if name else "- -") + " "
                     + (f"{struct[0]:03x} {len(struct[1])}" if struct else "- -"))
        for type, value in attributes(slot):
            lines.append(f"attr {id} {type:03x} {value.hex() or '-'}")
    return "\n".join(lines) + "\n"


# ---- the audit's text
def audit(data, rule):
    """The slots that have a payload and no deadline of four bytes, or a deadline of any length and no payload;
    directories and superblocks are not looked at."""
    number, log = fetched(data, PROG)
    if number is None:
        return f"refused {log}\n"
    slots = log.slots(rule)
    if slots is None:
        return "refused -202\n"
    lines, late, bare = [], 0, 0
    for id, slot in enumerate(slots):
        type, name = slot.get("name", (FILE, b""))
        struct, content = slot.get("struct", (None, b""))
        payload, deadline = struct == CTZ or (struct == INLINE and content != b""), slot.get(0x374)
        if type in (DIR, SUPER):
            continue
        if payload and (deadline is None or len(deadline) != 4):
            late, lack = late + 1, "no deadline" if deadline is None else f"deadline of {len(deadline)} bytes"
        elif not payload and deadline is not None:
            bare, lack = bare + 1, "no payload"
        else:
            continue
        lines.append(f"slot {id} {shown(name) or '-'} {lack}")
    return "\n".join(lines + [f"payload without deadline {late}", f"deadline without payload {bare}",
                              f"slots {len(slots)}"]) + "\n"


# ---- inputs
def entry(type, id, data=b"", removal=False):
    return type << 20 | id << 10 | (0x3FF if removal else len(data)), data


def block(size, commits, revision=1, check=CHECK, sizes=None, break_sum=False):
    """A block of these commits, each ended on a multiple of the program size, or by a check of the size given."""
    data, previous, start = revision.to_bytes(4, "little"), 0xFFFFFFFF, 0
    for k, entries in enumerate(commits):
        for word, body in entries:
            data += (word ^ previous).to_bytes(4, "big") + body
            previous = word
        least = 4 + -(len(data) + 8) % PROG
        word = check << 20 | NO_SLOT << 10 | (sizes[k] if sizes else least)
        data += (word ^ previous).to_bytes(4, "big")
        data += (summed(0xFFFFFFFF, data[start:]) ^ break_sum).to_bytes(4, "little")
        data = data.ljust(len(data) - 4 + (sizes[k] if sizes else least), b"\xff")
        previous, start = word ^ (check & 1) << 31, len(data)
    return data.ljust(size, b"\xff")[:size]


# each output: what it shows of a case, and by which rule
SHOWS = {"expected": (listing, DOCUMENT_01), "audited": (audit, DOCUMENT_01),
         "expected-littlefs": (listing, LITTLEFS), "audited-littlefs": (audit, LITTLEFS)}
CASES, TEXTS = [], {output: [] for output in SHOWS}


def case(name, data, *given):
    """`given` are the texts in the order of SHOWS, written out by hand where there are any: the renderings must agree
    with them."""
    CASES.append(f"{name} {runs(data)}")
    texts = [shows(data, rule) for shows, rule in SHOWS.values()]
    for output, text, by_hand in zip(SHOWS, texts, given + (None,) * 4):
        assert by_hand is None or text == by_hand, (name, output, text)
        TEXTS[output].append(f"== {name}\n" + (text if len(text) <= 2000
                                               else f"{len(text)} bytes, CRC-32 {zlib.crc32(text.encode()):08x}\n"))
    # what is regular by document 01 is so by littlefs's rule, and holds the same
    assert texts[1] == "refused -202\n" or texts[:2] == texts[2:], name


def pair(name, first, want=None, second=None, *others):
    case(name, first + (b"\xff" * len(first) if second is None else second), want, *others)


SLOT = [entry(CREATE, 0), entry(FILE, 0, b"q212"), entry(INLINE, 0, b"abc"), entry(0x374, 0, b"\x90\x5f\x01\x00")]
HEAD = "rev 1\nblock 0\nend 48\ncount 1\ntail none\nerased no\n"


def head(end, count=1, tail="none", rev=1, number=0, erased="no"):
    return f"rev {rev}\nblock {number}\nend {end}\ncount {count}\ntail {tail}\nerased {erased}\n"


# document 01's own
pair("document-01", block(128, [SLOT]), HEAD + "slot 0 001 q212 201 3\nattr 0 374 905f0100\n")
# attributes: removed, set anew, empty, removed and set again, in rising order
pair("attribute-removed", block(128, [SLOT, [entry(0x374, 0, removal=True)]]), head(64) + "slot 0 001 q212 201 3\n")
pair("attribute-empty", block(128, [SLOT + [entry(0x3FF, 0)]]),
     head(48) + "slot 0 001 q212 201 3\nattr 0 374 905f0100\nattr 0 3ff -\n")
pair("attributes-rising",
     block(128, [[entry(CREATE, 0), entry(0x3FF, 0, b"\xff"), entry(0x301, 0, b"\x01"), entry(0x300, 0, b"\x00"),
                  entry(0x301, 0, b"\x0a\xbc")]]),
     head(48) + "slot 0 - - - -\nattr 0 300 00\nattr 0 301 0abc\nattr 0 3ff ff\n")
pair("attribute-set-again", block(128, [SLOT, [entry(0x374, 0, removal=True)], [entry(0x374, 0, b"\x07")]]),
     head(80) + "slot 0 001 q212 201 3\nattr 0 374 07\n")
# missing parts
pair("no-name", block(128, [[entry(CREATE, 0), entry(INLINE, 0, b"abc")]]), head(32) + "slot 0 - - 201 3\n")
pair("no-struct", block(128, [[entry(CREATE, 0), entry(DIR, 0, b"d")]]), head(32) + "slot 0 002 d - -\n")
pair("nothing-in-it", block(128, [[entry(CREATE, 0)]]), head(16) + "slot 0 - - - -\n")
pair("no-slots", block(128, [[]]), head(16, 0))
pair("empty-inline-file", block(128, [[entry(CREATE, 0), entry(FILE, 0, b"e"), entry(INLINE, 0)]]),
     head(32) + "slot 0 001 e 201 0\n")
pair("directory-and-ctz",
     block(256, [[entry(CREATE, 0), entry(DIR, 0, b"dir"), entry(0x200, 0, bytes(8)), entry(CREATE, 1),
                  entry(FILE, 1, b"big"), entry(CTZ, 1, bytes(8))]]),
     head(64, 2) + "slot 0 002 dir 200 8\nslot 1 001 big 202 8\n")
pair("superblock", block(128, [[entry(CREATE, 0), entry(SUPER, 0, b"littlefs"), entry(INLINE, 0, bytes(24))]]),
     head(64) + "slot 0 0ff littlefs 201 24\n")
# slots that move
pair("slot-deleted",
     block(256, [SLOT + [entry(CREATE, 0), entry(FILE, 0, b"a"), entry(CREATE, 2), entry(FILE, 2, b"z")],
                 [entry(DELETE, 1)]]),
     head(80, 2) + "slot 0 001 a - -\nslot 1 001 z - -\n")
pair("all-deleted", block(128, [SLOT, [entry(DELETE, 0)]]), head(64, 0))
# names that need escapes
pair("name-escapes", block(128, [[entry(CREATE, 0), entry(FILE, 0, b" \\\x7f\xff\x00!~\x20x")]]),
     head(32) + "slot 0 001 \\x20\\x5c\\x7f\\xff\\x00!~\\x20x - -\n")
pair("name-every-byte", block(512, [[entry(CREATE, 0), entry(FILE, 0, bytes(range(256)))]]))
pair("name-of-1022", block(2048, [[entry(CREATE, 0), entry(FILE, 0, b"\n" * 1022)]]))
pair("name-a-dash", block(128, [[entry(CREATE, 0), entry(FILE, 0, b"-"), entry(INLINE, 0)]]),
     head(32) + "slot 0 001 - 201 0\n")
# tails
numbers = (7).to_bytes(4, "little") + (0xFFFFFFFE).to_bytes(4, "little")
pair("tail-soft", block(128, [SLOT + [entry(SOFT, NO_SLOT, numbers)]]),
     head(64, tail="soft 7 4294967294") + "slot 0 001 q212 201 3\nattr 0 374 905f0100\n")
pair("tail-hard", block(128, [SLOT + [entry(HARD, NO_SLOT, numbers)]]),
     head(64, tail="hard 7 4294967294") + "slot 0 001 q212 201 3\nattr 0 374 905f0100\n")
pair("tail-hard-null", block(128, [[entry(HARD, NO_SLOT, b"\xff" * 8)]]), head(32, 0, "hard 4294967295 4294967295"))
pair("tail-soft-null", block(128, [[entry(SOFT, NO_SLOT, b"\xff" * 8)]]), head(32, 0))
pair("tail-soft-one-null", block(128, [[entry(SOFT, NO_SLOT, b"\xff" * 4 + bytes(4))]]),
     head(32, 0, "soft 4294967295 0"))
# the other block, its revision, a revision that wraps
pair("second-block", block(128, [SLOT], 4), head(48, rev=5, number=1) + "slot 0 001 q212 201 3\nattr 0 374 905f0100\n",
     block(128, [SLOT], 5))
pair("revision-wraps", block(128, [SLOT], 0xFFFFFFFF),
     head(48, rev=0, number=1) + "slot 0 001 q212 201 3\nattr 0 374 905f0100\n", block(128, [SLOT], 0))
pair("newer-block-torn", block(128, [SLOT], 4), head(48, rev=4) + "slot 0 001 q212 201 3\nattr 0 374 905f0100\n",
     block(128, [SLOT], 5, break_sum=True))
pair("revision-highest", block(128, [[]], 0xFFFFFFFF), head(16, 0, rev=4294967295))
# the erased mark
forward = (32).to_bytes(4, "little") + summed(0xFFFFFFFF, b"\xff" * 32).to_bytes(4, "little")
ready = block(128, [SLOT + [entry(FORWARD, NO_SLOT, forward)]])
pair("erased", ready[:64] + b"\xff" * 64, head(64, erased="yes") + "slot 0 001 q212 201 3\nattr 0 374 905f0100\n")
pair("erased-no-more", ready[:64] + b"\xff" * 20 + b"\x00" + b"\xff" * 43,
     head(64) + "slot 0 001 q212 201 3\nattr 0 374 905f0100\n")
pair("erased-in-an-earlier-commit", block(128, [[entry(FORWARD, NO_SLOT, forward)], []]), head(48, 0, erased="yes"))
pair("erased-by-bit-31", block(128, [SLOT + [entry(FORWARD, NO_SLOT, forward)]], check=0x501),
     head(64) + "slot 0 001 q212 201 3\nattr 0 374 905f0100\n")
# what is not committed does not show
torn = block(128, [SLOT, [entry(CREATE, 1), entry(FILE, 1, b"new")]])
pair("not-committed", torn[:60] + b"\xff" * 68, HEAD + "slot 0 001 q212 201 3\nattr 0 374 905f0100\n")
# "-202 after the erased line": no create, an id too high, a check of another size, a bad struct
pair("irregular", block(128, [[entry(FILE, 5, b"a")]]), head(32, 6) + "refused -202\n")
pair("irregular-struct", block(128, [[entry(CREATE, 0), entry(0x200, 0, bytes(7))]]), head(32) + "refused -202\n")
pair("irregular-check", block(128, [SLOT], sizes=[3]), head(38) + "refused -202\n")
pair("irregular-later", block(128, [SLOT, [entry(0x374, 1, b"")]]), head(64) + "refused -202\n")
pair("irregular-erased", block(128, [[entry(FILE, 5, b"a"), entry(FORWARD, NO_SLOT, forward)]]),
     head(32, 6, erased="yes") + "refused -202\n")
# refusals
case("empty", b"", "refused -22\n")
case("one-byte", b"\x00", "refused -22\n")
case("odd", (block(128, [SLOT]) + b"\xff" * 128)[:255], "refused -22\n")
case("odd-past-the-end", block(128, [SLOT]) + b"\xff" * 129, "refused -22\n")
case("too-short-a-block", b"\xff" * 224, "refused -22\n")
case("no-multiple-of-16", b"\xff" * 264, "refused -22\n")
case("65537-bytes", block(32768, [SLOT]) + b"\xff" * 32769, "refused -22\n")
case("65538-bytes", b"\xff" * 65538, "refused -22\n")
case("far-too-long", b"\xff" * 70000, "refused -22\n")
pair("all-erased", b"\xff" * 128, "refused -84\n")
pair("all-zero", b"\x00" * 128, "refused -84\n", b"\x00" * 128)
pair("torn", block(128, [SLOT], break_sum=True), "refused -84\n")
pair("count-1024", block(128, [[entry(FILE, 1023, b"a")]]), "refused -2\n")
pair("count-1023-irregular", block(128, [[entry(FILE, 1022, b"a")]]), head(32, 1023) + "refused -202\n")
# whole blocks of 32,768 bytes: the most slots, the longest names, empty attributes, one attribute of each type
end = 32768 - 4 - 8
slots = [entry(CREATE, i) for i in range(1023)]
pair("full-of-attributes",
     block(32768, [slots + [entry(0x300 + i % 256, 1022 - i // 256) for i in range((end - 4 * 1023) // 4)]]))
pair("full-of-names",
     block(32768, [[e for i in range(31) for e in (entry(CREATE, i), entry(FILE, i, b"\x80" * 1022))]]))
held = [e for i in range(1000)
        for e in (entry(FILE, i, f"{i:08d}q".encode()), entry(INLINE, i, b"abc"), entry(0x374, i, b""))]
pair("full-of-slots", block(32768, [slots + held]))
pair("every-attribute", block(4096, [[entry(CREATE, 0)] + [entry(0x3FF - i, 0, bytes([i])) for i in range(256)]]))
pair("largest-block-second", block(32768, [SLOT], 1), None, block(32768, [SLOT + [entry(0x300, 0, bytes(1022))]], 2))

# pairs that a real littlefs wrote: many of them are irregular to document 01, none by littlefs's rule
for name in sorted(os.listdir(os.path.join(ROOT, "real"))):
    if name.endswith(".pair"):
        with open(os.path.join(ROOT, "real", name), "rb") as f:
            image = f.read()
        assert "refused" not in listing(image, LITTLEFS), name
        case("real-" + name[:-5], image)

# random histories: entries that are mostly allowed, in several commits; some blocks get a byte changed
random.seed(20261115)


def some_entry(count):
    id = random.randrange(count) if count and random.random() < 0.98 else count
    kinds = ("create", "create", "name", "struct", "attr", "attr", "attr", "remove", "delete", "tail")
    kind = random.choice(kinds) if count else "create"
    body = bytes(random.choice((0, 32, 65, 92, 126, 127, 255)) for _ in range(random.randrange(1, 9)))
    if kind == "create":
        return entry(CREATE, random.randrange(count + 1)), 1
    if kind == "name":
        return entry(random.choice((FILE, DIR)), id, body), 0
    if kind == "struct":
        return random.choice((entry(INLINE, id, body[1:]), entry(0x200, id, bytes(8)), entry(CTZ, id, bytes(8)))), 0
    if kind == "attr":
        return entry(0x300 + random.randrange(6), id, body[1:]), 0
    if kind == "remove":
        return entry(0x300 + random.randrange(6), id, removal=True), 0
    if kind == "delete" and count:
        return entry(DELETE, random.randrange(count)), -1
    return entry(random.choice((SOFT, HARD)), NO_SLOT, body.ljust(8, b"\x01")[:8]), 0


def history(size, revision):
    commits, count = [], 0
    for _ in range(random.randrange(1, 5)):
        entries = []
        for _ in range(random.randrange(1, 9)):
            made, step = some_entry(count)
            entries.append(made)
            count += step
        commits.append(entries)
    made = block(size, commits, revision)
    if random.random() < 0.2:
        at = random.randrange(size)
        made = made[:at] + bytes([made[at] ^ 1 << random.randrange(8)]) + made[at + 1:]
    return made


for k in range(120):
    size = random.choice((256, 400, 512))
    case(f"random-{k}", history(size, random.randrange(3)) + history(size, random.randrange(3)))

# ---- the audit: what it must say, written out by hand
def totals(late, bare, slots):
    return f"payload without deadline {late}\ndeadline without payload {bare}\nslots {slots}\n"


def audited(name, first, lacks, second=None):
    pair("audit-" + name, first, None, second, lacks)


def slot(id, name, *entries):
    named = [entry(FILE, id, name)] if name else []
    return [entry(CREATE, id)] + named + [entry(type, id, data) for type, data in entries]


ABC, DUE, FAR = (INLINE, b"abc"), (0x374, b"\x90\x5f\x01\x00"), (CTZ, bytes(8))
audited("nothing-missing", block(128, [SLOT]), totals(0, 0, 1))
audited("no-slots", block(128, [[]]), totals(0, 0, 0))
# the 212: payload and deadline in separate commits, and a restart between the two
separate = block(128, [slot(0, b"q212", ABC), [entry(DUE[0], 0, DUE[1])]])
audited("separate-commits", separate, totals(0, 0, 1))
audited("separate-commits-cut", separate[:40] + b"\xff" * 88, "slot 0 q212 no deadline\n" + totals(1, 0, 1))
audited("deadline-first-cut", block(128, [slot(0, b"q212", DUE)]), "slot 0 q212 no payload\n" + totals(0, 1, 1))
audited("one-of-each", block(256, [slot(0, b"a", ABC) + slot(1, b"b", ABC, DUE) + slot(2, b"c", DUE) + slot(3, b"d")]),
        "slot 0 a no deadline\nslot 2 c no payload\n" + totals(1, 1, 4))
audited("212-of-them",
        block(16384, [[e for i in range(300) for e in slot(i, b"q%d" % i, *((ABC,) if i < 212 else (ABC, DUE)))]]),
        "".join(f"slot {i} q{i} no deadline\n" for i in range(212)) + totals(212, 0, 300))
# an attribute removed is none, one set again is one; 0x375 and 0x373 are others
audited("deadline-removed", block(128, [SLOT, [entry(0x374, 0, removal=True)]]),
        "slot 0 q212 no deadline\n" + totals(1, 0, 1))
audited("deadline-set-again", block(128, [SLOT, [entry(0x374, 0, removal=True)], [entry(0x374, 0, b"\x07\0\0\0")]]),
        totals(0, 0, 1))
audited("other-attributes", block(128, [slot(0, b"o", ABC, (0x373, b"\x01"), (0x375, b"\x01"))]),
        "slot 0 o no deadline\n" + totals(1, 0, 1))
# a deadline of another length than four bytes can't be read: told apart from a missing one, and counted with it
UNREAD = (0x374, b"\x3c\x00")
audited("deadline-of-0", block(128, [slot(0, b"u", ABC, (0x374, b""))]),
        "slot 0 u deadline of 0 bytes\n" + totals(1, 0, 1))
audited("deadline-of-1", block(128, [slot(0, b"u", ABC, (0x374, b"\x3c"))]),
        "slot 0 u deadline of 1 bytes\n" + totals(1, 0, 1))
audited("deadline-of-2", block(128, [slot(0, b"u", ABC, UNREAD)]), "slot 0 u deadline of 2 bytes\n" + totals(1, 0, 1))
audited("deadline-of-3", block(128, [slot(0, b"u", ABC, (0x374, bytes(3)))]),
        "slot 0 u deadline of 3 bytes\n" + totals(1, 0, 1))
audited("deadline-of-4", block(128, [slot(0, b"u", ABC, (0x374, bytes(4)))]), totals(0, 0, 1))
audited("deadline-of-5", block(128, [slot(0, b"u", ABC, (0x374, bytes(5)))]),
        "slot 0 u deadline of 5 bytes\n" + totals(1, 0, 1))
audited("deadline-of-8", block(128, [slot(0, b"u", ABC, (0x374, bytes(8)))]),
        "slot 0 u deadline of 8 bytes\n" + totals(1, 0, 1))
audited("deadline-of-1022", block(2048, [slot(0, b"u", ABC, (0x374, bytes(1022)))]),
        "slot 0 u deadline of 1022 bytes\n" + totals(1, 0, 1))
audited("unread-ctz", block(128, [slot(0, b"big", FAR, UNREAD)]),
        "slot 0 big deadline of 2 bytes\n" + totals(1, 0, 1))
audited("unread-alone", block(128, [slot(0, b"u", UNREAD)]), "slot 0 u no payload\n" + totals(0, 1, 1))
audited("unread-empty-inline", block(128, [slot(0, b"u", (INLINE, b""), UNREAD)]),
        "slot 0 u no payload\n" + totals(0, 1, 1))
audited("unread-removed", block(128, [slot(0, b"u", ABC, UNREAD), [entry(0x374, 0, removal=True)]]),
        "slot 0 u no deadline\n" + totals(1, 0, 1))
audited("unread-set-anew", block(128, [slot(0, b"u", ABC, UNREAD), [entry(DUE[0], 0, DUE[1])]]), totals(0, 0, 1))
audited("unread-behind-a-read", block(128, [SLOT, [entry(0x374, 0, UNREAD[1])]]),
        "slot 0 q212 deadline of 2 bytes\n" + totals(1, 0, 1))
audited("unread-directory", block(128, [[entry(CREATE, 0), entry(DIR, 0, b"d"), entry(INLINE, 0, b"abc"),
                                         entry(0x374, 0, UNREAD[1])]]), totals(0, 0, 1))
audited("unread-no-name", block(128, [slot(0, b"", ABC, UNREAD)]),
        "slot 0 - deadline of 2 bytes\n" + totals(1, 0, 1))
audited("unread-among-others",
        block(256, [slot(0, b"a", ABC) + slot(1, b"b", ABC, UNREAD) + slot(2, b"c", ABC, DUE) + slot(3, b"d", DUE)
                    + slot(4, b"e", UNREAD) + slot(5, b"f")]),
        "slot 0 a no deadline\nslot 1 b deadline of 2 bytes\nslot 3 d no payload\nslot 4 e no payload\n"
        + totals(2, 2, 6))
# payloads: an empty inline file is none, a CTZ list is one, a directory's struct is none
audited("empty-inline-deadline", block(128, [slot(0, b"e", (INLINE, b""), DUE)]),
        "slot 0 e no payload\n" + totals(0, 1, 1))
audited("empty-inline-alone", block(128, [slot(0, b"e", (INLINE, b""))]), totals(0, 0, 1))
audited("one-byte-inline", block(128, [slot(0, b"e", (INLINE, b"x"))]), "slot 0 e no deadline\n" + totals(1, 0, 1))
audited("ctz", block(128, [slot(0, b"big", FAR)]), "slot 0 big no deadline\n" + totals(1, 0, 1))
audited("ctz-deadline", block(128, [slot(0, b"big", FAR, DUE)]), totals(0, 0, 1))
audited("directory-struct", block(128, [slot(0, b"f", (0x200, bytes(8)), DUE)]),
        "slot 0 f no payload\n" + totals(0, 1, 1))
audited("emptied", block(128, [SLOT, [entry(INLINE, 0)]]), "slot 0 q212 no payload\n" + totals(0, 1, 1))
# what is no instruction, and a slot with no name, which is one
audited("directory-and-superblock",
        block(256, [[entry(CREATE, 0), entry(SUPER, 0, b"littlefs"), entry(INLINE, 0, bytes(24)),
                     entry(CREATE, 1), entry(DIR, 1, b"d"), entry(INLINE, 1, b"abc"),
                     entry(CREATE, 2), entry(DIR, 2, b"t"), entry(0x374, 2, b"")]]), totals(0, 0, 3))
audited("renamed-a-directory", block(128, [slot(0, b"f", ABC), [entry(DIR, 0, b"f")]]), totals(0, 0, 1))
audited("no-name", block(128, [slot(0, b"", ABC) + slot(1, b"", DUE) + slot(2, b"")]),
        "slot 0 - no deadline\nslot 1 - no payload\n" + totals(1, 1, 3))
audited("name-escapes", block(128, [slot(0, b"a b\\\xff", ABC)]),
        "slot 0 a\\x20b\\x5c\\xff no deadline\n" + totals(1, 0, 1))
audited("slot-deleted", block(256, [slot(0, b"a", ABC) + slot(1, b"b", ABC), [entry(DELETE, 0)]]),
        "slot 0 b no deadline\n" + totals(1, 0, 1))
audited("second-block", block(128, [SLOT], 4), "slot 0 q no deadline\n" + totals(1, 0, 1),
        block(128, [slot(0, b"q", ABC)], 5))
audited("irregular", block(128, [[entry(FILE, 5, b"a")]]), "refused -202\n")
audited("torn", block(128, [SLOT], break_sum=True), "refused -84\n")
case("audit-odd", (block(128, [SLOT]) + b"\xff" * 128)[:255], None, "refused -22\n")
# long texts: the most lines, and the longest names
audited("full-of-lines", block(32768, [[e for i in range(1023) for e in slot(i, b"\n" * 19, (0x374, b""))]]), None)
audited("full-of-names", block(32768, [[e for i in range(31) for e in slot(i, b"\x80" * 1022, DUE)]]), None)
audited("full-of-unread",
        block(32768, [[e for i in range(1023) for e in slot(i, b"\n" * 14, (INLINE, b"x"), (0x374, b""))]]), None)
# the one that README.md shows
with open(os.path.join(ROOT, "instructions.pair"), "rb") as f:
    case("audit-instructions", f.read(), None,
         "slot 5 q215 no deadline\nslot 6 q216 no payload\nslot 8 q218 deadline of 2 bytes\n" + totals(2, 1, 10))

for k in range(60):
    entries, count = [], random.randrange(1, 9)
    for id in range(count):
        entries.append(entry(CREATE, id))
        parts = [entry(random.choice((FILE, FILE, FILE, DIR, SUPER)), id, b"n%d" % id),
                 entry(INLINE, id, random.choice((b"", b"x"))), entry(random.choice((0x200, CTZ)), id, bytes(8)),
                 entry(0x374, id, random.choice((b"", b"t", b"time", b"times"))), entry(0x374, id, removal=True),
                 entry(0x375, id)]
        entries += random.sample(parts, random.randrange(5))
    if random.random() < 0.5:
        entries.append(entry(DELETE, random.randrange(count)))
    pair(f"audit-random-{k}", block(512, [entries]))

# ---- littlefs's rule: names raise the count, as long as nothing was created or deleted
REFUSED = "refused -202\n"


def grown(name, commits, record, slots=REFUSED, lacks=None):
    """What document 01's rule refuses behind the record, and what littlefs's shows there."""
    pair("grown-" + name, block(128, commits), record + REFUSED, None, REFUSED, record + slots, lacks)


def empty(*ids):
    return "".join(f"slot {id} - - - -\n" for id in ids)


A, B, NAMED = entry(FILE, 0, b"a"), entry(FILE, 1, b"b"), SLOT[1:]
grown("names-alone", [NAMED + [entry(DIR, 1, b"d"), entry(DIR_STRUCT, 1, bytes(8))]], head(64, 2),
      "slot 0 001 q212 201 3\nattr 0 374 905f0100\nslot 1 002 d 200 8\n", lacks=totals(0, 0, 2))
grown("superblock", [[entry(SUPER, 0, b"littlefs"), entry(INLINE, 0, bytes(24))]], head(64),
      "slot 0 0ff littlefs 201 24\n", lacks=totals(0, 0, 1))
# the slots below a name are made, empty; what they hold may come later, as littlefs's own compaction has it
grown("gap", [[entry(FILE, 3, b"a")]], head(32, 4), empty(0, 1, 2) + "slot 3 001 a - -\n", lacks=totals(0, 0, 4))
grown("gap-filled", [[entry(FILE, 2, b"c"), entry(DIR, 0, b"a"), B, entry(INLINE, 1, b"xyz")]], head(48, 3),
      "slot 0 002 a - -\nslot 1 001 b 201 3\nslot 2 001 c - -\n", lacks="slot 1 b no deadline\n" + totals(1, 0, 3))
grown("gap-without-names", [[entry(FILE, 2, b"c"), entry(INLINE, 0, b"abc"), entry(0x374, 1, b"time")]], head(32, 3),
      "slot 0 - - 201 3\nslot 1 - - - -\nattr 1 374 74696d65\nslot 2 001 c - -\n",
      lacks="slot 0 - no deadline\nslot 1 - no payload\n" + totals(1, 1, 3))
grown("named-anew", [[A, entry(DIR, 0, b"d")]], head(32), "slot 0 002 d - -\n")
# later commits go on, and neither tail, move state nor forward check is in the way
grown("second-commit-raises", [[A], [B], [entry(FILE, 4, b"e")]], head(64, 5),
      "slot 0 001 a - -\nslot 1 001 b - -\n" + empty(2, 3) + "slot 4 001 e - -\n")
grown("behind-tail-and-move", [[A, entry(SOFT, NO_SLOT, numbers), entry(MOVE, NO_SLOT, bytes(12)),
                                entry(FORWARD, NO_SLOT, bytes(8)), B]], head(64, 2, "soft 7 4294967294"),
      "slot 0 001 a - -\nslot 1 001 b - -\n")
# a create or a delete behind it: from there on names go by document 01's rule
grown("then-created", [[A, B], [entry(CREATE, 1), entry(FILE, 1, b"x")]], head(64, 3),
      "slot 0 001 a - -\nslot 1 001 x - -\nslot 2 001 b - -\n")
grown("then-deleted", [[A, B], [entry(DELETE, 0)]], head(48), "slot 0 001 b - -\n")
grown("named-behind-a-create", [[B, entry(CREATE, 0), entry(FILE, 2, b"c")]], head(32, 3),
      empty(0, 1) + "slot 2 001 c - -\n")
grown("raises-behind-a-create", [[A, entry(CREATE, 1), entry(FILE, 2, b"c")]], head(32, 3))
grown("raises-behind-a-delete", [[A, B, entry(DELETE, 1), B]], head(32, 2))
grown("raises-behind-the-delete-of-all", [[A], [entry(DELETE, 0)], [A]], head(64))
grown("raises-in-the-commit-behind", [[entry(CREATE, 0), A], [B]], head(48, 2))
# the highest ids: 1,022 makes all slots, and behind it there is room for a create only where one was deleted
grown("id-1022", [[entry(FILE, 1022, b"z"), A, entry(0x300, 512)]], head(32, 1023),
      "slot 0 001 a - -\n" + empty(*range(1, 513)) + "attr 512 300 -\n" + empty(*range(513, 1022))
      + "slot 1022 001 z - -\n")
grown("id-1022-then-moved", [[entry(FILE, 1022, b"z"), entry(DELETE, 5), entry(CREATE, 5)]], head(32, 1023),
      empty(*range(1022)) + "slot 1022 001 z - -\n", lacks=totals(0, 0, 1023))
grown("id-1022-then-created", [[entry(FILE, 1022, b"z"), entry(CREATE, 5), entry(DELETE, 5)]], head(32, 1023))
grown("id-1023", [[entry(FILE, 1023, b"z"), entry(DELETE, 0)]], head(32, 1023))
# nothing but these three names raises it
grown("struct-above", [[A, entry(INLINE, 1, b"x")]], head(32))
grown("struct-before-its-name", [[entry(INLINE, 0, b"x"), A]], head(32))
grown("attribute-above", [[A, entry(0x374, 1, b"time")]], head(32))
grown("attribute-removed-above", [[A, entry(0x374, 1, removal=True)]], head(32))
grown("another-name-type", [[entry(0x003, 0, b"a")]], head(32))
grown("another-splice-type", [[entry(0x400, 0), A]], head(32))
# a name of no length a name has
grown("removal-raises", [[entry(FILE, 0, removal=True)]], head(16))
grown("empty-name-raises", [[A, entry(FILE, 1)]], head(32, 2))
grown("empty-superblock-raises", [[entry(SUPER, 0)]], head(16))
grown("empty-name-below", [[entry(FILE, 1, b"b"), entry(FILE, 0)]], head(32, 2))
# a torn commit does not raise it; a check of another size refuses it as before
torn = block(128, [NAMED, [B]])
pair("grown-not-committed", torn[:60] + b"\xff" * 68, head(48) + REFUSED, None, REFUSED,
     head(48) + "slot 0 001 q212 201 3\nattr 0 374 905f0100\n", totals(0, 0, 1))
pair("grown-check-of-3", block(128, [[A]], sizes=[3]), head(16) + REFUSED, None, REFUSED, head(16) + REFUSED, REFUSED)
# the longest texts: 1,023 slots for one name, and the rest of the block in what shows most for its length, empty
# attributes of ids of four digits and bytes of names; in the audit an empty deadline for each slot, and names
filled = [entry(0x300 + i % 256, 1022 - i // 256) for i in range(256 * 23)]
names = [entry(FILE, 1022 - i, b"\x80" * (1022 if i < 8 else 992)) for i in range(9)]
pair("grown-longest-listing", block(32768, [names[:1] + filled + names[1:]], 0xFFFFFFFF))
names = [entry(FILE, 1022 - i, b"\x80" * (1022 if i < 27 else 958)) for i in range(28)]
pair("grown-longest-audit", block(32768, [names + [entry(0x374, i) for i in range(1023)]]))


def grown_history(size, revision):
    """Names, structs and attributes that mostly reach or pass the count, and at some time creates and deletes."""
    commits, count, spliced = [], 0, False
    for _ in range(random.randrange(1, 5)):
        entries = []
        for _ in range(random.randrange(1, 9)):
            spliced = spliced or random.random() < 0.05
            if spliced or random.random() < 0.5 and count:
                made, step = some_entry(count)
            else:
                id = random.choice((count, count, count + 1, random.randrange(count + 4)))
                made, step = entry(random.choice((FILE, DIR, SUPER)), id, b"n%d" % id), max(id + 1 - count, 0)
            entries.append(made)
            count += step
        commits.append(entries)
    return block(size, commits, revision)


for k in range(80):
    case(f"grown-random-{k}", grown_history(512, random.randrange(3)) + grown_history(512, random.randrange(3)))

os.makedirs(HERE, exist_ok=True)
for output, text in (("cases", "\n".join(CASES) + "\n"), *((o, "".join(texts)) for o, texts in TEXTS.items())):
    with open(os.path.join(HERE, output), "w") as f:
        f.write(text)
refusals = {output: sum("refused -202" in text for text in texts) for output, texts in TEXTS.items()}
print(f"{len(CASES)} cases; -202 in {refusals['expected']} by document 01's rule, in {refusals['expected-littlefs']} by"
      " littlefs's")
