#!/usr/bin/env python3
"""Writes samples/writes/cases and samples/writes/expected: commits and compactions at the edges of document 01, and
what each must answer and leave.

What is expected is worked out here from document 01, the sentence of littlefs's rule and document 02's forward check
and erased byte alone, by a writer and a reader of its own (writer.py, reader.py); nothing is taken from the port. Of
the last cases it is what a real littlefs wrote, byte for byte (real_commits.py). A case is one line,
    NAME OP BLOCK PROG N0 N1 COUNT SEED RULES ERASED LIMIT IMAGE0 IMAGE1 ENTRIES DATA
with OP commit or compact, RULES the rule of a regular log by its number, ERASED the erased byte as two digits of hex,
LIMIT a number of stores or -, images and data as runs of hex (aa*9 is aa nine times), ENTRIES as
type:id:off:len*times, all joined by commas, - for none. Run by hand when the set changes.
"""
import os

from make_zero import ZERO
from reader import DOCUMENT_01, LITTLEFS, Log, attributes, fetched
from real_commits import REAL, add_case, cases, few, pair_of
from write_cases import case, record, write
from writer import (ATTR, CREATE, DELETE, FILE, FORWARD, HARD, INLINE, MOVE, SOFT, appended, block, check_size,
                    check_type, checksum, coincides, commit_bytes, compacted, entry_tags, filled, forward_check, tag,
                    with_forward)

# the erased bytes that there are
BYTES = 0xFF, 0x00


def refused(name, op, size, prog, images, entries, data, number, index=0, **more):
    case(name, op, size, prog, images, entries, data, f"refused {number} index {index}", images, **more)


def as_read(prog, after, stop, this, count, revision):
    """What is printed of the record: end, end tag, count and revision by the writer, and so by the reader, which says
    the erased mark and the last committed forward check."""
    log = fetched(b"".join(after), prog)[1]
    assert (log.ends, log.last, log.count, log.revision) == (stop, this, count, revision)
    return record(log, prog)


def accepted(name, op, prog, images, entries, data, after, written, count, revision, **more):
    """`written` is what the writer says: how many stores were made, where the whole commit ends, and its end tag."""
    made, stop, this = written
    answer = f"made {made}"
    if more.get("limit") is None:
        answer = as_read(prog, after, stop, this, count, revision)
    case(name, op, len(images[0]), prog, images, entries, data, answer, after, **more)


def accepted_commit(name, size, prog, base, entries, data, count, limit=None, erased=0xFF):
    first, end, last = block(size, prog, base, erased=erased)
    other = filled(b"", size, erased)
    after, *written = appended(first, prog, end, last, entries, data, limit, erased=erased)
    accepted(name, "commit", prog, (first, other), entries, data, (after, other), written, count, 1, erased=erased,
             limit=limit)


def accepted_compaction(name, size, prog, base, held, count, limit=None, revision=1, erased=0xFF):
    """`base` is in the log; `held` is what document 01 lays down of it."""
    first, old = block(size, prog, base, revision, erased=erased)[0], b"\x55" * size
    raised = (revision + 1) % 2 ** 32
    new, *written = compacted(size, prog, raised, held, limit, old, erased)
    accepted(name, "compact", prog, (first, old), [], b"", (first, new), written, count, raised, erased=erased,
             limit=limit)


def coincidence(size, prog, end, start, last, entries, forward=True, erased=0xFF, put=1, fill=None, equal=None):
    """An attribute of slot 0 whose four bytes make the checksum behind the check tag's first `put` bytes, filled with
    erased ones, four erased bytes. The checksum is linear in the four bytes, so one solves 32 equations in 32 unknowns.
    Where `forward` is false, those of the commit without its forward check. What it is filled with and equal to is the
    erased byte, unless another is given."""
    fill, equal = (bytes([erased if byte is None else byte]) * 4 for byte in (fill, equal))
    equal = int.from_bytes(equal, "little")

    def after(value):
        word, previous, laid = b"", last, entries + [(tag(ATTR, 0, 4), value.to_bytes(4, "little"))]
        for this, data in with_forward(size, prog, end, laid, erased) if forward else laid:
            word += (this ^ previous).to_bytes(4, "big") + data
            previous = this
        check = tag(check_type(erased), 1023, check_size(prog, end + len(word))) ^ previous
        return checksum(start + word + (check.to_bytes(4, "big")[:put] + fill)[:4])

    zero, rows = after(0), []
    for bit in range(32):
        rows.append((after(1 << bit) ^ zero, 1 << bit))
    wanted, solution = equal ^ zero, 0
    basis = {}
    for effect, bits in rows:
        while effect:
            top = effect.bit_length()
            if top not in basis:
                basis[top] = (effect, bits)
                break
            effect, bits = effect ^ basis[top][0], bits ^ basis[top][1]
    while wanted:
        effect, bits = basis[wanted.bit_length()]
        wanted, solution = wanted ^ effect, solution ^ bits
    assert after(solution) == equal
    return solution.to_bytes(4, "little")


SLOT = [(tag(CREATE, 0, 0), b""), (tag(FILE, 0, 4), b"q212"), (tag(INLINE, 0, 3), b"abc"),
        (tag(ATTR, 0, 4), b"\x90\x5f\x01\x00")]
DEADLINE = [(ATTR, 0, 0, 4)]
SECONDS = b"\x10\x0e\x00\x00"

# ---- commits, at program sizes 4, 16, 255 and 512
SIZES = (128, 4), (128, 16), (765, 255), (1024, 512)
for erased in BYTES:
    for size, prog in SIZES:
        accepted_commit(f"commit-prog-{prog}", size, prog, SLOT, DEADLINE, SECONDS, 1, erased=erased)
        accepted_commit(f"commit-prog-{prog}-nothing", size, prog, SLOT, [], b"", 1, erased=erased)
        for limit in (0, 1, 5, 1000):
            accepted_commit(f"commit-prog-{prog}-stores-{limit}", size, prog, SLOT, DEADLINE, SECONDS, 1, limit, erased)
# irregular, and with more slots than there may be
IRREGULAR, CROWDED = [(tag(FILE, 5, 1), b"a")], [(tag(FILE, 1023, 1), b"a")]


def edges(erased):
    """What a commit may be at most, and each refusal but those of its room and the coincidence."""
    # a slot with its payload and its deadline in one commit, and slot 0 deleted
    both = [(CREATE, 1, 0, 0), (FILE, 1, 0, 2), (INLINE, 1, 2, 3), (ATTR, 1, 0, 1023), (ATTR, 1, 5, 4),
            (DELETE, 0, 9, 0)]
    accepted_commit("commit-a-slot", 256, 16, SLOT, both, b"xyabc\x01\x02\x03\x04", 1, erased=erased)

    def tried(name, base, entries, data, number, index=0, size=128, prog=16, **more):
        images = block(size, prog, base, erased=erased)[0], filled(b"", size, erased)
        refused(f"commit-{name}", "commit", size, prog, images, entries, data, number, index, erased=erased, **more)

    # the log ends at 48 and the check takes 8: an inline struct of 68 ends at 128, of 69 at 144
    accepted_commit("commit-ends-at-the-block", 128, 16, SLOT, [(INLINE, 0, 0, 68)], b"p" * 69, 1, erased=erased)
    tried("a-unit-past", SLOT, [(INLINE, 0, 0, 69)], b"p" * 69, -28)
    # 16 + 4 * 8,186 + 8 = 32,768
    accepted_commit("commit-8186-entries", 32768, 4, SLOT[:1], [(ATTR, 0, 0, 0)] * 8186, b"", 1, erased=erased)
    for many, number in ((8187, -28), (8192, -28), (8193, -22)):
        tried(f"{many}-entries", SLOT[:1], [(ATTR, 0, 0, 0)] * many, b"", number, size=32768, prog=4)
    tried("65536-bytes-bad-entry", SLOT, [(0x400, 0, 0, 0)], b"\0" * 65536, -201)
    tried("65537-bytes", SLOT, [(0x400, 0, 0, 0)], b"\0" * 65537, -22)
    # each refusal
    tried("equal-numbers", SLOT, DEADLINE, SECONDS, -22, numbers=(3, 3))
    empty = filled(b"", 128, erased)
    refused("commit-of-nothing-valid", "commit", 128, 16, (empty, empty), DEADLINE, SECONDS, -84, erased=erased)
    tried("count-1024", CROWDED, DEADLINE, SECONDS, -2)
    tried("irregular-and-bad", IRREGULAR, [(0x400, 0, 0, 0)], b"", -202)
    tried("second-bad", SLOT, [(CREATE, 1, 0, 0), (FILE, 1, 1, 4)], SECONDS, -201, 1)
    tried("empty-data-past-the-buffer", SLOT, [(CREATE, 1, 5, 0)], SECONDS, -201, 0)
    tried("bad-before-no-space", SLOT, [(INLINE, 0, 0, 100), (FILE, 7, 0, 1)], b"p" * 100, -201, 1)


def no_room(erased):
    """Why there is no room: the old end is 48, no multiple of 32; behind a check of the other byte's type the end tag
    has the wrong top bit; of the bytes from 48 on the first that isn't erased is named by its offset in the block."""
    image, end, last = block(128, 16, SLOT, erased=erased)
    empty, other = filled(b"", 128, erased), erased ^ 0xFF
    flipped, _, wrong = block(128, 16, SLOT, check=check_type(other), erased=erased)
    assert (last >> 31, wrong >> 31) == (erased == 0x00, erased == 0xFF)
    dirty, both = image[:127] + bytes([other]), flipped[:127] + bytes([other])

    def tried(name, prog, first, number, index=0, entries=DEADLINE, data=SECONDS, **more):
        refused(f"commit-{name}", "commit", 128, prog, (first, empty), entries, data, number, index, erased=erased,
                **more)

    tried("misaligned", 32, image, -211)
    tried("validity", 16, flipped, -212)
    tried("last-byte-not-erased", 16, dirty, -213, 127)
    tried("first-byte-not-erased", 16, image[:48] + bytes([erased ^ 0x01]) + image[49:], -213, 48)
    tried("three-bytes-not-erased", 16,
          image[:70] + bytes([erased ^ 0x80]) + image[71:90] + bytes([other]) + dirty[91:], -213, 70)
    # the first commit of a log that was cut short behind 5 of its bytes, and the one that it is tried again with
    torn = appended(image, 16, end, last, DEADLINE, SECONDS, 5, erased=erased)[0]
    tried("torn", 16, torn, -213, 48)
    tried("torn-limited", 16, torn, -213, 48, limit=3)
    # the padding of the last check is no room: bytes 39 to 47 may be anything
    padded = image[:39] + bytes([other]) * 9 + image[48:]
    after, *written = appended(padded, 16, end, last, DEADLINE, SECONDS, None, erased=erased)
    accepted("commit-behind-padding", "commit", 16, (padded, empty), DEADLINE, SECONDS, (after, empty), written, 1, 1,
             erased=erased)
    # two reasons at once, and all three: the first of "misaligned end, wrong validity bit, byte" is given
    tried("misaligned-before-validity", 32, flipped, -211)
    tried("misaligned-before-byte", 32, dirty, -211)
    tried("validity-before-byte", 16, both, -212)
    tried("all-three-reasons", 32, both, -211)
    # before them the space, behind them the coincidence
    large = [(INLINE, 0, 0, 69)], b"p" * 69
    tried("no-space-before-misaligned", 32, image, -28, 0, *large)
    tried("no-space-before-validity", 16, flipped, -28, 0, *large)
    tried("no-space-before-byte", 16, dirty, -28, 0, *large)
    for name, prog, first, before, number, index in (("misaligned", 32, image, last, -211, 0),
                                                     ("validity", 16, flipped, wrong, -212, 0),
                                                     ("byte", 16, dirty, last, -213, 127)):
        fatal = coincidence(128, prog, end, b"", before, [], erased=erased)
        tried(f"{name}-before-coincidence", prog, first, number, index, DEADLINE, fatal)


def coincidences(erased, size, prog):
    image, end, last = block(size, prog, SLOT, erased=erased)
    empty = filled(b"", size, erased)
    where = "" if prog == 16 else f"-prog-{prog}"

    def fatal(put=1, entries=(), **more):
        return coincidence(size, prog, end, b"", last, list(entries), erased=erased, put=put, **more)

    def tried(name, data, entries=DEADLINE, put=1, **more):
        laid = with_forward(size, prog, end, entry_tags(entries, data), erased)
        stored = commit_bytes(prog, end, b"", last, laid, check_type(erased))[0]
        assert coincides(b"", stored, erased), name
        # cut there, on 0x00 flash, it is indeed read as a whole commit; on 0xff most often the size then read passes
        # the block
        torn = filled(image[:end] + stored[:put - 8], size, erased)
        assert erased == 0xFF or Log(torn).ends > end, name
        refused(f"commit-coincidence{name}{where}", "commit", size, prog, (image, empty), entries, data, -204,
                erased=erased, **more)

    def near(name, data):
        accepted_commit(f"commit-coincidence-{name}{where}", size, prog, SLOT, DEADLINE, data, 1, erased=erased)

    tried("", fatal())
    tried("-limited", fatal(), limit=3)
    # the forward check is in the sum: what would coincide without it is taken where it is carried, and refused where
    # not
    near("but-for-the-forward-check", fatal(forward=False))
    long = [(INLINE, 0, 4, size - prog - end - 24)], b"p" * (size - prog - end - 20)
    tried("-without-forward-check", fatal(entries=entry_tags(*long)) + long[1][4:], long[0] + DEADLINE)
    # behind two and three of the check tag's bytes
    for put in (2, 3):
        tried(f"-of-{put}-bytes", fatal(put), put=put)
        late = fatal(put, entry_tags(*long)) + long[1][4:]
        tried(f"-of-{put}-bytes-without-forward-check", late, long[0] + DEADLINE, put)
    # with the right fill and sum alone, and not behind none and all four; where the size in the check tag is 256 and
    # more, since else its last bytes are 0 behind those of the forward check
    if prog < 512:
        return
    for put in (1, 2, 3):
        near(f"of-{put}-bytes-but-for-the-fill", fatal(put, fill=erased ^ 0xFF))
        near(f"of-{put}-bytes-but-for-the-sum", fatal(put, equal=erased ^ 0xFF))
    for put in (0, 4):
        near(f"of-{put}-bytes-is-none", fatal(put))


for erased in BYTES:
    edges(erased)
    no_room(erased)
    coincidences(erased, 128, 16)


# ---- compactions
def compactions(erased):
    for size, prog in SIZES:
        accepted_compaction(f"compact-prog-{prog}", size, prog, SLOT, SLOT, 1, erased=erased)
        for limit in (0, 1, 5, 1000):
            accepted_compaction(f"compact-prog-{prog}-stores-{limit}", size, prog, SLOT, SLOT, 1, limit, erased=erased)
    accepted_compaction("compact-nothing", 128, 16, [], [], 0, erased=erased)
    accepted_compaction("compact-revision-wraps", 128, 16, SLOT, SLOT, 1, revision=0xFFFFFFFF, erased=erased)
    # attributes by rising type, the newest of each, removals and deleted slots gone; then tail and move state
    tail, move = (tag(HARD, 1023, 8), bytes(range(8))), (tag(MOVE, 1023, 12), bytes(range(12)))
    mixed = [move, (tag(CREATE, 0, 0), b""), (tag(CREATE, 1, 0), b""), (tag(0x301, 1, 1), b"b"),
             (tag(0x300, 1, 1), b"a"), (tag(0x301, 1, 2), b"cc"), (tag(0x302, 1, 1), b"d"), (tag(0x302, 1, 1023), b""),
             (tag(FILE, 1, 1), b"n"), (tag(FILE, 0, 1), b"m"), (tag(DELETE, 0, 0), b""), tail]
    held = [(tag(CREATE, 0, 0), b""), (tag(FILE, 0, 1), b"n"), (tag(0x300, 0, 1), b"a"), (tag(0x301, 0, 2), b"cc"),
            tail, move]
    accepted_compaction("compact-mixed", 256, 16, mixed, held, 1, erased=erased)
    # a soft tail of two 0xffffffff is none
    accepted_compaction("compact-no-tail", 128, 16, SLOT + [(tag(SOFT, 1023, 8), b"\xff" * 8)], SLOT, 1, erased=erased)

    empty = filled(b"", 128, erased)

    def tried(name, first, number, **more):
        refused(f"compact-{name}", "compact", 128, 16, (first, empty), [], b"", number, erased=erased, **more)

    def laid(base):
        return block(128, 16, base, erased=erased)[0]

    tried("equal-numbers", laid(SLOT), -22, numbers=(3, 3))
    tried("of-nothing-valid", empty, -84)
    tried("irregular", laid(IRREGULAR), -202)
    tried("count-1024", laid(CROWDED), -2)

    def fatal(size=128, prog=16, **more):
        start = (2).to_bytes(4, "little")
        found = coincidence(size, prog, 4, start, 0xFFFFFFFF, SLOT[:3], erased=erased, **more)
        return SLOT[:3] + [(tag(ATTR, 0, 4), found)]

    tried("coincidence", laid(fatal()), -204)
    held = fatal(forward=False)
    accepted_compaction("compact-coincidence-but-for-the-forward-check", 128, 16, held, held, 1, erased=erased)
    for put in (1, 2, 3):
        images = block(1024, 512, fatal(1024, 512, put=put), erased=erased)[0], filled(b"", 1024, erased)
        for name, limit in (("", None), ("-limited", 3)):
            refused(f"compact-coincidence-of-{put}-bytes{name}", "compact", 1024, 512, images, [], b"", -204,
                    erased=erased, limit=limit)
        for name, odd in (("fill", {"fill": erased ^ 0xFF}), ("sum", {"equal": erased ^ 0xFF})):
            held = fatal(1024, 512, put=put, **odd)
            accepted_compaction(f"compact-coincidence-of-{put}-bytes-but-for-the-{name}", 1024, 512, held, held, 1,
                                erased=erased)
    # none of the reasons for which there is no room is any matter here
    new, *written = compacted(128, 32, 2, SLOT, None, empty, erased)
    flipped, other = block(128, 16, SLOT, check=check_type(erased ^ 0xFF), erased=erased)[0], bytes([erased ^ 0xFF])
    for name, first in (("byte", laid(SLOT)[:127] + other), ("validity", flipped),
                        ("all-three-reasons", flipped[:127] + other)):
        accepted(f"compact-misaligned-{name}", "compact", 32, (first, empty), [], b"", (first, new), written, 1, 2,
                 erased=erased)


for erased in BYTES:
    compactions(erased)
    coincidences(erased, 1536, 512)

image = block(128, 16, SLOT)[0]
EMPTY = filled(b"", 128, 0xFF)


# ---- littlefs's rule
def laid(log):
    """What a compaction lays: "a create for each slot, then its name, struct, attributes by rising type, then tail,
    then move state"."""
    entries = []
    for id, slot in enumerate(log.slots(LITTLEFS)):
        parts = [(CREATE, b"")] + [slot[part] for part in ("name", "struct") if part in slot] + attributes(slot)
        entries += [(tag(type, id, len(data)), data) for type, data in parts]
    if log.has_tail():
        numbers = b"".join(number.to_bytes(4, "little") for number in log.tail)
        entries.append((tag(HARD if log.split else SOFT, 1023, 8), numbers))
    return entries + [(this.word, data) for this, data in log.entries if this.type == MOVE][-1:]


def taken(name, op, images, entries, data, added=0, **more):
    """An accepted call on a pair of program size 16: a commit goes behind the log of the block that answers, a
    compaction into the other. `added` is how many slots the entries add. Answers the images that it leaves."""
    number, log = fetched(b"".join(images), 16)
    limit, erased, size, revision = more.get("limit"), more.get("erased", 0xFF), len(log.block), log.revision
    if op == "commit":
        image, *written = appended(log.block, 16, log.ends, log.last, entries, data, limit, erased=erased)
        assert not log.block[log.ends:].strip(bytes([erased])) and log.last >> 31 == check_type(erased) & 1, name
    else:
        number, revision = 1 - number, (revision + 1) % 2 ** 32
        image, *written = compacted(size, 16, revision, laid(log), limit, images[number], erased)
        # what is laid is regular by document 01 and holds the same
        assert limit is not None or Log(image).slots(DOCUMENT_01) == log.slots(LITTLEFS), name
    assert len(image) == size and written[1] <= size, name
    after = (image, images[1]) if number == 0 else (images[0], image)
    accepted(name, op, 16, images, entries, data, after, written, log.count + added, revision, **more)
    return after


def by_both_rules(name, images, entries, data, added=0, limits=(), **more):
    """A commit and a compaction by each rule: refused by document 01's where the log is not regular."""
    irregular = fetched(b"".join(images), 16)[1].slots(DOCUMENT_01) is None
    for op, *rest in (("commit", entries, data, added), ("compact", [], b"")):
        first = f"{op}-{name}"
        if irregular:
            refused(f"{first}-document-01", op, len(images[0]), 16, images, *rest[:2], -202, **more)
        else:
            taken(f"{first}-document-01", op, images, *rest, **more)
        taken(f"{first}-littlefs", op, images, *rest, rules=LITTLEFS, **more)
        for limit in limits:
            taken(f"{first}-littlefs-stores-{limit}", op, images, *rest, rules=LITTLEFS, limit=limit, **more)


def names_alone(*names):
    """A pair whose log has names and no creates."""
    return block(128, 16, [(tag(FILE, id, len(name)), name) for id, name in enumerate(names)])[0], EMPTY


# a rule of another number, before all else: on a good pair and where nothing is valid
for op, entries, data in (("commit", DEADLINE, SECONDS), ("compact", [], b"")):
    for rules, first in ((2, image), (0xFFFFFFFF, EMPTY)):
        for name, limit in (("", None), ("-limited", 3)):
            refused(f"{op}-rules-{rules}{name}", op, 128, 16, (first, EMPTY), entries, data, -22, rules=rules,
                    limit=limit)
# names alone, and a name above empty slots; a new slot has its create, and an empty one takes a payload
two = (block(128, 16, [(tag(FILE, 1, 1), b"b"), (tag(FILE, 0, 4), b"q212")] + SLOT[2:])[0], EMPTY)
by_both_rules("names-alone", two, [(CREATE, 2, 0, 0), (FILE, 2, 0, 1), *DEADLINE], SECONDS, added=1, limits=(0, 5))
gap = (block(128, 16, [(tag(FILE, 3, 1), b"a")])[0], EMPTY)
by_both_rules("gap", gap, [(INLINE, 1, 0, 4)], SECONDS, limits=(7,))
# the entries of a commit go by document 01's rules all the same: two slots, and no name makes a third
refused("commit-name-at-the-count", "commit", 128, 16, two, [*DEADLINE, (FILE, 2, 0, 1)], SECONDS, -201, 1,
        rules=LITTLEFS)
# irregular by both: a name raises the count behind a create
behind = block(128, 16, SLOT + [(tag(FILE, 1, 1), b"b")])[0]
refused("commit-raised-behind-a-create", "commit", 128, 16, (behind, EMPTY), DEADLINE, SECONDS, -202, rules=LITTLEFS)
refused("compact-raised-behind-a-create", "compact", 128, 16, (behind, EMPTY), [], b"", -202, rules=LITTLEFS)
# the creates need room: with them 4 + 12 * 4 + 11 * 5 + (4 + 9) + 8 = 128, and one byte more is a unit past; a forward
# check, which has none here, is left out
taken("compact-creates-just-fit", "compact", names_alone(*[b"a"] * 11, b"a" * 9), [], b"", rules=LITTLEFS)
crowd = names_alone(*[b"a"] * 11, b"a" * 10)
for name, limit in (("", None), ("-limited", 3)):
    refused(f"compact-no-room-for-creates{name}", "compact", 128, 16, crowd, [], b"", -28, rules=LITTLEFS, limit=limit)
# pairs that a real littlefs wrote, on flash of either byte: many attributes; a move pending; a delete behind names
# alone; regular by both
ON_ONES = ("attrs-512-0-1", "move-256-pending-69-70", "churn-256-110-111", "attrs-512-2-3")
ON_ZEROS = ("attrs-512-0-1", "move-256-pending-30-31", "churn-256-34-35", "attrs-512-30-31")
for folder, name, erased, files in ((REAL, "real", 0xFF, ON_ONES), (ZERO, "zero", 0x00, ON_ZEROS)):
    for file in files:
        images, numbers = pair_of(file, folder)
        by_both_rules(f"{name}-{file}", images, [(ATTR, 1, 0, 4)], SECONDS, numbers=numbers, erased=erased)
    # one that was torn by a power cut: no room to append, so it is compacted
    images, numbers = pair_of("cut-512-setattr-torn-0-0-1", folder)
    log = fetched(b"".join(images), 16)[1]
    unerased = next(at for at in range(log.ends, 512) if log.block[at] != erased)
    refused(f"commit-{name}-torn-littlefs", "commit", 512, 16, images, [(ATTR, 1, 0, 4)], SECONDS, -213, unerased,
            numbers=numbers, rules=LITTLEFS, erased=erased)
    taken(f"compact-{name}-torn-littlefs", "compact", images, [], b"", numbers=numbers, rules=LITTLEFS, erased=erased)


# ---- the forward check
def filling(length, kinds=1):
    """Entries of slot 0 that take exactly so many bytes of a log, over data of one byte again and again: attributes of
    types that rise up to so many."""
    entries, types = [], iter(range(0x300, 0x300 + kinds))
    while length:
        taken = length if length <= 1026 else min(1026, length - 4)
        entries.append((next(types, 0x300), 0, 0, taken - 4))
        length -= taken
    return entries


PAYLOAD = b"p" * 1022


def forward_checks(erased):
    # from `end` on entries, forward check, check, and to the byte the unit behind them; then a byte or a unit less or
    # more
    for size, prog in ((128, 4), (130, 5), (128, 16), (512, 16), (765, 255), (1536, 512), (32768, 4), (32768, 512)):
        end = block(size, prog, SLOT)[1]
        for name, more in (("just-fits", 0), ("a-byte-less", -1), ("a-byte-more", 1), ("a-unit-less", -prog),
                           ("a-unit-more", prog)):
            fits, length = f"{size}-{prog}-forward-check-{name}", size - 12 - 8 - prog + more
            if length - end > 4:
                accepted_commit(f"commit-{fits}", size, prog, SLOT, filling(length - end), PAYLOAD, 1, erased=erased)
            held = SLOT[:1] + entry_tags(filling(length - 8, 256), PAYLOAD)  # behind the revision and the create
            accepted_compaction(f"compact-{fits}", size, prog, held, held, 1, erased=erased)
    # a block of one unit, and of two: nothing, or no unit, is left behind
    accepted_compaction("compact-one-unit", 512, 512, SLOT, SLOT, 1, erased=erased)
    accepted_commit("commit-second-of-two-units", 1024, 512, SLOT, DEADLINE, SECONDS, 1, erased=erased)
    # the smallest fresh pair that others take as unerased: the log ends at 16 and then at 112, and the unit behind it
    # is erased; but with a forward check the log would end at 128
    accepted_commit("commit-fresh-unerased", 128, 16, SLOT[:1], [(ATTR, 0, 0, 84)], PAYLOAD, 1, erased=erased)
    accepted_commit("commit-fresh-erased", 128, 16, SLOT[:1], [(ATTR, 0, 0, 72)], PAYLOAD, 1, erased=erased)
    # stopped before it, inside it, behind it, and behind all: 8 + 12 + 8 stores, of a compaction 1 + 4 + 27 + 12 + 8
    for limit in (8, 9, 12, 16, 19, 20, 21, 27, 28, 29):
        accepted_commit(f"commit-forward-check-stores-{limit}", 128, 16, SLOT, DEADLINE, SECONDS, 1, limit, erased)
    for limit in (32, 33, 36, 43, 44, 45, 51, 52, 53):
        accepted_compaction(f"compact-forward-check-stores-{limit}", 128, 16, SLOT, SLOT, 1, limit, erased=erased)
    # forward checks of others in the old log, of erased bytes or not: the commit's own is the last one, where it
    # carries one; where it doesn't, the old one is, and says whether the 16 bytes behind 112 are erased
    sizes = {"of-16": 16, "of-4": 4, "of-0": 0, "past": 17}
    foreign = {name: forward_check(size, erased=erased) for name, size in sizes.items()}
    foreign |= {"far-past": forward_check(2 ** 32 - 1, 0), "of-another-sum": forward_check(16, 0x12345678)}
    if erased == 0x00:
        foreign |= {"of-16-of-the-other-byte": forward_check(16)}
    for name, check in foreign.items():
        for where, entries in (("", DEADLINE), ("-and-none", [(ATTR, 0, 0, 36)])):
            accepted_commit(f"commit-foreign-forward-check-{name}{where}", 128, 16, SLOT + [check], entries, PAYLOAD, 1,
                            erased=erased)
        accepted_compaction(f"compact-foreign-forward-check-{name}", 128, 16, SLOT + [check], SLOT, 1, erased=erased)
    # the last of several, in an earlier commit too
    several = SLOT + [forward_check(4, erased=erased), (tag(ATTR, 0, 0), b""), forward_check(16, 0)]
    accepted_commit("commit-last-of-several-forward-checks", 256, 16, several, filling(150), PAYLOAD, 1, erased=erased)
    # one that is not committed, behind the check: no room, and a compaction does not take it for the log's
    first, end, last = block(128, 16, SLOT, erased=erased)
    empty = filled(b"", 128, erased)
    uncommitted = appended(first, 16, end, last, DEADLINE, SECONDS, 20, erased=erased)[0]
    refused("commit-uncommitted-forward-check", "commit", 128, 16, (uncommitted, empty), DEADLINE, SECONDS, -213, 48,
            erased=erased)
    new, *written = compacted(128, 16, 2, SLOT, None, empty, erased)
    accepted("compact-uncommitted-forward-check", "compact", 16, (uncommitted, empty), [], b"", (uncommitted, new),
             written, 1, 2, erased=erased)
    # a caller's own is no entry of a commit, wherever one would be carried
    refused("commit-forward-check-given", "commit", 128, 16, (first, empty), [*DEADLINE, (FORWARD, 1023, 0, 8)],
            SECONDS + SECONDS, -201, 1, erased=erased)


for erased in BYTES:
    forward_checks(erased)

# ---- the erased byte
# any other, before all else: where all is well and of that byte, where fetch refuses, where the log is not regular
for op, entries, data in (("commit", DEADLINE, SECONDS), ("compact", [], b"")):
    for byte in (0x01, 0x7F, 0x80, 0xFE):
        for name, first, limit in (("", image, None), ("-limited", image, 3), ("-of-nothing-valid", EMPTY, None),
                                   ("-irregular", block(128, 16, IRREGULAR)[0], None),
                                   ("-count-1024", block(128, 16, CROWDED)[0], 0)):
            images = (filled(first[:48], 128, byte), filled(b"", 128, byte))
            refused(f"{op}-no-erased-byte{name}", op, 128, 16, images, entries, data, -22, erased=byte, limit=limit)
# a pair that was moved between boards: its last commit is of one byte, what stands behind it of one, and one is given
for kind in BYTES:
    for room in BYTES:
        first, end, last = block(256, 16, SLOT, erased=kind)
        images = (filled(first[:end], 256, room), filled(b"", 256, room))
        for given in BYTES:
            name = f"moved-{kind:02x}-before-{room:02x}"
            if kind != given:
                refused(f"commit-{name}", "commit", 256, 16, images, DEADLINE, SECONDS, -212, erased=given)
            elif room != given:
                refused(f"commit-{name}", "commit", 256, 16, images, DEADLINE, SECONDS, -213, end, erased=given)
            else:
                taken(f"commit-{name}", "commit", images, DEADLINE, SECONDS, erased=given)
            renewed = taken(f"compact-{name}", "compact", images, [], b"", erased=given)
            # and is then written to as one of that board
            taken(f"commit-{name}-compacted", "commit", renewed, DEADLINE, SECONDS, erased=given)
            for limit in (0, 1, 2, 6, 40, 51, 52) if kind != given else ():
                taken(f"compact-{name}-stores-{limit}", "compact", images, [], b"", erased=given, limit=limit)
for erased in BYTES:
    first, end, last = block(256, 16, SLOT, erased=erased)
    # the room's first unit and no more; all but its last byte
    for name, at in (("first-unit", end + 16), ("all-but-a-byte", 255)):
        images = (filled(first[:at], 256, erased ^ 0xFF), filled(b"", 256, erased))
        refused(f"commit-moved-{name}-erased", "commit", 256, 16, images, DEADLINE, SECONDS, -213, at, erased=erased)
    # a log of both kinds: another writer went on with the other byte, and perhaps with the first again
    byte = erased
    for _ in range(2):
        byte ^= 0xFF
        first, _, end, last = appended(filled(first[:end], 256, byte), 16, end, last, DEADLINE, SECONDS, None,
                                       erased=byte)
        kinds = "-".join(f"{check.type:x}" for check in Log(first).checks)
        images = (first, filled(b"", 256, erased))
        taken(f"commit-kinds-{kinds}", "commit", images, DEADLINE, b"more", erased=byte)
        refused(f"commit-kinds-{kinds}", "commit", 256, 16, images, DEADLINE, b"more", -212, erased=byte ^ 0xFF)
        for given in BYTES:
            taken(f"compact-kinds-{kinds}", "compact", images, [], b"", erased=given)
# the low chunk bit alone decides: check tags of other types than those two
for check in (0x502, 0x57E, 0x503, 0x57F):
    for erased in BYTES:
        images = (block(256, 16, SLOT, check=check, erased=erased)[0], filled(b"", 256, erased))
        name = f"behind-check-{check:x}"
        if check & 1 == check_type(erased) & 1:
            taken(f"commit-{name}", "commit", images, DEADLINE, SECONDS, erased=erased)
        else:
            refused(f"commit-{name}", "commit", 256, 16, images, DEADLINE, SECONDS, -212, erased=erased)
        taken(f"compact-{name}", "compact", images, [], b"", erased=erased)
# littlefs's own pair brought to a board of the other byte
for folder, name, given in ((REAL, "real", 0x00), (ZERO, "zero", 0xFF)):
    images, numbers = pair_of("attrs-512-0-1", folder)
    more = {"numbers": numbers, "rules": LITTLEFS, "erased": given}
    refused(f"commit-{name}-moved", "commit", 512, 16, images, [(ATTR, 1, 0, 4)], SECONDS, -212, **more)
    renewed = taken(f"compact-{name}-moved", "compact", images, [], b"", **more)
    taken(f"commit-{name}-moved-compacted", "commit", renewed, [(ATTR, 1, 0, 4)], SECONDS, **more)

# ---- commits that a real littlefs appended: the same entries in the same place are its own bytes
for folder, erased in ((REAL, 0xFF), (ZERO, 0x00)):
    for commit in few(cases(folder, erased)):
        add_case(commit)

write(os.path.join(os.path.dirname(os.path.abspath(__file__)), "writes"))
