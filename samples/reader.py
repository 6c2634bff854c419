"""A reader of metadata pairs, from document 01 and the sentence of littlefs's rule alone: fetch, and the directory
machine over a regular log. Nothing is taken from the port.

The scripts beside it work out with it what a pair holds.
"""
import zlib

from writer import CREATE, CTZ, DELETE, FILE, FORWARD, HARD, INLINE, MOVE, SOFT

DIR, SUPER, DIR_STRUCT, CHECK, NO_SLOT = 0x002, 0x0FF, 0x200, 0x500, 1023
# which logs are regular: the rule by its number
DOCUMENT_01, LITTLEFS = 0, 1


def summed(register, data):
    """The register behind the bytes, with no final inversion."""
    return zlib.crc32(data, register ^ 0xFFFFFFFF) ^ 0xFFFFFFFF


class Tag:
    """ "validity (bit 31, valid when 0), type 11 bits, id 10 bits, size 10 bits" """

    def __init__(self, word):
        self.word, self.valid = word, word < 1 << 31
        self.type, self.id, self.size = word >> 20 & 0x7FF, word >> 10 & 0x3FF, word & 0x3FF
        self.chunk, self.removal = self.type & 0xFF, self.size == 0x3FF
        self.length = 4 if self.removal else 4 + self.size
        self.splice = self.chunk - 256 if self.chunk > 127 else self.chunk


class Log:
    """What the walk of a block takes: nothing (`ends` is None) until its first commit. `last` is the tag that the next
    one is XORed with; `commits` has of each where its check stands, and its entries."""

    def __init__(self, block):
        self.block, self.revision = block, int.from_bytes(block[:4], "little")
        self.ends, self.last, self.count, self.split, self.tail = None, None, 0, False, (0xFFFFFFFF,) * 2
        self.forward, self.entries, self.checks, self.commits = None, [], [], []
        self.straight = False
        count, split, tail, forward, entries, after_check = 0, False, self.tail, None, [], False
        register, previous, at = summed(0xFFFFFFFF, block[:4]), 0xFFFFFFFF, 4
        while at + 4 <= len(block):
            register = summed(register, block[at:at + 4])
            tag = Tag(int.from_bytes(block[at:at + 4], "big") ^ previous)
            if not tag.valid:
                self.straight = after_check
                return
            if at + tag.length > len(block):
                return
            if tag.type & 0x780 == CHECK:
                if at + 8 > len(block) or int.from_bytes(block[at + 4:at + 8], "little") != register:
                    return
                self.commits.append((at, entries[len(self.entries):]))
                at += tag.length
                self.ends, self.count, self.split, self.tail, self.forward = at, count, split, tail, forward
                self.entries, self.checks = list(entries), self.checks + [tag]
                previous, register, after_check = tag.word ^ (tag.chunk & 1) << 31, 0xFFFFFFFF, True
                self.last = previous
                continue
            kind = tag.type & 0x700
            wide = block[at + 4:at + 12]
            if (kind == 0x600 or tag.type == FORWARD) and len(wide) < 8:
                return
            if kind == 0x000:
                count = max(count, tag.id + 1)
            elif kind == 0x400:
                count = max(count + tag.splice, 0) % 65536
            elif kind == 0x600:
                split = bool(tag.chunk & 1)
                tail = (int.from_bytes(wide[:4], "little"), int.from_bytes(wide[4:], "little"))
            elif tag.type == FORWARD:
                forward = (int.from_bytes(wide[:4], "little"), int.from_bytes(wide[4:], "little"))
            data = block[at + 4:at + tag.length]
            entries.append((tag, data))
            register, previous, after_check, at = summed(register, data), tag.word, False, at + tag.length

    def erased(self, prog):
        if not self.straight or self.ends % prog or self.forward is None:
            return False
        size, sum = self.forward
        return self.ends + size <= len(self.block) and summed(0xFFFFFFFF, self.block[self.ends:self.ends + size]) == sum

    def has_tail(self):
        """A soft tail of two 0xffffffff is none."""
        return self.split or self.tail != (0xFFFFFFFF,) * 2

    def slots(self, rule):
        """What the directory machine makes of the entries, or None: "the committed log isn't regular"."""
        if any(not 4 <= check.size <= 1022 for check in self.checks):
            return None
        return directory([], self.entries, rule)


def directory(slots, entries, rule):
    """The directory machine over the entries, from these slots on, or None where one of them is bad. By littlefs's rule
    a name makes the slots up to its own, as long as nothing was created or deleted."""
    grows = rule == LITTLEFS
    for tag, data in entries:
        named = tag.type in (FILE, DIR, SUPER)
        grows = grows and tag.type not in (CREATE, DELETE)
        if grows and named and tag.id <= 1022:
            slots += [{} for _ in range(len(slots), tag.id + 1)]
        c, inside = len(slots), tag.id < len(slots)
        if tag.type == CREATE and tag.id <= c and c <= 1022 and tag.size == 0:
            slots.insert(tag.id, {})
        elif tag.type == DELETE and inside and tag.size == 0:
            del slots[tag.id]
        elif named and inside and 1 <= tag.size <= 1022:
            slots[tag.id]["name"] = (tag.type, data)
        elif inside and (tag.type in (DIR_STRUCT, CTZ) and tag.size == 8 or tag.type == INLINE and tag.size <= 1022):
            slots[tag.id]["struct"] = (tag.type, data)
        elif 0x300 <= tag.type <= 0x3FF and inside:
            if tag.removal:
                slots[tag.id].pop(tag.type, None)
            else:
                slots[tag.id][tag.type] = data
        elif tag.id != NO_SLOT or (tag.type, tag.size) not in ((SOFT, 8), (HARD, 8), (FORWARD, 8), (MOVE, 12)):
            return None
    return slots


def attributes(slot):
    """A slot's user attributes, type and data, by rising type."""
    return sorted((type, data) for type, data in slot.items() if isinstance(type, int))


def fetched(data, prog):
    """The number of the block that answers and its log, or no number and the refusal's."""
    half = len(data) // 2
    if len(data) % 2 or len(data) > 65536 or not 128 <= half <= 32768 or half % prog:
        return None, -22
    logs = [Log(data[:half]), Log(data[half:])]
    difference = (logs[1].revision - logs[0].revision) % 2 ** 32
    order = (1, 0) if 0 < difference < 1 << 31 else (0, 1)
    found = [n for n in order if logs[n].ends is not None]
    if not found:
        return None, -84
    if logs[found[0]].count > 1023:
        return None, -2
    return found[0], logs[found[0]]
