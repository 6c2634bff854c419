"""A writer of metadata blocks, from document 01 and document 02's forward check and erased byte alone: commits
appended, and blocks written anew. Nothing is taken from the port.

The scripts beside it make their images with it. `erased` is the byte that the flash reads as after an erase.
"""
import zlib

CREATE, FILE, INLINE, CTZ, ATTR = 0x401, 0x001, 0x201, 0x202, 0x374
DELETE, FORWARD, SOFT, HARD, MOVE = 0x4FF, 0x5FF, 0x600, 0x601, 0x7FF


def checksum(data):
    """The register over the bytes from 0xffffffff, with no final inversion."""
    return zlib.crc32(data) ^ 0xFFFFFFFF


def tag(kind, id, size):
    return kind << 20 | id << 10 | size


def check_size(prog, at):
    """The least size of 4 or more for which a check tag at `at` ends its commit on a multiple of the program size."""
    size = 4
    while (at + 4 + size) % prog:
        size += 1
    return size


def check_type(erased):
    """ "The check tag is 0x500 for 0xff and 0x501 for 0x00": its low chunk bit sets the top bit of the end tag, so that
    erased bytes behind it are no valid tag. """
    return {0xFF: 0x500, 0x00: 0x501}[erased]


def filled(data, size, erased):
    """The bytes with erased ones behind them, up to the size."""
    return data.ljust(size, bytes([erased]))


def forward_check(length, sum=None, erased=0xFF):
    """The entry that says of so many bytes behind the end of its commit what their checksum is: that of erased ones,
    unless another is given."""
    sum = checksum(filled(b"", length, erased)) if sum is None else sum
    return tag(FORWARD, 1023, 8), length.to_bytes(4, "little") + sum.to_bytes(4, "little")


def with_forward(size, prog, at, entries, erased=0xFF):
    """What a commit of these entries lays in a block of `size` bytes, from `at` on: behind them, "when at least one
    whole program unit follows the new end, counted with the added bytes", the forward check of that unit."""
    laid = [*entries, forward_check(prog, erased=erased)]
    end = at + sum(4 + len(body) for _, body in laid)
    end += 4 + check_size(prog, end)
    return laid if end + prog <= size else list(entries)


def commit_bytes(prog, at, start, previous, entries, check, size=None):
    """The stored bytes of a commit whose first byte stands at `at`, and its end tag; `start` is checksummed before it
    (the revision). `check` is the type of its check tag: where it is odd, the top bit of the end tag is set. Its size
    is the least, unless another is given."""
    data = b""
    for this, body in entries:
        data += (this ^ previous).to_bytes(4, "big") + body
        previous = this
    this = tag(check, 1023, check_size(prog, at + len(data)) if size is None else size)
    data += (this ^ previous).to_bytes(4, "big")
    return data + checksum(start + data).to_bytes(4, "little"), this ^ (check & 1) << 31


def coincides(start, stored, erased):
    """ "Put 1, 2 or 3 bytes of the check tag and fill its four" with erased ones: whether any of the three checksums is
    four erased bytes. The last eight bytes that a commit stores are check tag and checksum. """
    four = bytes([erased]) * 4
    data, check = start + stored[:-8], stored[-8:-4]
    sums = [checksum(data + (check[:put] + four)[:4]) for put in (1, 2, 3)]
    return int.from_bytes(four, "little") in sums


def block(size, prog, entries, revision=1, check=None, erased=0xFF):
    """A block with one commit of exactly these entries, where it ends, and its end tag. Its check tag is of the erased
    byte's type, unless another is given."""
    start = revision.to_bytes(4, "little")
    data, last = commit_bytes(prog, 4, start, 0xFFFFFFFF, entries, check_type(erased) if check is None else check)
    return filled(start + data, size, erased), end_of(prog, 4 + len(data)), last


def end_of(prog, stored):
    return -(-stored // prog) * prog


def entry_tags(entries, data):
    return [(tag(k, i, n), b"" if n == 1023 else data[o:o + n]) for k, i, o, n in entries]


def appended(image, prog, end, last, entries, data, limit, forward=True, erased=0xFF):
    """The image after a commit of `limit` stores (all: None), how many there are, and the end and end tag of the
    whole. Where `forward` is false, as commits were before document 02's L5: none carries a forward check."""
    laid = entry_tags(entries, data)
    laid = with_forward(len(image), prog, end, laid, erased) if forward else laid
    stored, this = commit_bytes(prog, end, b"", last, laid, check_type(erased))
    assert not coincides(b"", stored, erased)  # or it is refused
    made = len(stored) if limit is None else min(limit, len(stored))
    return image[:end] + stored[:made] + image[end + made:], made, end_of(prog, end + len(stored)), this


def compacted(size, prog, revision, entries, limit, old, erased=0xFF):
    """The block after a compaction of `limit` stores over `old`, how many there are, and the end and end tag."""
    laid, start = with_forward(size, prog, 4, entries, erased), revision.to_bytes(4, "little")
    whole, end, this = block(size, prog, laid, revision, erased=erased)
    stored = commit_bytes(prog, 4, start, 0xFFFFFFFF, laid, check_type(erased))[0]
    assert not coincides(start, stored, erased)  # or it is refused
    stores = 1 + len(start + stored)
    made = stores if limit is None else min(limit, stores)
    return (old if made == 0 else filled(whole[:made - 1], size, erased)), made, end, this


def runs(data):
    """Bytes as text: hex, with runs of eight and more as aa*n."""
    parts, i = [], 0
    while i < len(data):
        j = i
        while j < len(data) and data[j] == data[i]:
            j += 1
        if j - i >= 8:
            parts.append(f"{data[i]:02x}*{j - i}")
        else:
            text = data[i:j].hex()
            if parts and "*" not in parts[-1]:
                parts[-1] += text
            else:
                parts.append(text)
        i = j
    return ",".join(parts) or "-"
