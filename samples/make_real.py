#!/usr/bin/env python3
"""Takes metadata pairs out of volumes that a real littlefs in C wrote, with what that littlefs shows of them, and
writes samples/real/.

    samples/make_real.py VOLUMES      VOLUMES: a directory of NAME.img.gz and NAME.json

Run by hand when the set changes; the result is kept in the repository. real/README.md says what the files have.
"""
import gzip
import json
import os
import sys

HERE = os.path.join(os.path.dirname(os.path.abspath(__file__)), "real")
TYPES = {"file": 0x001, "dir": 0x002}
STRUCTS = {"inline": 0x201, "ctz": 0x202}
# of each volume the pairs to take: all, or so many of them, evenly
TAKE = {"attrs-512": 9, "churn-256": 5, "ctz-512": 9, "cut-512-setattr-torn-0": 9, "deep-256": 4, "empty-128": 1,
        "move-256-pending": 9, "split-512": 6}


def few(pairs, most):
    """So many of the pairs, evenly."""
    return pairs[::max(1, -(-len(pairs) // most))]


def words(*numbers):
    return " ".join(str(n) for n in numbers)


def superblock(seen):
    """The superblock entry's 24 bytes, from what littlefs shows of the file system."""
    fs = seen["fs"]
    major, minor = fs["disk_version"].split(".")
    numbers = [int(major) << 16 | int(minor), fs["block_size"], fs["block_count"], fs["name_max"], fs["file_max"],
               fs["attr_max"]]
    return b"".join(n.to_bytes(4, "little") for n in numbers)


def slots(volume, pair):
    """What littlefs shows in a pair: (id, type, name, struct type, size, struct bytes or None, attributes)."""
    seen = volume["seen"]
    if 0 in pair and 1 in pair:
        yield 0, 0x0ff, b"littlefs", 0x201, 24, superblock(seen), volume.get("root_attrs", {})
    for entry in seen["tree"]:
        if sorted(entry["pair"]) != sorted(pair):
            continue
        name = entry["path"].rsplit("/", 1)[1].encode()
        if entry["type"] == "dir":
            data = b"".join(n.to_bytes(4, "little") for n in entry["dir"])
            yield entry["id"], TYPES["dir"], name, 0x200, 0, data, entry.get("attrs", {})
        else:
            attrs = entry.get("attrs", {})
            yield entry["id"], TYPES["file"], name, STRUCTS[entry["struct"]], entry["size"], None, attrs


def write_pair(out, name, volume, image, pair):
    size, prog = volume["geometry"]["block_size"], volume["geometry"]["prog_size"]
    n0, n1 = pair["blocks"]
    file = f"{name}-{n0}-{n1}.pair"
    with open(os.path.join(HERE, file), "wb") as f:
        f.write(image[n0 * size:(n0 + 1) * size] + image[n1 * size:(n1 + 1) * size])
    state = volume["seen"]["gstate"]
    out.append(f"pair {file} {words(size, prog, n0, n1)} {int(state['tag'], 16)} {words(*state['pair'])}")
    out.append(f"record {words(*pair['pair'], pair['rev'], pair['off'], int(pair['etag'], 16), pair['count'])} "
               f"{words(int(pair['erased']), int(pair['split']), *pair['tail'])}")
    move = state["move_pending"] and set(state["pair"]) & set(pair["blocks"])
    for slot, kind, label, struct, length, data, attrs in sorted(slots(volume, pair["blocks"])):
        if move and slot == state["move_id"]:
            out.append(f"hidden {slot}")
            continue
        out.append(f"slot {slot} {kind} {label.hex() or '-'} {struct} {length} {data.hex() if data else '-'}")
        for kind, value in sorted((int(k, 16), v) for k, v in attrs.items()):
            out.append(f"attr {slot} {kind} {value or '-'}")


def main(volumes):
    os.makedirs(HERE, exist_ok=True)
    out = []
    for name, most in TAKE.items():
        volume = json.load(open(os.path.join(volumes, name + ".json")))
        image = gzip.open(os.path.join(volumes, name + ".img.gz")).read()
        for pair in few(volume["seen"]["pairs"], most):
            assert pair["result"] == "OK"
            write_pair(out, name, volume, image, pair)
    with open(os.path.join(HERE, "shown.txt"), "w") as f:
        f.write("\n".join(out) + "\n")
    print(f"{sum(l.startswith('pair') for l in out)} pairs, {sum(l.startswith('slot') for l in out)} slots, "
          f"{sum(l.startswith('attr') for l in out)} attributes")


if __name__ == "__main__":
    if len(sys.argv) != 2:
        sys.exit(__doc__)
    main(sys.argv[1])
