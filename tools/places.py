#!/usr/bin/env python3
"""Counts, in every crate's src/, the places that docs/DESIGN-PASS.md speaks of, point by point.

    tools/places.py [ROOT]            the counts, of this checkout or of the one at ROOT
    tools/places.py --list [ROOT]     and each place

It reads the text of the sources and knows no types: what it finds is where to look, not what must change.
"""
import collections
import os
import re
import sys

UNSHAPED = "Refused Nothing Not Over Bad Full Unclear".split()
BY_HAND = r"same_\w+|smaller|least|copy_in|zero_rest|clear|erase|\w+_out|number\w*|rules_of|put_four|refused|half_of"
GROUPS = {
    "sizes, images and numbers (g, b0, b1, n0, n1)": (r"\bg: Geometry\b", r"\bb0: &", r"\bb1: &", r"\bn0: u32\b"),
    "a text and its length (out, at)": (r"\bout: &mut \[u8\]", r"\bat: u32\b"),
    "a table and its places in use (table, used)": (r"\btable: &(mut )?\[u32\]", r"\bused: usize\b"),
    "a set and whether it has been used (set, any)": (r"\bset: &mut \[u32", r"\bany: bool\b"),
    "sizes and a volume (g, vol)": (r"\bg: Geometry\b", r"\bvol: &\[u8\]"),
    "places and whether there are any (places, indexed)": (r"\bplaces: &\[u32\]", r"\bindexed: bool\b"),
    "an entry's four numbers (kind, id, off, len)": (r"\bkind: u16\b", r"\bid: u16\b", r"\boff: u32\b", r"\blen: u32\b"),
}


def sources(root):
    for where, folders, files in os.walk(os.path.join(root, "crates")):
        folders[:] = sorted(f for f in folders if f not in ("out", "specs", "proofs", "must-fail"))
        for name in sorted(files):
            if name.endswith(".rt"):
                path = os.path.join(where, name)
                yield os.path.relpath(path, root), re.sub(r"//[^\n]*", "", open(path, encoding="utf-8").read())


def functions(text):
    """Name, signature, contract and body of each function."""
    for m in re.finditer(r'^( *)(?:pub )?(?:extern "C" )?fn (\w+)', text, flags=re.M):
        end = re.search(r"^" + m.group(1) + r"\}", text[m.start():], flags=re.M)
        whole = text[m.start():m.start() + end.end()] if end else text[m.start():]
        head, brace, body = whole.partition("\n" + m.group(1) + "{")
        cut = re.search(r"\b(requires|ensures)\b", head)
        yield m.group(2), head[:cut.start()] if cut else head, head[cut.start():] if cut else "", brace + body


def twins(all_functions):
    """Functions that are the same but for types, numbers, constants and the functions that they call."""
    alike = collections.defaultdict(list)
    for path, name, head, _, body in all_functions:
        t = re.sub(r"\bfn \w+", "fn F", head + body)
        t = re.sub(r"0x[0-9a-f_]+|\b\d[\d_]*(?:usize|u8|u32|u64)?\b", "N", t)
        t = re.sub(r'"[^"\n]*"', "S", t)
        t = re.sub(r"\b(u8|u16|u32|u64|usize|i8|i32)\b", "T", t)
        t = re.sub(r"\b[A-Z][A-Z0-9_]{2,}\b", "C", t)
        t = re.sub(r"\b(?:\w+::)*\w+(?=\()", "G", t)
        t = re.sub(r"\s+", " ", t)
        if len(t) > 60 and not path.startswith("crates/lanolin/"):
            alike[t].append(f"{path}:{name}")
    return [" ".join(group) for group in alike.values() if len(group) > 1]


def facts(all_functions):
    """Facts that three or more functions ask of the same kind of value."""
    seen = collections.defaultdict(list)
    for path, name, _, contract, _ in all_functions:
        for asked in re.findall(r"requires(?: \w+)? \{([^{}]*)\}", contract):
            for part in re.split(r"×", asked):
                part = re.sub(r"\s+", " ", part).strip(" ()")
                part = re.sub(r"\.(old|now|entry)\b", "", part)
                seen[part].append(f"{path}:{name}")
    return [f"{fact}: {len(at)}" for fact, at in sorted(seen.items()) if len(at) > 2]


def count(root):
    files = list(sources(root))
    every = [(path, *f) for path, text in files for f in functions(text)]

    def lines(pattern, only=lambda path: True):
        return [f"{p}: {l.strip()}" for p, t in files if only(p) for l in t.split("\n") if re.search(pattern, l)]

    enums = [f"{p}: {m.group(1)}" for p, t in files
             for m in re.finditer(r"^(?:pub )?enum (\w+) \{(.*?)^\}", t, flags=re.M | re.S)
             if re.search(r"^\s+(%s)\b" % "|".join(UNSHAPED), m.group(2), flags=re.M)]
    inner = lambda p: not p.startswith("crates/lanolin")
    found = [
        ("1 enums with a case that is no value", enums),
        ("1 flags in structs and among parameters", lines(r"\b(?!bool)\w+: bool\b", inner)),
        ("1 the rule as a number, outside lfs_dir_* and the layer for C",
         [f"{p}:{n}" for p, n, h, _, _ in every if "rules: u32" in h and not n.startswith("lfs_dir") and inner(p)]),
        ("2 functions alike but for types, numbers, constants and calls", twins(every)),
        ("3 while and loop", lines(r"^\s*(while|loop)\b")),
        ("4 equality, copies, conversions and the like by hand",
         [f"{p}:{n}" for p, n, _, _, _ in every if re.fullmatch(BY_HAND, n)]),
        ("4 types that derive no more than Clone and Copy", lines(r"derive\(Clone, Copy\)")),
        ("5 facts that three or more functions ask", facts(every)),
    ]
    for name, parts in GROUPS.items():
        found.append(("5 parameters together: " + name,
                      [f"{p}:{n}" for p, n, h, _, _ in every if inner(p) and all(re.search(x, h) for x in parts)]))
    found += [
        ("6 arrays of two words for each part", lines(r"2 \* \w+( \+ 1)?\]")),
        ("7 matches on a phase", lines(r"Phase::")),
        ("7 closures, impl Fn, dyn", lines(r"\|\w+(, \w+)*\| [^=]|impl Fn|: Fn(Once|Mut)?\(|\bdyn\b")),
    ]
    return found


def main():
    args = sys.argv[1:]
    show = "--list" in args
    roots = [a for a in args if not a.startswith("--")]
    root = roots[0] if roots else os.path.dirname(os.path.dirname(os.path.abspath(__file__)))
    for name, at in count(root):
        print(f"{len(at):4}  {name}")
        for place in at if show else []:
            print("        " + place)
    proofs = collections.Counter()
    for where, folders, names in os.walk(os.path.join(root, "crates")):
        folders[:] = [f for f in folders if f != "out"]
        if os.sep + "proofs" in where:
            for name in names:
                if name.endswith(".antt"):
                    kind = "answers and invariants" if name in ("Answers.antt", "Invariants.antt") else "lemmas"
                    proofs[kind] += open(os.path.join(where, name), encoding="utf-8").read().count("\n")
    print(f"{proofs['answers and invariants']:6}  8 lines of answers and invariants")
    print(f"{proofs['lemmas']:6}  8 lines of lemmas in proofs/")


if __name__ == "__main__":
    main()
