#!/usr/bin/env python3
"""Writes docs/MAP.md: which crate stands on which, and in which order to read the definitions.

    tools/map.py           write docs/MAP.md
    tools/map.py --check   say whether it is as it would be written and whether README's table has the same groups and
                           crates in the same order, and exit 1 if not (the gate runs this)

Crates and their groups come from crates.txt, what each is for from the first comment of its source, the order of the
definitions from crates/format/specs/Lib.antt, and what a definition file stands on from its `use` lines.
"""
import os
import re
import sys

ROOT = os.path.join(os.path.dirname(os.path.abspath(__file__)), "..")
MAP = os.path.join(ROOT, "docs", "MAP.md")
KIT = {"std"}


def read(*path):
    with open(os.path.join(ROOT, *path), encoding="utf-8") as f:
        return f.read()


def groups():
    """The groups of crates.txt in its order: heading -> name -> what it stands on."""
    found, heading = {}, ""
    for line in read("crates.txt").splitlines():
        if line.startswith("#"):
            heading = line[1:].strip()
        elif line.strip():
            name, stands_on = line.split(":")
            found.setdefault(heading, {})[name.split()[0]] = stands_on.split()  # a static library says so behind its name
    return found


def all_of(grouped):
    return {name: deps for crates in grouped.values() for name, deps in crates.items()}


def beneath(crates):
    """For each crate all those that it stands on, also by way of another; the kit's libraries left out."""
    under = {}
    while len(under) < len(crates):
        ready = [n for n, deps in crates.items() if n not in under and all(d in under or d in KIT for d in deps)]
        if not ready:
            sys.exit("crates.txt: a crate that stands on itself, or on one that is not listed")
        for n in ready:
            under[n] = set().union(*({d} | under[d] for d in crates[n] if d not in KIT))
    return under


def arrows(crates):
    """What each crate stands on, less what follows from the others."""
    under = beneath(crates)
    for name, deps in crates.items():
        own = [d for d in deps if d not in KIT]
        for d in own:
            if not any(d in under[other] for other in own):
                yield name, d


def picture(grouped):
    out = ["```mermaid", "flowchart TD"]
    for heading, crates in grouped.items():
        # the prefix keeps a group apart from a crate of the same name
        out += [f"  subgraph group_{heading} [{heading}]"] + [f"    {name}" for name in crates] + ["  end"]
    return out + [f"  {a} --> {b}" for a, b in arrows(all_of(grouped))] + ["```"]


def first_sentence(text, mark):
    """The first comment of a file, up to its first full stop."""
    words = []
    for line in text.splitlines():
        if not line.startswith(mark):
            break
        words.append(line[len(mark):].strip())
    said = " ".join(words)
    end = re.search(r"\.(\s|$)", said)
    return (said[:end.start()] if end else said).strip()


def sources(name):
    """The text of each source file of a crate, its root first."""
    folder = os.path.join(ROOT, "crates", name, "src")
    files = sorted(os.listdir(folder), key=lambda f: (f not in ("lib.rt", "main.rt"), f))
    return {f: read("crates", name, "src", f) for f in files}


def kind(files):
    if "main.rt" in files:
        return "program"
    return "library" if any(re.search(r"\bfn\b", text) for text in files.values()) else "no code"


def table(crates):
    out = ["| Crate | | Stands on | What it is |", "|---|---|---|---|"]
    for name, deps in crates.items():
        files = sources(name)
        said = first_sentence(next(iter(files.values())), "//")
        out.append(f"| `{name}` | {kind(files)} | {', '.join(deps) or '-'} | {said} |")
    return out


def definitions():
    """The files of format/specs in reading order, with what each says it is and what it stands on."""
    for line in read("crates", "format", "specs", "Lib.antt").splitlines():
        m = re.match(r"pub mod (\w+)", line)
        if m:
            text = read("crates", "format", "specs", m.group(1) + ".antt")
            uses = re.findall(r"^use Rattle\.format\.specs\.(\w+)\.", text, re.M)
            yield m.group(1), first_sentence(text, "--"), [u for u in dict.fromkeys(uses) if u != "declared"]


def whole_map(grouped):
    out = ["# Map", "", "Written by `tools/map.py` from crates.txt and the files' first lines; the gate checks that it "
           "is up to date.", "", "## The crates", "",
           "An arrow leads from a crate to one that it stands on. Left out are the arrows that follow from others, and",
           "Rattle's own libraries; the tables name all that a crate stands on.", ""] + picture(grouped)
    for heading, crates in grouped.items():
        out += ["", f"### {heading[0].upper()}{heading[1:]}", ""] + table(crates)
    out += ["", "## The definitions, in reading order", "", "`crates/format/specs/`, each with the files that it uses.",
            "", "| File | Uses | What it is |", "|---|---|---|"]
    out += [f"| `{name}.antt` | {', '.join(uses) or '-'} | {said} |" for name, said, uses in definitions()]
    return "\n".join(out) + "\n"


def readme_order():
    """Groups (bold) and crates (as code) of README's table, from the first cell of each row."""
    section = read("README.md").split("\n## The crates\n")[-1].split("\n## ")[0]
    cells = [row.split("|")[1] for row in section.splitlines() if row.startswith("|")]
    return [name.strip("*`") for cell in cells for name in re.findall(r"\*\*\w+\*\*|`\w+`", cell)]


def check(grouped):
    if not os.path.exists(MAP) or read("docs", "MAP.md") != whole_map(grouped):
        sys.exit("docs/MAP.md is not up to date: run tools/map.py")
    wanted = [name for heading, crates in grouped.items() for name in (heading, *crates)]
    named = readme_order()
    if named != wanted:
        at = next((i for i, (a, b) in enumerate(zip(named, wanted)) if a != b), min(len(named), len(wanted)))
        said, should = (l[at] if at < len(l) else "nothing" for l in (named, wanted))
        sys.exit(f"README.md, The crates: the table has {said} where crates.txt has {should}")


def main(args):
    if args not in ([], ["--check"]):
        sys.exit(__doc__)
    grouped = groups()
    if args:
        return check(grouped)
    with open(MAP, "w", encoding="utf-8") as f:
        f.write(whole_map(grouped))


main(sys.argv[1:])
