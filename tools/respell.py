#!/usr/bin/env python3
"""Brings the repository's own names in antt to snake case: 'commitBytes' and 'fetch-second' become 'commit_bytes' and
'fetch_second'. Run once, at the top, behind the kit's script that turns the older language's spelling.

A name that specs/ or proofs/ declare and that begins with a small letter is turned everywhere: in .antt files, in
clauses and comments of .rt files, in must-fail edits, and in code spans of the pages. A name that a file imports from a
library stays in that file. Where a lemma would meet the function that it is about ('end-tag' and 'endTag'), the
function gets the plain name and the lemma '_lem'. Functions of src/, exported names, strings, inputs and outputs keep
their names. It prints what it turned.
"""
import collections
import os
import re
import sys

NAME = r"[^\s(){}.;,@\"«»]+"
TOKEN = re.compile(NAME)
DECLARED = re.compile(
    rf"(?m)^ *(?:(?:abbrev|unfoldable|pub|opaque|instance|inline) )*({NAME})(?: \{{[^{{}}\n]*\}}| \([^()\n]*\))* :(?= |$)"
)
USE = re.compile(r"(?m)^ *(?:pub )?use ([^\s{;]+?)\.?(?:\{([^}]*)\}|(?= as |$|;))")
# lemmas that have their function's name in snake case already, and the folder where they stand
LEMMAS = {
    "after_check": "crates/fetch_walk/",
    "holds_as": "crates/theory/",
    "in_order": "crates/cases/",
    "is_name": ("crates/commit_rules/", "crates/theory/"),
    "node_seen": "crates/tree_theory/",
    "ran_on": "crates/index_theory/",
}


def snake(name):
    return re.sub(r"(?<=[a-z0-9])[A-Z]", lambda m: "_" + m[0].lower(), name).replace("-", "_").replace("′", "'")


def files(*ends):
    for folder, folders, names in os.walk("."):
        folders[:] = sorted(f for f in folders if f not in ("out", "target", ".git", "__pycache__"))
        for name in sorted(names):
            if name.endswith(ends):
                yield os.path.join(folder, name)[2:]


def read(path):
    with open(path, encoding="utf-8") as file:
        return file.read()


def without_comments(text):
    return re.sub(r"(?m)(?<!\S)--[^\n]*", "", text)


def all_declared():
    names = set()
    for path in files(".antt"):
        names.update(DECLARED.findall(without_comments(read(path))))
    return {it for it in names if it[0].islower()}


def table(declared):
    """Each declared name that is to be turned, with its new spelling."""
    # a type joined to a name keeps its dash
    joined = {it for it in declared if re.search(r"-[A-Z]", it)}
    turned = {it: snake(it) for it in declared - joined if snake(it) != it}
    meet = collections.defaultdict(set)
    for old, new in turned.items():
        meet[new].add(old)
    for new, olds in meet.items():
        if len(olds) > 1 or (new in declared and new not in LEMMAS):
            for old in olds:
                if "-" in old:
                    turned[old] = new + "_lem"
    back = collections.defaultdict(set)
    for old, new in turned.items():
        back[new].add(old)
    for new, olds in back.items():
        if len(olds) > 1 or (new in declared and new not in LEMMAS):
            sys.exit(f"respell: {sorted(olds)} would meet as {new}")
    return turned


def of_library(path):
    steps = path.split(".")
    return not (steps[0] == "Rattle" and len(steps) > 1 and os.path.isdir(os.path.join("crates", steps[1])))


def kept(text):
    """The names that a file imports from a library."""
    names = set()
    for path, items in USE.findall(text):
        if of_library(path):
            for item in (items or path.split(".")[-1]).split(","):
                names.update(item.split())
    return names


def lemmas(path):
    return {it: it + "_lem" for it, where in LEMMAS.items() if path.startswith(where)}


def antt(path, text, turned):
    stay = kept(without_comments(text))
    here = {old: new for old, new in turned.items() if old not in stay}
    here.update(lemmas(path))
    lines = []
    for line in text.split("\n"):
        code, mark, said = line, "", ""
        start = re.search(r"(?<!\S)--(?=\s|$)", line)
        if start:
            code, mark, said = line[: start.start()], line[start.start() : start.end()], line[start.end() :]
        code = TOKEN.sub(lambda m: here.get(m[0], m[0]), code)
        lines.append(code + mark + prose(said, here))
    return "\n".join(lines)


def prose(text, here, names=frozenset()):
    """A comment: what stands in code spans, and camel case anywhere; with names, what is turned in the files already."""

    def word(m):
        return here.get(m[0]) or (snake(m[0]) if m[0][0].islower() and snake(m[0]) in names else m[0])

    text = re.sub(r"`([^`\n]*)`", lambda m: "`" + TOKEN.sub(word, m[1]) + "`", text)
    return re.sub(r"(?<![\w-])[a-z]\w*[A-Z]\w*(?![\w-])", word, text)


def rust(path, text, turned):
    """Camel case is nobody else's in the Rust; a name with a dash stands only in comments' code spans."""
    text = re.sub(r"(?<![\w'-])[a-z]\w*[A-Z]\w*(?![\w-])", lambda m: turned.get(m[0], m[0]), text)
    return re.sub(r"(?m)//.*$", lambda m: prose(m[0], turned), text)


def edit(path, text, turned, names):
    """An edit's text, with what the kit's script turned in the files already."""

    def word(m):
        return turned.get(m[0]) or (snake(m[0]) if m[0][0].islower() and snake(m[0]) in names else m[0])

    lines = []
    for line in text.split("\n"):
        if re.match(r"(old|new): ", line):
            line = line[:5] + TOKEN.sub(word, line[5:])
        elif not line.startswith("file: "):
            line = prose(line, turned, names)
        lines.append(line)
    return "\n".join(lines)


def main():
    declared = all_declared()
    turned = table(declared)
    names = {turned.get(it, it) for it in declared}
    changed = 0
    for path in files(".antt", ".rt", ".edit", ".md"):
        text = read(path)
        if path.endswith(".antt"):
            now = antt(path, text, turned)
        elif path.endswith(".rt"):
            now = rust(path, text, turned)
        elif path.endswith(".edit"):
            now = edit(path, text, turned, names)
        elif path in ("docs/PORT.md",):
            continue
        else:
            now = prose(text, turned, names)
        if now != text:
            changed += 1
            with open(path, "w", encoding="utf-8") as file:
                file.write(now)
    for old, new in sorted(turned.items()):
        print(f"{old} {new}")
    print(f"respell: {len(turned)} names, {changed} files", file=sys.stderr)


if __name__ == "__main__":
    main()
