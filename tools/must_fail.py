#!/usr/bin/env python3
"""Says whether every wrong answer of the must-fail edits is refused by a fact, and exits 1 if one is not.

    tools/must_fail.py [--jobs N] LOG [CRATE..]   LOG: what rt ci said; all crates where none is named, N at a time

An edit states a wrong answer, so what refuses it must be that the answer is wrong: an equation or an inequality that
fails, or a part of a contract of which no proof is found. Where the text is refused for a name out of scope, for its
syntax, its binders or its arguments, or for what a call asks alone, the edit says nothing: a right answer in that text
would be refused too. Of an edit rt says the first error, which settles it where that is a fact.

But an edit may hold several wrong answers, each in a function of its own, so that a crate is checked once for all of
them, and rt is content when one of them is refused. So this applies each such edit, and each whose first error is no
fact, to a copy of the repository, lets rt check the crate there, and reads what was said: each of these functions must
be refused by a fact of its own.
"""
import argparse
import concurrent.futures
import glob
import os
import queue
import re
import subprocess
import sys
import tempfile

ROOT = os.path.abspath(os.path.join(os.path.dirname(os.path.abspath(__file__)), ".."))

# Where an error begins. It goes on in indented lines.
ERROR = re.compile(r"\./(?P<at>\S+)/\w+\.antt:\d+:\d+: error: (?:`(?P<name>[^`]*)`: )?(?P<said>.*)")
# What no proof is found of, in the line of a function, and of a goal.
LINE = re.compile(r"fn \w+::(?P<path>\S+): (?P<said>.*)")
OPEN = re.compile(r"`search` did not prove (.*)")
ENSURED = re.compile(r"note: \S+: it is not proved that what the function ensures holds when it returns")
TOLD = re.compile(r"rt: must-fail (?P<edit>\S+): refused, as it must be: (?P<said>.*)")
FACTS = re.compile("|".join((
    r"(as printed|computed as far as they go), the two (types|sides) ",
    r"expected type `",
    r"`(search|cc|grind)`: no proof of `",
    r"`(omega|grind)`: the (part `\.\w+` of the )?goal does not follow",
    r"`(rw|simp)`: no occurrence of the path's left endpoint in the goal",
    r"give a proof of that as the last argument, `(rw|simp) L t`",
    r"list the missing equation with its arguments")))
# Of the goals that a function leaves open, those that are part of its contract, and not of what an operation or a call
# asks.
CONTRACT = re.compile(r"`(returns|loop)")


def is_fact(error):
    """Whether an error says that an answer is wrong: not one of what a call asks."""
    return bool(FACTS.match(error["said"])) and "-requires" not in (error["name"] or "")


def function_at(text, place):
    """The function of a source that a place in it belongs to, and which of the source's functions it is."""
    names = re.findall(r"\bfn (\w+)", text[:place])
    return (names[-1], len(names)) if names else ("", 0)


def applied(crate, edit):
    """The texts of the files that an edit changes, as it makes them, and the functions of src/ that it makes wrong."""
    texts, wrong, file, old = {}, {}, "", ""
    with open(edit, encoding="utf-8") as lines:
        for line in lines.read().splitlines():
            if line.startswith("file: "):
                file = line[len("file: "):].strip()
            elif line.startswith("old: "):
                old = line[len("old: "):]
            elif line.startswith("new:"):
                path = os.path.join(crate, file)
                if path not in texts:
                    with open(path, encoding="utf-8") as source:
                        texts[path] = source.read()
                text = texts[path]
                if text.count(old) != 1:
                    sys.exit(f"{edit}: '{old}' stands in {file} {text.count(old)} times")
                if file.startswith("src/"):
                    name, which = function_at(text, text.find(old) + len(old))
                    if wrong.setdefault((file, name), which) != which:
                        sys.exit(f"{edit}: {file} has two functions {name}, which what rt says doesn't tell apart: "
                                 "a wrong answer of each needs an edit of its own")
                texts[path] = text.replace(old, line[len("new: "):])
    return texts, sorted(wrong)


def function_of(crate, parts):
    """The source file and function that a path is of: the module, a type if it is a method, and the function."""
    module = os.path.join("src", parts[0] + ".rt")
    inside = len(parts) > 1 and os.path.exists(os.path.join(crate, module))
    return module if inside else os.path.join("src", "lib.rt"), parts[-1].lstrip("+")


def refusals(crate, said):
    """For each function what refused it: 'fact', or else what was said; and for ('', '') the same of all."""
    found = {}
    for line in said.splitlines():
        if error := ERROR.match(line):
            parts = error["at"].split("/")
            at = function_of(crate, parts[1:]) if parts[0] == "proofs" and len(parts) > 1 else ("", "")
            kind = "fact" if is_fact(error) else error["said"][:200]
        elif (told := LINE.match(line)) and (left := OPEN.search(told["said"])):
            at = function_of(crate, told["path"].split("::"))
            kind = "fact" if CONTRACT.search(left[1]) else told["said"][:200]
        else:
            continue
        for one in (at, ("", "")):
            if found.get(one) != "fact":
                found[one] = kind
    return found


def tried(copy, name, edits, settled):
    """What is to be said of a crate's edits that have several wrong answers, or that rt's first error doesn't settle."""
    crate, said = os.path.join(ROOT, "crates", name), []
    for edit in edits:
        texts, wrong = applied(crate, edit)
        label = f"{name}/{os.path.basename(edit)}"
        if len(wrong) < 2 and label in settled:
            continue
        was = {}
        for path, text in texts.items():
            to = os.path.join(copy, "crates", name, os.path.relpath(path, crate))
            with open(to, encoding="utf-8") as file:
                was[to] = file.read()
            with open(to, "w", encoding="utf-8") as file:
                file.write(text)
        check = subprocess.run(["rt", "check"], cwd=os.path.join(copy, "crates", name), stdout=subprocess.PIPE,
                               stderr=subprocess.STDOUT, text=True, errors="replace", check=False)
        for to, text in was.items():
            with open(to, "w", encoding="utf-8") as file:
                file.write(text)
        found = refusals(crate, check.stdout)
        lacking = [f"{one[1] or 'it'} ({found.get(one, 'nothing refuses it')})" for one in wrong or [("", "")]
                   if found.get(one) != "fact"]
        said.append((label, max(1, len(wrong)), "FAULT: no fact refuses " + ", ".join(lacking) if lacking else ""))
    return said


def copied(to):
    """A copy of the repository, with what was proved of it."""
    os.makedirs(os.path.join(to, ".git"))
    for name in ("crates", "crates.txt", "HANDLES"):
        subprocess.run(["cp", "-a", os.path.join(ROOT, name), to], check=True)
    return to


def first_errors(log):
    """The edits whose first error, as rt ci says it, is a fact."""
    with open(log, encoding="utf-8", errors="replace") as lines:
        told = [m for m in map(TOLD.match, lines) if m]
    errors = {m["edit"]: (ERROR.match(m["said"]), ENSURED.match(m["said"])) for m in told}
    return {edit for edit, (error, ensured) in errors.items() if ensured or error and is_fact(error)}, len(told)


def main():
    parser = argparse.ArgumentParser(description=__doc__, formatter_class=argparse.RawDescriptionHelpFormatter)
    parser.add_argument("--jobs", type=int, default=os.cpu_count() or 1)
    parser.add_argument("log")
    parser.add_argument("crates", nargs="*")
    args = parser.parse_args()
    settled, refused = first_errors(args.log)
    edits = {}
    for edit in sorted(glob.glob(os.path.join(ROOT, "crates", "*", "must-fail", "*.edit"))):
        crate = edit.split(os.sep)[-3]
        if not args.crates or crate in args.crates:
            edits.setdefault(crate, []).append(edit)
    with tempfile.TemporaryDirectory(prefix="must-fail-") as room:
        # a copy for each that are tried at a time: an edited crate may stand below another
        copies = queue.SimpleQueue()
        for number in range(args.jobs):
            copies.put(copied(os.path.join(room, str(number))))

        def in_a_copy(crate):
            copy = copies.get()
            try:
                return tried(copy, crate, edits[crate], settled)
            finally:
                copies.put(copy)

        with concurrent.futures.ThreadPoolExecutor(args.jobs) as pool:
            said = [one for some in pool.map(in_a_copy, edits) for one in some]
    for name, _, fault in said:
        if fault:
            print(f"must-fail {name}: {fault}")
    faults = sum(bool(fault) for _, _, fault in said)
    print(f"must-fail edits: {refused} refused, {len(settled)} at once by a fact; tried again, for each of their "
          f"{sum(n for _, n, _ in said)} wrong answers, {len(said)}; faults {faults}")
    sys.exit(1 if faults or not refused else 0)


main()
