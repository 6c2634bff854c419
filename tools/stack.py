#!/usr/bin/env python3
"""The stack that each call of the archive takes at most, read from its machine code.

    tools/stack.py                       print the bound of every lanolin_ call, deepest first; calls alike in a line
    tools/stack.py --at-most N [M]       and exit 1 if a compaction may take more than N bytes, or any other call more
                                         than M, which is N where it isn't named
    tools/stack.py --measured FILE       beside the bounds what tests/c/stack.c measured (- is standard input), and exit
                                         1 if a measure is above its bound, by more than memcpy and its like may
                                         take, or a call was not measured

A bound counts the return address, what a function pushes and takes off the stack pointer, and the deepest function that
it calls. It is a bound because the code has no recursion, no call through a pointer and no frame whose size is known
only at run time: the script stops on any of them, and wherever it can't follow the stack pointer. Not counted are
memcpy, memmove and memset, the functions of the C library that the archive calls.
"""
import argparse
import re
import shutil
import subprocess
import sys

ARCHIVE = "target/staticlib/liblanolin.a"
OUTSIDE = {"memcpy": 0, "memmove": 0, "memset": 0}  # the C library's own: not counted
OUTSIDE_TAKES = 64  # and what they may add to a measure: each C library has several of them, one for each processor
RED_ZONE = 128  # the x86-64 ABI: so many bytes below the stack pointer belong to a function that calls nothing
ADDRESS = 8  # of a return, pushed by the call
COMPACTION = "lanolin_compact"  # how the names of its calls begin

FUNCTION = re.compile(r"^[0-9a-f]+ <(.+)>:$")
PREFIXES = r"(?:(?:rep|repz|repnz|lock|notrack|bnd|data16|cs) )*"
INSTRUCTION = re.compile(r"^ +([0-9a-f]+):\t" + PREFIXES + r"(\S+) *(.*?) *(?:#.*)?$")
RELOCATION = re.compile(r"^\t+[0-9a-f]+: R_X86_64_\w+\t(?:\.text\.)?(.+)$")
LOCAL = re.compile(r"^([0-9a-f]+) <")


def fail(words):
    sys.exit("tools/stack.py: " + words)


def functions(archive):
    """Each function as a list of instructions: offset, name, operands, and the function that it calls or jumps to."""
    objdump = shutil.which("x86_64-linux-gnu-objdump") or "objdump"
    dumped = subprocess.run([objdump, "-dr", "--no-show-raw-insn", archive], stdout=subprocess.PIPE, text=True)
    if dumped.returncode != 0:
        fail(f"{archive} can't be read; ./lanolin lib builds it")
    found, code = {}, None
    for line in dumped.stdout.splitlines():
        if m := FUNCTION.match(line):
            code = found.setdefault(m[1], [])
        elif m := INSTRUCTION.match(line):
            code.append([int(m[1], 16), m[2], m[3], None])
        elif (m := RELOCATION.match(line)) and (code[-1][1] == "call" or code[-1][1].startswith("j")):
            code[-1][3] = m[1].removesuffix("-0x4")  # relative to the end of the instruction
    return found


def moved(name, operation, operands):
    """By how much an instruction lowers the stack pointer."""
    if operation.startswith("push"):
        return 8
    if operation.startswith("pop") and not operation.startswith("popcnt"):
        return -8
    if operation in ("leave", "enter") or operands.endswith(",%esp"):
        fail(f"{name}: {operation} {operands} moves the stack pointer in a way that is not followed")
    if operands.endswith(",%rsp") and not operation.startswith(("cmp", "test")):
        m = re.match(r"^\$(0x[0-9a-f]+),%rsp$", operands)
        if m and operation in ("sub", "add"):
            return int(m[1], 16) * (1 if operation == "sub" else -1)
        fail(f"{name}: {operation} {operands} moves the stack pointer in a way that is not followed")
    return 0


def next_places(at, code, place):
    """Where the code goes on inside the function: the next instruction, the target of a jump, or both."""
    _, operation, operands, outside = code[at]
    on = []
    if not operation.startswith(("ret", "jmp", "ud2")):
        on.append(at + 1)
    if operation.startswith("j") and outside is None and (m := LOCAL.match(operands)):
        on.append(place[int(m[1], 16)])
    return on


def depths(name, code):
    """How far below its return address the stack pointer is before each instruction. The targets of a jump through a
    table are those places that nothing else leads to; they have the depth of that jump."""
    place = {instruction[0]: at for at, instruction in enumerate(code)}
    depth, waiting, tables = {}, [(0, 0)], set()
    while True:
        while waiting:
            at, d = waiting.pop()
            if depth.setdefault(at, d) != d:
                fail(f"{name}+{code[at][0]:#x}: reached with two depths, {depth[at]} and {d}")
            if code[at][1] == "jmp" and code[at][2].startswith("*"):
                tables.add(d)
            after = d + moved(name, code[at][1], code[at][2])
            for on in next_places(at, code, place):
                if depth.get(on) != after:
                    waiting.append((on, after))
            if code[at][1].startswith("ret") and d != 0:
                fail(f"{name}+{code[at][0]:#x}: returns from a depth of {d}")
        missed = [at for at in range(len(code)) if at not in depth and not code[at][1].startswith(("nop", "xchg"))]
        if not missed:
            return depth
        if len(tables) != 1:
            fail(f"{name}+{code[missed[0]][0]:#x}: no jump leads here, or several through tables")
        waiting.append((missed[0], next(iter(tables))))


def red_zone(code):
    """Counted whole where a function that calls nothing looks at the stack at all, by whichever register."""
    calls = any(operation == "call" for _, operation, _, _ in code)
    looks = any("%rsp" in operands and not operands.endswith(",%rsp") for _, _, operands, _ in code)
    return RED_ZONE if looks and not calls else 0


def bound(name, code_of, known, above=()):
    """The most that a call of this function takes, return address included."""
    if name in OUTSIDE:
        return ADDRESS + OUTSIDE[name]
    if name in above:
        fail("recursion: " + " > ".join(above + (name,)))
    if name not in known:
        if name not in code_of:
            fail(f"{above[-1]} calls {name}, which is not in the archive")
        most, code = 0, code_of[name]
        for at, d in depths(name, code).items():
            _, operation, operands, outside = code[at]
            own = red_zone(code)
            if operation == "call" and outside is None:
                fail(f"{name}: call {operands}, through a pointer")
            if outside is not None:  # a jump to another function hands on the return address that is there
                own = bound(outside, code_of, known, above + (name,)) - (0 if operation == "call" else ADDRESS)
            most = max(most, d + own)
        known[name] = ADDRESS + most
    return known[name]


def bounds(archive):
    code_of, known = functions(archive), {}
    return {name: bound(name, code_of, known) for name in code_of if name.startswith("lanolin_")}


def measured(file):
    """What tests/c/stack.c printed: lines of a call and a number."""
    seen = {}
    with (sys.stdin if file == "-" else open(file, encoding="utf-8")) as lines:
        for line in lines:
            if not re.match(r"^lanolin_\w+ \d+$", line):
                fail("not a measure: " + line.rstrip())
            name, number = line.split()
            seen[name] = int(number)
    return seen


def shown(most, seen):
    """The table: the bound, the measure, and the calls that have both alike, all of them named up to three."""
    alike = {}
    for name, n in most.items():
        alike.setdefault((n, (seen or {}).get(name, "")), []).append(name)
    for (n, m), names in sorted(alike.items(), key=lambda row: -row[0][0]):
        print(f"{n:6} {m:6}  " + (", ".join(sorted(names)) if len(names) <= 3 else f"{len(names)} calls"))


def complaints(most, seen, limits):
    """`limits` has at most two: a compaction's, and that of every other call."""
    for name, n in most.items():
        if limits and n > (limit := limits[0 if name.startswith(COMPACTION) else -1]):
            yield f"{name} may take {n} bytes, more than {limit}"
        if seen is not None and name not in seen:
            yield f"{name} was not measured"
        elif seen is not None and seen[name] > n + OUTSIDE_TAKES:
            yield f"{name} took {seen[name]} bytes, more than the bound of {n}"


def main():
    parser = argparse.ArgumentParser(description="The stack that each call of the archive takes at most.")
    parser.add_argument("--at-most", type=int, nargs="+", metavar="N", default=[],
                        help="exit 1 if a compaction may take more than the first, another call more than the last")
    parser.add_argument("--measured", metavar="FILE", help="what tests/c/stack.c printed; - is standard input")
    parser.add_argument("archive", nargs="?", default=ARCHIVE)
    options = parser.parse_args()
    if len(options.at_most) > 2:
        parser.error("--at-most takes one or two numbers")
    most = bounds(options.archive)
    seen = measured(options.measured) if options.measured else None
    shown(most, seen)
    wrong = list(complaints(most, seen, options.at_most))
    if wrong:
        fail("\n".join(wrong))


if __name__ == "__main__":
    main()
