#!/usr/bin/env python3
"""Runs the listing program, or the audit, on each case of a file, and shows its texts as samples/make_listings.py
writes the expected ones. The words behind the program are its arguments, of which the fourth number is the rule.

    tests/listing/run.py samples/listings/cases crates/list/out/list | diff - samples/listings/expected
    tests/listing/run.py samples/listings/cases crates/audit/out/audit | diff - samples/listings/audited
    tests/listing/run.py samples/listings/cases crates/list/out/list 16 0 1 1 | diff - samples/listings/expected-littlefs
    tests/listing/run.py samples/listings/cases crates/audit/out/audit 16 0 1 1 | diff - samples/listings/audited-littlefs
"""
import subprocess
import sys
import zlib


def unrolled(runs):
    data = b""
    for part in [] if runs == "-" else runs.split(","):
        digits, _, times = part.partition("*")
        data += bytes.fromhex(digits) * int(times or 1)
    return data


def main():
    cases, *program = sys.argv[1:]
    with open(cases) as f:
        for line in f:
            name, runs = line.split()
            done = subprocess.run(program, input=unrolled(runs), capture_output=True, timeout=60)
            text = done.stdout
            print(f"== {name}")
            if done.returncode or done.stderr:
                print(f"exit {done.returncode}, {done.stderr!r}")
            long = f"{len(text)} bytes, CRC-32 {zlib.crc32(text):08x}\n"
            sys.stdout.write(text.decode("latin-1") if len(text) <= 2000 else long)


if __name__ == "__main__":
    main()
