"""The pairs of samples/listings/cases, and what an example says of one: for the tests beside this file."""
import os
import shlex
import subprocess
import sys
import tempfile

HERE = os.path.dirname(os.path.abspath(__file__))
LISTINGS = os.path.join(HERE, "../../samples/listings")
sys.path.insert(0, os.path.join(HERE, "../listing"))
from run import unrolled  # noqa: E402


def cases():
    """The bytes of each case, by its name."""
    with open(f"{LISTINGS}/cases") as f:
        return {name: unrolled(runs) for name, runs in map(str.split, f)}


def said(command, data):
    """An example's exit status and both its texts, of a file with these bytes."""
    with tempfile.NamedTemporaryFile() as file:
        file.write(data)
        file.flush()
        done = subprocess.run(shlex.split(command) + [file.name], capture_output=True, text=True, timeout=60)
    return done.returncode, done.stdout, done.stderr
