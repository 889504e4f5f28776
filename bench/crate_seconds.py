#!/usr/bin/env python3
"""Measures how many processor seconds the proof of each crate of the program takes, beside the command that makes it.

usage: crate_seconds.py COMMAND..

The command proves the crates of this folder from nothing, as `rt ci` does in a clean clone. Its processes are looked at each
second.
Behind it a line for each crate, as crates.seconds has them, is written; for a crate that wasn't seen, the old one. What
other work there was makes the numbers larger: that of a machine without any is what crates.seconds should have.

example: bench/crate_seconds.py rt ci > seconds && mv seconds crates.seconds && trials/pages --write
"""
import os
import re
import subprocess
import sys
from pathlib import Path

TOP = Path(__file__).resolve().parent.parent
TICKS = os.sysconf("SC_CLK_TCK")
# What a process of the compiler writes: a crate of this folder, as a library or as the program. Tests and edits are
# written elsewhere.
MADE = re.compile(rf"{re.escape(os.getcwd())}/crates/(\w+)/out/(?:rlib/)?\1(?:\.rlib)?$")


def crate_of(words):
    """The crate that a process proves, if it is one of the compiler's."""
    if not words[0].endswith("/rattle") or "-o" not in words[:-1] or "--test" in words:
        return None
    made = MADE.match(words[words.index("-o") + 1])
    return made and made[1]


def look(seen):
    """Notes the processor seconds of each process that proves a crate: they grow as long as it is there."""
    for place in Path("/proc").glob("[0-9]*"):
        try:
            crate = crate_of(place.joinpath("cmdline").read_bytes().decode(errors="replace").split("\0"))
            if crate:
                fields = place.joinpath("stat").read_text().rpartition(")")[2].split()
                seen[crate, place.name] = (int(fields[11]) + int(fields[12])) / TICKS
        except OSError:
            pass  # it has ended


def main():
    if not sys.argv[1:] or sys.argv[1] == "--help":
        print(__doc__)
        sys.exit(not sys.argv[1:])
    seen = {}
    proof = subprocess.Popen(sys.argv[1:], stdout=sys.stderr)
    while True:
        look(seen)
        try:
            proof.wait(1)
            break
        except subprocess.TimeoutExpired:
            pass
    for line in (TOP / "crates.seconds").read_text().splitlines():
        name, old = line.split()
        print(name, max((round(took) for (crate, _), took in seen.items() if crate == name), default=old))
    sys.exit(proof.returncode)


main()
