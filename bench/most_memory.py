#!/usr/bin/env python3
"""Measures how much memory a run takes at most: queries that hold as many panes as any may, as wide as any may be.

usage: most_memory.py [PROGRAM]

1,000 keys with names of 32 bytes, 16 fields, 16 accumulators and 16 columns of numbers of 19 digits, and 99,000 panes,
which one watermark completes at once, and the next one finds dropped. Prints for each mode and form the greatest memory of the process, in MB.

Example: bench/most_memory.py crates/wsm_cli/out/wsm_cli
"""
import os
import sys
import tempfile
from pathlib import Path

TOP = Path(__file__).resolve().parent.parent
KEYS = [f"a_name_of_thirty_two_bytes__k{number:03}" for number in range(1000)]
SIZE, WINDOWS, FIELDS = 60, 99, 16
FORMS = [
    ("ACCUMULATING", "PANES"), ("DISCARDING", "PANES"), ("RETRACTING EARLY EVERY 1", "PANES"), ("ACCUMULATING EARLY EVERY 1", "ISTREAM"),
    ("ACCUMULATING EARLY EVERY 1", "DSTREAM"), ("ACCUMULATING", "RSTREAM"),
]
SHAPES = {"windows": f"FIXED {SIZE}", "sessions": f"SESSION {SIZE}"}


def text_of(shape, mode, form):
    """SKEW and LATENESS make for 100 live windows of a key, as many as 1,000 keys may have; in sessions 100 too."""
    fields = "".join(f"FIELD f{number} INT -9223372036854775807..9223372036854775807;\n" for number in range(FIELDS))
    columns = ", ".join(f"MIN(f{number})" for number in range(FIELDS))
    clock = f"START 0; SKEW {SIZE * WINDOWS - SIZE}; LATENESS {SIZE}; RECORDS 1000000;"
    return f"KEYS {', '.join(KEYS)};\n{fields}{clock}\nSELECT {columns}\nWINDOW {shape} {mode}\nEMIT {form};\n"


def write_rows(path):
    values = ",".join(["-9223372036854775807"] * FIELDS)
    with open(path, "w") as file:
        for window in range(WINDOWS - 1):
            file.writelines(f"r,{key},{window * SIZE},{values}\n" for key in KEYS)
        file.write("w,1\nw,1000000\nw,2000000\n")


def most(words):
    """The greatest memory of a process, in MB, and its status."""
    child = os.fork()
    if child == 0:
        os.dup2(os.open(os.devnull, os.O_WRONLY), 1)
        os.execv(words[0], words)
    _, status, used = os.wait4(child, 0)
    return used.ru_maxrss / 1024, os.waitstatus_to_exitcode(status)


def main(words):
    if words[:1] in (["-h"], ["--help"]):
        sys.exit(__doc__)
    program = str(Path(words[0] if words else TOP / "crates/wsm_cli/out/wsm_cli").absolute())
    with tempfile.TemporaryDirectory() as folder:
        query, rows = f"{folder}/query.wsm", f"{folder}/rows.csv"
        write_rows(rows)
        for name, shape in SHAPES.items():
            for mode, form in FORMS:
                Path(query).write_text(text_of(shape, mode, form))
                memory, status = most([program, "run", query, rows])
                print(f"{memory:6.0f} MB, status {status}: {name}, {mode} {form}", flush=True)


main(sys.argv[1:])
