#!/usr/bin/env python3
"""Looks for stalls: how many instructions one watermark takes, and how they grow with what it comes to.

usage: stalls.py [--only CASE,..] [--sizes PANES,PANES] [PROGRAM]

CASE is panes, istream, dstream, rstream, retracting, standing or sessions; all of them where none is named.
PROGRAM is the built one where it's left out (crates/wsm_cli/out/wsm_cli).

- panes to retracting: one record for each pane, with values that rise, fall, are equal and are drawn, in the order in
  which panes fire; then a watermark that fires and drops all panes, and one behind it, at which the streams tell
  what was dropped. What both take is what the run takes more than one without them.
- standing: 500 rows that stand, and 100 rises with one record in between, whose rows RSTREAM writes.
- sessions: one record for each session of one key, whose times rise, fall and are drawn; then a watermark.

Prints a table of millions of instructions (valgrind --tool=callgrind): at both sizes, 49,500 and 99,000 panes where none
are named, with the growth, how many times the least of panes it is, and the same of the records before. What a rise of
the standing rows takes comes behind it. A run that fails ends it.

example: bench/stalls.py --only panes,rstream
"""
import argparse
import random
import re
import shutil
import subprocess
import sys
import tempfile
from pathlib import Path

TOP = Path(__file__).resolve().parent.parent
# As many keys as a half and the whole of 99,000 panes have in common.
KEYS = 990
SIZE = 10
GAP = 1000
STANDING = 500
RISES = 100
FORMS = {
    "panes": "ACCUMULATING EMIT PANES", "istream": "ACCUMULATING EMIT ISTREAM", "dstream": "ACCUMULATING EMIT DSTREAM",
    "rstream": "ACCUMULATING EMIT RSTREAM", "retracting": "RETRACTING EMIT PANES",
}
CASES = [*FORMS, "standing", "sessions"]
ORDERS = ("rising", "falling", "equal", "random")


def counted(program, query, rows, folder):
    """The instructions of a run, which must end well."""
    (folder / "query.wsm").write_text(query)
    (folder / "rows.csv").write_text("".join(rows))
    words = ["valgrind", "--tool=callgrind", "--callgrind-out-file=/dev/null", program, "run", "query.wsm", "rows.csv"]
    with open(folder / "out", "wb") as out:
        ran = subprocess.run(words, cwd=folder, stdout=out, stderr=subprocess.PIPE, text=True)
    told = re.search(r"Collected : (\d+)", ran.stderr)
    if ran.returncode or not told:
        sys.exit(f"stalls.py: status {ran.returncode} of {' '.join(map(str, words))}: {ran.stderr[-400:]}")
    return int(told.group(1))


def in_order(order, count):
    """So many numbers: the same ones but where they are equal, and the same at each call."""
    numbers = list(range(count))
    if order == "random":
        random.Random(7).shuffle(numbers)
    return {"falling": numbers[::-1], "equal": [7] * count}.get(order, numbers)


def clauses(keys, skew, emit, window):
    return (
        f"KEYS {', '.join(f'k{key}' for key in range(keys))};\nFIELD n INT 0..100000;\n"
        f"START 0; SKEW {skew}; LATENESS 0; RECORDS 1000000;\nSELECT SUM(n)\nWINDOW {window} {emit};\n"
    )


def watermark(program, form, order, panes, folder):
    """What two watermarks take that fire and drop all panes, and what the records take before them."""
    windows = panes // KEYS
    query = clauses(KEYS, (windows - 1) * SIZE, FORMS[form], f"FIXED {SIZE}")
    values = in_order(order, windows * KEYS)
    records = [f"r,k{place % KEYS},{place // KEYS * SIZE},{value}\n" for place, value in enumerate(values)]
    marks = [f"w,{windows * SIZE}\n", f"w,{windows * SIZE + 1}\n"]
    before = counted(program, query, records, folder)
    return counted(program, query, records + marks, folder) - before, before


def standing(program, folder):
    """What a rise takes, with one record."""
    query = clauses(STANDING, 100_000, "ACCUMULATING EARLY EVERY 1 EMIT RSTREAM", "FIXED 100000")
    draw = random.Random(7)
    first = [f"r,k{key},0,{draw.randrange(1000)}\n" for key in range(STANDING)] + ["w,1\n"]
    rises = [line for rise in range(RISES) for line in (f"r,k{draw.randrange(STANDING)},{rise + 2},{draw.randrange(1000)}\n", f"w,{rise + 2}\n")]
    return (counted(program, query, first + rises, folder) - counted(program, query, first, folder)) // RISES


def sessions(program, order, count, folder):
    """What the watermark takes that closes all sessions, and what the records take that begin them."""
    query = clauses(1, (GAP + 1) * (count - 1), FORMS["panes"], f"SESSION {GAP}")
    records = [f"r,k0,{place * (GAP + 1)},{place}\n" for place in in_order(order, count)]
    before = counted(program, query, records, folder)
    return counted(program, query, records + [f"w,{(GAP + 1) * count}\n"], folder) - before, before


def rows_of(name, orders, sizes, measure):
    """For each order what is measured at both sizes, as a row of a table."""
    for order in orders:
        (less, before_less), (more, before_more) = (measure(order, size) for size in sizes)
        yield {"case": name, "order": order, "instructions": [less, more], "records": [before_less, before_more]}


def shown(row, least):
    less, more = row["instructions"]
    before_less, before_more = row["records"]
    times = f"{more / least:.1f}" if least else ""
    return (
        f"| {row['case']} | {row['order']} | {less / 1e6:.1f} | {more / 1e6:.1f} | {more / less:.2f} | {times} "
        f"| {before_more / 1e6:.1f} | {before_more / before_less:.2f} |"
    )


def main():
    words = argparse.ArgumentParser(description=__doc__, formatter_class=argparse.RawDescriptionHelpFormatter)
    words.add_argument("--only", default=",".join(CASES), metavar="CASE,..")
    words.add_argument("--sizes", default="49500,99000", metavar="PANES,PANES", help=f"multiples of {KEYS}")
    words.add_argument("program", nargs="?", default=TOP / "crates/wsm_cli/out/wsm_cli", metavar="PROGRAM")
    asked = words.parse_args()
    cases, sizes = asked.only.split(","), [int(size) for size in asked.sizes.split(",")]
    if any(case not in CASES for case in cases) or len(sizes) != 2 or any(size % KEYS or not size for size in sizes):
        words.error(f"cases are {', '.join(CASES)}; sizes are two multiples of {KEYS}")
    program, least = Path(asked.program).absolute(), None
    for needed in ("valgrind", str(program)):
        if not shutil.which(needed):
            sys.exit(f"stalls.py: no {needed}")
    print(f"| case | order | {sizes[0]:,} | {sizes[1]:,} | growth | times panes | records, {sizes[1]:,} | growth |")
    print("|---|---|---:|---:|---:|---:|---:|---:|")
    with tempfile.TemporaryDirectory() as name:
        folder = Path(name)
        for form in (form for form in FORMS if form in cases):
            for row in rows_of(form, ORDERS, sizes, lambda order, size: watermark(program, form, order, size, folder)):
                if form == "panes":
                    least = min(least or row["instructions"][1], row["instructions"][1])
                print(shown(row, least), flush=True)
        if "sessions" in cases:
            for row in rows_of("sessions", ("rising", "falling", "random"), sizes, lambda order, size: sessions(program, order, size, folder)):
                print(shown(row, None), flush=True)
        if "standing" in cases:
            print(f"\n{STANDING} rows that stand, a rise with one change: {standing(program, folder):,} instructions")


main()
