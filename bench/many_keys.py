#!/usr/bin/python3
"""Measures tools/wsm-many-keys: meters that report through a day, in one file of rows and in four by meter.

usage: many_keys.py FOLDER [PROGRAM [TIMES [ROWS [KEYS]]]]

Writes ROWS rows of KEYS meters to FOLDER, 10,000,000 of 50,000 where they're left out, with a watermark every ten
seconds of the day, unless rows are there. Then it runs them TIMES times, 5 where it's left out: the one file by four
workers and by one, and the four files by four workers, in turn. Prints the seconds of each and the seconds of
processors, with those of all processes that it started, and their medians. What is written must be the same each time,
and for the four files as for the one.
"""
import ctypes
import hashlib
import os
import random
import resource
import statistics
import subprocess
import sys
import time
from pathlib import Path

TOP = Path(__file__).resolve().parent.parent
FILES = 4
DAY = 86400
ADOPT = 36  # the call of prctl by which a process gets those whose parent has ended, to wait for them
QUERY = """FIELD watt_hours INT 0..100000;
START 0; SKEW 149; LATENESS 300; RECORDS 1000000000;
SELECT SUM(watt_hours), COUNT(*)
WINDOW FIXED 3600 ACCUMULATING
EMIT PANES;
"""


def write_inputs(folder, rows, keys):
    """The same numbers give the same rows. A record is up to a minute behind the latest, and one in 1,000 up to six."""
    pick = random.Random(7)
    draw = pick.random
    (folder / "query.wsm").write_text(QUERY)
    (folder / "keys").write_text("".join(f"meter{key}\n" for key in range(keys)))
    mark = 10
    with open(folder / "rows.csv", "w") as whole:
        files = [open(folder / f"rows-{file}.csv", "w") for file in range(FILES)]
        for row in range(rows):
            now = row * DAY // rows
            if now - 60 >= mark:
                for file in (whole, *files):
                    file.write(f"w,{mark}\n")
                mark += 10
            key = int(draw() * keys)
            at = max(0, now - int(draw() * (360 if draw() < .001 else 60)))
            line = f"r,meter{key},{at},{int(draw() * 1000)}\n"
            whole.write(line)
            files[key % FILES].write(line)
        for file in (whole, *files):
            file.write(f"w,{DAY + 3600}\n")
        for file in files:
            file.close()


def processor():
    """The seconds of processors of all processes that were waited for."""
    while True:
        try:
            os.wait()
        except ChildProcessError:
            break
    used = resource.getrusage(resource.RUSAGE_CHILDREN)
    return used.ru_utime + used.ru_stime


def measured(folder, program, workers, names):
    """The seconds of the command, those of processors, and a digest of what it writes."""
    command = ["/usr/bin/python3", TOP / "tools/wsm-many-keys", "--program", program, "--room", folder, "--workers", str(workers)]
    words = [*command, folder / "query.wsm", folder / "keys", *(folder / name for name in names)]
    begin, used = time.monotonic(), processor()
    with open(folder / "out", "wb") as out:
        ran = subprocess.run(words, stdout=out, stderr=subprocess.PIPE, text=True)
    end = time.monotonic()
    if ran.returncode:
        sys.exit(ran.stderr)
    with open(folder / "out", "rb") as file:
        return end - begin, processor() - used, hashlib.file_digest(file, "sha256").hexdigest()


def main():
    words = sys.argv[1:]
    folder = Path(words[0]).absolute()
    program = Path(words[1] if len(words) > 1 else TOP / "wsm").absolute()
    words = words[2:]
    times, rows, keys = map(int, words + ["5", "10000000", "50000"][len(words):])
    if not (folder / "rows.csv").exists():
        write_inputs(folder, rows, keys)
    ctypes.CDLL(None).prctl(ADOPT, 1)
    ways = {
        "one file, 4 workers": (4, ["rows.csv"]), "one file, 1 worker": (1, ["rows.csv"]),
        "four files, 4 workers": (4, [f"rows-{file}.csv" for file in range(FILES)]),
    }
    found = {way: [] for way in ways}
    for _ in range(times):
        for way, asked in ways.items():
            found[way].append(measured(folder, program, *asked))
            print(way, *(f"{seconds:.2f}" for seconds in found[way][-1][:2]), flush=True)
    if len({digest for some in found.values() for *_, digest in some}) > 1:
        sys.exit("what was written differs")
    medians = {way: [statistics.median(of) for of in list(zip(*some))[:2]] for way, some in found.items()}
    for way, (whole, used) in medians.items():
        print(f"{way}: {whole:.2f} s, of processors {used:.2f} s")
    print(f"four workers are {medians['one file, 1 worker'][0] / medians['one file, 4 workers'][0]:.2f} times as fast as one")


main()
