#!/usr/bin/env python3
"""Runs random queries over random rows, and compares with trials/reference.py.

usage: random_queries.py PROGRAM FIRST LAST

A case for each number from FIRST to LAST; the same number gives the same case. PROGRAM is the built
program, as crates/wsm_cli/out/wsm_cli. What is compared: what the query's run writes or tells; the bytes
that it is compiled to, the listing and the verdict of these bytes, and their run; the same of the
query's bytes of version 1, which are written here by the reference, and of what they migrate to.
Prints the cases that differ, what each was, and how many were the same.
"""
import os
import random
import re
import subprocess
import sys
import tempfile
from collections import Counter
from dataclasses import dataclass
from pathlib import Path

import reference
from query_text import Query, Refused
from query_program import Program

COLUMNS = [
    "COUNT(*)", "SUM(n)", "MIN(n)", "MAX(n + 1)", "ANY(b)", "ALL(b)", "KEY", "SUM(IF b THEN n ELSE -n END)", "SUM(n) / COUNT(*)",
    "MAX(n) % 3", "ANY(c = c.red)", "KEY = KEY.a", "SUM(n) > 10 AND COUNT(*) < 4", "COUNT(*) + IF KEY = KEY.b THEN 1 ELSE 0 END",
]
# What is guarded by a test of a field, and what looks so and isn't.
GUARDED = [
    "SUM(IF n <> 0 THEN 100 / n ELSE 0 END)", "MAX(IF (n) > 0 THEN 100 / n ELSE -1 END)", "ANY(n <> 0 AND 10 / n > 1)",
    "ALL(n = 0 OR 30 % n < 2)", "SUM(IF n >= 1 THEN IF n <= 4 THEN 60 / n ELSE 1 END ELSE 0 END)",
    "MIN(IF n > -(1) THEN IF NOT b THEN n % 7 ELSE n END ELSE 7 / n END)",
]
UNGUARDED = ["ANY(0 < n AND 10 / n > 1)", "MIN(IF n < -(1) THEN 7 % n ELSE n END)", "ANY(b AND n <> 0 AND 60 / n > 5)", "SUM(100 / n)"]
CONDITIONS = [
    "n > 2", "b", "NOT b OR n < 5", "c <> c.blue", "KEY <> KEY.b", "n > 0 AND 60 / n > 5", "n <= 0 OR 60 / n > 5", "n > 3 OR b",
    "IF n < 1 THEN b ELSE 20 % n = 2 END",
]
SOURCES = ["x", "y", "z", "a"]
DAMAGED = ["x", "r,a,1", "r,a,1x,2,true,red", "r,a,1,2,maybe,red", "w", "w,a", "r,a,1,2,true,green", "w,x", "w,x,1,2", "w,x,7y", "w,,5"]

# What stands in the place of a name, a number, a word or any token of a query that is changed.
WORDS = [
    *"KEYS FIELD INT BOOL ENUM START SKEW LATENESS RECORDS SELECT WHERE HAVING WINDOW FIXED SLIDING SESSION EVERY EMIT".split(),
    *"DISCARDING EARLY LATE ISTREAM AND NOT TRUE COUNT SUM ANY IF END FROM SOURCES a n b c x yz".split(),
    *"0 1 7 60 1001 99999999 1000000000001 9223372036854775807 9223372036854775808".split(), *", ; ( ) . .. + - * / % = <> < >=".split(),
    "?", "_", "a" * 33, "",
]
OTHERS = "SUM MIN ANY ALL AND OR ACCUMULATING DISCARDING RETRACTING PANES ISTREAM DSTREAM FIXED SESSION INT BOOL TRUE KEY EARLY LATE WHERE HAVING".split()


@dataclass
class Drawn:
    text: str
    sources: list
    start: int
    low: int  # the least n


def query_of(pick):
    shape = pick.choice([f"FIXED {pick.choice([10, 20, 30])}", f"SLIDING {pick.choice([20, 30, 45])} EVERY {pick.choice([7, 10, 15])}",
                         f"SESSION {pick.choice([5, 10, 15])}"])
    mode = pick.choice(["ACCUMULATING", "DISCARDING", "RETRACTING"])
    may_stream = mode == "ACCUMULATING" or pick.random() < .03
    form = pick.choice(["ISTREAM", "DSTREAM", "RSTREAM"]) if may_stream and pick.random() < .5 else "PANES"
    early = f" EARLY EVERY {pick.randrange(1, 4)}" if pick.random() < .5 else ""
    late = f" LATE EVERY {pick.randrange(1, 4)}" if pick.random() < .5 else ""
    columns = pick.sample(COLUMNS, pick.randrange(1, 4))
    for others, chance in ((GUARDED, .4), (UNGUARDED, .05)):
        columns += [pick.choice(others)] if pick.random() < chance else []
    where = f" WHERE {pick.choice(CONDITIONS)}" if pick.random() < .4 else ""
    having = " HAVING " + pick.choice(["SUM(n) > 5", "COUNT(*) > 1", "ANY(b)", "COUNT(*) <> 2"]) if pick.random() < .4 else ""
    sources = SOURCES[:pick.randrange(2, 5)] if pick.random() < .4 else []
    clause = f"SOURCES {', '.join(sources)};\n" if sources else ""
    from_window = " FROM WINDOW" if pick.random() < (.03 if shape.startswith("SESSION") else .5) else ""
    budget = f" BUDGET RECORD {pick.randrange(9, 90)} PANE {pick.randrange(4, 30)} HELD {pick.randrange(6, 60)};" if pick.random() < .1 else ""
    low, start = pick.choice([-5, 0, 0, 0, 1]), pick.choice([0, 50])
    text = (
        f"KEYS a, b;\nFIELD n INT {low}..20;\nFIELD b BOOL;\nFIELD c ENUM(red, blue);\n{clause}"
        f"START {start}; SKEW {pick.choice([15, 40])}; LATENESS {pick.choice([0, 10, 25])}{from_window}; "
        f"RECORDS {pick.choice([1000, 1000, 15])};{budget}\n"
        f"SELECT {', '.join(columns)}{where}{having}\nWINDOW {shape} {mode}{early}{late}\nEMIT {form};\n"
    )
    return Drawn(text, sources, start, low)


def changed(text: str, pick: random.Random) -> str:
    """The text with some of its names or numbers replaced, or else with a token dropped, doubled or replaced."""
    parts = re.findall(r"\s+|[A-Za-z]\w*|[0-9]+|\.\.|<>|<=|>=|.", text)
    way = pick.choice(["names", "names", "numbers", "numbers", "words", "tokens"])
    choices = {
        "names": (r"[a-z]", ["a", "b", "c", "n", "q", "red", "x", "SUM(n)", "COUNT(*)"]), "numbers": (r"[0-9]", [word for word in WORDS if word.isdigit()]),
        "words": (r"[A-Z]", OTHERS), "tokens": (r"\S", WORDS),
    }
    kind, others = choices[way]
    places = [number for number, part in enumerate(parts) if re.match(kind, part)]
    for at in pick.sample(places, min(len(places), pick.choice([1, 1, 2, 3]) if way != "tokens" else 1)):
        parts[at] = pick.choice([*others, f"{parts[at]} {parts[at]}", ""]) if way == "tokens" else pick.choice(others)
    return "".join(parts)


def rows_of(pick, query, keys="aaaaabbbbc", count=None):
    """Records around a time that goes on, and watermarks of it; each source lags by something of its own."""
    lags = {source: pick.choice([0, 0, 5, 20]) for source in query.sources}
    time, rows = query.start + max(lags.values(), default=0), []
    for _ in range(count or pick.randrange(5, 60)):
        kind = pick.random()
        if kind < (.4 if lags else .2):
            time += pick.randrange(-2, 15 if lags else 25)
            source = pick.choice(list(lags) + ["q"] if pick.random() < .1 else list(lags)) if lags else None
            rows.append(f"w,{source},{time - lags.get(source, 0)}" if lags else f"w,{time}")
        elif kind < .95:
            at, n = max(0, time + pick.randrange(-24, 18)), pick.randrange(query.low - (pick.random() < .1), 22)
            rows.append(f"r,{pick.choice(keys)},{at},{n},{pick.choice(['true', 'false'])},{pick.choice(['red', 'blue'])}")
        else:
            rows.append(pick.choice(DAMAGED))
    return rows


# Stand for bytes that only a quoted cell may have, since rows are split at commas here; the last one is no byte.
QUOTED = str.maketrans({"\1": ",", "\2": "\n", "\3": '"', "\4": "\r", "\5": ""})
ODD = ["\5", "\1", "\2w,9", "x\2w,90\2", "\3", "w,\3", "w,5\2", "w\1,5", "wx,5", "w", "r,a\1b,5,7,true,red", "r,\2w,5,7,true,red",
       "r,\3a\3,5,7,true,red", "r,a\2,5,7,true,red", "r,b,5\4\2,7,true,red", "r,a,5,7,true,red\1", "r,b\3\2w,60\2\3,5,7,true,red", "r"]


def line_of(row, pick):
    """A row as a file has it: cells that must be are in quotes, and now and then others."""
    cells = [(cell, cell.translate(QUOTED)) for cell in row.split(",")]
    return ",".join('"' + its.replace('"', '""') + '"' if its != cell or pick.random() < .03 else its for cell, its in cells)


class Case:
    def __init__(self, program, folder, number):
        pick = random.Random(number)
        query = query_of(pick)
        self.query, self.rows = query.text, rows_of(pick, query)
        self.program, self.folder, self.differences = program, folder, []

    def wsm(self, *words):
        rows = "".join(f"{row}\n" for row in self.rows)
        ran = subprocess.run([self.program, *words], input=rows, capture_output=True, text=True, cwd=self.folder)
        return ran.returncode, ran.stderr, ran.stdout

    def same(self, what, got, want):
        if got != want:
            self.differences.append(f"{what}: {got} for {want}")

    def is_made(self, name):
        return (Path(self.folder) / name).exists()

    def bytes_of(self, name):
        return (Path(self.folder) / name).read_bytes() if self.is_made(name) else b""

    def try_program(self, name, program, ran):
        """The bytes of a file against a program of the reference, and its run."""
        verdict = program.verdict()
        is_accepted = verdict.startswith("accepted")
        status = 0 if is_accepted else 4
        self.same(f"{name}, explain", self.wsm("explain", name), (status, "", f"{program.listing()}{verdict}\n"))
        self.same(f"{name}, verify", self.wsm("verify", name), (status, "", f"{verdict}\n"))
        want = ran if is_accepted else (4, f"wsm: {reference.rejection(verdict)}\n", "")
        self.same(f"{name}, run", self.wsm("run", "--program", name), want)

    def run(self):
        """What kind of case it was."""
        for name in ("query.bin", "old.bin", "migrated.bin"):
            (Path(self.folder) / name).unlink(missing_ok=True)
        (Path(self.folder) / "query.wsm").write_text(self.query)
        ran = reference.run(self.query, self.rows)
        self.same("run", self.wsm("run", "query.wsm"), ran)
        try:
            query = Query(self.query)
            program, old = Program(query), Program(query, has_tests=False)
        except Refused:
            self.same("compile", self.wsm("compile", "query.wsm", "query.bin"), ran)
            self.same("a file of a refused query", self.is_made("query.bin"), False)
            return "refused"
        self.same("compile", self.wsm("compile", "query.wsm", "query.bin"), (0, "", ""))
        self.same("bytes", self.bytes_of("query.bin").hex(), program.bytes(2).hex())
        self.try_program("query.bin", program, ran)
        # The same query in bytes of version 1. They have no tests, so some are rejected whose query is accepted.
        (Path(self.folder) / "old.bin").write_bytes(old.bytes(1))
        self.same("migrate", self.wsm("migrate", "old.bin", "migrated.bin"), (0, "", ""))
        self.same("migrated bytes", self.bytes_of("migrated.bin").hex(), old.bytes(2).hex())
        written = ran if ran[0] == 0 else (0, "", reference.Stream(query).text(self.rows)) if old.verdict().startswith("accepted") else None
        for name in ("old.bin", "migrated.bin"):
            self.try_program(name, old, written)
        verdicts = [one.verdict().split(",")[0] for one in (old, program)]
        return verdicts[0] if verdicts[0] == verdicts[1] else f"{verdicts[1]} by its tests"


def main():
    program, first, last = os.path.abspath(sys.argv[1]), int(sys.argv[2]), int(sys.argv[3])
    same, kinds = 0, Counter()
    with tempfile.TemporaryDirectory() as folder:
        for number in range(first, last + 1):
            case = Case(program, folder, number)
            kinds[case.run()] += 1
            same += not case.differences
            for difference in case.differences:
                print(f"case {number} differs: {difference}")
    print(f"{same} of {last - first + 1} the same: {', '.join(f'{count} {kind}' for kind, count in sorted(kinds.items()))}")


if __name__ == "__main__":
    main()
