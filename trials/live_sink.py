#!/usr/bin/env python3
"""A small sink for trials/live: takes the lines of `wsm live` into a table, each once, and tells in DIR what it has.

usage: wsm live DIR .. | live_sink.py TABLE DIR

example: wsm live state --from log.toml sums.wsm log.json | live_sink.py lines.db state

The table `lines` of TABLE, a file of SQLite, has NUMBER, SUM and LINE. It ends with status 9 where a number is missing, a sum
is another one, or the lines are those of another DIR.
"""
import contextlib
import os
import select
import sqlite3
import sys
import zlib
from collections.abc import Iterator
from pathlib import Path

BATCH = 50  # lines that are taken at once, at most


class Sink:
    """The table, and the run whose lines it takes."""

    def __init__(self, table: str, folder: str) -> None:
        self.table, self.folder = sqlite3.connect(table, timeout=20, isolation_level=None), Path(folder)
        self.table.execute("CREATE TABLE IF NOT EXISTS run (name TEXT PRIMARY KEY)")
        self.table.execute("CREATE TABLE IF NOT EXISTS lines (number INTEGER PRIMARY KEY, sum INTEGER, line TEXT)")
        found = self.table.execute("SELECT number, sum FROM lines ORDER BY number DESC LIMIT 1").fetchone()
        self.count: int = found[0] if found else 0
        self.sum: int = found[1] if found else 0
        self.name: str | None = None

    def begin(self, line: str) -> None:
        """The first line says which run it is: `live,NAME,SUM,COUNT`."""
        _, self.name, _, count = line.split(",")
        self.table.execute("INSERT INTO run SELECT ? WHERE NOT EXISTS (SELECT * FROM run)", (self.name,))
        if self.table.execute("SELECT name FROM run").fetchall() != [(self.name,)] or int(count) > self.count:
            sys.exit(9)

    def take(self, line: str) -> None:
        """Takes a line that it hasn't, and passes over one that it has."""
        if self.name is None:
            self.begin(line)
            return
        number, its, text = line.split(",", 2)
        if int(number) <= self.count:
            if self.table.execute("SELECT sum, line FROM lines WHERE number = ?", (number,)).fetchone() != (int(its), text):
                sys.exit(9)
            return
        self.count, self.sum = self.count + 1, zlib.crc32(text.encode() + b"\n", self.sum)
        if (int(number), int(its)) != (self.count, self.sum):
            sys.exit(9)
        self.table.execute("INSERT INTO lines VALUES (?, ?, ?)", (number, its, text))

    def tell(self) -> None:
        """Tells in DIR what the table surely has."""
        beside = self.folder / "taken.table.next"
        with open(beside, "w") as told:
            told.write(f"{self.name},{self.count},{self.sum}\n")
            told.flush()
            os.fsync(told.fileno())
        beside.rename(self.folder / "taken.table")

    def commit(self, lines: list[str]) -> None:
        self.table.execute("BEGIN IMMEDIATE")
        for line in lines:
            self.take(line)
        self.table.execute("COMMIT")
        if self.name is not None:
            self.tell()


def whole_lines(reading: int) -> Iterator[list[str]]:
    """The lines that come, in lists; what isn't ended by a line feed is none."""
    rest = b""
    while piece := os.read(reading, 1 << 16):
        while select.select([reading], [], [], 0)[0] and piece.count(b"\n") < BATCH and (more := os.read(reading, 1 << 16)):
            piece += more
        *lines, rest = (rest + piece).split(b"\n")
        for at in range(0, len(lines), BATCH):
            yield [line.decode() for line in lines[at:at + BATCH]]


def main() -> None:
    if "--help" in sys.argv:
        print(__doc__.strip())
        return
    if len(sys.argv) != 3:
        sys.exit("live_sink.py: --help says its words")
    sink = Sink(*sys.argv[1:])
    with contextlib.closing(sink.table):
        for lines in whole_lines(0):
            sink.commit(lines)


if __name__ == "__main__":
    main()
