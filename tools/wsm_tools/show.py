"""Shows what a run writes as a table, as CSV with a header or as JSON lines, with times as dates.

usage: wsm run QUERY [ROWS] | show [--table | --csv | --json] [--zone ZONE] [--unit UNIT] [--columns NAME,..]
                                   [--program PROGRAM] QUERY

For example: wsm run fixed.wsm rows.csv | show --zone Europe/Berlin fixed.wsm

A line is shown as it comes. The columns are those of SELECT in QUERY, each by its text, or by NAME,..; in front of them
stand the kind of a pane (a withdrawn one is `retract`), its key and its window, or the watermark of a stream's row. Of
columns with the same text each has its number behind it.
With --zone times are dates of that zone, as 2026-09-21T17:00:00+02:00; a number of UNIT is `s`, `ms` or `us` since 1970,
`s` where it is left out. In JSON a truth and a number are that, the rest is text.

A table (which is what is written where nothing is said) and CSV have panes alone: rows that were refused and the end
row are told on standard error, and as objects of their own in JSON. A line that isn't of QUERY is told too, whole, and
the status is then 1. Else it is 0, by its words 2, by QUERY 3 or 6 as the program's, and 7 where it can't write.

What the columns of QUERY are is asked of PROGRAM: it is `wsm` at the top of the repository, or on PATH, where the
variable WSM doesn't name it and it is left out.
"""
from __future__ import annotations

import os
import re
import sys
from datetime import tzinfo
from typing import TYPE_CHECKING, BinaryIO, Callable, Dict, List, Optional, Sequence, TextIO, Union

from . import asking, telling
from .rows import END, REFUSAL, WHOLE
from .telling import BAD_WORDS, BAD_WRITE, Ended, printable
from .times import UNITS, moment, zone_of

if TYPE_CHECKING:
    from argparse import Namespace

EXACT = {"s": "seconds", "ms": "milliseconds", "us": "microseconds"}
ENDED = ("rows", "admitted", "late", "refused", "panes")
Cell = Union[str, int, bool]


# ---- lines

class Lines:
    """What the lines of a query's run are: the names of their cells, and each as its values."""

    def __init__(self, query: asking.Query, names: Optional[Sequence[str]], zone: Optional[tzinfo], unit: str) -> None:
        self.query, self.zone, self.unit = query, zone, unit
        self.is_stream = query.form != "PANES"
        front = ["watermark"] if self.is_stream else ["kind", "key", "begins", "ends"]
        texts = [column.text for column in query.columns]
        if names and len(names) != len(texts):
            raise Ended(f"SELECT has {len(texts)} columns, and --columns names {len(names)}", BAD_WORDS)
        told = [text if texts.count(text) == 1 else f"{text} [{at}]" for at, text in enumerate(texts, 1)]
        self.names = [*front, *(names or told)]

    def row(self, line: str) -> Optional[List[Cell]]:
        """The cells of a pane or of a stream's row, or None where it is another line."""
        tag, *cells = line.split(",")
        if self.is_stream:
            return self.shown([], cells[:1], cells[1:]) if tag == self.query.form.lower() else None
        if tag == "retract":
            cells.insert(0, tag)
        elif tag != "pane" or cells[0] not in self.query.kinds:
            return None
        begins, ends = map(whole, cells[2:4])
        is_own = cells[1] in self.query.key_set and self.query.has_window((begins, ends))
        return self.shown(cells[:2], cells[2:4], cells[4:]) if is_own else None

    def shown(self, front: Sequence[str], times: Sequence[str], values: Sequence[str]) -> Optional[List[Cell]]:
        if len(values) != len(self.query.columns):
            return None
        dates = [self.date(whole(time)) for time in times]
        return [*front, *dates, *map(value_of, self.query.columns, values)]

    def date(self, time: int) -> Cell:
        """A time of a zone, or the number where none is asked for or no calendar has it."""
        shown = None if self.zone is None else moment(time, self.unit, self.zone)
        return time if shown is None else shown.isoformat(timespec=EXACT[self.unit])


def whole(text: str) -> int:
    if not re.fullmatch(WHOLE, text):
        raise ValueError(text)
    return int(text)


def value_of(column: asking.Column, text: str) -> Cell:
    """The value of a cell, which is one of its column's."""
    if column.kind == "INT":
        return whole(text)
    if column.kind == "BOOL":
        return {"true": True, "false": False}[text]
    return column.names[column.names.index(text)]


# ---- forms

def written(cell: Cell) -> str:
    return ("true" if cell else "false") if isinstance(cell, bool) else str(cell)


class Table:
    """Columns that are as wide as what has come so far, or is likely to; numbers stand at the right."""

    def __init__(self, lines: Lines) -> None:
        times = [len(str(lines.date(1_000_000_000 * UNITS[lines.unit])))] * (1 if lines.is_stream else 2)
        names = [] if lines.is_stream else [len("on_time"), max(map(len, lines.query.keys))]
        self.widths = names + times + [0] * len(lines.query.columns)
        is_right = [False] * len(names) + [lines.zone is None] * len(times) + [column.kind == "INT" for column in lines.query.columns]
        self.head = self.padded(lines.names, is_right)

    def row(self, cells: Sequence[Cell]) -> str:
        return self.padded(cells, [isinstance(cell, int) and not isinstance(cell, bool) for cell in cells])

    def padded(self, cells: Sequence[Cell], is_right: Sequence[bool]) -> str:
        texts = [written(cell) for cell in cells]
        self.widths = [max(pair) for pair in zip(self.widths, map(len, texts))]
        padded = [text.rjust(width) if right else text.ljust(width) for text, width, right in zip(texts, self.widths, is_right)]
        return "  ".join(padded).rstrip() + "\n"

    def other(self, line: str) -> Optional[str]:
        return None


class Csv:
    def __init__(self, lines: Lines) -> None:
        self.head = self.row(lines.names)

    def row(self, cells: Sequence[Cell]) -> str:
        import csv
        import io

        out = io.StringIO()
        csv.writer(out, lineterminator="\n").writerow(map(written, cells))
        return out.getvalue()

    def other(self, line: str) -> Optional[str]:
        return None


class Json:
    def __init__(self, lines: Lines) -> None:
        from json import dumps

        self.names, self.head, self.dumps = lines.names, "", dumps

    def row(self, cells: Sequence[Cell]) -> str:
        return self.dumps(dict(zip(self.names, cells))) + "\n"

    def other(self, line: str) -> Optional[str]:
        tag, *cells = line.split(",")
        is_refused = tag == "refused"
        said = {"refused": int(cells[0]), "word": cells[1]} if is_refused else {"end": dict(zip(ENDED, map(int, cells)))}
        return self.dumps(said) + "\n"


Form = Union[Table, Csv, Json]
FORMS: Dict[str, Callable[[Lines], Form]] = {"table": Table, "csv": Csv, "json": Json}


def is_other(line: str) -> bool:
    """Whether a line is of the run, and no row of the query."""
    return re.fullmatch(f"{END}|{REFUSAL}", line) is not None


# ---- the command

def show_line(lines: Lines, form: Form, line: str, out: TextIO) -> bool:
    """Shows a line, or tells of it; whether it is of the query."""
    try:
        row = lines.row(line)
    except (ValueError, KeyError, IndexError):
        row = None
    if row is not None:
        out.write(form.row(row))
        return True
    if not is_other(line):
        return False
    said = form.other(line)
    out.write(said or "")
    if said is None:
        print(line, file=sys.stderr, flush=True)
    return True


def show(lines: Lines, form: Form, source: BinaryIO, out: TextIO) -> int:
    """Shows each line; answers how many weren't of the query."""
    strange = 0
    out.write(form.head)
    out.flush()
    for number, raw in enumerate(source, 1):
        line = raw.decode("utf-8", "backslashreplace")
        whole, line = line.endswith("\n"), line.rstrip("\n")
        if not whole or not show_line(lines, form, line, out):
            strange += 1
            why = "isn't of this query" if whole else "was cut off"
            telling.tell(f"line {number} {why}: {printable(line)}")
        out.flush()
    return strange


def words() -> Namespace:
    parser = telling.parser_of("show", __doc__)
    form = parser.add_mutually_exclusive_group()
    for name in FORMS:
        form.add_argument(f"--{name}", dest="form", action="store_const", const=name)
    parser.add_argument("--zone")
    parser.add_argument("--unit", choices=list(UNITS), default="s")
    parser.add_argument("--columns")
    parser.add_argument("--program", default=asking.program())
    parser.add_argument("query", metavar="QUERY")
    parser.set_defaults(form="table")
    return parser.parse_args()


def main() -> int:
    asked = words()
    zone = zone_of(asked.zone) if asked.zone else None
    lines = Lines(asking.query_of(asked.query, asked.program), asked.columns.split(",") if asked.columns else None, zone, asked.unit)
    try:
        return 1 if show(lines, FORMS[asked.form](lines), sys.stdin.buffer, sys.stdout) else 0
    except OSError as why:
        os.dup2(os.open(os.devnull, os.O_WRONLY), 1)  # what is still to be written has nowhere to go
        raise Ended(f"write failed: {why.strerror}", BAD_WRITE) from None
