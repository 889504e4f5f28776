"""The row in front of rows that were cut, which says what they stand for: `kept,ROWS,LINES,KEPT,OWN,RECORDS,SUM`."""
from __future__ import annotations

from itertools import islice
from typing import NamedTuple, Tuple

from .rows import LONGEST
from .telling import BAD_READ, Ended, named

TAG = b"kept"


class Head(NamedTuple):
    """That of a file of which no row is gone has numbers 0."""
    rows: int = 0       # all rows up to the cut
    lines: int = 0      # the lines that were written for them
    kept: int = 0       # the rows of the file that stand for them, this one too
    own: int = 0        # the lines that a run over these writes
    records: int = 0    # the RECORDS by which it takes as many records as a run over all would
    query: int = 0      # the sum of the query's text


def head_of(path: str, row: bytes) -> Head:
    """What a file's first row says."""
    if not row.startswith(TAG + b","):
        return Head()
    cells = row.split(b",")[1:]
    if len(cells) != 6 or not all(cell.isdigit() for cell in cells):
        raise Ended(f"{path}: the first row is none that keep wrote: {row[:60].decode('latin-1')}")
    return Head(*map(int, cells))


def kept_in(path: str) -> Tuple[Head, int]:
    """The head of a file of rows, and how many of the rows that were kept are records."""
    with named(path, BAD_READ), open(path, "rb") as file:
        head = head_of(path, file.readline(LONGEST).rstrip(b"\r\n"))
        return head, sum(row.startswith(b"r,") for row in islice(file, max(0, head.kept - 1)))
