"""Lines of rows as they come, read as bytes, the cells of a row, and the forms of lines that tell what became of rows."""
from __future__ import annotations

import re
from typing import Iterator, List, Optional, Sequence

from .telling import SHOWN, Signals

LONGEST = 1 << 16  # bytes of a line; no row that `wsm` takes is as long
MOST = 2**63 - 1
HEADER = [b"r", b"KEY", b"TIME"]  # how a first row with the names of the fields begins
MARK_OF_ORDER = b"\xef\xbb\xbf"
WHOLE = "-?[0-9]{1,20}"
END = r"end,([0-9]{1,20}),([0-9]{1,20}),([0-9]{1,20}),([0-9]{1,20}),[0-9]{1,20}"
REFUSAL = r"refused,([0-9]{1,20}),([A-Za-z]+)"


def lines_of(descriptor: int, cut: Optional[List[bytes]] = None) -> Iterator[List[bytes]]:
    """Lists of lines, each as soon as it has come.

    A line has no line feed. One that is longer than LONGEST comes as its beginning behind a quote, so that no tool takes
    it for a row. A last one that lacks its line feed is a line too; but where there is a list for what is cut off, it is
    put there.
    """
    parts: List[bytes] = []
    size, is_first = 0, True
    while text := Signals.read(descriptor, LONGEST):
        if b"\r" in text:
            text = text.replace(b"\r\n", b"\n")
        first, feed, rest = text.partition(b"\n")
        if size <= LONGEST:
            parts.append(first)
            size += len(first)
        if not feed:
            continue
        lines = rest.split(b"\n")
        lines.insert(0, whole(parts, is_first))
        is_first = False
        last = lines.pop()
        parts, size = [last], len(last)
        yield lines
    last = whole(parts, is_first)
    if last and cut is None:
        yield [last]
    elif last and cut is not None:
        cut.append(last)


def whole(parts: Sequence[bytes], is_first: bool) -> bytes:
    line = b"".join(parts)
    line = line.removeprefix(MARK_OF_ORDER) if is_first else line
    return line if len(line) <= LONGEST else b'"' + line[:SHOWN]


def cleaned(line: bytes) -> Optional[bytes]:
    """A line without a CR at its end, or None where it would not be one row: with a quote or a CR in it."""
    line = line.rstrip(b"\r")
    return None if b'"' in line or b"\r" in line else line


def time_of(cells: Sequence[bytes]) -> Optional[int]:
    """The time of a record's cells, or None where they are no record with a time."""
    if len(cells) < 3 or cells[0] != b"r" or not cells[2].isdigit():
        return None
    return time_in(cells[2])


def time_in(cell: bytes) -> int:
    """The time of a cell of digits; one that is too long is later than each other."""
    figures = cell.lstrip(b"0")
    return int(figures or b"0") if len(figures) < 20 else 1 << 63


def number_of(cell: str) -> Optional[int]:
    """What a cell of a field of numbers says; None where that is none, or needs more than 64 bits."""
    said = int(cell) if re.fullmatch("-?[0-9]+", cell) else MOST + 1
    return said if -MOST - 1 <= said <= MOST else None
