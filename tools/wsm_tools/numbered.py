"""The numbered lines of `wsm live`, each taken once: NUMBER,SUM,LINE, behind a first line that says which they are."""
from __future__ import annotations

import os
import re
import sys
import zlib
from pathlib import Path
from select import select
from time import monotonic
from typing import TYPE_CHECKING, List, NamedTuple, Sequence, Tuple

from .rows import lines_of
from .telling import BAD_READ, BAD_WRITE, Ended, named, shown, was_stopped

if TYPE_CHECKING:
    from .sink import Sink

OTHERS, MUST_LOOK = 8, 9  # statuses: another one took lines, so again; and somebody must look
PAUSE = 1.0  # seconds between two times that it is told in the folder what was taken
FIRST = r"live,([0-9a-f]{16}),([0-9]{1,10}),([0-9]{1,20})"


class Origin(NamedTuple):
    """Which lines these are: the name of the folder's journal, the sum of query and source, and how many lines come no more."""
    name: str
    sum: str
    before: int


def origin_of(line: bytes) -> Origin:
    found = re.fullmatch(FIRST, line.decode("latin-1"))
    if not found:
        raise Ended(f"these aren't the lines of `wsm live`, which begin with live,NAME,SUM,COUNT: {shown(line)}", MUST_LOOK)
    return Origin(found[1], found[2], int(found[3]))


class Teller:
    """The file by which a sink tells the folder how many lines are surely on its disk."""

    def __init__(self, folder: str, part: str, name: str) -> None:
        self.path = Path(folder) / (f"taken.{part}" if part else "taken")
        self.name, self.told, self.next = name, -1, 0.0

    def tell(self, lines: int, total: int) -> None:
        """Tells it; the file is written beside, synced and renamed."""
        beside = self.path.with_name(f"{self.path.name}.next")
        with named(str(self.path), BAD_WRITE):
            with open(beside, "w", encoding="ascii", opener=private) as file:
                file.write(f"{self.name},{lines},{total}\n")
                file.flush()
                os.fsync(file.fileno())
            os.replace(beside, self.path)
        self.told, self.next = lines, monotonic() + PAUSE

    def wait(self, descriptor: int, lines: int, total: int) -> None:
        """Tells what isn't told yet, a second behind the last time, unless more comes before."""
        if lines == self.told:
            return
        ready, _, _ = select([descriptor], [], [], max(0.0, self.next - monotonic()))
        if not ready or self.next <= monotonic():
            self.tell(lines, total)


def private(path: str, flags: int) -> int:
    """A file that its owner alone reads; no link is followed."""
    return os.open(path, flags | os.O_NOFOLLOW, 0o600)


def begin_live(sink: Sink, origin: Origin) -> None:
    """The table must have lines of the same run, or none, and all of those that come no more."""
    first = f"live,{origin.name},{origin.sum}"
    if sink.lines and sink.first != first:
        raise Ended(f"{sink.place.shown} has lines of {sink.first}, and these are of {first}: a folder or query of its own "
                    "wants a table of its own", MUST_LOOK)
    if sink.lines < origin.before:
        raise Ended(f"{sink.place.shown} has {sink.lines} lines, and those up to {origin.before} come no more: another sink "
                    "told the folder that it had them", MUST_LOOK)
    sink.first = first
    sink.place.others, sink.place.unfit = OTHERS, MUST_LOOK
    sink.place.secure()


def next_of(sink: Sink, lines: Sequence[bytes]) -> Tuple[List[bytes], str]:
    """Those of some lines that come next behind those of the table, up to one that doesn't fit, and what is told of that
    one. Lines that the table has are passed over."""
    fresh: List[bytes] = []
    count, total, known = sink.lines, sink.sum, zlib.crc32
    for line in lines:
        front = line.split(b",", 2)
        if len(front) < 3 or not (front[0].isdigit() and front[1].isdigit()):
            return fresh, f"this is no numbered line: {shown(line)}"
        number, text = int(front[0]), front[2]
        if number == count + 1:
            count, total = number, known(b"%b\n" % text, total)
            fresh.append(text)
        elif number > count:
            return fresh, f"line {number} comes behind line {count}, and isn't taken: {shown(line)}"
        if number == count and int(front[1]) != total:
            return fresh[:-1], f"line {number} has another sum than the lines up to it, and isn't taken: {shown(line)}"
    return fresh, ""


def take_live(sink: Sink, folder: str) -> None:
    """Takes numbered lines from standard input, as long as they come."""
    descriptor, cut, teller = sys.stdin.fileno(), list[bytes](), None
    for lines in lines_of(descriptor, cut=cut):
        if teller is None and lines:
            origin, lines = origin_of(lines[0]), lines[1:]
            begin_live(sink, origin)
            teller = Teller(folder, sink.part, origin.name)
        fresh, why = next_of(sink, lines)
        sink.add(fresh)
        if why:
            raise Ended(why, MUST_LOOK)
        if teller is not None:
            teller.wait(descriptor, sink.lines, sink.sum)
    if teller is not None and teller.told != sink.lines:
        teller.tell(sink.lines, sink.sum)
    if cut and not was_stopped():
        raise Ended(f"the line behind line {sink.lines} was cut off, and isn't taken: {shown(cut[0])}", BAD_READ)
