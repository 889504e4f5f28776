"""Which clocks of a day were wrong, and by how much, for `propose`.

Each key is a clock (docs/SOURCES.md, watermarks by agreement). Right is what at least half of the keys around a record
agree on: the middle of the last times of the NEAR other keys in front of it and the next ones of those behind it, and
no less than for the record before. So a record that comes late tells of no wrong clock, but one that is ahead does.
"""
from __future__ import annotations

from statistics import median_low
from typing import Dict, Iterable, List, NamedTuple, Optional, Sequence, Set, Tuple

NEAR, FAR = 5, 200  # keys that say what time it is, and records among which they are looked for
LEAST = 60  # seconds by which a wrong clock is off at least
OFTEN = 10  # times as far off as half of the records are from one another

Record = Tuple[str, int]  # key and time


class Clocks(NamedTuple):
    wrong: Set[int]  # the places of the records whose clocks were wrong
    off: Dict[str, List[int]]  # of each key by how much they were
    at_once: int  # how many were ahead at one time, at most
    keys: int


def nearest(records: Iterable[Record], own: str) -> Iterable[int]:
    """A time of each of the nearest other keys."""
    times: Dict[str, int] = {}
    for key, time in records:
        if key != own:
            times.setdefault(key, time)
        if len(times) == NEAR:
            break
    return times.values()


def ahead_of_right(records: Sequence[Record]) -> List[int]:
    """How far each record is ahead of what is right."""
    found: List[int] = []
    right: Optional[int] = None
    for at, (key, time) in enumerate(records):
        before, behind = range(at - 1, max(-1, at - FAR), -1), range(at + 1, min(at + FAR, len(records)))
        around = [time for places in (before, behind) for time in nearest((records[place] for place in places), key)]
        agreed = median_low(around) if around else time
        right = agreed if right is None else max(agreed, right)
        found.append(time - right)
    return found


def clocks_of(records: Sequence[Record]) -> Clocks:
    """Wrong are records too far ahead of the others, and all of a key that mostly is too far behind them."""
    off = ahead_of_right(records)
    by_key: Dict[str, List[int]] = {}
    for (key, _), ahead in zip(records, off):
        by_key.setdefault(key, []).append(ahead)
    middle, in_order, half = median_low(off), sorted(off), len(off) // 2
    limit = max(LEAST, OFTEN * min(high - low for low, high in zip(in_order, in_order[half:])))
    behind = {key for key, its in by_key.items() if median_low(its) - middle < -limit}
    clocks = Clocks(set(), {}, 0, len(by_key))
    ahead_now: Set[str] = set()
    for place, ((key, _), ahead) in enumerate(zip(records, off)):
        is_ahead = ahead - middle > limit
        (ahead_now.add if is_ahead else ahead_now.discard)(key)
        clocks = clocks._replace(at_once=max(len(ahead_now), clocks.at_once))
        if is_ahead or key in behind:
            clocks.wrong.add(place)
            clocks.off.setdefault(key, []).append(ahead - middle)
    return clocks
