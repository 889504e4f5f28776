"""A source and the head of a query that together take a day of a log: its keys, fields and clock.

usage: propose [--format json|csv|access|rows] [--key PLACE] [--time PLACE] [--zone NAME]
               [--bound BOUND --step STEP] [--agree] [--jump SECONDS] [--behind SECONDS] [--source FILE] [LOG]

For example: propose --source meters.toml meters.jsonl > meters.wsm

Reads a log of JSON lines, CSV below a header or the combined form of an access log, from a file or from standard input;
which of them it is, its first lines say where --format doesn't. It finds where the time stands and in which form, takes
for the key a text that has few values, and makes a field of each other column: numbers with their interval, scale and
signs, pairs of words as yes and no, and texts that are few. Nine numbers of ten make a column of numbers, and nine of
ten with so many digits behind the point its scale; lines that are refused for it are told. --key and --time say places. A time that is written
without an offset is one of the zone NAME, as Europe/Berlin or UTC. Names that can't be keys get others by a file of
names beside FILE. The source goes to FILE, and the head of the query to standard output: SELECT, WINDOW and EMIT are
yours. Without FILE the source comes first, and a line `# QUERY` behind it.

By the clauses of the clock no record is too far ahead, late, or one too many, and with this START no smaller LATENESS or
RECORDS takes them all. SKEW is what takes them all, and at least BOUND + STEP - 1, as a source with [clock] asks for. Without BOUND and STEP watermarks stay behind the greatest time by what 99 of 100
records are behind it, in whole minutes. Standard error has how late records come, lines that say no event, columns that
are left out, each with why, and what else might be the key or the time.

A record that is further ahead of the greatest time than JUMP (86400 where it is left out) has a wrong clock, unless
most of the ten that follow are within JUMP of it, and so has one that is further behind than BEHIND (JUMP where it is
left out): a gateway may bring records that are hours old, where a clock that is hours ahead is wrong. Such say nothing
of the others, and are left out and told; the source then has the watermark wait for two keys that agree.

With --agree each key is a clock, and right is what at least half of the keys agree on. It is told clock by clock which
were wrong that day, and by how much. These are left out in the place of those that JUMP leaves out, and the source has
the watermark wait for one key more than were ahead at one time.

Of rows, with their watermarks or with BOUND and STEP, as `wsm run` and `watermarks` have them, it prints how late they
come, and the head of a query. Their fields are f1, f2, .., or have the names of a first row r,KEY,TIME,...

Where the variable WSM names the program, or it is installed or built beside this tool's folder, it is asked which words
may be names, and whether the source and the head go together. The status is 1 where they don't, or where none is found; 2 for wrong words, 6 where a file
can't be read and 7 where one can't be written.
"""
from __future__ import annotations

import math
import os
import re
import sys
from bisect import bisect_left, insort
from typing import TYPE_CHECKING, Callable, Dict, Iterable, Iterator, List, Mapping, NamedTuple, Optional, Sequence, Set, Tuple

from . import asking, telling
from .asking import is_name, limits
from .fields import LONGEST_KEY, Column, columns_of, fields_of, key_of, names_for
from .fields import Field as LogField
from .fields import time_of as place_of_time
from .logs import ODD, Cells, Odd, format_of, reader_of, text_of, whole_log
from .rows import HEADER, cleaned, lines_of, number_of, time_in, time_of, whole
from .telling import BAD_READ, BAD_WORDS, BAD_WRITE, Ended, printable, shown, tell, whole_number
from .times import Zone, forms, has_zone

if TYPE_CHECKING:
    from argparse import Namespace

    from .clocks import Clocks

JUMP = 86400
SHARES = (50, 90, 99, 99.9, 100)
NEXT = 10  # records that say whether one that is far ahead is right
MINUTE = 60
MOST_TOLD = 10  # names in a line
FIRST = 3  # lines of a kind that are told


class Event(NamedTuple):
    """A record, or a watermark of a source, which is empty where there is one alone."""
    source: Optional[str]  # None of a record
    time: int
    row: bytes
    number: int  # of its line


# ---- what rows are

class Field:
    """What the cells of a field have been. Of numbers the least and the greatest, of words each."""

    def __init__(self) -> None:
        self.low: Optional[int] = None
        self.high: Optional[int] = None
        self.words: Dict[str, None] = {}
        self.strange: Optional[str] = None  # a cell that is none of both

    def add(self, cell: str) -> None:
        number = number_of(cell)
        if number is not None:
            self.low = number if self.low is None else min(number, self.low)
            self.high = number if self.high is None else max(number, self.high)
        elif cell in self.words or len(self.words) <= limits().names:
            self.words[cell] = None
        elif self.strange is None:
            self.strange = cell

    def clause(self, name: str) -> Optional[str]:
        """Its clause, or None where it can't be a field."""
        strange = [word for at, word in enumerate(self.words) if at == limits().names or not is_name(word)]
        self.strange = strange[0] if strange else self.strange
        if self.strange is not None or self.words and self.low is not None or not self.words and self.low is None:
            return None
        if not self.words:
            return f"FIELD {name} INT {self.low}..{self.high};"
        return f"FIELD {name} BOOL;" if self.words.keys() <= {"true", "false"} else f"FIELD {name} ENUM({', '.join(sorted(self.words))});"


class Rows:
    """The records with a time, and the watermarks, in their order."""

    def __init__(self) -> None:
        self.events: List[Event] = []
        self.names: Optional[List[str]] = None
        self.unread: List[Tuple[int, bytes]] = []
        self.wrong: List[Tuple[int, bytes]] = []
        self.number = 0

    def take(self, lines: Iterable[bytes]) -> None:
        for line in lines:
            self.number += 1
            row = cleaned(line)
            if row == b"":
                continue
            cells = (row or b"").split(b",")
            time = time_of(cells)
            if cells[:3] == HEADER:
                self.names = [cell.decode("latin-1") for cell in cells[3:]]
            elif time is not None:
                self.events.append(Event(None, time, row or b"", self.number))
            elif cells[0] == b"w" and len(cells) in (2, 3) and cells[-1].isdigit():
                source = cells[1].decode("latin-1") if len(cells) > 2 else ""
                self.events.append(Event(source, time_in(cells[-1]), b"", self.number))
            else:
                self.unread.append((self.number, line))

    def leave(self, places: Set[int]) -> None:
        """Leaves out the records at some places, whose clocks are wrong."""
        self.wrong = [(self.events[place].number, self.events[place].row) for place in sorted(places)]
        self.events = [event for place, event in enumerate(self.events) if place not in places]

    def leave_out(self, jump: int, behind: int) -> None:
        """Leaves out the records whose clocks are wrong: far from the greatest time, and most that follow don't agree."""
        times = [event.time for event in self.events if event.source is None]
        greatest: Optional[int] = None
        events, self.events, at = self.events, [], 0
        for event in events:
            if event.source is None:
                at += 1
                is_near = greatest is not None and -behind <= event.time - greatest <= jump
                is_ahead = greatest is None or event.time > greatest
                if event.time > limits().latest or not (is_near or is_ahead and most_agree(event.time, times[at:at + NEXT], jump)):
                    self.wrong.append((event.number, event.row))
                    continue
                greatest = event.time if is_ahead else greatest
            self.events.append(event)


def most_agree(time: int, others: Sequence[int], jump: int) -> bool:
    return 2 * sum(abs(time - other) <= jump for other in others) > len(others)


def with_watermarks(events: Iterable[Event], bound: int, step: int) -> Iterator[Event]:
    """The records, with watermarks by bounded delay in front of those that raise them."""
    greatest = written = 0
    for event in events:
        if event.source is None:
            greatest = max(event.time, greatest)
            mark = (greatest - bound) // step * step
            if mark > written:
                written = mark
                yield Event("", mark, b"", 0)
            yield event


# ---- the clock

def start_of(events: Sequence[Event]) -> int:
    """The greatest START by which the first record isn't late and each source's first watermark rises."""
    first: Dict[Optional[str], int] = {}
    for event in events:
        first.setdefault(event.source, event.time if event.source is None else event.time - 1)
    return max(0, min(first.values()))


def measured(events: Sequence[Event], start: int) -> Tuple[List[int], int, int]:
    """How far each record is behind the greatest time, and how far all are ahead of the watermark and behind it."""
    marks = {event.source: start for event in events if event.source is not None}
    watermark = greatest = start
    behind: List[int] = []
    skew = lateness = 0
    for source, time, *_ in events:
        if source is not None:
            marks[source] = max(time, marks[source])
            watermark = min(marks.values())
        else:
            greatest = max(greatest, time)
            behind.append(greatest - time)
            skew, lateness = max(skew, time - watermark), max(lateness, watermark - time)
    return sorted(behind), skew, lateness


# ---- what is told

def told_of(rows: Rows, jump: int, behind: int) -> None:
    within = str(jump) if behind == jump else f"{jump}, or {behind} behind"
    for what, those in (("lines that are no rows", rows.unread), (f"records left out, as others don't agree within {within}", rows.wrong)):
        if those:
            tell(f"{what}: {len(those)}, the first is line {those[0][0]}: {shown(those[0][1])}")


def clauses(rows: Rows, events: Iterable[Event]) -> List[str]:
    """The clauses of the keys and the fields."""
    found: Dict[str, None] = {}
    fields: List[Field] = []
    for event in events:
        if event.source is None:
            _, key, _, *cells = event.row.decode("latin-1").split(",")
            found[key] = None
            fields += [Field() for _ in cells[len(fields):]]
            for field, cell in zip(fields, cells):
                field.add(cell)
    keys, strange = ([key for key in found if is_name(key) == is_key] for is_key in (True, False))
    if strange:
        some = ", ".join(shown(key.encode("latin-1")) for key in strange[:10])
        tell(f"names that can't be keys: {len(strange)}: {some}{', ..' if len(strange) > 10 else ''}; a file of names of a source gives them keys")
    if len(keys) > limits().names:
        tell(f"{len(keys)} keys are more than the {limits().names} that a query has: docs/SCALING.md")
    names = rows.names or [f"f{at}" for at in range(1, len(fields) + 1)]
    lines = [f"KEYS {', '.join(sorted(keys))};"] if keys else []
    for name, field in zip(names, fields):
        clause = field.clause(name) if is_name(name) else None
        if clause is None:
            case = field.strange if field.strange is not None else "numbers and words"
            tell(f"{name} can't be a field: {shown(case.encode('latin-1'))}")
        else:
            lines.append(clause)
    return lines


def head_of_rows(rows: Rows, asked: Namespace) -> None:
    """Prints how late rows come, and the head of a query that takes them."""
    rows.leave_out(asked.jump, asked.behind)
    told_of(rows, asked.jump, asked.behind)
    events = rows.events
    if asked.bound is not None:
        events = list(with_watermarks(events, asked.bound, asked.step))
    records = sum(event.source is None for event in events)
    if records in (0, len(events)):
        raise Ended(f"{records} records, and no watermark: there must be some among the rows, or by BOUND and STEP"
                    if records else "there are no records that agree")
    head = clauses(rows, events)
    start = start_of(events)
    behind, skew, lateness = measured(events, start)
    print(f"{len(behind)} records, behind the greatest time by at most")
    for share in SHARES:
        print(f"{share:>5}% {share_of(behind, share):>8}")
    for line in head:
        print(line)
    print(f"START {start}; SKEW {skew}; LATENESS {lateness}; RECORDS {len(behind)};")


# ---- what a log is

class Log:
    """The lines of a log, by the places of its key and its time, and what is told of lines that say no event."""

    def __init__(self, lines: List[bytes], form: str) -> None:
        self.lines, self.form = lines, form
        self.reader, self.separator, names = reader_of(form, lines)
        self.unread: Dict[str, Tuple[int, int]] = {}
        figures = [name for name in names if re.fullmatch("-?[0-9][0-9.,:-]*", name)]
        if figures:
            tell(f"the first line is taken for the header, though it has {named(figures)}")

    def read(self) -> Iterator[Tuple[int, Optional[Cells]]]:
        """Each line but the header, by its number."""
        for number, line in enumerate(self.lines, 1):
            if self.form != "csv" or line != self.lines[0]:
                text = text_of(line)
                yield number, None if text is None else self.reader(text)

    def leave(self, number: int, why: str) -> None:
        times, first = self.unread.get(why, (0, number))
        self.unread[why] = times + 1, first

    def events(self, key: Column, time: Column, seconds: Callable[[str], Optional[int]]) -> Tuple[List[Event], Dict[int, str]]:
        """The records as events, and the text of each one's key."""
        found: List[Event] = []
        texts: Dict[int, str] = {}
        for number, cells in self.read():
            name = cells.get(key.place) if cells else None
            stamp = cells.get(time.place) if cells else None
            at = None if stamp is None or stamp is ODD else seconds(stamp)
            if cells is None:
                self.leave(number, f"that are no {self.form}")
            elif name is None or name is ODD or not 0 < len(name.encode()) <= LONGEST_KEY or "\n" in name:
                self.leave(number, f"without a key at {printable(key.place)}")
            elif at is None or at < 0:
                self.leave(number, f"without a time at {printable(time.place)}")
            else:
                found.append(Event(None, at, self.lines[number - 1], number))
                texts[number] = sys.intern(str(name))
        return found, texts

    def cells_of(self, events: Iterable[Event]) -> Iterator[Cells]:
        """The cells of events, each of which has some."""
        return (self.reader(text_of(event.row) or "") or {} for event in events)

    def taken(self, events: Sequence[Event], fields: Sequence[LogField]) -> List[Event]:
        """The events that the source doesn't refuse for a field, and tells of the others."""
        taken: List[Event] = []
        refused: Dict[str, List[Tuple[int, str | Odd]]] = {}
        for event, cells in zip(events, self.cells_of(events)):
            field = next((field for field in fields if field.refuses(cells.get(field.place))), None)
            if field is None:
                taken.append(event)
            else:
                refused.setdefault(field.place, []).append((event.number, cells[field.place]))
        for place, its in refused.items():
            first = "; ".join(f"line {number}: {'-' if text is ODD else printable(text)[:40]}" for number, text in its[:FIRST])
            tell(f"lines that are refused, as {printable(place)} has no such number: {len(its)}, the first {'are' if its[1:] else 'is'} {first}")
        return taken

    def tell(self) -> None:
        for why, (times, first) in self.unread.items():
            tell(f"lines {why}: {times}, the first is line {first}: {shown(self.lines[first - 1])}")


def time_and_zone(log: Log, columns: Dict[str, Column], asked: Namespace) -> Tuple[Column, str, Zone]:
    """Where the time stands, its form, and the zone that the form wants."""
    column, form, others, places = place_of_time(columns, asked.time)
    zone = Zone(asked.zone)
    if others:
        stamps = [cells.get(column.place) for _, cells in log.read() if cells]
        texts = [stamp for stamp in stamps if isinstance(stamp, str)]
        readers = forms(Zone(None), True)
        read = {one: sum(readers[one](text) is not None for text in texts) for one in (form, *others)}
        alike = [one for one in others if read[one] == read[form]]
        form = max(read, key=lambda one: read[one])
        if alike and form not in alike:
            tell(f"the times may as well be of the form {', '.join(alike)}: {form} is taken")
    if not has_zone(form) and asked.zone is None:
        raise Ended(f"the time at {printable(column.place)}, as {printable(column.samples[0])}, has no offset: "
                    "--zone says whose it is, as --zone Europe/Berlin or --zone UTC", BAD_WORDS)
    if places:
        tell(f"the time stands at {printable(column.place)}; others that might be it: {named(places)}")
    return column, form, zone


def named(names: Iterable[str]) -> str:
    names = [printable(name) for name in names]
    return ", ".join(names[:MOST_TOLD]) + (", .." if len(names) > MOST_TOLD else "")


# ---- what is proposed

class Clock(NamedTuple):
    agree: int
    bound: int
    step: int


def share_of(behind: List[int], share: float) -> int:
    return behind[math.ceil(len(behind) * share / 100) - 1]


def clock_of(events: Sequence[Event], agree: int, asked: Namespace) -> Clock:
    """The clock that is asked for, or one by which 99 of 100 records aren't late."""
    if asked.bound is not None:
        return Clock(agree, asked.bound, asked.step)
    behind, *_ = measured(events, 0)
    return Clock(agree, max(MINUTE, -(-share_of(behind, 99) // MINUTE) * MINUTE), MINUTE)


def tell_of_clocks(clocks: Clocks, clock: Clock) -> None:
    """Which clocks were wrong, and by how much, and what bears it."""
    from statistics import median_low

    for key, off in sorted(clocks.off.items(), key=lambda one: -len(one[1]))[:MOST_TOLD]:
        by = median_low(off)
        tell(f"wrong clock: {printable(key)}, by {abs(by)} s {'ahead' if by > 0 else 'behind'}, records: {len(off)}")
    if len(clocks.off) > MOST_TOLD:
        tell(f"the clocks of {len(clocks.off) - MOST_TOLD} more were wrong")
    if 2 * clocks.at_once >= clocks.keys:
        tell("so many clocks were ahead at one time that nobody can tell which were right")
    tell(f"{clocks.at_once} of {clocks.keys} clocks ahead at one time, at most: agree = {clock.agree}, bound = {clock.bound}, "
         f"step = {clock.step} bear this day")


def with_agreement(events: Iterable[Event], wrong: Dict[int, int], keys: Dict[int, str], clock: Clock) -> Iterator[Event]:
    """The records, with the watermarks of a source in front of them. Those with wrong clocks have a part in these alone."""
    by_number = {number: Event(None, time, b"", number) for number, time in wrong.items()}
    by_number.update((event.number, event) for event in events)
    last: Dict[str, int] = {}
    times: List[int] = []  # the last one of each key, in order
    written = 0
    for number in sorted(by_number):
        event = by_number[number]
        if (key := keys[number]) in last:
            del times[bisect_left(times, last[key])]
        last[key] = event.time
        insort(times, event.time)
        agreed = times[-clock.agree] if len(times) >= clock.agree else 0
        mark = max(agreed - clock.bound, 0) // clock.step * clock.step
        if mark > written:
            written = mark
            yield Event("", mark, b"", 0)
        if number not in wrong:
            yield event


def quoted(text: str) -> str:
    """A text of TOML."""
    escaped = "".join(
        "\\" + one if one in '"\\' else one if one.isprintable() else f"\\U{ord(one):08X}" for one in text
    )
    return f'"{escaped}"'


def told_as(value: object) -> str:
    return str(value).lower() if isinstance(value, bool) else str(value) if isinstance(value, int) else quoted(str(value))


def table(head: str, pairs: Mapping[str, object]) -> List[str]:
    key = re.compile("[A-Za-z0-9_-]+")
    return [f"[{head}]", *(f"{name if key.fullmatch(name) else quoted(name)} = {told_as(value)}" for name, value in pairs.items()), ""]


def source_of(log: Log, key: Mapping[str, object], time: Mapping[str, object], fields: Sequence[LogField], clock: Clock) -> str:
    lines = [f"format = {quoted(log.form)}"]
    if log.separator != ",":
        lines.append(f"separator = {quoted(log.separator)}")
    lines += ["", *table("key", key), *table("time", time)]
    for field in fields:
        said: Dict[str, object] = {**({} if field.place == field.name else {"at": field.place}), **field.said}
        if said:
            lines += table(f"fields.{field.name}", said)
        if field.words:
            lines += table(f"fields.{field.name}.words", field.words)
    agree = {"agree": clock.agree} if clock.agree > 1 else {}
    return "\n".join(lines + table("clock", {**agree, "bound": clock.bound, "step": clock.step})[:-1]) + "\n"


def table_of_names(names: Dict[str, str]) -> str:
    import csv
    import io

    out = io.StringIO()
    csv.writer(out, lineterminator="\n").writerows(names.items())
    return out.getvalue()


# ---- a log

class Proposal(NamedTuple):
    source: str
    head: str
    names: Optional[str]  # the file of names, where there must be one


def keys_of(texts: Iterable[str], asked: Namespace) -> Tuple[Dict[str, str], bool]:
    """The key of each text, and whether a file of names must say so."""
    names = names_for(sorted(set(texts)), "k")
    strange = [text for text in names if not is_name(text)]
    if strange and asked.source is None:
        tell(f"names that can't be keys: {len(strange)}: {named(strange)}; with --source a file of names gives them keys")
        names = {text: name for text, name in names.items() if is_name(text)}
    if len(names) > limits().names:
        tell(f"{len(names)} keys are more than the {limits().names} that a query has: docs/SCALING.md")
    if not names:
        raise Ended("no text of the key is a name")
    return names, bool(strange) and asked.source is not None


def leave_wrong_out(found: Rows, texts: Dict[int, str], asked: Namespace) -> Optional[Clocks]:
    """Leaves out the records whose clocks were wrong: by agreement, where that is asked for, else as JUMP says."""
    if asked.agree and found.events:
        from .clocks import clocks_of

        clocks = clocks_of([(texts[event.number], event.time) for event in found.events])
        found.leave(clocks.wrong)
        return clocks
    found.leave_out(asked.jump, asked.behind)
    told_of(found, asked.jump, asked.behind)
    return None


def proposed(log: Log, asked: Namespace) -> Proposal:
    columns, readable = columns_of(cells for _, cells in log.read() if cells is not None)
    if not columns:
        raise Ended(f"no line is {log.form}")
    time, form, zone = time_and_zone(log, columns, asked)
    key, others = key_of(columns, asked.key, time, readable)
    if others:
        tell(f"the key stands at {printable(key.place)}; others that might be it: {named(others)}")
    found = Rows()
    found.events, texts = log.events(key, time, forms(zone, True)[form])
    log.tell()
    of_records = columns if len(found.events) == readable else columns_of_records(log, columns, found.events)
    fields = fields_in(log, columns, of_records, {key.place, time.place}, len(found.events))
    found.events = log.taken(found.events, fields)
    every = {event.number: event.time for event in found.events}
    clocks = leave_wrong_out(found, texts, asked)
    if not found.events:
        raise Ended("there are no records that agree")
    of_clocks = every if clocks else [event.number for event in found.events]  # a clock that is wrong is one all the same
    names, has_table = keys_of((texts[number] for number in of_clocks), asked)
    events = [event for event in found.events if texts[event.number] in names]
    wrong = {number: every[number] for number, _ in found.wrong if texts[number] in names}
    clock = clock_of(events, clocks.at_once + 1 if clocks else 2 if wrong and len(names) > 2 else 1, asked)
    if clocks:
        tell_of_clocks(clocks, clock)
    said_key = {"at": key.place, **({"names": os.path.basename(names_file(asked.source))} if has_table else {})}
    said_time = {"at": time.place, "form": form, **({} if has_zone(form) else {"zone": asked.zone})}
    if zone.folds:
        tell(f"{zone.folds} times are told twice by the clock of {zone.name}: the first of the two is taken")
        said_time["fold"] = "first"
    return Proposal(
        source_of(log, said_key, said_time, fields, clock),
        head_of(sorted(names.values()), fields, list(with_agreement(events, wrong, texts, clock)), clock),
        table_of_names(names) if has_table else None,
    )


def columns_of_records(log: Log, columns: Dict[str, Column], events: Iterable[Event]) -> Dict[str, Column]:
    """The same columns of some events alone."""
    return {**{place: Column(place) for place in columns}, **columns_of(log.cells_of(events))[0]}


def fields_in(log: Log, columns: Dict[str, Column], of_records: Dict[str, Column], others: Set[str], records: int) -> List[LogField]:
    """The fields of the records, and what is told of columns that are none."""
    if log.form == "access" and "path" in columns:
        others.add("request")  # method, path and protocol have it
    found, left = fields_of(of_records, others, records)
    for field in found:
        if field.doubt:
            tell(f"{printable(field.place)}: {field.doubt}")
    for place, why in left.items():
        if columns[place].count or not any(other.startswith((f"{place}/", f"/{place}/")) for other in columns):
            tell(f"{printable(place)} is no field: {why}")
    return found


def head_of(keys: Sequence[str], fields: Sequence[LogField], events: Sequence[Event], clock: Clock) -> str:
    start = start_of(events)
    behind, skew, lateness = measured(events, start)
    shares = ", ".join(f"{share}% {share_of(behind, share)}" for share in SHARES)
    tell(f"{len(behind)} records, behind the greatest time by at most: {shares}")
    skew = max(skew, clock.bound + clock.step - 1)  # as a source with [clock] asks for
    last = f"START {start}; SKEW {skew}; LATENESS {lateness}; RECORDS {len(behind)};"
    return "\n".join([f"KEYS {', '.join(keys)};", *(field.clause for field in fields), last]) + "\n"


def names_file(source: str) -> str:
    from pathlib import Path

    return str(Path(source).with_suffix(".names.csv"))


def written(path: str, text: str) -> None:
    with telling.named(path, BAD_WRITE), open(path, "wb") as file:
        file.write(text.encode())


def tried(found: Proposal, asked: Namespace) -> int:
    """Whether the program takes the source and the head together, as a status."""
    from tempfile import TemporaryDirectory

    wsm = asking.there()
    if wsm is None:
        tell("no program is there that says whether the two go together")
        return 0
    with TemporaryDirectory() as room:
        source, query = asked.source or os.path.join(room, "log.toml"), os.path.join(room, "head.wsm")
        written(query, f"{found.head}SELECT COUNT(*) WINDOW FIXED 3600 ACCUMULATING EMIT PANES;\n")
        if asked.source is None:
            written(source, found.source)
        ran = asking.asked_of(wsm, "verify", "--query", "--from", source, query)
    if ran.returncode:
        told = (ran.stdout + ran.stderr).encode("latin-1").decode("utf-8", "replace").strip()
        tell(f"refused with WINDOW FIXED 3600: {told}")
    return 1 if ran.returncode else 0


def propose(log: Log, asked: Namespace) -> int:
    found = proposed(log, asked)
    if asked.source is None:
        sys.stdout.write(f"{found.source}# QUERY\n")
    else:
        written(asked.source, found.source)
        if found.names is not None:
            written(names_file(asked.source), found.names)
            tell(f"{names_file(asked.source)} gives keys to names that can't be keys")
    sys.stdout.write(found.head)
    return tried(found, asked)


# ---- words

def words() -> Namespace:
    parser = telling.parser_of("propose", __doc__)
    parser.add_argument("--format", choices=["json", "csv", "access", "rows"])
    for word in ("--key", "--time", "--zone", "--source"):
        parser.add_argument(word)
    parser.add_argument("--bound", type=whole_number)
    parser.add_argument("--step", type=whole_number)
    parser.add_argument("--jump", type=whole_number, default=JUMP)
    parser.add_argument("--behind", type=whole_number)
    parser.add_argument("--agree", action="store_true")
    parser.add_argument("log", nargs="?", default="-")
    asked = parser.parse_args()
    if (asked.bound is None) != (asked.step is None) or asked.step == 0:
        parser.error("BOUND and STEP are said together, and STEP is 1 or more")
    if asked.agree and asked.format == "rows":
        parser.error("rows have no source whose clocks could agree")
    if asked.behind is None:
        asked.behind = asked.jump
    return asked


def main() -> int:
    asked = words()
    telling.Signals.begin()
    with telling.named(asked.log, BAD_READ):
        descriptor = sys.stdin.fileno() if asked.log == "-" else os.open(asked.log, os.O_RDONLY)
    rows = Rows()
    if asked.format == "rows":
        for lines in lines_of(descriptor):
            rows.take(lines)
    else:
        lines = whole_log(descriptor)
        form = asked.format or format_of(lines)
        if form != "rows":
            return propose(Log(lines, form), asked)
        rows.take([whole([line], at == 0) for at, line in enumerate(lines)])
    head_of_rows(rows, asked)
    return 0
