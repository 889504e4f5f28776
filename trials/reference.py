#!/usr/bin/env python3
"""What a query means, in plain Python: the rows that it writes for rows that it reads.

usage: reference.py [--keys KEYS [--new-keys]] QUERY [ROWS]
       reference.py --explain QUERY
       reference.py --bytes VERSION QUERY OUT

An independent computation to compare the program with: nothing here is shared with its crates. Each
turn is computed anew from all rows so far, as the definitions say it, so this is for short inputs
whose rows have no quotes. A query that is refused or rejected is told as `wsm run` tells it.
A Stream may have any number of names in the place of the query's keys, and take new ones from its records.

--explain writes the instructions of the query's program and what the verifier says of it, as
`wsm explain` does. --bytes writes the program's bytes: of version 2 as `wsm compile` does, of version 1
those of the same query without the instruction TEST, which that version doesn't have.
"""
import re
import sys
from collections import Counter
from functools import cached_property

sys.dont_write_bytecode = True
sys.setrecursionlimit(100_000)

from query_text import LATEST, Query, Refused, number_of, value_of
from query_program import Program

RULES = (
    "StackUnderflow StackOverflow Type BadJump Join Unreachable NoReturn NotHere FoldTwice FoldMissing MayOverflow "
    "MayDivideByZero AccumulatorRange BudgetRecord BudgetPane BudgetHeld"
).split()


# ---- rows in

def event_of(query, cells):
    """A record as its key, time and values, a watermark as its source and time, or the word of a refusal."""
    is_record = cells[0] == "r"
    if not is_record and cells[0] != "w":
        return "BadTag"
    if len(cells) != (3 + len(query.fields) if is_record else 3 if query.sources else 2):
        return "CellCount"
    time = number_of(cells[2] if is_record else cells[-1])
    if time is None:
        return "BadNumber"
    if not is_record:
        names = query.sources
        return "w", (names.index(cells[1]) if cells[1] in names else None) if names else 0, time
    values = []
    for field, cell in zip(query.fields, cells[3:]):
        value = value_of(field, cell)
        if value is None:
            return "BadNumber" if field.type == "INT" else "BadName"
        values.append(value)
    return "r", query.keys.index(cells[1]) if cells[1] in query.keys else None, time, values


def is_key_name(name):
    """Whether a text may be a key in a file of names: 1 to 255 bytes without a line feed."""
    return 1 <= len(name) <= 255 and "\n" not in name


def cell_of(name):
    """A name as a row has it: in quotes where it has a comma, a quote or a carriage return."""
    return '"' + name.replace('"', '""') + '"' if re.search('[,"\r]', name) else name


# ---- windows

def grid(query, time):
    """The windows of a time, fixed or sliding, by rising start."""
    last = time // query.period
    starts = [number * query.period for number in range(last - query.size // query.period - 1, last + 1)]
    return [(start, start + query.size) for start in starts if start <= time < start + query.size]


def sessions(gap, times):
    """The classes of the chains of links, by rising start."""
    found = []
    for time in sorted(times):
        if found and time < found[-1][1]:
            found[-1] = (found[-1][0], time + gap)
        else:
            found.append((time, time + gap))
    return found


# ---- the stream

class Record:
    """A selected record; `mark` is the watermark before its turn."""

    def __init__(self, turn, mark, key, time, values):
        self.turn, self.mark, self.key, self.time, self.values = turn, mark, key, time, values


class Firing:
    """A pane that fired. Its contents are the turns of their records; its row is None where HAVING was false."""

    def __init__(self, kind, place, contents, row):
        self.kind, self.place, self.row = kind, place, row
        self.contents = frozenset(record.turn for record in contents)


class Stream:
    """A run. A place is a window's end and start and the number of a key, so that places come in the order of rows.

    Where `most` is a number, a name that comes in a record is a key from then on, as long as there are fewer.
    """

    def __init__(self, query, most=None):
        self.query, self.most = query, most
        self.marks = [query.start] * max(1, len(query.sources))
        self.records, self.firings, self.lines = [], [], []
        self.relation = Counter()
        self.admitted = self.late = self.refused = self.turn = 0
        self.where = query.where and query.meaning(query.where)

    @cached_property
    def columns(self):
        return [self.query.meaning(column) for column in self.query.columns]

    @cached_property
    def types(self):
        return [self.query.type_of_column(number) for number in range(len(self.query.columns))]

    @cached_property
    def having(self):
        return self.query.having and self.query.meaning(self.query.having)

    def mark(self):
        return min(self.marks)

    def write(self, *cells):
        self.lines.append(",".join(map(str, cells)))

    def cells(self, row):
        return [self.query.text_of(kind, value) for kind, value in zip(self.types, row)]

    def write_pane(self, *tags, place, row):
        end, start, key = place
        self.write(*tags, cell_of(self.query.keys[key]), start, end, *self.cells(row))

    # ---- panes, and what fires

    def windows(self, record, times):
        """The windows that a record stands in, where its key has these times."""
        query = self.query
        if query.shape == "SESSION":
            return [window for window in sessions(query.size, times) if window[0] <= record.time < window[1]]
        windows = grid(query, record.time)
        if query.from_window:
            windows = [window for window in windows if window[1] + query.lateness > record.mark]
        return windows

    def panes(self, mark):
        """The contents of the windows that are live at a mark, by place."""
        found = {}
        for key in sorted({record.key for record in self.records}):
            mine = [record for record in self.records if record.key == key]
            times = [record.time for record in mine]
            for record in mine:
                for start, end in self.windows(record, times):
                    if end + self.query.lateness > mark:
                        found.setdefault((end, start, key), []).append(record)
        return sorted(found.items())

    def is_of(self, firing, place):
        """Whether a firing is of the place's key and, where windows are fixed, of its window."""
        return firing.place[2] == place[2] and (self.query.shape == "SESSION" or firing.place == place)

    def unshown(self, place, contents):
        shown = {turn for firing in self.firings if self.is_of(firing, place) for turn in firing.contents}
        return [record for record in contents if record.turn not in shown]

    def firing(self, kind, place, contents, unshown):
        values = [record.values for record in (unshown if self.query.mode == "DISCARDING" else contents)]
        key = place[2]
        is_written = self.having is None or self.having(key, None, values)
        return Firing(kind, place, contents, [column(key, None, values) for column in self.columns] if is_written else None)

    def fire_by_record(self, mark):
        query, fired = self.query, []
        for place, contents in self.panes(mark):
            if all(record.turn != self.turn for record in contents):
                continue
            unshown = self.unshown(place, contents)
            kind, count = ("early", query.early) if mark < place[0] else ("late", query.late)
            if count is not None and len(unshown) >= count:
                fired.append(self.firing(kind, place, contents, unshown))
        return fired

    def fire_by_rise(self, old, new):
        query, fired = self.query, []
        for place, contents in self.panes(old):
            unshown, end = self.unshown(place, contents), place[0]
            if old < end <= new and (unshown if query.mode == "DISCARDING" else contents):
                fired.append(self.firing("on_time", place, contents, unshown))
            elif old < end + query.lateness <= new and unshown:
                fired.append(self.firing("final", place, contents, unshown))
        return fired

    def write_turn(self, fired, before):
        """Keeps what fired; writes what is withdrawn of what stood before, and what fired."""
        self.firings += fired
        if self.query.form != "PANES":
            return
        if self.query.mode == "RETRACTING":
            lasting = self.standing(self.panes(self.mark()))
            gone = [firing for firing in before if firing not in lasting and firing.row is not None]
            for firing in sorted(gone, key=lambda firing: firing.place):
                self.write_pane("retract", place=firing.place, row=firing.row)
        for firing in fired:
            if firing.row is not None:
                self.write_pane("pane", firing.kind, place=firing.place, row=firing.row)

    # ---- what stands, and the relation of it

    def standing(self, panes):
        """The firing that stands for each of these panes that has one."""
        found = []
        for place, contents in panes:
            mine = {record.turn for record in contents}
            those = [firing for firing in self.firings if self.is_of(firing, place) and firing.contents <= mine]
            greatest = [firing for firing in those if all(other.contents <= firing.contents for other in those)]
            found += greatest[-1:]
        return found

    def write_relation(self, old, new):
        query = self.query
        now = Counter(tuple(firing.row) for firing in self.standing(self.panes(old)) if firing.row is not None)
        shown = {"PANES": Counter(), "ISTREAM": now - self.relation, "DSTREAM": self.relation - now, "RSTREAM": now}[query.form]
        for row in sorted(shown.elements()):
            self.write(query.form.lower(), new, *self.cells(row))
        self.relation = now

    # ---- turns

    def verdict(self, event):
        query = self.query
        if event[0] == "w":
            _, source, time = event
            if source is None:
                return "UnknownSource"
            return "TimeRange" if not 0 <= time <= LATEST else "NotRising" if time <= self.marks[source] else None
        _, key, time, values = event
        if key is None:
            return "UnknownKey"
        if any(field.type == "INT" and not field.low <= value <= field.high for field, value in zip(query.fields, values)):
            return "FieldRange"
        if not 0 <= time <= LATEST:
            return "TimeRange"
        if time > self.mark() + query.skew:
            return "TooFarAhead"
        if query.from_window:
            is_late = all(end + query.lateness <= self.mark() for _, end in grid(query, time))
        else:
            is_late = time + query.lateness < self.mark()
        return "Late" if is_late else "RecordLimit" if self.admitted == query.records else None

    def learns(self, name):
        """Whether the name of a record is a key from now on."""
        return self.most is not None and len(self.query.keys) < self.most and is_key_name(name)

    def take(self, cells):
        self.turn += 1
        event = event_of(self.query, cells)
        if event[0] == "r" and event[1] is None and self.learns(cells[1]):
            self.query.keys.append(cells[1])
            event = event_of(self.query, cells)
        why = event if isinstance(event, str) else self.verdict(event)
        if why == "Late":
            self.late += 1
        elif why:
            self.refused += 1
            self.write("refused", self.turn, why)
        elif event[0] == "w":
            self.take_watermark(*event[1:])
        else:
            self.take_record(*event[1:])

    def take_record(self, key, time, values):
        self.admitted += 1
        if self.where is not None and not self.where(key, values, None):
            return
        mark = self.mark()
        before = self.standing(self.panes(mark))
        self.records.append(Record(self.turn, mark, key, time, values))
        self.write_turn(self.fire_by_record(mark), before)

    def take_watermark(self, source, time):
        old = self.mark()
        new = min(time if number == source else mark for number, mark in enumerate(self.marks))
        if new > old:
            before = self.standing(self.panes(old))
            self.write_turn(self.fire_by_rise(old, new), before)
            self.write_relation(old, new)
        self.marks[source] = time

    def text(self, rows):
        for row in rows:
            if row:
                self.take(row.split(","))
        self.write("end", self.turn, self.admitted, self.late, self.refused, len(self.firings))
        return "".join(f"{line}\n" for line in self.lines)


# ---- the commands

def rejection(verdict):
    """How a run tells a rejection."""
    _, part, place, name = verdict.split(",")
    return f"V{RULES.index(name) + 1} {name} in {part} at {place}"


def run(query_text, rows, names=None, most=None):
    """The status of a run, what it tells on standard error, and what it writes. With names the text has no KEYS clause."""
    try:
        query = Query(query_text if names is None else f"KEYS p0;\n{query_text}")
        verdict = Program(query).verdict()
    except Refused as why:
        return 3, f"wsm: {why}\n", ""
    if verdict.startswith("rejected"):
        return 4, f"wsm: {rejection(verdict)}\n", ""
    query.keys = names or query.keys
    return 0, "", Stream(query, most).text(rows)


def read(name):
    with open(name, encoding="latin-1", newline="") as file:
        return file.read()


def main(words):
    if words[0] == "--explain":
        program = Program(Query(read(words[1])))
        print(program.listing() + program.verdict())
    elif words[0] == "--bytes":
        version = int(words[1])
        with open(words[3], "wb") as file:
            file.write(Program(Query(read(words[2])), has_tests=version == 2).bytes(version))
    else:
        names, *words = [read(words[1]).removesuffix("\n").split("\n"), *words[2:]] if words[0] == "--keys" else [None, *words]
        most, *words = [10**9, *words[1:]] if words[0] == "--new-keys" else [None, *words]
        rows = read(words[1]) if len(words) > 1 else sys.stdin.buffer.read().decode("latin-1")
        status, told, written = run(read(words[0]), re.split(r"[\r\n]+", rows), names, most)
        sys.stdout.write(written)
        sys.stderr.write(told)
        sys.exit(status)


if __name__ == "__main__":
    main(sys.argv[1:])
