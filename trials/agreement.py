"""What a query is fed of a log by the agreement of clocks: an independent reading, for the trials that compare with it.

It says from the words of docs/SOURCES.md alone which records and watermarks a query is fed, and in which order: what is left
out as its identifier came before, what waits as it is too far ahead, and what goes on at the end. Lines are read by
trials/source_reading.py.
"""
import re
from dataclasses import dataclass, field, replace
from functools import cached_property

from reference import Query, Stream
from source_reading import LATEST, Source, few_clocks


@dataclass
class Rules:
    """What a log is run by: what its query and its source say."""
    keys: list
    agree: int
    bound: int
    step: int
    forget: int
    room: int
    start: int
    skew: int
    lateness: int
    from_window: bool
    size: int
    period: int
    window: str
    records: int = 100000
    most: int = 99  # of the field
    format: str = "json"
    has_clocks: bool = True
    has_identifiers: bool = False
    gateways: list = field(default_factory=list)  # the clocks that lines name; without any a clock is a key
    named: int | None = None  # how many there may be

    @cached_property
    def query(self):
        late = f"{self.lateness} FROM WINDOW" if self.from_window else self.lateness
        return (f"KEYS {', '.join(self.keys)};\nFIELD n INT 0..{self.most};\n"
                f"START {self.start}; SKEW {self.skew}; LATENESS {late}; RECORDS {self.records};\n"
                f"SELECT COUNT(*), SUM(n)\nWINDOW {self.window}\nEMIT PANES;\n")

    @cached_property
    def source(self):
        places = '[key]\nat = "key"\n[time]\nat = "at"\nform = "seconds"\n' if self.format != "rows" else ""
        clock = (f"[clock]\nagree = {self.agree}\nbound = {self.bound}\nstep = {self.step}\n"
                 f"forget = {self.forget}\nroom = {self.room}\n")
        clock += 'at = "/via/gateway"\n' if self.gateways else ""
        clock += f"clocks = {self.named}\n" if self.named is not None else ""
        return (f'format = "{self.format}"\n{places}' + (clock if self.has_clocks else "")
                + ('[identifier]\nat = "id"\n' if self.has_identifiers else ""))

    @property
    def clocks(self):
        """Those that stamp records."""
        return self.gateways or self.keys

    def is_late(self, time, watermark):
        """Whether a record of this time is late at a watermark."""
        end = time // self.period * self.period + self.size if self.from_window else time
        return end + self.lateness <= watermark if self.from_window else end + self.lateness < watermark

    def behind(self, time):
        """The watermark that a time raises."""
        return max(time - self.bound, 0) // self.step * self.step


@dataclass
class Feeding:
    """The rows that a query is fed, each with the number of its line, or none where it is a watermark."""
    rules: Rules
    rows: list = field(default_factory=list)
    lines: list = field(default_factory=list)
    faults: dict = field(default_factory=dict)  # the words of the lines that say no event
    clocks: dict = field(default_factory=dict)  # when each spoke last, and the time that it told
    stamps: int = 0
    watermark: int = 0
    waiting: list = field(default_factory=list)
    late: list = field(default_factory=list)  # the lines of records that are fed late
    identifiers: dict = field(default_factory=dict)  # of records that came, with their times
    count: int = 0
    doubles: int = 0  # records that were left out
    names: list = field(default_factory=list)  # of the clocks that lines named
    silent: int = 0  # records that had no voice
    told: list = field(default_factory=list)  # what is told on standard error

    def __post_init__(self):
        self.watermark = self.rules.start
        self.source = Source(self.rules.source, self.rules.query)

    def feed(self, row, line):
        self.rows.append(row)
        self.lines.append(line)

    def raise_to(self, mark):
        if mark > self.watermark:
            self.watermark = mark
            self.feed(f"w,{min(mark, LATEST)}", None)

    def go(self, time, line, row):
        if self.rules.is_late(time, self.watermark):
            self.late.append(line)
        self.feed(row, line)

    def agreed(self):
        """The watermark of the time that enough clocks have come to."""
        times = sorted(time for spoke, time in self.clocks.values() if spoke > self.stamps - self.rules.forget)
        return self.rules.behind(times[-self.rules.agree]) if len(times) >= self.rules.agree else 0

    def take(self, text):
        """A line of the log."""
        self.count += 1
        self.take_line(text)
        if self.count == 1000:
            self.few()

    def take_line(self, text):
        said = self.source.read(text.encode())
        if isinstance(said, str):
            self.faults[self.count] = said
            self.feed("unread", self.count)
        elif not self.source.declared.fits(said):
            self.feed(said.row(), self.count)
        else:
            self.take_voiced(said, self.voice_of(said))

    def take_voiced(self, record, voice):
        """A record, by the clock that it tells its time by. One that comes again is left out."""
        if self.is_double(record):
            self.doubles += 1
        elif voice is None or not self.rules.has_clocks:
            self.go(record.time, self.count, record.row())
        else:
            self.stamps += 1
            self.clocks[voice] = (self.stamps, record.time)
            self.stamped(record.time, self.count, record.row())

    def voice_of(self, record):
        """A record's clock: its key, or one that its line names. There is none where it names none, or one more than there may be."""
        if not self.rules.gateways:
            return record.key
        most = 10000 if self.rules.named is None else self.rules.named
        if record.clock is not None and record.clock not in self.names and len(self.names) < most:
            self.names.append(record.clock)
        if record.clock in self.names:
            return record.clock
        self.silent += 1
        return None

    def is_double(self, record):
        """Whether a record's identifier came before, and hasn't been forgotten. It is remembered where it didn't."""
        before = self.identifiers.get(record.identifier) if record.identifier is not None else None
        if before is not None and not self.rules.is_late(before, self.watermark):
            return True
        if record.identifier is not None:
            self.identifiers[record.identifier] = record.time
        return False

    def stamped(self, time, line, row):
        """A record that told the time, with the watermark that is agreed on then."""
        top = max(self.watermark, self.agreed())
        far = top + self.rules.skew
        for its, its_line, its_row in [one for one in self.waiting if one[0] <= far]:
            self.raise_to(min(top, self.rules.behind(its)))
            self.go(its, its_line, its_row)
        self.waiting = [one for one in self.waiting if one[0] > far]
        self.raise_to(top)
        if time <= far:
            self.go(time, line, row)
            return
        self.waiting.append((time, line, row))
        self.waiting.sort(key=lambda one: one[0])  # those of one time stay as they came
        if len(self.waiting) > self.rules.room:
            self.go(*self.waiting.pop())

    def few(self):
        """Tells it where fewer clocks speak than have to agree."""
        if self.rules.has_clocks:
            speak = sum(spoke > self.stamps - self.rules.forget for spoke, _ in self.clocks.values())
            self.told += few_clocks(speak, self.rules.agree).splitlines()

    def end(self):
        if self.doubles:
            self.told.append(f"wsm: left out, since their identifier came before: {self.doubles}")
        if self.silent:
            self.told.append(f"wsm: told no time, since their line names no clock or one more than there may be: {self.silent}")
        if self.waiting:
            self.told.append(f"wsm: waited for the clocks until the log ended: {len(self.waiting)}")
        self.few()
        for one in self.waiting:
            self.go(*one)
        return self


@dataclass
class Filtering(Feeding):
    """The rows that `wsm watermarks` writes of rows, by docs/LOGS.md. The identifier of a record, if it has one, is its fourth cell."""
    odd: int = 0  # lines that are no rows
    admitted: int = 0  # records that the query takes as they go on
    latest: int = -1  # the greatest time of these

    def __post_init__(self):
        super().__post_init__()
        self.source = Source(replace(self.rules, has_identifiers=False).source, self.rules.query)

    def take_line(self, text):
        row, identifier = self.taken_apart(text)
        tag, *cells = row.split(",")
        if tag == "w" and len(cells) == 1 and re.fullmatch("[0-9]{1,18}", cells[0]):
            self.take_watermark(row, int(cells[0]))
            return
        said = self.source.read(row.encode())
        if isinstance(said, str):
            self.odd += row != "" and said != "NoKey"  # an empty key is one that isn't declared
            self.feed(row, self.count)
        elif not self.source.declared.fits(said):
            self.feed(row, self.count)
        elif self.is_double(replace(said, identifier=identifier)):
            self.doubles += 1
        else:
            self.stamps += 1
            self.clocks[said.key] = (self.stamps, said.time)
            self.stamped(said.time, self.count, (row, said.row()))

    def taken_apart(self, text):
        """What goes on of a line, and its identifier."""
        cells = text.split(",")
        if not self.rules.has_identifiers or cells[0] != "r" or len(cells) < 4:
            return text, None
        identifier = cells.pop(3)
        return ",".join(cells), identifier or None

    def take_watermark(self, row, time):
        """A watermark among the rows: what waits and isn't ahead of it goes in front."""
        if time <= LATEST:
            top = max(self.watermark, time)
            for its, its_line, its_rows in [one for one in self.waiting if one[0] <= top]:
                self.raise_to(min(top, self.rules.behind(its)))
                self.go(its, its_line, its_rows)
            self.waiting = [one for one in self.waiting if one[0] > top]
            self.watermark = max(self.watermark, time)
        self.feed(row, self.count)

    def go(self, time, line, rows):
        """A record goes on as its line, or where it waited as the row that says it."""
        is_near = time <= min(self.watermark + self.rules.skew, LATEST)
        if is_near and not self.rules.is_late(time, self.watermark) and self.admitted < self.rules.records:
            self.admitted, self.latest = self.admitted + 1, max(self.latest, time)
        super().go(time, line, rows[0] if line == self.count else rows[1])

    def end(self):
        self.count += 1
        return super().end()

    def text(self, has_last):
        rows = [row for row in self.rows if row != ""]
        return "".join(f"{row}\n" for row in rows + [f"w,{LATEST}"] * (has_last and self.watermark < LATEST))

    def said(self, has_last):
        """What is told on standard error."""
        counts = (("lines that are no rows", self.odd), ("records that are late", len(self.late)))
        told = [f"wsm: {what}: {count}" for what, count in counts if count] + self.told
        if not has_last and self.latest >= self.watermark:
            beyond = f"records go {self.latest - self.watermark + 1} beyond the last watermark, {self.watermark}"
            told.append(f"wsm: windows that are not complete: {beyond}; --last completes all")
        return told


def fed_of(rules, lines):
    """What a query is fed of a log."""
    fed = Feeding(rules)
    for line in lines:
        fed.take(line)
    return fed.end()


def written_for(fed, by_rows):
    """What a run over the log must write, by what one over the rows has written."""
    *lines, end = by_rows.splitlines()
    for number, line in enumerate(lines):
        tag, *cells = line.split(",")
        if tag == "refused":
            at = fed.lines[int(cells[0]) - 1]
            lines[number] = f"refused,{at},{fed.faults.get(at, cells[1])}"
    _, _, admitted, late, refused, panes = end.split(",")
    return [*lines, f"end,{fed.count},{admitted},{late},{refused},{panes}"]


def must_write(rules, lines, fed=None):
    """What a run over a log must write, by trials/reference.py."""
    fed = fed or fed_of(rules, lines)
    return written_for(fed, Stream(Query(rules.query)).text(fed.rows))
