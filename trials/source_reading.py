#!/usr/bin/env python3
"""What the lines of a log say by a source, in plain Python: records, and watermarks in front of them.

usage: source_reading.py SOURCE QUERY [LOG]
       source_reading.py --try

An independent reading to compare the program with: nothing here is shared with its crates, with examples/ or with
trials/reference.py. It writes a row for each line, `r,KEY,TIME` and a cell for each field, or `unread,WORD` with the
word of the first fault. The source is taken to be a good one: what is wrong with a source isn't told here. --try runs
the worked cases at the end.

The rules are the definitions of the crates that read logs, as words, on Python's json, zoneinfo, datetime and tomllib.
CSV is read by the grammar of RFC 4180, and again by Python's csv, which has to agree. Numbers are texts until they are
read, so that no digit is lost.
"""
import csv
import json
import re
import sys
import tomllib
from dataclasses import dataclass
from datetime import datetime, timedelta, timezone
from pathlib import Path
from zoneinfo import ZoneInfo

from query_text import Field

LATEST = 10**16
# The instants that there are: those of a clock up to 26 hours off that shows a year from -9999 to 9999.
FIRST_INSTANT, LAST_INSTANT = -377705023201 * 10**9, 253402207200 * 10**9 + 999999999
DEEPEST = 128
UNITS = {"seconds": 10**9, "milliseconds": 10**6, "microseconds": 10**3}
CELLS = "host ident user time request status bytes referer agent method path protocol".split()
ODD = object()  # what has no text: an array, an object
csv.field_size_limit(2**31 - 1)


class Unread(Exception):
    """A line that says no event; its text is the word of the fault."""


class Number(str):
    """The text of what JSON itself writes as a number."""


class Pairs(list):
    """The members of an object, in their order; a name may come twice."""


# ---- numbers

def whole(digits, negative=False):
    """The number of some digits, where 64 bits hold it."""
    digits = digits.lstrip("0")
    if len(digits) > 19:
        return None
    number = int(digits or "0") * (-1 if negative else 1)
    return number if -(2**63) <= number < 2**63 else None


def decimal_of(text, scale=0, point=".", group=None):
    """The parts of a decimal, of which the last has so many digits behind the point."""
    apart = re.escape(point)
    digits = "[0-9]+" if group is None else rf"(?:[0-9]{{1,3}}(?:{re.escape(group)}[0-9]{{3}})+|[0-9]+)"
    fraction = rf"(?:{apart}([0-9]{{1,{scale}}}))?" if scale else "()"
    read = re.fullmatch(rf"(-?)({digits}){fraction}", text)
    if read is None:
        return None
    behind = read[3] or ""
    return whole((read[2].replace(group, "") if group else read[2]) + behind + "0" * (scale - len(behind)), read[1] == "-")


# ---- times: nanoseconds since 1970

def seconds_of(text):
    """Seconds with at most nine digits of a fraction."""
    read = re.fullmatch(r"(-?)([0-9]+)(?:\.([0-9]{1,9}))?", text)
    seconds = None if read is None else whole(read[2], read[1] == "-")
    if seconds is None:
        return None
    nanos = int((read[3] or "").ljust(9, "0"))
    return seconds * 10**9 + (-nanos if read[1] else nanos)


def days_of(year, month, day):
    """The days from 1970 to a day of the calendar, which comes again each 400 years; or None where there is no such day."""
    turns = (year - 1) // 400
    try:
        return datetime(year - 400 * turns, month, day).toordinal() + 146097 * turns - 719163
    except ValueError:
        return None


def civil(year, month, day, hour=0, minute=0, second=0, nanos=0):
    """What a clock shows, as a count from 1970; the second of a leap is the one before it."""
    days = days_of(year, month, day)
    if days is None or hour > 23 or minute > 59 or second > 60:
        return None
    return (((days * 24 + hour) * 60 + minute) * 60 + min(second, 59)) * 10**9 + nanos


RFC_3339 = re.compile(
    r"(\d{4})-(\d\d)-(\d\d)[Tt ](\d\d):(\d\d):(\d\d)(?:\.(\d+))?(?:[Zz]|([+-])(\d\d):(\d\d))", re.ASCII
)


def rfc_3339(text):
    read = RFC_3339.fullmatch(text)
    if read is None:
        return None
    fraction = read[7] or ""
    shown = civil(*(int(read[part]) for part in range(1, 7)), nanos=int(fraction[:9].ljust(9, "0")))
    if shown is None or len(fraction) > 9:
        return None
    hours, minutes = int(read[9] or 0), int(read[10] or 0)
    if hours > 23 or minutes > 59:
        return None
    ahead = (hours * 60 + minutes) * 60 * 10**9
    instant = shown + ahead if read[8] == "-" else shown - ahead
    return instant if FIRST_INSTANT <= instant <= LAST_INSTANT else None


MONTHS = "january february march april may june july august september october november december".split()
BLANK = r"[ \t\n\f\r]*+"
DIRECTIVES = {
    "Y": rf"(?P<year>[+-]?{BLANK}[0-9]{{1,4}}+)", "y": rf"{BLANK}(?P<short_year>[0-9]{{1,2}}+)",
    "m": rf"{BLANK}(?P<month>[0-9]{{1,2}}+)", "d": rf"{BLANK}(?P<day>[0-9]{{1,2}}+)",
    "H": rf"{BLANK}(?P<hour>[0-9]{{1,2}}+)", "I": rf"{BLANK}(?P<half_hour>[0-9]{{1,2}}+)",
    "M": rf"{BLANK}(?P<minute>[0-9]{{1,2}}+)", "S": rf"{BLANK}(?P<second>[0-9]{{1,2}}+)",
    "b": f"(?P<short_month>(?i:{'|'.join(month[:3] for month in MONTHS)}))", "B": f"(?P<long_month>(?i:{'|'.join(MONTHS)}))",
    "p": "(?P<half>(?i:am|pm))", "f": "(?P<fraction>[0-9]{1,9}+)", "z": "(?P<offset>[+-][0-9]{4}(?:[0-9]{2})?+)",
    "s": rf"(?P<stamp>[+-]?{BLANK}[0-9]{{1,19}}+)", "%": "%",
}
SEVERAL = {"F": "%Y-%m-%d", "T": "%H:%M:%S", "R": "%H:%M", "D": "%m/%d/%y"}
RANGES = {"month": (1, 12), "day": (1, 31), "hour": (0, 23), "half_hour": (1, 12), "minute": (0, 59), "second": (0, 60)}


def pattern_of(pattern):
    """A pattern of strptime as a regular expression. Blanks stand for any, and numbers may have some in front."""
    pattern = re.sub("%([FTRD])", lambda found: SEVERAL[found[1]], pattern)
    parts = re.findall(r"%(.)|([ \t\n\f\r])|(.)", pattern, re.S)
    text = "".join(DIRECTIVES[letter] if letter else BLANK if blank else re.escape(plain) for letter, blank, plain in parts)
    return re.compile(text, re.ASCII | re.S)


def whole_of(text):
    """The number of digits that may have a sign, and blanks behind it."""
    return int(re.sub(r"[ \t\n\f\r+]", "", text))


def offset_of(text):
    """How far ahead of UTC an offset is, in seconds."""
    hours, minutes, seconds = int(text[1:3]), int(text[3:5]), int(text[5:7] or 0)
    ahead = (hours * 60 + minutes) * 60 + seconds
    return None if minutes > 59 or seconds > 59 or hours > 25 else -ahead if text[0] == "-" else ahead


def instants_of(zone, shown):
    """The instants at which the clock of a zone shows this, the earlier first."""
    seconds, nanos = divmod(shown, 10**9)
    turns = 0
    while not -62000000000 < seconds < 253370000000:  # the years that Python knows; the rules of a zone come again
        turn = 1 if seconds < 0 else -1
        seconds, turns = seconds + turn * 146097 * 86400, turns + turn
    naive, found = datetime(1970, 1, 1) + timedelta(seconds=seconds), set()
    for fold in (0, 1):
        instant = naive.replace(tzinfo=zone, fold=fold).astimezone(timezone.utc)
        if instant.astimezone(zone).replace(tzinfo=None, fold=0) == naive:
            count = (instant - datetime(1970, 1, 1, tzinfo=timezone.utc)) // timedelta(seconds=1)
            found.add((count - turns * 146097 * 86400) * 10**9 + nanos)
    return sorted(instant for instant in found if FIRST_INSTANT <= instant <= LAST_INSTANT)


def local_time(pattern, zone, fold, text):
    read = pattern.fullmatch(text)
    if read is None:
        return None
    parts = {name: part for name, part in read.groupdict().items() if part is not None}
    numbers = {name: whole_of(parts[name]) for name in (*RANGES, "year", "short_year", "stamp") if name in parts}
    if any(name in numbers and not low <= numbers[name] <= high for name, (low, high) in RANGES.items()):
        return None
    ahead = offset_of(parts["offset"]) if "offset" in parts else None
    if "offset" in parts and ahead is None:
        return None
    if "stamp" in numbers:
        instant = numbers["stamp"] * 10**9
        return instant if FIRST_INSTANT <= instant <= LAST_INSTANT else None
    if "short_year" in numbers:
        numbers["year"] = numbers["short_year"] + (2000 if numbers["short_year"] < 69 else 1900)
    for name in ("short_month", "long_month"):
        if name in parts:
            numbers["month"] = 1 + [month[:3] for month in MONTHS].index(parts[name].lower()[:3])
    if "half_hour" in numbers:
        numbers["hour"] = numbers["half_hour"]
    if "half" in parts and "hour" in numbers:
        numbers["hour"] = numbers["hour"] % 12 + (12 if parts["half"].lower() == "pm" else 0)
    if not all(name in numbers for name in ("year", "month", "day", "hour", "minute")):
        return None
    nanos = int(parts["fraction"].ljust(9, "0")) if "fraction" in parts else 0
    shown = civil(*(numbers[name] for name in ("year", "month", "day", "hour", "minute")), numbers.get("second", 0), nanos)
    if shown is None:
        return None
    if ahead is not None:
        return shown - ahead * 10**9
    instants = instants_of(zone, shown)
    if len(instants) < 2:
        return instants[0] if instants else None
    return {"refuse": None, "first": instants[0], "second": instants[1]}[fold]


# ---- lines taken apart

def refuse_constant(word):
    raise ValueError(f"{word} is no JSON")


def document(text):
    """The JSON that a text is. A text may not have half of a pair of surrogates, nor nest deeper than 128."""
    try:
        value = json.loads(text, parse_int=Number, parse_float=Number, parse_constant=refuse_constant, object_pairs_hook=Pairs)
        left = [(value, 0)]
        while left:
            part, depth = left.pop()
            if isinstance(part, str):
                part.encode()
            elif isinstance(part, list):
                if depth == DEEPEST:
                    raise Unread("NotJson")
                inner = [piece for member in part for piece in member] if isinstance(part, Pairs) else part
                left += [(piece, depth + 1) for piece in inner]
    except (ValueError, RecursionError):
        raise Unread("NotJson") from None
    return value


def names_of(at):
    """The names of members that lead to a place: those of a JSON pointer, or one."""
    return [name.replace("~1", "/").replace("~0", "~") for name in at[1:].split("/")] if at.startswith("/") else [at]


def at_members(value, names):
    """What stands behind names: nothing, what has no text, or a text."""
    for name in names:
        found = [inner for member, inner in value if member == name] if isinstance(value, Pairs) else []
        value = found[-1] if found else None
    return ODD if isinstance(value, list) else {True: "true", False: "false"}[value] if isinstance(value, bool) else value


QUOTED = r'"((?:[^"\\]|\\.)*)"'
ACCESS = re.compile(rf"([^ ]*) ([^ ]*) ([^ ]*) \[([^\]]*)\] {QUOTED} ([^ ]*) ([^ ]*) {QUOTED} {QUOTED}", re.S)


def access_cells(text):
    """The cells of a line of the combined form, by their names."""
    read = ACCESS.fullmatch(text)
    if read is None:
        raise Unread("NotAccess")
    words = read[5].split(" ")
    cells = [*read.groups(), *(words if len(words) == 3 else ["", "", ""])]
    return {name: None if cell in ("", "-") else cell for name, cell in zip(CELLS, cells)}


def csv_cells(text, separator):
    """The cells of a row by the grammar of RFC 4180, or None."""
    apart = re.escape(separator)
    cell = rf'"((?:[^"\0]|"")*)"|((?:(?!{apart})[^"\0])*)'
    if not re.fullmatch(rf"(?:{cell})(?:{apart}(?:{cell}))*", text):
        by_grammar = None
    else:
        by_grammar = [
            found[2].replace('""', '"') if found[2] is not None else found[3]
            for found in re.finditer(rf"(\A|{apart})(?:{cell})", text)
        ]
    if "\r" not in text and "\0" not in text and by_grammar is not None:
        by_module = next(csv.reader([text], delimiter=separator, strict=True), [""])
        assert (by_module or [""]) == by_grammar, f"Python's csv reads {text!r} in another way"
    return by_grammar


# ---- sources

@dataclass
class Record:
    """A record: its key, or None where the text names none; its time; numbers, truths and names; its identifier, if it has one,
    and the clock that its line names, if it names one."""

    key: str | None
    time: int
    values: list
    identifier: str | None = None
    clock: str | None = None

    def row(self):
        cells = [{True: "true", False: "false"}[value] if isinstance(value, bool) else str(value) for value in self.values]
        return ",".join(["r", self.key or "", str(self.time), *cells])


class Declared:
    """The keys and the fields that a query declares."""

    def __init__(self, query):
        self.keys = re.search(r"KEYS ([^;]*);", query)[1].replace(" ", "").split(",")
        self.fields = []
        for name, type_of in re.findall(r"^FIELD (\w+) ([^;]*);", query, re.M):
            if type_of.startswith("INT"):
                low, high = re.fullmatch(r"INT (-?\d+)\.\.(-?\d+)", type_of).groups()
                self.fields.append(Field(name, "INT", int(low), int(high)))
            elif type_of == "BOOL":
                self.fields.append(Field(name, "BOOL"))
            else:
                self.fields.append(Field(name, "ENUM", names=re.fullmatch(r"ENUM\((.*)\)", type_of)[1].replace(" ", "").split(",")))

    def fits(self, record):
        """Whether a record's key is declared, its numbers lie in their intervals, and its time is one."""
        within = all(field.low <= value <= field.high for field, value in zip(self.fields, record.values) if field.type == "INT")
        return record.key is not None and within and 0 <= record.time <= LATEST


class Source:
    """A source, bound to what a query declares. It reads lines one after the other."""

    def __init__(self, text, query, folder="."):
        said, self.declared = tomllib.loads(text), Declared(query)
        if said["format"] == "rows":  # their places are the numbers of cells
            fields = {declared.name: {"at": 3 + number} for number, declared in enumerate(self.declared.fields)}
            said |= {"key": {"at": 1}, "time": {"at": 2, "form": "seconds"}, "fields": fields}
        self.said = said
        self.format, self.longest = said["format"], said.get("longest", 1048576)
        self.separator = said.get("separator", ",")
        self.key, self.time, self.identifier = said["key"], said["time"], said.get("identifier")
        self.clock = said.get("clock", {}).get("at")  # where a line names a clock, if one is said
        self.fields = [(declared, said.get("fields", {}).get(declared.name, {})) for declared in self.declared.fields]
        self.has_begun = False  # a byte order mark in front of the first line is no part of it
        self.header = None  # the first line of CSV, its number of cells and where its names stand; False where it is none
        if "names" in self.key:
            with open(Path(folder) / self.key["names"], encoding="utf-8-sig", newline="") as file:
                self.names = {}
                for name, key in csv.reader(file, strict=True):
                    self.names.setdefault(name, key)
        form = self.time["form"]
        self.pattern = pattern_of(form) if "%" in form else None
        self.zone = ZoneInfo(self.time["zone"]) if "zone" in self.time else None

    # ---- lines

    def read(self, line):
        """What a line of bytes says, or the word of its first fault."""
        line, is_first, self.has_begun = line.removesuffix(b"\r"), not self.has_begun, True
        try:
            try:
                if len(line) > self.longest:
                    raise Unread("TooLong")
                text = (line.removeprefix(b"\xef\xbb\xbf") if is_first else line).decode()
            except (Unread, UnicodeDecodeError) as why:
                if self.header is None:
                    self.header = False
                raise why if isinstance(why, Unread) else Unread("NotUtf8") from None
            return self.record_of(self.places_of(text))
        except Unread as why:
            return str(why)

    def places_of(self, text):
        """What stands at a place of a line: a function."""
        if self.format == "json":
            value = document(text)
            return lambda at: at_members(value, names_of(at))
        if self.format == "access":
            return access_cells(text).__getitem__
        if self.format == "rows":
            cells = csv_cells(text, ",")
            if cells is None or len(cells) != 3 + len(self.fields) or cells[0] != "r":
                raise Unread("NotRow")
            return lambda at: cells[at] or None
        cells = self.row_of(text)
        return lambda at: cells[self.header[2][at]] or None

    def row_of(self, text):
        if self.header is None:
            cells = csv_cells(text, self.separator)
            asked = [self.key["at"], self.time["at"], *(said.get("at", declared.name) for declared, said in self.fields)]
            asked += [self.identifier["at"]] if self.identifier else []
            asked += [self.clock] if self.clock is not None else []
            self.header = cells is not None and all(name in cells for name in asked) and (
                text, len(cells), {name: cells.index(name) for name in asked}
            )
            raise Unread("Header" if self.header else "BadHeader")
        if self.header is False:
            raise Unread("BadHeader")
        if text == self.header[0]:
            raise Unread("Header")
        cells = csv_cells(text, self.separator)
        if cells is None or len(cells) != self.header[1]:
            raise Unread("NotCsv" if cells is None else "CellCount")
        return cells

    # ---- records

    def record_of(self, at):
        key = self.key_of(self.text_of(at(self.key["at"]), "NoKey", "BadKey"))
        time = self.time_of(self.text_of(at(self.time["at"]), "NoTime", "BadTime"))
        values = [self.value_of(declared, said, at(said.get("at", declared.name))) for declared, said in self.fields]
        identifier = at(self.identifier["at"]) if self.identifier else None
        if identifier is ODD or identifier is not None and not 0 < len(identifier.encode()) < 256:
            raise Unread("BadIdentifier")
        clock = at(self.clock) if self.clock is not None else None
        is_named = isinstance(clock, str) and 0 < len(clock.encode()) < 256
        return Record(key, time, values, identifier, clock if is_named else None)

    @staticmethod
    def text_of(scalar, missing, bad):
        if scalar is None or scalar is ODD:
            raise Unread(missing if scalar is None else bad)
        return scalar

    def key_of(self, text):
        if not 0 < len(text.encode()) < 256 or "\n" in text:
            raise Unread("BadKey")
        if "names" in self.key:
            return self.names.get(text, self.key.get("other"))
        if "prefixes" in self.key:
            fitting = [prefix for prefix in self.key["prefixes"] if text.startswith(prefix)]
            return self.key["prefixes"][max(fitting, key=len)] if fitting else self.key.get("other")
        return str(text) if text in self.declared.keys else None

    def time_of(self, text):
        form = self.time["form"]
        if self.pattern is not None:
            nanos = local_time(self.pattern, self.zone, self.time.get("fold", "refuse"), text)
        elif form == "rfc3339":
            nanos = rfc_3339(text)
        elif form == "fraction":
            nanos = seconds_of(text)
        else:
            count = decimal_of(text)
            nanos = None if count is None else count * UNITS[form]
        time = None if nanos is None else nanos // UNITS[self.time.get("unit", "seconds")]
        if time is None or not -(2**63) <= time < 2**63:
            raise Unread("BadTime")
        return time

    def value_of(self, declared, said, scalar):
        if scalar is None:
            if "default" not in said:
                raise Unread("NoField")
            return said["default"]
        is_decimal = any(key in said for key in ("scale", "point", "group"))
        bad = {"INT": "BadDecimal" if is_decimal else "BadWhole", "BOOL": "BadBool", "ENUM": "BadEnum"}[declared.type]
        text = self.text_of(scalar, bad, bad)
        if declared.type == "INT":
            by_form = {} if isinstance(text, Number) else {"point": said.get("point", "."), "group": said.get("group")}
            value = decimal_of(text, said.get("scale", 0), **by_form)
        elif declared.type == "BOOL":
            value = {said.get("false", "false"): False, said.get("true", "true"): True}.get(text)
        else:
            words = {name: name for name in declared.names}
            value = (said.get("words", {}) | words).get(text)
        if value is None:
            raise Unread(bad)
        return value

    # ---- watermarks

    def clocks(self, start):
        return Clocks(self.said["clock"], start) if "clock" in self.said else None


def few_clocks(speak, agree):
    """The line that is told where fewer clocks speak than have to agree, else none."""
    return f"wsm: no watermark rises: clocks that speak: {speak}, that must agree: {agree}\n" if speak < agree else ""


class Clocks:
    """Each key is a clock, whose time is that of its last record that fits; the watermark goes by what so many agree on."""

    def __init__(self, said, start):
        self.agree, self.bound = said.get("agree", 1), said["bound"]
        self.step, self.forget = said.get("step", 1), said.get("forget", 1000000)
        self.stamps, self.mark = [], start

    def raised_by(self, record):
        """The watermark that a record which fits raises, or None. It stands in front of the record."""
        self.stamps.append((record.key, record.time))
        last_times = sorted(dict(self.stamps[-self.forget:]).values(), reverse=True)
        if len(last_times) < self.agree:
            return None
        mark = max(last_times[self.agree - 1] - self.bound, 0) // self.step * self.step
        if mark <= self.mark:
            return None
        self.mark = mark
        return mark

    def few(self):
        """What is told of how many clocks speak."""
        return few_clocks(len(dict(self.stamps[-self.forget:])), self.agree)


# ---- worked cases, with answers by hand, from the standards, and from what the crates' definitions were computed to

def second(text, form="rfc3339", **more):
    """The time of a text, in seconds."""
    source = {"format": "json", "key": {"at": "k"}, "time": {"at": "t", "form": form, **more}}
    toml = "\n".join(
        f"{name} = {json.dumps(part)}" if isinstance(part, str) else f"[{name}]\n" + "\n".join(f"{key} = {json.dumps(value)}" for key, value in part.items())
        for name, part in source.items()
    )
    said = Source(toml, "KEYS a;").read(json.dumps({"k": "a", "t": text}).encode())
    return said.time if isinstance(said, Record) else said


EUROPEAN = (2, ",", ".")
DECIMALS = [
    (EUROPEAN, {
        "1.234,50": 123450, "-12.345.678,9": -1234567890, "-0,5": -50, "1234567": 123456700, "007,00": 700, "-0": 0, "1,234": None,
        "1,500": None, "12.34": None, "1.2345,00": None, "1234.567": None, "1..234": None, "1,5.0": None, "12,": None, ",5": None,
        "1,2,3": None, "+1": None, "1 ": None, "-": None, "--1": None, "": None, "1.234.567": 123456700, "1\n": None, "\u0661": None,
    }),
    ((2,), {"1e3": None, "-92233720368547758.08": -2**63, "-92233720368547758.09": None, "92233720368547759": None, "1,5": None}),
    ((0,), {"-17": -17, "17.0": None, "17.": None, "9223372036854775807": 2**63 - 1, "9223372036854775808": None, "0" * 5000 + "7": 7}),
]
BERLIN = {"form": "%Y-%m-%d %H:%M", "zone": "Europe/Berlin"}
COMMON = {"form": "%d/%b/%Y:%H:%M:%S %z"}
TWELVE = {"form": "%m/%d/%Y %I:%M %p", "zone": "UTC"}
TIMES = [
    ({}, {
        "1985-04-12T23:20:50.52Z": 482196050, "1996-12-19T16:39:57-08:00": 851042397, "1990-12-31T23:59:60Z": 662687999,
        "1990-12-31T15:59:60-08:00": 662687999, "1937-01-01T12:00:27.87+00:20": -1041337173, "2026-03-11t20:00:00z": 1773259200,
        "2026-03-11 20:00:00-11:30": 1773300600, "2026-03-11T20:00:00-00:00": 1773259200, "0001-01-01T00:00:00Z": -62135596800,
        "9999-12-30T22:00:00Z": 253402207200, "1969-12-31T23:59:59.999999999Z": -1, "2026-02-29T20:00:00Z": "BadTime",
        "2026-03-11T24:00:00Z": "BadTime", "2026-03-11T20:00:61Z": "BadTime", "2026-03-11T20:00:00+02:60": "BadTime",
        "2026-03-11T20:00:00-11": "BadTime", "2026-03-11T20:00:00+0200": "BadTime", "2026-03-11T20:00:00": "BadTime",
        "2026-03-11T20:00:00+24:00": "BadTime", "2026-03-11T20:00Z": "BadTime", "20260311T200000Z": "BadTime", "2026-03-11": "BadTime",
        "2026-03-11T20:00:00Z[Europe/Berlin]": "BadTime", "2026-03-11T20:00:00,5Z": "BadTime", "2026-03-11T20:00:00.Z": "BadTime",
        "2026-03-11  20:00:00Z": "BadTime", "2026-03-11T20:00:00Z ": "BadTime", "0000-03-01T00:00:00Z": -62162035200,
        "2026-03-11T20:00:00+23:59": 1773172860,
    }),
    ({"form": "milliseconds"}, {"1773255600999": 1773255600, "-1": -1, "-1000": -1, "-1001": -2, "1.0": "BadTime", "": "BadTime"}),
    ({"form": "seconds", "unit": "microseconds"}, {"9223372036855": "BadTime", "9223372036854": 9223372036854000000}),
    ({"form": "fraction", "unit": "milliseconds"}, {
        "1773255600.123": 1773255600123, "1773255600.1": 1773255600100, "-0.001": -1, "-0.0011": -2, "1773255600": 1773255600000,
        "1773255600.1234567": 1773255600123, "1773255600.": "BadTime",
    }),
    ({"form": "fraction", "unit": "microseconds"}, {
        "1773255600.999999999": 1773255600999999, "-0.000000001": -1, "-1.000001": -1000001, "1773255600.0000000000": "BadTime", ".5": "BadTime",
        "9223372036854.775807999": 2**63 - 1, "9223372036854.775808": "BadTime", "-9223372036854.775808": -2**63, "-9223372036854.775808001": "BadTime",
    }),
    (BERLIN, {
        "2026-03-11 20:00": 1773255600, "2026-03-29 01:59": 1774745940, "2026-03-29 02:30": "BadTime", "2026-03-29 03:00": 1774746000,
        "2026-07-01 12:00": 1782900000, "2026-10-25 01:59": 1792886340, "2026-10-25 02:30": "BadTime", "2026-10-25 03:00": 1792893600,
        "2026-3-1120:00": 1773255600, "2026-03-11 20:00 ": "BadTime",
    }),
    ({**BERLIN, "fold": "first"}, {"2026-10-25 02:30": 1792888200, "2026-03-29 02:30": "BadTime"}),
    ({**BERLIN, "fold": "second"}, {"2026-10-25 02:30": 1792891800}),
    (COMMON, {"11/Mar/2026:20:00:00 -1130": 1773300600, "11/mar/2026:20:00:00 +0000": 1773259200, "11/Mar/2026:20:00:00 -11": "BadTime"}),
    (TWELVE, {"03/11/2026 08:00 PM": 1773259200, "03/11/2026 12:00 AM": 1773187200, "03/11/2026 13:00 AM": "BadTime"}),
    ({"form": "%Y-%m-%d", "zone": "UTC"}, {"2026-03-11": "BadTime"}),
    ({"form": "%s"}, {"1773255600": 1773255600}),
]
QUERY = "KEYS a, b;\nFIELD n INT 0..9;\nFIELD yes BOOL;\nFIELD color ENUM(red, blue);\n"
JSON_SOURCE = """format = "json"
[key]
at = "/k/0"
[time]
at = "t"
form = "seconds"
[fields.yes]
default = false
[fields.color]
words = { rot = "red" }
[identifier]
at = "/id/nr"
"""
JSON_LINES = {
    '{"k":{"0":"a"},"t":5,"n":7,"yes":true,"color":"rot"}': "r,a,5,7,true,red", '{"k":{"0":"c"},"t":"5","n":"7","color":"blue"}': "r,,5,7,false,blue",
    '{"k":["a"],"t":5,"n":7,"color":"red"}': "NoKey", '{"k":{"0":""},"t":5}': "BadKey", '{"k":{"0":["a"]},"t":5}': "BadKey",
    '{"k":{"0":"a"},"t":null}': "NoTime", '{"k":{"0":"a"},"t":5.0}': "BadTime", '{"k":{"0":"a"},"t":-0}': "NoField",
    '{"k":{"0":"a"},"t":5,"n":1e0}': "BadWhole", '{"k":{"0":"a"},"t":5,"n":{}}': "BadWhole", '{"k":{"0":"a"},"t":5,"n":1,"yes":1}': "BadBool",
    '{"k":{"0":"a"},"t":5,"n":1,"color":1}': "BadEnum", '{"k":{"0":"b"},"k":{"0":"a"},"t":4,"t":5,"n":1,"color":"red"}': "r,a,5,1,false,red",
    "": "NotJson", "[]": "NoKey", '"a"': "NoKey", "NaN": "NotJson", '\ufeff{}': "NotJson", '{"k":"\\ud800"}': "NotJson",
    '{"k":"\\ud800","k":1}': "NotJson", "[" * 128 + "]" * 128: "NoKey", "[" * 129 + "]" * 129: "NotJson", '{"k":{"0":"a\\nb"},"t":5}': "BadKey",
    '{"k":{"0":"' + "a" * 256 + '"},"t":5}': "BadKey", '{"k":{"0":"' + "\u00e9" * 127 + '"},"t":5}': "NoField", '{"k":{"0":"a"},"t":5}\r': "NoField",
    '{"k":{"0":"a"},"t":5,"n":1,"color":"red","id":{"nr":""}}': "BadIdentifier", '{"k":{"0":"a"},"t":5,"n":1,"color":"red","id":{"nr":[]}}': "BadIdentifier",
    '{"k":{"0":"a"},"t":5,"n":1,"color":"red","id":{"nr":"' + "x" * 255 + '"}}': "r,a,5,1,false,red",
    '{"k":{"0":"a"},"t":5,"n":1,"color":"red","id":{"nr":"' + "x" * 256 + '"}}': "BadIdentifier",
    '{"k":{"0":"a"},"t":5,"n":1,"color":"red","id":{"nr":1.0}}': "r,a,5,1,false,red",
    '{"k":{"0":"a"},"t":5,"n":1,"color":"red","id":null}': "r,a,5,1,false,red", '{"k":{"0":"a"},"t":5,"id":{"nr":[]}}': "NoField",
    '{"k":{"0":"a"},"t":01}': "NotJson", '{"k":{"0":"a"},"t":"01","n":"-0","color":"red"}': "r,a,1,0,false,red",
}
CSV_SOURCE = """format = "csv"
separator = ";"
[key]
at = "k"
[time]
at = "t"
form = "seconds"
[fields.n]
scale = 1
point = ","
group = "."
[fields.yes]
true = "ja"
false = "nein"
[fields.color]
default = "blue"
"""
CSV_LINES = [
    ("\ufeffk;yes;n;t;color;more", "Header"), ("a;ja;1.234,5;5;red;x", "r,a,5,12345,true,red"), ('"a";"nein";"0";"5";"";""', "r,a,5,0,false,blue"),
    ("k;yes;n;t;color;more\r", "Header"), ("a;ja;1;5", "CellCount"), ('a;ja;1;5;red;"x', "NotCsv"), ('a;ja;1;5;red;"x"y', "NotCsv"),
    ('a;ja;1;5;red;x"y"', "NotCsv"), ('a;ja;1;5;red;"x;""y"""', "r,a,5,10,true,red"), (";ja;1;5;red;x", "NoKey"), ("a;ja;1;;red;x", "NoTime"),
    ("a;ja;;5;red;x", "NoField"), ("a;Ja;1;5;red;x", "BadBool"), ("a;ja;1,55;5;red;x", "BadDecimal"), ("a;ja;1;5;green;x", "BadEnum"),
    ("a;ja;1;5;red;x\0", "NotCsv"), ("", "CellCount"), ("a;ja;1;5;red;x\ry", "r,a,5,10,true,red"),
]
ACCESS_SOURCE = """format = "access"
[key]
at = "path"
prefixes = { "/" = "b", "/api/" = "a" }
[time]
at = "time"
form = "%d/%b/%Y:%H:%M:%S %z"
[fields.n]
at = "bytes"
default = 0
[fields.yes]
at = "user"
true = "me"
false = "you"
default = true
[fields.color]
at = "method"
words = { GET = "red", POST = "blue" }
"""
ACCESS_LINES = {
    '::1 - me [11/Mar/2026:20:00:00 -1130] "GET /api/x HTTP/1.1" 200 5 "-" "a \\"b\\" c"': "r,a,1773300600,5,true,red",
    '::1 - - [11/Mar/2026:20:00:00 +0000] "POST /x HTTP/1.1" 200 - "-" "-"': "r,b,1773259200,0,true,blue",
    '::1 - - [11/Mar/2026:20:00:00 +0000] "GET /x" 200 - "-" "-"': "NoKey", '::1 - - [-] "GET /x HTTP/1.1" 200 - "-" "-"': "NoTime",
    '::1 - - [11/Mar/2026:20:00:00 +0000] "GET x HTTP/1.1" 200 - "-" "-"': "r,,1773259200,0,true,red", '::1 - - [] "\\" " 1 1 "" ""': "NoKey",
    '::1 - - [11/Mar/2026:20:00:00 +0000] "GET /x HTTP/1.1" 200 - "-" "-" ': "NotAccess",
    '::1 - - [11/Mar/2026:20:00:00 +0000] "GET /x HTTP/1.1" 200 - "-"': "NotAccess",
    '::1 - - [11/Mar/2026:20:00:00 +0000] "PUT /x HTTP/1.1" 200 - "-" "-"': "BadEnum",
    '::1 - - [11/Mar/2026:20:00:00] "GET /x HTTP/1.1" 200 - "-" "-"': "BadTime",
}
ROWS_LINES = [
    ("r,a,5,7,true,red", "r,a,5,7,true,red"), ('"r","a","5","7","true","red"', "r,a,5,7,true,red"), ("r,c,-5,7,true,red", "r,,-5,7,true,red"),
    ("w,5", "NotRow"), ("R,a,5,7,true,red", "NotRow"), ("r,a,5,7,true", "NotRow"), ("r,a,5,7,true,red,", "NotRow"), ('r,a,5,7,true,"red', "NotRow"),
    ("", "NotRow"), ("r,,5,7,true,red", "NoKey"), ("r,a,,7,true,red", "NoTime"), ("r,a,5.0,7,true,red", "BadTime"), ("r,a,5,,true,red", "NoField"),
    ("r,a,5,7.0,true,red", "BadWhole"), ("r,a,5,7,TRUE,red", "BadBool"), ("r,a,5,7,true,rot", "BadEnum"),
]
# A rule, stamps of clocks, and the watermarks that they raise.
MARKS = [
    ({"agree": 1, "bound": 20, "step": 10}, [(1, 100), (2, 90), (3, 95), (3, 31536095), (1, 130), (2, 140)], [80, None, None, 31536070, None, None]),
    ({"agree": 2, "bound": 20, "step": 10}, [(1, 100), (2, 90), (3, 95), (3, 31536095), (1, 130), (2, 140)], [None, 70, None, 80, 110, 120]),
    ({"agree": 2, "bound": 20, "step": 10}, [(1, 100), (2, 90), (2, 99)], [None, 70, None]),
    ({"agree": 2, "bound": 20, "step": 10}, [(1, 31536100), (2, 31536120), (1, 110), (2, 125)], [None, 31536080, None, None]),
    ({"agree": 2, "bound": 0, "forget": 5}, [(1, 31536100), (2, 100), (3, 105), (2, 110), (3, 115), (4, 31536120)], [None, 100, 105, 110, 115, None]),
    ({"bound": 20, "step": 10}, [(1, 100), (2, 150), (2, 90)], [80, 130, None]),
]


def try_cases():
    said = []
    for form, cases in DECIMALS:
        said += [(text, decimal_of(text, *form), number) for text, number in cases.items()]
    for form, cases in TIMES:
        said += [(text, second(text, **form), time) for text, time in cases.items()]
    for toml, lines in ((JSON_SOURCE, JSON_LINES.items()), (CSV_SOURCE, CSV_LINES), (ACCESS_SOURCE, ACCESS_LINES.items()), ('format = "rows"', ROWS_LINES)):
        source = Source(toml, QUERY)
        for line, want in lines:
            got = source.read(line.encode())
            said.append((line, got.row() if isinstance(got, Record) else got, want))
    for rule, stamps, marks in MARKS:
        clocks = Clocks(rule, 0)
        said.append((rule, [clocks.raised_by(Record(key, time, [])) for key, time in stamps], marks))
    for text, got, want in said:
        if got != want:
            print(f"differs: {text!r}: {got!r}, and not {want!r}")
    print(f"{len(said)} cases, {sum(got != want for _, got, want in said)} faults")
    return any(got != want for _, got, want in said)


def lines_of(log):
    """The lines of bytes: a line feed ends each, and the last may have none where it isn't empty."""
    lines = log.split(b"\n")
    return lines[:-1] if lines[-1] == b"" else lines


def main(words):
    if words == ["--try"]:
        sys.exit(try_cases())
    source = Source(Path(words[0]).read_text(), Path(words[1]).read_text(), Path(words[0]).parent)
    log = Path(words[2]).read_bytes() if len(words) > 2 else sys.stdin.buffer.read()
    for line in lines_of(log):
        said = source.read(line)
        print(said.row() if isinstance(said, Record) else f"unread,{said}")


if __name__ == "__main__":
    main(sys.argv[1:])
