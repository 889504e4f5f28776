"""Pictures of runs.

A picture shows one key: event time across, the rows upwards in the order of their arrival, the watermark as a line
and the marks of sources as thin ones, a circle for each record, a box for each pane with its kind and its columns,
and struck columns for each pane that is withdrawn. It is drawn from what the program writes: behind each row stands one
that is refused, and what is written between two such refusals belongs to the row between them. Which records WHERE
takes is told by a query that fires with each of them.
"""
from __future__ import annotations

import math
import re
import subprocess
from datetime import datetime, timezone, tzinfo
from html import escape
from itertools import accumulate, groupby
from typing import Any, Dict, Iterator, List, NamedTuple, Optional, Sequence, Set, Tuple, Union

from .asking import Query, query_of, selecting, written
from .telling import Ended

STEP = 36  # points for a row, at most
ROW_TEXT = 13  # and for its text
LEFT, ABOVE, BELOW, RIGHT = 126, 34, 58, 20
TITLE_STEP = 17
WIDTH = 0.62  # of a letter, at most about, in its height
BOLD = 1.1  # times that where it is bold
YEAR = 365 * 86400
COLORS = {"early": "#b8860b", "on_time": "#1f6fb2", "late": "#c2410c", "final": "#2e7d32"}
WATERMARK, INK, GREY = "#b3003c", "#222222", "#777777"
MARKS = ["#7a5195", "#008080", "#8a6d3b", "#555555"]  # of the sources
WIDEST = HIGHEST = 3600  # points
LONGEST_TEXT = 60  # letters of a row
SPACES = [step * power for power in (10**n for n in range(16)) for step in (1, 2, 5)]  # between two times at the foot
CLOCK_SPACES = [1, 2, 5, 10, 15, 30, 60, 120, 300, 600, 900, 1800, 3600, 7200, 21600, 43200, 86400]

Number = Union[int, float]
Corner = Tuple[float, int]  # a row and a time
Place = Tuple[float, float, str]  # the left end, the base line, and what of a label is there
Piece = Tuple[str, Dict[str, Union[str, Number]]]  # a text with the attributes of its own


# ---- what happened

class Record(NamedTuple):
    row: int
    time: int
    text: str
    fate: str  # "admitted", "late" or the word of its refusal
    mark: int  # the watermark before its row
    is_selected: bool


class Pane(NamedTuple):
    row: int
    kind: str  # "early", "on_time", "late", "final", or "retract" for one that is withdrawn
    start: int
    end: int
    text: str


class History(NamedTuple):
    watermark: List[Corner]  # its corners
    marks: Dict[str, List[Corner]]  # the corners of each source's mark
    rows: Dict[int, str]  # the rows that are shown, by their numbers
    records: List[Record]
    panes: List[Pane]
    withdrawn: List[Pane]
    refusals: Dict[int, str]  # the words of rows that are no records, by their numbers


def lines_of(program: str, path: str, rows: Sequence[str]) -> Tuple[List[str], int]:
    """The lines that a run writes, without the end row, and how many records it counted as late."""
    ran = subprocess.run([program, "run", path], input="".join(f"{row}\n" for row in rows), capture_output=True, text=True)
    if ran.returncode:
        raise Ended(ran.stderr.strip(), ran.returncode)
    *lines, end = ran.stdout.splitlines()
    return lines, int(end.split(",")[3])


class Run:
    """Runs of a program over rows."""

    def __init__(self, program: str, query: Query, path: str, rows: Sequence[str]) -> None:
        self.program, self.query, self.path, self.rows = program, query, path, rows

    def turns_of(self, path: str) -> List[List[str]]:
        """For each row the lines of its turn, which the refusal of a row behind it ends."""
        lines, _ = lines_of(self.program, path, [row for shown in self.rows for row in (shown, "?")])
        ends = [lines.index(f"refused,{2 * number},BadTag") for number in range(1, len(self.rows) + 1)]
        return [lines[begin + 1:end] for begin, end in zip([-1, *ends], ends)]

    def is_late(self, number: int) -> bool:
        """Whether the row of this number was counted as late."""
        late, before = (lines_of(self.program, self.path, self.rows[:end])[1] for end in (number, number - 1))
        return late > before

    def selected(self) -> Set[int]:
        """The numbers of the rows whose records WHERE takes."""
        query = self.query
        window = f"{query.shape} {query.size}" + (f" EVERY {query.period}" if query.shape == "SLIDING" else "")
        with written(selecting(query, window, "")) as file:
            turns = self.turns_of(file.name)
        return {number for number, lines in enumerate(turns, 1) if any(line.startswith(("pane,early,", "pane,late,")) for line in lines)}


def history_of(run: Run, key: str) -> History:
    query, selected = run.query, run.selected()
    names = query.sources or [""]
    marks = dict.fromkeys(names, query.start)
    history = History([(0, query.start)], {name: [(0, query.start)] for name in names}, {}, [], [], [], {})
    for number, (row, lines) in enumerate(zip(run.rows, run.turns_of(run.path)), 1):
        cells, mark = row.split(","), min(marks.values())
        fate = take_lines(history, number, lines, key)
        is_record = cells[0] == "r" and len(cells) > 2 and re.fullmatch("[0-9]{1,17}", cells[2])
        if is_record and cells[1] != key:
            continue
        history.rows[number] = row
        if is_record:
            if fate == "admitted" and int(cells[2]) < mark and run.is_late(number):
                fate = "late"
            record = Record(number, int(cells[2]), ",".join(cells[3:]), fate, mark, fate != "admitted" or number in selected)
            history.records.append(record)
        elif fate != "admitted":
            history.refusals[number] = fate
        else:
            source = cells[1] if query.sources else ""
            step(history.marks[source], number, int(cells[-1]))
            marks[source] = int(cells[-1])
            step(history.watermark, number, min(marks.values()))
    for corners in (history.watermark, *history.marks.values()):
        corners.append((len(run.rows) + 0.7, corners[-1][1]))
    return history


def take_lines(history: History, number: int, lines: Sequence[str], key: str) -> str:
    """Takes the panes of a row's turn, and answers what became of the row."""
    fate = "admitted"
    for tag, *parts in (line.split(",") for line in lines):
        if tag == "refused":
            fate = parts[1]
            continue
        kind = parts.pop(0) if tag == "pane" else tag
        if parts[0] == key:
            kept = history.panes if tag == "pane" else history.withdrawn
            kept.append(Pane(number, kind, int(parts[1]), int(parts[2]), ",".join(parts[3:])))
    return fate


def step(corners: List[Corner], row: int, time: int) -> None:
    """Goes up to a row, and there to a time."""
    corners += [(row, corners[-1][1]), (row, time)]


def lines_of_rows(history: History, most: int) -> Dict[int, int]:
    """The line of each row. Where there are more rows than lines, those that stand together and in which nothing came out
    share one, the longest runs first."""
    panes = {pane.row for pane in history.panes + history.withdrawn}
    loud = panes | history.refusals.keys() | {record.row for record in history.records if record.fate != "admitted"}
    quiet = [list(run) for is_quiet, run in groupby(history.rows, lambda row: row not in loud) if is_quiet]
    folded: Set[int] = set()
    for run in sorted(quiet, key=len, reverse=True):
        if len(history.rows) - len(folded) > most:
            folded.update(run[1:])
    return dict(zip(history.rows, accumulate(row not in folded for row in history.rows)))


# ---- how wide it is

class Frame(NamedTuple):
    first: int  # the event time at the left edge
    last: int  # and at the right edge
    scale: float  # points for a unit of time
    space: int  # between two times at the foot
    is_clock: bool  # whether times are seconds, and are shown as hours and minutes
    zone: tzinfo = timezone.utc  # of these

    def local(self, time: int) -> int:
        """What a clock of the zone shows, as seconds."""
        ahead = datetime.fromtimestamp(time, self.zone).utcoffset()
        return time + int(ahead.total_seconds() if ahead else 0)

    def text_of(self, time: int) -> str:
        if not self.is_clock:
            return str(time)
        time = self.local(time)
        seconds = f":{time % 60:02}" if self.space < 60 else ""
        return f"{time // 3600 % 24}:{time // 60 % 60:02}{seconds}"

    def day_of(self, time: int) -> Optional[str]:
        """The day of a time on a clock: a date where times are since 1970, else its number where there are several."""
        if not self.is_clock or self.last < YEAR and self.first // 86400 == self.last // 86400:
            return None
        if time < YEAR:
            return f"day {time // 86400}"
        return datetime.fromtimestamp(time, self.zone).date().isoformat()


def frame_of(history: History, is_clock: bool, zone: tzinfo) -> Frame:
    """A frame in which the labels of the panes of one row have room beside one another."""
    times = [record.time for record in history.records if record.fate in ("admitted", "late")]
    for pane in history.panes + history.withdrawn:
        times += [pane.start, pane.end]
    if not times:
        raise Ended("no record of this key was taken, and no pane of it fired")
    first, last = min(times), max(times)
    margin = max(1, (last - first) // 20)
    first, last = max(0, first - margin), last + margin
    scale = 760 / (last - first)
    for row in {pane.row for pane in history.panes}:
        panes = sorted((pane.start, pane.end, len(pane.kind) + len(pane.text)) for pane in history.panes if pane.row == row)
        starts = [start for start, _, _ in panes[1:]] + [panes[-1][1]]
        for (start, _, length), following in zip(panes, starts):
            if following > start:
                scale = max(scale, (7 * length + 14) / (following - start))
    scale = min(scale, WIDEST / (last - first))
    widest = 44 if is_clock else 14 + 6 * len(str(last))
    space = next((space for space in (CLOCK_SPACES if is_clock else SPACES) if space * scale >= widest), last - first)
    frame = Frame(first, last, scale, space, is_clock, zone)
    return frame._replace(first=first - (frame.local(first) if is_clock else first) % space)


# ---- labels

class Labels:
    """The places that are taken: each label has the first of its places that is free, and within the picture."""

    def __init__(self, width: float, height: float) -> None:
        self.width, self.height = width, height
        self.taken: List[Tuple[float, float, float, float]] = []

    def take(self, x: float, y: float, width: float, height: float) -> None:
        self.taken.append((x, y, x + width, y + height))

    def over(self, place: Tuple[float, float], width: float, height: float) -> float:
        """How much of a label at a place lies over what is taken, or outside."""
        x, y = place
        outside = max(0, 4 - x) + max(0, x + width - self.width + 4)
        return outside * height + sum(
            (min(x + width, right) - max(x, left)) * (min(y + height, bottom) - max(y, top))
            for left, top, right, bottom in self.taken if left < x + width and x < right and top < y + height and y < bottom
        )

    def put(self, places: Sequence[Tuple[float, float]], width: float, height: float) -> Tuple[float, float]:
        """Takes the first free place, or the one where it lies over the least."""
        found = min(places, key=lambda place: self.over(place, width, height))
        self.take(*found, width, height)
        return found


def length_of(text: str, size: float = 11, is_bold: bool = False) -> float:
    return len(text) * size * WIDTH * (BOLD if is_bold else 1)


# ---- the picture

class Picture:
    def __init__(self, history: History, frame: Frame, is_whole: bool, title: Sequence[str]) -> None:
        self.history, self.frame, self.is_whole = history, frame, is_whole
        self.lines = lines_of_rows(history, HIGHEST // STEP - 1)
        self.on_line = {line: list(rows) for line, rows in groupby(history.rows, self.lines.__getitem__)}
        self.count = len(self.on_line)
        longest = max(map(len, map(self.line_text, self.on_line.values())))
        self.left = max(LEFT, 24 + 6.1 * longest)
        last = frame.last - (frame.last - frame.first) % frame.space
        self.width = max(self.across(frame.last) + RIGHT, self.across(last) + length_of(frame.text_of(last), 10) / 2 + 4)
        self.title = [line for clauses in title for line in wrapped(clauses, self.width - 24)]
        self.above = ABOVE + TITLE_STEP * len(self.title)
        self.step = min(STEP, HIGHEST / (self.count + 1))
        self.floor = self.above + (self.count + 1) * self.step
        self.height = self.floor + BELOW
        self.parts: List[str] = []
        self.labels = Labels(self.width, self.height)

    def line_text(self, rows: Sequence[int]) -> str:
        """What stands at the left of a line: its row, with the number where rows are left out; or how many share it."""
        if len(rows) > 1:
            return f"{len(rows)} rows, {rows[0]} to {rows[-1]}"
        text = self.history.rows[rows[0]] if self.is_whole else f"{rows[0]}: {self.history.rows[rows[0]]}"
        return text if len(text) <= LONGEST_TEXT else f"{text[:LONGEST_TEXT - 2]}.."

    def is_close(self, row: int) -> bool:
        """Whether a row has no line of its own, or one that is too low for a large circle."""
        return self.step < 20 or len(self.on_line[self.lines[row]]) > 1

    def across(self, time: int) -> float:
        return self.left + (min(max(time, self.frame.first), self.frame.last) - self.frame.first) * self.frame.scale

    def up(self, row: float) -> float:
        if row not in self.lines:  # before the first row, or behind the last one
            return self.floor - (self.count + 0.7 if row else 0) * self.step
        return self.floor - self.lines[int(row)] * self.step

    def add(self, tag: str, text: Optional[str] = None, **attributes: Union[str, Number]) -> None:
        words = " ".join(f'{name.replace("_", "-")}="{short(value)}"' for name, value in attributes.items())
        self.parts.append(f"<{tag} {words}/>" if text is None else f"<{tag} {words}>{text}</{tag}>")

    def write(self, text: str, x: float, y: float, size: int = 11, anchor: str = "start", color: str = INK, **more: Union[str, Number]) -> None:
        self.add("text", text, x=x, y=y, font_size=size, text_anchor=anchor, fill=color, **more)

    def label(self, pieces: Sequence[Piece], places: Sequence[Place], color: str = INK) -> None:
        """A label of pieces at the first free of some places. Where rows share lines or stand closer together and none is
        free, it is left out."""
        sizes = [float(own.get("font_size", 11)) for _, own in pieces]
        width: float = sum((length_of(text, size, "font_weight" in own) for (text, own), size in zip(pieces, sizes)), 0.0)
        height = max(sizes) + 1
        tops = [(x - width if anchor == "end" else x - width / 2 if anchor == "middle" else x, y - height + 2.5) for x, y, anchor in places]
        if len(self.lines) >= HIGHEST // STEP and 0 < min(self.labels.over(place, width, height) for place in tops):
            return
        x, y = self.labels.put(tops, width, height)
        _, base, anchor = places[tops.index((x, y))]
        at = x + width if anchor == "end" else x + width / 2 if anchor == "middle" else x
        spans = "".join(spanned(text, own) for text, own in pieces)
        self.write(spans, at, base, anchor=anchor, stroke="#ffffff", stroke_width=3, paint_order="stroke", color=color)

    def axes(self) -> None:
        frame, right = self.frame, self.across(self.frame.last)
        for at, line in enumerate(self.title):
            self.write(escape(line), 12, 20 + TITLE_STEP * at, size=12, font_weight="bold")
        day = None
        for time in range(frame.first, frame.last + 1, frame.space):
            x = self.across(time)
            self.add("line", x1=x, y1=self.above, x2=x, y2=self.floor, stroke="#e4e4e4", stroke_width=1)
            self.write(frame.text_of(time), x, self.floor + 16, size=10, anchor="middle", color=GREY)
            if frame.day_of(time) != day:
                day = frame.day_of(time)
                self.write(str(day), x, self.floor + 30, size=10, anchor="middle", color=GREY)
        self.add("line", x1=self.left, y1=self.floor, x2=right, y2=self.floor, stroke=GREY, stroke_width=1)
        self.write("event time", right, self.floor + 46, anchor="end", color=GREY)
        self.write("rows, as they arrive, upwards", 12, self.floor + 46, color=GREY)
        for rows in [*self.on_line.values()][::math.ceil(ROW_TEXT / self.step)]:
            text, y = self.line_text(rows), self.up(rows[0])
            self.write(escape(text), 12, y + 3, size=10, color=GREY, font_family="monospace")
            self.labels.take(12, y - 7, 6.1 * len(text), 12)

    # ---- panes

    def is_by_record(self, pane: Pane) -> bool:
        return self.history.rows[pane.row].startswith("r")

    def top_of(self, pane: Pane) -> float:
        return self.up(pane.row) - (13 if self.is_by_record(pane) else 0)

    def box(self, pane: Pane, floor_row: int, inset: int) -> None:
        color = COLORS[pane.kind]
        top = self.top_of(pane)
        bottom = self.up(floor_row) + 13
        x, width = self.across(pane.start) + 1, (pane.end - pane.start) * self.frame.scale - 2
        dash: Dict[str, Any] = {"stroke_dasharray": "5 3"} if inset else {}
        self.add(
            "rect", x=x, y=top + inset, width=width, height=bottom - top - inset, fill=color,
            fill_opacity="0.13", stroke=color, stroke_width=1.5, **dash,
        )

    def pane(self, pane: Pane) -> None:
        """The label of a pane, along the upper edge of its box, or further in."""
        top = self.top_of(pane)
        bases = [top - 4, top + 15, top - 18] if self.is_by_record(pane) else [top + 15, top - 4, top + 31]
        pieces: List[Piece] = [(f"{pane.kind} ", {}), (pane.text, {"font_weight": "bold", "font_size": 14})]
        self.label(pieces, self.places_of(pane, bases), color=COLORS[pane.kind])

    def withdrawn(self, pane: Pane) -> None:
        """The columns of a pane that is withdrawn, struck, near the label of what takes its place."""
        top = self.top_of(pane)
        bases = [top - 4, top - 18] if self.is_by_record(pane) else [top + 31, top + 15, top - 4]
        struck: Piece = (pane.text, {"font_weight": "bold", "font_size": 14, "text_decoration": "line-through"})
        self.label([("retract ", {}), struck], self.places_of(pane, bases), color=GREY)

    def places_of(self, pane: Pane, bases: Sequence[float]) -> List[Place]:
        """Places of what is said of a pane: on each of some base lines from its box's left edge on."""
        left, right = self.across(pane.start) + 6, self.across(pane.end) - 6
        steps = range(0, max(1, int(right - left)), 12)
        return [(left + step, base, "start") for base in bases for step in steps] + [(right, base, "end") for base in bases]

    # ---- watermarks

    def line(self, corners: Sequence[Corner], **attributes: Any) -> None:
        points = " ".join(f"{short(self.across(time))},{short(self.up(row))}" for row, time in corners)
        self.add("polyline", points=points, fill="none", **attributes)

    def watermark(self, corners: Sequence[Corner]) -> None:
        self.line(corners, stroke=WATERMARK, stroke_width=2.5)
        row, time = corners[-1]
        x, y = self.across(time), self.up(row)
        self.label([("watermark", {})], [(x - 5, y + 3, "end"), (x - 5, y - 10, "end"), (x + 5, y + 3, "start")], color=WATERMARK)

    def mark(self, number: int, name: str, corners: Sequence[Corner]) -> None:
        """The mark of a source, with its name where it first rises."""
        color = MARKS[number % len(MARKS)]
        self.line(corners, stroke=color, stroke_width=1.3, stroke_dasharray="6 3")
        row, time = next((corner for corner in corners if corner[1] > corners[0][1]), corners[-1])
        x, y = self.across(time), self.up(row)
        self.label([(name, {})], [(x + 4, y + 12, "start"), (x - 4, y + 12, "end"), (x + 4, y + 24, "start")], color=color)

    # ---- records

    def measure(self, record: Record, behind: int) -> None:
        """How far the watermark is past a time, below the circle of a record."""
        y, left, right = self.up(record.row) + 15, self.across(behind), self.across(record.mark)
        self.add("line", x1=left, y1=y, x2=right, y2=y, stroke=INK, stroke_width=1)
        for x in (left, right):
            self.add("line", x1=x, y1=y - 4, x2=x, y2=y + 4, stroke=INK, stroke_width=1)
        middle = (left + right) / 2
        self.label([(str(record.mark - behind), {})], [(middle, y - 4, "middle"), (middle, y + 12, "middle"), (right + 4, y + 4, "start")])

    def radius_of(self, record: Record) -> int:
        """Its values have room in a large circle on a line of its own."""
        return 9 if len(record.text) <= 3 and not self.is_close(record.row) else 5

    def circle(self, record: Record) -> None:
        x, y = self.across(record.time), self.up(record.row)
        is_in = record.fate == "admitted"
        color = INK if is_in and record.is_selected else GREY
        radius = self.radius_of(record)
        dash: Dict[str, Any] = {} if record.is_selected else {"stroke_dasharray": "3 2"}
        self.add("circle", cx=x, cy=y, r=radius, fill="#ffffff", stroke=color, stroke_width=1.3, **dash)
        if radius == 9:
            self.write(escape(record.text), x, y + 4, anchor="middle", color=color)
        if not is_in:
            self.add("line", x1=x - 9, y1=y + 9, x2=x + 9, y2=y - 9, stroke=WATERMARK, stroke_width=2)
        self.labels.take(x - radius, y - radius, 2 * radius, 2 * radius)

    def beside(self, record: Record) -> None:
        """What is said beside the circle of a record: its values where they have no room in it, and why it isn't in."""
        x, y, radius = self.across(record.time), self.up(record.row), self.radius_of(record)
        is_in = record.fate == "admitted"
        pieces: List[Piece] = [(record.text + (" " if not is_in else ""), {})] if radius < 9 else []
        pieces += [(record.fate, {"fill": WATERMARK})] if not is_in else []
        if not pieces:
            return
        right, left = (x + radius + 4, y + 4, "start"), (x - radius - 4, y + 4, "end")
        others = [(x, y + 17, "middle"), (x, y - 9, "middle")]
        places = [left, right, *others] if record.time > self.frame.last else [right, left, *others]
        self.label(pieces, places, color=INK if is_in and record.is_selected else GREY)

    def refusal(self, row: int, word: str) -> None:
        y, left = self.up(row) + 4, self.left + 4
        self.label([(word, {})], [(left + step, y, "start") for step in range(0, int(self.width - left), 24)], color=WATERMARK)

    def text(self) -> str:
        size = f'width="{short(self.width)}" height="{short(self.height)}"'
        view = f'viewBox="0 0 {short(self.width)} {short(self.height)}"'
        head = f'<svg xmlns="http://www.w3.org/2000/svg" {size} {view} font-family="Helvetica, Arial, sans-serif">'
        ground = '<rect width="100%" height="100%" fill="#ffffff"/>'
        return "\n".join([head, ground, *self.parts, "</svg>"]) + "\n"


def short(value: Union[str, Number]) -> Union[str, Number]:
    return f"{value:.1f}".removesuffix(".0") if isinstance(value, float) else value


def spanned(text: str, own: Dict[str, Union[str, Number]]) -> str:
    if not own:
        return escape(text)
    words = " ".join(f'{name.replace("_", "-")}="{value}"' for name, value in own.items())
    return f"<tspan {words}>{escape(text)}</tspan>"


def wrapped(text: str, width: float) -> Iterator[str]:
    """Lines of a text that are not wider than a picture."""
    line = ""
    for word in text.split(" "):
        if line and length_of(f"{line} {word}", 12, True) > width:
            yield line
            line = "  "
        line += f"{' ' * bool(line.strip())}{word}"
    yield line


def title_of(query: Query) -> List[str]:
    """The clauses of a query that a picture shows, in their order: the clock, what is asked, and of which windows."""
    text, places = query.answer.text, {part.name: part for part in reversed(query.answer.parts)}
    begin, end = places["window"].begin, places["emit"].begin
    sources = places["sources"].text if query.sources else ""
    clock = re.sub(r"^.*?(?=SKEW)|\s*RECORDS.*$", "", places["clock"].text, flags=re.S)
    clauses = [f"{sources} {clock}", f"SELECT {text[places['column'].begin:begin]}", text[begin:end]]
    return [" ".join(clause.split()) for clause in clauses]


def is_of(pane: Pane, other: Pane) -> bool:
    """Whether a pane is of the window of another one, or of a session that was joined to it."""
    return other.start <= pane.start and pane.end <= other.end


def floor_of(pane: Pane, history: History, is_discarding: bool) -> int:
    """The first row of the records that a pane shows."""
    earlier = [other.row for other in history.panes if other.row < pane.row and is_of(other, pane)]
    after = max(earlier, default=0) if is_discarding else 0
    shown = [
        record.row for record in history.records
        if record.fate == "admitted" and record.is_selected
        and after < record.row <= pane.row and pane.start <= record.time < pane.end
    ]
    return min(shown, default=pane.row)


def inset_of(query: Query, pane: Pane) -> int:
    """How far a box is set in, so that the boxes of windows that overlap can be told apart."""
    return 3 * (pane.start // query.period % -(-query.size // query.period)) if query.shape == "SLIDING" else 0


def behind_of(record: Record, query: Query) -> int:
    """The time from which a record's lateness is counted: its own, or the end of its fixed window."""
    return record.time - record.time % query.size + query.size if query.from_window else record.time


def drawn(
    program: str, path: str, rows: Sequence[str], key: Optional[str] = None, frame: Optional[Frame] = None,
    is_clock: bool = False, is_measured: bool = False, zone: tzinfo = timezone.utc,
) -> str:
    """The picture of a key in a run of the query at a path. Where it is measured, it shows how late late records are."""
    lines_of(program, path, [])  # a query that is refused is told as the program tells it
    query = query_of(path, program)
    if query.form != "PANES":
        raise Ended(f"a picture is drawn of EMIT PANES, not of {query.form}")
    key = key or query.keys[0]
    if key not in query.keys:
        raise Ended(f"{key} is no key of the query; its keys are {', '.join(query.keys[:20])}")
    history = history_of(Run(program, query, path, rows), key)
    title = title_of(query)
    if len(query.keys) > 1:
        title[0] = f"{key}:   {title[0]}"
    picture = Picture(history, frame or frame_of(history, is_clock, zone), len(history.rows) == len(rows), title)
    put_all(picture, query, is_measured)
    return picture.text()


def put_all(picture: Picture, query: Query, is_measured: bool) -> None:
    """Boxes lie below circles, and lines below labels, which take their places in this order."""
    history = picture.history
    picture.axes()
    for pane in history.panes:
        picture.box(pane, floor_of(pane, history, query.mode == "DISCARDING"), inset_of(query, pane))
    for record in history.records:
        picture.circle(record)
    for number, (source, corners) in enumerate(history.marks.items() if query.sources else ()):
        picture.mark(number, source, corners)
    picture.watermark(history.watermark)
    for record in history.records:
        if is_measured and behind_of(record, query) < record.mark:
            picture.measure(record, behind_of(record, query))
        picture.beside(record)
    for pane in history.panes:
        picture.pane(pane)
    for pane in history.withdrawn:
        picture.withdrawn(pane)
    for row, word in history.refusals.items():
        picture.refusal(row, word)
