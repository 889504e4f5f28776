"""Writes a page for a wall beside a table: of each key the newest window, the last hours, and what was late or refused.

usage: wall [--zone ZONE] [--unit UNIT] [--hours HOURS] [--keys NAME,..] [--title TEXT] [--every SECONDS] TABLE PAGE

For example: wall --zone Europe/Berlin --hours 6 --every 30 board.db board.html

TABLE is what `sink` keeps of a query that writes panes: a file of SQLite, which is read alone, or the URL of a PostgreSQL
database. PAGE is one file of HTML that asks no network, for a browser that fills a screen; it is read from three metres,
and renewed as a whole. With --every it is written anew each so many SECONDS, the browser reads it as often, and a page
that wasn't renewed for three times as long says so in red.

The first column stands large, the others below; bars are its windows that ended within HOURS (6 where it is left out) of
the newest one, each key by its own scale. The 9 first keys are shown, or those of --keys, 12 at most; of the others their
number. Times are of ZONE, UTC where it is left out, with their day unless it is today, and numbers of UNIT, `s`, `ms` or
`us`, since 1970. Rows that were late are known behind an end row alone.

It ends with status 2 by its words, 6 where TABLE can't be read or has no panes, 7 where PAGE can't be written, and where
INT or TERM ends it, with 128 and their number.
"""
from __future__ import annotations

import math
import os
import time
from html import escape
from typing import TYPE_CHECKING, Dict, List, NamedTuple, Optional, Sequence, Tuple

from . import telling
from .tables import Server
from .telling import BAD_READ, BAD_WRITE, Ended
from .times import UNITS, moment, zone_of

if TYPE_CHECKING:
    from argparse import Namespace
    from datetime import datetime

MOST_KEYS, MOST_NAMED, MOST_WORDS = 9, 12, 4
UNKNOWN = -1  # of what no end row told
KINDS = {"early": "so far", "on_time": "complete", "late": "corrected", "final": "final"}
PATIENCE = 3  # times that a page may not be renewed
STYLE = """
* { box-sizing: border-box; margin: 0 }
body { background: #101418; color: #f4f6f8; font: 3.2vh/1.2 sans-serif; height: 100vh; padding: 2vh 2vw; display: flex; flex-direction: column; gap: 2vh }
header, footer { display: flex; justify-content: space-between; gap: 0 3vw; align-items: baseline; white-space: nowrap } footer { flex-wrap: wrap }
h1 { font-size: 5vh; display: flex; min-width: 0; flex: 1 } .now { font-size: 7vh; font-weight: bold }
main { flex: 1; min-height: 0; display: grid; grid-auto-rows: minmax(0, 1fr); gap: 1.5vh 1vw }
section { background: #1c232b; border-radius: 1vh; padding: 1vh 1vw; display: flex; flex-direction: column; min-width: 0; min-height: 0; overflow: hidden }
h2 { font-size: 4vh } h2, h3, p, h1 span { overflow: hidden; text-overflow: ellipsis; white-space: nowrap } .behind { color: #9aa7b4 }
.more { white-space: normal; display: -webkit-box; -webkit-box-orient: vertical; -webkit-line-clamp: var(--lines); overflow-wrap: anywhere; flex: none }
svg { flex: 1; min-height: 0; width: 100% } rect { fill: #4da3ff }
.bad { color: #ffb020 } #old { display: none; background: #c8102e; padding: 1vh 1vw; font-size: 5vh }
"""
WIDE, LETTER, SMALL = 16 / 9, 0.65, 3  # of a screen its width by its height, of a letter too; and the height of the smallest, in hundredths
OLD = "setInterval(() => {{ if (Date.now() / 1000 > {written} + {most}) document.getElementById('old').style.display = 'block' }}, 1000)"


class Pane(NamedTuple):
    begins: int
    ends: int
    values: Sequence[str]
    kind: str


class Board(NamedTuple):
    """What a table has: the columns, of each key its panes in the order of their ends, and what became of the rows."""
    columns: Sequence[str]
    panes: Dict[str, List[Pane]]
    counts: Dict[str, Tuple[int, int]]  # now, and at the last end row


# ---- the table

def answers(table: str, questions: Sequence[str]) -> List[List[Tuple[str, ...]]]:
    """The rows of each question, in a file of one state of it."""
    if table.startswith(("postgresql://", "postgres://")):
        server = Server(table)
        return [server.ask([], question) for question in questions]
    import sqlite3
    from urllib.parse import quote

    base = sqlite3.connect(f"file:{quote(table)}?mode=ro", uri=True, timeout=10, isolation_level=None)
    try:
        base.execute("BEGIN")
        return [[tuple(map(str, row)) for row in base.execute(question)] for question in questions]
    finally:
        base.close()


def board_of(table: str, span: int) -> Board:
    """The panes that ended within a span of the newest one, and the newest one of each key."""
    import sqlite3

    numbers = ", ".join(f"SUM(COALESCE({column}, {UNKNOWN}))" for column in ("number", "at_end"))
    try:
        [columns], = answers(table, ["SELECT DISTINCT columns FROM taken"])
        names = columns[0].split(",")
        own = ", ".join(f'"{name}"' for name in names)
        newest = f"ends > (SELECT MAX(ends) FROM panes) - {span} OR ends = (SELECT MAX(ends) FROM panes AS its WHERE its.key = panes.key)"
        panes, counts = answers(table, [
            f"SELECT key, begins, ends, kind, {own} FROM panes WHERE {newest} ORDER BY key, ends, begins",
            f"SELECT what, {numbers} FROM counts GROUP BY what",
        ])
    except (sqlite3.Error, ValueError, Ended) as why:
        raise Ended(f"{table} isn't what a sink keeps of panes: {why}", BAD_READ) from None
    found: Dict[str, List[Pane]] = {}
    for key, begins, ends, kind, *values in panes:
        found.setdefault(key, []).append(Pane(int(begins), int(ends), values, kind))
    return Board(names, found, {what: (int(now), int(at_end)) for what, now, at_end in counts})


# ---- the page

class Page:
    def __init__(self, board: Board, asked: Namespace, now: float) -> None:
        self.board, self.asked, self.zone = board, asked, zone_of(asked.zone)
        self.last = max((panes[-1].ends for panes in board.panes.values()), default=0)
        self.first = self.last - asked.hours * 3600 * UNITS[asked.unit]
        self.written, today = int(now), moment(int(now), "s", self.zone)
        assert today
        self.today = today
        self.keys = asked.keys.split(",") if asked.keys else sorted(board.panes)[:MOST_KEYS]
        self.wide = math.ceil(math.sqrt(len(self.keys) or 1))
        self.tall = math.ceil(len(self.keys) / self.wide) or 1
        self.room = (96 - (self.wide - 1)) / self.wide - 2  # of a line in a tile, in hundredths of the screen's width

    def fitting(self, text: str, size: float) -> str:
        """A text in letters of a size; where it is longer than a line, its begin and its end."""
        most = int(self.room * WIDE / (size * LETTER))
        return text if len(text) <= most else f"{text[:most // 2]}…{text[len(text) - (most - 1) // 2:]}"

    def clock(self, time: int, like: Optional[datetime]) -> str:
        """A time as a clock of the zone shows it, with its day where that is another one."""
        shown = moment(time, self.asked.unit, self.zone)
        if shown is None:
            return str(time)
        day = "" if not like or shown.date() == like.date() else "%d %b " if shown.year == self.today.year else "%d %b %Y "
        return shown.strftime(f"{day}%H:%M")

    def span(self, begins: int, ends: int) -> str:
        """Two times; the second with its day where it is a day behind the first, or more."""
        like = moment(begins, self.asked.unit, self.zone) if ends - begins >= 86400 * UNITS[self.asked.unit] else None
        return f"{self.clock(begins, self.today)}–{self.clock(ends, like)}"

    def bars(self, panes: Sequence[Pane]) -> str:
        """A bar for each window of numbers, from 0 up or down."""
        if not all(is_number(pane.values[0]) for pane in panes):
            return ""
        numbers = [int(pane.values[0]) for pane in panes]
        low, high, width = min(0, *numbers), max(0, *numbers), self.last - self.first
        scale = 100 / ((high - low) or 1)
        rects = []
        for pane, number in zip(panes, numbers):
            begin = max(pane.begins, self.first)
            x, wide = 1000 * (begin - self.first) / width, 1000 * (pane.ends - begin) / width
            top, tall = (high - max(number, 0)) * scale, max(abs(number) * scale, 0.5)
            rects.append(f'<rect x="{x:.1f}" y="{top:.1f}" width="{max(wide - 2, 1):.1f}" height="{tall:.1f}"/>')
        return f'<svg viewBox="0 0 1000 100" preserveAspectRatio="none">{"".join(rects)}</svg>'

    def tile(self, key: str) -> str:
        panes, name = self.board.panes.get(key, []), f"<h2>{escape(self.fitting(key, 4))}</h2>"
        if not panes:
            return f'<section class="behind">{name}<p>no window yet</p></section>'
        newest = panes[-1]
        first, *others = map(grouped, newest.values)
        first = first if is_number(newest.values[0]) else self.fitting(first, SMALL)
        large = f"min({20 / self.tall:.1f}vh, {self.room / (LETTER * max(len(first), 1)):.2f}vw)"
        kind = KINDS.get(newest.kind, newest.kind)
        more = ", ".join([kind, *(f"{name} {value}" for name, value in zip(self.board.columns[1:], others))])
        bars = self.bars([pane for pane in panes if pane.ends > self.first])
        is_behind = ' class="behind"' if newest.ends < self.last else ""
        number = f'<h3 style="font-size: {large}">{escape(first)}</h3>'
        return f'<section{is_behind}>{name}{number}<p>{self.span(newest.begins, newest.ends)}</p><p class="more">{escape(more)}</p>{bars}</section>'

    def footer(self) -> str:
        counts = self.board.counts
        words = {what.removeprefix("refused "): now for what, (now, _) in counts.items() if what.startswith("refused ")}
        most = [f"{escape(word)} {number:,}" for word, number in sorted(words.items(), key=lambda one: (-one[1], one[0]))]
        told = f": {', '.join(most[:MOST_WORDS])}{', …' * (len(most) > MOST_WORDS)}" if most else ""
        parts = [f'<span{" class=bad" * any(words.values())}>{sum(words.values()):,} refused{told}</span>']
        for what, name, unknown in (("late", "late", "late ones are told by an end row"), ("in", "rows", "")):
            now, at_end = counts.get(what, (UNKNOWN, UNKNOWN))
            known = now if now >= 0 else at_end
            said = f"{known:,} {'row' if known == 1 and what == 'in' else name}{'' if now >= 0 else ' at the last end row'}" if known >= 0 else unknown
            parts.append(f'<span{" class=bad" * (what == "late" and known > 0)}>{said}</span>')
        return "".join(parts)

    def text(self) -> str:
        asked, left = self.asked, len(set(self.board.panes) - set(self.keys))
        tiles = "\n".join(map(self.tile, self.keys)) or '<section class="behind"><h2>no window yet</h2></section>'
        bars = f"<span>bars: {self.span(self.first, self.last)}, each key by its own scale</span>" if "<rect" in tiles else ""
        rest = f"<span>and {left} more key{'s' * (left > 1)}</span>" if left else ""
        every = f'<meta http-equiv="refresh" content="{asked.every}">' if asked.every else ""
        script = OLD.format(written=self.written, most=PATIENCE * asked.every) if asked.every else ""
        title, what, day = escape(asked.title or os.path.basename(asked.table)), escape(self.board.columns[0]), self.today
        return "\n".join([
            f'<!DOCTYPE html><html lang="en"><head><meta charset="utf-8">{every}<title>{title}</title><style>{STYLE}</style></head><body>',
            f'<p id="old">Not renewed since {day:%H:%M:%S}</p>',
            f'<header><h1><span>{title}</span>: {what}</h1><span>{day:%a %d %b %Y} {escape(asked.zone)}</span><span class="now">{day:%H:%M}</span></header>',
            f'<main style="grid-template-columns: repeat({self.wide}, 1fr); --lines: {4 - self.tall}">', tiles, "</main>",
            f"<footer>{self.footer()}{rest}{bars}</footer><script>{script}</script></body></html>", "",
        ])


def is_number(value: str) -> bool:
    return value.lstrip("-").isdigit()


def grouped(value: str) -> str:
    return f"{int(value):,}" if is_number(value) else value


# ---- the command

def write(asked: Namespace) -> None:
    """Writes the page beside its place, and puts it there as a whole."""
    text = Page(board_of(asked.table, asked.hours * 3600 * UNITS[asked.unit]), asked, time.time()).text()
    with telling.named(asked.page, BAD_WRITE):
        with open(f"{asked.page}.new", "w", encoding="utf-8") as file:
            file.write(text)
        os.replace(f"{asked.page}.new", asked.page)


def words() -> Namespace:
    parser = telling.parser_of("wall", __doc__)
    parser.add_argument("--zone", default="UTC")
    parser.add_argument("--unit", choices=list(UNITS), default="s")
    for word, default in (("--hours", 6), ("--every", 0)):
        parser.add_argument(word, type=telling.whole_number, default=default)
    parser.add_argument("--keys")
    parser.add_argument("--title")
    parser.add_argument("table")
    parser.add_argument("page")
    asked = parser.parse_args()
    if not 0 < asked.hours <= 10**4:
        parser.error("HOURS are 1 to 10000")
    if asked.keys and asked.keys.count(",") >= MOST_NAMED:
        parser.error(f"KEYS are {MOST_NAMED} at most")
    return asked


def main() -> int:
    asked = words()
    zone_of(asked.zone)
    telling.Signals.begin()
    write(asked)
    while asked.every and not telling.Signals.pause(asked.every):
        write(asked)
    return 0
