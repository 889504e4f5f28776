"""Says whether a query is accepted, and if it isn't, where the fault lies and what mends it.

usage: lint [--program PROGRAM] [QUERY..]

For example: lint fixed.wsm

The first line is the program's: `accepted,` with the instructions of a record and of a pane and the panes that it may
hold, or the refusal. Behind a refusal stand the line of the query with a mark below the place, what may stand there,
what was counted and what is allowed, and what docs/ERRORS.md says of it. All of it is asked of the program: what may
stand at a place, and what mends the query, was tried there, one by one.
Without QUERY, or for `-`, the query is read from standard input. The status is the program's: 0 accepted, 3 refused,
4 rejected; of several queries it is the greatest. PROGRAM is `wsm` at the top of the repository, or on PATH, where the
variable WSM doesn't name it and it is left out.
"""
from __future__ import annotations

import re
import sys
from functools import cached_property
from typing import TYPE_CHECKING, Callable, Iterator, List, NamedTuple, Optional, Sequence, Tuple

from . import asking, telling
from .advice import END, NAME, NUMBER, Place, advice, is_in_comment, word_advice
from .asking import Answer, Part, Query

if TYPE_CHECKING:
    from argparse import Namespace

WIDEST = 100  # characters of a line that are shown
TENTHS = 18  # how often an interval is made a tenth of what it was
UNITS = [2**10, 2**20, 2**30]  # by which a sum is parted in two
MEND = {
    "aggregates": "Equal ones count each time that they are written. To bring it down, write each once and compute with the columns where "
                  "they are read, or ask two queries of the same rows (`tee`).",
    "instructions": "To bring it down, write less: prices and other tables are better kept in SQL, joined to what the sink has taken; "
                    "or ask two queries of the same rows (`tee`).",
    "values": "To bring it down, let the deeper side of an operator stand on its left, as `(..) + 7` for `7 + (..)`, and a deep column in front.",
    "panes": "To bring it down, lower SKEW and LATENESS, or use longer windows or periods; or split the keys over several runs: see docs/SCALING.md.",
}


class Mend(NamedTuple):
    """What is told to mend a query, and the query's text with it."""
    told: str
    text: str


class Span(NamedTuple):
    begin: int
    end: int


# ---- the pages

def page(name: str) -> str:
    try:
        with open(asking.lies_at("docs", name), encoding="utf-8") as file:
            return file.read()
    except OSError:
        return ""


def entry(name: str, place: str) -> List[str]:
    """What docs/ERRORS.md says of a refusal: how it is mended, or the rows of its table."""
    text = page("ERRORS.md")
    section = re.search(rf"^### {re.escape(name)}\n\n(.*?)(?=^#)", text, re.M | re.S)
    if section and not name.startswith("C7"):
        said = [part for part in section[1].split("\n\n") if part.startswith("To mend it")]
    else:
        said = rows_of(text, name, place)
    return [re.sub(r"\[([^\]]*)\]\([^)]*\)", r"\1", " ".join(part.split())) for part in said]


def rows_of(text: str, name: str, place: str) -> List[str]:
    """What the rows of tables say of a limit of a part, or of a rule in a section."""
    said, named = [], ""
    part, section = re.sub(r"\d+", "", place).strip(), place.split(" at ")[0]
    for cells in ([cell.strip() for cell in row[1:-1].split(" | ")] for row in text.splitlines() if row.startswith("| ")):
        if name.startswith("C7"):
            if len(cells) == 4 and cells[0] and re.sub(r"[`\d]+|, \.\.", "", cells[0]).strip() == part:
                said.append(cells[1])
        elif len(cells) == 5:
            named = cells[0] or named
            if named == name and f" in {section} " in cells[3] and section != "budget":
                said.append(f"{cells[1]}: {cells[4]}")
    return list(dict.fromkeys(said))


# ---- places

def shown(text: str, span: Optional[Span]) -> List[str]:
    """The line of a place, with a mark below; nothing where there is none."""
    if span is None:
        return []
    begin, end = span
    first = text.rfind("\n", 0, begin) + 1
    last = text.find("\n", begin)
    last = len(text) if last < 0 else last
    left = max(first, begin - WIDEST // 2) if last - first > WIDEST else first
    right = min(last, left + WIDEST)
    before, marked, after = (readable(text[a:b]) for a, b in ((left, begin), (begin, min(end, right)), (min(end, right), right)))
    head, tail = ".." if left > first else "", ".." if right < last else ""
    blanks = " " * len(head) + re.sub(r"[^\t]", " ", before)
    more = " .." if end > last and marked else ""
    number = text.count("\n", 0, begin) + 1
    return ["", f"{number:>4} | {(head + before + marked + after + tail).rstrip()}", f"     | {blanks}{'^' * max(1, len(marked.rstrip()))}{more}"]


def readable(text: str) -> str:
    """Bytes as they are seen: what is no UTF-8, or no sign, as a question mark."""
    seen = text.encode("latin-1").decode("utf-8", "replace")
    return "".join("?" if not char.isprintable() and char != "\t" else char for char in seen.replace("\r", ""))


def listed(asked: Sequence[str]) -> str:
    words = [word if word in (NAME, NUMBER, END) else f"`{word}`" for word in asked]
    return words[0] if len(words) == 1 else f"{', '.join(words[:-1])} or {words[-1]}"


def near(name: str, names: Sequence[str], what: str) -> str:
    """The names that there are, the nearest first where one is near."""
    from difflib import get_close_matches

    if not names:
        return f"There are no {what}."
    close = get_close_matches(name, names, 1, 0.6) or [one for one in names if one.lower() == name.lower()]
    most = ", ".join(names[:12]) + (", .." if len(names) > 12 else "")
    return f"Is `{close[0]}` meant? The {what} are {most}." if close else f"The {what} are {most}."


def cut(text: str, most: int = 60) -> str:
    text = " ".join(text.split())
    return text if len(text) <= most else f"{text[:most - 3]} .."


# ---- what is told of a query

class Linter:
    """A query's text, what the program says of it, and what is told beside that."""

    def __init__(self, program: str, text: str) -> None:
        self.program, self.text = program, text
        self.answer = Answer(program, text)
        self.status, self.line = self.answer.status, self.answer.line()
        self.span: Optional[Span] = None
        self.sentences: List[str] = []
        self.mends: List[Mend] = []
        self.asked: List[str] = []  # what may stand at the place of a fault
        self.reserved = self.answer.limits.words

    def lines(self) -> List[str]:
        """What is told: the program's line first."""
        if self.status == 0:
            record, pane, held = self.line.split(",")[1:]
            return [self.line, f"A record takes at most {record} instructions and a pane {pane}; {held} panes are held at most."]
        told = self.answer.fault["told"]
        name = " ".join(told.split()[:2])
        if name.startswith("P"):
            self.of_text(name)
        elif name.startswith("C"):
            self.of_check(name.split()[0], self.answer.fault["part"])
        else:
            self.of_rejection(name.split()[1])
        lines = [self.line, *shown(self.text, self.span), *self.sentences, *(f"The program takes {mend.told}." for mend in self.mends)]
        is_known = name.startswith("P") and len(self.sentences) > 1
        return lines + ["", f"docs/ERRORS.md, {name}", *([] if is_known else entry(name, told.partition(" in ")[2]))]

    # ---- mends, which the program takes

    def with_at(self, span: Tuple[int, ...], new: str) -> str:
        return self.text[:span[0]] + new + self.text[span[1]:]

    def is_mended(self, text: str) -> bool:
        """Whether the program tells this fault no more."""
        return Answer(self.program, text).line() != self.line

    def mend(self, told: str, span: Tuple[int, ...], new: str) -> bool:
        """Tells of something in the place of a span, where that mends the query."""
        text = self.with_at(span, new)
        if self.is_mended(text):
            self.mends.append(Mend(told, text))
            return True
        return False

    def greatest(self, most: int, text_of: Callable[[int], str]) -> Optional[int]:
        """The greatest number from 0 to one by which a text tells this fault no more."""
        low, high = -1, most
        while low < high:
            middle = (low + high + 1) // 2
            low, high = (middle, high) if self.is_mended(text_of(middle)) else (low, middle - 1)
        return low if low >= 0 else None

    # ---- texts that can't be read

    def of_text(self, name: str) -> None:
        at = self.answer.place()
        found = re.compile(r"\w+|[.<>=]+|.", re.S | re.ASCII).match(self.text, at)
        is_byte = name.startswith("P1")
        token = (found[0][:1] if is_byte else found[0]) if found else ""
        self.span = Span(at, at + max(1, len(token)))
        if name.startswith(("P3", "P4")):
            return
        asked = self.asked = self.answer.fault["may_stand"]
        clauses = re.findall(r"[A-Z]+", (re.search(r"Clauses stand in one order: ([^.]*)", page("ERRORS.md")) or ["", ""])[1])
        if said := advice(Place(self.text, at, token, asked, self.reserved, clauses, is_byte)):
            self.sentences.append(said)
        if not token:
            self.sentences.append("The text ends here.")
        if asked:
            self.sentences.append(f"Here may stand: {listed(asked)}.")

    # ---- checks

    def part(self, name: str) -> Optional[Part]:
        """A part by the name that a refusal has for it, as `column 2`."""
        kind, _, number = name.partition(" ")
        those = self.answer.those(kind)
        return those[int(number or 1) - 1] if len(those) >= int(number or 1) else None

    def of_check(self, code: str, name: str) -> None:
        part = self.part(name)
        self.span = Span(part.begin, part.end) if part else None
        if self.answer.fault["limit"]:
            self.on_code()
        elif part:
            ways = {"C1": self.on_name, "C2": self.on_type, "C3": self.on_duplicate, "C4": self.on_field, "C6": self.on_where,
                    "C7": self.on_limit, "C8": self.on_stream, "C10": self.on_session}
            if code in ways:
                ways[code](part)

    @cached_property
    def declared(self) -> Optional[Query]:
        """A query that counts records, with what this one declares."""
        head = [part.text for part in self.answer.those("keys", "field", "sources")]
        rest = "START 0; SKEW 0; LATENESS 0; RECORDS 1; SELECT COUNT(*) WINDOW FIXED 1 ACCUMULATING EMIT PANES;"
        answer = Answer(self.program, "\n".join([*head, rest]))
        return Query(answer) if answer.said["program"] else None

    def names_in(self, part: Part) -> Iterator[Tuple[Span, str, str]]:
        """The names of a part, each with what stands behind its point, or nothing."""
        for found in re.finditer(r"\b([A-Za-z]\w*)(?:\s*\.\s*([A-Za-z]\w*))?", part.text):
            if found[1] not in self.reserved or found[1] == "KEY" and found[2]:
                yield Span(part.begin + found.start(), part.begin + found.end()), found[1], found[2] or ""

    def on_name(self, part: Part) -> None:
        fields = {field.name: field for field in self.declared.fields} if self.declared else {}
        for span, name, behind in self.names_in(part):
            if name == "KEY" and self.declared and behind not in self.declared.key_set:
                said = f"`{behind}` is no key. {near(behind, self.declared.keys, 'keys')}"
            elif name in fields and behind and behind not in fields[name].names:
                field = fields[name]
                said = (f"`{behind}` is no name of `{name}`. {near(behind, field.names, 'names')}" if field.kind == "ENUM" else
                        f"`{name}` is {field.kind}, and has no names: it is compared with a {'number' if field.kind == 'INT' else 'truth'}.")
            elif name not in fields and name != "KEY":
                words = "There are no comments: take it out, or keep it in a file beside the query."
                other = words if is_in_comment(self.text, span.begin) else word_advice(name, self.reserved)
                self.sentences += [other] if other else []
                said = f"`{name}` is no field. {near(name, list(fields), 'fields')}"
            else:
                continue
            self.span = span
            self.sentences.append(said)
            return

    def on_type(self, part: Part) -> None:
        if part.name in ("where", "having"):
            compared = f"{cut(part.text)} > 5"
            self.sentences.append(f"{part.name.upper()} takes a truth.")
            self.mend(f"`{compared}` in its place", (part.begin, part.end), f"({part.text}) > 5")

    def on_duplicate(self, part: Part) -> None:
        words = [(span, name) for span, name, _ in self.names_in(part)]
        earlier = [list(self.names_in(other))[0][1] for other in self.answer.those("field") if other.begin < part.begin]
        if part.name == "field" and words[0][1] in earlier:
            self.span = words[0][0]
            self.sentences.append(f"There is a field `{words[0][1]}` already: name this one otherwise, or drop it.")
            return
        names = [name for _, name in words]
        for at, (span, name) in enumerate(words):
            if name in names[part.name == "field":at]:
                self.span = span
                self.sentences.append(f"`{name}` stands there twice: drop one.")
                return

    def on_field(self, part: Part) -> None:
        fields = {field.name: field for field in self.declared.fields} if self.declared else {}
        for span, name, behind in self.names_in(part):
            if name in fields and not behind:
                field = fields[name]
                fold = {"INT": f"SUM({name})", "BOOL": f"ANY({name})"}.get(field.kind) or f"ANY({name} = {name}.{field.names[0]})"
                others = {"INT": f", `MAX({name})`, `MIN({name})`, or `SUM({name}) / COUNT(*)` for the mean", "BOOL": f" or `ALL({name})`"}
                if self.mend(f"`{fold}` in its place", span, fold):
                    self.span = span
                    self.sentences.append(
                        f"A pane has many records: say what of their `{name}` is meant, as `{fold}`{others.get(field.kind, '')}. "
                        "A pane's key and its window stand in each row without being selected."
                    )
                    return

    def on_where(self, part: Part) -> None:
        self.sentences.append("WHERE sees one record, and an aggregate is of many: HAVING takes it.")
        word = self.text.rindex("WHERE", 0, part.begin)
        self.mend("HAVING in the place of WHERE", (word, word + 5), "HAVING")

    def on_limit(self, part: Part) -> None:
        if interval := re.search(r"\bINT\s+(-?\s*\d+)\s*\.\.\s*(-?\s*\d+)", part.text):
            told = f"INT {interval[2]}..{interval[1]}"
            self.mend(f"`{told}`", (part.begin + interval.start(), part.begin + interval.end()), told)
        for number in re.finditer(r"\d+", part.text) if part.name in ("clock", "budget", "window", "trigger") else ():
            span = Span(part.begin + number.start(), part.begin + number.end())
            if self.is_mended(self.with_at(span, "1")):
                self.span = span
        if part.name == "keys":
            self.sentences.append("More keys than that are split over several runs: see docs/SCALING.md.")

    def on_stream(self, part: Part) -> None:
        self.mend("`EMIT PANES;`", (part.begin, part.end), "EMIT PANES;")
        if window := self.part("window"):
            at = re.compile(r"\w+\s*\Z").search(self.text, window.begin, window.end)
            self.mend("ACCUMULATING", at.span() if at else (0, 0), "ACCUMULATING ")

    def on_session(self, part: Part) -> None:
        self.sentences.append("Where a session ends is known only once its records are, so lateness can't be counted from there.")
        if clock := self.part("clock"):
            self.mend("it without FROM WINDOW", (clock.begin, clock.end), re.sub(r"\s+FROM\s+WINDOW", "", clock.text))

    # ---- the limits of code

    def on_code(self) -> None:
        limit = self.answer.fault["limit"]
        kind, _, section = limit["of"].partition(" ")
        self.sentences.append(f"{limit['of']}: {limit['counted']}, and at most {limit['allowed']} may be.")
        self.sentences.append(MEND[kind])
        part = self.part("clock" if kind == "panes" else "where" if section == "of where" else "column")
        self.span = Span(part.begin, part.end) if part else None
        if kind == "panes" and part:
            self.on_held(part)

    def on_held(self, clock: Part) -> None:
        numbers = [re.search(rf"\b{word}\s+(\d+)", clock.text) for word in ("SKEW", "LATENESS")]
        skew, lateness = (int(number[1]) if number else 0 for number in numbers)

        def said(room: int) -> str:
            return f"SKEW {min(skew, room)}; LATENESS {room - min(skew, room)}"

        def with_room(room: int) -> str:
            text = re.sub(r"SKEW\s+\d+\s*;\s*LATENESS\s+\d+", said(room), clock.text)
            return self.with_at((clock.begin, clock.end), text)

        room = self.greatest(skew + lateness, with_room)
        if room is not None:
            self.sentences.append(f"Together SKEW and LATENESS may be {room}.")
            self.mends.append(Mend(f"`{said(room)}`, for one", with_room(room)))

    # ---- rejections

    def of_rejection(self, rule: str) -> None:
        fault = self.answer.fault
        part = self.part_of(fault["part"], fault["place"])
        self.span = Span(part.begin, part.end) if part else None
        if fault["part"] == "budget":
            self.on_budget()
            return
        where = part.name if part else fault["part"]
        if part and part.name == "column":
            where = f"column {self.answer.those('column').index(part) + 1}"
        ways = {"MayDivideByZero": self.on_division, "AccumulatorRange": self.on_sum, "MayOverflow": self.on_overflow}
        if rule in ways and part:
            ways[rule](where, part)

    def part_of(self, section: str, place: int) -> Optional[Part]:
        """The part of which an instruction is: the code of the first columns alone ends in front of it, or behind it."""
        if section in ("where", "budget"):
            return self.part(section)
        columns, window = self.answer.those("column"), self.part("window")
        if not columns or not window:
            return None
        for column in columns:
            text = f"{self.text[:column.end]} {self.text[window.begin:]}"
            code = Answer(self.program, text).said["program"]["code"][section]
            end = len(code) - (2 if section == "fire" else 1)  # behind the columns are what HAVING is, which is none here, and RET
            if place < end:
                return column
        return self.part("having")

    def intervals(self, narrowed: Callable[[int, int], Iterator[Tuple[int, int]]]) -> Iterator[Tuple[str, Part]]:
        """The clauses of fields of numbers with other intervals, each with the part in whose place it stands."""
        for field, part in zip(self.declared.fields if self.declared else (), self.answer.those("field")):
            for low, high in narrowed(field.low, field.high) if field.kind == "INT" else ():
                yield f"FIELD {field.name} INT {low}..{high};", part

    def on_overflow(self, where: str, part: Part) -> None:
        self.sentences.append(f"In {where}: `{cut(part.text)}` may leave 64 bits. Declare narrower fields or fewer RECORDS, or count in a coarser unit.")

        def tenths(low: int, high: int) -> Iterator[Tuple[int, int]]:
            return ((-(-low // 10**power), high // 10**power) for power in range(1, TENTHS + 1))

        for said, field in self.intervals(tenths):
            if self.mend(f"`{said}`", (field.begin, field.end), said):
                return
        self.fewer_records()

    def on_division(self, where: str, part: Part) -> None:
        self.sentences.append(f"In {where}: something may be 0 that is divided by.")

        def above_zero(low: int, high: int) -> Iterator[Tuple[int, int]]:
            return iter([(1, high)] if low <= 0 < high else [])

        for said, field in self.intervals(above_zero):
            self.mend(f"`{said}`, which refuses rows with less", (field.begin, field.end), said)
        for found in re.finditer(r"[/%]\s*(\w+(?:\s*\([^()]*\))?|\([^()]*\))", part.text):
            begin, end = found.span(1)
            self.mend(f"`{cut(found[1])} + 1` as the divisor, which is another number", (part.begin + begin, part.begin + end), f"({found[1]} + 1)")

    def on_sum(self, where: str, part: Part) -> None:
        self.sentences.append(f"In {where}: a SUM of as many values as RECORDS may leave 64 bits. Declare narrower fields, or count in a coarser unit.")
        self.in_two(part)
        self.fewer_records()

    def in_two(self, column: Part) -> None:
        """The whole units and the rest of a sum as two columns, by the smallest unit with which the program takes it."""
        whole, all_columns = re.fullmatch(r"SUM\s*\(\s*((?:[^()]|\([^()]*\))*?)\s*\)", column.text), self.answer.those("column")
        if not whole or len(all_columns) == self.answer.limits.columns:
            return
        value = whole[1] if re.fullmatch(r"\w+", whole[1]) else f"({whole[1]})"
        for unit in UNITS:
            columns = f"SUM({value} / {unit}), SUM({value} % {unit})"
            alone = self.with_at((all_columns[0].begin, all_columns[-1].end), columns)
            if Answer(self.program, alone).status == 0:
                self.mend(f"`{columns}`, which make it up exactly (docs/INVOICES.md, large sums)", (column.begin, column.end), columns)
                return

    def fewer_records(self) -> None:
        """The most RECORDS that the program takes."""
        clock = self.part("clock")
        stated = re.search(r"\bRECORDS\s+(\d+)", clock.text) if clock else None
        if not clock or not stated:
            return
        span = clock.begin + stated.start(), clock.begin + stated.end()
        records = self.greatest(int(stated[1]) - 1, lambda number: self.with_at(span, f"RECORDS {number}"))
        if records:
            self.mends.append(Mend(f"`RECORDS {records};`", self.with_at(span, f"RECORDS {records}")))

    def on_budget(self) -> None:
        costs, part, words = self.answer.said["program"]["costs"], self.part("budget"), ("record", "pane", "held")
        stated, needed = ([costs[which][word] for word in words] for which in ("states", "needs"))
        for word, states, needs in zip(words, stated, needed):
            if states < needs:
                self.sentences.append(f"BUDGET states {word.upper()} {states}, and {needs} may be needed.")
        enough = " ".join(f"{word.upper()} {max(pair)}" for word, *pair in zip(words, stated, needed))
        if part:
            self.mend(f"`BUDGET {enough};`", (part.begin, part.end), f"BUDGET {enough};")


# ---- the command

def words() -> Namespace:
    parser = telling.parser_of("lint", __doc__)
    parser.add_argument("--program", default=asking.program())
    parser.add_argument("queries", nargs="*", default=["-"], metavar="QUERY")
    return parser.parse_args()


def lint(program: str, name: str) -> int:
    """Tells of a query, and answers the status."""
    try:
        text = sys.stdin.buffer.read().decode("latin-1") if name == "-" else asking.read(name)
    except telling.Ended as why:
        telling.tell(str(why))
        return why.status
    linter = Linter(program, text)
    print("\n".join(linter.lines()))
    return linter.status


def main() -> int:
    asked, status = words(), 0
    for number, name in enumerate(asked.queries):
        if len(asked.queries) > 1:
            print(f"{chr(10) * (number > 0)}{name}:", flush=True)
        status = max(status, lint(asked.program, name))
    return status
