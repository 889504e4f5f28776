"""The table of a query's panes or of its stream, and what each line does there."""
from __future__ import annotations

import re
from itertools import groupby, takewhile
from operator import itemgetter
from typing import Any, Callable, Dict, List, Optional, Sequence, Set, Tuple, Type, Union

from .asking import Column, Query
from .rows import WHOLE
from .tables import File, Rows, Server, Work
from .telling import BAD_QUERY, BAD_WORDS, Ended

NAME = "[A-Za-z_][A-Za-z0-9_]{0,62}"
KEY = '[^",\r]{1,255}|"(?:[^"]|""){1,255}"'     # of a file, or one that came: any bytes, as a cell of CSV
WINDOW = ("key", "begins", "ends")
EVERY = slice(None)
CELLS = {"INT": WHOLE, "BOOL": "true|false", "ENUM": NAME}
RETRACTED = "DELETE FROM panes WHERE key = ?1 AND begins = ?2 AND ends = ?3"
GROWN_OUT_OF = "DELETE FROM panes WHERE key = ?1 AND begins >= ?2 AND ends <= ?3"  # the sessions of a key inside one that grew


def name_of(column: Column, fields: Sequence[str]) -> Optional[str]:
    """The name of a column whose text says what it is: a count, or an aggregate of a field."""
    words = re.findall(r"\w+|[^\w\s]", column.text)
    if words == ["COUNT", "(", "*", ")"]:
        return "count"
    is_of_field = len(words) == 4 and words[1::2] == ["(", ")"] and words[2] in fields
    return f"{words[0]}_{words[2]}".lower() if is_of_field else None


def names_of(query: Query) -> List[str]:
    fields = [field.name for field in query.fields]
    names = [name_of(column, fields) for column in query.columns]
    return [name if name and names.index(name) == at else f"column{at + 1}" for at, name in enumerate(names)]


Check = Tuple[Callable[[Sequence[str]], Any], Callable[[Any], bool]]  # what is seen of a line's cells, and whether that may be


class Keys:
    """The keys of lines: each by its cell, which the table mostly has as it is."""

    def __init__(self, query: Query) -> None:
        self.pattern = KEY if query.is_named else NAME
        self.names = None if query.takes_new else query.key_set
        self.plain: Set[str] = set()

    def text_of(self, cell: str) -> Optional[str]:
        """What the table has for a cell, or None where that is no key: its bytes as UTF-8; those that are none, and NUL, as
        \\xHH, and a backslash in front of such a text as \\x5c, so that no two keys have one text."""
        name = cell[1:-1].replace('""', '"') if cell.startswith('"') else cell
        if self.names is not None and name not in self.names:
            return None
        escaped = re.sub(rb"\\(?=x[0-9a-f]{2})", rb"\\x5c", name.encode("latin-1"))
        return escaped.decode("utf-8", "backslashreplace").replace("\0", "\\x00")

    def known(self, rows: Rows, at: int) -> Rows:
        """Rows up to the first whose cell at this place is no key, with the text of each."""
        texts = {cell: self.text_of(cell) for cell in set(map(itemgetter(at), rows)) - self.plain}
        self.plain.update(cell for cell, text in texts.items() if cell == text)
        if texts.keys() <= self.plain:
            return rows
        known = takewhile(lambda row: row[at] in self.plain or texts[row[at]] is not None, rows)
        return [(*row[:at], texts.get(row[at]) or row[at], *row[at + 1:]) for row in known]


class Kind:
    """The lines of a tag: a pattern with a group for each cell that is used, what else is asked of these, and the
    statements of a line, each with the cells that it takes. Of panes the place of the key among the cells, and the keys."""

    def __init__(self, pattern: str, checks: Sequence[Check], statements: Sequence[Tuple[str, slice]], key: int, keys: Keys) -> None:
        self.match = re.compile(pattern).fullmatch
        self.checks, self.statements, self.key, self.keys = checks, statements, key, keys

    def rows(self, lines: Sequence[str]) -> Rows:
        """The cells of lines, up to the first that isn't one of these."""
        rows: Rows = []
        for found in map(self.match, lines):
            if found is None:
                break
            rows.append(found.groups())
        for seen, may_be in self.checks:
            if strange := {one for one in set(map(seen, rows)) if not may_be(one)}:
                rows = rows[: next(number for number, row in enumerate(rows) if seen(row) in strange)]
        return self.keys.known(rows, self.key) if self.key >= 0 else rows

    def works(self, rows: Rows) -> List[Work]:
        """What lines of such cells do, in their order."""
        if len(self.statements) == 1:
            statement, cells = self.statements[0]
            return [Work(statement, [row[cells] for row in rows])]
        return [Work(statement, [row[cells]]) for row in rows for statement, cells in self.statements]


class Form:
    def __init__(self, query: Query, names: Optional[Sequence[str]], place: Type[Union[File, Server]]) -> None:
        self.query, self.is_stream = query, query.form != "PANES"
        self.names = names or names_of(query)
        self.table = query.form.lower()
        self.check_names()
        self.check_mode()
        self.greatest, self.least, self.whole = place.GREATEST, place.LEAST, place.WHOLE
        kinds = {"INT": place.WHOLE, "BOOL": place.TRUTH}
        self.types = [kinds.get(column.kind, "TEXT") for column in query.columns]
        self.is_grown = query.shape == "SESSION" and query.mode != "RETRACTING"
        self.insertion = self.inserting()
        self.kinds = self.kinds_of_lines()

    def check_names(self) -> None:
        own = ("watermark",) if self.is_stream else (*WINDOW, "kind")
        lower = [name.lower() for name in self.names]
        if len(lower) != len(self.query.columns):
            raise Ended(f"SELECT has {len(self.query.columns)} columns, and --columns names {len(lower)}", BAD_WORDS)
        for name in lower:
            if not re.fullmatch(NAME, name) or lower.count(name) > 1 or name in own:
                raise Ended(f"{name} can't name a column: say others with --columns", BAD_WORDS)

    def check_mode(self) -> None:
        """That what lines do there comes to what all records do."""
        query, why = self.query, None
        fires_once = query.early is None and query.late is None and query.lateness == 0 and query.shape != "SESSION"
        self.ways = ["same"] * len(query.columns)
        if self.is_stream or fires_once:
            return
        if query.mode == "ACCUMULATING" and query.having is not None:
            why = "a pane for which HAVING holds no longer isn't written, so the table would keep the one before it"
        if query.mode == "DISCARDING":
            self.ways = [column.way for column in query.columns]
            if "not" in self.ways:
                why = f"column {self.ways.index('not') + 1} isn't a sum, a count, a greatest or a least, and can't be added up"
            if query.having is not None:
                why = "amounts for which HAVING doesn't hold aren't written, so the table would lack them"
            if query.shape == "SESSION":
                why = "the amounts of a session that grows are of several windows"
        if why:
            raise Ended(f"{query.mode}: {why}. Take RETRACTING", BAD_QUERY)

    def columns(self) -> List[str]:
        told = [f'"{name}" {kind}' for name, kind in zip(self.names, self.types)]
        if self.is_stream:
            return [f"watermark {self.whole}", *told]
        return ["key TEXT", f"begins {self.whole}", f"ends {self.whole}", *told, "kind TEXT", "PRIMARY KEY (key, begins, ends)"]

    def cells(self) -> str:
        """What the cells of the columns are, as a pattern with a group for each."""
        return "".join(f",({CELLS[column.kind]})" for column in self.query.columns)

    def checks(self, front: int) -> List[Check]:
        """What is asked of the cells of lines, of which so many stand in front of those of the columns."""
        checks: List[Check] = [
            (itemgetter(at), frozenset(column.names).__contains__)
            for at, column in enumerate(self.query.columns, front) if column.kind == "ENUM"
        ]
        if not self.is_stream:
            checks.append((itemgetter(front - 2, front - 1), self.query.has_window))
        return checks

    def kinds_of_lines(self) -> Dict[str, Kind]:
        """What the lines of each tag are and do."""
        put, keys = (self.insertion, EVERY), Keys(self.query)
        if self.is_stream:
            return {self.table: Kind(f"{self.table},({WHOLE}){self.cells()}", self.checks(1), [put], -1, keys)}
        window = f"({keys.pattern}),({WHOLE}),({WHOLE})"
        puts = [(GROWN_OUT_OF, slice(1, 4)), put] if self.is_grown else [put]
        kinds = {"pane": Kind(f"pane,({'|'.join(self.query.kinds)}),{window}{self.cells()}", self.checks(4), puts, 1, keys)}
        if self.query.mode == "RETRACTING":
            kinds["retract"] = Kind(f"retract,{window}{self.cells()}", self.checks(3), [(RETRACTED, slice(0, 3))], 0, keys)
        return kinds

    def works(self, lines: Sequence[str]) -> Tuple[List[Work], int]:
        """What lines do, and how many they are up to the first that is none of this query."""
        works: List[Work] = []
        count = 0
        for tag, alike in groupby(lines, key=lambda line: line.partition(",")[0]):
            those = list(alike)
            rows = self.kinds[tag].rows(those) if tag in self.kinds else []
            works += self.kinds[tag].works(rows) if rows else []
            count += len(rows)
            if len(rows) < len(those):
                break
        return works, count

    def inserting(self) -> str:
        """The statement that puts a row in, by the groups of its line."""
        count = len(self.query.columns)
        places = range(1, count + 2) if self.is_stream else (*range(2, count + 5), 1)
        text = f"INSERT INTO {self.table} VALUES ({', '.join(f'?{place}' for place in places)})"
        if self.is_stream or self.query.mode == "RETRACTING" or self.is_grown:
            return text
        sets = []
        for name, way in zip(self.names, self.ways):
            old, new = f'panes."{name}"', f'excluded."{name}"'
            call = {"sum": f"{old} + {new}", "greatest": f"{self.greatest}({old}, {new})", "least": f"{self.least}({old}, {new})"}
            sets.append(f'"{name}" = {call.get(way, new)}')
        return f"{text} ON CONFLICT (key, begins, ends) DO UPDATE SET {', '.join(sets)}, kind = excluded.kind"
