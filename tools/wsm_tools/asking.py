"""What the program says of a query: what is declared, what its columns are, what it needs, and why it is refused.

All of it is asked by `wsm explain --json` (docs/FORMATS.md, what tools may ask): no rule of queries stands in a tool.
"""
from __future__ import annotations

import os
import re
from functools import cache
from typing import IO, TYPE_CHECKING, Any, Dict, FrozenSet, List, NamedTuple, Optional, Sequence, Union

from .telling import BAD_QUERY, BAD_READ, BAD_WORDS, REJECTED, Ended, named, shown

if TYPE_CHECKING:
    from subprocess import CompletedProcess

TOP = os.path.dirname(os.path.dirname(os.path.dirname(os.path.realpath(__file__))))
NO_LIMIT = 2**63 - 1


def lies_at(*names: str) -> str:
    """The path of a file of the folder that the tools' folder lies in."""
    return os.path.join(TOP, *names)


def program() -> str:
    """The program that the variable WSM names, or the one beside the tools' folder, or that on PATH."""
    beside = lies_at("wsm")
    return os.environ.get("WSM") or (beside if os.path.exists(beside) else "wsm")


def there() -> Optional[str]:
    """The program that WSM names, or that stands beside the tools' folder. The script of a checkout isn't asked to build it."""
    built, beside = lies_at("crates/wsm_cli/out/wsm_cli"), lies_at("wsm")
    found = built if os.path.exists(lies_at("crates")) else beside
    return os.environ.get("WSM", found if os.path.exists(found) else "") or None


def asked_of(wsm: str, *words: str) -> CompletedProcess[str]:
    """What the program answers to some words."""
    import subprocess

    with named(wsm, BAD_WORDS):
        return subprocess.run([wsm, *words], stdin=subprocess.DEVNULL, capture_output=True, encoding="latin-1")


def written(text: str) -> IO[str]:
    """A file with a text of one byte a letter, which goes with it."""
    from tempfile import NamedTemporaryFile

    file = NamedTemporaryFile("w", suffix=".wsm", encoding="latin-1", newline="")
    file.write(text)
    file.flush()
    return file


# ---- what it says

class Part(NamedTuple):
    """A part of a text, which begins and ends at these bytes of it."""
    name: str  # as `keys`, `field` or `column`
    begin: int
    end: int
    text: str


class Field(NamedTuple):
    name: str
    kind: str  # INT, BOOL or ENUM
    low: int
    high: int
    names: Sequence[str]


class Column(NamedTuple):
    text: str
    kind: str  # INT, BOOL or ENUM
    names: Sequence[str]  # of an ENUM, which are the keys or those of a field
    way: str  # how columns of two panes that share no record come to that of both: sum, least, greatest, same or not


class Limits(NamedTuple):
    """The words that are no names; the most columns, fields and names of a query, the latest time, and the longest window
    and name."""
    words: FrozenSet[str]
    columns: int
    fields: int
    latest: int
    longest: int
    name: int
    names: int


@cache
def limits() -> Limits:
    """Those of the program that is there; without one there are none."""
    wsm = there()
    return Answer(wsm, "").limits if wsm else Limits(frozenset(), *[NO_LIMIT] * 6)


def is_name(word: str) -> bool:
    """Whether a word may be a key, a field, or a name of one."""
    known = limits()
    return re.fullmatch(r"[A-Za-z]\w*", word, re.ASCII) is not None and len(word) <= known.name and word not in known.words


class Answer:
    """What the program says of a text, which it may refuse."""

    def __init__(self, wsm: str, text: str) -> None:
        import json

        self.text, self.program = text, wsm
        with written(text) as file:
            ran = asked_of(wsm, "explain", "--json", "--query", file.name)
        if ran.returncode not in (0, BAD_QUERY, REJECTED):
            raise Ended(ran.stderr.strip() or f"wsm explain was ended by signal {-ran.returncode}", ran.returncode if ran.returncode > 0 else 1)
        self.status = ran.returncode
        self.said: Dict[str, Any] = json.loads(ran.stdout)
        self.fault: Dict[str, Any] = self.said["fault"] or {}
        self.limits = Limits(frozenset(self.said["words"]), **self.said["limits"])
        begins = [0, *(found.end() for found in re.finditer("\n", text))]
        self.parts: List[Part] = []
        for part in self.said["parts"] or []:
            begin = begins[part["line"] - 1] + part["column"] - 1
            end = begin + part["length"]
            self.parts.append(Part(part["part"], begin, end, text[begin:end]))
        self.line_begins = begins

    def place(self) -> int:
        """Where the fault of a text lies that can't be read."""
        return int(self.line_begins[self.fault["line"] - 1] + self.fault["column"] - 1)

    def line(self) -> str:
        """The line that tells of the text: a refusal as `run` tells it, or what is accepted as `verify` does."""
        if self.status:
            return f"wsm: {self.fault['told']}"
        needs = self.said["program"]["costs"]["needs"]
        return f"accepted,{needs['record']},{needs['pane']},{needs['held']}"

    def those(self, *names: str) -> List[Part]:
        return [part for part in self.parts if part.name in names]

    def one(self, name: str) -> Optional[Part]:
        return next(iter(self.those(name)), None)


class Query:
    """A query that the program takes, or at least reads and compiles."""

    def __init__(self, answer: Answer, keys: Optional[Sequence[str]] = None, takes_new: bool = False) -> None:
        said = answer.said["program"]
        declares, output, clock = said["declares"], said["output"], said["clock"]
        window, firing = output["window"], output["firing"]
        self.answer, self.is_named, self.takes_new = answer, keys is not None, takes_new  # whether it has keys of a file, and others that come
        self.keys: Sequence[str] = declares["keys"] if keys is None else keys
        self.key_set: FrozenSet[str] = frozenset(self.keys)
        self.fields = [field_of(field) for field in declares["fields"]]
        self.sources: List[str] = declares["sources"]
        self.start, self.skew, self.lateness, self.records = (int(clock[name]) for name in ("start", "skew", "lateness", "records"))
        self.from_window: bool = clock["from_window"]
        self.shape: str = window["shape"]
        self.size = int(window["gap"] if self.shape == "SESSION" else window["size"])
        self.period = int(window.get("slide", self.size))
        self.mode: str = firing["mode"]
        self.form: str = firing["form"]
        self.early: Optional[int] = firing["early"]
        self.late: Optional[int] = firing["late"]
        self.kinds = [*["early"] * bool(self.early), "on_time", *["late"] * bool(self.late), "final"]  # of panes
        self.columns = [
            Column(" ".join(part.text.split()), kind["type"], self.names_of(kind), way)
            for part, kind, way in zip(answer.those("column"), output["columns"], answer.said["joins"])
        ]
        self.where, self.having = answer.one("where"), answer.one("having")
        self.sum = int(answer.said["sum"])

    def has_window(self, window: Sequence[Union[str, int]]) -> bool:
        """Whether it has a window from one time up to another one."""
        begins, ends = map(int, window)
        if self.shape == "SESSION":
            return ends - begins >= self.size
        return ends - begins == self.size and begins % self.period == 0

    def names_of(self, kind: Dict[str, Any]) -> Sequence[str]:
        number = int(kind.get("enum", -1))
        return () if number < 0 else self.fields[number - 1].names if number else self.keys


def field_of(said: Dict[str, Any]) -> Field:
    interval = said.get("range", {})
    return Field(said["name"], said["type"], interval.get("least", 0), interval.get("greatest", 0), said.get("names", ()))


def read(path: str) -> str:
    """The text of a file of one byte a letter."""
    with named(path, BAD_READ), open(path, encoding="latin-1", newline="") as file:
        return file.read()


def query_of(path: str, wsm: Optional[str]) -> Query:
    """The query of a file. One that is refused is told with the file's name."""
    answer = Answer(wsm or program(), read(path))
    if answer.status == BAD_QUERY:
        raise Ended(f"{path}: {answer.fault['told']}", BAD_QUERY)
    return Query(answer)


# ---- what else is asked of it

def words_of(text: str) -> List[str]:
    """The words and signs of a text, by which two texts are compared whatever their blanks."""
    return re.findall(r"\w+|[.<>=]+|[^\w\s]", text)


def is_counted(query: Query) -> bool:
    """Whether the records that WHERE selects can be counted: lateness from the end of a window hangs on the window, and
    then a record must stand in one alone. A run by the names of a file reads no KEY."""
    reads_key = query.is_named and query.where is not None and re.search(r"\bKEY\b", query.where.text)
    return not reads_key and (query.shape == "FIXED" or not query.from_window)


def selecting(query: Query, window: str, having: str) -> str:
    """A query with the same clock and the same WHERE, which fires with each record that it selects."""
    parts = [part.text for part in query.answer.those(*["keys"] * (not query.is_named), "field", "sources", "clock")]
    where = [f"WHERE {query.where.text}"] if query.where else []
    rest = f"WINDOW {window} DISCARDING EARLY EVERY 1 LATE EVERY 1 EMIT PANES;"
    return "\n".join([*parts, "SELECT COUNT(*)", *where, *([having] if having else []), rest])


def selected(query: Query, wsm: str, words: Sequence[str], rows: str, end: bytes) -> Optional[int]:
    """How many records were selected of a file's rows, or None where it has others by now than those of an end row.

    Each is counted by its firing, and no pane is written: so the end row has as PANES how many there are, and else what
    the end row of the query's own run has.
    """
    size = query.size if query.from_window else max(1, min(query.answer.limits.longest, query.skew + query.lateness))
    with written(selecting(query, f"FIXED {size}", "HAVING COUNT(*) < 0")) as file:
        ran = asked_of(wsm, "run", *words, file.name, rows)
    if ran.returncode:
        raise Ended(f"the records of {rows} weren't counted, status {ran.returncode}: {shown(ran.stderr.strip().encode('latin-1'))}", BAD_READ)
    told = ran.stdout.encode("latin-1").rsplit(b"\n", 2)[-2]
    return int(told.rsplit(b",", 1)[1]) if told.rsplit(b",", 1)[0] == end.rsplit(b",", 1)[0] else None
