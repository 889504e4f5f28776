"""The lines of a log of JSON, CSV or the combined form of an access log, each as the texts that stand at its places.

A place is what `at` of a source is: a member's name or a pointer, a column's name, a cell of an access line. The rules
are those of docs/SOURCES.md. Where nothing stands there is no text, and ODD is what has none: an array or an object.
"""
from __future__ import annotations

import re
from enum import Enum
from typing import Any, Callable, Dict, List, NamedTuple, NoReturn, Optional, Sequence, Tuple, Union

from . import rows
from .rows import MARK_OF_ORDER
from .telling import Ended, Signals

LONGEST = 1 << 20  # bytes of a line, where a source doesn't say more
CELLS = "host ident user time request status bytes referer agent method path protocol".split()
QUOTED = r'"((?:[^"\\]|\\.)*)"'
ACCESS = rf"([^ ]*) ([^ ]*) ([^ ]*) \[([^\]]*)\] {QUOTED} ([^ ]*) ([^ ]*) {QUOTED} {QUOTED}"
SEPARATORS = (",", ";", "\t", "|")
ROWS = rb"r,[^,]*,[^,]*|w,[0-9]+$|w,[A-Za-z]\w*,[0-9]+$"
SAMPLE = 50  # lines by which the form of a log is found
DEEPEST = 128


class Odd(Enum):
    """What has no text."""
    ODD = 0


ODD = Odd.ODD
Cells = Dict[str, Union[str, Odd]]  # texts, numbers as JSON writes them, and ODD
Reader = Callable[[str], Optional[Cells]]


class Number(str):
    """The text of what JSON itself writes as a number."""


def whole_log(descriptor: int) -> List[bytes]:
    """The lines of a log without their ends."""
    parts = []
    while text := Signals.read(descriptor, rows.LONGEST):
        parts.append(text)
    lines = b"".join(parts).removeprefix(MARK_OF_ORDER).split(b"\n")
    if not lines[-1]:
        lines.pop()
    return [line[:-1] if line.endswith(b"\r") else line for line in lines]


def text_of(line: bytes) -> Optional[str]:
    try:
        return line.decode() if len(line) <= LONGEST else None
    except UnicodeDecodeError:
        return None


# ---- JSON

def refuse(word: str) -> NoReturn:
    raise ValueError(word)


def pointer(names: Sequence[str]) -> str:
    if len(names) == 1 and names[0] and not names[0].startswith("/"):
        return names[0]
    return "".join("/" + name.replace("~", "~0").replace("/", "~1") for name in names)


def put_members(value: Dict[str, Any], names: List[str], cells: Cells) -> None:
    """Puts what stands at the members of an object, and at those of its members, into cells."""
    if len(names) >= DEEPEST - 1:
        raise ValueError("too deep")
    for name, member in value.items():
        at = names + [name]
        if isinstance(member, dict):
            cells[pointer(at)] = ODD
            put_members(member, at, cells)
        elif isinstance(member, bool):
            cells[pointer(at)] = "true" if member else "false"
        elif member is not None:
            cells[pointer(at)] = ODD if isinstance(member, list) else member


def json_cells(text: str) -> Optional[Cells]:
    import json

    cells: Cells = {}
    try:
        value = json.loads(text, parse_int=Number, parse_float=Number, parse_constant=refuse)
        if not isinstance(value, dict):
            return None
        if "\\u" in text:
            json.dumps(value, ensure_ascii=False).encode()  # half of a pair of surrogates is no text
        put_members(value, [], cells)
    except (ValueError, RecursionError):
        return None
    return cells


# ---- an access log

def access_cells(text: str) -> Optional[Cells]:
    read = re.fullmatch(ACCESS, text, re.S)
    if read is None:
        return None
    words = read[5].split(" ")
    cells = [*read.groups(), *(words if len(words) == 3 else ["", "", ""])]
    return {name: cell for name, cell in zip(CELLS, cells) if cell not in ("", "-")}


# ---- CSV

def row_of(text: str, separator: str) -> Optional[List[str]]:
    """The cells of a row by the grammar of RFC 4180, on one line."""
    if "\0" in text:
        return None
    if '"' not in text:
        return text.split(separator)
    apart = re.escape(separator)
    cell = rf'(?:"((?:[^"]|"")*)"|((?:(?!{apart})[^"])*))'
    if not re.fullmatch(rf"{cell}(?:{apart}{cell})*", text):
        return None
    found = re.finditer(rf"(?:\A|{apart}){cell}", text)
    return [read[1].replace('""', '"') if read[1] is not None else read[2] for read in found]


def csv_reader(names: Sequence[str], header: str, separator: str) -> Reader:
    """What reads a line below a header with these names."""

    def read(text: str) -> Optional[Cells]:
        row = row_of(text, separator)
        if row is None or len(row) != len(names) or text == header:
            return None
        cells = dict(zip(reversed(names), reversed(row)))  # of a column that comes twice the first counts
        return {name: cells[name] for name in names if name and cells[name]}
    return read


def separator_of(lines: Sequence[bytes]) -> str:
    """What most of some lines have as often as the first one."""
    texts = [text for text in map(text_of, lines) if text is not None]

    def like_header(separator: str) -> Tuple[int, int]:
        sizes = [len(row_of(text, separator) or []) for text in texts]
        agreeing = sum(size == sizes[0] for size in sizes) if sizes and sizes[0] > 1 else 0
        return agreeing, sizes[0] if sizes else 0
    return max(SEPARATORS, key=like_header)


# ---- which of them it is

def format_of(lines: Sequence[bytes]) -> str:
    """The form of a log by its first lines."""
    some = [line for line in lines[:SAMPLE] if line]
    texts = [text for text in map(text_of, some) if text is not None]
    if some and 2 * sum(re.match(ROWS, line) is not None for line in some) > len(some):
        return "rows"
    for name, read in (("json", json_cells), ("access", access_cells)):
        if 2 * sum(read(text) is not None for text in texts) > len(texts):
            return name
    if texts and any(separator in texts[0] for separator in SEPARATORS):
        return "csv"
    raise Ended("the first lines are no JSON, no CSV and no access log: --format says which, docs/LOGS.md what to do with others")


class Read(NamedTuple):
    """What reads a line of a log; of CSV what stands between its cells, and the names in its header."""
    reader: Reader
    separator: str = ","
    names: Sequence[str] = ()


def reader_of(form: str, lines: Sequence[bytes]) -> Read:
    if form != "csv":
        return Read(json_cells if form == "json" else access_cells)
    header = text_of(lines[0]) if lines else None
    separator = separator_of(lines[:SAMPLE])
    names = row_of(header, separator) if header else None
    if header is None or names is None:
        raise Ended("the first line is no header of CSV")
    return Read(csv_reader(names, header, separator), separator, names)
