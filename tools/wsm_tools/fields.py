"""What the columns of a log are to be, for `propose`: the time, the key, and each field with its type and its words.

A column is all that stands at one place of the lines.
"""
from __future__ import annotations

import re
import unicodedata
from typing import Dict, Iterable, List, Mapping, Optional, Sequence, Set, Tuple, Union

from .asking import is_name, limits
from .logs import ODD, Cells, Number, Odd
from .telling import BAD_WORDS, Ended, printable
from .times import form_of

MOST_WORDS = 50
MOST_SAMPLES = 2000  # texts by which a form of times is found
FEW = 8  # texts that are few in however few lines
LONGEST_KEY = 255  # bytes
GREATEST = 2**63 - 1
TIME_NAME = r"(?i)(.*[/_. @-])?(time|timestamp|ts|t|at|date|datetime|when|zeit)"
PAIRS = [
    (style(yes), style(no))
    for yes, no in (("true", "false"), ("yes", "no"), ("ja", "nein"), ("on", "off"), ("oui", "non"), ("y", "n"), ("t", "f"))
    for style in (str.lower, str.title, str.upper)
]
STATES = set("""
    true false yes no on off y n t f ja nein oui non get head post put delete connect options trace patch http/1.0 http/1.1 http/2.0
    ok okay error err fail failed failure fault success succeeded pass passed good bad up down open opened closed active inactive idle busy
    enabled disabled alive dead running stopped started done pending new paid unpaid accepted rejected denied allowed valid invalid
    unknown none normal low high trace debug info information notice warn warning critical crit alert fatal emerg emergency
""".split())
SIGNS = [(".", None), (".", ","), (",", None), (",", "."), (",", " "), (".", "'")]  # point and group


def name_for(text: str, taken: Iterable[str], other: str) -> str:
    """A name that looks like a text, and that nothing else has."""
    longest = limits().name
    plain = unicodedata.normalize("NFKD", text.replace("ß", "ss"))
    name = re.sub(r"\W+", "_", re.sub("[\u0300-\u036f]", "", plain), flags=re.ASCII).strip("_")[:longest]
    name = name if name[:1].isalpha() or not name else f"{other}_{name}"[:longest]
    name = name or other
    number, found = 1, name
    while found in taken or not is_name(found):
        number += 1
        found = f"{name[:longest - 1 - len(str(number))]}_{number}"
    return found


def names_for(texts: Sequence[str], other: str) -> Dict[str, str]:
    """A name for each text: itself where it is one."""
    names = {text: text for text in texts if is_name(text)}
    taken = set(names)
    for text in texts:
        if text not in names:
            names[text] = name_for(text, taken, other)
            taken.add(names[text])
    return names


# ---- columns

class Decimals:
    """The numbers that some texts are by a point and a sign between groups, by their digits behind the point.

    The scale is the least that nine of ten numbers have: one with more digits says nothing of the others, and is refused.
    """

    def __init__(self, point: str, group: Optional[str]) -> None:
        self.point, self.group, self.count = point, group, 0
        self.found: Dict[int, Sequence[int]] = {}  # how many, the least and the greatest, in parts of the last digit
        apart = re.escape(group or "")
        digits = "[0-9]+" if group is None else rf"(?:[0-9]{{1,3}}(?:{apart}[0-9]{{3}})+|[0-9]+)"
        self.form = re.compile(rf"(-?)({digits})(?:{re.escape(point)}([0-9]{{1,18}}))?")
        self.json_form = re.compile(r"(-?)([0-9]+)(?:\.([0-9]{1,18}))?")

    def read(self, text: Union[str, Odd]) -> Optional[Tuple[int, int]]:
        """How many digits a number has behind the point, and the number in parts of the last."""
        read = None if text is ODD else (self.json_form if isinstance(text, Number) else self.form).fullmatch(text)
        if read is None or len(read[2]) > 40:
            return None
        whole = read[2] if isinstance(text, Number) or not self.group else read[2].replace(self.group, "")
        number = int(read[1] + whole + (read[3] or ""))
        return (len(read[3] or ""), number) if abs(number) <= GREATEST else None

    def take(self, text: str) -> None:
        if read := self.read(text):
            digits, number = read
            count, low, high = self.found.get(digits, (0, number, number))
            self.found[digits] = count + 1, min(number, low), max(number, high)
            self.count += 1

    @property
    def scale(self) -> int:
        return next(most for most in sorted(self.found)
                    if is_most(sum(self.found[digits][0] for digits in self.found if digits <= most), self.count))

    def ends(self) -> Tuple[int, int]:
        """The least and the greatest of those that the scale takes, in its parts."""
        taken = [(digits, number) for digits, (_, *both) in self.found.items() for number in both if digits <= self.scale]
        numbers = [number * 10 ** (self.scale - digits) for digits, number in taken]
        return min(numbers), max(numbers)

    def takes(self, text: Union[str, Odd]) -> bool:
        read = self.read(text)
        return read is not None and read[0] <= self.scale


def is_most(some: int, of: int) -> bool:
    """Whether some are so many that the others are taken for faults."""
    return 10 * some >= 9 * of


class Column:
    """All that stands at a place: how often, which texts while they are not too many, and which numbers they are."""

    def __init__(self, place: str) -> None:
        self.place, self.count, self.odd = place, 0, 0
        self.texts: Dict[str, int] = {}
        self.samples: List[str] = []
        self.tried = [Decimals(*signs) for signs in SIGNS]
        self.is_many = False

    def take(self, text: Union[str, Odd]) -> None:
        if text is ODD:
            self.odd += 1
            return
        self.count += 1
        if len(self.samples) < MOST_SAMPLES:
            self.samples.append(text)
        for numbers in self.tried:
            numbers.take(text)
        if self.count == MOST_SAMPLES:  # what hardly is a column of numbers till here, is none
            self.tried = [numbers for numbers in self.tried if 2 * numbers.count > self.count]
        if text in self.texts or len(self.texts) <= limits().names:
            self.texts[str(text)] = self.texts.get(text, 0) + 1
        else:
            self.is_many = True

    @property
    def numbers(self) -> List[Decimals]:
        """By which signs the texts are numbers, where they mostly are: those first that read the most."""
        read = [numbers for numbers in self.tried if numbers.count and is_most(numbers.count, self.count + self.odd)]
        return sorted(read, key=lambda numbers: -numbers.count)

    def pair(self) -> Optional[Tuple[str, str]]:
        """The words for true and false that its texts are."""
        return next((pair for pair in PAIRS if self.texts.keys() <= set(pair)), None)

    def is_state(self) -> bool:
        """Whether its texts are words of a state, or one text alone: they don't tell one sender from another."""
        return len(self.texts) == 1 or all(text.lower() in STATES for text in self.texts)

    def has_few(self, most: int) -> bool:
        return len(self.texts) <= most and (len(self.texts) <= FEW or 2 * len(self.texts) <= self.count)


def columns_of(lines: Iterable[Cells]) -> Tuple[Dict[str, Column], int]:
    """The columns of lines, and how many lines there are."""
    columns: Dict[str, Column] = {}
    number = 0
    for number, cells in enumerate(lines, 1):
        for place, text in cells.items():
            if place not in columns:
                columns[place] = Column(place)
            columns[place].take(text)
    return columns, number


def column_at(columns: Dict[str, Column], place: str, word: str) -> Column:
    if place not in columns or not columns[place].count:
        there = ", ".join(printable(name) for name, column in columns.items() if column.count)
        raise Ended(f"{word} {place}: nothing stands there; there are {there}", BAD_WORDS)
    return columns[place]


# ---- the time and the key

def time_of(columns: Dict[str, Column], said: Optional[str]) -> Tuple[Column, str, List[str], List[str]]:
    """Where the time stands, its form, forms that read as much, and places that might be it."""
    some = [column_at(columns, said, "--time")] if said is not None else [column for column in columns.values() if column.count]
    found = []
    for column in some:
        has_name = re.fullmatch(TIME_NAME, column.place) is not None
        for plain in ([True] if said is not None else [False, True] if has_name else [False]):
            form, number, others = form_of(column.samples, plain)
            if 2 * number > len(column.samples):
                found.append(((not plain, has_name, number), column, form, others))
                break
    if not found:
        raise Ended("no time is found that a source can read: --time says where it stands, docs/SOURCES.md in which forms")
    best = max(found, key=lambda one: one[0])
    return best[1], best[2], best[3], [column.place for _, column, *_ in found if column is not best[1]]


def key_of(columns: Dict[str, Column], said: Optional[str], time: Column, records: int) -> Tuple[Column, List[str]]:
    """Where the key stands, and places that might be it."""
    if said is not None:
        return column_at(columns, said, "--key"), []

    def fits(column: Column) -> bool:
        is_text = not column.numbers and column.pair() is None
        is_there = 2 * column.count > records and column.odd == 0
        return column is not time and is_text and is_there and not column.is_many and column.has_few(limits().names)

    # A column that most lines have goes before one that all have and that tells how something went, or always the same.
    def rank(column: Column) -> Tuple[bool, bool, bool, int]:
        return not column.is_state(), column.count == records, all(map(is_name, column.texts)), len(column.texts)
    some = sorted(filter(fits, columns.values()), key=rank, reverse=True)
    if not some:
        raise Ended("no text has few values: --key says where the key stands")
    return some[0], [column.place for column in some[1:] if len(column.texts) > 1]


# ---- fields

class Field:
    """A field of the query, and what the source says of it; a doubt is what its texts may mean as well."""

    def __init__(self, name: str, place: str, clause: str, said: Mapping[str, object], words: Mapping[str, str],
                 doubt: str = "", numbers: Optional[Decimals] = None) -> None:
        self.name, self.place, self.clause, self.said, self.words, self.doubt = name, place, clause, said, words, doubt
        self.numbers = numbers

    def refuses(self, text: Union[str, Odd, None]) -> bool:
        """Whether the source refuses what stands there. Where nothing does there is a default."""
        return self.numbers is not None and text is not None and not self.numbers.takes(text)


def doubt_of(numbers: List[Decimals]) -> str:
    """In which other way the numbers of a column can be read."""
    one = numbers[0]
    for other in numbers[1:]:
        scales = 10**one.scale, 10**other.scale
        if other.count == one.count and any(mine * scales[1] != its * scales[0] for mine, its in zip(one.ends(), other.ends())):
            return f"{one.group or one.point!r} is taken to stand " + (
                f"between groups of digits; it may stand in front of a fraction: point = {other.point!r}" if one.group == other.point
                else f"in front of a fraction; it may stand between groups of digits: group = {other.group!r}"
            )
    finest = max(one.found)
    return f"some numbers have more digits behind the point than most: scale = {finest} takes them" if finest > one.scale else ""


def int_field(name: str, column: Column, is_missing: bool) -> Field:
    numbers = column.numbers[0]
    low, high = numbers.ends()
    said: Dict[str, object] = {"scale": numbers.scale} if numbers.scale else {}
    if numbers.point != ".":
        said["point"] = numbers.point
    if numbers.group is not None:
        said["group"] = numbers.group
    if is_missing:
        said["default"] = 0
        low, high = min(low, 0), max(high, 0)
    return Field(name, column.place, f"FIELD {name} INT {low}..{high};", said, {}, doubt=doubt_of(column.numbers), numbers=numbers)


def bool_field(name: str, column: Column, is_missing: bool) -> Field:
    words = column.pair() or PAIRS[0]
    said: Dict[str, object] = {} if words == PAIRS[0] else {"true": words[0], "false": words[1]}
    if is_missing:
        said["default"] = False
    return Field(name, column.place, f"FIELD {name} BOOL;", said, {})


def enum_field(name: str, column: Column, is_missing: bool) -> Field:
    names = names_for(sorted(column.texts), "w")
    declared = list(names.values())
    if is_missing:
        declared.append(name_for("none", declared, "none"))
    said = {"default": declared[-1]} if is_missing else {}
    words = {text: word for text, word in names.items() if text != word}
    return Field(name, column.place, f"FIELD {name} ENUM({', '.join(declared)});", said, words)


def why_not(column: Column) -> Optional[str]:
    """Why a column can't be a field."""
    if column.numbers:
        return None
    if column.odd:
        return "an array or an object stands there"
    if not column.count:
        return "nothing stands there"
    if column.pair():
        return None
    if "" in column.texts:
        return "an empty text stands there"
    if column.is_many or not column.has_few(MOST_WORDS):
        return "too many texts for an ENUM" if not column.is_many else f"more than {limits().names} texts"
    return f"always {printable(next(iter(column.texts)))[:40]}" if len(column.texts) == 1 else None


def fields_of(columns: Dict[str, Column], others: Set[str], records: int) -> Tuple[List[Field], Dict[str, str]]:
    """The fields: all columns but those of the others, with names of their own; and why each that is left out is none."""
    found: List[Field] = []
    left: Dict[str, str] = {}
    some = [column for column in columns.values() if column.place not in others]
    names = {column.place for column in some if is_name(column.place)}
    for column in some:
        why = why_not(column)
        if why is None and len(found) == limits().fields:
            why = f"a query has at most {limits().fields} fields"
        if why is not None:
            left[column.place] = why
            continue
        name = column.place if is_name(column.place) else name_for(column.place, names, "f")
        names.add(name)
        found.append(field_of(name, column, column.count < records))
    return found, left


def field_of(name: str, column: Column, is_missing: bool) -> Field:
    if column.numbers:
        return int_field(name, column, is_missing)
    return bool_field(name, column, is_missing) if column.pair() else enum_field(name, column, is_missing)
