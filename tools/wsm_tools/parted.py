"""Keys of which the program deals a block to each part, and the parts' queries."""
from __future__ import annotations

import re
from bisect import bisect_left
from typing import Callable, Dict, Optional, Sequence, Tuple

from .asking import Answer, Query, asked_of, read
from .telling import BAD_QUERY, REJECTED, Ended


def put(path: str, text: str) -> None:
    """Writes a text of one byte a letter to a file."""
    with open(path, "w", encoding="latin-1") as file:
        file.write(text)


def without_keys(told: str) -> str:
    """A refusal by the lines of the user's file, which lacks the KEYS clause that a part's query has as its first line."""
    return re.sub(r"(?<= at )\d+(?=:)", lambda line: str(int(line[0]) - 1), told)


class Parted:
    """A query's text without its KEYS clause, and the file of its keys, a name a line."""

    def __init__(self, wsm: str, query: str, keys: str) -> None:
        self.program, self.path, self.keys = wsm, query, keys
        self.clauses: Dict[Tuple[int, int], str] = {}
        self.text = read(query)
        if re.match(r"\s*KEYS\b", self.text):
            raise Ended(f"{query} has a KEYS clause: leave it out, the keys stand in a file of their own")
        self.names = read(keys).removesuffix("\n").split("\n")
        # Keys that the text speaks of, as KEY.a, are declared in each part.
        self.named = sorted(set(re.findall(r"\bKEY\s*\.\s*(\w+)", self.text)).intersection(self.names))

    def clause(self, parts: int, number: int) -> str:
        """The KEYS clause of a part, as the program deals the keys."""
        place = parts, number
        if place not in self.clauses:
            self.clauses[place] = self.answer("deal", "--keys-of", self.keys, str(parts), str(number))
        return self.clauses[place]

    def deal_keys(self, parts: int, out: str) -> None:
        """Asks for the clauses of all parts at once: the program deals the keys as rows, to files of this name."""
        put(f"{out}rows", "".join(f"r,{name}\n" for name in self.names))
        self.answer("deal", self.keys, str(parts), out, f"{out}rows")
        for number in range(parts):
            names = ", ".join(row.removeprefix("r,") for row in read(f"{out}{number}").splitlines())
            self.clauses[parts, number] = f"KEYS {names};"

    def answer(self, *words: str) -> str:
        """What the program writes; its line and its status are raised where that isn't 0."""
        ran = asked_of(self.program, *words)
        if ran.returncode < 0:
            raise Ended(f"wsm {words[0]} was ended by signal {-ran.returncode}", 128 - ran.returncode)
        if ran.returncode:
            raise Ended(without_keys((ran.stderr or ran.stdout).strip()), ran.returncode)
        return ran.stdout

    def nearest(self, parts: int) -> int:
        """How many parts the program takes in the place of so many: with less one has too many keys, with more some have none."""
        try:
            self.clause(parts, 0)
        except Ended as why:
            if found := re.search(r"(\d+) would do$", str(why)):
                return int(found[1])
            raise
        return parts

    def text_of(self, parts: int, number: int, form: Optional[str] = None) -> str:
        """The query of a part, with another form of its stream where one is given."""
        own = self.clause(parts, number).strip().removesuffix(";")
        there = set(re.findall(r"\w+", own))
        text = re.sub(r"\b[DI]STREAM\b", form, self.text) if form else self.text
        return f"{', '.join([own, *(name for name in self.named if name not in there)])};\n{text}"

    def query(self, words: Sequence[str], takes_new: bool = False) -> Query:
        """The query with all of its keys, which a run of these words takes, or where it writes a stream or reads KEY, `many-keys`."""
        answer = Answer(self.program, f"KEYS {', '.join(self.named) or 'p0'};\n{self.text}")
        if answer.status:
            raise Ended(f"{self.path}: {without_keys(answer.fault['told'])}", answer.status)
        query = Query(answer, self.names, takes_new)
        try:
            if takes_new or query.form == "PANES" and not re.search(r"\bKEY\b", self.text):
                self.answer("run", *words, self.path, "/dev/null")
            else:
                self.nearest(len(self.names))
        except Ended as why:
            raise Ended(f"{self.keys}: {str(why).removeprefix('wsm: ')}", why.status) from None
        return query

    def judge(self, path: str, parts: int, number: int, form: Optional[str] = None) -> None:
        """Writes the query of a part, which the program must accept."""
        put(path, self.text_of(parts, number, form))
        self.answer("verify", "--query", path)

    def is_accepted(self, parts: int, path: str) -> bool:
        """Whether all parts are, by the first ones, which are written there: of these one has as many keys as any has."""
        try:
            for number in range(min(parts, len(self.named) + 1)):
                self.judge(path, parts, number)
        except Ended as why:
            if why.status not in (BAD_QUERY, REJECTED):
                raise
            return False
        return True

    def fewest(self, is_taken: Callable[[int], bool], most: Optional[int] = None) -> int:
        """The least number of parts that is taken, of at most so many keys where that is said; no part has more than the program takes."""
        count = len(self.names)
        low = high = self.nearest(-(-count // (most or count)))
        while high < count and not is_taken(self.nearest(high)):
            low, high = high + 1, min(2 * high, count)
        return self.nearest(bisect_left(range(high + 1), True, low, high, key=lambda parts: is_taken(self.nearest(parts))))
