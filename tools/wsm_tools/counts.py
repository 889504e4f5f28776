"""What became of the rows of a run, as its lines tell it: the tables `counts`, which adds up, and `refused`.

Of counts each part has a row for each of these: `in`, the rows; `selected` and `left out`, the records that were admitted by
what WHERE says of them, or `admitted` where that isn't counted; `late`; and `watermarks` that were accepted, or `doubles`
of a log. These an end row alone tells. `refused WORD` are the refused rows by their word. `number` is how many there are so
far, and NULL where a run goes on that hasn't told it yet; `at_end` is how many there were at the last end row, and there
`in` is the sum of all others; `at_cut` at the end row behind which rows were cut off. What isn't known is NULL: where rows
were cut off behind which no end row came, or of a stream, that is so of all that an end row alone tells, but for `in`.

Of refused each word has its last hundred rows, by their number among those of the word.
"""
from __future__ import annotations

import re
from collections import Counter
from typing import Callable, Dict, Iterable, List, Optional, Sequence, Tuple

from .kept import Head
from .rows import END, REFUSAL
from .telling import Ended

KEPT = 100  # rows of each word
UNKNOWN = -1
SPLIT, WHOLE = ("selected", "left out"), ("admitted",)
RESTS = ("watermarks", "doubles")  # what is neither admitted nor late nor refused: of rows, and of a log
WHATS = "in, selected, left out, admitted, late, watermarks, doubles, refused WORD"  # for who looks at the table


def made(whole: str) -> List[str]:
    """What makes both tables, of an older table `refused` with each refused row where there is one."""
    older = "refused_before"
    numbered = ("SELECT part, word, row, ROW_NUMBER() OVER (PARTITION BY part, word ORDER BY row) AS number,"
                f" COUNT(*) OVER (PARTITION BY part, word) AS most FROM {older}")
    return [
        f"CREATE TABLE counts (part TEXT, what TEXT /* {WHATS} */, number {whole}, at_end {whole}, at_cut {whole}, PRIMARY KEY (part, what))",
        f"CREATE TABLE IF NOT EXISTS refused (part TEXT, row {whole}, word TEXT)",
        f"ALTER TABLE refused RENAME TO {older}",
        f"CREATE TABLE refused (part TEXT, word TEXT, number {whole}, row {whole}, PRIMARY KEY (part, word, number))",
        f"INSERT INTO counts SELECT part, 'refused ' || word, COUNT(*), NULL, NULL FROM {older} GROUP BY part, word",
        f"INSERT INTO refused SELECT part, word, number, row FROM ({numbered}) AS numbered WHERE number > most - {KEPT}",
        f"DROP TABLE {older}",
    ]


def refusal_of(line: str) -> Optional[Tuple[int, str]]:
    """The row and the word of a line that tells of a refused row, else None."""
    found = re.fullmatch(REFUSAL, line)
    return (int(found[1]), found[2]) if found else None


class Counts:
    """Those of a part, a text of SQL. Of a file of rows that was cut, the head, and how many records were kept, or None."""

    def __init__(self, part: str, is_log: bool, is_split: bool, head: Head, records_kept: Optional[int]) -> None:
        self.part, self.is_split, self.head, self.records_kept = part, is_split, head, records_kept
        self.names = ("in", *(SPLIT if is_split else WHOLE), "late", RESTS[is_log])
        self.refused: Counter[str] = Counter()  # by word, in the table
        self.passed: Counter[str] = Counter()  # and of lines that were passed over
        self.at_end: Dict[str, int] = {}
        self.at_cut: Dict[str, int] = {}
        self.new: List[Tuple[str, int, int]] = []   # refused rows that are still to be written: word, number and row
        self.told = 0   # how many refused rows this run has told

    # ---- at the start

    def questions(self) -> Tuple[str, str]:
        """What the tables have of the part."""
        known = ", ".join(f"COALESCE({column}, {UNKNOWN})" for column in ("number", "at_end", "at_cut"))
        return (f"SELECT what, {known} FROM counts WHERE part = {self.part}",
                f"SELECT word, COUNT(*), MAX(number) FROM refused WHERE part = {self.part} GROUP BY word")

    def read(self, rows: Iterable[Sequence[str]], refused: Iterable[Sequence[str]]) -> None:
        """Takes what the tables have, which must add up."""
        for what, *numbers in rows:
            number, self.at_end[what], self.at_cut[what] = map(int, numbers)
            if what.startswith("refused "):
                self.refused[what.removeprefix("refused ")] = number
        there = {word: (int(count), int(last)) for word, count, last in refused}
        must = {word: (min(KEPT, count), count) for word, count in self.refused.items()}
        if there != must:
            word = min(word for word in {**there, **must} if there.get(word) != must.get(word))
            raise Ended(f"the table counts has {must.get(word, (0, 0))[1]} refused rows of {word}, and the table refused others: "
                        "something else wrote there")
        all_rows = self.at_end.get("in", UNKNOWN)
        others = [number for what, number in self.at_end.items() if what != "in" and not (what.startswith("refused ") and number == UNKNOWN)]
        if UNKNOWN not in (all_rows, *others) and sum(others) != all_rows:
            raise Ended(f"the table counts doesn't add up: {all_rows} rows at the last end row, and {sum(others)} by what became of them")

    def begun(self) -> List[str]:
        """The statements for a run that begins: what its end row will tell isn't known until then."""
        done = [f"DELETE FROM counts WHERE part = {self.part} AND what NOT LIKE 'refused %' AND what NOT IN {self.names}"]
        done += [f"INSERT INTO counts VALUES ({self.part}, '{name}', NULL, NULL, NULL) ON CONFLICT (part, what) DO NOTHING" for name in self.names]
        done.append(f"UPDATE counts SET number = NULL WHERE part = {self.part} AND what IN {self.names}")
        if self.head.kept and self.at_end.get("in") == self.head.rows:
            done.append(f"UPDATE counts SET at_cut = at_end WHERE part = {self.part}")
            self.at_cut = dict(self.at_end)
        return done

    # ---- lines

    def add(self, row: int, word: str) -> None:
        """A refused row that is taken."""
        self.refused[word] += 1
        self.new.append((word, self.refused[word], row))

    def statements(self) -> List[str]:
        """Those for what was added since the last ones."""
        words = sorted({word for word, _, _ in self.new})
        done = [f"INSERT INTO refused VALUES ({self.part}, '{word}', {number}, {row})"
                for word, number, row in self.new if number > self.refused[word] - KEPT]
        for word in words:
            count = self.refused[word]
            done.append(f"INSERT INTO counts VALUES ({self.part}, 'refused {word}', {count}, NULL, NULL)"
                        " ON CONFLICT (part, what) DO UPDATE SET number = excluded.number")
            done += [f"DELETE FROM refused WHERE part = {self.part} AND word = '{word}' AND number <= {count - KEPT}"] * (count > KEPT)
        self.new.clear()
        return done

    def pass_over(self, text: str, is_last: bool) -> None:
        """A line that was taken before; at the last one all refused rows are those of the table."""
        if refusal := refusal_of(text):
            self.passed[refusal[1]] += 1
        if is_last and not self.head.kept and self.passed != self.refused:
            word = min((self.passed - self.refused) | (self.refused - self.passed))
            raise Ended(f"the table counts has {self.refused[word]} refused rows of {word}, and {self.passed[word]} were told: something else wrote there")

    # ---- the end row

    def ended(self, line: str, selected_of: Callable[[int], Optional[int]]) -> List[str]:
        """The statements for the end row of a run, which must add up with the lines of the run. How many of the records
        that were admitted are selected is asked of a function, which answers None where it isn't known."""
        found = re.fullmatch(END, line)
        if not found:
            raise Ended(f"the end row isn't one: {line[:80]}")
        rows, admitted, late, refused = map(int, found.groups())
        if refused != self.told or admitted + late + refused > rows:
            raise Ended(f"the end row tells of {refused} refused rows, {admitted} admitted and {late} late ones of {rows}, "
                        f"and {self.told} lines told of refused rows: some lines of the run didn't come here")
        kinds: Sequence[Optional[int]] = (admitted,)
        if self.is_split:
            selected = selected_of(admitted)
            kinds = (None, None) if selected is None else (selected, admitted - selected)
        known = self.with_cut(dict(zip(self.names, (rows, *kinds, late, rows - admitted - late - refused))))
        numbers, all_refused = [number for number in known.values() if number is not None], sum(self.refused.values())
        if len(numbers) == len(known) and all_refused + sum(numbers) != 2 * numbers[0]:
            raise Ended(f"of {numbers[0]} rows {sum(numbers[1:])} were {', '.join(self.names[1:])}, and "
                        f"{all_refused} refused: these aren't the rows that were cut off")
        done = [f"UPDATE counts SET at_end = number WHERE part = {self.part} AND what LIKE 'refused %'"]
        for name, number in known.items():
            told = "NULL" if number is None else number
            done.append(f"UPDATE counts SET number = {told}, at_end = {told} WHERE part = {self.part} AND what = '{name}'")
        return done

    def with_cut(self, known: Dict[str, Optional[int]]) -> Dict[str, Optional[int]]:
        """What an end row tells with the rows that were cut off, where the end row behind which they were is known."""
        head, is_told = self.head, self.at_cut.get("in") == self.head.rows
        if not head.kept:
            return known
        total: Dict[str, Optional[int]] = dict.fromkeys(self.names)
        total["in"] = head.rows + (known["in"] or 0) - head.kept
        if is_told and self.records_kept is not None:
            # Of the kept rows none is late or left out, and all but the head and the records are watermarks.
            kept = {self.names[1]: self.records_kept, self.names[-1]: head.kept - 1 - self.records_kept}
            for name in self.names[1:]:
                before, number = self.at_cut.get(name, UNKNOWN), known[name]
                if number is not None and before != UNKNOWN:
                    total[name] = before + number - kept.get(name, 0)
        return total
