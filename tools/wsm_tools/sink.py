"""Takes what a run writes into tables, each line once, however often the run is begun anew over its rows.

usage: wsm run QUERY [ROWS] | sink [--part NAME] [--columns NAME,..] [--rows ROWS] [--from SOURCE] [--program PROGRAM] TABLE QUERY
       wsm run --keys KEYS [--new-keys [--most-keys N]] QUERY [ROWS] | sink --keys KEYS [--new-keys [--most-keys N]] .. TABLE QUERY
       sink [--part NAME] [--columns NAME,..] [--rows ROWS] --taken TABLE QUERY
       wsm live DIR --from SOURCE QUERY LOG | sink [--part NAME] [--columns NAME,..] --live DIR TABLE QUERY

For example: wsm run invoice.wsm rows.csv | sink --columns calls,bytes invoice.db invoice.wsm

TABLE is a file of SQLite, or the URL of a PostgreSQL database, postgresql://.., for which it wants the client `psql`.
What a pane does there is said by QUERY: ACCUMULATING, it takes the place of the one before it of its key and window;
DISCARDING, its columns are added to those; RETRACTING, it is put in, and a retract row takes it away. The table panes
has a row for each key and window; or istream, dstream or rstream has one for each row of that stream. The columns are
those of SELECT, each by the name of what it is (count, sum_n, else column2), or by NAME,..

The table counts has how many rows were refused, by the word; and, once an end row came, how many there were (in), and how
many were admitted, late, and neither: watermarks, or doubles of a log, where the run reads one by the SOURCE that --from
names. Column number is NULL for these while a run goes on; at_end has what the last end row came to, where in is the sum
of the others. With --program, PROGRAM runs over ROWS behind the end row, and tells how many of the admitted records WHERE
selects and leaves out. The table refused has the last hundred rows of each word. Where either doesn't add up, it ends with
status 1.

The table taken has the query, how many lines were taken, the first and the last of them, and a sum of them all. They
are written in the transaction in which the lines do their work, and as many lines of a run that is begun anew are
passed over. Another query, or other lines, end it with status 1 and nothing written. Parts of one query by key, each
with a NAME of its own, may share the tables.

--keys takes the keys of a file, one a line, any number of them, where QUERY is a text without its KEYS clause, and
--new-keys others that come too, as the run of the same words does; the lines may also be those of `many-keys`. The file
may grow at its end, unless the table has parts. A key is in the table by its text; of bytes that are no UTF-8, and of
NUL, each stands as \\xHH there, and a backslash in front of such a text as \\x5c.

--rows names the file that the run reads, which `keep` may have cut: the lines that the run writes for the rows that
were kept are passed over, and those behind them go on counting where the lines of all rows stood. --taken prints how
many lines were taken, once these can't be lost any more: so many may be told to `keep`. With --rows it ends with status 1
where a run over ROWS writes others, as where a filter stands between the file and the run.

With --live the lines are those of `wsm live DIR`, each with its number and a sum of all up to it: it takes the line whose
number comes behind those of the table, passes over smaller ones, and tells DIR at most each second, by the file
taken or taken.NAME there, how many lines are surely on the table's disk, which lets the run cut what it keeps. A gap,
another sum, or lines of another DIR, query or source end it with status 9 and nothing written, and lines that another
sink took meanwhile with 8.

QUERY must be the run's: a line of another one ends it with status 1 where its key, kind, window or a cell isn't one that
QUERY may write; else it is taken for its own. What QUERY says is asked of PROGRAM, or where that is left out of the program
that the variable WSM names, of `wsm` at the top of the repository or of that on PATH. It ends with status 2 by its words,
3, 4 and 6 by QUERY and KEYS as `wsm` does, 7 where the tables can't be read or written. Where the lines end without an end
row, before those that were taken do, or in the middle of one, the run was killed: that is status 6 too.
"""
from __future__ import annotations

import re
import sys
import zlib
from itertools import chain, groupby, islice
from operator import methodcaller
from subprocess import DEVNULL, PIPE, Popen
from typing import TYPE_CHECKING, Dict, List, NamedTuple, Optional, Sequence

from . import asking, telling
from .columns import NAME, Form
from .counts import Counts, made, refusal_of
from .kept import Head, kept_in
from .rows import lines_of
from .tables import File, Rows, Server, Work, place_of, quoted
from .telling import BAD_READ, REJECTED, Ended, shown, was_stopped

if TYPE_CHECKING:
    from argparse import Namespace

TAKEN = ("query", "columns", "lines", "first", "last", "sum")
IS_REFUSED = methodcaller("startswith", "refused,")
QUESTION = f"SELECT part, {', '.join(TAKEN)} FROM taken"
NO_KEYS = "/dev/null"
ODD = {byte: f"\\x{byte:02x}" for byte in (*range(32), *range(127, 256))}   # in the lines of the table taken
IN_KEYS = {**ODD, **{byte: f"\\x{byte:02x}" for byte in b" ,;*\\"}}         # and in the keys of its query


class Counted(NamedTuple):
    """A program and the rows of a run, by which the records that WHERE selects are counted."""
    program: str
    rows: str


class Taken(NamedTuple):
    """The first and the last line that were taken, and the sum of all."""
    first: str
    last: str
    sum: int


class Sink:
    """The lines that were taken."""

    def __init__(self, asked: Namespace, head: Head, records_kept: int) -> None:
        self.head = head    # that of the file that the run reads, where rows were cut off
        self.counted = Counted(asked.program, asked.rows) if asked.program else None
        self.words = words_of_run(asked)
        self.query = query_in(asked, self.words)
        is_split = self.query.where is None or self.counted is not None and asking.is_counted(self.query)
        kept = records_kept if self.query.form == "PANES" else None
        self.counts = Counts(quoted(asked.part), asked.source is not None, is_split, head, kept)
        is_server = asked.table.startswith("postgres")
        self.form = Form(self.query, asked.columns and asked.columns.split(","), Server if is_server else File)
        self.place = place_of(asked.table)
        self.part: str = asked.part
        self.path: str = asked.query
        self.text = " ".join(asking.words_of(asking.read(self.path)))
        if self.query.is_named:
            keys = ["*"] if self.query.takes_new else [name.translate(IN_KEYS) for name in self.query.keys]
            self.text = f"KEYS {' , '.join(keys)} ; {self.text}"
        self.lines = self.sum = self.seen = 0
        self.first = self.last = ""
        self.open()

    def open(self) -> None:
        whole = self.place.WHOLE
        taken = f"part TEXT PRIMARY KEY, query TEXT, columns TEXT, lines {whole} NOT NULL, first TEXT, last TEXT, sum {whole}"
        try:
            rows = self.place.ask([f"CREATE TABLE IF NOT EXISTS taken ({taken})"], QUESTION)
            self.place.make("counts", made(self.place.WHOLE))
            counts, refused = self.counts.questions()
            self.counts.read(self.place.ask([], counts), self.place.ask([], refused))
        except Ended as why:
            if "column" in str(why):
                raise Ended(f"{self.place.shown} has a table taken, counts or refused of another making: {why}") from None
            raise
        self.check_others(rows)
        mine = next((dict(zip(TAKEN, found)) for part, *found in rows if part == self.part), None)
        if mine is None:
            self.begin()
        else:
            self.check_mine(mine)
            self.lines, self.first, self.last, self.sum = int(mine["lines"]), mine["first"], mine["last"], int(mine["sum"])
        self.check_head()

    def check_head(self) -> None:
        if self.head.kept and self.head.query != self.query.sum:
            raise Ended("the rows were kept for another query")
        if self.lines < self.head.lines:
            raise Ended(f"{self.lines} lines were taken, and the rows that wrote lines up to {self.head.lines} were cut off")

    def begin(self) -> None:
        """Enters a part that is new, unless one that came at the same time has keys of it."""
        values = ", ".join(map(quoted, (self.part, self.text, ",".join(self.form.names))))
        rows = self.place.ask([
            f"CREATE TABLE IF NOT EXISTS {self.form.table} ({', '.join(self.form.columns())})",
            f"INSERT INTO taken VALUES ({values}, 0, '', '', 0)",
        ], QUESTION)
        try:
            self.check_others(rows)
        except Ended:
            self.place.ask([f"DELETE FROM taken WHERE part = {quoted(self.part)} AND lines = 0"], QUESTION)
            raise

    def check_others(self, rows: Rows) -> None:
        for part, *found in rows:
            if part != self.part:
                self.check_other(part, dict(zip(TAKEN, found)))

    def check_mine(self, found: Dict[str, str]) -> None:
        if found["query"] != self.text and not self.has_grown(found["query"]):
            raise Ended(f"{self.place.shown} has what another query wrote: {where_differ(self.text, found['query'])}. "
                        "A changed query wants a table of its own")
        if found["columns"] != ",".join(self.form.names):
            raise Ended(f"{self.place.shown} has the columns {found['columns']}, and not {','.join(self.form.names)}")

    def has_grown(self, before: str) -> bool:
        """Whether the file of the keys began with these before. With parts it may not grow: a key might be in two."""
        (old, rest), (new, own) = before.split(" ; ", 1), self.text.split(" ; ", 1)
        return self.query.is_named and not self.part and rest == own and (self.query.takes_new or new.startswith(f"{old} , "))

    def check_other(self, part: str, found: Dict[str, str]) -> None:
        """Parts have the same query but for its keys, and no key of theirs is in another one, but where the query speaks of it."""
        (keys, rest), (mine, own) = found["query"].split(" ; ", 1), self.text.split(" ; ", 1)
        if not self.part or not part:
            raise Ended(f"{self.place.shown} has {'the part ' + part if part else 'lines of no part'}: say --part for each")
        if rest != own or found["columns"] != ",".join(self.form.names):
            raise Ended(f"{self.place.shown} has what another query wrote, in its part {part}: {where_differ(own, rest)}")
        theirs, ours = (set(some.removeprefix("KEYS ").split(" , ")) for some in (keys, mine))
        if both := theirs & ours - set(re.findall(r"\bKEY \. (\w+)", rest)):
            raise Ended(f"the key {sorted(both)[0]} is in the part {part} of {self.place.shown} too")

    # ---- lines

    def take(self, lines: Sequence[bytes], before: int) -> int:
        """Takes some lines in one transaction; before is how many came before them. How many lines there are then."""
        passed = lines[: max(0, self.lines - before)]
        for number, line in enumerate(passed, before + 1):
            self.pass_over(number, line)
        if len(passed) < len(lines):
            self.add(lines[len(passed):])
        return self.lines if len(passed) < len(lines) else before + len(passed)

    def add(self, lines: Sequence[bytes]) -> None:
        """Takes the next lines in one transaction. One that is none of the query's ends it, and isn't taken."""
        works: List[Work] = []
        texts = [self.numbered(line) for line in lines]
        count = 0
        for is_refused, alike in groupby(texts, key=IS_REFUSED):
            those = list(alike)
            done, fit = ([], self.refuse(those)) if is_refused else self.form.works(those)
            works, count = [*works, *done], count + fit
            if fit < len(those):
                break
        self.commit(texts[:count], works)
        if count < len(texts):
            raise Ended(f"line {self.lines + 1} is none of {self.path}, and isn't taken: {shown(lines[count])}", self.place.unfit)

    def refuse(self, lines: Sequence[str]) -> int:
        """Counts lines that tell of refused rows, up to the first that doesn't, and answers how many these are."""
        for count, refusal in enumerate(map(refusal_of, lines)):
            if refusal is None:
                return count
            self.counts.add(*refusal)
        return len(lines)

    def commit(self, texts: Sequence[str], work: Sequence[Work]) -> None:
        """Does the work of the next lines, which are counted in the same transaction."""
        if texts:
            total = zlib.crc32("\n".join([*texts, ""]).encode("latin-1"), self.sum)
            number, taken = self.lines + len(texts), Taken(self.first or texts[0].translate(ODD), texts[-1].translate(ODD), total)
            self.write(number, taken, [*work, *map(Work, self.counts.statements())])
            self.lines, (self.first, self.last, self.sum) = number, taken

    def write(self, number: int, taken: Taken, work: Sequence[Work]) -> None:
        """One transaction, unless another sink has taken lines: a count that isn't the one that it was is none, which the
        table doesn't take."""
        count = "UPDATE taken SET lines = CASE WHEN lines = ?1 THEN ?2 END, first = ?3, last = ?4, sum = ?5 WHERE part = ?6"
        self.place.run([Work(count, [(self.lines, number, *taken, self.part)]), *work])

    def taken(self) -> Taken:
        return Taken(self.first, self.last, self.sum)

    def begin_run(self) -> None:
        """What an end row will tell isn't known any more."""
        self.write(self.lines, self.taken(), [Work(text) for text in self.counts.begun()])

    def end_run(self, line: bytes) -> None:
        """Takes the end row of a run."""
        def selected_of(admitted: int) -> Optional[int]:
            if self.query.where is None or self.counted is None:
                return admitted
            return asking.selected(self.query, self.counted.program, self.words, self.counted.rows, line)

        ended = self.counts.ended(line.decode("latin-1"), selected_of)
        self.write(self.lines, self.taken(), [Work(text) for text in ended])

    def numbered(self, line: bytes) -> str:
        """A line's text, with the number of a refused row among all rows."""
        text = line.decode("latin-1")
        if self.head.kept and (refused := re.fullmatch(r"refused,([0-9]{1,20}),(\w+)", text)):
            return f"refused,{int(refused[1]) + self.head.rows - self.head.kept},{refused[2]}"
        return text

    def pass_over(self, number: int, line: bytes) -> None:
        """A line that was taken before must be what it was."""
        text, is_last = self.numbered(line), number == self.lines
        said = text.translate(ODD) if number == 1 or is_last else ""
        self.seen = zlib.crc32(line + b"\n", self.seen if number > 1 else 0)
        if self.head.lines:     # the lines in front of it aren't written any more, so there is no sum of all
            self.seen = self.sum
        if number == 1 and said != self.first or is_last and (said != self.last or self.seen != self.sum):
            was = self.first if number == 1 else self.last
            raise Ended(f"line {number} is {shown(line)}, and {shown(was.encode('latin-1'))} was taken: "
                        "these are other rows than before" if said != was else
                        f"the first {number} lines aren't those that were taken: these are other rows than before")
        self.counts.pass_over(text, is_last)


def words_of_run(asked: Namespace) -> List[str]:
    """The words of the run whose lines these are."""
    said = {"--from": asked.source, "--keys": asked.keys or asked.new_keys and NO_KEYS, "--most-keys": asked.most_keys}
    return [*chain.from_iterable(pair for pair in said.items() if pair[1]), *["--new-keys"] * asked.new_keys]


def query_in(asked: Namespace, words: Sequence[str]) -> asking.Query:
    """The query that is asked for, whose keys may stand in a file of their own. One that is rejected gets no table."""
    wsm = asked.program or asking.program()
    if asked.keys or asked.new_keys:
        from .parted import Parted

        return Parted(wsm, asked.query, asked.keys or NO_KEYS).query(words, asked.new_keys)
    query = asking.query_of(asked.query, wsm)
    if query.answer.status == REJECTED:
        raise Ended(f"{asked.query}: {query.answer.fault['told']}", REJECTED)
    return query


def where_differ(text: str, other: str) -> str:
    """The words and signs at which two texts come to differ."""
    new, old = text.split(), other.split()
    at = next((at for at, pair in enumerate(zip(new, old)) if pair[0] != pair[1]), min(len(new), len(old)))
    begin = max(0, at - 2)
    return f"`{' '.join(new[begin:at + 3])}` in the place of `{' '.join(old[begin:at + 3])}`"


# ---- the whole

def words(given: Optional[Sequence[str]] = None) -> Namespace:
    parser = telling.parser_of("sink", __doc__)
    parser.add_argument("--part", default="")
    for word in ("--keys", "--most-keys", "--columns", "--rows", "--program"):
        parser.add_argument(word)
    parser.add_argument("--new-keys", action="store_true")
    parser.add_argument("--from", dest="source")
    parser.add_argument("--live", metavar="DIR")
    parser.add_argument("--taken", action="store_true")
    parser.add_argument("table")
    parser.add_argument("query")
    asked = parser.parse_args(given)
    if asked.program and not asked.rows and not asked.live:
        parser.error("--program runs over the rows that --rows names")
    if asked.live and (asked.rows or asked.taken or asked.source):
        parser.error("--live takes the lines of `wsm live`, for which --rows, --from and --taken say nothing")
    if asked.new_keys and asked.part:
        parser.error("--part takes keys of which each is in one part, and --new-keys any")
    if asked.part and not re.fullmatch(NAME, asked.part):
        parser.error(f"{asked.part} can't name a part: a letter or _, then letters, digits and _, at most 63 in all")
    return asked


def take_all(sink: Sink, head: Head) -> None:
    """Takes the lines of a run from standard input, to its end row."""
    end: Optional[bytes] = None
    number, own, cut = head.lines, head.own, list[bytes]()
    for lines in lines_of(sys.stdin.fileno(), cut=cut):
        sink.counts.told += sum(line.startswith(b"refused,") for line in lines)
        own, lines = own - min(own, len(lines)), lines[own:]
        ends = next((at for at, line in enumerate(lines) if line.startswith(b"end,")), len(lines))
        behind = lines if end else lines[ends + 1:]
        if not end:
            number = sink.take(lines[:ends], number)
            end = lines[ends] if ends < len(lines) else None
        if behind:
            raise Ended(f"there is a line behind the end row, and it isn't taken: {shown(behind[0])}")
    if cut:
        raise Ended(f"line {number + 1} was cut off, and isn't taken: {shown(cut[0])}", BAD_READ)
    if was_stopped():
        return
    if own:
        raise Ended(f"{head.own} lines were to come for the rows that were kept, and {head.own - own} came", BAD_READ)
    if number < sink.lines:
        raise Ended(f"{number} lines came, and {sink.lines} were taken before: these are fewer rows than before", BAD_READ)
    if end is None:
        raise Ended(f"the lines end without an end row: the run was ended, and {number} lines are taken", BAD_READ)
    sink.end_run(end)


def check_rows(sink: Sink, wsm: str, rows: str) -> None:
    """A run over the rows must write the lines that were taken: one behind a filter reads others than `keep` judges."""
    total, last, head = 0, b"", sink.head
    with Popen([wsm, "run", *sink.words, sink.path, rows], stdout=PIPE, stderr=DEVNULL) as run:
        assert run.stdout
        for last in islice(run.stdout, head.own, head.own + sink.lines - head.lines):
            total = zlib.crc32(last, total)
        run.kill()
    is_same = sink.numbered(last.rstrip(b"\n")).translate(ODD) == sink.last and (head.lines > 0 or total == sink.sum)
    if sink.lines > head.lines and not is_same:
        raise Ended(f"a run over {rows} writes other lines than were taken: cut the very rows that the run reads, with no filter in between")


def take(asked: Namespace) -> None:
    """Takes what comes on standard input, or prints how many lines were taken."""
    head, records_kept = kept_in(asked.rows) if asked.rows else (Head(), 0)
    sink = Sink(asked, head, records_kept)
    if asked.taken:
        if asked.rows:
            check_rows(sink, asked.program or asking.program(), asked.rows)
        sink.place.secure()
        sink.place.close()
        print(sink.lines)
        return
    try:
        sink.begin_run()
        if asked.live:
            from .numbered import take_live

            take_live(sink, asked.live)
        else:
            take_all(sink, head)
    finally:
        sink.place.close()


def main() -> int:
    asked = words()
    telling.Signals.begin()
    try:
        take(asked)
    except Ended as why:
        if asked.live and why.status == 1:
            from .numbered import MUST_LOOK

            raise Ended(str(why), MUST_LOOK) from None
        raise
    return 0
