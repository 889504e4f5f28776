"""Runs a query over more keys than one query may have, in parts, as tasks of a Dask cluster. Writes what one run would.

usage: many-keys [WORDS] QUERY KEYS ROWS.. > OUT

For example: many-keys count.query pages events.csv > counts

QUERY is a query's text without its KEYS clause, and KEYS a file with any number of keys, one a line. ROWS is one file
with the rows of all keys, or several, each with all rows of its keys and with all watermarks. `wsm deal` deals them to
the parts. docs/SCALING.md says what is written and in which order, and what is refused.

  --keys N             a part has at most N keys; as many as a query may have where it's left out
  --workers N          a cluster of our own has N threads; one for each core where it's left out
  --scheduler ADDRESS  a cluster that is there, whose workers see the same files under the same names
  --room FOLDER        where files lie that are deleted at the end
  --block BYTES        so many bytes are dealt, or merged, at once at least; 8388608 where it's left out
  --program PROGRAM    `wsm` at the top of the repository, or on PATH, where WSM doesn't name it and it's left out
"""
from __future__ import annotations

import mmap
import os
import re
import resource
import sys
import warnings
from array import array
from bisect import bisect_left
from collections import Counter, defaultdict
from contextlib import ExitStack, contextmanager, suppress
from importlib import import_module
from itertools import chain, pairwise, takewhile, zip_longest
from operator import sub
from typing import (
    IO, TYPE_CHECKING, Any, BinaryIO, Callable, Dict, Iterator, List, NamedTuple, Optional, Sequence, Tuple, TypeVar, Union,
)

from . import asking, telling
from .parted import Parted, put
from .telling import Ended, tell

if TYPE_CHECKING:
    from argparse import Namespace

TRIES = 3  # how often a task that failed is run again
PATIENCE = "10 minutes"  # for what a cluster of our own does within itself, on a machine that has much else to do
# A watermark that is refused. It stands behind each other one, and in front of it where records may write lines, so each
# part has it, and what is written shows where that was.
MARK = b"w,x\n"
# Rows as the program writes them: a cell with a line feed or a quote is quoted, and its quotes are doubled.
REST = rb'[^"\n]*(?:"[^"]*"[^"\n]*)*'
ROW = re.compile(REST + rb"\n")
WATERMARK = re.compile(rb"w(?:," + REST + rb")?\n")
KEY = re.compile(rb"\nr,(\w+)(?=[,\n])")
LONGEST = 64  # bytes; a key with what stands around it is shorter
REFUSED = re.compile(rb"\nrefused,.*(?:\nrefused,.*){,1000}")
# A row that one part gains may be one that another part loses; so for either of these forms each part is run with both.
FORMS = {"ISTREAM": ["ISTREAM", "DSTREAM"], "DSTREAM": ["DSTREAM", "ISTREAM"]}


Text = Union[bytes, mmap.mmap]
Share = Tuple[str, "array[int]"]  # the path of a file, and the bounds of those of its rows and watermarks that are meant
Ranks = Union[str, Sequence[str]]  # by what the cells of a column are put in order: INT, BOOL, KEY or names
Wanted = Dict[int, List[Tuple[bytes, Optional[bytes], int]]]
T = TypeVar("T")
Trace = Tuple[bytes, int, Optional[bytes], int]  # a word, a span, a row (None for a watermark), and how many alike stand before it


# ---- rows as the program deals them

@contextmanager
def mapped(path: str) -> Iterator[Text]:
    """The bytes of a file, which are read as they are asked for."""
    with open(path, "rb") as file:
        if os.fstat(file.fileno()).st_size == 0:
            yield b""
            return
        with mmap.mmap(file.fileno(), 0, access=mmap.ACCESS_READ) as text:
            yield text


def rows_of(text: bytes) -> List[bytes]:
    return ROW.findall(text) if b'"' in text else text.splitlines(keepends=True)


def count_of(text: bytes) -> int:
    return len(ROW.findall(text)) if b'"' in text else text.count(b"\n")


def bounds_of(text: Text) -> array[int]:
    """Where rows begin, where each watermark among them begins and ends, and where they end."""
    bounds, has_quotes, begin, counted, quotes = array("Q", [0]), text.find(b'"') >= 0, 0, 0, 0
    while True:
        if has_quotes:
            quotes, counted = quotes + text[counted:begin].count(b'"'), begin
        if quotes % 2 == 0 and (mark := WATERMARK.match(text, begin)):
            bounds.extend(mark.span())
        begin = text.find(b"\nw", begin) + 1
        if begin == 0:
            bounds.append(len(text))
            return bounds


def spans(text: Text, bounds: Sequence[int]) -> Iterator[bytes]:
    """The rows in front of each watermark, and behind the last one."""
    return (text[begin:end] for begin, end in zip(bounds[::2], bounds[1::2]))


class Ran(NamedTuple):
    """What the run of a part counted."""
    rows: int
    admitted: int
    late: int
    panes: int
    refused: Counter[str]
    marks: int
    size: int


# ---- tasks. Each may be run again at any time: a file has its name once it's whole, and is the same each time.

def attempt_of(path: str) -> str:
    return f"{path}.{os.urandom(16).hex()}."


@contextmanager
def written(path: str) -> Iterator[IO[bytes]]:
    attempt = attempt_of(path)
    with open(attempt, "wb") as file:
        yield file
    os.replace(attempt, path)


def asked_of(words: Sequence[str], feed: Optional[Callable[[int], None]] = None, **pipes: Any) -> None:
    """Runs a program, over what is fed to a pipe where something is."""
    from subprocess import PIPE, Popen

    with Popen(words, stdin=PIPE, stderr=PIPE, **pipes) as process:
        with suppress(BrokenPipeError):
            if feed is not None:
                feed(process.stdin.fileno())  # type: ignore[union-attr]
        told = process.communicate()[1].decode("latin-1").strip()
    if process.returncode:
        raise RuntimeError(f"{told or words}, status {process.returncode}")


def allow_files() -> None:
    """Lets programs have as many files as they may: each part takes one where rows are dealt."""
    most = resource.getrlimit(resource.RLIMIT_NOFILE)[1]
    resource.setrlimit(resource.RLIMIT_NOFILE, (most, most))


def send(pipe: int, file: IO[bytes], begin: int, end: int) -> None:
    while begin < end and (sent := os.sendfile(pipe, file.fileno(), begin, end - begin)):
        begin += sent


def is_plain(text: Text) -> bool:
    """Whether rows are as the program deals them, and have no quotes: each ends with a line feed, and none is empty."""
    is_odd = text[:1] == b"\n" or text[:3] == b"\xef\xbb\xbf" or text[-1:] not in (b"", b"\n")
    return not is_odd and all(text.find(odd) < 0 for odd in (b'"', b"\r", b"\n\n"))


def look(program: str, key: str, rows: str, out: str) -> Tuple[str, array[int], bytes]:
    """A file of rows as the program deals them, the bounds of its watermarks, and their text."""
    with mapped(rows) as text:
        is_as_dealt = is_plain(text)
    if not is_as_dealt:
        attempt = attempt_of(out)
        asked_of([program, "deal", key, "1", attempt, rows])
        os.replace(f"{attempt}0", out)
        rows = out
    with mapped(rows) as text:
        bounds = bounds_of(text)
        return rows, bounds, b"".join(text[begin:end] for begin, end in zip(bounds[1::2], bounds[2::2]))


def keys_of(path: str) -> bytes:
    """The keys of the records of a file, as lines: a list of them would take long on its way."""
    with mapped(path) as text:
        if text.find(b'"') >= 0:
            found = {row[0][2:-1].split(b",")[0] for row in ROW.finditer(text) if row[0].startswith(b"r,")}
        else:
            found = {row[1] for row in chain(KEY.finditer(b"\n" + text[:LONGEST]), KEY.finditer(text))}
    return b"\n".join(found)


def deal(program: str, keys: str, parts: int, shares: Sequence[Share], marks: int, out: str) -> None:
    """Deals some rows to the parts, each in a file of its own, with one or two marks for a watermark."""
    allow_files()
    attempt = attempt_of(out)
    with ExitStack() as stack:
        files = [stack.enter_context(open(path, "rb")) for path, _ in shares]

        def feed(pipe: int) -> None:
            stretches = zip(*(zip(bounds[::2], bounds[1::2]) for _, bounds in shares))
            watermarks = zip(shares[0][1][1::2], shares[0][1][2::2])
            for its, watermark in zip_longest(stretches, watermarks):
                if its[0][0] > 0:
                    os.write(pipe, MARK)  # behind a watermark
                for file, (begin, end) in zip(files, its):
                    send(pipe, file, begin, end)
                if watermark is not None:
                    os.write(pipe, MARK * (marks - 1))
                    send(pipe, files[0], *watermark)

        asked_of([program, "deal", keys, str(parts), attempt], feed)
    for part in range(parts):
        os.replace(f"{attempt}{part}", f"{out}{part}")


def run(program: str, path: str, dealt: Sequence[str], watermarks: int, marks: int, is_first: bool) -> Ran:
    """Runs the program of a part over its rows, which lie in some files, with one or two marks for each watermark.

    What is written has neither marks nor refused rows; where its pieces end, stands in a file beside it. The refused
    rows stand in another one; a watermark that is refused is refused in each part, and told by the first.
    """
    import pickle

    raw = attempt_of(path)

    def feed(pipe: int) -> None:
        for its in dealt:
            with open(its, "rb") as file:
                send(pipe, file, 0, os.fstat(file.fileno()).st_size)

    with open(raw, "wb", buffering=0) as whole:
        whole.write(b"\n")  # so that each line has a line feed in front of it
        asked_of([program, "run", f"{path}.wsm"], feed, stdout=whole)
    with mapped(raw) as text, written(f"{path}.out") as out:
        end = text.rfind(b"\n", 0, len(text) - 1) + 1
        told, admitted, late, count, panes = map(int, text[end:].split(b",")[1:])
        numbers = watermarks_of(dealt) if count != marks * watermarks else None
        cuts, found, refused = without_refused(text, end, numbers, marks, out)
    os.remove(raw)
    keep_cuts(path, cuts)
    traces = traced(dealt, numbers or [], marks, refused, is_first) if refused else []
    with written(f"{path}.refused") as file:
        pickle.dump(traces, file)
    words = Counter("a watermark" if row is None else word.decode() for word, _, row, _ in traces)
    size = max(cuts.values(), default=0)
    return Ran(told, admitted, late, panes, words, found, size)


def watermarks_of(dealt: Sequence[str]) -> List[int]:
    """The numbers of the watermarks among the rows of a part, and of their marks."""
    numbers: List[int] = []
    number = 0
    for path in dealt:
        with mapped(path) as text:
            for rows in spans(text, bounds_of(text)):
                number += count_of(rows) + 1
                numbers.append(number)
        number = numbers.pop() - 1  # behind the last rows is none
    return numbers


def without_refused(
    text: Text, end: int, numbers: Optional[Sequence[int]], marks: int, out: IO[bytes],
) -> Tuple[Dict[int, int], int, List[Tuple[int, bytes]]]:
    """Writes what a run wrote but for refused rows. Without numbers of watermarks all of these are marks.

    Answers the number and the end of each piece that isn't empty, how many marks there are, and the other refused rows.
    The even pieces were written for records, the odd ones for one watermark each.
    """
    marked = None if numbers is None else {*numbers}.difference(numbers[marks - 1::marks + 1])
    cuts: Dict[int, int] = {}
    refused: List[Tuple[int, bytes]] = []
    size = found = behind = 0
    for some in (*REFUSED.finditer(text, 0, end - 1), None):
        begin = some.start() if some else end - 1
        if behind < begin:
            size += out.write(text[behind + 1:begin + 1])
            cuts[found if marks == 2 else 2 * found + 1] = size
        if some:
            behind = some.end()
            rows = [row.split(b",") for row in some[0].split()] if marked is not None else []
            others = [(int(number), word) for _, number, word in rows if marked is not None and int(number) not in marked]
            refused += others
            found += some[0].count(b"\n") - len(others)
    return cuts, found, refused


def traced(dealt: Sequence[str], numbers: Sequence[int], marks: int, refused: Sequence[Tuple[int, bytes]], is_first: bool) -> List[Trace]:
    """Of each refused row its word, its span, its text, and how many rows of this text stand before it in the span."""
    wanted: Dict[int, Dict[int, bytes]] = defaultdict(dict)
    found: List[Trace] = []
    at = 0
    for number, word in refused:
        place = bisect_left(numbers, number)
        if numbers[place:place + 1] != [number]:
            wanted[place][number - (numbers[place - 1] if place else 0) - 1] = word
        elif is_first:
            found.append((word, place // (marks + 1), None, 0))
    for path in dealt:
        with mapped(path) as text:
            for place, rows in enumerate(spans(text, bounds_of(text)), at):
                if place in wanted:
                    seen: Counter[bytes] = Counter()
                    for index, row in enumerate(rows_of(rows)):
                        if index in wanted[place]:
                            found.append((wanted[place][index], place // (marks + 1), row, seen[row]))
                        seen[row] += 1
        at = place
    return found


def numbered(files: Sequence[Share], wanted: Wanted) -> List[Tuple[int, int, bytes]]:
    """Of each refused row the piece of what is written, its number among the rows of all files, and its word."""
    numbers: Dict[int, Dict[Optional[bytes], List[int]]] = {place: {row: [] for _, row, _ in its} for place, its in wanted.items()}
    before = 0
    for path, bounds in files:
        with mapped(path) as text:
            for place, rows in enumerate(spans(text, bounds)):
                here = numbers.get(place, {})
                for number, row in enumerate(rows_of(rows) if here else (), before + 1):
                    if row in here:
                        here[row].append(number)
                before += count_of(rows) + 1
                if None in here:
                    here[None].append(before)  # the watermark
        before -= 1  # behind the last rows is none
    found = [(2 * place + (row is None), numbers[place][row][seen], word) for place in wanted for word, row, seen in wanted[place]]
    return sorted(found)


def number(files: Sequence[Share], refused: Sequence[str], out: str) -> None:
    """Writes the lines of refused rows as a part has what it wrote, and where each piece of them ends."""
    import pickle

    wanted: Wanted = defaultdict(list)
    cuts: Dict[int, int] = {}
    size = 0
    for path in refused:
        with open(path, "rb") as file:
            for word, place, row, seen in pickle.load(file):
                wanted[place].append((word, row, seen))
    with written(f"{out}.out") as file:
        for piece, its, word in numbered(files, wanted) if wanted else ():
            size += file.write(b"refused,%d,%s\n" % (its, word))
            cuts[piece] = size
    keep_cuts(out, cuts)


def keep_cuts(path: str, cuts: Dict[int, int]) -> None:
    with written(f"{path}.cuts") as file:
        file.write(array("Q", chain(*cuts.items())).tobytes())


def pieces_of(path: str, first: int, last: int) -> Dict[int, bytes]:
    """What a part wrote between its marks, from one piece to before another one: those that aren't empty."""
    with mapped(f"{path}.cuts") as text:
        cuts = array("Q", text[:])
    numbers, ends = cuts[::2], [0, *cuts[1::2]]
    begin, end = bisect_left(numbers, first), bisect_left(numbers, last)
    with open(f"{path}.out", "rb") as file:
        file.seek(ends[begin])
        sizes = map(sub, ends[begin + 1:], ends[begin:])
        return {number: file.read(size) for number, size in zip(numbers[begin:end], sizes)}


def window_of(line: bytes) -> Tuple[bool, int, int]:
    """What comes before the key where lines of a watermark are put in order: withdrawn panes first, then by end and start."""
    tag, *cells = line.split(b",", 5)
    is_written = tag == b"pane"
    _, start, end = cells[is_written:is_written + 3]
    return is_written, int(end), int(start)


def panes_of(texts: Sequence[bytes]) -> bytes:
    """The panes of a watermark in their order. Those of a part are in it, and keys of a part stand before those of the next."""
    ends = {window_of(line) for text in texts for line in (text[:text.find(b"\n")], text[text.rfind(b"\n", 0, -1) + 1:-1])}
    if len(ends) == 1:
        return b"".join(texts)
    lines = [line for text in texts for line in text.splitlines(keepends=True)]
    return b"".join(sorted(lines, key=lambda line: window_of(bytes(line))))


def merge(
    paths: Sequence[str], others: Sequence[str], first: int, last: int, keys_path: str, types: Sequence[Ranks], out: str,
) -> None:
    """Merges some pieces of all parts.

    The others are what the same parts wrote with the other form, where a stream tells gains or losses. The first of the
    paths has the refused rows.
    """
    with open(keys_path, "rb") as names:
        number_of = {key: number for number, key in enumerate(names.read().split())}
    places: Dict[str, Dict[bytes, int]] = {"BOOL": {b"false": 0, b"true": 1}, "KEY": number_of, "INT": {}}
    ranks = [
        places[kind] if isinstance(kind, str) else {name.encode(): number for number, name in enumerate(kind)} for kind in types
    ]

    def columns(row: bytes) -> List[int]:
        return [rank[cell] if rank else int(cell) for rank, cell in zip(ranks, row.split(b",")[1:])]

    def rows_of_stream(texts: Sequence[bytes], undone: Sequence[bytes]) -> bytes:
        tag = texts[0].split(b",", 1)[0]
        mine, theirs = (Counter(line.split(b",", 1)[1] for line in b"".join(some).splitlines()) for some in (texts, undone))
        return b"".join(b"%s,%s\n" % (tag, row) for row in sorted((mine - theirs).elements(), key=columns))

    (told, *texts), undone = ([pieces_of(path, first, last) for path in some] for some in (paths, others))
    with written(out) as file:
        for piece in sorted({*told}.union(*texts)):
            here = [text[piece] for text in texts if piece in text]
            file.write(told.get(piece, b""))
            if not here or piece % 2 == 0:
                file.write(b"".join(here))
            elif here[0].startswith((b"pane,", b"retract,")):
                file.write(panes_of(here))
            else:
                file.write(rows_of_stream(here, [text.get(piece, b"") for text in undone]))


# ---- the cluster

def quietly(client: Any) -> Iterator[Any]:
    """A client of which nothing is told as it closes: by then all answers are in, or it is told why they aren't."""
    try:
        yield client
    finally:
        client.loop.asyncio_loop.set_exception_handler(lambda *_: None)
        warnings.filterwarnings("ignore", category=RuntimeWarning)


@contextmanager
def client_of(asked: Namespace, room: str) -> Iterator[Any]:
    try:
        dask, distributed = import_module("dask"), import_module("distributed")
    except ImportError:
        raise Ended("it wants packages of Debian: apt-get install python3-dask python3-distributed") from None
    if asked.scheduler is not None:
        # Workers elsewhere haven't got these modules: the tasks are sent as they stand.
        import_module("cloudpickle").register_pickle_by_value(sys.modules[__package__])
        with distributed.Client(asked.scheduler) as client:
            yield from quietly(client)
    else:
        # All ports are on the loopback: whoever reaches one may run anything.
        pages = {"dashboard_address": "127.0.0.1:0", "worker_dashboard_address": "127.0.0.1:0"}
        # Its workers are threads: what takes time are the programs that they run, each a process of its own.
        settings = {"threads_per_worker": 1, "processes": False, "local_directory": room, "silence_logs": import_module("logging").ERROR, **pages}
        # Else each worker looks a hundred times a second at what its thread does.
        dask.config.set({"distributed.worker.profile.enabled": False})
        dask.config.set({"distributed.comm.timeouts.connect": PATIENCE, "distributed.comm.timeouts.tcp": PATIENCE})
        warnings.filterwarnings("ignore", "Creating scratch directories is taking", UserWarning)
        with distributed.LocalCluster(n_workers=asked.workers, **settings) as cluster:
            with distributed.Client(cluster) as client:
                yield from quietly(client)


def each(client: Any, told: str, task: Callable[..., T], works: Sequence[Sequence[Any]]) -> List[T]:
    """What a task answers for each list of words, in their order. Tells some ten times how far it has come."""
    as_completed = import_module("distributed").as_completed
    futures = client.map(task, *zip(*works), pure=False, retries=TRIES)
    answers = {}
    try:
        for done, (future, answer) in enumerate(as_completed(futures, with_results=True), 1):
            answers[future.key] = answer
            if done * 10 // len(futures) > (done - 1) * 10 // len(futures):
                tell(f"{told} {done} of {len(futures)}")
    except Exception as why:
        raise Ended(f"a task failed {TRIES + 1} times: {why}") from None
    return [answers[future.key] for future in futures]


# ---- the whole, step by step

class Job:
    def __init__(self, asked: Namespace, room: str, client: Any, parted: Parted, parts: int) -> None:
        self.asked, self.room, self.client, self.parted, self.parts = asked, room, client, parted, parts
        self.keys = os.path.join(os.getcwd(), asked.keys)

    def place(self, name: str) -> str:
        return os.path.join(self.room, name)

    def path(self, part: int, form: str) -> str:
        return self.place(f"part-{part}-{form}")

    def look(self) -> List[Share]:
        """The files of rows, each as the program deals it to one part where it isn't so, with their bounds."""
        key = self.place("key")
        put(key, f"{self.parted.names[0]}\n")
        works = [(self.asked.program, key, rows, self.place(f"rows-{file}")) for file, rows in enumerate(self.asked.rows)]
        found = each(self.client, "files looked through:", look, works)
        first, *others = (rows_of(marks) for *_, marks in found)
        for path, marks in zip(self.asked.rows[1:], others):
            if marks != first:
                place = sum(1 for _ in takewhile(lambda two: two[0] == two[1], zip(first, marks))) + 1
                names = f"{self.asked.rows[0]} and of {path}"
                raise Ended(f"watermark {place} of {names} are not the same: each file must have all")
        return [(path, bounds) for path, bounds, _ in found]

    def check_keys(self, files: Sequence[Share]) -> None:
        """All rows of a key are in one file."""
        if len(files) == 1:
            return
        keys = {name.encode("latin-1") for name in self.parted.names}
        path_of: Dict[bytes, str] = {}
        found = each(self.client, "keys looked through:", keys_of, [(path,) for path, _ in files])
        for path, here in zip(self.asked.rows, found):
            for key in keys.intersection(here.split(b"\n")):
                if path_of.setdefault(key, path) != path:
                    raise Ended(f"{path_of[key]} and {path} have rows of {key.decode()}: all rows of a key must be in one file")

    def deal(self, files: Sequence[Share], marks: int) -> List[str]:
        """Deals the rows in blocks of nearly equal size, cut behind watermarks. Answers how the files of each are called."""
        size = sum(bounds[-1] for _, bounds in files)
        behind = [sum(ends) for ends in zip(*(bounds[2::2] for _, bounds in files))]
        count = min(len(self.client.scheduler_info()["workers"]), size // self.asked.block + 1)
        cuts = {0, *(bisect_left(behind, size * at // count) for at in range(1, count)), len(behind) + 1}
        works = []
        for first, last in pairwise(sorted(cuts)):
            shares = [(path, bounds[2 * first:2 * last + 1]) for path, bounds in files]
            works.append((self.asked.program, self.keys, self.parts, shares, marks, self.place(f"dealt-{first}-")))
        each(self.client, "rows dealt:", deal, works)
        return [str(work[-1]) for work in works]

    def run(self, forms: Sequence[str], dealt: Sequence[str], watermarks: int, marks: int) -> List[List[Ran]]:
        """The counts of each part, for each of the forms."""
        works = [
            (self.asked.program, self.path(part, form), [f"{out}{part}" for out in dealt], watermarks, marks, part == 0)
            for part in range(self.parts) for form in forms
        ]
        ran = each(self.client, "parts run:", run, works)
        return [ran[place::len(forms)] for place in range(len(forms))]

    def number(self, files: Sequence[Share], form: str) -> str:
        """The path of the lines of refused rows, which have their numbers among all rows, one file behind the other."""
        out, refused = self.place("refused"), [f"{self.path(part, form)}.refused" for part in range(self.parts)]
        each(self.client, "refused rows numbered:", number, [(files, refused, out)])
        return out

    def merge(self, forms: Sequence[str], ran: Sequence[Sequence[Ran]], pieces: int, told: str, types: Sequence[Ranks]) -> List[str]:
        """The files of what is written, in their order."""
        size = sum(counts.size for counts in ran[0])
        count = min(pieces, size // self.asked.block + 1)
        paths = [told, *(self.path(part, forms[0]) for part in range(self.parts))]
        others = [self.path(part, form) for form in forms[1:] for part in range(self.parts)]
        works = [
            (paths, others, first, last, self.keys, types, self.place(f"merged-{first}"))
            for first, last in pairwise(pieces * at // count for at in range(count + 1))
        ]
        each(self.client, "pieces merged:", merge, works)
        return [str(work[-1]) for work in works]


def ranks_of(query: asking.Query, column: asking.Column) -> Ranks:
    """By what the cells of a column are put in order: INT, BOOL, KEY or the names of a field."""
    return column.kind if column.kind != "ENUM" else "KEY" if column.names is query.keys else column.names


def marks_of(query: asking.Query) -> int:
    """How many marks a watermark has: one where records write no lines but of refused rows, and else two."""
    writes = query.form == "PANES" and (query.early or query.late or query.mode == "RETRACTING")
    return 2 if writes else 1


def end_row(query: asking.Query, ran: Sequence[Sequence[Ran]], watermarks: int, marks: int) -> str:
    """The counts of all parts, where these are what one run would count."""
    if any(counts.marks != marks * watermarks for some in ran for counts in some):
        raise Ended("some watermarks were lost, or were there twice")
    rows = sum(counts.rows - (marks + 1) * watermarks for counts in ran[0])
    admitted, late, panes = map(sum, zip(*((counts.admitted, counts.late, counts.panes) for counts in ran[0])))
    refused: Counter[str] = sum((counts.refused for counts in ran[0]), Counter())
    if admitted > query.records or refused["RecordLimit"]:
        raise Ended(f"RECORDS {query.records} is for all keys, and they have more: one run would refuse some")
    if admitted + late + refused.total() - refused["a watermark"] != rows:
        raise Ended("some rows were lost, or were there twice")
    return f"end,{rows + watermarks},{admitted},{late},{refused.total()},{panes}\n"


def answer(asked: Namespace, room: str, out: BinaryIO) -> None:
    from concurrent.futures import ThreadPoolExecutor
    from shutil import copyfileobj

    parted, sample = Parted(asked.program, asked.query, asked.keys), os.path.join(room, "sample.wsm")
    parted.judge(sample, parted.nearest(len(parted.names)), 0)
    query = parted.query(["--keys", asked.keys])
    forms = FORMS.get(query.form, [query.form])
    types = [ranks_of(query, column) for column in query.columns]
    with client_of(asked, room) as client:
        tell(f"workers: {len(client.scheduler_info()['workers'])}")
        job = Job(asked, room, client, parted, parted.fewest(lambda parts: parted.is_accepted(parts, sample), asked.most))
        allow_files()
        parted.deal_keys(job.parts, job.place("keys-"))
        with ThreadPoolExecutor(os.cpu_count()) as pool:
            works = [(part, form) for part in range(job.parts) for form in forms]
            list(pool.map(lambda its: parted.judge(f"{job.path(*its)}.wsm", job.parts, *its), works))
        tell(f"parts accepted: {job.parts}")
        files = job.look()
        job.check_keys(files)
        watermarks, marks = len(files[0][1]) // 2 - 1, marks_of(query)
        ran = job.run(forms, job.deal(files, marks), watermarks, marks)
        end = end_row(query, ran, watermarks, marks)
        merged = job.merge(forms, ran, 2 * watermarks + 1, job.number(files, forms[0]), types)
    for path in merged:
        with open(path, "rb") as file:
            copyfileobj(file, out, 1 << 20)
    out.write(end.encode())
    out.flush()


def positive(word: str) -> int:
    number = int(word)
    if number < 1:
        raise ValueError
    return number


def words() -> Namespace:
    from pathlib import Path
    from shutil import which

    parser = telling.parser_of("many-keys", __doc__)
    parser.add_argument("--keys", dest="most", type=positive)
    parser.add_argument("--workers", type=positive, default=len(os.sched_getaffinity(0)))
    parser.add_argument("--scheduler")
    parser.add_argument("--room")
    parser.add_argument("--block", type=positive, default=1 << 23)
    parser.add_argument("--program", default=asking.program())
    parser.add_argument("query")
    parser.add_argument("keys")
    parser.add_argument("rows", nargs="+")
    asked = parser.parse_args()
    asked.query, asked.keys = str(Path(asked.query)), str(Path(asked.keys))
    asked.rows = [str(Path(path).absolute()) for path in asked.rows]
    asked.program = str(Path(which(asked.program) or asked.program).absolute())  # workers elsewhere have other folders
    return asked


def main() -> int:
    from tempfile import TemporaryDirectory

    asked = words()
    try:
        with TemporaryDirectory("", "many-keys-", asked.room, ignore_cleanup_errors=True) as room:
            answer(asked, os.path.abspath(room), sys.stdout.buffer)
    except OSError as why:
        raise Ended(str(why)) from None
    return 0
