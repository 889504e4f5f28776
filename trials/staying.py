"""Which rows of a history stay where it is cut, from the words of docs/SEMANTICS.md, for the trials.

What follows on a history hangs on its needed events alone: on the records that were selected and stand in a window, or in
a session, that is live; and of the watermarks that were accepted on the last of each source before each of these records,
and at the end. Streams need that of what came before the last rise of the watermark, and all events from the rise on.

Verdicts are those of trials/reference.py, which computes them from the definitions; nothing here is of the crates.
"""
import re
import zlib
from dataclasses import dataclass, field

from reference import Stream, event_of, grid, sessions

RECORDS = re.compile(r"RECORDS \d+")


@dataclass
class Turn:
    """What a row did when it came."""
    kind: str       # `selected`, `admitted` where WHERE left it out, `accepted`, `refused` (late too), or `none`, which is no event
    name: int = 0   # of its key or its source
    time: int = 0
    mark: int = 0   # the watermark before
    rises: bool = False


@dataclass
class History:
    """The turns of some rows, and how many records were admitted."""
    query: object
    turns: list = field(default_factory=list)
    words: list = field(default_factory=list)   # of each row that was refused, the word

    def __post_init__(self):
        self.stream = Stream(self.query)

    def take(self, event):
        """The turn of an event, or of a row that is none, which is the word for it."""
        stream = self.stream
        mark = stream.mark()
        why = event if isinstance(event, str) else stream.verdict(event)
        self.words.append(why)
        if isinstance(event, str):
            self.turns.append(Turn("none", mark=mark))
        elif why:
            self.turns.append(Turn("refused", mark=mark))
        elif event[0] == "w":
            _, source, time = event
            stream.marks[source] = time
            self.turns.append(Turn("accepted", source, time, mark, stream.mark() > mark))
        else:
            _, key, time, values = event
            stream.admitted += 1
            is_selected = stream.where is None or stream.where(key, values, None)
            self.turns.append(Turn("selected" if is_selected else "admitted", key, time, mark))

    def admitted(self, size):
        return sum(turn.kind in ("selected", "admitted") for turn in self.turns[:size])

    def refused_for_records(self, size):
        return "RecordLimit" in self.words[:size]


def history(query, rows):
    return history_of(query, [event_of(query, row.split(",")) for row in rows])


def history_of(query, events):
    found = History(query)
    for event in events:
        found.take(event)
    return found


def mark_behind(query, turns):
    marks = [query.start] * max(1, len(query.sources))
    for turn in turns:
        if turn.kind == "accepted":
            marks[turn.name] = turn.time
    return min(marks)


def stands_live(query, turns, mark):
    """Of each record that was selected whether it stands in a window that is live at a watermark."""
    def is_live(end):
        return end + query.lateness > mark

    records = [turn for turn in turns if turn.kind == "selected"]
    if query.shape != "SESSION":
        return lambda turn: any(is_live(end) for _, end in grid(query, turn.time))
    live = {key: [(start, end) for start, end in sessions(query.size, [turn.time for turn in records if turn.name == key]) if is_live(end)]
            for key in {turn.name for turn in records}}
    return lambda turn: any(start <= turn.time < end for start, end in live[turn.name])


def needed_by_panes(query, turns):
    """The numbers of the rows, from 0, that panes need, in their order."""
    is_needed, found, waiting = stands_live(query, turns, mark_behind(query, turns)), [], {}
    for number, turn in enumerate(turns):
        if turn.kind == "accepted":
            waiting[turn.name] = number
        elif turn.kind == "selected" and is_needed(turn):
            found += [*sorted(waiting.values()), number]
            waiting = {}
    return found + sorted(waiting.values())


def staying(query, turns):
    """The numbers of the rows that stay, in their order."""
    if query.form == "PANES":
        return needed_by_panes(query, turns)
    rise = max((number for number, turn in enumerate(turns) if turn.rises), default=None)
    since = [number for number in range(rise or 0, len(turns)) if turns[number].kind != "none"]
    return since if rise is None else needed_by_panes(query, turns[:rise]) + since


def with_records(text, records):
    """A query's text with another RECORDS."""
    return RECORDS.sub(f"RECORDS {records}", text)


def sum_of(text):
    """The sum by which rows that were cut know their query: of its tokens, but for the number of RECORDS."""
    tokens = re.findall(r"[A-Za-z]\w*|\d+|\.\.|<>|<=|>=|\S", text)
    return zlib.crc32(" ".join("" if tokens[at - 1] == "RECORDS" else token for at, token in enumerate(tokens)).encode("latin-1"))
