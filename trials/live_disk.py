"""What a power cut may leave of files, from the calls that a program made: for trials/live.

The calls are those that strace tells. A file keeps what was synced of it, and of what was written since a beginning, whose
last block may be torn. A name is kept once its folder was synced; else the old one may stand there.
"""
import re
from collections.abc import Iterator
from dataclasses import dataclass, field
from pathlib import Path
from random import Random

Call = tuple[str, list[bytes], str, int]
WORDS = ["strace", "-f", "-qq", "-xx", "-s", "100000000", "-e", "trace=openat,close,write,fsync,fdatasync,rename,mkdir", "-o"]
LINE = re.compile(r"^(?:\d+ +)?(\w+)\((.*)\) += (-?\d+)")
TEXT = re.compile(r'"((?:\\x[0-9a-f]{2})*)"')


def calls_of(trace: str) -> Iterator[Call]:
    """The calls of a trace that went well: name, words, answer; texts are bytes."""
    for line in trace.splitlines():
        found = LINE.match(line)
        if found and int(found[3]) >= 0:
            texts = [bytes.fromhex(text.replace("\\x", "")) for text in TEXT.findall(found[2])]
            yield found[1], texts, found[2], int(found[3])


@dataclass
class File:
    """The bytes of a file, and how many of them were synced."""
    text: bytearray = field(default_factory=bytearray)
    synced: int = 0

    def left(self, drawn: Random) -> bytes:
        """What may be left of it."""
        size = drawn.randint(self.synced, len(self.text))
        text = bytearray(self.text[:size])
        if size > self.synced and drawn.random() < 0.3:  # the last block isn't what was written
            torn = drawn.randint(self.synced, size)
            text[torn:] = bytes(len(text) - torn)
        return bytes(text)


@dataclass
class Disk:
    """A folder's files, by their names now and as they are on the disk, and what is open."""
    folder: str
    log: str
    names: dict[str, File] = field(default_factory=dict)
    kept: dict[str, File] = field(default_factory=dict)
    opened: dict[int, object] = field(default_factory=dict)
    out: bytearray = field(default_factory=bytearray)  # what was written to standard output
    is_synced: bool = False  # the log, since the last record of its lines
    unsynced: int = 0  # records whose lines weren't

    def within(self, path: bytes) -> str | None:
        """The name in the folder that a path is, or none."""
        front = f"{self.folder}/"
        return path.decode().removeprefix(front) if path.decode().startswith(front) else None

    def call(self, name: str, texts: list[bytes], words: str, answer: int) -> None:
        if name == "openat":
            self.open(texts[0], words, answer)
        elif name == "close":
            self.opened.pop(int(words.split(",")[0]), None)
        elif name == "rename" and (was := self.within(texts[0])) and (to := self.within(texts[1])):
            self.names[to] = self.names.pop(was)
        elif name in ("write", "fsync", "fdatasync"):
            self.reach(name, int(words.split(",")[0]), texts, answer)

    def open(self, path: bytes, words: str, answer: int) -> None:
        if path.decode().rstrip("/") == self.folder:
            self.opened[answer] = self
        elif path.decode() == self.log:
            self.opened[answer] = self.log
        elif (name := self.within(path)) is not None:
            if name not in self.names or "O_TRUNC" in words:
                self.names[name] = File()
            self.opened[answer] = self.names[name]

    def reach(self, name: str, descriptor: int, texts: list[bytes], answer: int) -> None:
        """A write to a file or to standard output, or a sync."""
        target = self.opened.get(descriptor)
        if name == "write" and descriptor == 1:
            self.out += texts[0][:answer]
        elif name == "write" and isinstance(target, File):
            target.text += texts[0][:answer]
            if target is self.names.get("journal") and texts[0].startswith(b":"):
                self.unsynced += not self.is_synced
                self.is_synced = False
        elif target is self.log:
            self.is_synced = True
        elif isinstance(target, File):
            target.synced = len(target.text)
        elif target is self:
            self.kept = dict(self.names)

    def image(self, drawn: Random, to: Path) -> None:
        """Writes what a power cut may leave into a folder."""
        to.mkdir()
        for name in sorted({*self.names, *self.kept}):
            found = [names[name] for names in (self.names, self.kept) if name in names]
            if name in self.kept or drawn.random() < 0.5:
                (to / name).write_bytes(drawn.choice(found).left(drawn))


def cuts_of(trace: str, folder: str, log: str, drawn: Random, number: int) -> Iterator[Disk]:
    """The disk behind so many calls that change it, drawn at random of a trace: the same one, as it goes on."""
    calls = list(calls_of(trace))
    changes = [place for place, call in enumerate(calls, 1) if call[0] not in ("openat", "close")]
    places = sorted(drawn.choices(changes, k=number))
    disk, at = Disk(folder, log), 0
    for place in places:
        while at < place:
            disk.call(*calls[at])
            at += 1
        yield disk
