"""Words, statuses and what is told: how each tool begins, ends, and says why."""
from __future__ import annotations

import os
import signal
import sys
from contextlib import contextmanager
from typing import TYPE_CHECKING, Callable, Iterator, Optional

if TYPE_CHECKING:
    from argparse import ArgumentParser
    from types import FrameType

BAD_WORDS, BAD_QUERY, REJECTED, BAD_READ, BAD_WRITE = 2, 3, 4, 6, 7  # statuses, as `wsm` has them
SHOWN = 80
WIDTH = 78  # of a usage


class Ended(Exception):
    """What ends a tool early: why, and the status that it ends with."""

    def __init__(self, why: str, status: int = 1) -> None:
        super().__init__(why)
        self.status = status


@contextmanager
def named(path: str, status: int) -> Iterator[None]:
    """What the system refuses there ends the tool with this status, and is told with the file's name."""
    try:
        yield
    except OSError as why:
        raise Ended(f"{path}: {why.strerror}", status) from None


class Stopped(Exception):
    pass


class Signals:
    """INT and TERM end the reading as the end of the rows does: while it waits for some, or before the next ones."""
    number, is_waiting = 0, False

    @classmethod
    def begin(cls) -> None:
        for number in (signal.SIGINT, signal.SIGTERM):
            signal.signal(number, cls.take)

    @classmethod
    def take(cls, number: int, _: Optional[FrameType]) -> None:
        cls.number = number
        if cls.is_waiting:
            raise Stopped

    @classmethod
    def pause(cls, seconds: float) -> bool:
        """Waits; whether a signal ended that."""
        from time import sleep

        try:
            cls.is_waiting = True
            sleep(0 if cls.number else seconds)
        except Stopped:
            pass
        finally:
            cls.is_waiting = False
        return cls.number != 0

    @classmethod
    def read(cls, descriptor: int, most: int) -> bytes:
        """What has come, nothing at the end."""
        try:
            cls.is_waiting = True
            return b"" if cls.number else os.read(descriptor, most)
        except Stopped:
            return b""
        except OSError as why:
            raise Ended(f"read failed: {why.strerror}", BAD_READ) from None
        finally:
            cls.is_waiting = False


def was_stopped() -> bool:
    """Whether a signal ended the reading, and not the end of the rows."""
    return Signals.number != 0


# ---- words

def parser_of(tool: str, page: str) -> ArgumentParser:
    """A parser of a tool's words. Its page, whose second paragraph is the usage, is its help as it stands."""
    from argparse import ArgumentParser, HelpFormatter

    class Words(ArgumentParser):
        def format_help(self) -> str:
            return page

        def _get_formatter(self) -> HelpFormatter:
            return HelpFormatter(self.prog, width=WIDTH)  # without one it takes three packers of files in, to ask the terminal

    return Words(prog=tool, usage=page.split("\n\n")[1].removeprefix("usage: "))


def whole_number(word: str) -> int:
    """A number of at most 16 digits."""
    if not (word.isascii() and word.isdigit() and len(word) < 17):
        from argparse import ArgumentTypeError
        raise ArgumentTypeError(f"{word} is no whole number")
    return int(word)


# ---- what is told

class Telling:
    tool = "wsm"


def tell(text: str) -> None:
    print(f"{Telling.tool}: {text}", file=sys.stderr, flush=True)


def printable(text: str) -> str:
    """A text in characters that a terminal shows."""
    return "".join(one if one.isprintable() else one.encode("unicode_escape").decode() for one in text)


def shown(line: bytes) -> str:
    """The beginning of a line, in characters that a terminal shows."""
    return printable(line[:SHOWN].decode("utf-8", "backslashreplace")) + ("..." if len(line) > SHOWN else "")


def run(tool: str, main: Callable[[], int]) -> None:
    """Runs a tool, and ends with its status. What ends it early is told."""
    Telling.tool = tool
    try:
        status = main()
        sys.stdout.flush()
    except (Ended, OSError) as why:
        tell(str(why))
        status = why.status if isinstance(why, Ended) else BAD_WRITE
    os._exit(128 + Signals.number if Signals.number and not status else status)
