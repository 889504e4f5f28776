"""Where tables are: a file of SQLite, or a database of PostgreSQL."""
from __future__ import annotations

import contextlib
import fcntl
import os
import re
from itertools import chain
from typing import IO, TYPE_CHECKING, Dict, Iterator, List, NamedTuple, Optional, Sequence, Tuple, Union

from .telling import BAD_WRITE, Ended, named

if TYPE_CHECKING:
    from subprocess import Popen

SEPARATOR = "\x1f"
Rows = List[Tuple[str, ...]]
Value = Union[int, str]


class Work(NamedTuple):
    """A statement, and what stands in it for `?1`, `?2`, .. each time that it is done."""
    statement: str
    rows: Sequence[Sequence[Value]] = ((),)


def quoted(text: str) -> str:
    return "'" + text.replace("'", "''") + "'"


def literal(value: Value) -> str:
    return str(value) if isinstance(value, int) else quoted(value)


def written(work: Work) -> Iterator[str]:
    """The texts of a statement with its values."""
    for row in work.rows:
        yield re.sub(r"\?([0-9]+)", lambda found: literal(row[int(found[1]) - 1]), work.statement) if row else work.statement


def lock_of(path: str) -> IO[str]:
    """The file beside another one that is locked by whoever writes that one. What it has stays, and no link is followed."""
    flags = os.O_RDWR | os.O_CREAT | os.O_NOFOLLOW | os.O_CLOEXEC
    return os.fdopen(os.open(f"{path}.lock", flags, 0o666), "r+")


class File:
    """A file of SQLite. Sinks of parts take turns by a lock beside it: where many wait, SQLite lets some wait for too long."""
    WHOLE, TRUTH, GREATEST, LEAST = "INTEGER", "TEXT", "max", "min"
    others = unfit = 1  # the statuses where another sink took lines, and where a line is none of the query's

    def __init__(self, path: str) -> None:
        import sqlite3

        self.shown = path
        with named(f"{path}.lock", BAD_WRITE):
            self.lock = lock_of(path)
        with self.alone():
            self.base = sqlite3.connect(path, timeout=10, isolation_level=None)
            self.base.execute("PRAGMA journal_mode = WAL")
            self.base.execute("PRAGMA synchronous = NORMAL")

    def ask(self, statements: Sequence[str], question: str) -> Rows:
        """The rows of a question, behind some statements, in one transaction."""
        with self.transaction():
            for statement in statements:
                self.base.execute(statement)
            return [tuple(map(str, row)) for row in self.base.execute(question)]

    def make(self, table: str, statements: Sequence[str]) -> None:
        """Makes a table by some statements, unless it is there: of sinks that begin at once, one does."""
        with self.transaction():
            found = self.base.execute("SELECT 1 FROM sqlite_master WHERE type = 'table' AND name = ?", (table,))
            for statement in statements if found.fetchone() is None else []:
                self.base.execute(statement)

    def run(self, works: Sequence[Work]) -> None:
        """One transaction."""
        with self.transaction():
            for statement, rows in works:
                self.base.executemany(statement, rows)

    @contextlib.contextmanager
    def transaction(self) -> Iterator[None]:
        with self.alone():
            self.base.execute("BEGIN IMMEDIATE")
            try:
                yield
            except BaseException:
                self.base.execute("ROLLBACK")
                raise
            self.base.execute("COMMIT")

    @contextlib.contextmanager
    def alone(self) -> Iterator[None]:
        """No other sink works on the file meanwhile. What fails there ends this one."""
        import sqlite3

        fcntl.flock(self.lock, fcntl.LOCK_EX)
        try:
            yield
        except sqlite3.IntegrityError as why:
            if "taken.lines" in str(why):
                raise Ended(f"{self.shown}: another sink takes lines there", self.others) from None
            raise Ended(f"{self.shown}: {why}") from None
        except sqlite3.Error as why:
            raise Ended(f"{self.shown}: {why}", BAD_WRITE) from None
        finally:
            fcntl.flock(self.lock, fcntl.LOCK_UN)

    def secure(self) -> None:
        """All that was written is on the disk: a commit with FULL is synced, and what came before it with it."""
        with self.alone():
            self.base.execute("PRAGMA synchronous = FULL")
        self.run([Work("UPDATE taken SET lines = lines")])

    def close(self) -> None:
        self.base.close()


class Server:
    """A database of PostgreSQL, by its client."""
    WHOLE, TRUTH, GREATEST, LEAST = "BIGINT", "BOOLEAN", "GREATEST", "LEAST"
    others = unfit = 1

    def __init__(self, url: str) -> None:
        from shutil import which

        self.shown = re.sub(r"//[^/@]*@", "//", url.split("?")[0])
        if not which("psql"):
            raise Ended("there is no psql: install the package postgresql-client", BAD_WRITE)
        self.words = ["psql", "-X", "-q", "-w", "-A", "-t", "-F", SEPARATOR, "-v", "ON_ERROR_STOP=1", url]
        self.client: Optional[Popen[str]] = None

    def ask(self, statements: Sequence[str], question: str) -> Rows:
        """The rows of a question, behind some statements, in one transaction."""
        told = self.told("".join(f"{statement};\n" for statement in (*statements, question)))
        return [tuple(line.split(SEPARATOR)) for line in told.split("\n") if line]

    def make(self, table: str, statements: Sequence[str]) -> None:
        """Makes a table by some statements, unless it is there."""
        made = "".join(f"{statement};\n" for statement in statements)
        self.told(f"SELECT to_regclass('{table}') IS NULL AS lacks \\gset\n\\if :lacks\n{made}\\endif\n")

    def told(self, text: str) -> str:
        """What a client answers to statements in one transaction; tables are made by one sink at a time."""
        import subprocess

        lock = "DO $$ BEGIN PERFORM pg_advisory_xact_lock(7967); END $$"
        ran = subprocess.run(self.words, input=f"BEGIN;\n{lock};\n{text}COMMIT;\n", capture_output=True, text=True, env=self.around())
        if ran.returncode:
            raise Ended(f"{self.shown}: {ran.stderr.strip() or 'psql failed'}", BAD_WRITE)
        return ran.stdout

    def around(self) -> Dict[str, str]:
        return {**os.environ, "PGOPTIONS": os.environ.get("PGOPTIONS", "") + " -c client_min_messages=warning"}

    def run(self, works: Sequence[Work]) -> None:
        """One transaction."""
        if self.client is None:
            from subprocess import PIPE as pipe
            from subprocess import Popen

            self.client = Popen(self.words, stdin=pipe, stdout=pipe, stderr=pipe, text=True, env=self.around())
        assert self.client.stdin and self.client.stdout
        with contextlib.suppress(OSError):
            text = "".join(f"{statement};\n" for statement in ("BEGIN", *chain.from_iterable(map(written, works)), "COMMIT"))
            self.client.stdin.write(f"{text}\\echo taken\n")
            self.client.stdin.flush()
        if self.client.stdout.readline() != "taken\n":
            told = self.client.communicate()[1].strip()
            if '"lines"' in told and "null value" in told:
                raise Ended(f"{self.shown}: another sink takes lines there", self.others)
            raise Ended(f"{self.shown}: {told or 'psql has ended'}", BAD_WRITE)

    def secure(self) -> None:
        """A commit is on the disk."""

    def close(self) -> None:
        if self.client is not None:
            self.client.communicate()


Place = Union[File, Server]


def place_of(table: str) -> Place:
    return Server(table) if table.startswith(("postgresql://", "postgres://")) else File(table)
