"""Runs a live job by its file: the lines of a log, each once, into a table; and saves what it has.

usage: job run [--state STATE] NAME
       job check [--state STATE] NAME
       job save [--state STATE] NAME > FILE

For example: job check traffic

NAME is that of the file /etc/wsm/NAME.toml, or the path of one, with a slash in it. The job's folder is STATE/NAME, where
STATE is the folder that systemd gives the unit, else /var/lib/wsm-live. The file has these keys:

    log, query, source    what is read, what is counted, and where the lines have it
    table                 a file in STATE or elsewhere, or the URL of a PostgreSQL database, for `sink`
    columns, part         their words for `sink`, where they are said; columns is a list
    sink                  in the place of these three the words of another command that takes the numbered lines; it has
                          DIR, LOG, QUERY and SOURCE in its environment
    patience, cut, health  those of `wsm live`, where they are said
    keys, new_keys, most_keys  those of `wsm live` and of `sink`, where they are said; new_keys is true or false

A path that doesn't begin with / is beside the file; that of table lies in STATE.

run has the program judge query and source, and runs `wsm live` and behind it the sink. Where one of them ends so does the
other, and it ends with the status of the one that ended by itself. A file `lost` in the job's folder has it pass --lost begin
to `wsm live`, and is removed. check judges too, and prints the two commands of run.

save writes a tar of all that the job has to standard output, also while it runs: the table as of one moment, what sinks
told, the journal, and the file with its query, source and keys. The table is copied first and the journal last, from the file
that it was in front of the table's copy: a journal only grows, or is another one, as behind a cut, and then all is copied
anew. So it has all lines that the table has, and none was cut off that the table lacks. A table in PostgreSQL and what
another sink keeps aren't in it: save these before.

It ends with status 2 by its words or the file's, and with those of `wsm` by query and source; of save with 6 where something
can't be read, and 7 where it can't be written.
"""
from __future__ import annotations

import os
import sys
from typing import TYPE_CHECKING, Any, Dict, List, NamedTuple, Optional

from . import asking, telling
from .telling import BAD_READ, BAD_WORDS, BAD_WRITE, Ended

if TYPE_CHECKING:
    from argparse import Namespace

FILES, STATE = "/etc/wsm", "/var/lib/wsm-live"
TYPES = {"log": str, "query": str, "source": str, "table": str, "columns": list, "part": str, "sink": list, "patience": int, "cut": int, "health": str, "keys": str, "new_keys": bool, "most_keys": int}
SAID = {str: "a text", list: "a list of texts", int: "a whole number", bool: "true or false"}
PATHS = ("log", "query", "source", "health", "keys")
NEEDED = ("log", "query", "source")
TRIES = 100


class Job(NamedTuple):
    """What a file says, and where it stands."""
    file: str
    state: str
    folder: str
    said: Dict[str, Any]

    def live(self) -> List[str]:
        """The command that hands out the lines."""
        more = [word for key in ("patience", "cut", "health") if key in self.said for word in (f"--{key}", str(self.said[key]))]
        return [asking.program(), "live", *more, *self.named(), self.folder, "--from", self.said["source"], self.said["query"], self.said["log"]]

    def sink(self) -> List[str]:
        """The command that takes them."""
        if "sink" in self.said:
            return list(self.said["sink"])
        more = ["--columns", ",".join(self.said["columns"])] if "columns" in self.said else []
        more += ["--part", self.said["part"]] if "part" in self.said else []
        return [asking.lies_at("tools", "wsm-sink"), *more, *self.named(), "--live", self.folder, str(self.table()), self.said["query"]]

    def named(self) -> List[str]:
        """The words for any number of keys."""
        more = ["--keys", self.said["keys"]] if "keys" in self.said else []
        more += ["--new-keys"] * self.said.get("new_keys", False)
        return more + (["--most-keys", str(self.said["most_keys"])] if "most_keys" in self.said else [])

    def table(self) -> Optional[str]:
        """The path or the URL of the table, where the job's sink is `sink`."""
        table: Optional[str] = self.said.get("table")
        return table if table is None or table.startswith("postgres") else os.path.join(self.state, table)

    def surroundings(self) -> Dict[str, str]:
        names = {key.upper(): self.said[key] for key in NEEDED}
        return {**os.environ, **names, "DIR": self.folder}


# ---- the file

def fits(value: Any, kind: type) -> bool:
    """Whether it is a text, a whole number, or some texts in a list."""
    if isinstance(value, list):
        return kind is list and bool(value) and all(isinstance(word, str) for word in value)
    return isinstance(value, kind) and (kind is bool or not isinstance(value, bool))


def faults_of(said: Dict[str, Any]) -> List[str]:
    """What is wrong with a file's keys."""
    faults = [f"{key} is no key of a job" for key in said if key not in TYPES]
    faults += [f"{key} is missing" for key in NEEDED if key not in said]
    faults += [f"{key} must be {SAID[kind]}" for key, kind in TYPES.items() if key in said and not fits(said[key], kind)]
    if ("table" in said) == ("sink" in said):
        faults.append("it must have one of table and sink")
    if "sink" in said and ("columns" in said or "part" in said):
        faults.append("columns and part go with table")
    if "keys" not in said and ("new_keys" in said or "most_keys" in said):
        faults.append("new_keys and most_keys go with keys")
    return faults


def job_of(asked: Namespace) -> Job:
    """The job that the words ask for."""
    path = asked.name if "/" in asked.name else os.path.join(FILES, f"{asked.name}.toml")
    state = os.path.abspath(asked.state or os.environ.get("STATE_DIRECTORY", "").split(":")[0] or STATE)
    try:
        import tomllib

        with open(path, "rb") as file:
            said = tomllib.load(file)
    except ModuleNotFoundError:
        raise Ended("it wants Python 3.11 or later, which reads TOML", BAD_WORDS) from None
    except OSError as why:
        raise Ended(f"{path}: {why.strerror}", BAD_WORDS) from None
    except ValueError as why:
        raise Ended(f"{path} is no TOML: {why}", BAD_WORDS) from None
    if faults := faults_of(said):
        raise Ended(f"{path}: {faults[0]}", BAD_WORDS)
    beside = os.path.dirname(os.path.abspath(path))
    said.update({key: os.path.join(beside, said[key]) for key in PATHS if key in said})
    name = os.path.basename(path).removesuffix(".toml")
    return Job(os.path.abspath(path), state, os.path.join(state, name), said)


# ---- run and check

def judge(job: Job) -> int:
    """Has the program judge the query and the source, before anything is begun for them, and answers its status."""
    judged = asking.asked_of(asking.program(), "run", "--from", job.said["source"], *job.named(), job.said["query"], os.devnull)
    if judged.returncode:
        sys.stderr.write(judged.stderr)
    return judged.returncode


def take_lost(job: Job) -> List[str]:
    """The words by which lines that are gone from the log are given up: for one start, by a file in the folder."""
    try:
        os.remove(os.path.join(job.folder, "lost"))
    except FileNotFoundError:
        return []
    except OSError as why:
        raise Ended(f"{why.filename}: {why.strerror}", BAD_WRITE) from None
    return ["--lost", "begin"]


def run(job: Job) -> int:
    """Runs the two commands until one of them ends, and then ends the other one."""
    import signal
    from subprocess import PIPE, Popen

    def stop(number: int, _: object) -> None:
        for one in (handing, taking):
            one.terminate()
        signal.signal(number, signal.SIG_DFL)
        os.kill(os.getpid(), number)

    if status := judge(job):
        return status
    handing = Popen([*job.live(), *take_lost(job)], stdout=PIPE)
    taking = Popen(job.sink(), stdin=handing.stdout, env=job.surroundings())
    assert handing.stdout
    handing.stdout.close()
    for number in (signal.SIGINT, signal.SIGTERM):
        signal.signal(number, stop)
    first = os.waitid(os.P_ALL, 0, os.WEXITED | os.WNOWAIT)
    if first and first.si_pid == taking.pid:
        handing.terminate()
    return status_of(handing.wait(), taking.wait(), -signal.SIGTERM)


def status_of(handed: int, took: int, stopped: int) -> int:
    """The status of both: the sink's, unless its lines ended by the run's end."""
    if took in (0, BAD_READ) and handed not in (0, stopped):
        return handed if handed > 0 else 128 - handed
    if took == 0:
        telling.tell("the sink has ended by itself")
        return BAD_WRITE
    return took if took > 0 else 128 - took


def check(job: Job) -> int:
    """Has the query and the source judged, and prints what run runs."""
    from shlex import join

    if status := judge(job):
        return status
    print(join(job.live()))
    print(join(job.sink()))
    return 0


# ---- save

def copied(job: Job, to: str) -> Optional[str]:
    """A copy of the table as of one moment, where it is a file of SQLite that is there."""
    table = job.table()
    if table is None or table.startswith("postgres"):
        telling.tell(f"{'the table' if table else 'what the sink keeps'} isn't in it, and must have been saved before")
        return None
    if not os.path.exists(table):
        return None
    import sqlite3
    from contextlib import closing

    try:
        with closing(sqlite3.connect(table, timeout=60)) as base, closing(sqlite3.connect(to)) as copy:
            base.backup(copy)
    except sqlite3.Error as why:
        raise Ended(f"{table}: {why}", BAD_READ) from None
    return table


def told_in(folder: str) -> Dict[str, bytes]:
    """What sinks told, by the files that they renamed."""
    found = {}
    for name in sorted(os.listdir(folder)):
        if name.startswith("taken") and not name.endswith(".next"):
            with open(os.path.join(folder, name), "rb") as file:
                found[os.path.join(folder, name)] = file.read()
    return found


def write_saved(job: Job, room: str) -> bool:
    """Writes the tar, unless the journal became another one meanwhile."""
    import tarfile
    from io import BytesIO

    journal = os.path.join(job.folder, "journal")
    with open(journal, "rb") as file:
        table = copied(job, os.path.join(room, "table"))
        told = told_in(job.folder)
        if not os.path.samestat(os.stat(journal), os.fstat(file.fileno())):
            return False
        with tarfile.open(fileobj=sys.stdout.buffer, mode="w|", format=tarfile.GNU_FORMAT) as tar:
            for path in (job.file, *(job.said[key] for key in ("query", "source", "keys") if key in job.said)):
                tar.add(path)
            if table is not None:
                entry = tar.gettarinfo(table)
                entry.size = os.stat(os.path.join(room, "table")).st_size
                with open(os.path.join(room, "table"), "rb") as copy:
                    tar.addfile(entry, copy)
            for path, text in told.items():
                entry = tar.gettarinfo(path)
                entry.size = len(text)
                tar.addfile(entry, BytesIO(text))
            tar.addfile(tar.gettarinfo(arcname=journal, fileobj=file), file)
    return True


def save(job: Job) -> int:
    from tempfile import TemporaryDirectory

    try:
        with TemporaryDirectory() as room:
            if not any(write_saved(job, room) for _ in range(TRIES)):
                raise Ended(f"{job.folder}/journal was another one each time", BAD_READ)
    except BrokenPipeError as why:
        raise Ended(f"write failed: {why.strerror}", BAD_WRITE) from None
    except OSError as why:
        status = BAD_READ if why.filename else BAD_WRITE
        raise Ended(f"{why.filename or 'write failed'}: {why.strerror}", status) from None
    return 0


# ---- the whole

DOES = {"run": run, "check": check, "save": save}


def main() -> int:
    parser = telling.parser_of("job", __doc__)
    parser.add_argument("does", choices=[*DOES])
    parser.add_argument("--state")
    parser.add_argument("name")
    asked = parser.parse_args()
    return DOES[asked.does](job_of(asked))
