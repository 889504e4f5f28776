"""The program and the tools that a trial runs, the words that it is called by, and what a run writes."""
import argparse
import contextlib
import importlib.machinery
import importlib.util
import os
import shutil
import signal
import sqlite3
import subprocess
import sys
from pathlib import Path

TOP = Path(__file__).resolve().parent.parent
TOOLS = TOP / "tools"
sys.path.insert(0, str(TOOLS))  # for a trial that takes a tool into its own process


def under_trial(program):
    """The program that a trial is of, which the tools that it runs ask. They run by this Python."""
    os.environ["WSM"] = str(Path(program).absolute())
    os.environ["PATH"] = f"{Path(sys.executable).parent}:{os.environ['PATH']}"
    return Path(program).absolute()


def laid_out(folder, program=None):
    """A folder with the examples and the tools, as they lie in a checkout, and with the program where there is one."""
    for name in ("examples", "tools"):
        shutil.copytree(TOP / name, folder / name)
    if program:
        (folder / "wsm").symlink_to(program)
    return folder


class Group:
    """A process and those that it starts, in a group of their own, which ends with what is done meanwhile."""

    def __init__(self, words, folder=None, end=signal.SIGKILL, **streams):
        streams = {"stdin": subprocess.DEVNULL, "stdout": subprocess.DEVNULL, "stderr": subprocess.DEVNULL, **streams}
        self.end, self.process = end, subprocess.Popen(words, cwd=folder, start_new_session=True, **streams)

    def __enter__(self):
        return self

    def __exit__(self, *_):
        with contextlib.suppress(ProcessLookupError):
            os.killpg(self.process.pid, self.end)
        self.process.wait()


def given_program(page):
    """The program that a trial's first word which is no flag names, else the one at the top; --help has the trial's page printed."""
    if {"-h", "--help"} & {*sys.argv[1:]}:
        sys.exit(print(page))
    words = [word for word in sys.argv[1:] if not word.startswith("--")]
    return Path(words[0] if words else TOP / "wsm").absolute()


def answers(table, question):
    """What a table of SQLite answers; nothing where it isn't there yet."""
    try:
        with contextlib.closing(sqlite3.connect(f"file:{table}?mode=ro", uri=True, timeout=20)) as base:
            return base.execute(question).fetchall()
    except sqlite3.Error:
        return []


def taken_in(trial):
    """Another trial, of which this one takes parts."""
    loader = importlib.machinery.SourceFileLoader(trial, str(TOP / "trials" / trial))
    module = importlib.util.module_from_spec(importlib.util.spec_from_loader(trial, loader))
    loader.exec_module(module)
    return module


def parser_of(trial, page):
    """A parser of a trial's words, with SEED and PROGRAM where its usage has them; its help is the page at the head of its file."""
    first, usage, rest = page.split("\n\n", 2)
    parser = argparse.ArgumentParser(
        prog=trial, usage=usage.removeprefix("usage: "), description=f"{first}\n\n{rest}",
        formatter_class=argparse.RawDescriptionHelpFormatter,
    )
    if "--seed" in usage:
        parser.add_argument("--seed", type=int, default=1)
    if "PROGRAM" in usage:
        parser.add_argument("program", nargs="?", type=Path, default=TOP / "wsm")
    return parser


def built_by(program):
    """The program itself, where it is given as the script at the top of a repository or as a link to that."""
    crates = program.resolve().parent / "crates"
    return crates / "wsm_cli/out/wsm_cli" if crates.is_dir() else program.absolute()


def run_over(program, folder, rules, log, told=None):
    """The status of a run over the text of a log, and the lines that it writes; those that it tells are put into a list.
    What it reads is put into the folder."""
    files = {"query.wsm": rules.query, "source.toml": rules.source, "log": log}
    for name, text in files.items():
        (folder / name).write_text(text)
    query, source, lines = (folder / name for name in files)
    ran = subprocess.run([program, "run", "--from", source, query, lines], capture_output=True, text=True)
    if told is not None:
        told += ran.stderr.splitlines()
    return ran.returncode, ran.stdout.splitlines()


def lines_that_differ(got, want):
    """What differs of the lines that a run writes from those that it must write."""
    found = [f"line {at}: it is {its}, and must be {must}" for at, (its, must) in enumerate(zip(got, want), 1) if its != must]
    return found + ([f"it has {len(got)} lines, and must have {len(want)}"] if len(got) != len(want) else [])
