"""What trials that ask the prover share: the crates of this checkout, and a check over their built libraries.

Nothing is built here, and no library is proved again: `rt ci` of the gate and `rt check` leave libraries in
crates/NAME/out/rlib, and a check over them loads what they state. They may lie in a copy of this checkout, which the gate
proves. The words for the prover are those of the toolchain's own `rt`, whose module is taken from beside it.
"""
import copy
import functools
import importlib
import os
import re
import shutil
import subprocess
import sys
from pathlib import Path
from typing import Any

TOP = Path(__file__).resolve().parent.parent
# What rt ci prints of a library, or of a program, that it has proved or that an earlier run had, and at its end.
PROVED = re.compile(r"^rt: (\w+) (?:proved$|is kept: )", re.M)
ENDED = re.compile(r"^\d+ passed, \d+ failed", re.M)
# A crate as the toolchain has it, whose modules have no types.
Crate = Any


@functools.cache
def rtlib() -> Any:
    """The module of `rt`."""
    found = shutil.which("rt")
    if not found:
        sys.exit("rt isn't found")
    sys.path.insert(0, str(Path(found).resolve().parent))
    module = importlib.import_module("rtlib")
    # It asks for the stamp of each library below again, and of those below that.
    module.Crate.stamp = functools.cache(module.Crate.stamp)
    module.guarded()
    return module


@functools.cache
def crates(checkout: Path) -> dict[str, Crate]:
    """The crates of a checkout, lowest first."""
    return {it.name: it for it in rtlib().crates_below(str(checkout.resolve()))}


def above(name: str, folder: Path, libraries: set[str], checkout: Path) -> Crate:
    """A library in a folder of its own, over these of a checkout and of the toolchain."""
    known = crates(checkout)
    made = copy.copy(next(iter(known.values())))
    made.name, made.folder, made.said = name, str(folder), {"name": name}
    made.deps = [it for it in known.values() if it.name in libraries]
    made.of_kit = ["std", *sorted(libraries - {*known, "std", "core"})]
    return made


def proved_by(log: Path) -> set[str]:
    """The crates that are proved, or were by an earlier run, by what `rt ci` has printed into a file so far."""
    return set(PROVED.findall(log.read_text(errors="replace"))) if log.is_file() else set()


def has_ended(log: Path) -> bool:
    """Whether that `rt ci` has come to its end."""
    return log.is_file() and ENDED.search(log.read_text(errors="replace")) is not None


@functools.cache
def is_built(crate: Crate) -> bool:
    """Whether a library is of what stands here: by its stamp, or by its time where `rt ci` built it, which makes no stamp."""
    if not os.path.isdir(crate.rlib):
        return False
    if (Path(crate.rlib).parent / "stamp").is_file():
        return bool(crate.is_built())
    return all(os.path.getmtime(it) <= os.path.getmtime(crate.rlib) for it in rtlib().files_of(crate.folder))


def want_built(crate: Crate) -> None:
    """Ends the trial where a library below a crate isn't there."""
    lacking = [it.name for it in crate.below() if not is_built(it)]
    if lacking:
        sys.exit(f"{Path(sys.argv[0]).name}: {crate.name} stands on libraries that aren't built of what stands here: {', '.join(lacking)}. `rt ci` builds all of them, `rt check` in a crate's folder those below it")


def check(crate: Crate, folder: Path, *flags: str, jobs: int = 1) -> "subprocess.CompletedProcess[str]":
    """Has the prover check a crate's text in a folder, over the libraries below that crate. It ends when this ends."""
    words = [*rtlib().guarded(), rtlib().RATTLE, "check", *crate.words(["--jobs", str(jobs)], keeps=False), *flags]
    begin = functools.partial(
        subprocess.run, words, cwd=folder, stdin=subprocess.DEVNULL, stdout=subprocess.PIPE, stderr=subprocess.STDOUT, text=True, errors="replace",
    )
    ran: subprocess.CompletedProcess[str] = begin()
    # One that was killed lacked memory, most likely: others run beside it.
    return begin() if ran.returncode < 0 else ran
