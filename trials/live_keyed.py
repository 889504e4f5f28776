"""Any number of keys over a log that grows: what trials/live tries of them."""
import contextlib
import json
import re
import signal
import subprocess
import sys
from collections.abc import Callable, Iterator, Sequence
from pathlib import Path
from random import Random
from threading import Thread
from typing import Any

from comparing import differs
from growing_log import wait
from programs import TOOLS

BEGIN = 1_790_000_000
PATIENCE = 120
NAMES = ["a", "b,c", 'd"', "ключ", "e" * 255]
LIVE_WORDS = ["--keys", "names", "--new-keys"]
QUERY = f"""FIELD n INT 0..1000;
START {BEGIN}; SKEW 100; LATENESS 50; RECORDS 1000000000;
SELECT COUNT(*), SUM(n)
WINDOW FIXED 60 """ + """%s EARLY EVERY 3
EMIT PANES;
"""
SOURCE = """format = "json"
[key]
at = "key"
[time]
at = "at"
form = "seconds"
[clock]
at = "of"
bound = 60
step = 30
"""
PANES = "SELECT key, begins, ends, count, sum_n FROM panes ORDER BY key, begins"
KeyedCase = Any  # a case of trials/live, with these words


def lines_drawn(drawn: Random, number: int, since: int) -> Iterator[str]:
    """Lines of a log. Names come among them that no line had before, more with time; in five of a hundred something is no record."""
    for at in range(number):
        known = [*NAMES, *(f"new {one}" for one in range((since + at) // 4))]
        record = {"key": drawn.choice(known[-9:] + NAMES), "at": BEGIN + since + at - drawn.randrange(90), "n": drawn.randrange(1001), "of": "one"}
        line = json.dumps(record, ensure_ascii=drawn.random() < .5)
        yield drawn.choice([line] * 40 + [line[:20], "", "né", json.dumps({**record, "key": "none", "n": 9999})]) + "\n"


def write_case(folder: Path, mode: str) -> None:
    (folder / "query.wsm").write_text(QUERY % mode)
    (folder / "source.toml").write_text(SOURCE)
    (folder / "names").write_text("".join(f"{name}\n" for name in NAMES[:3]))


def run_over(case: KeyedCase, text: str) -> subprocess.CompletedProcess[bytes]:
    words = [case.program, "run", "--from", "source.toml", *LIVE_WORDS, "query.wsm"]
    return subprocess.run(words, cwd=case.folder, input=text.encode(), capture_output=True)


def whole(case: KeyedCase) -> list[str]:
    """The lines of a run over all whole lines that came, but for its end row."""
    ran = run_over(case, case.text[:case.text.rfind("\n") + 1])
    differs("the status of a run in one piece", ran.returncode, 0)
    return ran.stdout.decode().splitlines()[:-1]


def try_sinks(case: KeyedCase, pair_of: Callable[..., Any], answered: Callable[..., Any], told_of: Callable[..., int], drawn: Random, kills: int) -> None:
    """`wsm live`, `tools/wsm-sink` or both are killed, while new names come: the table is that of one run in one piece."""
    sink: Sequence[str | Path] = [TOOLS / "wsm-sink", "--live", "dir", *LIVE_WORDS, "table.db", "query.wsm"]
    for number in range(kills):
        pair, before = pair_of(case, *drawn.choice([(), ("--cut", "1")]), sink=sink), told_of(case)
        text = "".join(lines_drawn(drawn, 60, 60 * number))
        at = drawn.randrange(len(text))
        case.grow(text[:at])
        if drawn.random() < 0.7:
            wait(lambda: told_of(case) > before or pair.sink.poll() is not None, 20)
        ends = pair.kill(drawn.choice([[pair.live], [pair.sink], [pair.live, pair.sink]]))
        differs(f"the status of what is left behind kill {number} by names", [end for end in ends if end not in (0, 6, 7, 128 + signal.SIGTERM, -signal.SIGTERM, -signal.SIGPIPE)], [])
        case.grow(text[at:])
    pair, want = pair_of(case, sink=sink), whole(case)
    wait(lambda: told_of(case) >= len(want), PATIENCE)
    pair.kill([pair.live, pair.sink])
    lines = "".join(f"{line}\n" for line in want)
    words = [TOOLS / "wsm-sink", *LIVE_WORDS, "whole.db", "query.wsm"]
    subprocess.run(words, cwd=case.folder, input=lines.encode(), stderr=subprocess.DEVNULL)
    differs("the amounts by names behind all kills", answered(case, PANES), answered(case, PANES, "whole.db"))
    differs("that panes by new names came", sum(key.startswith("new ") for key, *_ in answered(case, PANES)) >= min(kills, 5), True)


def try_others(case: KeyedCase) -> None:
    """DIR is of the names of the file, and of how many there may be."""
    other = (9, ["wsm: DIR is of another query, source or kind of LOG: take these again, or another DIR"])
    for words, names, want in (
        (["--keys", "names"], NAMES[:3], other),
        (["--keys", "names", "--new-keys", "--most-keys", "9"], NAMES[:3], other),
        (LIVE_WORDS, NAMES[:4], other),
        ([], NAMES[:3], (3, ["wsm: P2 Unexpected at 1:1"])),
        (["--new-keys"], NAMES[:3], (2, ["wsm: --new-keys and --most-keys are for --keys"])),
        (["--keys", "names", "--most-keys", "9"], NAMES[:3], (2, ["wsm: --most-keys is for --new-keys"])),
        (["--keys", "names", "--program"], NAMES[:3], (2, ["wsm: --keys takes the text of a query"])),
    ):
        (case.folder / "names").write_text("".join(f"{name}\n" for name in names))
        ran = subprocess.run(
            [case.program, "live", "dir", "--from", "source.toml", *words, "query.wsm", "log"],
            cwd=case.folder, capture_output=True, text=True, timeout=PATIENCE)
        got = (ran.returncode, ran.stderr.splitlines()[-1:])
        differs(f"what is told of {words} by {len(names)} names", got, want)
    (case.folder / "names").write_text("".join(f"{name}\n" for name in NAMES[:3]))


def try_health(case: KeyedCase) -> None:
    """`health` has the number of the keys, of those that came, which a run tells at its end, and of the engines, one for a thousand."""
    health, told = case.folder / "dir/health", run_over(case, case.text).stderr.decode().splitlines()[-1:]
    new = int("".join(told).removeprefix("wsm: new keys: "))
    want = {"keys": 3 + new, "new_keys": new, "parts": -(-(3 + new) // 1000)}

    def counted() -> dict[str, int]:
        text = health.read_text() if health.exists() else ""
        return {name: int(number) for name, number in re.findall(r"^wsm_live_(keys|new_keys|parts) ([0-9]+)$", text, re.M)}

    live = case.begin(out=subprocess.DEVNULL)
    wait(lambda: counted() == want, PATIENCE)
    live.kill()
    live.wait()
    differs("the keys that health has", counted(), want)


def try_source(case: KeyedCase) -> None:
    """A source that names the file of the names, which stands beside it; a file that the words name goes first."""
    for folder, keys, words in (("of", "names", []), ("of", "none", ["--keys", "of/names"])):
        (case.folder / folder).mkdir(exist_ok=True)
        (case.folder / folder / "names").write_text("".join(f"{name}\n" for name in NAMES[:3]))
        (case.folder / folder / "source.toml").write_text(f'keys = "{keys}"\n{SOURCE}')
        run = [case.program, "run", "--from", f"{folder}/source.toml", *words, "--new-keys", "query.wsm", "log"]
        ran = subprocess.run(run, cwd=case.folder, capture_output=True)
        want = run_over(case, (case.folder / "log").read_text())
        differs(f"what is written by the names of a source, {words}", (ran.returncode, ran.stdout), (0, want.stdout))


def most_memory(process: int) -> int:
    """The most memory that a process had, in kB."""
    with contextlib.suppress(OSError, StopIteration):
        return next(int(line.split()[1]) for line in Path(f"/proc/{process}/status").read_text().splitlines() if line.startswith("VmHWM"))
    return 0


def write_keys(case: KeyedCase, drawn: Random, keys: int) -> None:
    """So many names, a query that reserves less than 4 KB for each, and a log with two records of each."""
    (case.folder / "names").write_text("".join(f"meter {key}\n" for key in range(keys)))
    (case.folder / "query.wsm").write_text((QUERY % "ACCUMULATING").replace(" EARLY EVERY 3", ""))
    order = [*range(keys), *range(keys)]
    drawn.shuffle(order)
    record = '{"key": "meter %d", "at": %d, "n": 7, "of": "one"}\n'
    case.grow("".join(record % (key, BEGIN + at * 300 // len(order)) for at, key in enumerate(order)))


def memory_of_run(case: KeyedCase) -> int:
    """The most memory of a run over the log, in kB, once it has written all lines but the last."""
    want = len(whole(case))
    words = [case.program, "run", "--from", "source.toml", *LIVE_WORDS, "query.wsm"]
    run = subprocess.Popen(words, cwd=case.folder, stdin=subprocess.PIPE, stdout=subprocess.PIPE, stderr=subprocess.DEVNULL, bufsize=0)
    feeder = Thread(target=run.stdin.write, args=((case.folder / "log").read_bytes(),))
    feeder.start()
    count = sum(1 for _ in zip(range(want), run.stdout))
    memory = most_memory(run.pid)
    feeder.join()
    run.stdin.close()
    differs("how many lines a run by names writes, and its status", (count, run.wait(PATIENCE)), (want, 0))
    return memory


def try_memory(one: KeyedCase, many: KeyedCase, drawn: Random, keys: int) -> None:
    """So many keys take less than 300 MB of a live run, and of a run no more beside those of one key than `wsm verify` tells."""
    write_keys(one, drawn, 1)
    write_keys(many, drawn, keys)
    want = len(whole(many))
    live = many.begin(out=subprocess.PIPE)
    count = sum(1 for _ in zip(range(want + 1), live.stdout))
    memory = most_memory(live.pid)
    live.kill()
    live.wait()
    differs(f"how many lines are handed out of {keys} keys", count, want + 1)
    differs(f"the memory of {keys} keys, {memory} kB, below 300 MB", 0 < memory < 300_000, True)
    words = [many.program, "verify", "--keys", str(keys), "query.wsm"]
    told = subprocess.run(words, cwd=many.folder, capture_output=True, text=True).stdout
    most, grown = int(told.split("bytes,")[1]) // 1000, memory_of_run(many) - memory_of_run(one)
    differs(f"what {keys} keys took, {grown} kB beside one key, within the {most} kB that are told", grown < most, True)
    print(f"{keys} keys, two records of each: {memory} kB; {grown} kB more than one key in a run, told are {most} kB")


if __name__ == "__main__":
    sys.exit("trials/live tries it")
