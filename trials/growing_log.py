"""A log that grows, the table that SQL makes of it, and the processes that were begun for one."""
import subprocess
import time
from pathlib import Path

PATIENCE = 120


def log_of(drawn, number):
    """Lines of an access log, one in ten of them up to five minutes late, and a last one half a day behind them."""
    lines = []
    for at in range(number):
        behind = drawn.randrange(300) if drawn.randrange(10) == 0 else 0
        user, status = drawn.choice(["acme", "globex", "initech", "-"]), drawn.choice([200, 200, 200, 404, 503])
        lines.append(line_of(1790000000 + 300 * at - behind, user, status, drawn.randrange(20000)))
    lines.append(line_of(1790000000 + 300 * number + 43200, "acme", 503, 0))
    return "".join(lines)


def line_of(at, user, status, size):
    clock = time.strftime("%d/%b/%Y:%H:%M:%S +0000", time.gmtime(at))
    return f'198.51.100.7 - {user} [{clock}] "GET /api HTTP/1.1" {status} {size} "-" "-"\n'


def by_sql(folder, text):
    """The table that SQL makes of a log alone, a line for each row."""
    words = ["sqlite3", ":memory:", ".read examples/logs/access/invoice.sql"]
    return subprocess.run(words, cwd=folder, input=text, stdout=subprocess.PIPE, text=True, check=True).stdout.splitlines()


def started_by(process):
    """The processes that a process started."""
    try:
        return [int(child) for child in Path(f"/proc/{process}/task/{process}/children").read_text().split()]
    except OSError:
        return []


def below(process):
    """The processes that a process started, and those that these started."""
    return [one for child in started_by(process) for one in (child, *below(child))]


def name_of(process):
    """The name of its program, or of the script that it runs."""
    try:
        words = Path(f"/proc/{process}/cmdline").read_text().split("\0")
    except OSError:
        return "gone"
    is_script = Path(words[0]).name.startswith("python") and len(words) > 2
    return Path(words[1] if is_script else words[0]).name or "gone"


def wait(is_so, patience=PATIENCE):
    """Waits until this is so, and asks less often the longer it takes."""
    end, pause = time.monotonic() + patience, 0.005
    while not is_so() and time.monotonic() < end:
        time.sleep(pause)
        pause = min(1.1 * pause, 0.1)
