#!/usr/bin/env python3
"""Measures wsm beside its peers, each as Debian packages it: measure.py [PROGRAM [ROUNDS]]

The query is count and sum by key, over fixed windows of 60, sliding windows of 60 every 25, and sessions with a gap
of 60. The rows are those of bench/make_rows.py, with each watermark 5 lower, so that no record is late, and one more
at the end, which fires what is left. wsm reads all of them, and its peers the records alone; each must write the panes
that wsm writes, in any order. Everything runs on one core, one program after another in turn. A run costs the
processor time of its processes together, and the peak memory of the largest. Loading is part of a run: SQLite holds
the table in memory; PostgreSQL is one process over a cluster made for it, without fsync, with 256 MB to sort and group
in, and its table isn't logged.

PROGRAM is the built program (crates/wsm_cli/out/wsm_cli). Prints a table of ratios to wsm, by the medians of ROUNDS
(5) rounds. Installs nothing, and names the packages that are missing.
"""
import glob
import os
import re
import shlex
import shutil
import subprocess
import sys
import tempfile
from dataclasses import dataclass, field
from pathlib import Path
from statistics import median

HERE = Path(__file__).resolve().parent
TOP = HERE.parent.parent
SIZE = 60
SHAPES = {"fixed": f"FIXED {SIZE}", "sliding": f"SLIDING {SIZE} EVERY 25", "session": f"SESSION {SIZE}"}
MILLER = "mlr --icsv --implicit-csv-header --ocsv --headerless-csv-output"
IN_ORDER = "sort -t, -k2,2 -k3,3n records |"
PYTHON = "/usr/bin/python3"  # Debian's, for which its pandas is
POSTGRES = max(glob.glob("/usr/lib/postgresql/*/bin"), default="")
USER = "postgres" if os.geteuid() == 0 else None  # PostgreSQL refuses root
TABLE = "table records (tag text, key text, time integer, n integer)"


@dataclass
class Peer:
    """A program, and a pipeline for each shape that it has."""

    name: str
    package: str
    version: str  # a command that says it
    commands: dict
    seconds: dict = field(default_factory=lambda: {shape: [] for shape in SHAPES})
    memory: dict = field(default_factory=lambda: {shape: [] for shape in SHAPES})

    def found(self):
        """Its version, if it is there."""
        words = shlex.split(self.version)
        if not shutil.which(words[0]):
            return None
        said = subprocess.run(words, capture_output=True, text=True)
        number = re.search(r"\d+(\.\d+)+", said.stdout)
        return number[0] if number and said.returncode == 0 else None


def each(command):
    return {shape: command.replace("SHAPE", shape) for shape in SHAPES}


def awk(name):
    command = f"{name} -F, -v OFS=, -f {HERE}"
    over_records = {shape: f"{command}/{shape}.awk records" for shape in ("fixed", "sliding")}
    return over_records | {"session": f"{IN_ORDER} {command}/session.awk"}


def miller():
    return {
        "fixed": f"{MILLER} put '$start = $3 // 60 * 60' then stats1 -a count,sum -f 4 -g 2,start records",
        "sliding": f"{MILLER} put -q -f {HERE}/sliding.mlr records",
        "session": f"{IN_ORDER} {MILLER} put -q -f {HERE}/session.mlr",
    }


def peers():
    sqlite = f"sqlite3 -csv :memory: 'create {TABLE}' '.import records records' '.read {HERE}/SHAPE.sql'"
    postgres = f"{POSTGRES}/postgres --single -j -c fsync=off -c work_mem=256MB -D cluster postgres"
    return [
        Peer("mawk", "mawk", "mawk -W version", awk("mawk")),
        Peer("gawk", "gawk", "gawk --version", awk("gawk")),
        Peer("Miller", "miller", "mlr --version", miller()),
        Peer("datamash", "datamash", "datamash --version",
             {"fixed": "datamash -t, --full bin:60 3 | datamash -t, -s -g 2,5 count 4 sum 4"}),
        Peer("SQLite", "sqlite3", "sqlite3 --version", each(sqlite)),
        Peer("PostgreSQL", "postgresql", f"{POSTGRES}/postgres --version", each(postgres)),
        Peer("pandas", "python3-pandas", f"{PYTHON} -c 'import pandas; print(pandas.__version__)'",
             each(f"{PYTHON} {HERE}/with_pandas.py SHAPE records")),
        Peer("data.table", "r-cran-data.table", "Rscript -e 'cat(format(packageVersion(\"data.table\")))'",
             each(f"Rscript {HERE}/with_data_table.R SHAPE records")),
    ]


class Room:
    """A folder with the rows, the records, the queries and a cluster, in which the commands run."""

    def __init__(self, folder):
        self.folder = folder
        folder.chmod(0o777)
        self.write_rows()
        base = (TOP / "bench/count.wsm").read_text().replace("COUNT(*)", "COUNT(*), SUM(n)")
        for shape, window in SHAPES.items():
            (folder / f"{shape}.wsm").write_text(base.replace("FIXED 60", window))

    def write_rows(self):
        made = subprocess.run([sys.executable, TOP / "bench/make_rows.py"], stdout=subprocess.PIPE, text=True, check=True)
        rows = [line.split(",") for line in made.stdout.splitlines()]
        rows = [row if row[0] == "r" else ["w", str(int(row[1]) - 5)] for row in rows]
        rows = [row for row in rows if row[0] == "r" or int(row[1]) > 0] + [["w", "1000000"]]
        for name, kinds in (("rows", "rw"), ("records", "r")):
            (self.folder / name).write_text("".join(",".join(row) + "\n" for row in rows if row[0] in kinds))

    def make_cluster(self):
        words = ["-D", "cluster", "-A", "trust", "--locale=C", "--encoding=UTF8", "--username=postgres", "--no-sync"]
        subprocess.run([f"{POSTGRES}/initdb", *words], cwd=self.folder, user=USER, stdout=subprocess.DEVNULL, check=True)

    def postgres_script(self, shape):
        """What a single process of PostgreSQL reads on its standard input; the panes go to a file."""
        query = (HERE / f"{shape}.sql").read_text()
        steps = [
            f"create unlogged {TABLE}",
            f"copy records from '{self.folder}/records' (format csv)",
            f"copy ({query}) to '{self.folder}/panes' (format csv)",
            "drop table records",
        ]
        script = self.folder / "script"
        script.write_text("".join(f"{step};\n\n" for step in steps))
        return script

    def run(self, peer, shape):
        """Runs a peer's command, and leaves its panes in a file. Gives its processor time in seconds and its memory in MB."""
        is_postgres = peer.name == "PostgreSQL"
        stages = [shlex.split(stage) for stage in peer.commands[shape].split(" | ")]
        told = [self.folder / f"memory{number}" for number in range(len(stages))]
        for file in (self.folder / "panes", *told):
            file.unlink(missing_ok=True)
        source = open(self.postgres_script(shape) if is_postgres else self.folder / "records")
        errors = open(self.folder / "errors", "w")
        processes = []
        for words, memory in zip(stages, told):
            sink = subprocess.PIPE if memory != told[-1] else open(self.folder / ("said" if is_postgres else "panes"), "w")
            how = {"stdin": source, "stdout": sink, "stderr": errors, "user": USER if is_postgres else None}
            # `time` tells the memory: that of a child of this process would begin with this one's.
            words = ["/usr/bin/time", "-o", memory, "-f", "%M", *words]
            processes.append(subprocess.Popen(words, cwd=self.folder, **how))
            source.close()
            source = processes[-1].stdout
        seconds = 0
        for process in processes:
            _, status, used = os.wait4(process.pid, 0)
            process.returncode = os.waitstatus_to_exitcode(status)
            seconds += used.ru_utime + used.ru_stime
        if any(process.returncode for process in processes):
            sys.exit(f"{(self.folder / 'errors').read_text()}{peer.name} failed: {peer.commands[shape]}")
        return seconds, max(int(memory.read_text()) for memory in told) / 1024

    def panes(self):
        """The panes that the last run wrote: key, start, end, count and sum of each."""
        panes = []
        for line in (self.folder / "panes").read_text().splitlines():
            cells = line.removeprefix("pane,on_time,").split(",")
            if cells[0] == "end":
                assert cells[3:5] == ["0", "0"], f"late or refused: {line}"
                continue
            key, start, *others = cells[0], *map(int, cells[1:])
            # Where windows have one size, a program may leave the end out.
            panes.append((key, start, *others) if len(others) == 3 else (key, start, start + SIZE, *others))
        return sorted(panes)


def table(all_peers):
    """Ratios of processor time to wsm's, each with the peak memory."""
    lines = ["| program | fixed | memory | sliding | memory | sessions | memory |", "|---|" + "---:|---:|" * len(SHAPES)]
    wsm = {shape: median(all_peers[0].seconds[shape]) for shape in SHAPES}
    for peer in all_peers:
        cells = []
        for shape in SHAPES:
            has_it = shape in peer.commands
            cells.append(f"{median(peer.seconds[shape]) / wsm[shape]:.1f}" if has_it else "")
            cells.append(f"{median(peer.memory[shape]):.{1 if peer.name == 'wsm' else 0}f} MB" if has_it else "")
        lines.append(f"| {' '.join([peer.name, peer.version]).strip()} | " + " | ".join(cells) + " |")
    seconds = ", ".join(f"{shape} {wsm[shape]:.2f} s" for shape in SHAPES)
    return "\n".join([*lines, "", f"Processor time of wsm: {seconds}"])


def main():
    program = Path(sys.argv[1] if len(sys.argv) > 1 else TOP / "crates/wsm_cli/out/wsm_cli").resolve()
    rounds = int(sys.argv[2]) if len(sys.argv) > 2 else 5
    os.environ["LC_ALL"] = "C"
    os.sched_setaffinity(0, [max(os.sched_getaffinity(0))])
    present = [Peer("wsm", "", "", each(f"{program} run SHAPE.wsm rows"))]
    for peer in peers():
        peer.version = peer.found()
        if peer.version:
            present.append(peer)
        else:
            print(f"missing: {peer.name}, of Debian's package {peer.package}", file=sys.stderr)
    with tempfile.TemporaryDirectory() as folder:
        room = Room(Path(folder))
        if "PostgreSQL" in [peer.name for peer in present]:
            room.make_cluster()
        for number in range(rounds):
            for shape in SHAPES:
                for peer in present:
                    if shape not in peer.commands:
                        continue
                    seconds, memory = room.run(peer, shape)
                    peer.seconds[shape].append(seconds)
                    peer.memory[shape].append(memory)
                    if number == 0:
                        panes = room.panes()
                        wanted = panes if peer.name == "wsm" else wanted
                        assert panes == wanted, f"{peer.name} writes other panes: {shape}"
                    print(f"{peer.name}, {shape}: {seconds:.2f} s, {memory:.1f} MB", file=sys.stderr)
    print(table(present))


main()
