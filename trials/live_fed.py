"""A source that writes its lines to `wsm live` on standard input: either is killed, and what the source writes is broken."""
import sqlite3
import subprocess
import sys
import threading

from comparing import differs

# A table's rows, with an `at` behind some of them, in pieces that end anywhere.
SOURCE = """
import random, sqlite3, sys, time
drawn, position = random.Random(int(sys.argv[1])), sys.argv[2]
text, count = f"from,{position}\\n", 0
for row, line in sqlite3.connect("lines.db").execute("SELECT rowid, line FROM lines WHERE rowid > ? ORDER BY rowid", (int(position or 0),)):
    text, count = f"{text}:{line}\\n", count + 1
    if drawn.random() < 0.2:
        text, count = f"{text}at,{count},{row}\\n", 0
    while len(text) > 200:
        size = drawn.randrange(1, 200)
        sys.stdout.write(text[:size])
        sys.stdout.flush()
        text = text[size:]
        time.sleep(0.002)
sys.stdout.write(f"{text}at,{count},{row}\\n" if count else text)
"""
BROKEN = (
    (":a\n", 9, "line 1 of standard input isn't from,POSITION"),
    ("from,7\n:a\nat,1,8\n", 8, "the source goes on from another position than DIR's: have it ask wsm live DIR --position again"),
    ("from,\na\n", 9, "line 2 of standard input is neither :LINE nor at,LINES,POSITION"),
    ("from,\n:a\nat,1\n", 9, "line 3 of standard input is neither :LINE nor at,LINES,POSITION"),
    ("from,\n:a\nat,2,8\n", 9, "line 3 of standard input says that 2 lines came since the last at, and 1 did"),
    (f"from,\nat,0,{'x' * 1025}\n", 9, "line 2 of standard input has a POSITION of more than 1024 bytes"),
    ("from,\n" + f":{'x' * 60000}\n" * 290, 9, "line 282 of standard input: 16 MiB came without an at,LINES,POSITION"),
)


def position_of(case, folder="dir"):
    ran = subprocess.run([case.program, "live", folder, "--position"], cwd=case.folder, capture_output=True, text=True)
    differs("the status of --position", (ran.returncode, ran.stderr), (0, ""))
    return ran.stdout.removesuffix("\n")


def fed(case, folder="dir"):
    return [str(case.program), "live", folder, "--cut", "1", "--from", "source.toml", "query.wsm", "-"]


def try_fed(case, drawn, lines, kills):
    """Each line of a table once, whatever is killed, and what stands for it is told in DIR between two of them."""
    with sqlite3.connect(case.folder / "lines.db") as table:
        table.execute("CREATE TABLE lines (line TEXT)")
        table.executemany("INSERT INTO lines VALUES (?)", [(line.rstrip("\n"),) for line in lines])
    case.text, handed, positions = "".join(lines), {}, []
    for number in range(kills + 1):
        positions.append(position_of(case))
        words = [sys.executable, "-c", SOURCE, str(number), positions[-1]]
        source = subprocess.Popen(words, cwd=case.folder, stdout=subprocess.PIPE, stderr=subprocess.DEVNULL)
        live = subprocess.Popen(fed(case), cwd=case.folder, stdin=source.stdout, stdout=subprocess.PIPE, text=True)
        source.stdout.close()
        timer = threading.Timer(drawn.random() * 0.6, drawn.choice([source, live]).kill)
        if number < kills:
            timer.start()
        name = live.stdout.readline().split(",")[1:2]
        for line in (line for line in live.stdout if line.endswith("\n")):
            differs("a line that comes again", handed.setdefault(int(line.split(",")[0]), line), line)
        timer.cancel()
        source.kill(), source.wait(), live.wait()
        if name and handed and drawn.random() < 0.5:
            (case.folder / "dir/taken").write_text(",".join([*name, *handed[max(handed)].split(",")[:2]]) + "\n")
    differs("the lines behind all kills", [handed[at] for at in sorted(handed)], case.whole())
    differs("the last position", position_of(case), str(len(lines)))
    print(f"killed a source or what reads it {kills} times, at {', '.join(map(str, positions[1:]))} of {len(lines)} rows")


def try_broken(case):
    """What a source writes that can't be taken, and what is torn at its end."""
    for at, (text, status, told) in enumerate((*BROKEN, ("from,\n:a\nat,1,8\n:b\nat,1,9", 0, None))):
        ran = subprocess.run(fed(case, f"fed{at}"), cwd=case.folder, input=text, capture_output=True, text=True)
        differs(f"the end of a source, {text[:40]!r}", (ran.returncode, ran.stderr), (status, f"wsm: {told}\n" if told else ""))
    differs("the position in front of what was torn", position_of(case, f"fed{len(BROKEN)}"), "8")
    differs("the position where nothing was taken", position_of(case, "none"), "")
