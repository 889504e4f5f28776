#!/usr/bin/env python3
"""Draws the pictures of docs/WINDOWS.md from what the program writes, and the first session of README.md.

usage: draw.py [PROGRAM]

Runs PROGRAM (`wsm` at the top of the repository where it is left out) for each query below that writes panes, and
writes NAME.svg beside this script for NAME.wsm. `tools/wsm_tools/drawing.py` draws, and says how to read a picture.
session.svg shows what README.md has one type under "A first query", and what it prints there.
"""
import re
import sys
from html import escape
from pathlib import Path

sys.dont_write_bytecode = True
HERE = Path(__file__).resolve().parent
TOP = HERE.parent.parent
EXAMPLES = TOP / "examples"
sys.path.insert(0, str(TOP / "tools"))

from wsm_tools.drawing import Frame, drawn

NAMES = {
    "scores": [
        "fixed", "final", "lost", "from_window", "skew", "discarding", "early", "early_discarding", "retracting", "sliding",
        "sessions",
    ],
    "two-phones": ["sources"],
}
# Pictures that show how far behind the watermark a late record is.
MEASURED = ["lost", "from_window"]
# One frame for all, so that they can be laid side by side: from 11:59 to 12:10.
FRAME = Frame(first=43140, last=43800, scale=1.15, space=60, is_clock=True)

LINE, MARGIN, WIDTH = 18, 14, 560  # of the session: the height of a line, the room around it, and how wide it is


def session():
    """The first session of README.md: what is typed is bright, and what is written is dim."""
    page = (TOP / "README.md").read_text().split("\n## A first query\n")[1]
    typed, written = re.findall(r"^```(?:sh)?\n(.*?)^```$", page, re.M | re.S)[:2]
    lines = [(text, "#f5f5f5") for text in typed.splitlines()] + [(text, "#9ecb8f") for text in written.splitlines()]
    height = LINE * len(lines) + 2 * MARGIN
    texts = [
        f'<text x="{MARGIN}" y="{MARGIN + LINE * at + 13}" fill="{color}" xml:space="preserve">{escape(text)}</text>'
        for at, (text, color) in enumerate(lines)
    ]
    head = f'<svg xmlns="http://www.w3.org/2000/svg" width="{WIDTH}" height="{height}" font-family="monospace" font-size="14">'
    return "\n".join([head, f'<rect width="{WIDTH}" height="{height}" rx="6" fill="#20242b"/>', *texts, "</svg>", ""])


def main(program):
    (HERE / "session.svg").write_text(session())
    for folder, names in NAMES.items():
        rows = (EXAMPLES / folder / "rows.csv").read_text().split()
        for name in names:
            query = EXAMPLES / folder / f"{name}.wsm"
            (HERE / f"{name}.svg").write_text(drawn(str(program), str(query), rows, frame=FRAME, is_measured=name in MEASURED))


main(sys.argv[1] if len(sys.argv) > 1 else TOP / "wsm")
