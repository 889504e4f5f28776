"""Draws a picture of a run, for one key: what came, what was written, and when.

usage: picture [--clock | --zone ZONE] [--program PROGRAM] QUERY ROWS [KEY] > OUT.svg

For example: picture --zone Europe/Berlin hot.wsm readings.csv oven > oven.svg

QUERY is a query that writes panes, ROWS a file of at most 500 rows without quotes. Without KEY it is the query's
first key. With --clock times are taken as seconds since 1970 and shown as hours and days, with --zone as those of a
zone. No picture is higher than 4,000 points: of more than 99 rows those that stand together and in which nothing came out
share a line, and where that isn't enough they stand closer together; labels that have no room are left out then. PROGRAM
is `wsm` at the top of the repository, or on PATH, where the variable WSM doesn't name it and it is left out.
"""
from __future__ import annotations

import sys
from typing import TYPE_CHECKING

from . import asking, telling
from .telling import Ended

if TYPE_CHECKING:
    from argparse import Namespace

MOST_ROWS = 500


def words() -> Namespace:
    parser = telling.parser_of("picture", __doc__)
    shown = parser.add_mutually_exclusive_group()
    shown.add_argument("--clock", action="store_true")
    shown.add_argument("--zone")
    parser.add_argument("--program", default=asking.program())
    parser.add_argument("query")
    parser.add_argument("rows")
    parser.add_argument("key", nargs="?")
    return parser.parse_args()


def main() -> int:
    asked = words()
    from .drawing import drawn
    from .times import zone_of

    try:
        with open(asked.rows) as file:
            rows = [row for row in file.read().splitlines() if row]
        if len(rows) > MOST_ROWS:
            raise Ended(f"{len(rows)} rows are too many for a picture: give it at most {MOST_ROWS}")
        zone = zone_of(asked.zone or "UTC")
        sys.stdout.write(drawn(asked.program, asked.query, rows, asked.key, is_clock=asked.clock or asked.zone is not None, zone=zone))
        return 0
    except Ended as why:
        if not str(why).startswith("wsm: "):
            raise
        print(why, file=sys.stderr)
        return why.status
    except OSError as why:
        raise Ended(str(why)) from None
