"""The times of a log: in which of the forms of a source they are written, and the seconds since 1970 of each.

What is read here is read alike by a source of that form. Patterns are those that logs have most often, and their texts
must have all that a pattern has.
"""
from __future__ import annotations

import re
from datetime import datetime, timedelta, timezone, tzinfo
from typing import Callable, Dict, List, Optional, Sequence, Tuple

from .telling import BAD_WORDS, Ended

MONTHS = "jan feb mar apr may jun jul aug sep oct nov dec".split()
DIRECTIVES = {
    "Y": r"(?P<Y>\d{4})", "m": r"(?P<m>\d\d?)", "d": r"(?P<d>\d\d?)", "H": r"(?P<H>\d\d?)", "M": r"(?P<M>\d\d)", "S": r"(?P<S>\d\d)",
    "f": r"(?P<f>\d{1,9})", "b": f"(?P<b>(?i:{'|'.join(MONTHS)}))", "z": r"(?P<z>[+-]\d{4})", "a": "(?i:sun|mon|tue|wed|thu|fri|sat)",
}
DAYS = ("%Y-%m-%d", "%Y/%m/%d", "%d.%m.%Y", "%d/%m/%Y", "%m/%d/%Y", "%d-%b-%Y", "%d %b %Y")
CLOCKS = ("%H:%M:%S", "%H:%M:%S.%f", "%H:%M")
PATTERNS = [
    "%d/%b/%Y:%H:%M:%S %z", "%a, %d %b %Y %H:%M:%S %z", "%a %b %d %H:%M:%S %Y",
    *(f"{day}{apart}{clock}{offset}" for offset in ("%z", " %z", "") for day in DAYS for apart in (" ", "T") for clock in CLOCKS),
]
RFC_3339 = r"(\d{4})-(\d\d)-(\d\d)[Tt ](\d\d):(\d\d):(\d\d)(?:\.\d{1,9})?(?:[Zz]|([+-])(\d\d):(\d\d))"
UNITS = {"s": 1, "ms": 1000, "us": 1_000_000}  # of a number that is a time, how many are a second
COUNTS = {"seconds": 1, "milliseconds": 10**3, "microseconds": 10**6}
PLAUSIBLE = (10**8, 10**10)  # seconds since 1970, for a number that isn't said to be a time
Seconds = Callable[[str], Optional[int]]


def zone_of(name: str) -> tzinfo:
    """The zone of a name, by the system's table of zones."""
    if name == "UTC":
        return timezone.utc
    from zoneinfo import ZoneInfo
    try:
        return ZoneInfo(name)
    except (OSError, ValueError, KeyError):
        raise Ended(f"{name} is no zone that this system knows: Europe/Berlin is one, and UTC", BAD_WORDS) from None


def moment(time: int, unit: str, zone: tzinfo) -> Optional[datetime]:
    """A number of a unit since 1970 as a date of a zone, where the calendar has it."""
    whole, rest = divmod(time, UNITS[unit])
    try:
        return (datetime(1970, 1, 1, tzinfo=timezone.utc) + timedelta(seconds=whole, microseconds=rest * 1_000_000 // UNITS[unit])).astimezone(zone)
    except OverflowError:
        return None


def day_and_clock(year: int, month: int, day: int, hour: int, minute: int, second: int) -> Optional[datetime]:
    try:
        return datetime(year, month, day, hour, minute, 59 if second == 60 else second)
    except ValueError:
        return None


def since_1970(shown: datetime) -> int:
    return (shown - datetime(1970, 1, 1)) // timedelta(seconds=1)


def rfc_3339(text: str) -> Optional[int]:
    read = re.fullmatch(RFC_3339, text, re.ASCII)
    shown = read and day_and_clock(*map(int, read.groups()[:6]))
    if not read or not shown:
        return None
    hours, minutes = int(read[8] or 0), int(read[9] or 0)
    return at_offset(shown, hours, minutes, read[7] == "-")


def at_offset(shown: datetime, hours: int, minutes: int, is_behind: bool) -> Optional[int]:
    if hours > 23 or minutes > 59:
        return None
    ahead = (hours * 60 + minutes) * 60
    return since_1970(shown) + (ahead if is_behind else -ahead)


def count(per_second: int, digits: int, plain: bool) -> Seconds:
    """The seconds of a count of parts of a second, or of one with so many digits behind a point."""
    form = re.compile(r"\d{1,17}" + (rf"(?:\.\d{{1,{digits}}})?" if digits else ""), re.ASCII)

    def seconds(text: str) -> Optional[int]:
        if not form.fullmatch(text):
            return None
        time = int(text.partition(".")[0]) // per_second
        return time if plain or PLAUSIBLE[0] <= time < PLAUSIBLE[1] else None
    return seconds


# ---- patterns and zones

class Zone:
    """The clock of a zone, and how often it showed a time twice."""

    def __init__(self, name: Optional[str]) -> None:
        self.name, self.folds, self.zone = name, 0, zone_of(name or "UTC")

    def seconds(self, shown: datetime) -> Optional[int]:
        """The first instant at which the clock shows this."""
        if self.zone is timezone.utc:
            return since_1970(shown)
        instants = []
        for fold in (0, 1):
            instant = shown.replace(tzinfo=self.zone, fold=fold).astimezone(timezone.utc)
            if instant.astimezone(self.zone).replace(tzinfo=None, fold=0) == shown:
                instants.append(since_1970(instant.replace(tzinfo=None)))
        self.folds += len(set(instants)) > 1
        return min(instants) if instants else None


def has_zone(form: str) -> bool:
    return "%" not in form or "%z" in form


def pattern(form: str, zone: Zone) -> Seconds:
    parts = re.findall(r"%(.)|(.)", form)
    read_by = re.compile("".join(DIRECTIVES[letter] if letter else re.escape(plain) for letter, plain in parts), re.ASCII)

    def seconds(text: str) -> Optional[int]:
        read = read_by.fullmatch(text)
        if read is None:
            return None
        part = read.groupdict()
        month = MONTHS.index(part["b"].lower()) + 1 if "b" in part else int(part["m"])
        shown = day_and_clock(int(part["Y"]), month, int(part["d"]), int(part["H"]), int(part["M"]), int(part.get("S", 0)))
        if shown is None:
            return None
        if "z" not in part:
            return zone.seconds(shown)
        return at_offset(shown, int(part["z"][1:3]), int(part["z"][3:]), part["z"][0] == "-")
    return seconds


def forms(zone: Zone, plain: bool = False) -> Dict[str, Seconds]:
    """Each form with what reads it. Where it is plain that a number is a time, a small one is a time too."""
    found: Dict[str, Seconds] = {"rfc3339": rfc_3339}
    for name, per_second in COUNTS.items():
        found[name] = count(per_second, 0, plain and name == "seconds")
    found["fraction"] = count(1, 9, plain)
    found.update({form: pattern(form, zone) for form in PATTERNS})
    return found


def form_of(texts: Sequence[str], plain: bool) -> Tuple[str, int, List[str]]:
    """The form that reads the most of some texts, how many it reads, and which others read as many of the same kind."""
    read = {name: sum(seconds(text) is not None for text in texts) for name, seconds in forms(Zone(None), plain).items()}
    best = max(read, key=lambda name: read[name])
    others = [name for name, number in read.items() if "%" in best and number == read[best] and name != best]
    return best, read[best], others
