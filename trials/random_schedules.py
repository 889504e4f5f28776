"""Logs of wrong clocks, drawn at random: each small, with rules of its own by which it is run."""
import json
import random
from dataclasses import dataclass, field

from agreement import LATEST, Rules

MOST_N = 999  # of the field, which is the number of the line
BEGIN = 100000
OFFSETS = (-100000, -3600, 65, 420, 3600, 86400, 10**9, 999 * BEGIN)
BROKEN = {
    "json": ('{"key": "k0", "at": 10', "", '{"at": 100001, "n": 1}', '{"key": "k0", "n": 1}', '{"key": "k0", "at": 100000}', "w,100600"),
    "rows": ("w,100600", "", "r,k0,10", "r,k0,100001,", "r,,100001,1", "r,k0,x,1", "r,k0,100001,1,1"),
}
NO_CLOCK = ("", [], {}, None, "x" * 256)  # what names none
IDENTIFIERS = ("", [], {"id": 1}, "x" * 255, "x" * 256, "\u00e9" * 127, "\u00e9" * 128, None, 7, "7")
STRANGE = ({"key": "zz"}, {"n": MOST_N + 1}, {"n": -1}, {"at": -5}, {"at": LATEST + 1}, {"key": "zz", "at": 10**9})


@dataclass(frozen=True)
class Told:
    """A record of a log, and the clock that told its time."""
    key: str
    at: int
    n: int
    id: str
    is_right: bool
    clock: str
    is_named: bool = True  # its line names its clock, where lines do

    def text(self, rules, **other):
        said = {"key": self.key, "at": self.at, "n": self.n, "id": self.id, **other}
        if rules.gateways:
            said["via"] = {"gateway": self.clock if self.is_named else NO_CLOCK[self.n % len(NO_CLOCK)]}
        return json.dumps(said) if rules.format == "json" else f"r,{said['key']},{said['at']},{said['n']}"


@dataclass
class Log:
    """A log that is drawn line by line, so that fewer than AGREE clocks are wrong at each moment."""
    drawn: random.Random
    rules: Rules
    lines: list = field(default_factory=list)
    told: list = field(default_factory=list)  # the records that are no doubles
    right: set = field(default_factory=set)  # lines of right records, at most BOUND behind these, and not before START
    wrong: dict = field(default_factory=dict)  # clocks whose last record is wrong, and how many were told since
    now: int = BEGIN
    greatest: int = 0  # right time
    alone: int = 0  # lines for which one clock sends alone

    def __post_init__(self):
        self.sending = list(self.rules.clocks) if self.drawn.random() < 0.95 else [self.rules.clocks[0]]
        self.never_wrong = self.drawn.sample(self.sending, len(self.sending))
        self.offsets = OFFSETS if self.drawn.random() < 0.7 else [self.drawn.choice(OFFSETS)]

    def add_line(self):
        """A line more: mostly a record."""
        chance = self.drawn.random()
        self.now += self.drawn.choice([0, 1, 1, 2, 5, 20]) if chance < 0.97 else self.drawn.choice([400, 4000, 90000])
        chance = self.drawn.random()
        if chance < 0.04:
            self.lines.append(self.drawn.choice(BROKEN[self.rules.format]))
        elif chance < 0.08:
            clock = self.drawn.choice(self.sending)
            its = Told(self.key_of(clock), self.now, self.number(), f"odd {self.number()}", False, clock)
            self.lines.append(its.text(self.rules, **self.drawn.choice(STRANGE)))
        elif chance < 0.1 and self.rules.has_identifiers:
            its = Told(self.drawn.choice(self.rules.keys), self.now, self.number(), "", False, "", False)
            self.lines.append(its.text(self.rules, id=self.drawn.choice([*IDENTIFIERS, f"id {self.number() - 1}"])))
            self.greatest = max(self.greatest, self.now)
        elif chance < 0.2 and self.told:
            self.add_double(self.drawn.choice(self.told[-self.drawn.choice([1, 3, 30]):]))
        else:
            self.add_record()

    def number(self):
        return len(self.lines) + 1

    def key_of(self, clock):
        """A gateway stamps the records of any key."""
        return self.drawn.choice(self.rules.keys) if self.rules.gateways else clock

    def text(self):
        return "".join(f"{line}\n" for line in self.lines)

    def add_record(self):
        drawn, may_be_wrong = self.drawn, len(self.wrong) < self.rules.agree - 1
        speaking = [key for key in self.wrong if key in self.sending]
        if self.alone:
            self.alone -= 1
            self.add_of(self.sending[0], self.sending[0] in self.wrong and drawn.random() < 0.5)
        elif may_be_wrong and self.never_wrong and drawn.random() < 0.6:
            self.add_of(self.never_wrong.pop(), True)
        elif speaking and drawn.random() < 0.4:
            self.add_of(drawn.choice(speaking), drawn.random() < 0.4)
        else:
            key = drawn.choice(self.sending)
            self.add_of(key, (key in self.wrong or may_be_wrong) and drawn.random() < 0.1)
            self.alone = drawn.choice([5, 15]) if drawn.random() < 0.02 else 0

    def add_of(self, clock, is_wrong):
        """A record of this clock, which may be its last. One whose line doesn't name it tells no time."""
        time = self.now - self.drawn.randrange(self.rules.bound + 1)
        if self.drawn.random() < 0.05 and not is_wrong:
            time = max(0, time - 1000)
        if is_wrong:
            time = max(0, self.now + self.drawn.choice(self.offsets))
        is_named = not self.rules.gateways or self.drawn.random() < 0.95
        its = Told(self.key_of(clock), time, self.number(), f"id {self.number()}", not is_wrong, clock, is_named)
        self.told.append(its)
        self.lines.append(its.text(self.rules))
        if is_named:
            self.count_since(clock, is_wrong)
        if not is_wrong:
            self.greatest = max(self.greatest, time)
            if time >= max(self.greatest - self.rules.bound, self.rules.start):
                self.right.add(its.n)
        self.may_die(clock)

    def count_since(self, clock, is_wrong):
        """A clock is wrong until its next record, or until it is forgotten."""
        since = {its: count + 1 for its, count in self.wrong.items() if count + 1 < self.rules.forget and its != clock}
        self.wrong = {**since, clock: 0} if is_wrong else since

    def may_die(self, clock):
        """With a wrong last word mostly where no other clock is to be wrong yet, or more than one may be."""
        chance = 0.02 if clock not in self.wrong else 0.2 if not self.never_wrong or self.rules.agree > 2 else 0.02
        if len(self.sending) > 1 and self.drawn.random() < chance:
            self.sending.remove(clock)
            self.never_wrong = [its for its in self.never_wrong if its != clock]

    def add_double(self, its):
        """A record once more. A wrong one may come while its clock is wrong: else it would be wrong anew."""
        if not its.is_right and its.is_named and its.clock not in self.wrong:
            self.add_record()
            return
        if not its.is_right and its.is_named:
            self.wrong[its.clock] = 0
        other = {}
        # An identifier is remembered at least as long as its record would be right.
        if self.rules.has_identifiers and its.at >= max(self.greatest - self.rules.bound, self.rules.start) and its.is_right:
            other = self.drawn.choice([{}, {"at": self.now, "n": self.number()}, {"at": self.now + 86400, "n": self.number()}])
        self.lines.append(its.text(self.rules, **other))


def window_of(drawn, size):
    """The period of a window, 0 of sessions, and its words: mostly of one in which each record fires by itself."""
    mode = drawn.choice(["ACCUMULATING", "ACCUMULATING", "DISCARDING", "RETRACTING"])
    if drawn.random() < 0.7:
        return size, f"FIXED {size} {mode} EARLY EVERY 1 LATE EVERY 1"
    period = drawn.choice([0, size, -(-size // 3), -(-2 * size // 3)])
    shape = f"SLIDING {size} EVERY {period}" if period else f"SESSION {size}"
    return period, f"{shape} {mode}{drawn.choice(['', ' EARLY EVERY 3', ' LATE EVERY 1', ' EARLY EVERY 2 LATE EVERY 2'])}"


def rules_of(drawn):
    """Rules, with gateways that stamp the records of any key in a third of the logs of JSON, and some without clocks."""
    bound, step, size = drawn.choice([0, 1, 10, 60, 120]), drawn.choice([1, 7, 30, 60]), drawn.choice([1, 30, 60, 600])
    form = drawn.choice(["json", "json", "rows"])
    has_clocks = form == "rows" or drawn.random() < 0.9
    period, window = window_of(drawn, size)
    gateways = [f"gw {at}" for at in range(drawn.randrange(2, 7))] if form == "json" and has_clocks and drawn.random() < 0.33 else []
    return Rules(
        keys=[f"k{at}" for at in range(drawn.randrange(2, 10))], agree=drawn.choice([1, 2, 2, 3, 3, 4]), bound=bound, step=step,
        forget=drawn.choice([1, 2, 5, 12, 30, 1000000, 1000000]), room=drawn.choice([0, 1, 3, 1000, 1000]),
        start=drawn.choice([0, BEGIN - 1000, BEGIN - 100, BEGIN]), skew=bound + step - 1 + drawn.choice([0, 1, 50, 1000]),
        lateness=drawn.choice([0, 0, 10, 300, 1500]), from_window=period > 0 and drawn.random() < 0.2, size=size, period=period,
        window=window, most=MOST_N, format=form, records=drawn.choice([100000, 100000, 100000, 20]), has_clocks=has_clocks,
        has_identifiers=form == "json" and drawn.random() < 0.7, gateways=gateways,
        named=drawn.choice([None, len(gateways), len(gateways) - 1]) if gateways else None,
    )


def plain_log(number, keys, wrong, ahead, **more):
    """So many lines, in turn of each key or of each gateway, of which some are ahead, all the time."""
    rules = Rules(**{**{
        "keys": keys, "agree": 2, "bound": 60, "step": 30, "forget": 1000000, "room": 1000, "start": BEGIN - 100, "skew": 89, "lateness": 0,
        "from_window": False, "size": 600, "period": 600, "window": "FIXED 600 ACCUMULATING EARLY EVERY 1 LATE EVERY 1", "most": number,
    }, **more})
    log = Log(random.Random(0), rules)
    for at in range(number):
        its = Told(keys[7 * at % len(keys)], BEGIN + at // 2 + ahead * wrong(at), at + 1, "", not wrong(at), rules.clocks[7 * at % len(rules.clocks)])
        log.lines.append(its.text(rules))
        log.right.update([at + 1] * its.is_right)
    return log


def plain_logs():
    """One clock of 800 that is seven minutes ahead, one line that is an hour ahead, and two wrong gateways of five."""
    return {
        "one of 800": plain_log(2400, [f"s{at}" for at in range(800)], lambda at: at % 800 == 7, 420),
        "one line": plain_log(500, list("abcde"), lambda at: at == 100, 3600),
        "two gateways of five": plain_log(1000, [f"k{at}" for at in range(40)], lambda at: at % 5 < 2, 3600, agree=3, gateways=list("vwxyz"), named=5),
    }


def log_of(seed):
    drawn = random.Random(seed)
    log = Log(drawn, rules_of(drawn))
    for _ in range(drawn.randrange(20, 61)):
        log.add_line()
    return log
