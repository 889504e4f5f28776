"""Small logs at random, of which each line says an event: for `propose`, which must find a source and a head that take them."""
import csv
import io
import json
from datetime import datetime, timedelta, timezone

BEGIN = 1790000000
NAMES = ["north", "south", "Hull", "web_1", "acme-corp", "Müller & Co", "42", "/api/v1", "a,b", "KEYS", 'the "first"', "x" * 40, "a~b"]
PAIRS = [("yes", "no"), ("ja", "nein"), ("on", "off"), ("TRUE", "FALSE"), ("Y", "N")]
TEXTS = ["free", "team", "two words", "Größe", "EARLY", "a=b", "[x]", "it's", "C:\\x"]


def grouped(number, group):
    return f"{number:,}".replace(",", group)


def decimal(drawn, digits, point, group):
    """A function that writes decimals with so many digits behind the point at most."""
    def text():
        whole = drawn.choice([0, 7, 12, 950, 1200, 1234567])
        sign = drawn.choice(["", "", "-"])
        behind = "".join(drawn.choice("0123456789") for _ in range(drawn.randrange(digits + 1)))
        return sign + (grouped(whole, group) if group else str(whole)) + (point + behind if behind else "")
    return text


def column(drawn, form):
    """What writes the texts of a column, which may be a value of JSON."""
    kind = drawn.randrange(5)
    if kind == 0:
        span = drawn.choice([1, 5, 1000, 10**12])
        return lambda: drawn.randrange(-span, span + 1)
    if kind == 1:
        signs = (".", "") if form == "json" else drawn.choice([(".", ""), (".", ","), (",", "."), (",", "")])
        text = decimal(drawn, drawn.randrange(1, 5), *signs)
        return text if form != "json" or drawn.randrange(2) else lambda: float(text())
    if kind == 2:
        pair = drawn.choice([(True, False)] if form == "json" else PAIRS)
        return lambda: drawn.choice(pair)
    if kind == 3:
        some = drawn.sample(TEXTS, drawn.randrange(1, 5))
        return lambda: drawn.choice(some)
    return lambda: f"{drawn.choice(TEXTS)} {drawn.randrange(10**9)}"


def time_text(drawn, form):
    """What writes a time, and the zone that it wants said, if any."""
    def shown(at, zone=timezone.utc):
        return datetime.fromtimestamp(at, zone)
    offset = timezone(timedelta(minutes=drawn.choice([-570, 0, 120, 345])))
    forms = [
        (lambda at: shown(at).strftime("%Y-%m-%dT%H:%M:%SZ"), None),
        (lambda at: shown(at, offset).isoformat() + "", None),
        (lambda at: shown(at).strftime("%Y-%m-%d %H:%M:%S.") + f"{drawn.randrange(1000):03}Z", None),
        (lambda at: at if form == "json" else str(at), None),
        (lambda at: str(at * 1000 + drawn.randrange(1000)), None),
        (lambda at: str(at * 10**6 + drawn.randrange(10**6)), None),
        (lambda at: f"{at}.{drawn.randrange(100):02}", None),
        (lambda at: shown(at, offset).strftime("%d/%b/%Y:%H:%M:%S %z"), None),
        (lambda at: shown(at, offset).strftime("%a, %d %b %Y %H:%M:%S %z"), None),
        (lambda at: shown(at).strftime("%Y-%m-%d %H:%M:%S"), "UTC"),
        (lambda at: shown(at).strftime("%d.%m.%Y %H:%M"), "Asia/Tokyo"),
        (lambda at: shown(at).strftime("%m/%d/%Y %H:%M:%S"), "America/New_York"),
        (lambda at: shown(at).strftime("%Y/%m/%d %H:%M:%S.%f"), "UTC"),
    ]
    return drawn.choice(forms)


def line_of_access(drawn, key, at):
    stamp = datetime.fromtimestamp(at, timezone(timedelta(hours=2))).strftime("%d/%b/%Y:%H:%M:%S %z")
    request = drawn.choice(["GET / HTTP/1.1", "GET /a?b=1 HTTP/1.1", "POST /api HTTP/2"])
    sent = drawn.choice(["-", str(drawn.randrange(10**6))])
    agent = drawn.choice(["-", "curl/8.5.0", 'say \\"x\\"'])
    return f'10.0.0.{drawn.randrange(250)} - {key} [{stamp}] "{request}" {drawn.choice([200, 404, 500])} {sent} "-" "{agent}"'


def csv_log(drawn, rows):
    out, separator = io.StringIO(), drawn.choice(",;\t|")
    writer = csv.writer(out, delimiter=separator, lineterminator=drawn.choice(["\n", "\r\n"]))
    names = list(rows[0])
    writer.writerows([names, *([row[name] for name in names] for row in rows)])
    return out.getvalue()


def json_log(drawn, rows):
    """Lines of JSON, of which some columns stand within a member, and what is missing isn't there or is null."""
    inner = [name for name in rows[0] if drawn.randrange(4) == 0]
    lines = []
    for row in rows:
        there = {name: value if value != "" else None for name, value in row.items() if value != "" or drawn.randrange(2)}
        outer = {name: value for name, value in there.items() if name not in inner}
        if inner:
            outer["in/ner"] = {name: value for name, value in there.items() if name in inner}
        lines.append(json.dumps(outer, ensure_ascii=drawn.randrange(2) == 0) + "\n")
    return "".join(lines), inner


def random_log(drawn):
    """A log, how many of its lines are no header, and the words that say what can't be known of it."""
    form = drawn.choice(["json", "csv", "csv", "access"])
    keys, at, size = drawn.sample(NAMES, drawn.randrange(2, 6)), BEGIN, drawn.randrange(20, 80)
    times = [BEGIN]
    for _ in range(size - 1):
        at += drawn.randrange(200)
        times.append(at - drawn.choice([0, 0, 0, drawn.randrange(600)]))
    if form == "access":
        users = [key for key in NAMES if " " not in key][:5]
        return "".join(f"{line_of_access(drawn, drawn.choice(users), at)}\n" for at in times), size, ["--key", "user"]
    write_time, zone = time_text(drawn, form)
    columns = {name: column(drawn, form) for name in ["n", "Größe", "last name", "FIELD", "a.b", "x y"][:drawn.randrange(1, 7)]}
    gaps = {name: drawn.choice([0, 0, 5]) for name in columns}
    rows = []
    for at in times:
        row = {"who": drawn.choice(keys), **{name: "" if gaps[name] and not drawn.randrange(gaps[name]) else write() for name, write in columns.items()}}
        rows.append({**row, "time": write_time(at)})
    words = ["--zone", zone] if zone else []
    if form == "csv":
        return csv_log(drawn, rows), size, ["--key", "who", *words]
    text, inner = json_log(drawn, rows)
    return text, size, ["--key", "/in~1ner/who" if "who" in inner else "who", *words]
