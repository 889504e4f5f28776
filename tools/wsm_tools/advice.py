"""What helps who wrote a query with words and signs of other languages, or of rows and files: a sentence for a place."""
from __future__ import annotations

import re
from typing import Callable, Collection, NamedTuple, Sequence

NAME, NUMBER, END = "a name", "a number", "the end of the text"  # of what may stand at a place
FUNCTIONS = ("COUNT(*)", "SUM", "MIN", "MAX", "ANY", "ALL")
COMMENTS = "There are no comments: take it out, or keep it in a file beside the query."
WORDS = {
    "AVG MEAN AVERAGE": "There is no mean: write `SUM(n) / COUNT(*)`, a whole number, or 1000 times it for three more places.",
    "AS ALIAS": "Columns have no names: leave it out. tools/wsm-show (`wsm-show`) writes a header, and the sink takes names.",
    "GROUP BY": "There is no GROUP BY: panes are of a key, a record's second cell, and of a window. To group by more, join the names into one key.",
    "ORDER": "There is no ORDER BY: rows come in the order in which they fire. `sort` orders them.",
    "LIMIT TOP FETCH OFFSET": "There is no LIMIT: `head` takes the first rows.",
    "DISTINCT UNIQUE": "There is no DISTINCT: give each thing that is counted a key of its own, and count panes.",
    "JOIN ON UNION INTERSECT EXCEPT": "One query reads one stream of rows: put the streams' rows into one in front of it.",
    "CASE WHEN SWITCH": "Write `IF test THEN x ELSE y END`; more cases stand behind ELSE, `ELSE IF .. END END`.",
    "ELSEIF ELIF ELSIF": "Write `ELSE IF test THEN x ELSE y END END`: each IF has its own END.",
    "BETWEEN": "Write `n >= 1 AND n <= 9`.",
    "IN": "Write `c = c.red OR c = c.blue`.",
    "LIKE ILIKE MATCHES REGEXP CONTAINS": "There is no free text: make a name or a truth of it where rows are made.",
    "IS ISNULL NULL NIL NONE COALESCE IFNULL NULLIF": "There are no missing values: each field of a record has one.",
    "XOR": "Write `a <> b`, or `(a AND NOT b) OR (b AND NOT a)`.",
    "MOD DIV": "Write `%` for the rest and `/` for the whole quotient.",
    "ABS": "Write `IF n < 0 THEN -n ELSE n END`.",
    "GREATEST LEAST": "Write `IF a > b THEN a ELSE b END`.",
    "ROUND FLOOR CEIL CEILING TRUNC CAST CONVERT": "Numbers are whole, and `/` truncates toward 0.",
    "STDDEV VARIANCE VAR STDEV": "It can be had of `SUM(n * n)`, `SUM(n)` and `COUNT(*)`, where panes are read.",
    "FIRST LAST LATEST EARLIEST LAG LEAD": "An aggregate doesn't know an order: there are MIN and MAX of a number.",
    "MEDIAN PERCENTILE QUANTILE P50 P95 P99": "There are no quantiles: count records by steps, as `SUM(IF n > 100 THEN 1 ELSE 0 END)`.",
    "TUMBLE TUMBLING": "Tumbling windows are `WINDOW FIXED 60`.",
    "HOP HOPPING": "Hopping windows are `WINDOW SLIDING 60 EVERY 20`.",
    "CHANGES": "Write `EMIT PANES`, with `EARLY EVERY 1` and `LATE EVERY 1` for each change; or `EMIT ISTREAM`.",
    "FINAL": "Write `EMIT PANES` without EARLY and LATE: a pane when it is complete, and a last one for what came late.",
    "GRACE": "Write `LATENESS 60 FROM WINDOW;` in front of RECORDS.",
    "WATERMARK": "Watermarks are rows, `w,TIME`: `wsm watermarks` writes them.",
    "INTERVAL": "Times are whole numbers in the unit of your rows.",
    "FLOAT DOUBLE REAL DECIMAL NUMERIC MONEY": "Numbers are whole: an amount is in cents, a reading in watt hours: `INT 0..1000000`.",
    "TEXT STRING VARCHAR CHAR UUID": "There is no free text: declare the names, `ENUM(red, blue)`, or make it the key.",
    "DATE TIME TIMESTAMP DATETIME": "A record's time is its third cell and no field.",
    "INTEGER BIGINT LONG NUMBER UINT SMALLINT": "Write `INT` and its interval, as `INT 0..100`.",
    "BOOLEAN": "Write `BOOL`.",
    "CREATE INSERT UPDATE DELETE DROP TABLE STREAM VIEW INTO WITH VALUES": "A query begins with its KEYS and declares all that it reads.",
    "PARTITION OVER": "Panes are of a key, a record's second cell: there is nothing to partition by.",
}
ADVICE = {word: said for words, said in WORDS.items() for word in words.split()}
UNITS = {"s": 1, "sec": 1, "secs": 1, "second": 1, "seconds": 1, "m": 60, "min": 60, "mins": 60, "minute": 60, "minutes": 60,
         "h": 3600, "hr": 3600, "hour": 3600, "hours": 3600, "d": 86400, "day": 86400, "days": 86400, "w": 604800, "week": 604800, "weeks": 604800}
NAMES = "A name has letters, digits and _, a letter first."
SIGNS = {
    "!=": "Write `<>` for `!=`.", "!": "Write NOT for `!`, and `<>` for `!=`.", "&": "Write AND.", "|": "Write OR.",
    "'": "There is no text between quotes: compare a field of names with one, as `plan = plan.free`, or the key, as `KEY = KEY.acme`.",
    '"': "There is no text between quotes: compare a field of names with one, as `plan = plan.free`, or the key, as `KEY = KEY.acme`.",
    "`": "Names have no quotes.", "#": COMMENTS, "[": "Lists stand between no brackets, or in round ones.", "{": "Write `IF .. THEN .. ELSE .. END`.",
    "^": "There is no power: write `n * n`.", ":": "Clauses end with `;`, and a name of a field is written `color.red`.", "?": "Write `IF .. THEN .. ELSE .. END`.",
    "@": NAMES, "$": NAMES, "\\": NAMES,
    "_": "A name begins with a letter, and a number has digits alone.",
}


class Place(NamedTuple):
    """A place of a text that can't be read on from there."""
    text: str
    at: int
    token: str  # what stands there, empty at the end
    asked: Sequence[str]  # words, signs and kinds of tokens that may stand there
    reserved: Collection[str]  # the words of the language
    clauses: Sequence[str]  # those that begin clauses, in their order
    is_byte: bool  # whether no word, number or sign begins there

    @property
    def before(self) -> str:
        return self.text[:self.at]

    @property
    def rest(self) -> str:
        return self.text[self.at:]

    @property
    def last(self) -> str:
        """The word right in front of it."""
        found = re.search(r"([A-Za-z_]\w*)\s*\Z", self.before)
        return found[1] if found else ""

    @property
    def is_word(self) -> bool:
        return self.token[:1].isascii() and self.token[:1].isalpha()

    @property
    def is_name(self) -> bool:
        return self.is_word and self.token not in self.reserved

    def follows(self, pattern: str) -> bool:
        """Whether what stands in front ends so."""
        return re.search(rf"{pattern}\Z", self.before) is not None

    def comes(self, pattern: str) -> bool:
        """Whether what stands there begins so."""
        return re.match(pattern, self.rest) is not None


def word_advice(word: str, reserved: Collection[str]) -> str:
    """What helps with a word of another language, or one that isn't in capitals."""
    if word.upper() in reserved and word not in reserved:
        return f"Words of the language are written in capitals: `{word.upper()}`."
    return ADVICE.get(word.upper(), "")


def is_in_comment(text: str, at: int) -> bool:
    line = text[text.rfind("\n", 0, at) + 1:at + 2]
    return re.search(r"--|//|/\*|#", line) is not None


def of_files(place: Place) -> str:
    text = place.text
    if text.startswith("WSMP"):
        return "This is a program, which `wsm compile` wrote: `wsm verify` judges it, and `wsm run --program` runs it."
    if text.startswith("\x1f\x8b"):
        return "The file is packed: unpack it with `gunzip`."
    if text[:2] in ("\xff\xfe", "\xfe\xff") or "\0" in text:
        return "The file isn't text of one byte a letter (UTF-16?): save it as UTF-8."
    if text.startswith("\xef\xbb\xbf") and place.at == 0:
        return "The file begins with a byte order mark: save it as UTF-8 without one (`sed -i '1s/^...//'` in the locale C takes it away)."
    if place.at == 0 and re.match(r"[rw],", text):
        return "These are rows: the query's file comes first, and then that of the rows."
    return ""


def of_bytes(place: Place) -> str:
    if not place.is_byte:
        return COMMENTS if is_in_comment(place.text, place.at) else ""
    if place.comes("!="):
        return SIGNS["!="]
    if ord(place.token[0]) > 127:
        return "A name has letters from A to Z, digits and _: write ue for an umlaut."
    return NAMES if NAME not in place.asked and "AND" not in place.asked and place.last else SIGNS.get(place.token, "")


def of_signs(place: Place) -> str:
    token, asked = place.token, place.asked
    if token.startswith("=") and (place.follows("=") or token == "=="):
        return "Write `=` for `==`."
    if token in ("<", ">") and place.before.rstrip().endswith("="):
        return f"Write `{token}=`."
    if token in (".", "..") and place.follows(r"\d") and place.comes(r"\.\d"):
        return "Numbers are whole: count in a smaller unit, as cents or thousandths."
    if token == "," and place.follows(r"\d") and place.comes(r",\d{3}\b") and ";" in asked:
        return "A number has no separators: write its digits alone."
    if token == "(":
        return called(place.last, place.reserved)
    if place.follows(r"\bCOUNT\s*\(\s*"):
        return "COUNT counts records: `COUNT(*)`. How many have something is `SUM(IF n > 5 THEN 1 ELSE 0 END)`."
    if token == "*" and place.last == "SELECT":
        return "Columns are written one by one, as `COUNT(*), SUM(n)`."
    return of_minus(place) if token in ("-", "..") else ""


def of_minus(place: Place) -> str:
    asked, last = place.asked, place.last
    if place.token == "-" and last and {",", ";"} & set(asked) and "+" not in asked:
        found = re.match(r"-[\w-]*", place.rest)
        word = f"{last}{found[0] if found else ''}"
        name = word.replace("-", "_")
        if place.follows(r"\bKEYS\b[^;]*"):
            return f"A key has letters, digits and _: declare `{name}`, and a source gives it to the text `{word}` by a file of names."
        return f"A name has letters, digits and _: write `{name}`."
    if ".." in asked:
        return "An interval is written `0..100`."
    return "There is no sign here." if place.token == "-" and "+" not in asked and NUMBER in asked else ""


def of_numbers(place: Place) -> str:
    token, number = place.token, re.search(r"(\d+)(\s*)\Z", place.before)
    if number and place.is_word and token.lower() in UNITS and "." not in place.asked:
        seconds = int(number[1]) * UNITS[token.lower()]
        return f"A number has no unit: it is in the unit of your rows' times. In seconds, {number[1]}{number[2]}{token} is {seconds}, in milliseconds {1000 * seconds}."
    if number and not number[2] and place.is_word:
        if found := re.fullmatch(r"[eE](\d+)", token):
            return f"Write the number with all of its digits: {number[1]}{'0' * min(int(found[1]), 18)}."
        return "A number is digits alone, and a name begins with a letter."
    if token[:1].isdigit() and NAME in place.asked and NUMBER not in place.asked:
        return "A name begins with a letter."
    return ""


def of_words(place: Place) -> str:
    token, asked, upper = place.token, place.asked, place.token.upper()
    if NAME in asked and token in place.reserved and "(" not in asked:
        return f"`{token}` is a word of the language, and can't be a name."
    if token == "END" and ("ELSE" in asked or "THEN" in asked):
        return "An IF has all of its parts: `IF test THEN x ELSE y END`."
    if place.is_name and upper in asked:
        return f"Words of the language are written in capitals: `{upper}`."
    if token == ";" and "WINDOW" in asked and "AND" in asked:
        return "SELECT, WHERE, HAVING and WINDOW are ended by no `;`: there is one at the end, behind EMIT."
    if token == ";" and NAME in asked:
        return "A name must follow the comma."
    if token == ";" and NUMBER in asked and place.last == "INT":
        return "INT has its interval behind it, as `INT 0..100`."
    if token in ("AND", "OR") or token in ("<", "<=", ">", ">=", "=", "<>") and "AND" in asked:
        return "A comparison has two sides: write `0 < n AND n < 5`."
    return ""


def of_clauses(place: Place) -> str:
    token, asked = place.token, place.asked
    if token.upper() in place.clauses:
        return clause_advice(place)
    if token == "FROM":
        return "There is no FROM: a query reads the rows that `run` is given."
    for word in (token, place.last):
        if said := word_advice(word, place.reserved):
            return said
    if END in asked:
        return "A file has one query, and nothing behind its last `;`."
    return "The clause before it isn't ended: `;` is missing." if ";" in asked and place.is_word and "," not in asked else ""


WAYS: Sequence[Callable[[Place], str]] = (of_signs, of_numbers, of_words, of_clauses)


def advice(place: Place) -> str:
    """The sentence that helps where a text can't be read, if there is one."""
    if said := of_files(place) or of_bytes(place):
        return said
    if place.is_byte or not place.token:
        return ""
    return next((said for way in WAYS if (said := way(place))), "")


def called(name: str, reserved: Collection[str]) -> str:
    """What helps where a name is written as a function."""
    if name.upper() in reserved and name not in reserved:
        return f"Words of the language are written in capitals: `{name.upper()}`."
    return ADVICE.get(name.upper()) or f"There is no function `{name}`: there are {', '.join(FUNCTIONS)}."


def clause_advice(place: Place) -> str:
    token, asked, clause = place.token, place.asked, place.token.upper()
    order = f"Clauses stand in one order: {', '.join(place.clauses)}, with the mode behind WINDOW."
    if token != clause:
        return f"Words of the language are written in capitals: `{clause}`. {order}"
    if ";" in asked:
        return f"The clause before `{token}` isn't ended: `;` is missing."
    missing = [word for word in place.clauses if word in asked]
    if missing and place.clauses.index(missing[-1]) < place.clauses.index(token):
        return f"`{missing[-1]}` is missing in front of `{token}`. {order}"
    return order
