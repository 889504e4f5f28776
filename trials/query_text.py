"""Query texts, for trials/reference.py: reading, checks, and what an expression means.

Nothing here is shared with the crates or with the tools. A text is read from the left, and the first fault is told with
its line and column; a query that was read is checked part by part. Parts keep their places in the text.
"""
import re
from contextlib import contextmanager
from dataclasses import dataclass, field

BLANKS = " \t\r\n"
SIGNS = re.compile(r"\.\.|<>|<=|>=|[,;().+\-*/%=<>]")
RESERVED = set(
    "KEYS KEY FIELD INT BOOL ENUM START SKEW LATENESS RECORDS BUDGET RECORD PANE HELD SELECT WHERE HAVING WINDOW FIXED "
    "SLIDING SESSION EVERY ACCUMULATING DISCARDING RETRACTING EARLY LATE EMIT PANES ISTREAM DSTREAM RSTREAM AND OR NOT "
    "TRUE FALSE COUNT SUM MIN MAX ANY ALL IF THEN ELSE END FROM SOURCES".split()
)
AGGREGATES = ("SUM", "MIN", "MAX", "ANY", "ALL")
COMPARISONS = ("=", "<>", "<", "<=", ">", ">=")
GREATEST_NUMBER, DEEPEST, LONGEST_CHAIN = 2**63 - 1, 24, 64
LATEST, LONGEST_SPAN = 10**16, 10**12
KINDS = {"name": "a name", "number": "a number", "end": "the end of the text"}
INT, BOOL = "INT", "BOOL"  # the other types are numbers: 0 is the key's ENUM, f + 1 that of field f


class Refused(Exception):
    """A query that is refused; its text is what is told.

    Beside it stands what is known of the fault: the place in the text and what was asked for there, or the limits that
    aren't kept, each as what was counted, its number, and the least and the most that are allowed.
    """

    def __init__(self, text, place=None, asked=(), limits=()):
        super().__init__(text)
        self.place, self.asked, self.limits = place, list(asked), list(limits)


# ---- cells of rows

def number_of(cell):
    """The number of a cell, or None where it has none of 64 bits."""
    if not re.fullmatch(r"-?[0-9]+", cell):
        return None
    number = int(cell)
    return number if -(2**63) <= number < 2**63 else None


def value_of(field, cell):
    if field.type == "INT":
        return number_of(cell)
    if field.type == "BOOL":
        return {"true": True, "false": False}.get(cell)
    return field.names.index(cell) if cell in field.names else None


# ---- tokens

class Tokens:
    """The tokens of a text, each read when it is looked at. A token is its kind, its text and its place.

    `end` is where the last one that was taken ends, and `asked` has what was asked for since, and wasn't there.
    """

    def __init__(self, text):
        self.text, self.at, self.ahead = text, 0, None
        self.end, self.asked = 0, []

    def refuse(self, name, at):
        line = self.text.count("\n", 0, at) + 1
        raise Refused(f"{name} at {line}:{at - self.text.rfind(chr(10), 0, at)}", at, self.asked)

    def peek(self):
        if self.ahead is None:
            self.ahead = self.next()
        return self.ahead

    def next(self):
        text, at = self.text, self.at
        while at < len(text) and text[at] in BLANKS:
            at += 1
        if at == len(text):
            return "end", "", at
        if found := re.compile(r"[A-Za-z][A-Za-z0-9_]*").match(text, at):
            if found.end() - at > 32:
                self.refuse("P1 BadCharacter", at + 32)
            kind = "word" if found[0] in RESERVED else "name"
        elif found := re.compile("[0-9]+").match(text, at):
            kind = "number"
            if int(found[0]) > GREATEST_NUMBER:
                self.refuse("P3 NumberTooLarge", at)
        elif found := SIGNS.match(text, at):
            kind = "word"
        else:
            self.refuse("P1 BadCharacter", at)
        self.at = found.end()
        return kind, found[0], at

    def sees(self, *words):
        kind, text, _ = self.peek()
        if kind == "word" and text in words:
            return True
        self.asked += words
        return False

    def is_of(self, kind):
        if self.peek()[0] == kind:
            return True
        self.asked.append(KINDS[kind])
        return False

    def unexpected(self):
        self.refuse("P2 Unexpected", self.peek()[2])

    def passed(self):
        """The text of the token in sight, which is taken."""
        text = self.peek()[1]
        self.ahead, self.end, self.asked = None, self.at, []
        return text

    def take(self, *words):
        """The word or sign in sight, which must be one of these."""
        if not self.sees(*words):
            self.unexpected()
        return self.passed()

    def of_kind(self, kind):
        if not self.is_of(kind):
            self.unexpected()
        return self.passed()

    def name(self):
        return self.of_kind("name")

    def number(self):
        return int(self.of_kind("number"))

    def signed(self):
        if self.sees("-"):
            self.take("-")
            return -self.number()
        return self.number()

    def names(self):
        names = [self.name()]
        while self.sees(","):
            self.take(",")
            names.append(self.name())
        return names


# ---- expressions: a tree of tuples, its head first

class Expressions:
    def __init__(self, tokens):
        self.tokens, self.depth = tokens, 0

    def open(self):
        self.depth += 1
        if self.depth > DEEPEST:
            self.tokens.refuse("P4 TooDeep", self.tokens.peek()[2])

    def chain(self, part, *words):
        x, length = part(), 0
        while self.tokens.sees(*words):
            length += 1
            if length > LONGEST_CHAIN:
                self.tokens.refuse("P4 TooDeep", self.tokens.peek()[2])
            x = self.tokens.take(*words), x, part()
        return x

    def whole(self):
        return self.chain(self.conjunction, "OR")

    def conjunction(self):
        return self.chain(self.negation, "AND")

    def under(self, head, word, part):
        """What stands behind a word that opens a level, as far as its operand goes."""
        self.open()
        self.tokens.take(word)
        x = part()
        self.depth -= 1
        return head, x

    def negation(self):
        return self.under("NOT", "NOT", self.negation) if self.tokens.sees("NOT") else self.comparison()

    def comparison(self):
        x = self.sum()
        if self.tokens.sees(*COMPARISONS):
            return self.tokens.take(*COMPARISONS), x, self.sum()
        return x

    def sum(self):
        return self.chain(self.product, "+", "-")

    def product(self):
        return self.chain(self.unary, "*", "/", "%")

    def unary(self):
        return self.under("negative", "-", self.unary) if self.tokens.sees("-") else self.atom()

    def atom(self):
        tokens = self.tokens
        if tokens.is_of("number"):
            return "number", tokens.number()
        if tokens.is_of("name"):
            name = tokens.name()
            if tokens.sees("."):
                tokens.take(".")
                return "word", name, tokens.name()
            return "field", name
        if tokens.sees("TRUE", "FALSE"):
            return "truth", tokens.take("TRUE", "FALSE") == "TRUE"
        if tokens.sees("KEY"):
            tokens.take("KEY")
            if tokens.sees("."):
                tokens.take(".")
                return "key word", tokens.name()
            return ("key",)
        if tokens.sees("COUNT", "IF", "(", *AGGREGATES):
            self.open()
            x = self.opened()
            self.depth -= 1
            return x
        tokens.unexpected()

    def opened(self):
        tokens = self.tokens
        word = tokens.take("COUNT", "IF", "(", *AGGREGATES)
        if word == "COUNT":
            tokens.take("("), tokens.take("*"), tokens.take(")")
            return ("count",)
        if word == "IF":
            test = self.whole()
            tokens.take("THEN")
            x = self.whole()
            tokens.take("ELSE")
            y = self.whole()
            tokens.take("END")
            return "IF", test, x, y
        if word != "(":
            tokens.take("(")
        x = self.whole()
        tokens.take(")")
        return ("brackets", x) if word == "(" else ("aggregate", word, x)


# ---- clauses

@dataclass
class Field:
    name: str
    type: str
    low: int = 0
    high: int = 0
    names: list = field(default_factory=list)


class Query:
    """A query that was read and checked; `Refused` is raised where it isn't.

    With keys from elsewhere, any number of them, its text has no KEYS clause.
    """

    def __init__(self, text, keys=None):
        self.places = {}  # where each part begins and ends in the text, by the names that refusals have for them
        self.keys, self.most_keys = keys, 1000 if keys is None else len(keys)
        self.read(Tokens(text))
        self.check()
        self.key_set = frozenset(self.keys)

    @contextmanager
    def part(self, t, name):
        begin = t.peek()[2]
        yield
        self.places[name] = begin, t.end

    def read(self, t):
        self.read_declarations(t)
        expressions = Expressions(t)
        t.take("SELECT")
        self.columns = []
        while True:
            with self.part(t, f"column {len(self.columns) + 1}"):
                self.columns.append(expressions.whole())
            if not t.sees(","):
                break
            t.take(",")
        self.where = self.read_condition(t, expressions, "WHERE")
        self.having = self.read_condition(t, expressions, "HAVING")
        self.read_firing(t)
        if not t.is_of("end"):
            t.unexpected()

    def read_declarations(self, t):
        if self.keys is None:
            with self.part(t, "keys"):
                t.take("KEYS")
                self.keys = t.names()
                t.take(";")
        self.fields = []
        while t.sees("FIELD"):
            with self.part(t, f"field {len(self.fields) + 1}"):
                self.fields.append(self.read_field(t))
        self.sources = []
        if t.sees("SOURCES"):
            with self.part(t, "sources"):
                t.take("SOURCES")
                self.sources = t.names()
                t.take(";")
        with self.part(t, "clock"):
            self.start = self.read_number(t, "START")
            self.skew = self.read_number(t, "SKEW")
            t.take("LATENESS")
            self.lateness = t.number()
            self.from_window = t.sees("FROM")
            if self.from_window:
                t.take("FROM"), t.take("WINDOW")
            t.take(";")
            self.records = self.read_number(t, "RECORDS")
        self.budget = None
        if t.sees("BUDGET"):
            with self.part(t, "budget"):
                t.take("BUDGET")
                self.budget = [(t.take(word), t.number())[1] for word in ("RECORD", "PANE", "HELD")]
                t.take(";")

    def read_firing(self, t):
        with self.part(t, "window"):
            t.take("WINDOW")
            self.shape = t.take("FIXED", "SLIDING", "SESSION")
            self.size = self.period = t.number()
            if self.shape == "SLIDING":
                t.take("EVERY")
                self.period = t.number()
            self.mode = t.take("ACCUMULATING", "DISCARDING", "RETRACTING")
        with self.part(t, "trigger"):
            self.early = self.read_trigger(t, "EARLY")
            self.late = self.read_trigger(t, "LATE")
        with self.part(t, "emit"):
            t.take("EMIT")
            self.form = t.take("PANES", "ISTREAM", "DSTREAM", "RSTREAM")
            t.take(";")

    def read_field(self, t):
        t.take("FIELD")
        found = Field(t.name(), t.take("INT", "BOOL", "ENUM"))
        if found.type == "INT":
            found.low = t.signed()
            t.take("..")
            found.high = t.signed()
        elif found.type == "ENUM":
            t.take("(")
            found.names = t.names()
            t.take(")")
        t.take(";")
        return found

    def read_number(self, t, word):
        t.take(word)
        number = t.number()
        t.take(";")
        return number

    def read_condition(self, t, expressions, word):
        if not t.sees(word):
            return None
        t.take(word)
        with self.part(t, word.lower()):
            return expressions.whole()

    def read_trigger(self, t, word):
        """How many unshown records it asks for, or None."""
        if not t.sees(word):
            return None
        t.take(word), t.take("EVERY")
        return t.number()

    # ---- checks, part by part

    def check(self):
        check_names("keys", self.keys, 1, self.most_keys)
        for number, found in enumerate(self.fields, 1):
            self.check_field(f"field {number}", number, found)
        if self.sources:
            check_names("sources", self.sources, 2, 16)
        limit(
            "clock", ("START", self.start, 0, LATEST), ("SKEW", self.skew, 0, LONGEST_SPAN),
            ("LATENESS", self.lateness, 0, LONGEST_SPAN), ("RECORDS", self.records, 1, 10**12),
        )
        if self.budget:
            record, pane, held = self.budget
            limit("budget", ("RECORD", record, 1, 10**18), ("PANE", pane, 1, 10**18), ("HELD", held, 1, 100_000))
        limit("window", ("the gap" if self.shape == "SESSION" else "the size", self.size, 1, LONGEST_SPAN))
        if self.shape == "SLIDING":
            limit("window", ("the period", self.period, 1, self.size))
        if self.from_window and self.shape == "SESSION":
            raise Refused("C10 SessionLateness in window")
        triggers = (("EARLY EVERY", self.early), ("LATE EVERY", self.late))
        limit("trigger", *((name, count, 1, 10**12) for name, count in triggers if count is not None))
        if self.form != "PANES" and self.mode != "ACCUMULATING":
            raise Refused("C8 StreamNeedsAccumulating in emit")
        if self.where is not None:
            self.check_condition("where", self.where)
        for number, column in enumerate(self.columns, 1):
            limit(f"column {number}", ("columns", number, 1, 16))
            self.type_of(f"column {number}", column)
        if self.having is not None:
            self.check_condition("having", self.having)

    def check_field(self, part, number, found):
        limit(part, ("fields", number, 0, 16))
        if found.name in [other.name for other in self.fields[:number - 1]]:
            raise Refused(f"C3 Duplicate in {part}")
        if found.type == "INT":
            limit(part, ("the interval's upper end", found.high, found.low, GREATEST_NUMBER))
        if found.type == "ENUM":
            check_names(part, found.names, 1, 1000)

    def check_condition(self, part, expr):
        if self.type_of(part, expr) != BOOL:
            raise Refused(f"C2 Type in {part}")

    def field_number(self, name):
        return next((number for number, found in enumerate(self.fields) if found.name == name), None)

    def declared_type(self, number):
        found = self.fields[number]
        return number + 1 if found.type == "ENUM" else found.type

    def type_of(self, part, expr, in_aggregate=False):
        """The type of an expression; the first fault on a walk from the left, parts before the whole, is raised."""
        def refuse(name):
            raise Refused(f"{name} in {part}")

        def known(number):
            if number is None:
                refuse("C1 UnknownName")
            return number

        head, *parts = expr
        if head in ("count", "aggregate"):
            if part == "where":
                refuse("C6 AggregateInWhere")
            if in_aggregate:
                refuse("C5 AggregateNested")
        types = [self.type_of(part, x, in_aggregate or head == "aggregate") for x in parts if isinstance(x, tuple)]
        if head in ("number", "count"):
            return INT
        if head == "truth":
            return BOOL
        if head == "key":
            return 0
        if head == "key word":
            return refuse("C1 UnknownName") if parts[0] not in self.keys else 0
        if head == "word":
            number = known(self.field_number(parts[0]))
            if self.fields[number].type != "ENUM" or parts[1] not in self.fields[number].names:
                refuse("C1 UnknownName")
            return number + 1
        if head == "field":
            number = known(self.field_number(parts[0]))
            if part != "where" and not in_aggregate:
                refuse("C4 FieldOutsideAggregate")
            return self.declared_type(number)
        if head == "brackets":
            return types[0]
        if head == "IF":
            return types[1] if types[0] == BOOL and types[1] == types[2] else refuse("C2 Type")
        if head in ("=", "<>"):
            return BOOL if types[0] == types[1] else refuse("C2 Type")
        takes = BOOL if head in ("AND", "OR", "NOT") or parts[0] in ("ANY", "ALL") else INT
        if any(found != takes for found in types):
            refuse("C2 Type")
        return BOOL if takes == BOOL or head in COMPARISONS else INT

    # ---- meaning: a function of a key, a record's values or None, and the records of a firing

    def meaning(self, expr):
        head, *parts = expr
        if head in ("number", "truth"):
            return lambda key, values, records: parts[0]
        if head == "field":
            number = self.field_number(parts[0])
            return lambda key, values, records: values[number]
        if head == "word":
            name = self.fields[self.field_number(parts[0])].names.index(parts[1])
            return lambda key, values, records: name
        if head == "key":
            return lambda key, values, records: key
        if head == "key word":
            name = self.keys.index(parts[0])
            return lambda key, values, records: name
        if head == "count":
            return lambda key, values, records: len(records)
        if head == "aggregate":
            fold = {"SUM": sum, "MIN": min, "MAX": max, "ANY": any, "ALL": all}[parts[0]]
            of = self.meaning(parts[1])
            return lambda key, values, records: fold(of(key, record, None) for record in records)
        if head == "brackets":
            return self.meaning(parts[0])
        if head == "IF":
            test, x, y = map(self.meaning, parts)
            return lambda *around: x(*around) if test(*around) else y(*around)
        x, y = self.meaning(parts[0]), self.meaning(parts[-1])
        if head == "AND":
            return lambda *around: x(*around) and y(*around)
        if head == "OR":
            return lambda *around: x(*around) or y(*around)
        if head == "NOT":
            return lambda *around: not x(*around)
        if head == "negative":
            return lambda *around: -x(*around)
        operation = OPERATIONS[head]
        return lambda *around: operation(x(*around), y(*around))

    def type_of_column(self, number):
        return self.type_of("", self.columns[number])

    def text_of(self, kind, value):
        if kind == BOOL:
            return "true" if value else "false"
        if kind == INT:
            return str(value)
        return (self.keys if kind == 0 else self.fields[kind - 1].names)[value]


def quotient(x, y):
    """Truncated toward 0."""
    whole = abs(x) // abs(y)
    return whole if (x < 0) == (y < 0) else -whole


OPERATIONS = {
    "+": lambda x, y: x + y, "-": lambda x, y: x - y, "*": lambda x, y: x * y,
    "/": quotient, "%": lambda x, y: x - y * quotient(x, y),
    "=": lambda x, y: x == y, "<>": lambda x, y: x != y, "<": lambda x, y: x < y,
    "<=": lambda x, y: x <= y, ">": lambda x, y: x > y, ">=": lambda x, y: x >= y,
}


def limit(part, *limits):
    """Refuses the part where one of these isn't kept: what is counted, its number, the least and the most."""
    if beyond := [one for one in limits if not one[2] <= one[1] <= one[3]]:
        raise Refused(f"C7 Limit in {part}", limits=beyond)


def check_names(part, names, least, most):
    limit(part, ("names", len(names), least, most))
    if len(set(names)) < len(names):
        raise Refused(f"C3 Duplicate in {part}")


def without_brackets(expr):
    return without_brackets(expr[1]) if expr[0] == "brackets" else expr
