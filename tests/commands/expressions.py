"""Random values and expressions of the four kinds, from the names that mean something at a place of a program."""

from known import AREAS, UNSURE
from values import Num, whole
from world import LETTERS

COUNT, TEXT, TRUTH, DATE = "count", "text", "truth", "date"
KINDS = {"N": COUNT, "C": TEXT, "L": TRUTH, "D": DATE}
# All names of variables whose kind never changes; a field of such a name has the same kind.
NAMES = {COUNT: ["N1", "N2", "QTY", "N3", "AGE"], TEXT: ["T1", "T2", "NAME", "T3", "CITY"],
         TRUTH: ["L1", "L2", "SOLD", "L3"], DATE: ["D1", "DUE", "D2", "D3"]}
# How many of each kind have a value when a program begins.
BEGUN = 3
KIND_OF = {name: kind for kind, names in NAMES.items() for name in names}
COMPARED = ["=", "<>", "#", "<", ">", "<=", ">="]
DAYS = ["02/29/88", "1/1/85", "12/31/1999", "2/30/85", "1/1/0001", "12/31/9999", ""]


class Expressions:
    """Makes expressions, by what is known in `state` within the body of `frame`."""

    def __init__(self, random, made):
        self.random, self.made = random, made
        self.fields = {column.name for table in made.values() for column in table.columns}
        self.state, self.frame, self.in_filter = None, None, False

    def pick(self, *given):
        return self.random.choice(given)

    def one_in(self, count):
        return self.random.randrange(count) == 0

    def word(self):
        return "".join(self.pick("A", "B", "a", "b", "Z", " ") for _ in range(self.pick(0, 1, 1, 2, 3, 5)))

    def random_text(self, column):
        if column.letter == "C":
            return column.write(self.word())
        if column.letter == "L":
            return self.pick("T", "F", " ")
        if column.letter == "D":
            return self.pick("19850101", "19841231", "20000229", " " * 8)
        return column.write(Num(self.random.randrange(-999, 999), self.pick(0, 1, 2)))

    def here(self):
        return None if self.frame.free else self.state.here()

    # ---- expressions

    def literal(self, kind):
        if kind == COUNT:
            return ("is", Num(self.random.randrange(0, 400), self.pick(0, 0, 0, 1, 2)))
        if kind == TEXT:
            return ("is", self.word())
        if kind == TRUTH:
            return ("is", self.pick(True, False))
        return ("call", "CTOD", [("is", self.random.choice(DAYS))])

    def variables(self, kind):
        """Variables of this kind that have a value here."""
        return [name for name in NAMES[kind] if self.frame.names.get(name) in self.state.full]

    def names_of(self, kind):
        """Names that mean a value of this kind here: variables, and fields of the selected table in front of them."""
        area = self.here()
        if not self.frame.free and self.state.areas[self.state.selected] == UNSURE:
            return [name for name in self.variables(kind) if name not in self.fields]
        columns = {column.name: KINDS[column.letter] for column in area.table.columns} if area else {}
        variables = [name for name in self.variables(kind) if columns.get(name, kind) == kind]
        return variables + [name for name, its in columns.items() if its == kind]

    def note(self, name):
        """Remembers that a caller's variable is used."""
        if name in self.frame.names and name not in self.frame.own:
            self.frame.used.add(name)

    def field_behind_alias(self, kind):
        """A field of another area, or of the selected one, in a filter of that alone."""
        areas = [at for at in range(AREAS) if self.state.is_open(at) and (at == self.state.selected) == self.in_filter]
        areas = areas or [self.state.selected] * (self.here() is not None)
        if not areas or self.frame.free:
            return None
        at = self.random.choice(areas)
        table = self.state.areas[at].table
        found = [column.name for column in table.columns if KINDS[column.letter] == kind]
        return ("alias", self.pick(table.name, LETTERS[at]), self.random.choice(found)) if found else None

    def named(self, kind):
        field = self.field_behind_alias(kind) if self.one_in(4) else None
        variables, names = self.variables(kind), self.names_of(kind)
        if field or not variables + names:
            return field or self.literal(kind)
        behind_alias = variables and (not names or self.one_in(8))
        name = self.random.choice(variables if behind_alias else names)
        self.note(name)
        return ("alias", "M", name) if behind_alias else ("name", name)

    def asked(self, words):
        return ("ask", self.random.choice(words))

    def count(self, depth):
        area = self.here()
        if depth == 0 or self.one_in(4):
            if area and self.one_in(4):
                return self.asked(("RECNO", "RECCOUNT"))
            return self.literal(COUNT) if self.one_in(2) else self.named(COUNT)
        n, t = lambda: self.count(depth - 1), lambda: self.letters(depth - 1)
        small = ("is", whole(self.random.randrange(0, 4)))
        return self.random.choice((
            lambda: ("both", self.pick("+", "-", "*", "/"), n(), n()),
            lambda: ("both", self.pick("+", "-"), n(), n()),
            lambda: ("one", self.pick("-", "+"), n()),
            lambda: ("call", self.pick("MOD", "MAX", "MIN"), [n(), n()]),
            lambda: ("call", self.pick("ABS", "INT"), [n()]),
            lambda: ("call", "ROUND", [n(), small]),
            lambda: ("call", self.pick("LEN", "VAL", "ASC"), [t()]),
            lambda: ("call", "AT", [t(), t()]),
            lambda: ("call", "IIF", [self.truth(depth - 1), n(), n()]),
            lambda: ("call", self.pick("DAY", "MONTH", "YEAR", "DOW"), [self.date(depth - 1)]),
            lambda: ("both", "-", self.date(depth - 1), self.date(depth - 1)),
        ))()

    def letters(self, depth):
        if depth == 0 or self.one_in(4):
            return self.literal(TEXT) if self.one_in(2) else self.named(TEXT)
        n, t = lambda: self.count(depth - 1), lambda: self.letters(depth - 1)
        small = ("is", whole(self.random.randrange(0, 5)))
        return self.random.choice((
            lambda: ("both", self.pick("+", "-"), t(), t()),
            lambda: ("call", "SUBSTR", [t(), small] + ([n()] if self.one_in(2) else [])),
            lambda: ("call", self.pick("LEFT", "RIGHT", "REPLICATE"), [t(), small]),
            lambda: ("call", self.pick("TRIM", "LTRIM", "UPPER", "LOWER"), [t()]),
            lambda: ("call", "SPACE", [small]),
            lambda: ("call", "STUFF", [t(), small, small, t()]),
            lambda: ("call", "STR", [n()] + [("is", whole(it)) for it in self.pick([], [6], [7, 2])]),
            lambda: ("call", "IIF", [self.truth(depth - 1), t(), t()]),
            lambda: ("call", self.pick("DTOC", "CDOW", "CMONTH"), [self.date(depth - 1)]),
        ))()

    def date(self, depth):
        if depth == 0 or self.one_in(3):
            return self.literal(DATE) if self.one_in(2) else self.named(DATE)
        n, d = self.count(depth - 1), self.date(depth - 1)
        return self.random.choice((
            ("both", "+", d, n),
            ("both", "+", n, d),
            ("both", "-", d, n),
            ("call", "CTOD", [self.letters(depth - 1)]),
            ("call", "IIF", [self.truth(depth - 1), d, d]),
        ))

    def truth(self, depth):
        area = self.here()
        if depth == 0 or self.one_in(5):
            if area and self.one_in(3):
                return self.asked(("DELETED",) if self.in_filter else ("DELETED", "EOF", "BOF", "FOUND"))
            return self.literal(TRUTH) if self.one_in(2) else self.named(TRUTH)
        n, t, l = lambda: self.count(depth - 1), lambda: self.letters(depth - 1), lambda: self.truth(depth - 1)
        return self.random.choice((
            lambda: ("both", self.random.choice(COMPARED), n(), n()),
            lambda: ("both", self.random.choice(COMPARED), t(), t()),
            lambda: ("both", self.random.choice(COMPARED), self.date(depth - 1), self.date(depth - 1)),
            lambda: self.beside_its_front(t()),
            lambda: ("both", "$", t(), t()),
            lambda: ("both", self.pick(".AND.", ".OR."), l(), l()),
            lambda: ("one", ".NOT.", l()),
            lambda: ("call", self.pick("ISALPHA", "ISUPPER", "ISLOWER"), [t()]),
        ))()

    def beside_its_front(self, text):
        return ("both", self.random.choice(COMPARED), text,
                ("call", "LEFT", [text, ("is", whole(self.random.randrange(4)))]))

    def of_kind(self, kind, depth=2):
        return {COUNT: self.count, TEXT: self.letters, TRUTH: self.truth, DATE: self.date}[kind](depth)
