"""Random programs over three small tables, as trees for `world.py` and for `spelling.py`.

A program is a list of command files, and a command file a list of parts. What a program knows of its work areas and
variables is followed line by line, so that it is never refused, and every loop counts its rounds."""

from calls import Calls
from commands import SETTINGS
from expressions import BEGUN, COUNT, DATE, KIND_OF, NAMES, TEXT, TRUTH
from known import AREAS, Frame, State
from values import Num
from world import Column, Part, Row, Table, main_part


def tables():
    """What each program begins with: columns, and keys as places of columns, in capitals or not."""
    goods = Table("GOODS", [Column("NAME", "C", 5), Column("QTY", "N", 6, 2), Column("SOLD", "L", 1)], [],
                  {"GNAME": [(0, True)], "GNAMES": [(0, False)]})
    folk = Table("FOLK", [Column("NAME", "C", 4), Column("CITY", "C", 3), Column("AGE", "N", 3), Column("DUE", "D", 8)],
                 [],
                 {"FCITY": [(1, False), (0, True)]})
    notes = Table("NOTES", [Column("LINE", "C", 6), Column("QTY", "N", 3)], [], {})
    return {it.name: it for it in (goods, folk, notes)}


def begun():
    """What each program begins with: some variables of each kind."""
    first = {COUNT: ("is", Num(1, 0)), TEXT: ("is", "Ab"), TRUTH: ("is", True),
             DATE: ("call", "CTOD", [("is", "01/02/85")])}
    return [("assign", name, e) for kind, e in first.items() for name in NAMES[kind][:BEGUN]]


class Maker(Calls):
    def __init__(self, random):
        super().__init__(random, tables())
        self.gone = {}
        for table in self.made.values():
            table.rows = [Row([self.random_text(column) for column in table.columns], random.random() < 0.15)
                          for _ in range(random.choice((0, 1, 4, 7, 9)))]

    def program(self):
        """In every fourth program nothing is called; there the compiler judges the layout of the whole code."""
        self.calls = not self.one_in(4)
        self.state = State([None] * AREAS, 0, ())
        self.frame = Frame({}, None)
        self.frames.append(self.frame)
        main = begun() + [("set", name, True) for name in SETTINGS if self.one_in(3)]
        for _, name, _ in begun():
            self.is_set(name)
        for number in self.random.sample(range(3), self.pick(1, 2, 2, 3)):
            main += [*self.go_back(number), self.use()]
        main += self.body(self.random.randrange(6, 18), 2)
        if self.state:
            main += self.deep() if self.calls and self.one_in(8) else []
            main += self.show_all()
            self.find_gone()
            main.append(("gone", [name for name, fault in self.gone.items() if fault == "Name"]))
        return self.files(main)

    def find_gone(self):
        """Notes which names can't be read at the end: those that only procedures have set, and those that have no
        value.

        A procedure may have set one that had no value then, under its own name or under a parameter's."""
        names = self.frame.names
        self.gone = {name: "Name" for name in KIND_OF if name in self.locals and name not in names}
        for name in KIND_OF:
            if name not in names or names[name] in self.state.full or name in self.locals:
                continue
            if not self.stands_as.get(names[name], set()) & self.begun:
                self.gone[name] = "Unset"

    def call(self):
        return super().call() if self.calls else [self.show()]

    # ---- files

    def files(self, main):
        """Procedures stand in the main file, in others, or are the main part of a file of their own."""
        files = [[Part("MAIN", [], main)]] + [[Part(f"LIB{n}", [], [])] for n in range(self.pick(0, 0, 1, 2))]
        for part in self.parts:
            if part.name != "MAIN" and self.one_in(4):
                files.append([part])
            else:
                self.random.choice(files).append(part)
        others = files[1:]
        self.random.shuffle(others)
        for file in (files[0], *others):
            file[1:] = self.random.sample(file[1:], len(file) - 1)
        return self.with_others([files[0], *others])

    def with_others(self, files):
        """Adds parts that have the names of others, and are never run: behind them in the files, or main parts of
        files."""
        nonsense = [("unreached", "? NOWHERE + 1")]
        procedures = [part for file in files for part in file if part is not main_part(file)]
        for part in self.random.sample(procedures, min(len(procedures), self.pick(0, 0, 1, 2))):
            if self.one_in(2) or part.name == "MAIN":
                files[-1].append(Part(part.name, [], nonsense))
            elif all(main_part(file).name != part.name for file in files):
                files.insert(self.random.randrange(1, len(files) + 1), [Part(part.name, [], nonsense)])
        return files
