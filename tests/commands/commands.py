"""Random commands: those of one line, choices and loops, and those on work areas."""

from expressions import COMPARED, COUNT, DATE, KIND_OF, KINDS, NAMES, TEXT, TRUTH, Expressions
from known import AREAS, UNSURE, Filter, Known, Loop, met
from spelling import key_text
from values import whole
from world import LETTERS, names_in


SETTINGS = ["exact", "deleted", "century"]


class Commands(Expressions):
    def __init__(self, random, made):
        super().__init__(random, made)
        self.frames, self.cells, self.counters, self.filters = [], 0, 0, 0
        # Names that procedures set where they know no such variable, and the parameters' names of each cell.
        self.begun, self.stands_as = set(), {}

    # ---- variables

    def any_kind(self):
        return self.pick(COUNT, TEXT, TRUTH, DATE)

    def new_cell(self):
        self.cells += 1
        self.frame.cells.add(self.cells)
        self.frame.cost.slots += 1
        return self.cells

    def is_set(self, name):
        """Tells that the variable has a value now; it is the body's own where there was none of this name."""
        if name not in self.frame.names:
            self.frame.names[name] = self.new_cell()
            self.frame.own.add(name)
            self.begun |= {name} if len(self.frames) > 1 else set()
        elif self.frame.names[name] in self.state.full:
            self.note(name)
        self.state.full.add(self.frame.names[name])

    def assign(self):
        """Sets a variable, often one of the body's own or a parameter."""
        kind = self.any_kind()
        own = [name for name in NAMES[kind] if name in self.frame.own]
        return self.set_to(self.random.choice(own if own and self.one_in(2) else NAMES[kind]), self.of_kind(kind))

    def set_to(self, name, e):
        self.is_set(name)
        return ("assign", name, e)

    def store(self):
        kind = self.any_kind()
        command = ("store", self.of_kind(kind), self.random.sample(NAMES[kind], 2))
        for name in command[2]:
            self.is_set(name)
        return command

    def release(self):
        """Variables are taken away; those that a loop around needs are set again at once, and so are most others."""
        kind = self.any_kind()
        kept = {cell for frame in self.frames for loop in frame.loops for cell in loop.head.full}
        names = self.variables(kind)
        if not names:
            return [self.show()]
        names = self.random.sample(names, min(len(names), self.pick(1, 1, 2)))
        for name in names:
            self.note(name)
        again = [name for name in names if self.frame.names[name] in kept or not self.one_in(3)]
        self.state.full -= {self.frame.names[name] for name in names}
        made = [("release", names)]
        made += [self.set_to(name, self.literal(kind)) for name in again]
        if len(again) < len(names):
            for frame in self.frames:
                frame.releases = True
        return made + [("gone", [name for name in names if self.frame.names[name] not in self.state.full])]

    def shift(self):
        """A variable that gets values of several kinds, and is read as that at once."""
        made = []
        for _ in range(self.pick(1, 2)):
            made += [("assign", "X1", self.of_kind(self.any_kind())), ("show", True, [("name", "X1")])]
        if "X1" not in self.frame.names:
            self.frame.names["X1"] = self.new_cell()
            self.frame.own.add("X1")
        return made

    # ---- screen and operator

    def show(self):
        return ("show", not self.one_in(5), [self.of_kind(self.any_kind()) for _ in range(self.pick(1, 1, 2, 3))])

    def screen_place(self):
        return ("is", whole(self.random.randrange(27))), ("is", whole(self.random.randrange(84)))

    def get(self):
        names = self.names_of(self.any_kind())
        name = self.random.choice(names) if names else None
        self.note(name)
        return name

    def form(self):
        """Values and variables at places of the screen, and what the operator types for the latter."""
        given = []
        for _ in range(self.pick(1, 2, 3)):
            name = self.get() if self.one_in(2) else None
            e = self.of_kind(self.any_kind(), 1) if name is None or self.one_in(2) else None
            given.append(("say", *self.screen_place(), e, name))
        return given + [("read",)] if any(it[4] for it in given) else given

    def ask(self):
        prompt, name = self.pick(None, self.of_kind(TEXT, 1)), self.random.choice(NAMES[TEXT])
        if self.one_in(3):
            return ("wait", prompt, None)
        self.is_set(name)
        return (self.pick("accept", "wait"), prompt, name)

    def typed(self):
        """What the operator types."""
        return [self.pick(self.word().strip(" "), "12", "-7.25", "12x", "T", "n", "02/28/87", "2/30/87", "")
                for _ in range(9)]

    # ---- the selected table

    def may_move(self):
        """Whether the selected area is open, and its filter's variables have values."""
        area = self.here()
        return area is not None and (area.filter is None or area.filter.cells <= self.state.full)

    def move(self):
        if self.here().order and self.one_in(2):
            return ("seek", self.pick(self.of_kind(TEXT, 1), ("is", self.pick("A", "B", "AB", "a", "Z", " "))))
        return self.random.choice((
            lambda: ("go", self.pick("TOP", "BOTTOM")),
            lambda: ("go", self.of_kind(COUNT, 1)),
            lambda: ("skip", None),
            lambda: ("skip", ("is", whole(self.random.randrange(0, 4)))),
            lambda: ("skip", ("one", "-", ("is", whole(self.random.randrange(1, 4))))),
        ))()

    def look(self):
        """The pointer and the answers of the selected area."""
        return ("show", True, [self.asked((word,)) for word in ("RECNO", "EOF", "BOF", "FOUND", "DELETED")])

    def change(self):
        area = self.here()
        word = self.pick("append", "replace", "replace", "replace", "replace", "mark", "mark", "reindex", "pack", "zap")
        if word == "replace" or (word in ("reindex", "pack", "zap") and not self.may_move()):
            some = self.random.sample(area.table.columns, self.pick(1, 1, 2) if len(area.table.columns) > 1 else 1)
            return ("replace", [(it.name, self.of_kind(KINDS[it.letter])) for it in some])
        if word == "mark":
            return ("mark", not self.one_in(3))
        return ("reindex",) if word == "zap" and not self.one_in(4) else (word,)

    def go_or_change(self):
        if self.may_move() and self.one_in(2):
            return [self.move(), self.look()]
        return [self.change()]

    # ---- work areas

    def select(self, number):
        words = [str(number + 1), LETTERS[number]]
        words += [self.state.areas[number].table.name] if self.state.is_open(number) else []
        self.state.selected = number
        return ("select", self.random.choice(words))

    def go_back(self, number):
        return [] if self.state.selected == number else [self.select(number)]

    def is_frozen(self):
        return self.state.selected in self.frame.frozen

    def set_here(self, known):
        self.state.areas[self.state.selected] = known

    def close(self):
        self.set_here(None)
        return ("close",)

    def open(self, table, indexes):
        self.set_here(Known(table, tuple(indexes), 1 if indexes else 0, None))
        return ("use", table.name, list(indexes))

    def use(self):
        """A table is opened that no other area may hold, or the area is closed."""
        others = [area for number, area in enumerate(self.state.areas) if area and number != self.state.selected]
        taken = list(self.made.values()) if UNSURE in others else [area.table for area in others]
        free = [table for table in self.made.values() if table not in taken]
        if not free or (self.here() and self.one_in(6)):
            return self.close()
        table = self.random.choice(free)
        return self.open(table, self.random.sample(list(table.keys), self.random.randrange(len(table.keys) + 1)))

    def order(self, number):
        self.set_here(self.here()._replace(order=number))
        return ("order", number)

    def index(self):
        area = self.here()
        index = self.random.choice(list(area.table.keys))
        self.set_here(area._replace(indexes=(index,), order=1))
        return ("index", index, key_text(area.table, index))

    def beside_variable(self, area):
        """A comparison of a field with a variable, perhaps, where there are both."""
        column = self.random.choice(area.table.columns)
        names = self.variables(KINDS[column.letter])
        if not names or column.letter == "L" or self.one_in(4):
            return None
        name = self.random.choice(names)
        self.note(name)
        return ("both", self.random.choice(COMPARED), ("name", column.name), ("alias", "M", name))

    def filter(self):
        area, e, known = self.here(), None, None
        if not self.one_in(3) and self.frame.cost.filters < 5:
            self.in_filter = True
            e = self.beside_variable(area) or self.of_kind(TRUTH)
            self.in_filter = False
            fields = {column.name for column in area.table.columns}
            names = {name for alias, name in names_in(e) if alias or name not in fields}
            self.filters += 1
            self.frame.cost.filters += 1
            known = Filter(self.filters, frozenset(self.frame.names[name] for name in names))
        self.set_here(area._replace(filter=known))
        return [("filter", e), *self.tries()]

    def read_by_filter(self):
        """The names of variables that the filter of the selected area reads."""
        area = self.here()
        cells = area.filter.cells if area and area.filter else ()
        return [name for name in KIND_OF if self.frame.names.get(name) in cells]

    def tries(self):
        """Moves under a filter, before and behind a change of its variable."""
        names = self.read_by_filter()
        if not names or self.one_in(3):
            return []
        name = self.random.choice(names)
        return [*self.top(), self.set_to(name, self.of_kind(KIND_OF[name], 0)), *self.top()]

    def top(self):
        return [("go", self.pick("TOP", "BOTTOM")), self.look()]

    def areas_command(self):
        """A command on work areas, for a place that isn't in a loop."""
        if self.is_frozen() or self.one_in(4):
            return [self.select(self.pick(0, 0, 1, 1, 2, 9))]
        if self.one_in(4 if self.state.selected else 16) and not self.frame.frozen:
            self.state.areas, self.state.selected = [None] * AREAS, 0
            return [("close_all", self.pick("ALL", "DATABASES"))]
        area = self.here()
        if area is None or self.one_in(4):
            return [self.use()]
        if area.table.keys and self.may_move() and self.one_in(4):
            return [self.index()]
        return [self.order(self.random.randrange(len(area.indexes) + 1))] if self.one_in(3) else self.filter()

    def excursion(self):
        """Another area is selected for a few commands."""
        before = self.state.selected
        others = [number for number in range(AREAS) if self.state.is_open(number) and number != before]
        if not others:
            return [self.show()]
        made = [self.select(self.random.choice(others))]
        for _ in range(self.pick(1, 2, 3)):
            made += self.pick(self.go_or_change, lambda: [self.show()], lambda: [self.assign()])()
        return made + self.go_back(before)

    # ---- blocks

    def branch(self, depth):
        """The commands of a branch, behind which the area is selected that was before, and what is known behind
        them."""
        before = self.state.copy()
        made = self.commands(depth - 1)
        if self.state and self.one_in(12):
            made += self.leave()
        if self.state:
            made += self.go_back(before.selected)
        behind, self.state = self.state, before
        return made, behind

    def choice(self, depth):
        """A choice; where an end of it isn't reached in any way, nothing is known behind it."""
        is_if = self.one_in(2)
        conditions = [self.of_kind(TRUTH) for _ in range(1 if is_if else self.pick(1, 2, 3))]
        branches = [self.branch(depth) for _ in conditions]
        last = self.branch(depth) if self.one_in(2) else (None, self.state)
        self.state = met([behind for _, behind in branches] + [last[1]])
        if is_if:
            return ("if", conditions[0], branches[0][0], last[0])
        return ("case", [(condition, made) for condition, (made, _) in zip(conditions, branches)], last[0])

    def counted(self, name, rounds, depth):
        """A body that counts its rounds, and leaves the loop behind the last of them."""
        head = self.state.copy()
        loop = Loop(head.copy(), [head])
        self.frame.loops.append(loop)
        self.frame.times *= rounds + 1
        made, _ = self.branch(depth)
        self.frame.times //= rounds + 1
        self.frame.loops.pop()
        self.state = met(loop.exits)
        stop = ("if", ("both", ">", ("alias", "M", name), ("is", whole(rounds))), [("leave", "EXIT")], None)
        step = ("assign", name, ("both", "+", ("alias", "M", name), ("is", whole(1))))
        return [step, stop] + made

    def loop(self, depth):
        self.counters += 1
        name = f"W{self.counters}"
        begin = ("assign", name, ("is", whole(0)))
        self.is_set(name)
        rows, condition = self.may_move() and self.one_in(2), self.of_kind(TRUTH)
        body = self.counted(name, self.pick(2, 4, 9), depth)
        return [begin, ("scan", self.pick(None, condition), body) if rows else ("while", condition, body)]

    def may_return(self):
        """Whether what is known of work areas allows a RETURN here."""
        if len(self.frames) == 1:
            return True
        if self.frame.neutral:
            return self.state.has_same_areas(self.frame.entry)
        return self.frame.exit is None or self.frame.exit.selected == self.state.selected

    def leave(self):
        words = ["LOOP", "EXIT"] * 2 if self.frame.loops else []
        words += ["RETURN"] * 3 if self.may_return() else []
        return self.leave_by(self.random.choice(words) if words and not self.one_in(9) else self.pick("QUIT", "CANCEL"))

    def leave_by(self, word):
        """A command behind which nothing is reached, perhaps with one behind it that makes no sense."""
        if word == "EXIT":
            self.frame.loops[-1].exits.append(self.state)
        if word == "RETURN" and len(self.frames) > 1:
            self.frame.exit = met([self.frame.exit, self.state])
        self.state = None
        unreached = [("unreached", self.pick("? NOWHERE", "USE NOWHERE", "DO NOWHERE", "N1 = 1 + T1"))]
        return [("leave", word)] + (unreached if self.one_in(6) else [])

    def leave_if(self):
        condition, before = self.of_kind(TRUTH, 1), self.state.copy()
        made = ([self.show()] if self.one_in(4) else []) + self.leave()
        self.state = before
        return ("if", condition, made, None)

    # ---- what stands at a place

    def command(self, depth):
        self.frame.cost.steps += self.frame.times
        if depth and self.one_in(6):
            return [self.choice(depth)] if self.one_in(2) else self.loop(depth)
        if self.here() and self.one_in(3):
            return self.go_or_change()
        rare = ((12, lambda: [("set", self.random.choice(SETTINGS), self.pick(True, False))]), (15, self.form),
                (30, lambda: [self.ask()]), (40, lambda: [("clear",)]), (30, self.release), (40, self.shift),
                (4, self.call), (24 if len(self.frames) == 1 and not self.frame.loops else 6,
                                 lambda: [self.leave_if()]),
                (15, self.show_all if self.frame.free else self.excursion))
        for count, make in rare:
            if self.one_in(count):
                return make()
        if not self.frame.free and not self.frame.loops and self.one_in(4):
            return self.areas_command()
        return [self.pick(self.assign, self.assign, self.show, self.show, self.store)()]

    def show_all(self):
        """All variables that have a value here, whatever they hide behind."""
        names = [name for name in KIND_OF if self.frame.names.get(name) in self.state.full]
        for name in names:
            self.note(name)
        return [("show", True, [("alias", "M", name) for name in names])]

    def commands(self, depth):
        made = []
        for _ in range(self.pick(1, 2, 3)):
            made += self.command(depth) if self.state else []
        return made
