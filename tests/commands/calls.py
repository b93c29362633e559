"""Random procedures, made where they are first called, and calls of those that are finished."""

from commands import Commands
from expressions import COUNT, KIND_OF
from known import AREAS, NO_CELL, UNSURE, Filter, Frame, Procedure, met
from values import whole
from world import Part

# How many calls may be open, as docs/PROFILE.md says.
MOST_CALLS = 20
# Fewer than a program may have, so that it is soon compiled and run.
MOST_SLOTS, MOST_COPIES, MOST_FILTERS, MOST_STEPS, MOST_PROCEDURES = 150, 30, 40, 800, 7
# Names of procedures that mean something else too.
STRANGE = ["MAIN", "GOODS", "N1", "NAME", "M", "A"]


class Calls(Commands):
    def __init__(self, random, made):
        super().__init__(random, made)
        self.parts, self.finished, self.locals = [], [], set()
        self.names_left = [f"P{n}" for n in range(1, MOST_PROCEDURES - 1)] + random.sample(STRANGE, 2)

    # ---- arguments

    def argument(self, kind):
        """A variable or field alone, one in parentheses, or any other value."""
        behind_alias = self.one_in(3)
        names = self.variables(kind) if behind_alias else self.names_of(kind)
        if not names or self.one_in(4):
            return self.of_kind(kind, 1)
        name = self.random.choice(names)
        self.note(name)
        alone = ("alias", "M", name) if behind_alias else ("name", name)
        return ("enclosed", alone) if self.one_in(3) else alone

    def arguments(self, parameters):
        """Values for these parameters, one of them perhaps twice."""
        given = {}
        for name in parameters:
            same = [given[it] for it in given if KIND_OF[it] == KIND_OF[name]]
            given[name] = self.random.choice(same) if same and self.one_in(2) else self.argument(KIND_OF[name])
        return list(given.values())

    def cell_of(self, e):
        """The cell of a variable that is handed over itself, or nothing."""
        if e[0] == "name":
            area = self.here()
            return self.frame.names[e[1]] if area is None or area.table.column(e[1]) is None else None
        return self.frame.names[e[2]] if e[:2] == ("alias", "M") else None

    # ---- calls

    def times(self):
        """How often a place is run at most."""
        times = 1
        for frame in self.frames:
            times *= frame.times
        return times

    def has_room(self, slots, copies, filters, level):
        costs = [frame.cost for frame in self.frames]
        return (sum(it.slots for it in costs) + slots <= MOST_SLOTS
                and sum(it.copies for it in costs) + copies <= MOST_COPIES
                and sum(it.filters for it in costs) + filters <= MOST_FILTERS
                and len(self.frames) - 1 + level <= MOST_CALLS)

    def may_call(self, procedure):
        """Whether a finished procedure finds what it needs here, and leaves what is needed."""
        frame, cost = procedure.frame, procedure.frame.cost
        if not all(self.frame.names.get(name) in self.state.full for name in frame.used):
            return False
        if frame.free:
            fits = self.frame.free or self.state.areas[self.state.selected] != UNSURE
        else:
            fits = not self.frame.free and self.state.has_same_areas(frame.entry)
            fits = fits and (frame.neutral or not self.frame.loops and not self.frame.frozen)
        room = self.has_room(cost.slots, cost.copies + 1, cost.filters, cost.level + 1)
        return fits and room and self.times() * cost.steps <= MOST_STEPS

    def call(self):
        kinds = [self.call_finished] * 3 + [self.call_new] * 2 + [self.call_any]
        return self.random.choice(kinds)()

    def call_finished(self):
        found = [it for it in self.finished if self.may_call(it)]
        if not found:
            return self.call_new()
        procedure = self.random.choice(found)
        given = self.arguments(procedure.parameters)
        for name in procedure.frame.used:
            self.note(name)
        self.end_call(procedure.frame)
        return [("do", procedure.name, given)]

    def call_new(self):
        if not self.names_left or len(self.frames) > 5 or not self.has_room(30, 1, 5, 1) or self.times() > 30:
            return [self.show()]
        parameters = self.random.sample(list(KIND_OF), self.pick(0, 0, 1, 1, 2, 2, 3))
        given = self.arguments(parameters)
        name = self.names_left.pop(self.random.randrange(len(self.names_left)))
        frame, body = self.body_of(parameters, given)
        self.parts.append(Part(name, parameters, body))
        for used in frame.used:
            self.note(used)
        self.end_call(frame)
        if not frame.releases:
            self.finished.append(Procedure(name, parameters, frame))
        return [("do", name, given)]

    def end_call(self, frame):
        """Behind a call: its work areas, where filters have lost their variables, and its cost."""
        if not frame.free and frame.exit:
            known = [area.filter for area in frame.entry.areas if area not in (None, UNSURE)]
            self.state.areas = [self.left(area, known) for area in frame.exit.areas]
            self.state.selected = frame.exit.selected
        self.frame.cost.add_call(frame.cost, self.frame.times)

    def left(self, area, known):
        """An open area whose filter was set in a procedure can't be moved in until it gets another, where it reads
        variables."""
        if area in (None, UNSURE) or area.filter is None or area.filter in known or not area.filter.cells:
            return area
        self.filters += 1
        return area._replace(filter=Filter(self.filters, frozenset([NO_CELL])))

    # ---- bodies

    def frame_for(self, parameters, given):
        """What a procedure sees at first, where it is called here with these values."""
        names = {name: cell for name, cell in self.frame.names.items() if cell in self.state.full}
        neutral = bool(self.frame.loops) or self.one_in(3)
        frozen = set(self.frame.frozen)
        if neutral:
            areas = self.state.areas
            frozen |= set(range(AREAS)) if UNSURE in areas else {n
                                                                 for n, area in enumerate(areas)
                                                                 if area and area.filter}
        free = self.frame.free or self.one_in(5) and self.state.areas[self.state.selected] != UNSURE
        frame = Frame(names, self.state.copy(), free, neutral, frozenset(frozen))
        cells = [self.cell_of(e) for e in given]
        for name, cell in zip(parameters, cells):
            if cell is None:
                self.cells += 1
                cell = self.cells
                frame.cells.add(cell)
                self.state.full.add(cell)
            names[name] = cell
            self.stands_as.setdefault(cell, set()).add(name)
            frame.own.add(name)
            frame.cost.slots += 1
        return frame

    def body_of(self, parameters, given):
        """Makes the body of a procedure that is called here; what is known behind it is known here then."""
        before, caller = self.state.copy(), self.frame
        self.frame = self.frame_for(parameters, given)
        self.frames.append(self.frame)
        body = self.shared(parameters) + self.body(self.random.randrange(2, 7), self.pick(0, 1, 1, 2))
        body += self.way_out()
        frame, self.frame = self.frames.pop(), caller
        self.locals |= frame.own
        self.state = frame.exit.copy() if frame.exit else before
        self.state.full -= frame.cells
        return frame, body

    def shared(self, parameters):
        """Where two parameters are one variable, one is set, and both are shown."""
        cells = self.frame.names
        pairs = [(one, other) for one in parameters
                 for other in parameters if one < other and cells[one] == cells[other]]
        if not pairs:
            return []
        names = pairs[0]
        return [self.set_to(names[0], self.of_kind(KIND_OF[names[0]])),
                ("show", True, [("alias", "M", it) for it in names])]

    def body(self, count, depth):
        """Commands at the top of a body."""
        made = []
        for _ in range(count):
            if not self.state:
                break
            if self.one_in(4):
                made += self.call()
            elif self.one_in(4) and not self.frame.free:
                made += self.areas_command()
            elif self.one_in(2 if self.read_by_filter() else 6) and (len(self.frames) > 1 or self.one_in(5)):
                made += self.private()
            else:
                made += self.command(depth)
            if self.state and self.may_move() and self.one_in(3):
                made += [self.move(), self.look()]
        return made

    def private(self):
        """Callers' variables are hidden, and one of them is set anew at once, perhaps; parameters aren't hidden."""
        read = self.read_by_filter()
        names = read or self.random.sample(sorted(self.frame.names.keys() & KIND_OF.keys()) or list(KIND_OF), 1)
        made = [("private", names)]
        if len(self.frames) > 1:
            for name in set(names) - self.frame.own:
                self.frame.names.pop(name, None)
        if read or self.one_in(2):
            made.append(self.set_to(names[0], self.of_kind(KIND_OF[names[0]])))
        return made + (self.top() if read and self.may_move() else [])

    def way_out(self):
        """The end of a procedure, where work areas are as on its other ways out."""
        if not self.state:
            return []
        made = self.restored() if self.frame.neutral else []
        if self.frame.exit:
            made += self.go_back(self.frame.exit.selected)
        if self.one_in(2):
            return made + self.leave_by("RETURN")
        self.frame.exit = met([self.frame.exit, self.state])
        return made

    def restored(self):
        """Opens and closes work areas until they are as at the beginning of the procedure."""
        wanted, made = self.frame.entry, []
        wrong = [n for n in range(AREAS) if self.state.areas[n] != wanted.areas[n]]
        for n in wrong:
            made += [*self.go_back(n), self.close()]
        for n in wrong:
            if wanted.areas[n]:
                table, indexes, order, _ = wanted.areas[n]
                made += [*self.go_back(n), self.open(table, indexes)]
                made += [self.order(order)] if order != self.here().order else []
        return made + self.go_back(wanted.selected)

    # ---- procedures of their own

    def call_any(self):
        """A procedure of one parameter of any kind, which it may set to another kind."""
        if not self.has_room(3, 2, 0, 1):
            return [self.show()]
        if not any(part.name == "ANY" for part in self.parts):
            change = [("assign", "G", self.literal(self.any_kind())), ("show", False, [("name", "G")])]
            self.parts.append(Part("ANY", ["G"],
                                   [("show", True, [("name", "G")])] + (change if self.one_in(2) else [])))
        made = self.shift()
        self.frame.cost.slots += 1
        self.frame.cost.copies += 1
        self.frame.cost.level = max(self.frame.cost.level, 1)
        other = ("enclosed", self.of_kind(self.any_kind()))
        given = self.pick(("name", "X1"), ("alias", "M", "X1"), ("enclosed", ("name", "X1")), other)
        return made + [("do", "ANY", [given]), ("show", True, [("name", "X1")])]

    def deep(self):
        """A chain of calls, often as deep as calls may go, that hands a number down and brings it back, or a copy of
        it."""
        count = self.pick(MOST_CALLS, self.random.randrange(1, MOST_CALLS))
        number, stop = ("name", "N3"), whole(self.random.randrange(5, 50))
        for n in range(1, count + 1):
            body = [("assign", "N3", ("both", "+", number, ("is", whole(1))))]
            if n < count:
                body.append(("if", ("both", ">", number, ("is", stop)), [("leave", "RETURN")], None))
                body.append(("do", f"DEEP{n + 1}", [self.pick(number, number, ("enclosed", number))]))
            self.parts.append(Part(f"DEEP{n}", ["N3"], body + [("show", True, [number])]))
        return [("do", "DEEP1", [self.pick(("is", whole(0)), self.argument(COUNT))])]
