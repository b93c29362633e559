"""What is known at a place of a program that is being made: its work areas, and which variables have a value.

A variable is known by its cell, a number that each new variable gets anew. So two names of one variable have one
cell."""

from typing import NamedTuple, Optional

from world import Table

AREAS = 10
# A work area of which nothing is known, since ways have met that leave it in two states.
UNSURE = "unsure"
# The cell of a variable that is gone.
NO_CELL = 0


class Filter(NamedTuple):
    number: int
    cells: frozenset


class Known(NamedTuple):
    """What an open work area holds."""
    table: Table
    indexes: tuple
    order: int
    filter: Optional[Filter]


class State:
    """Work areas, each open, closed (None) or unsure, the selected one, and the cells of the variables that have a
    value."""

    def __init__(self, areas, selected, full):
        self.areas, self.selected, self.full = list(areas), selected, set(full)

    def copy(self):
        return State(self.areas, self.selected, self.full)

    def is_open(self, number):
        return isinstance(self.areas[number], Known)

    def here(self):
        return self.areas[self.selected] if self.is_open(self.selected) else None

    def has_same_areas(self, other):
        return self.areas == other.areas and self.selected == other.selected


def met(states):
    """What is known where ways meet, on all of which the same area is selected; nothing is reached where no way
    leads."""
    found = None
    for state in states:
        if state is None:
            continue
        if found is None:
            found = state.copy()
            continue
        assert found.selected == state.selected
        found.areas = [one if one == other else UNSURE for one, other in zip(found.areas, state.areas)]
        found.full &= state.full
    return found


class Cost:
    """What a body takes of what there may be: variables, copies of procedures, filters, calls within one another, and
    steps."""

    def __init__(self):
        self.slots, self.copies, self.filters, self.level, self.steps = 0, 0, 0, 0, 0

    def add_call(self, other, times):
        """A call of a procedure of this cost that is run so many times."""
        self.slots += other.slots
        self.copies += other.copies + 1
        self.filters += other.filters
        self.level = max(self.level, other.level + 1)
        self.steps += times * (other.steps + 1)


class Loop(NamedTuple):
    """A loop around a place: what is known at its head, and at each EXIT."""
    head: State
    exits: list


class Frame:
    """A body that is being made: the cells of its names, the names and cells that are its own, and the callers' names
    it uses.

    A free body uses no work areas, so that it can be called with any. A neutral one leaves them as it found them.
    Frozen areas may not be opened, closed or changed in their order or filter. One that releases something may be
    called only once."""

    def __init__(self, names, entry, free=False, neutral=False, frozen=frozenset()):
        self.names, self.entry = names, entry
        self.free, self.neutral, self.frozen = free, neutral, frozen
        self.own, self.cells, self.used = set(), set(), set()
        self.loops, self.exit = [], None
        self.cost, self.times, self.releases = Cost(), 1, False


class Procedure(NamedTuple):
    """A finished procedure."""
    name: str
    parameters: list
    frame: Frame
