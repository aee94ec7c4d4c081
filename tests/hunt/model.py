"""A sheet: what it holds, what its edits change, and what its cells show ("Joins", "Session lines").

Every value is worked out from scratch. What was worked out is remembered until the next change, so that a cell that
several ask for is evaluated once.
"""
from . import contents, deltas
from .deltas import EMPTY, State
from .formulas import read_formula
from .functions import CYCLE
from .places import cells_in

LARGEST_AMOUNT = 1_000_000


class Sheet:
    """A sheet of a replica: its history, the join of it, and what is known of values since the last change."""

    def __init__(self, replica=1):
        self.replica = replica
        self.history = []
        self.states = {}
        self.values = {}
        self.cyclic = {}

    # -- Changes

    def append(self, delta):
        """Ends the history with a delta."""
        self.history.append(delta)
        self.states.update({cell: deltas.joined(self.state(cell), state) for cell, state in delta.items()})
        self.values = {}
        self.cyclic = {}

    def receive(self, delta):
        """Takes in a delta of another replica, unless it brings nothing new."""
        if not all(self.has(cell, state) for cell, state in delta.items()):
            self.append(delta)

    def merge(self, delta):
        """Takes in what is new of a delta of another replica, and returns whether anything is."""
        news = self.news(delta)
        if news:
            self.append(news)
        return bool(news)

    def news(self, delta):
        """What is new of a delta: the least one with the same join."""
        states = {cell: deltas.news(self.state(cell), state) for cell, state in delta.items()}
        return {cell: state for cell, state in states.items() if state != EMPTY}

    def has(self, cell, state):
        """Whether a state of the cell brings nothing new."""
        return deltas.joined(self.state(cell), state) == self.state(cell)

    def has_own(self, delta):
        """Whether nothing is new of what the sheet's replica made of a delta ("A kept sheet")."""
        return all(self.has(cell, deltas.made_by(self.replica, state)) for cell, state in delta.items())

    def state(self, cell):
        """What the cell holds."""
        return self.states.get(cell, EMPTY)

    def content(self, cell):
        """The content of the cell's register."""
        register = self.state(cell).register
        return register[2] if register else contents.BLANK

    # -- Values

    def cells(self, rectangle):
        """The cells of a rectangle in order; of a large one only those that hold anything."""
        return cells_in(rectangle, self.states)

    def value(self, cell):
        """What the cell shows."""
        if cell not in self.states:
            return None
        if cell not in self.values:
            self.values[cell] = CYCLE if self.is_cyclic(cell) else self.worth(cell)
        return self.values[cell]

    def worth(self, cell):
        """The value of a cell that is not cyclic, by its content."""
        content = self.content(cell)
        if content[0] == contents.FORMULA:
            return read_formula(content[1]).value(self)
        if content == contents.TALLY:
            return sum(added - subtracted for added, subtracted in self.state(cell).counts.values())
        if content == contents.CHOICE:
            return tuple(sorted({option for (option, _, _), gone in self.state(cell).pairs.items() if not gone}))
        return content[1] if len(content) == 2 else None

    def referred(self, cell):
        """The cells that hold anything and that the cell's formula refers to."""
        content = self.content(cell)
        if content[0] != contents.FORMULA:
            return []
        return [it for rectangle in read_formula(content[1]).rectangles for it in cells_in(rectangle, self.states)
                if it in self.states]

    def is_cyclic(self, cell):
        """Whether some chain of references from the cell holds a cell twice."""
        if cell not in self.cyclic:
            # whoever comes back here before it is known has closed such a chain
            self.cyclic[cell] = True
            self.cyclic[cell] = any([self.is_cyclic(it) for it in self.referred(cell)])
        return self.cyclic[cell]

    # -- Edits: each returns why it is refused, or nothing

    def edit(self, cell, register=(), counts=EMPTY.counts, pairs=EMPTY.pairs):
        """Ends the history with the delta that has this of the cell."""
        self.append({cell: State(register, counts, pairs)})

    def assign(self, cell, content):
        """Gives the cell a content."""
        time = self.state(cell).register[0] if self.state(cell).register else 0
        if time == deltas.LAST_TIME:
            return contents.CLOCK_FULL
        return self.edit(cell, register=(time + 1, self.replica, content))

    def count(self, cell, added, subtracted):
        """Adds or subtracts: one of both is 0."""
        if not 1 <= added + subtracted <= LARGEST_AMOUNT:
            return contents.AMOUNT
        if self.content(cell) != contents.TALLY:
            return contents.NOT_TALLY
        counts = self.state(cell).counts.get(self.replica, (0, 0))
        own = (counts[0] + added if added else 0, counts[1] + subtracted if subtracted else 0)
        if max(own) > deltas.COUNT_LIMIT:
            return contents.TALLY_FULL
        return self.edit(cell, counts={self.replica: own})

    def choose(self, cell, option):
        """Puts an option in."""
        if option >= deltas.OPTIONS:
            return contents.OPTION
        if self.content(cell) != contents.CHOICE:
            return contents.NOT_CHOICE
        used = max([it for _, replica, it in self.state(cell).pairs if replica == self.replica], default=0)
        if used == deltas.SEQUENCES:
            return contents.CHOICE_FULL
        return self.edit(cell, pairs={(option, self.replica, used + 1): 0})

    def unchoose(self, cell, option):
        """Takes an option out."""
        if option >= deltas.OPTIONS:
            return contents.OPTION
        if self.content(cell) != contents.CHOICE:
            return contents.NOT_CHOICE
        gone = {pair: 1 for pair, is_gone in self.state(cell).pairs.items() if pair[0] == option and not is_gone}
        if not gone:
            return contents.NOT_CHOSEN
        return self.edit(cell, pairs=gone)
