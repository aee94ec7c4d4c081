"""Faults that are planted for the hunt's own test: what stands in for the program has just one of them.

Some change what a sheet does (`SHEETS`), the others the program's replies on their way, by commands of `sed` (`EDITS`).
"""
from . import contents, deltas, runs
from .functions import CYCLE
from .model import Sheet


class Late(Sheet):
    """Cells that refer to what changed by other formulas alone show what they showed one version before."""

    def append(self, delta):
        before = {cell: Sheet.value(self, cell) for cell in self.states}
        super().append(delta)
        near = {cell for cell in self.states if cell in delta or not delta.keys().isdisjoint(self.referred(cell))}
        self.values = {cell: value for cell, value in before.items() if cell not in near}


class Stale(Sheet):
    """Once it was in a cycle, a cell shows so until it is changed itself."""

    def append(self, delta):
        before = [cell for cell in self.states if cell not in delta and self.value(cell) == CYCLE]
        super().append(delta)
        self.values = dict.fromkeys(before, CYCLE)


class Partial(Sheet):
    """A total over a range of several rows and columns leaves out the last cell."""

    def cells(self, rectangle):
        is_partial = rectangle.left < rectangle.right and rectangle.top < rectangle.bottom
        return super().cells(rectangle)[:-1 if is_partial else None]


class Lost(Sheet):
    """A delta is lost, if a part of it is known."""

    def receive(self, delta):
        news = [cell for cell, state in delta.items() if deltas.joined(self.state(cell), state) != self.state(cell)]
        if len(news) == len(delta):
            self.append(delta)


class Doubled(Sheet):
    """A delta that has just been taken is taken once more when it comes again."""

    def receive(self, delta):
        if self.history and self.history[-1] == delta:
            self.append(delta)
        else:
            super().receive(delta)


class First(Sheet):
    """Of two contents with one stamp the one that came first stays."""

    def append(self, delta):
        kept = {cell: state for cell, state in self.states.items() if cell in delta}
        super().append(delta)
        for cell, state in kept.items():
            if state.register[:2] == self.states[cell].register[:2]:
                self.states[cell] = self.states[cell]._replace(register=state.register)


class Revived(Sheet):
    """A pair that was removed is in again once it comes as added."""

    def append(self, delta):
        super().append(delta)
        for cell, state in delta.items():
            self.states[cell] = self.states[cell]._replace(pairs={**self.states[cell].pairs, **state.pairs})


class Unlimited(Sheet):
    """An edit of a register with the last time is refused by the number before its own."""

    def assign(self, cell, content):
        refusal = super().assign(cell, content)
        return contents.NOT_CHOSEN if refusal == contents.CLOCK_FULL else refusal


class MergesAll(Sheet):
    """A merge takes what is known with what is new."""

    def news(self, delta):
        return delta if super().news(delta) else {}


class MergesNoRemoval(Sheet):
    """A merge leaves out that a pair is removed that was added here."""

    def news(self, delta):
        found = {}
        for cell, state in super().news(delta).items():
            pairs = {pair: gone for pair, gone in state.pairs.items() if pair not in self.state(cell).pairs}
            found[cell] = state._replace(pairs=pairs)
        return {cell: state for cell, state in found.items() if state != deltas.EMPTY}


SHEETS = (Late, Stale, Partial, Lost, Doubled, First, Revived, Unlimited, MergesAll, MergesNoRemoval)
# What each changes: a delta line is lost or doubled, a refusal has another number, a version is one too high.
EDITS = (r"/^delta 7 /d", r"/^delta 5 /p", r"s/^err 12 not-chosen$/err 11 choice-full/", r"s/^err 8 /err 7 /",
         r"s/^end 2$/end 3/")
FILTER = """\
#!/usr/bin/env bash
set -o pipefail
{sheet} "$@" | LC_ALL=C sed '{edit}'
"""


def on_sheet(kind):
    """How a script ends on a sheet with a fault."""
    return lambda script: runs.by_model(script, kind)


def edited(edit, folder):
    """How a script ends whose replies are edited on their way; the folder is for what does so."""
    file = folder / "sheet"
    file.write_text(FILTER.format(sheet=runs.PROGRAM, edit=edit))
    file.chmod(0o755)
    return lambda script: runs.by_program(script, str(file))
