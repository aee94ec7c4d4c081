"""Faults that are planted among replicas for the hunt's own test, each in what stands in for their processes.

Those of a sheet (`faults.SHEETS`) are planted too.
"""
import re

from . import deltas, faults, kept
from .model import Sheet
from .processes import KeptFile, StandIn


class LastComes(Sheet):
    """Of two contents that which came last stays, whatever their stamps."""

    def append(self, delta):
        super().append(delta)
        for cell, state in delta.items():
            if state.register:
                self.states[cell] = self.states[cell]._replace(register=state.register)


class LesserReplica(Sheet):
    """Of two contents of one time that of the lesser replica stays."""

    def append(self, delta):
        before = {cell: self.state(cell).register for cell in delta}
        super().append(delta)
        for cell, register in before.items():
            new = delta[cell].register
            if register and new and register[0] == new[0]:
                lesser = min(register, new, key=lambda it: it[1])
                self.states[cell] = self.states[cell]._replace(register=lesser)


class Summed(Sheet):
    """What comes of a replica's counts is added to the counts of the sheet."""

    def append(self, delta):
        before = {cell: self.state(cell).counts for cell in delta}
        super().append(delta)
        for cell, state in delta.items():
            both = {replica: (own[0] + before[cell][replica][0], own[1] + before[cell][replica][1])
                    for replica, own in state.counts.items() if replica in before[cell] and replica != self.replica}
            self.states[cell] = self.states[cell]._replace(counts={**self.states[cell].counts, **both})


class OwnIgnored(Sheet):
    """What comes back of the replica's own pairs is taken for known already."""

    def receive(self, delta):
        own = {cell: state._replace(pairs={pair: gone for pair, gone in state.pairs.items() if pair[1] != self.replica})
               for cell, state in delta.items()}
        super().receive({cell: state for cell, state in own.items() if state != deltas.EMPTY})


class Revoked(Sheet):
    """Taking an option out takes out pairs of it that come later, too."""

    def append(self, delta):
        super().append(delta)
        for cell in delta:
            pairs = self.states[cell].pairs
            gone = {(option, replica) for (option, replica, _), is_gone in pairs.items() if is_gone}
            pairs = {pair: int(is_gone or pair[:2] in gone) for pair, is_gone in pairs.items()}
            self.states[cell] = self.states[cell]._replace(pairs=pairs)


class MergesKnownCounts(Sheet):
    """A merge takes both numbers of a replica's counts where one of them is new."""

    def news(self, delta):
        found = super().news(delta)
        return {cell: state._replace(counts={replica: delta[cell].counts[replica] for replica in state.counts})
                for cell, state in found.items()}


SHEETS = (*(kind for kind in faults.SHEETS if kind is not faults.Unlimited), LastComes, LesserReplica, Summed,
          OwnIgnored, Revoked, MergesKnownCounts)


def on_sheet(kind):
    """How a replica is started on a sheet with a fault."""
    return lambda *words: StandIn(kind, *words)


class Repeats(StandIn):
    """Each line that is pushed is pushed once more, which changes nothing: this is no fault."""

    def ask(self, line):
        if line.startswith(b"push "):
            super().ask(line)
        return super().ask(line)


class LosesLast(StandIn):
    """A pull leaves out the last cell of a line of several."""

    def ask(self, line):
        reply = super().ask(line)
        if not reply.startswith(b"delta "):
            return reply
        word, version, text = reply.split(b" ", 2)
        cells = deltas.read_delta(text)
        fewer = dict(sorted(cells.items())[:-1]) or cells
        return b" ".join((word, version, deltas.delta_line(fewer)))


class Fixed(StandIn):
    """A pull of 16 goes on by 16, though its line goes less far, or the history does."""

    def ask(self, line):
        words = line.split(b" ")
        reply = super().ask(line)
        if words[0] == b"pull" and reply.startswith(b"delta "):
            return b"delta %d %s" % (int(words[1]) + int(words[2]), reply.split(b" ", 2)[2])
        return reply


class EndsBadly(StandIn):
    """It ends with another status."""

    def end(self):
        return super().end()._replace(status=1)


PROCESSES = (LosesLast, Fixed, EndsBadly)


def by_process(kind):
    """How a replica is started whose process has a fault."""
    return lambda *words: kind(Sheet, *words)


class LosesKept(KeptFile):
    """Each fifth change isn't noted."""

    def note(self, lines):
        super().note(lines if self.noted % 5 else b"")


class NotesLate(KeptFile):
    """What a line does is noted once the next one is there."""

    late = b""

    def note(self, lines):
        super().note(self.late)
        self.late = lines

    def close(self):
        self.note(b"")


class CutsWhole(KeptFile):
    """A start takes the last whole line for one that is torn."""

    def start_of(self, content):
        return b"".join(content.splitlines(keepends=True)[:-1]) if kept.changes_in(content) > 2 else content


class KeepsTorn(KeptFile):
    """A start leaves what a crash has left of a line, and what comes next follows it."""

    def start_of(self, content):
        return content


class Renumbers(KeptFile):
    """A start gives the file the number of another replica."""

    def start_of(self, content):
        return re.sub(rb"^replica (\d+)", lambda found: b"replica %d" % (int(found[1]) % 32 + 1), content)


class TornIsWhole(KeptFile):
    """A start ends what a crash has left of a line, which is then passed over."""

    def start_of(self, content):
        return content if content.endswith(b"\n") or not content else content + b"\n"


class NotesTwice(KeptFile):
    """Each fourth change is noted twice."""

    def note(self, lines):
        super().note(lines if self.noted % 4 else lines * 2)


FILES = (LosesKept, NotesLate, CutsWhole, KeepsTorn, Renumbers, TornIsWhole, NotesTwice)


def by_file(kind):
    """How a replica is started that keeps itself in a file with a fault."""
    return lambda *words: StandIn(Sheet, *words, kind_of_file=kind)
