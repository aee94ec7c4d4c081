"""Faults that are planted among sessions for the hunt's own test, each in what stands in for a server."""
from program import Ended

from . import faults, replica_faults
from .desks import Desk, DeskFollower, at_version

EDITS = (b"set ", b"add ", b"sub ", b"choose ", b"unchoose ")


def on_sheet(kind):
    """How a server is started on a sheet with a fault."""
    return lambda count, words, _: Desk(count, words, kind)


class LateRead(Desk):
    """A read is that of one version before."""

    def reply(self, channel, line):
        if line.startswith((b"get ", b"rows ")) and len(line) < 100:
            return at_version(self, len(self.session.sheet.history) - 1).reply(line)
        return super().reply(channel, line)


class FallingRead(Desk):
    """Each third read is of some earlier version, though the session has seen a later one."""

    reads = 0

    def reply(self, channel, line):
        if line.startswith(b"get "):
            self.reads += 1
            if self.reads % 3 == 0:
                return at_version(self, len(self.session.sheet.history) // 2).reply(line)
        return super().reply(channel, line)


class TornRows(Desk):
    """The first row of several is of the version before."""

    def reply(self, channel, line):
        reply = super().reply(channel, line)
        if reply is None or not reply.startswith(b"rows ") or reply.count(b"\n") < 2:
            return reply
        before = at_version(self, len(self.session.sheet.history) - 1).reply(line)
        return b"\n".join(before.split(b"\n")[:2] + reply.split(b"\n")[2:])


class ReceiptTwice(Desk):
    """A receipt of an edit is that of the edit before."""

    def reply(self, channel, line):
        reply = super().reply(channel, line)
        if line.startswith(EDITS) and reply.startswith(b"ok ") and int(reply[3:]) % 5 == 0:
            return b"ok %d" % (int(reply[3:]) - 1)
        return reply


class LostDelta(Desk):
    """An edit is answered and left out of the history."""

    def reply(self, channel, line):
        reply = super().reply(channel, line)
        if line.startswith(EDITS) and reply == b"ok 4":
            sheet = self.session.sheet
            sheet.history.pop()
        return reply


class Crossed(Desk):
    """Now and then a reply goes to the session that was the last one to come."""

    lines = 0

    def answer(self, channel, line):
        self.lines += 1
        is_crossed = self.lines % 10 == 0 and not self.channels[-1].is_closed
        super().answer(channel, line)
        if is_crossed and channel is not self.channels[-1]:
            place = channel.received.rfind(b"\n", 0, -1) + 1
            self.channels[-1].received += channel.received[place:]
            channel.received = channel.received[:place]


class Unanswered(Desk):
    """A session's last line has no reply where others are open."""

    def answer(self, channel, line):
        if not (line.startswith(b"get ") and sum(not it.is_closed for it in self.channels) > 2):
            super().answer(channel, line)


class OneMore(Desk):
    """The number after `closed` is one too high."""

    def ended(self):
        return Ended(0, b"closed %d\n" % (len(self.session.sheet.history) + 1))


class ThreadLeft(Desk):
    """The thread of one session is left once it has ended."""

    def measured(self):
        found = super().measured()
        return {**found, "threads": found["threads"] + (len(self.channels) > 3)}


class MemoryLeft(Desk):
    """Memory of each session is left."""

    def measured(self):
        found = super().measured()
        return {**found, "kilobytes": found["kilobytes"] + 150_000 * len(self.channels)}


class Foreign(Desk):
    """An edit has the stamp of another replica."""

    def reply(self, channel, line):
        sheet = self.session.sheet
        own, sheet.replica = sheet.replica, sheet.replica % 32 + 1
        try:
            return super().reply(channel, line)
        finally:
            sheet.replica = own


class OldPull(Desk):
    """A pull doesn't see the newest delta."""

    def reply(self, channel, line):
        if line.startswith(b"pull ") and channel.desk.channels[-1] is not channel:
            return at_version(self, max(0, len(self.session.sheet.history) - 1)).reply(line)
        return super().reply(channel, line)


class PartTaken(Desk):
    """What a session has begun of a line when it breaks off is carried out."""

    def connect(self, is_narrow=False):
        channel = super().connect(is_narrow)
        close = channel.close
        channel.close = lambda is_reset=False: (channel.is_closed or self.reply(channel, b"set B2 77"), close(is_reset))
        return channel


DESKS = (LateRead, FallingRead, TornRows, ReceiptTwice, LostDelta, Crossed, Unanswered, OneMore, ThreadLeft,
         MemoryLeft, Foreign, OldPull, PartTaken)
SHEETS = (faults.Late, faults.Stale, faults.Partial)


def by_desk(kind):
    """How a server with a fault is started."""
    return lambda count, words, _: kind(count, words)


# -- Of followers and kept files

class Repeats(DeskFollower):
    """Each third line comes twice."""

    def write(self, line):
        super().write(line * (1 + (self.place % 3 == 0)))


class LeavesOut(DeskFollower):
    """Each third line is left out."""

    def write(self, line):
        super().write(line if self.place % 3 else b"")


class Exchanges(DeskFollower):
    """Now and then two lines come in another order."""

    held = b""

    def write(self, line):
        if self.place % 2 and not self.held:
            self.held = line
            return
        super().write(line + self.held)
        self.held = b""


class StopsShort(DeskFollower):
    """It doesn't ask again once it has some."""

    def take(self):
        return self.place < 5 and super().take()


FOLLOWERS = (Repeats, LeavesOut, Exchanges, StopsShort)
FILES = (replica_faults.LosesKept, replica_faults.NotesLate, replica_faults.CutsWhole, replica_faults.Renumbers,
         replica_faults.NotesTwice)


def by_follower(kind):
    """How a server is started whose followers have a fault."""
    return lambda count, words, _: Desk(count, words, kind_of_follower=kind)


def by_file(kind):
    """How a server is started that keeps its sheet in a file with a fault."""
    return lambda count, words, _: Desk(count, words, kind_of_file=kind)
