"""What stands in for a server and its sync, for the hunt's own test: sessions on one sheet of the model."""
import types

from program import Ended

from .model import Sheet
from .processes import StandIn
from .session import Session


class Desk:
    """Sessions on one sheet: each line is answered as soon as it is sent."""

    def __init__(self, count, words, kind=Sheet, kind_of_file=None, kind_of_follower=None):
        self.stand_in = StandIn(kind, *words, kind_of_file=kind_of_file)
        self.session = self.stand_in.session
        self.kind_of_follower = kind_of_follower or DeskFollower
        self.count = count
        self.channels, self.followers = [], []
        self.before = self.measured()

    def connect(self, is_narrow=False):
        """A session."""
        self.channels.append(DeskChannel(self))
        return self.channels[-1]

    def answer(self, channel, line):
        """Answers a line of a session, once what it does is kept, and has followers ask."""
        reply = self.reply(channel, line)
        self.stand_in.keep()
        if reply is not None:
            channel.received += reply + b"\n"
        for follower in self.followers:
            follower.ask()

    def follow(self, every):
        """A follower."""
        self.followers.append(self.kind_of_follower(self, every))
        return self.followers[-1]

    def follow_until_now(self):
        """How a follower ends that writes what there is."""
        follower = self.kind_of_follower(self, 1)
        return Ended(0, follower.written())

    def reply(self, channel, line):
        """The reply to a line of a session, or nothing."""
        return self.session.reply(line)

    def measured(self):
        """What it takes."""
        count = sum(not it.is_closed for it in self.channels)
        return {"threads": 1 + count, "files": 4 + count, "kilobytes": 5_000}

    def settled(self, is_settled):
        """The same."""
        return self.measured()

    def ended(self):
        """How it ends."""
        return self.stand_in.end()._replace(output=b"closed %d\n" % len(self.session.sheet.history))

    def kill(self):
        """Nothing is left of it, except what it wrote on standard error."""
        return self.stand_in.file.told() if self.stand_in.file else b""


class DeskFollower:
    """A follower of such a sheet."""

    patience, port = 0, 0

    def __init__(self, desk, every):
        self.desk, self.every = desk, every
        self.place = self.lines = 0
        self.output = b""

    def is_connected(self):
        """Whether its connection is open."""
        return True

    def ask(self):
        """Asks at one line of so many, as a follower does that waits."""
        self.lines += 1
        if self.lines % self.every == 0:
            self.take()

    def take(self):
        """Writes the next group, and returns whether there was one."""
        reply = self.desk.session.reply(b"pull %d 16" % self.place)
        if not reply.startswith(b"delta "):
            return False
        _, place, text = reply.split(b" ", 2)
        self.place = int(place)
        self.write(b"push %s\n" % text)
        return True

    def write(self, line):
        """Writes a line."""
        self.output += line

    def written(self):
        """What it has written at last."""
        while self.take():
            pass
        return self.output

    def ended(self):
        """How it ends once its server is gone."""
        return Ended(0, self.output)

    def close(self):
        """Nothing is left of it."""


class DeskChannel:
    """A connection to such sessions."""

    def __init__(self, desk):
        self.desk = desk
        self.begun = b""
        self.received = b""
        self.is_closed = False

    def send(self, given):
        """Answers all lines that are whole."""
        *whole, self.begun = (self.begun + given).split(b"\n")
        for line in whole:
            self.desk.answer(self, line)

    def stop(self):
        """Ends the input."""
        if self.begun:
            self.desk.answer(self, self.begun)
        self.is_closed = True

    def pump(self, seconds=0):
        """There is nothing on its way."""
        self.is_closed = self.is_closed or seconds > 0

    def close(self, is_reset=False):
        """Closes it."""
        self.is_closed = True


def sync(first, second):
    """How a sync from one of them to another ends."""
    count = place = 0
    while not (reply := first.session.reply(b"pull %d 16" % place)).startswith(b"end "):
        _, place, text = reply.split(b" ", 2)
        place = int(place)
        second.session.reply(b"push " + text)
        count += 1
    return Ended(0, b"synced %d\n" % count)


def sync_that_loses(first, second):
    """A sync that doesn't hand over its last line."""
    count = place = 0
    while not (reply := first.session.reply(b"pull %d 16" % place)).startswith(b"end "):
        _, place, text = reply.split(b" ", 2)
        place = int(place)
        count += 1
        if place < len(first.session.sheet.history):
            second.session.reply(b"push " + text)
    return Ended(0, b"synced %d\n" % count)


def at_version(desk, version):
    """A sheet as it was at a version."""
    sheet = Sheet(desk.session.sheet.replica)
    for delta in desk.session.sheet.history[:version]:
        sheet.append(delta)
    return types.SimpleNamespace(reply=session_of(sheet).reply)


def session_of(sheet):
    """A session on a sheet."""
    session = Session()
    session.sheet = sheet
    return session
