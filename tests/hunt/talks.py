"""What a session sends and receives: its lines, when each was sent and answered, and its replies one by one."""
import itertools
import time

from program import LIMIT

from .channels import Broken
from .processes import first_reply

# Events of a run are numbered, so that it can be told which came first.
CLOCK = itertools.count(1)


class Line:
    """A line that was sent, and its reply once that is read."""

    def __init__(self, text):
        self.text = text
        self.sent = next(CLOCK)
        self.answered = None
        self.reply = None

    def asks(self):
        """Whether it has a reply."""
        return self.text.removesuffix(b"\r") != b""


def begins_command(begun):
    """Whether these bytes begin a command with an argument, whatever follows. So no request begins with them."""
    return begun[:1].islower() and begun.partition(b" ")[2][:1] not in (b"", b"/", b"*")


class Talk:
    """A session: its connection, the lines that it has sent, and the beginning of one that it hasn't ended."""

    def __init__(self, channel, opened=0):
        self.channel = channel
        # how many changes its server had opened, and has kept where it was killed
        self.first, self.last = opened, None
        self.lines = []
        self.begun = b""
        self.answered = 0
        self.is_open = True
        self.is_broken_off = False

    def send(self, given):
        """Sends these bytes, which may end amid a line."""
        *whole, self.begun = (self.begun + given).split(b"\n")
        self.lines += map(Line, whole)
        self.channel.send(given)

    def take_replies(self):
        """Reads the replies that have arrived."""
        asking = (line for line in self.lines[self.answered:] if line.asks())
        while reply := first_reply(self.channel.received):
            line = next(asking, None)
            if line is None:
                raise Broken(f"there is a reply to no line: {reply[:200]!r}")
            self.channel.received = self.channel.received[len(reply):]
            line.reply, line.answered = reply[:-1], next(CLOCK)
            self.answered = self.lines.index(line, self.answered) + 1

    def unanswered(self):
        """The lines that have no reply yet."""
        return [line for line in self.lines[self.answered:] if line.asks()]

    def look(self, seconds=0):
        """Reads what has arrived."""
        self.channel.pump(seconds)
        self.take_replies()

    def wait(self, holds):
        """Reads until this holds, or the connection is closed."""
        deadline = time.monotonic() + LIMIT
        while not holds() and not self.channel.is_closed:
            if time.monotonic() > deadline:
                raise Broken(f"no reply within {LIMIT} seconds, but for {self.channel.received[:200]!r}")
            self.look(1)

    def wait_for_replies(self):
        """Reads until each line has its reply."""
        self.take_replies()
        self.wait(lambda: not self.unanswered())

    def ask(self, text):
        """The reply to one more line, or nothing where the connection is closed."""
        self.send(text + b"\n")
        self.wait_for_replies()
        return self.lines[-1].reply

    def end(self):
        """Ends the input, and reads all replies."""
        if self.begun:
            self.lines.append(Line(self.begun))
            self.begun = b""
        self.channel.stop()
        self.wait(lambda: False)
        self.take_replies()
        if self.channel.received:
            raise Broken(f"the session ends with {self.channel.received[:200]!r}, which is no whole reply")
        self.is_open = False
        self.channel.close()

    def lose(self):
        """Reads what has arrived from a server that is gone."""
        self.is_open, self.is_broken_off = False, True
        self.wait(lambda: False)
        self.take_replies()
        self.channel.close()

    def break_off(self, is_reset):
        """Closes the connection or breaks it off, whatever was answered."""
        self.is_open, self.is_broken_off = False, True
        if is_reset and not self.lines and not begins_command(self.begun):
            # (a connection that is broken off while it may be a request is no session)
            self.send(b"\n")
        if self.begun and not is_reset:
            # (the end of the input ends a line, too)
            self.lines.append(Line(self.begun))
        self.channel.close(is_reset)
