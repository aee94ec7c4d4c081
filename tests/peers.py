"""Peers of `./sheet` that wait for a reply before they send the next line."""
import contextlib
import os
import select
import termios
import time

from program import LIMIT, Ended, started

# What a user types at a terminal to end the input.
END_OF_INPUT = b"\x04"
# The most bytes that are received at once. A pipe holds 65,536, so of a reply of 100 KB whose first line was received
# some is still to be written.
PIECE = 4_096


class Peer:
    """Sends lines to a session, and reads its replies one by one."""

    def __init__(self, session, sends, receives):
        self.session = session
        self.sends = sends
        self.receives = receives
        self.received = b""

    def send(self, given):
        """Sends these bytes."""
        os.write(self.sends, given)

    def reply(self):
        """The next line of the replies, which has to come while the input is still open."""
        deadline = time.monotonic() + LIMIT
        while b"\n" not in self.received:
            ready, _, _ = select.select([self.receives], [], [], max(0, deadline - time.monotonic()))
            if not ready:
                raise TimeoutError(f"no reply within {LIMIT} seconds, only {self.received!r}")
            piece = os.read(self.receives, PIECE)
            if not piece:
                raise EOFError(f"the replies ended, and the last is {self.received!r}")
            self.received += piece
        line, _, self.received = self.received.partition(b"\n")
        return line.decode()

    def ask(self, line):
        """Sends a line, and then waits for the reply to it."""
        self.send(f"{line}\n".encode())
        return self.reply()

    def stop_sending(self):
        """Ends the input."""
        os.close(self.sends)
        self.sends = None

    def stop_receiving(self):
        """Closes the side on which the replies come."""
        os.close(self.receives)
        self.receives = None

    def ended(self):
        """How the session ended; the output is what was received and not yet read as a reply."""
        _, error = self.session.communicate(timeout=LIMIT)
        return Ended(self.session.returncode, self.received, error)


    def close(self):
        """Closes what of its two sides is still open."""
        for file in {self.sends, self.receives} - {None}:
            os.close(file)


@contextlib.contextmanager
def on_pipes(*words):
    """A peer that holds the other ends of two pipes."""
    given, sends = os.pipe()
    receives, replies = os.pipe()
    with started(*words, stdin=given, stdout=replies) as session:
        os.close(given)
        os.close(replies)
        with contextlib.closing(Peer(session, sends, receives)) as peer:
            yield peer


@contextlib.contextmanager
def at_terminal(*words):
    """A peer at a pseudo-terminal, which gives lines on as they are typed and neither echoes nor changes them."""
    side, terminal = os.openpty()
    settings = termios.tcgetattr(terminal)
    settings[1] &= ~termios.OPOST
    settings[3] &= ~termios.ECHO
    termios.tcsetattr(terminal, termios.TCSANOW, settings)
    try:
        with started(*words, stdin=terminal, stdout=terminal) as session:
            with contextlib.closing(Peer(session, side, side)) as peer:
                yield peer
    finally:
        os.close(terminal)
