"""The program under way, asked line by line over pipes, and a sheet of the model that stands in for it."""
import contextlib
import os
import select
import signal
import subprocess
import time
from pathlib import Path

from program import LIMIT, Ended

from . import kept
from .deltas import delta_line
from .session import Session

PIECE = 65_536


class Gone(Exception):
    """The program doesn't reply any more; the argument tells how that came."""


def first_reply(received, place=0):
    """The first whole reply from this place on, with its line feeds, or nothing; a table tells its number of lines."""
    end = received.find(b"\n", place) + 1
    word, _, count = received[place:max(end - 1, place)].partition(b" ")
    for _ in range(int(count) if word in (b"rows", b"entries") and count.isdigit() else 0):
        end = received.find(b"\n", end) + 1
        if not end:
            return b""
    return received[place:end]


class Process:
    """A session of `run`."""

    # How many seconds a reply may take.
    patience = LIMIT

    def __init__(self, program, *words):
        files = {"stdin": subprocess.PIPE, "stdout": subprocess.PIPE, "stderr": subprocess.PIPE}
        self.session = subprocess.Popen([program, "run", *words], bufsize=0, start_new_session=True, **files)

    def ask(self, line):
        """The reply to a line, without the line feed at its end."""
        try:
            self.session.stdin.write(line + b"\n")
        except BrokenPipeError:
            raise Gone(f"it ended with {self.end()}") from None
        reply, deadline = b"", time.monotonic() + self.patience
        while not first_reply(reply):
            ready, _, _ = select.select([self.session.stdout], [], [], max(0, deadline - time.monotonic()))
            piece = os.read(self.session.stdout.fileno(), PIECE) if ready else b""
            if not piece:
                why = f"it ended with {self.end()}" if ready else f"no reply within {self.patience} seconds"
                raise Gone(f"{why}, after {reply[-200:]!r}")
            reply += piece
        return reply[:-1]

    def tear(self, line, pause):
        """Sends a line, and kills it after a pause of so many millionths of a second, whatever it has done by then."""
        with contextlib.suppress(BrokenPipeError):
            self.session.stdin.write(line + b"\n")
        time.sleep(pause / 1e6)
        self.kill()

    def end(self):
        """Ends its input, and returns how it ended."""
        output, error = self.session.communicate(timeout=LIMIT)
        return Ended(self.session.returncode, output, error)

    def kill(self):
        """Kills it, at once."""
        with contextlib.suppress(ProcessLookupError):
            os.killpg(self.session.pid, signal.SIGKILL)
        self.session.communicate(timeout=LIMIT)


class StandIn:
    """A session of the model, on a sheet of some kind, that is asked as the program is; with `--keep` it keeps itself
    in a file of some kind."""

    def __init__(self, kind, *words, kind_of_file=None):
        replica = int(words[words.index("--replica") + 1]) if "--replica" in words else 1
        self.session = Session(replica, kind)
        self.file = None
        if "--keep" in words:
            self.file = (kind_of_file or KeptFile)(words[words.index("--keep") + 1], self.session)

    def ask(self, line):
        """The reply to a line."""
        reply = self.session.reply(line)
        self.keep()
        return reply

    def keep(self):
        """Keeps what is new."""
        if self.file:
            self.file.keep()

    def tear(self, line, pause):
        """Takes in a line, and keeps all, nothing or a part of what it does, by its length."""
        self.session.reply(line)
        self.file.tear(len(line) % 3)

    def end(self):
        """How it ends."""
        if self.file:
            self.file.close()
        return Ended(0, b"", self.file.told()) if self.file else Ended(0)

    def kill(self):
        """Nothing is left of it."""


class KeptFile:
    """The file of a session that is kept, which is read first."""

    def __init__(self, path, session):
        self.path, self.session = Path(path), session
        content = self.path.read_bytes() if self.path.exists() else b""
        self.path.write_bytes(self.start_of(content) or kept.text_of(session.sheet.replica, []))
        for line in self.path.read_bytes().split(b"\n"):
            session.reply(line)
        self.opened = self.noted = len(session.sheet.history)
        session.is_elsewhere = False

    def told(self):
        """What standard error has."""
        return kept.told(self.path, self.opened, self.session.sheet.replica if self.session.is_elsewhere else None)

    def start_of(self, content):
        """What a start leaves of a file."""
        return kept.whole_lines(content)

    def keep(self):
        """Notes what is new."""
        deltas, self.noted = self.session.sheet.history[self.noted:], len(self.session.sheet.history)
        self.note(b"".join(b"push %s\n" % delta_line(delta) for delta in deltas))

    def note(self, lines):
        """Ends the file with these lines."""
        with open(self.path, "ab") as file:
            file.write(lines)

    def close(self):
        """Nothing is left to do."""

    def tear(self, part):
        """Keeps all, nothing or a part of what is new, and breaks off."""
        before = self.path.read_bytes()
        self.keep()
        after = self.path.read_bytes()
        self.path.write_bytes((after, before, after[:(len(before) + len(after)) // 2])[part])
