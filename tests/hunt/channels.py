"""A server of the program and connections to it that never block, so that one thread can hold many of them."""
import contextlib
import os
import re
import select
import socket
import struct
import subprocess
import time
from pathlib import Path

from program import LIMIT, Ended
from servers import HERE, THREADS, free_port, page_of

PIECE = 65_536
# For how many seconds a server is waited for that starts its own threads.
START = 2
# (more than one segment of a connection on one machine, for which it would wait again and again)
ROOM = 150_000
# The state of a connection that is open, as the system lists it.
ESTABLISHED = "01"
MEASURES = {"threads": rb"Threads:\s+(\d+)", "kilobytes": rb"VmRSS:\s+(\d+)"}


class Broken(Exception):
    """A server isn't as it has to be; the argument tells how."""


class Channel:
    """A connection: what is handed to it waits until it can be sent, and what has arrived until it is wanted."""

    def __init__(self, port, is_narrow):
        self.connection = socket.socket()
        if is_narrow:
            self.connection.setsockopt(socket.SOL_SOCKET, socket.SO_RCVBUF, ROOM)
        self.connection.settimeout(LIMIT)
        self.connection.connect((HERE, port))
        self.connection.setsockopt(socket.IPPROTO_TCP, socket.TCP_NODELAY, 1)
        self.connection.setblocking(False)
        self.waiting = b""
        self.received = b""
        self.stops = False
        self.is_closed = False

    def send(self, given):
        """Sends these bytes, once there is room."""
        self.waiting += given
        self.send_on()

    def send_on(self):
        """Sends what there is room for."""
        with contextlib.suppress(BlockingIOError, ConnectionError):
            while self.waiting:
                self.waiting = self.waiting[self.connection.send(self.waiting[:PIECE]):]
            if self.stops:
                self.stops = False
                self.connection.shutdown(socket.SHUT_WR)

    def stop(self):
        """Ends the input, once all is sent."""
        self.stops = True
        self.send_on()

    def pump(self, seconds=0):
        """Sends and receives what can be, at first waiting so long at most until anything can."""
        if self.is_closed:
            return
        writing = [self.connection] if self.waiting or self.stops else []
        readable, writable, _ = select.select([self.connection], writing, [], seconds)
        if writable:
            self.send_on()
        if readable:
            try:
                piece = self.connection.recv(PIECE)
            except ConnectionError:
                piece = b""
            self.received += piece
            self.is_closed = not piece

    def close(self, is_reset=False):
        """Closes the connection, or breaks it off."""
        if is_reset:
            with contextlib.suppress(OSError):
                self.connection.setsockopt(socket.SOL_SOCKET, socket.SO_LINGER, struct.pack("ii", 1, 0))
        self.connection.close()
        self.is_closed = True


class Server:
    """`serve` under way."""

    def __init__(self, program, sessions, words, **how):
        self.port = free_port()
        self.program = program
        asked = [program, "serve", "--port", str(self.port), "--sessions", str(sessions), *words]
        files = {"stdin": subprocess.DEVNULL, "stdout": subprocess.PIPE, "stderr": subprocess.PIPE}
        self.process = subprocess.Popen(asked, start_new_session=True, **files, **how)
        self.is_listening = self.process.stdout.readline() == b"listening %d\n" % self.port
        # (its own threads start once it listens, if they can)
        has_begun = lambda it: it.get("threads", THREADS) >= THREADS
        self.before = self.settled(has_begun, START) if self.is_listening else {}

    def connect(self, is_narrow=False):
        """A connection to it."""
        try:
            return Channel(self.port, is_narrow)
        except OSError as error:
            raise Broken(f"no connection: {error}") from None

    def follow(self, every):
        """A follower of it that is under way, which asks so often, each so many milliseconds."""
        return Follower(self.port, [self.program, "follow", "--from", str(self.port), "--every", str(every)])

    def follow_until_now(self):
        """How a follower of it ended that writes what there is."""
        words = [self.program, "follow", "--from", str(self.port), "--until-now"]
        try:
            ran = subprocess.run(words, stdin=subprocess.DEVNULL, capture_output=True, timeout=LIMIT)
            return Ended(ran.returncode, ran.stdout, ran.stderr)
        except subprocess.TimeoutExpired:
            return Ended(None, b"", b"it doesn't end")

    def measured(self):
        """How many threads, open files and kilobytes of memory it has."""
        try:
            folder = Path(f"/proc/{self.process.pid}")
            status = (folder / "status").read_bytes()
            found = {name: int(re.search(pattern, status)[1]) for name, pattern in MEASURES.items()}
            return {**found, "files": len(os.listdir(folder / "fd"))}
        except (OSError, TypeError):
            return {}

    def settled(self, is_settled, seconds=LIMIT / 2):
        """What is measured once this holds of it, or after so many seconds whatever there is."""
        deadline = time.monotonic() + seconds
        while not is_settled(found := self.measured()) and time.monotonic() < deadline:
            time.sleep(0.01)
        return found

    def ended(self):
        """How it ended; output and error are what came after the lines of its start."""
        try:
            output, error = self.process.communicate(timeout=LIMIT)
            return Ended(self.process.returncode, output, error.removeprefix(page_of(self.port)))
        except subprocess.TimeoutExpired:
            self.kill()
            return Ended(None, b"", b"it doesn't end")

    def kill(self):
        """Kills it, if it still runs, and returns what it has told on standard error after the line of its start."""
        if self.process.poll() is None:
            self.process.kill()
        return self.process.communicate(timeout=LIMIT)[1].removeprefix(page_of(self.port))


class Follower:
    """`follow` under way, whose output is in a file in memory."""

    # how long one waits until it has written all, in seconds
    patience = LIMIT

    def __init__(self, port, words):
        self.port = port
        self.file = os.memfd_create("followed")
        files = {"stdin": subprocess.DEVNULL, "stdout": self.file, "stderr": subprocess.PIPE}
        self.process = subprocess.Popen(words, start_new_session=True, **files)

    def is_connected(self):
        """Whether its connection is open, which is a session of the server then."""
        with contextlib.suppress(OSError):
            files = Path(f"/proc/{self.process.pid}/fd")
            own = {os.readlink(file) for file in files.iterdir()}
            rows = [row.split() for row in Path("/proc/net/tcp").read_text().splitlines()[1:]]
            return any(row[3] == ESTABLISHED and f"socket:[{row[9]}]" in own for row in rows)
        return False

    def written(self):
        """What it has written so far."""
        return os.pread(self.file, os.fstat(self.file).st_size, 0)

    def ended(self):
        """How it ends once its server has."""
        try:
            _, error = self.process.communicate(timeout=LIMIT)
            return Ended(self.process.returncode, self.written(), error)
        except subprocess.TimeoutExpired:
            return Ended(None, self.written(), b"it doesn't end")

    def close(self):
        """Ends it, whatever it does."""
        if self.process.poll() is None:
            self.process.kill()
        self.process.communicate(timeout=LIMIT)
        if self.file is not None:
            os.close(self.file)
            self.file = None
