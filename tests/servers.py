"""Servers, and clients that speak to them over TCP."""
import contextlib
import os
import select
import socket
import struct
import subprocess
import threading
import time

import peers
from program import LIMIT, Ended, lines, run, started

HERE = "127.0.0.1"
# The ports for servers: so many blocks of so many. They are below those that connections are given, and one could
# take a port between the look at it and its use.
FIRST_PORT, BLOCK, BLOCKS = 10_000, 100, 180
# The pause between two tries, in seconds.
PAUSE = 0.01
# The threads and files of a server that nobody is at. Two threads beside the main one are for those who wait. Besides
# the standard streams and the port, two files are what the main thread sleeps by, and three what the others do.
THREADS, FILES = 3, 9


class Ports:
    """Ports in turn, from blocks that no other process takes any of that tests at the same time."""

    def __init__(self):
        self.lock = threading.Lock()
        self.turn = os.getpid()
        self.ports, self.held = [], []

    def next(self):
        """The next port. Each comes once, until all have."""
        with self.lock:
            while not self.ports:
                self.turn += 1
                self.take(self.turn % BLOCKS)
            return self.ports.pop(0)

    def take(self, block):
        """Takes a block, unless another process has it; the one before it is kept as long, since servers that are just
        being started may have its ports."""
        held = socket.socket(socket.AF_UNIX)
        try:
            # (a name without a file, which is given up with the socket at the latest when the process ends)
            held.bind(f"\0sheet-test-ports-{block}")
        except OSError:
            held.close()
            return
        self.held.append(held)
        while len(self.held) > 2:
            self.held.pop(0).close()
        begin = FIRST_PORT + block * BLOCK
        self.ports = [*range(begin, begin + BLOCK)]


PORTS = Ports()


def free_port():
    """A port on which nothing listens."""
    while True:
        port = PORTS.next()
        with contextlib.suppress(OSError), socket.socket() as look:
            # it doesn't listen, so it hinders nobody where a program that is just being started still holds it
            look.setsockopt(socket.SOL_SOCKET, socket.SO_REUSEADDR, 1)
            look.bind((HERE, port))
            return port


def comes_to(holds, seconds=LIMIT):
    """Waits until this holds, for so many seconds at most, and returns whether it came to."""
    deadline = time.monotonic() + seconds
    while not holds():
        if time.monotonic() > deadline:
            return False
        time.sleep(PAUSE)
    return True


class Client(peers.Peer):
    """Sends lines over a connection, and reads its replies one by one."""

    def __init__(self, port, room=None):
        """Connects to a port of this machine; the system keeps some `room` bytes of replies that aren't read yet."""
        with contextlib.ExitStack() as undo:
            self.connection = undo.enter_context(socket.socket())
            if room is not None:
                self.connection.setsockopt(socket.SOL_SOCKET, socket.SO_RCVBUF, room)
            self.connection.settimeout(LIMIT)
            self.connection.connect((HERE, port))
            undo.pop_all()
        self.connection.setsockopt(socket.IPPROTO_TCP, socket.TCP_NODELAY, 1)
        super().__init__(None, self.connection.fileno(), self.connection.fileno())

    def send_to_the_brim(self, block, most):
        """Sends this block again and again, at most so often, until nothing more is taken for a second.

        Returns whether that came.
        """
        self.connection.settimeout(1)
        try:
            for _ in range(most):
                self.connection.sendall(block)
        except TimeoutError:
            return True
        finally:
            self.connection.settimeout(LIMIT)
        return False

    def is_answered_within(self, seconds):
        """Whether some reply comes in this time."""
        return bool(self.received or select.select([self.connection], [], [], seconds)[0])

    def wait_for(self, line, reply):
        """Asks by this line until it has this reply."""
        deadline = time.monotonic() + LIMIT
        found = self.ask(line)
        while found != reply:
            if time.monotonic() > deadline:
                raise TimeoutError(f"within {LIMIT} seconds the reply to {line!r} is {found!r}")
            time.sleep(PAUSE)
            found = self.ask(line)

    def send(self, given):
        """Sends these bytes."""
        self.connection.sendall(given)

    def stop_sending(self):
        """Ends the input of the session. That the connection was reset meanwhile, the next read tells."""
        with contextlib.suppress(OSError):
            self.connection.shutdown(socket.SHUT_WR)

    def rest(self):
        """All replies from here on, to the end of the session."""
        pieces = [self.received]
        while piece := self.connection.recv(65_536):
            pieces.append(piece)
        self.received = b""
        return b"".join(pieces)

    def told(self):
        """The same, where the other side may close though it hasn't read all that was sent, which breaks off what comes
        after what it has told."""
        pieces = []
        with contextlib.suppress(ConnectionError):
            while piece := self.connection.recv(65_536):
                pieces.append(piece)
        return b"".join(pieces)

    def leave(self):
        """Ends the session well, and returns the replies that weren't read yet."""
        self.stop_sending()
        found = self.rest()
        self.close()
        return found

    def reset(self):
        """Breaks the connection off, as a machine does that loses power."""
        self.connection.setsockopt(socket.SOL_SOCKET, socket.SO_LINGER, struct.pack("ii", 1, 0))
        self.close()

    def close(self):
        """Closes the connection."""
        self.connection.close()


def url_of(port):
    """The address of the page of a server on this port."""
    return f"http://{HERE}:{port}/"


def page_of(port):
    """What a server on this port says on standard error once it listens."""
    return lines(f"page {url_of(port)}")


def first_line(file):
    """The first line of a pipe; no byte after it is read."""
    line = b""
    while not line.endswith(b"\n") and (byte := os.read(file.fileno(), 1)):
        line += byte
    return line


class Server:
    """`./sheet serve` under way, which listens on its port."""

    def __init__(self, session, port):
        self.session = session
        self.port = port
        self.url = url_of(port)
        self.clients = []

    def client(self, **how):
        """A connection to it, which is closed after the server's block at the latest."""
        client = Client(self.port, **how)
        self.clients.append(client)
        return client

    def is_running(self):
        """Whether it hasn't ended."""
        return self.session.poll() is None

    def memory(self):
        """How many bytes it holds in memory."""
        return self.status("VmRSS:")

    def room(self):
        """How many bytes it has places for."""
        return self.status("VmSize:")

    def status(self, name):
        """A number of bytes that the system has of it by this name."""
        with open(f"/proc/{self.session.pid}/status") as status:
            return next(int(row.split()[1]) for row in status if row.startswith(name)) * 1024

    def ended(self):
        """How it ended, within some time; output and error are what came after the first line of each."""
        output, error = self.session.communicate(timeout=LIMIT)
        return Ended(self.session.returncode, output, error)


@contextlib.contextmanager
def serving(sessions, *words, port=None, **files):
    """A server for so many sessions, or without an end, with these further words, once it listens."""
    port = port or free_port()
    asked = ["serve", "--port", str(port), *(["--sessions", str(sessions)] if sessions else []), *words]
    with started(*asked, stdin=subprocess.DEVNULL, stdout=subprocess.PIPE, **files) as session:
        server = Server(session, port)
        try:
            first = [first_line(file) for file in (session.stdout, session.stderr)]
            if first != [lines(f"listening {port}"), page_of(port)]:
                raise AssertionError(f"the first lines are {first!r}, and then {server.ended()}")
            yield server
        finally:
            for client in server.clients:
                client.close()


def sync(first, second):
    """How a sync from one server to another ended."""
    return run("sync", "--from", str(first.port), "--to", str(second.port))
