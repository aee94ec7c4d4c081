"""A WebSocket from the client's side, and the heads of requests, over the standard library alone."""
import base64
import hashlib
import os
import socket
import struct

from program import LIMIT

HERE = "127.0.0.1"
TEXT, BINARY, CLOSE, PING, PONG = 1, 2, 8, 9, 10
ACCEPTED_BY = b"258EAFA5-E914-47DA-95CA-C5AB0DC85B11"


class Ended(Exception):
    """The connection ended before what was waited for."""


def connection_to(port, wait=LIMIT, room=None):
    """A connection to a port of this machine, at which nothing waits for longer than so many seconds, perhaps with room
    for so many bytes that are received alone."""
    connection = socket.socket()
    try:
        connection.settimeout(wait)
        if room is not None:
            connection.setsockopt(socket.SOL_SOCKET, socket.SO_RCVBUF, room)
        connection.connect((HERE, port))
        connection.setsockopt(socket.IPPROTO_TCP, socket.TCP_NODELAY, 1)
    except BaseException:
        connection.close()
        raise
    return connection


def request(port, method="GET", path="/", host=None, fields=(), end="\r\n"):
    """The bytes of a request's head: with the port's own host, unless another is given, and these further fields."""
    lines = [f"{method} {path} HTTP/1.1", f"Host: {host or f'{HERE}:{port}'}", *fields]
    return ("\r\n".join(lines) + "\r\n" + end).encode()


def upgrade(port, host=None, origin=None, path="/live", key="dGhlIHNhbXBsZSBub25jZQ==", method="GET"):
    """The head that asks for a WebSocket, from the page's own origin unless another is given."""
    fields = ["Connection: Upgrade", "Upgrade: websocket", "Sec-WebSocket-Version: 13", f"Sec-WebSocket-Key: {key}"]
    if origin != "":
        fields.append(f"Origin: {origin or f'http://{HERE}:{port}'}")
    return request(port, method, path, host, fields)


def read_all(connection):
    """All bytes up to the end of a connection."""
    pieces = []
    while piece := connection.recv(65536):
        pieces.append(piece)
    return b"".join(pieces)


def answer(port, head):
    """What a head is answered by: the status, the lines of the head, and the body."""
    with connection_to(port) as connection:
        connection.sendall(head)
        first, _, body = read_all(connection).partition(b"\r\n\r\n")
        lines = first.decode("latin-1").split("\r\n")
        return int(lines[0].split(" ")[1]), lines[1:], body


def frame(opcode, payload, is_masked=True, first=0x80):
    """A frame with these bytes."""
    size = len(payload)
    mask_bit = 0x80 if is_masked else 0
    if size < 126:
        head = bytes([first | opcode, mask_bit | size])
    elif size < 65536:
        head = bytes([first | opcode, mask_bit | 126]) + struct.pack(">H", size)
    else:
        head = bytes([first | opcode, mask_bit | 127]) + struct.pack(">Q", size)
    if not is_masked:
        return head + payload
    mask = os.urandom(4)
    repeated = (mask * (size // 4 + 1))[:size]
    masked = (int.from_bytes(payload, "big") ^ int.from_bytes(repeated, "big")).to_bytes(size, "big")
    return head + mask + masked


def replies_in(text):
    """The replies in a message of a server: the first line of `rows` and `entries` tells how many follow."""
    rest, found = text.split("\n"), []
    if rest.pop() or not rest:
        raise AssertionError(f"a message without a line feed at its end: {text[-100:]!r}")
    while rest:
        word, _, count = rest[0].partition(" ")
        size = 1 + (int(count) if word in ("rows", "entries") else 0)
        if len(rest) < size:
            raise AssertionError(f"a reply that isn't whole: {rest[:3]!r}")
        found.append("".join(f"{line}\n" for line in rest[:size]))
        del rest[:size]
    return found


class WebSocket:
    """A WebSocket that is open."""

    def __init__(self, port, path="/live", head=None, wait=LIMIT, room=None):
        """Opens it by a head, which is that of the page's own, unless another is given. Refused: `Ended`."""
        self.connection = connection_to(port, wait, room)
        self.bytes, self.replies = b"", []
        try:
            self.connection.sendall(head or upgrade(port, path=path))
            while b"\r\n\r\n" not in self.bytes:
                self.take_more()
        except BaseException:
            self.connection.close()
            raise
        self.head, _, self.bytes = self.bytes.partition(b"\r\n\r\n")
        if not self.head.startswith(b"HTTP/1.1 101 "):
            self.connection.close()
            raise Ended(self.head.split(b"\r\n")[0].decode())

    def __enter__(self):
        return self

    def __exit__(self, *what):
        self.connection.close()

    def take_more(self):
        """Waits for further bytes."""
        piece = self.connection.recv(65536)
        if not piece:
            raise Ended("the connection ended")
        self.bytes += piece

    def take(self, count):
        """The next so many bytes."""
        while len(self.bytes) < count:
            self.take_more()
        taken, self.bytes = self.bytes[:count], self.bytes[count:]
        return taken

    def send(self, text):
        """Sends a text as one message."""
        self.connection.sendall(frame(TEXT, text.encode()))

    def receive_frame(self):
        """The next frame: what it is, whether its message goes on, and its bytes."""
        first, second = self.take(2)
        size = second & 0x7F
        if size == 126:
            size = struct.unpack(">H", self.take(2))[0]
        elif size == 127:
            size = struct.unpack(">Q", self.take(8))[0]
        return first & 0x0F, not first & 0x80, self.take(size)

    def receive(self):
        """The next message of text."""
        pieces, goes_on = [], True
        while goes_on:
            opcode, goes_on, payload = self.receive_frame()
            if opcode == CLOSE:
                raise Ended(payload)
            if opcode in (PING, PONG):
                goes_on = True
                continue
            pieces.append(payload)
        return b"".join(pieces).decode()

    def reply(self):
        """The next reply of a server, with its line feeds. A message has one or several, each of them whole."""
        if not self.replies:
            self.replies = replies_in(self.receive())
        return self.replies.pop(0)

    def ask(self, text):
        """Sends a text, and returns the reply to it."""
        self.send(text)
        return self.reply()

    def closing(self):
        """The code and the reason by which the other side closes, or no code where the connection just ends."""
        try:
            while True:
                opcode, _, payload = self.receive_frame()
                if opcode == CLOSE:
                    return struct.unpack(">H", payload[:2])[0] if len(payload) >= 2 else None, payload[2:].decode()
        except (Ended, OSError):
            return None, ""


def accept_of(key):
    """The value of `Sec-WebSocket-Accept` for a key."""
    return base64.b64encode(hashlib.sha1(key.encode() + ACCEPTED_BY).digest()).decode()
