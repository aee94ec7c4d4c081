#!/usr/bin/env python3
"""Tells how many instructions a line takes at a session of `serve`, beside one at `run`: lines of the workload `edits`.

desk.py [-] [SIZE [SEATS]]   SIZE lines for a server with SEATS seats, 200,000 and 16 where they aren't given

They are sent at once; with `-` each waits for the reply to the one before, and SIZE is 20,000 where it isn't given.
They are counted by callgrind, as what one line takes more: the difference of SIZE lines and half as many, to the end of
the server. It needs valgrind.
"""
import pathlib
import re
import socket
import subprocess
import sys
import tempfile
import threading

from workloads import lines

TOP = pathlib.Path(__file__).resolve().parent.parent
program = subprocess.run([TOP / "build"], stdin=subprocess.DEVNULL, stdout=subprocess.PIPE, text=True).stdout.strip()
COUNTING = ["valgrind", "--tool=callgrind", "--callgrind-out-file=/dev/null"]


def collected(told):
    """The instructions of a run, by what callgrind told."""
    return int(re.search(r"Collected : (\d+)", told)[1])


def at_run(text, waits):
    """The instructions of a `run` over these lines."""
    with tempfile.TemporaryFile() as told:
        with subprocess.Popen([*COUNTING, program, "run"], stdin=subprocess.PIPE, stdout=subprocess.PIPE,
                              stderr=told) as ran:
            send(ran.stdin, ran.stdout, ran.stdin.close, text, waits)
        told.seek(0)
        return collected(told.read().decode())


def send(to, replies, end, text, waits):
    """Sends the lines, at once or each after the reply to the one before, and reads all replies."""
    def put(lines_of_text):
        to.write(lines_of_text)
        to.flush()

    def put_all():
        put(text)
        end()

    if waits:
        for line in text.splitlines(keepends=True):
            put(line)
            assert replies.readline().startswith(b"ok "), line
        end()
    else:
        writer = threading.Thread(target=put_all)
        writer.start()
        assert all(reply.startswith(b"ok ") for reply in replies)
        writer.join()


def session(port, text, waits):
    """A session of a server with these lines."""
    with socket.create_connection(("127.0.0.1", port)) as connection:
        connection.setsockopt(socket.IPPROTO_TCP, socket.TCP_NODELAY, 1)
        with connection.makefile("rb") as replies, connection.makefile("wb") as to:
            send(to, replies, lambda: connection.shutdown(socket.SHUT_WR), text, waits)


def at_serve(text, seats, waits):
    """The instructions of a server with one session of these lines, and then an empty one for each further seat."""
    with socket.create_server(("127.0.0.1", 0)) as listener:
        port = listener.getsockname()[1]
    with tempfile.TemporaryFile() as told:
        # (a server for fewer sessions has no more seats than these)
        words = [*COUNTING, program, "serve", "--port", str(port), "--sessions", str(seats), "--seats", str(seats)]
        with subprocess.Popen(words, stdout=subprocess.PIPE, stderr=told) as server:
            assert server.stdout.readline() == f"listening {port}\n".encode()
            session(port, text, waits)
            for _ in range(seats - 1):
                session(port, b"", False)
            assert server.stdout.readline().startswith(b"closed ")
        told.seek(0)
        return collected(told.read().decode())


def main(size, seats, waits):
    """Tells the figures of so many lines."""
    parts = ["".join(line + "\n" for line in lines("edits", count)).encode() for count in (size // 2, size)]
    run = [at_run(text, waits) for text in parts]
    served = [at_serve(text, seats, waits) for text in parts]
    both = [(whole - half) / (size - size // 2) for half, whole in (run, served)]
    times = both[1] / both[0]
    print(f"a line takes {both[1]:,.0f} at a server of {seats} seats and {both[0]:,.0f} at run: {times:.2f} times")


if __name__ == "__main__":
    WAITS = sys.argv[1:2] == ["-"]
    WORDS = [int(word) for word in sys.argv[2 if WAITS else 1:]]
    main(WORDS[0] if WORDS else 20_000 if WAITS else 200_000, WORDS[1] if len(WORDS) > 1 else 16, WAITS)
