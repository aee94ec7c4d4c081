#!/usr/bin/env python3
"""Tells the resident memory and the threads of `./sheet serve` before the first session, after 10 short sessions, and
after COUNT of them, by 32 clients at a time. Each session sends LINE, reads the reply, and ends.

sessions.py [COUNT [LINE]]   10,000 sessions with `get A1` where it isn't given
"""
import concurrent.futures
import pathlib
import re
import socket
import subprocess
import sys
import time

CLIENTS = 32
program = pathlib.Path(__file__).resolve().parent.parent / "sheet"


def session(port, line):
    """A session of this line, which isn't refused."""
    with socket.create_connection(("127.0.0.1", port)) as connection:
        connection.sendall(f"{line}\n".encode())
        connection.shutdown(socket.SHUT_WR)
        with connection.makefile("rb") as replies:
            reply = replies.read()
    assert reply.endswith(b"\n") and not reply.startswith(b"err "), reply


def tell(server, count):
    """Tells what the server has after so many sessions, once those have ended."""
    time.sleep(1)
    status = pathlib.Path(f"/proc/{server.pid}/status").read_text(encoding="ascii")
    memory, threads = (int(re.search(rf"^{what}:\s+(\d+)", status, re.MULTILINE)[1]) for what in ("VmRSS", "Threads"))
    print(f"after {count} sessions: {memory * 1024 / 1e6:.1f} MB resident, threads: {threads}")


def main(count, line):
    """Measures so many sessions of this line."""
    with socket.create_server(("127.0.0.1", 0)) as listener:
        port = listener.getsockname()[1]
    words = [program, "serve", "--port", str(port)]
    with subprocess.Popen(words, stdout=subprocess.PIPE, stderr=subprocess.DEVNULL) as server:
        try:
            assert server.stdout.readline() == f"listening {port}\n".encode()
            tell(server, 0)
            with concurrent.futures.ThreadPoolExecutor(CLIENTS) as clients:
                for first, last in ((0, 10), (10, count)):
                    began = time.perf_counter()
                    list(clients.map(lambda _: session(port, line), range(first, last)))
                    took = time.perf_counter() - began
                    tell(server, last)
            print(f"{took:.1f} s for the last {count - 10}")
        finally:
            server.terminate()


if __name__ == "__main__":
    main(int(sys.argv[1]) if len(sys.argv) > 1 else 10_000, sys.argv[2] if len(sys.argv) > 2 else "get A1")
