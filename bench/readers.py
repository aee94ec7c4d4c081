#!/usr/bin/env python3
"""Tells how long an edit waits for its reply while other sessions of a server ask for the whole sheet again and again.

readers.py [READERS [ROWS [SECONDS]]]   15 readers of 1,024 rows by 104 columns of numbers for ten seconds, where
                                        nothing else is said

The session that edits does so each 20 ms. It tells the median and the 99th of a hundred, without readers and with them.
"""
import multiprocessing
import pathlib
import statistics
import socket
import sys
import threading
import time

TOP = pathlib.Path(__file__).resolve().parent.parent
sys.path.insert(0, str(TOP / "tests"))
from servers import HERE, serving
from workloads import COLUMNS, name

PROCESSES, PAUSE = 3, 0.02


def connected(port):
    """A connection to this port."""
    connection = socket.create_connection((HERE, port))
    connection.setsockopt(socket.IPPROTO_TCP, socket.TCP_NODELAY, 1)
    return connection


def fill(port, rows):
    """Fills so many rows with numbers of four digits, which edits leave as long."""
    text = "".join(f"set {name(column, row)} {1000 + row * column % 9000}\n"
                   for row in range(rows) for column in range(COLUMNS))
    with connected(port) as connection, connection.makefile("rb") as replies:
        writer = threading.Thread(target=lambda: connection.sendall(text.encode()))
        writer.start()
        assert all(replies.readline().startswith(b"ok ") for _ in range(rows * COLUMNS))
        writer.join()
    return len(f"rows {rows}\n") + rows * COLUMNS * 5


def read(port, rows, size, end, counts):
    """Asks for so many rows, whose reply has this size, until the time of this end."""
    line, room = f"rows A1:{name(COLUMNS - 1, rows - 1)}\n".encode(), bytearray(size)
    with connected(port) as connection:
        count = 0
        while time.monotonic() < end:
            connection.sendall(line)
            left = size
            while left:
                left -= connection.recv_into(room, left)
            count += 1
        counts.append(count)


def readers(number, *where, told):
    """So many readers as threads of this process. Tells how many replies they had."""
    counts = []
    threads = [threading.Thread(target=read, args=(*where, counts)) for _ in range(number)]
    for thread in threads:
        thread.start()
    for thread in threads:
        thread.join()
    told.put(sum(counts))


def waits(port, end):
    """The seconds that each edit waits until this end."""
    found = []
    with connected(port) as connection, connection.makefile("rb") as replies:
        while time.monotonic() < end:
            began = time.perf_counter()
            connection.sendall(b"set A1 %d\n" % (1000 + len(found) % 9000))
            assert replies.readline().startswith(b"ok ")
            found.append(time.perf_counter() - began)
            time.sleep(PAUSE)
    return found


def told(words, found):
    """Prints the median and the 99th of a hundred of these seconds."""
    print(f"{words}: median {statistics.median(found) * 1e3:.1f} ms, 99 of 100 within "
          f"{sorted(found)[len(found) * 99 // 100] * 1e3:.1f} ms, {len(found)} edits", flush=True)


def main(number=15, rows=1024, lasts=10):
    """Measures this."""
    with serving(None) as server:
        size = fill(server.port, rows)
        told("no readers", waits(server.port, time.monotonic() + lasts / 2))
        end, replies = time.monotonic() + lasts, multiprocessing.Queue()
        shares = [number // PROCESSES + (part < number % PROCESSES) for part in range(PROCESSES)]
        processes = [multiprocessing.Process(target=readers, args=(share, server.port, rows, size, end),
                                             kwargs={"told": replies}) for share in shares]
        for process in processes:
            process.start()
        time.sleep(0.5)
        found = waits(server.port, end - 0.5)
        count = sum(replies.get() for _ in processes)
        for process in processes:
            process.join()
        told(f"{number} readers of {rows} rows, {count / lasts:.0f} replies a second", found)


if __name__ == "__main__":
    main(*map(int, sys.argv[1:]))
