"""A program that is refused memory: it is started with the library of `refuse.c`, which counts its requests."""
import contextlib
import os
import subprocess
import sys
from concurrent.futures import ThreadPoolExecutor
from typing import NamedTuple

import preloaded
from preloaded import PROGRAM
from program import LIMIT, Ended, lines, started
from servers import Client, free_port, page_of

# More requests than any program has.
ALL = 2**64 - 1
# More requests than a server makes until its first session has answered some lines.
BEFORE = 10**9
# How many programs run side by side.
AT_ONCE = 4


class Short(NamedTuple):
    """How a program ended, and how many requests for memory it made, those that were refused too."""

    ended: Ended
    requests: int


def build(folder):
    """The library, built in this folder."""
    return preloaded.build("refuse.c", folder / "refuse.so")


class ShortServer(NamedTuple):
    """What each session replied, how the server of them ended, and how many requests for memory it made."""

    replies: list
    ended: Ended
    requests: int


@contextlib.contextmanager
def refusing(library, first, last):
    """How a program is started that is refused the requests from the first to the last, and the file that counts."""
    with open(os.memfd_create("requests"), "r+b") as count:
        count.truncate(8)
        refused = {"REFUSE_FIRST": str(first), "REFUSE_LAST": str(last), "REFUSE_COUNT": str(count.fileno())}
        yield {"env": preloaded.before(library, **refused), "pass_fds": [count.fileno()]}, count


def requests_in(count):
    """How many requests this file has counted."""
    return int.from_bytes(count.read(8), sys.byteorder)


def run_short(library, words, given, first, last):
    """Runs the program with these words on a file to its end, and refuses the requests from the first to the last."""
    with open(given, "rb") as stdin, refusing(library, first, last) as (how, count):
        ran = subprocess.run([PROGRAM, *words], stdin=stdin, capture_output=True, timeout=LIMIT, **how)
        return Short(Ended(ran.returncode, ran.stdout, ran.stderr), requests_in(count))


def talk(port, given):
    """What a session replies to these bytes; nothing where its connection is refused, or closed before it was read."""
    with contextlib.suppress(ConnectionError), contextlib.closing(Client(port)) as client:
        client.send(given)
        return client.leave()
    return b""


def serve_short(library, scripts, first, last, *further):
    """Has a server answer each of these bytes in a session of its own, one after another, and refuses the requests from
    the first to the last. Output and error are what comes after the lines of its start; it may have further words."""
    port = free_port()
    words = ["serve", "--port", str(port), "--sessions", str(len(scripts)), *further]
    with refusing(library, first, last) as (how, count):
        files = {"stdin": subprocess.DEVNULL, "stdout": subprocess.PIPE}
        with started(*words, program=PROGRAM, **files, **how) as server:
            is_listening = server.stdout.readline() == lines(f"listening {port}")
            replies = [talk(port, given) if is_listening else b"" for given in scripts]
            # (a connection for whose first bytes there is no memory is no session, so that one more is wanted)
            for _ in scripts:
                with contextlib.suppress(subprocess.TimeoutExpired):
                    server.wait(timeout=1)
                if server.poll() is None:
                    talk(port, b"")
            output, error = server.communicate(timeout=LIMIT)
            ended = Ended(server.returncode, output, error.removeprefix(page_of(port)))
            return ShortServer(replies, ended, requests_in(count))


def serve_after(library, opening, script, first, last):
    """Has a server answer the lines of an opening in a session, and then these, and counts the requests from there on.

    So the threads of the connection, which ask for more or less, don't count. Those from the first to the last are
    refused. What there is is as `serve_short` gives it.
    """
    port = free_port()
    words = ["serve", "--port", str(port), "--sessions", "1"]
    first, last = (min(number + BEFORE, ALL) for number in (first, last))
    with refusing(library, first, last) as (how, count):
        files = {"stdin": subprocess.DEVNULL, "stdout": subprocess.PIPE}
        with started(*words, program=PROGRAM, **files, **how) as server:
            if server.stdout.readline() != lines(f"listening {port}"):
                raise AssertionError("it doesn't listen")
            with contextlib.closing(Client(port)) as client:
                replies = lines(*(client.ask(line) for line in opening))
                os.pwrite(count.fileno(), BEFORE.to_bytes(8, sys.byteorder), 0)
                client.send(lines(*script))
                replies += client.leave()
            output, error = server.communicate(timeout=LIMIT)
            ended = Ended(server.returncode, output, error.removeprefix(page_of(port)))
            return ShortServer([replies], ended, requests_in(count) - BEFORE)


def each(start, spans):
    """Starts a program for each span of refused requests; what it gives is in the order of the spans."""
    with ThreadPoolExecutor(AT_ONCE) as pool:
        yield from pool.map(lambda span: start(*span), spans)
