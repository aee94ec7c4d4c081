"""`sheet join` with `-` in place of a port: the replica behind standard input and output."""
import contextlib
import os
import re
import socket
import time
from pathlib import Path

from program import DEVICE_FAILED, LIMIT, Ended, ProgramTest, lines, run, silent, started
from servers import HERE, free_port, serving

FIRST, SECOND = (f'[["A{row}",[1,1,"{row}"],[],[]]]' for row in (1, 2))
# Within so many seconds a change shows at the other end.
SOON = 1
GONE = "the connection ended"


def words(first, second, *more):
    """The words that join these two ends, each a port or `-`."""
    return ["join", "--from", str(first), "--to", str(second), *more]


@contextlib.contextmanager
def behind(port):
    """A connection to a port, to be standard input and output."""
    with socket.create_connection((HERE, port)) as connection:
        yield {"stdin": connection, "stdout": connection}


class Once(ProgramTest):
    """One exchange, with replies that are given."""

    def test_the_first_end(self):
        with serving(None) as server:
            ended = run(*words("-", server.port, "--once"), given=lines(f"delta 1 {FIRST}", "end 1"))
            self.assertEqual(ended, Ended(0, lines("pull 0 16", "pull 1 16"), lines(f"joined - and {server.port}")))
            self.assertEqual(server.client().ask("get A1"), "val 1")

    def test_the_second_end(self):
        with serving(None) as server:
            self.assertEqual(server.client().ask("set A2 2"), "ok 1")
            ended = run(*words(server.port, "-", "--once"), given=lines("ok 1", "end 1"))
            asked = lines(f"merge {SECOND}", "pull 1 16")
            self.assertEqual(ended, Ended(0, asked, lines(f"joined {server.port} and -")))

    def test_an_end_that_breaks_off(self):
        refused = (("err 21 seat", Ended(3, b"", lines("err 21 seat"))), ("hello", Ended(3, b"", lines("err 15 line"))))
        with serving(None) as server:
            for reply, ended in (("", Ended(3, b"", lines("err 15 line"))), *refused):
                with self.subTest(reply=reply):
                    given = lines(reply) if reply else b""
                    due = ended._replace(output=lines("pull 0 16"))
                    self.assertEqual(run(*words("-", server.port, "--once"), given=given), due)

    def test_a_port_on_which_nothing_listens(self):
        port = free_port()
        for more in ((), ("--once",)):
            self.assertEqual(run(*words("-", port, *more)), Ended(1, b"", silent(port)))


class OnAndOn(ProgramTest):
    """Two servers that are joined until one is lost."""

    @contextlib.contextmanager
    def joined(self, first, second, is_first):
        """The first server behind standard input and output, joined with the second one, and what that reports."""
        ends = ("-", second.port) if is_first else (second.port, "-")
        with behind(first.port) as files, started(*words(*ends), **files) as session:
            self.assertEqual(session.stderr.readline(), lines(f"joined {ends[0]} and {ends[1]}"))
            yield session

    def test_changes_go_over_both_ways(self):
        for is_first in (True, False):
            with self.subTest(is_first=is_first), serving(None) as first, serving(None, "--replica", "2") as second, \
                    self.joined(first, second, is_first):
                for n, (server, other) in enumerate(((first, second), (second, first)) * 3, 1):
                    begun = time.monotonic()
                    self.assertEqual(server.client().ask(f"set A{n} {n}"), f"ok {n}")
                    other.client().wait_for(f"get A{n}", f"val {n}")
                    self.assertLess(time.monotonic() - begun, SOON)
                # nothing came back
                for server in (first, second):
                    self.assertEqual(server.client().ask("wait 0"), "version 6")

    def test_an_end_that_is_lost(self):
        for is_first in (True, False):
            for which in (0, 1):
                with self.subTest(is_first=is_first, which=which), serving(None) as first, \
                        serving(None, "--replica", "2") as second, self.joined(first, second, is_first) as session:
                    (first, second)[which].session.kill()
                    session.wait(LIMIT)
                    lost = (f"-: {GONE}", f"port {second.port}: {GONE}")[which]
                    self.assertEqual((session.returncode, session.stderr.read()), (1, lines(lost) + DEVICE_FAILED))

    def test_a_refusal_is_told(self):
        with serving(None) as server:
            ended = run(*words("-", server.port), given=lines("err 21 seat"))
            self.assertEqual(ended, Ended(1, lines("pull 0 16"), lines("-: err 21 seat") + DEVICE_FAILED))

    def test_nobody_reads_its_output(self):
        reads, writes = os.pipe()
        os.close(reads)
        with serving(None) as server, open(writes, "wb") as output:
            ended = run(*words("-", server.port), given=lines("end 0"), stdout=output)
            self.assertEqual(ended, Ended(1, b"", lines(f"-: {GONE}") + DEVICE_FAILED))

    def test_it_does_not_poll(self):
        with serving(None) as first, serving(None, "--replica", "2") as second, \
                self.joined(first, second, True) as session:
            stat = Path(f"/proc/{session.pid}/stat")

            def used():
                return sum(map(int, stat.read_text().rsplit(")", 1)[1].split()[11:13]))

            before = used()
            time.sleep(2)
            self.assertLess(used() - before, 5)


class CommandLine(ProgramTest):
    def test_words_that_do_not_go_together(self):
        for given in (("-", "-"), ("-", 7001, "--check"), (7001, "-", "--check"), ("-", 0), ("x", "-"), ("-", 65536),
                      ("-", 7001, "--lines"), ("-", 7001, "--with", "7001")):
            with self.subTest(given=given):
                ended = run(*words(*map(str, given)))
                self.assertEqual((ended.status, ended.output), (2, b""))
                self.assertTrue(re.match(rb"error: .*\n[^$]*For more information, try '--help'\.\n$", ended.error))

    def test_the_range_of_ports(self):
        for port, status in ((0, 2), (1, 1), (65535, 1), (65536, 2)):
            for ends in (("-", port), (port, "-"), (1, port), (port, 1)):
                with self.subTest(ends=ends):
                    self.assertEqual(run(*words(*ends, "--once")).status, status)

    def test_one_end_alone(self):
        for option in ("--from", "--to"):
            self.assertEqual(run("join", option, "-").status, 2)

    def test_what_is_no_port(self):
        said = b"error: invalid value '0' for '--to <to>': neither a port, 1 to 65535, nor '-'\n"
        self.assertTrue(run("join", "--from", "-", "--to", "0").error.startswith(said))
