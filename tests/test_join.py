"""`sheet join`: what it asks of two replicas, how `--once` ends, that it goes on whatever becomes of either, and what
`--check` says of them."""
import contextlib
import os
import re
import select
import signal
import socket
import struct
import subprocess
import threading
import time
from pathlib import Path

import preloaded
from preloaded import PROGRAM
from program import DEVICE_FAILED, LIMIT, Ended, ProgramTest, broken, lines, run, silent, started
from servers import HERE, comes_to, free_port, serving
from test_sync import UNEXPECTED, FakePeer, in_turn, told

FIRST, SECOND, THIRD = (f'[["A{row}",[1,1,"{row}"],[],[]]]' for row in (1, 2, 3))
# What a fake peer says to a line that has no reply yet.
NOTHING = b""
# Within so many seconds a change shows at the other end, and a peer is connected to after a pause.
SOON = 1
# The timeout of a connection, in seconds, and how many times shorter `hasten.c` makes it.
TIMEOUT, HASTENED = 60, 10
# Within so many seconds a join that stands still loses its session slot at a server with `--idle 2`.
LONGEST_STILL = 29


def join_words(first, second):
    """The words that join two ports."""
    return ["join", "--from", str(first), "--to", str(second)]


def joined_once(first, second, *more, **files):
    """How joining two ports once ended."""
    return run(*join_words(first, second), "--once", *more, **files)


def versions(*servers):
    """How many changes each of these servers has; it has one at least."""
    return [server.client().ask("wait 0") for server in servers]


class Fakes(ProgramTest):
    def peer(self, *replies):
        """A fake peer with these replies in turn, after which it closes; it is ended after the test."""
        peer = FakePeer(in_turn(*replies))
        self.addCleanup(peer.close)
        return peer

    def joined(self, first, second):
        """How these peers were joined once; both are done with it then."""
        ended = joined_once(first.port, second.port)
        for peer in (first, second):
            peer.close()
        return ended

    def assert_ends(self, ended, first, second):
        """Peers with these replies are joined once, and it ends so."""
        with self.subTest(first=first, second=second):
            peers = [self.peer(*first), self.peer(*second)]
            found = self.joined(*peers)
            self.assertEqual(found, told(ended, *peers))


class Requests(Fakes):
    """What `--once` asks of each."""

    def assert_asked(self, first, second):
        """Peers with these lines, each with its reply, are joined once, and asked just these lines."""
        peers = [self.peer(*asked.values()) for asked in (first, second)]
        self.assertEqual(self.joined(*peers), Ended(0, lines("joined")))
        self.assertEqual([peer.asked for peer in peers], [[*first], [*second]])

    def test_two_that_have_nothing(self):
        self.assert_asked({"pull 0 16": b"end 0\n"}, {"pull 0 16": b"end 0\n"})

    def test_each_gets_what_the_other_has(self):
        # the second has four changes of its own, so what is merged there comes later than the next one
        self.assert_asked(
            {"pull 0 16": lines(f"delta 16 {FIRST}"), "pull 16 16": lines(f"delta 17 {SECOND}"),
             "pull 17 16": b"end 17\n", f"merge {THIRD}": b"ok 18\n"},
            {f"merge {FIRST}": b"ok 5\n", f"merge {SECOND}": b"ok 6\n", "pull 0 16": lines(f"delta 6 {THIRD}"),
             "pull 6 16": b"end 6\n"},
        )

    def test_what_was_brought_to_the_second_is_not_pulled_back(self):
        self.assert_asked(
            {"pull 0 16": lines(f"delta 16 {FIRST}"), "pull 16 16": lines(f"delta 17 {SECOND}"),
             "pull 17 16": b"end 17\n", f"merge {THIRD}": b"ok 18\n"},
            {f"merge {FIRST}": b"ok 1\n", f"merge {SECOND}": b"ok 2\n", "pull 2 16": lines(f"delta 3 {THIRD}"),
             "pull 3 16": b"end 3\n"},
        )

    def test_what_is_known_already_moves_nothing(self):
        self.assert_asked(
            {"pull 0 16": lines(f"delta 1 {FIRST}"), "pull 1 16": b"end 1\n", f"merge {SECOND}": b"same 1\n"},
            {f"merge {FIRST}": b"same 1\n", "pull 0 16": lines(f"delta 1 {SECOND}"), "pull 1 16": b"end 1\n"},
        )

    def test_replies_with_a_carriage_return(self):
        self.assert_asked(
            {"pull 0 16": lines(f"delta 1 {FIRST}\r"), "pull 1 16": b"end 1\r\n"},
            {f"merge {FIRST}": b"ok 1\r\n", "pull 1 16": b"end 1\r\n"},
        )

    def test_deltas_of_the_greatest_length(self):
        long, longer = "x" * 262_144, "y" * 262_144
        self.assert_asked(
            {"pull 0 16": lines(f"delta 1 {long}"), "pull 1 16": b"end 1\n", f"merge {longer}": b"ok 2\n"},
            {f"merge {long}": b"ok 1\n", "pull 1 16": lines(f"delta 2 {longer}"), "pull 2 16": b"end 2\n"},
        )


class Faults(Fakes):
    """What ends `--once` early."""

    def test_replies_to_a_pull_that_are_not_due(self):
        for reply in (b"hello\n", b"\n", b"ok 1\n", b"same 1\n", b"version 1\n", b"delta 1\n", b"delta one []\n",
                      b"delta 0 []\n", b"delta 18446744073709551616 []\n", b"end 1\n", b"end\n", b"\xff\n"):
            self.assert_ends(UNEXPECTED, [reply], [])
            self.assert_ends(UNEXPECTED, [b"end 0\n"], [reply])

    def test_replies_to_a_merge_that_are_not_due(self):
        group = b"delta 1 []\n"
        for reply in (b"hello\n", b"\n", b"ok\n", b"ok one\n", b"same\n", b"ok 18446744073709551616\n", b"end 1\n",
                      b"version 1\n", group):
            self.assert_ends(UNEXPECTED, [group], [reply])
            self.assert_ends(UNEXPECTED, [b"end 0\n", reply], [group])

    def test_peers_that_close(self):
        for reply in ([], [b"delta 1 [["], [b"delta 1 []\n", b"end 1"]):
            self.assert_ends(UNEXPECTED, reply, [b"ok 1\n"])
        for reply in ([], [b"ok 1"], [b"ok 1\n"], [b"ok 1\n", b"end 1"]):
            self.assert_ends(UNEXPECTED, [b"delta 1 []\n", b"end 1\n"], reply)

    def test_a_reply_that_is_too_long_for_a_line(self):
        long = b"delta 1 " + b"x" * 262_208 + b"\n"
        self.assert_ends(UNEXPECTED, [long], [])
        self.assert_ends(UNEXPECTED, [b"end 0\n"], [long])

    def test_refusals_of_peers(self):
        group = b"delta 1 []\n"
        for text in ("err 17 version", "err 14 delta", "err 16 command", "err 99 äpfel  und birnen"):
            refusal = lines(text)
            ended = Ended(3, b"", refusal)
            self.assert_ends(ended, [refusal], [])
            self.assert_ends(ended, [group], [refusal])
            self.assert_ends(ended, [b"end 0\n"], [refusal])
            self.assert_ends(ended, [b"end 0\n", refusal], [group])

    def test_a_refusal_commands_no_terminal(self):
        self.assert_ends(Ended(3, b"", lines(r"err 99 \u{1b}[2J\u{7}\u{9b}31m")), [b"end 0\n"],
                         [lines("err 99 \x1b[2J\a\x9b31m")])

    def test_a_port_on_which_nobody_listens(self):
        peer, port = self.peer(), free_port()
        for ports in ((port, peer.port), (peer.port, port)):
            with self.subTest(ports=ports):
                self.assertEqual(joined_once(*ports), Ended(1, b"", silent(port)))

    def test_a_server_without_a_free_slot(self):
        with serving(None) as free, serving(None, "--seats", "1", "--wait", "0") as full:
            self.assertEqual(full.client().ask("set A1 5"), "ok 1")
            for first, second in ((free, full), (full, free)):
                self.assertEqual(joined_once(first.port, second.port), Ended(3, b"", lines("err 21 seat")))

    def test_a_connection_that_breaks(self):
        for is_first in (True, False):
            with self.subTest(is_first=is_first), socket.create_server((HERE, 0)) as listener:
                listener.settimeout(LIMIT)
                port = listener.getsockname()[1]

                def breaks():
                    connection, _ = listener.accept()
                    connection.setsockopt(socket.SOL_SOCKET, socket.SO_LINGER, struct.pack("ii", 1, 0))
                    connection.recv(1)
                    connection.close()

                thread = threading.Thread(target=breaks, daemon=True)
                thread.start()
                other = self.peer(b"end 0\n").port
                ended = joined_once(*(port, other) if is_first else (other, port))
                thread.join(LIMIT)
                self.assertEqual(ended, Ended(1, b"", broken(port)))

    def test_an_output_that_fails(self):
        reads, writes = os.pipe()
        os.close(reads)
        with open("/dev/full", "wb") as full, open(writes, "wb") as closed:
            for stdout in (full, closed):
                first, second = self.peer(b"end 0\n"), self.peer(b"end 0\n")
                self.assertEqual(joined_once(first.port, second.port, stdout=stdout), Ended(1, b"", DEVICE_FAILED))


class Once(ProgramTest):
    """Servers that are joined once."""

    def assert_joined(self, first, second, table):
        """Two servers are joined, so that both show this table from A1 on, and joined again, which changes nothing."""
        for _ in range(2):
            self.assertEqual(joined_once(first.port, second.port), Ended(0, lines("joined")))
            found = versions(first, second)
            for server in (first, second):
                client = server.client()
                self.assertEqual(client.ask(f"rows A1:D{len(table)}"), f"rows {len(table)}")
                self.assertEqual([client.reply() for _ in table], table)
            yield found

    def test_cells_apart(self):
        with serving(None) as first, serving(None, "--replica", "2") as second:
            for server, column in ((first, "A"), (second, "B")):
                client = server.client()
                for row in range(1, 41):
                    self.assertEqual(client.ask(f"set {column}{row} {row}"), f"ok {row}")
            # 40 changes are three groups; those of the second have three changes of others behind them
            found = list(self.assert_joined(first, second, [f"{row},{row},," for row in range(1, 41)]))
            self.assertEqual(found, [["version 43"] * 2] * 2)

    def test_cells_together(self):
        with serving(None) as first, serving(None, "--replica", "2") as second:
            given = {first: ("set A1 apples", "set B1 @tally", "set C1 1", "add B1 2"),
                     second: ("set A1 pears", "set B1 @tally", "set D1 2", "add B1 3")}
            for server, own in given.items():
                client = server.client()
                for count, line in enumerate(own, 1):
                    self.assertEqual(client.ask(line), f"ok {count}")
            # four changes of its own, and all that the other one has as one
            found = list(self.assert_joined(first, second, ["pears,5,1,2"]))
            self.assertEqual(found, [["version 5"] * 2] * 2)

    def test_what_comes_back_is_not_stored_again(self):
        with serving(None) as first, serving(None, "--replica", "2") as second:
            self.assertEqual(first.client().ask("set A1 1"), "ok 1")
            self.assertEqual(second.client().ask("set B1 2"), "ok 1")
            self.assertEqual(joined_once(first.port, second.port), Ended(0, lines("joined")))
            self.assertEqual(first.client().ask("pull 1"), 'delta 2 [["B1",[1,2,"2"],[],[]]]')
            self.assertEqual(second.client().ask("pull 1"), 'delta 2 [["A1",[1,1,"1"],[],[]]]')

    def test_a_server_with_itself(self):
        with serving(None) as server:
            self.assertEqual(server.client().ask("set A1 5"), "ok 1")
            self.assertEqual(joined_once(server.port, server.port), Ended(0, lines("joined")))
            self.assertEqual(versions(server), ["version 1"])


def checked(first, second, *more, **files):
    """How comparing two ports ended."""
    return run(*join_words(first, second), "--check", *more, **files)


def in_step(first, second):
    """How comparing two ends that hold the same, at these versions."""
    return Ended(0, lines(f"in step at {first} and {second}"))


def differ(count, *names):
    """How comparing two ends that differ at so many cells, the first with these names."""
    return Ended(3, lines(" ".join(["differ", str(count), *names])))


def cell_of(name, register="null", counts="[]", pairs="[]"):
    """A cell of a delta line."""
    return f'["{name}",{register},{counts},{pairs}]'


def held(*cells):
    """The lines that a peer is asked for which holds these cells, each with its reply."""
    if not cells:
        return {"pull 0 16": b"end 0\n"}
    return {"pull 0 16": lines(f"delta 1 [{','.join(cells)}]"), "pull 1 16": b"end 1\n"}


class Checked(Fakes):
    """What `--check` asks of each, and says of both."""

    def compared(self, first, second):
        """How these peers were compared; both are done with it then."""
        ended = checked(first.port, second.port)
        for peer in (first, second):
            peer.close()
        return ended

    def assert_found(self, found, first, second):
        """Peers with these lines, each with its reply, are compared so, and asked just these lines."""
        with self.subTest(first=first, second=second):
            peers = [self.peer(*asked.values()) for asked in (first, second)]
            self.assertEqual(self.compared(*peers), found)
            self.assertEqual([peer.asked for peer in peers], [[*first], [*second]])

    def assert_fails(self, ended, first, second):
        """Comparing peers with these replies ends so, and each of them is asked for what it has alone."""
        with self.subTest(first=first, second=second):
            peers = [self.peer(*replies) for replies in (first, second)]
            found = self.compared(*peers)
            self.assertEqual(found, told(ended, *peers))
            for peer in peers:
                self.assertEqual([line for line in peer.asked if not line.startswith("pull ")], [])

    def test_two_that_have_nothing(self):
        self.assert_found(in_step(0, 0), held(), held())

    def test_the_same_in_another_order_in_groups_and_again(self):
        together = f"{SECOND[:-1]},{THIRD[1:]}"
        first = {"pull 0 16": lines(f"delta 16 {FIRST}"), "pull 16 16": lines(f"delta 18 {together}"),
                 "pull 18 16": b"end 18\n"}
        second = {"pull 0 16": lines(f"delta 1 {THIRD}"), "pull 1 16": lines(f"delta 2 {FIRST}\r"),
                  "pull 2 16": lines(f"delta 3 {SECOND}"), "pull 3 16": lines(f"delta 9 {FIRST}"),
                  "pull 9 16": b"end 9\r\n"}
        self.assert_found(in_step(18, 9), first, second)
        self.assert_found(in_step(9, 18), second, first)

    def test_one_change_apart(self):
        second = {"pull 0 16": lines(f"delta 1 {FIRST}"), "pull 1 16": b"end 1\n"}
        first = {**second, "pull 1 16": lines(f"delta 2 {SECOND}"), "pull 2 16": b"end 2\n"}
        self.assert_found(differ(1, "A2"), first, second)
        self.assert_found(differ(1, "A2"), second, first)

    def test_each_part_of_a_cell_counts(self):
        whole = {"register": '[7,1,"5"]', "counts": "[[1,3,1]]", "pairs": "[[5,1,1,0]]"}
        others = {"register": ("null", '[7,2,"5"]', '[8,1,"5"]', '[7,1,"6"]'),
                  "counts": ("[]", "[[1,3,2]]", "[[2,3,1]]", "[[1,3,1],[2,1,0]]"),
                  "pairs": ("[]", "[[5,1,1,1]]", "[[6,1,1,0]]", "[[5,1,1,0],[5,1,2,0]]")}
        one = cell_of("B7", **whole)
        self.assert_found(in_step(1, 1), held(one), held(one))
        for part, texts in others.items():
            for text in texts:
                self.assert_found(differ(1, "B7"), held(one), held(cell_of("B7", **{**whole, part: text})))

    def test_the_parts_of_a_cell_may_come_apart(self):
        whole, register = cell_of("B7", '[7,1,"5"]', "[[1,3,1]]", "[[5,1,1,0]]"), cell_of("B7", '[7,1,"5"]')
        parts = {"pull 0 16": lines(f"delta 1 [{cell_of('B7', pairs='[[5,1,1,0]]')}]"),
                 "pull 1 16": lines(f"delta 2 [{cell_of('B7', counts='[[1,3,1]]')}]"),
                 "pull 2 16": lines(f"delta 3 [{cell_of('B7', counts='[[1,2,1]]')}]"),
                 "pull 3 16": lines(f"delta 4 [{register}]"),
                 "pull 4 16": b"end 4\n"}
        self.assert_found(in_step(1, 4), held(whole), parts)

    def test_the_first_twenty_are_named_row_by_row(self):
        row = [f"{letter}1" for letter in "ABCDEFGHIJKLMNOPQRSTUVWXYZ"]
        for count in (19, 20, 21, 26):
            cells = [cell_of(name, '[1,1,"1"]') for name in row[:count]]
            self.assert_found(differ(count, *row[:min(count, 20)]), held(*cells), held())
            self.assert_found(differ(count, *row[:min(count, 20)]), held(), held(*cells))
        first = [cell_of(name, '[1,1,"1"]') for name in ("CZ1", "A2", "CZ1024")]
        second = [cell_of(name, '[1,1,"1"]') for name in ("A1", "A2", "B2")]
        self.assert_found(differ(4, "A1", "CZ1", "B2", "CZ1024"), held(*first), held(*second))

    def test_replies_that_are_not_due_and_peers_that_close(self):
        for replies in ([b"hello\n"], [b"\n"], [b"ok 1\n"], [b"version 1\n"], [b"delta 1\n"], [b"delta 0 []\n"],
                        [b"end 1\n"], [b"\xff\n"], [], [b"delta 1 [["], [lines(f"delta 1 {FIRST}")],
                        [lines(f"delta 1 {FIRST}"), b"end 1"], [b"delta 1 " + b"x" * 262_208 + b"\n"]):
            self.assert_fails(UNEXPECTED, replies, [])
            self.assert_fails(UNEXPECTED, [b"end 0\n"], replies)

    def test_lines_of_no_delta(self):
        for line in ("[]", "{}", '[["A1",null,[],[]]]', '[["A1025",[1,1,"1"],[],[]]]', f"{FIRST} {FIRST}"):
            self.assert_fails(UNEXPECTED, [lines(f"delta 1 {line}"), b"end 1\n"], [b"end 0\n"])
            self.assert_fails(UNEXPECTED, [b"end 0\n"], [lines(f"delta 1 {line}"), b"end 1\n"])

    def test_refusals_of_peers(self):
        for text, told in (("err 17 version", "err 17 version"), ("err 99 \x1b[2J", r"err 99 \u{1b}[2J")):
            ended = Ended(3, b"", lines(told))
            self.assert_fails(ended, [lines(text)], [])
            self.assert_fails(ended, [lines(f"delta 1 {FIRST}"), b"end 1\n"], [lines(text)])

    def test_a_port_on_which_nobody_listens(self):
        peer, port = self.peer(), free_port()
        for ports in ((port, peer.port), (peer.port, port)):
            with self.subTest(ports=ports):
                self.assertEqual(checked(*ports), Ended(1, b"", silent(port)))

    def test_a_server_without_a_free_slot(self):
        with serving(None) as free, serving(None, "--seats", "1", "--wait", "0") as full:
            self.assertEqual(full.client().ask("set A1 5"), "ok 1")
            for first, second in ((free, full), (full, free)):
                self.assertEqual(checked(first.port, second.port), Ended(3, b"", lines("err 21 seat")))

    def test_an_output_that_fails(self):
        with open("/dev/full", "wb") as full:
            for cells in ([], [cell_of("A1", '[1,1,"1"]')]):
                first, second = self.peer(*held(*cells).values()), self.peer(b"end 0\n")
                self.assertEqual(checked(first.port, second.port, stdout=full), Ended(1, b"", DEVICE_FAILED))

    def test_it_is_not_told_to_merge(self):
        ended = checked(7001, 7002, "--once")
        self.assertEqual((ended.status, ended.output), (2, b""))
        self.assertIn(b"'--once' cannot be used with '--check'", ended.error)


class Compared(ProgramTest):
    """Servers that are compared."""

    def test_servers_before_and_after_they_are_joined(self):
        with serving(None) as first, serving(None, "--replica", "2") as second:
            given = {first: ("set A1 apples", "set B1 @tally", "add B1 2", "set C1 @choice", "choose C1 5", "set D1 1"),
                     second: ("set A1 apples", "set B1 @tally", "add B1 3", "set E1 2")}
            for server, own in given.items():
                client = server.client()
                for count, line in enumerate(own, 1):
                    self.assertEqual(client.ask(line), f"ok {count}")
            # they show the same text at A1, which each of them wrote
            for _ in range(2):
                self.assertEqual(checked(first.port, second.port), differ(5, "A1", "B1", "C1", "D1", "E1"))
            self.assertEqual(versions(first, second), ["version 6", "version 4"])
            self.assertEqual(joined_once(first.port, second.port), Ended(0, lines("joined")))
            self.assertEqual(versions(first, second), ["version 7", "version 5"])
            self.assertEqual(checked(first.port, second.port), in_step(7, 5))
            self.assertEqual(first.client().ask("add B1 1"), "ok 8")
            self.assertEqual(checked(first.port, second.port), differ(1, "B1"))
            self.assertEqual(versions(first, second), ["version 8", "version 5"])

    def test_a_server_with_itself(self):
        with serving(None) as server:
            self.assertEqual(server.client().ask("set A1 5"), "ok 1")
            self.assertEqual(checked(server.port, server.port), in_step(1, 1))

    def test_all_cells_of_a_row_of_many_groups(self):
        with serving(None) as first, serving(None, "--replica", "2") as second:
            client = first.client()
            for row in range(1, 101):
                self.assertEqual(client.ask(f"set A{row} {row}"), f"ok {row}")
            names = [f"A{row}" for row in range(1, 21)]
            self.assertEqual(checked(first.port, second.port), differ(100, *names))


class Joining:
    """`./sheet join` of two ports under way."""

    def __init__(self, session, first, second):
        self.session = session
        self.joined = f"joined {first} and {second}"
        self.received = b""

    def told(self):
        """The next line on standard error, which comes in time."""
        deadline = time.monotonic() + LIMIT
        while b"\n" not in self.received:
            ready, _, _ = select.select([self.session.stderr], [], [], max(0, deadline - time.monotonic()))
            piece = os.read(self.session.stderr.fileno(), 4096) if ready else b""
            if not piece:
                raise AssertionError(f"no line after {self.received!r}, and the status is {self.session.poll()}")
            self.received += piece
        line, _, self.received = self.received.partition(b"\n")
        return line.decode()

    def stopped(self):
        """How it ended once it was asked to; standard error has what wasn't read yet."""
        self.session.terminate()
        output, error = self.session.communicate(timeout=LIMIT)
        return Ended(self.session.returncode, output, self.received + error)


def is_lost(port):
    """What is said of a port whose connection ended."""
    return f"port {port}: the connection ended"


def has_nobody(port):
    """What is said of a port on which nobody listens."""
    return f"port {port}: nobody listens on it; sheet serve --port {port} would"


# It went on until it was stopped, and wrote nothing more.
STOPPED = Ended(-signal.SIGTERM)


@contextlib.contextmanager
def joining(first, second, **how):
    """Joining two ports, under way."""
    with started(*join_words(first, second), stdin=subprocess.DEVNULL, stdout=subprocess.PIPE, **how) as session:
        yield Joining(session, first, second)


class Scripted:
    """Listens on a port of its own, and answers one connection after another, each by its replies in turn.

    A line without a reply closes its connection. `asked` has the lines of each connection, `begun` when it came, and
    `ended` counts those that are over.
    """

    def __init__(self, *scripts):
        self.asked, self.begun, self.ended = [], [], 0
        self.listener = socket.create_server((HERE, 0))
        self.listener.settimeout(LIMIT)
        self.port = self.listener.getsockname()[1]
        self.thread = threading.Thread(target=self.serve, args=(scripts,), daemon=True)
        self.thread.start()

    def serve(self, scripts):
        """Answers as many connections as there are scripts."""
        for script in scripts:
            with contextlib.suppress(OSError):
                connection, _ = self.listener.accept()
                self.begun.append(time.monotonic())
                self.asked.append([])
                with connection, connection.makefile("rb") as given:
                    connection.settimeout(LIMIT)
                    self.answer(connection, given, in_turn(*script))
            self.ended += 1

    def answer(self, connection, given, reply):
        """Answers one connection to its end."""
        for line in given:
            self.asked[-1].append(line.decode().removesuffix("\n"))
            found = reply(line)
            if found is None:
                return
            connection.sendall(found)

    def close(self):
        """Ends it, whether all connections came or not."""
        with contextlib.suppress(OSError):
            self.listener.shutdown(socket.SHUT_RDWR)
        self.thread.join(LIMIT)
        self.listener.close()


class GoingOn(ProgramTest):
    """Fake peers that are joined without an end."""

    def scripted(self, *scripts):
        """A fake peer of so many connections, which is ended after the test."""
        peer = Scripted(*scripts)
        self.addCleanup(peer.close)
        return peer

    def test_each_is_asked_to_wait_and_the_wait_of_the_other_is_ended(self):
        first = self.scripted([
            lines(f"delta 1 {FIRST}"), b"end 1\n",
            # the first one has something new,
            b"version 2\n", lines(f"delta 2 {SECOND}"), b"end 2\n",
            # .. and now the other one
            NOTHING, b"version 2\n", b"end 2\n", b"ok 3\n",
        ])
        second = self.scripted([
            b"ok 1\n", b"end 1\n",
            NOTHING, b"version 1\n", b"ok 2\n", b"end 2\n",
            b"version 3\n", lines(f"delta 3 {THIRD}"), b"end 3\n",
            NOTHING,
        ])
        with joining(first.port, second.port) as join:
            self.assertEqual([join.told(), join.told()], [join.joined, is_lost(first.port)])
            self.assertTrue(comes_to(lambda: second.ended == 1))
            self.assertEqual(first.asked[0], [
                "pull 0 16", "pull 1 16", "wait 1", "pull 1 16", "pull 2 16", "wait 2", "", "pull 2 16",
                f"merge {THIRD}", "wait 3",
            ])
            self.assertEqual(second.asked[0], [
                f"merge {FIRST}", "pull 1 16", "wait 1", "", f"merge {SECOND}", "pull 2 16", "wait 2", "pull 2 16",
                "pull 3 16", "wait 3",
            ])
            self.assertEqual(join.stopped(), STOPPED)

    def test_both_are_let_go_and_asked_again_from_version_0(self):
        first = self.scripted(*[[lines(f"delta 4 {FIRST}"), b"end 4\n", NOTHING]] * 3)
        second = self.scripted(*[[b"same 1\n", b"end 0\n"]] * 3)
        with joining(first.port, second.port) as join:
            self.assertTrue(comes_to(lambda: first.ended == second.ended == 3))
            self.assertEqual(first.asked, [["pull 0 16", "pull 4 16", "wait 4"]] * 3)
            self.assertEqual(second.asked, [[f"merge {FIRST}", "pull 0 16", "wait 0"]] * 3)
            self.assertEqual([join.told() for _ in range(6)], [join.joined, is_lost(second.port)] * 3)
            self.assertEqual(join.stopped(), STOPPED)

    def test_its_pause_doubles_until_both_are_joined(self):
        pauses = (0.1, 0.2, 0.4, 0.8)
        # closed four times, joined, and closed again
        second = self.scripted(*[[]] * len(pauses), [b"end 0\n"], [])
        with serving(None) as first, joining(first.port, second.port) as join:
            lost = is_lost(second.port)
            self.assertEqual([join.told() for _ in range(3)], [lost, join.joined, lost])
            self.assertTrue(comes_to(lambda: second.ended == len(pauses) + 2))
            waited = [after - before for before, after in zip(second.begun, second.begun[1:])]
            for pause, found in zip((*pauses, 0.1), waited, strict=True):
                self.assertGreater(found, pause)
                self.assertLess(found, pause + SOON)
            self.assertEqual(join.stopped(), STOPPED)

    def test_refusals_and_replies_that_are_not_due_are_told_once(self):
        replies = b"err 21 seat\n", b"hello\n", b"err 21 seat\n", b"err 99 \x1b[2J\n", b"end 0\n"
        second = self.scripted(*([reply] for reply in replies))
        with serving(None) as first, joining(first.port, second.port) as join:
            refused = [f"port {second.port}: {it}" for it in ("err 21 seat", "err 15 line", r"err 99 \u{1b}[2J")]
            due = [*refused, join.joined, is_lost(second.port)]
            self.assertEqual([join.told() for _ in due], due)
            self.assertEqual(second.asked, [["pull 0 16"]] * 4 + [["pull 0 16", "wait 0"]])
            self.assertEqual(join.stopped(), STOPPED)

    def test_replies_to_a_merge_and_to_a_wait_that_are_not_due(self):
        group = [lines(f"delta 1 {FIRST}"), b"end 1\n", NOTHING, b"version 1\n"]
        first = self.scripted(group, group, group)
        whole = [b"ok 1\n", b"end 1\n"]
        second = self.scripted([b"version 1\n"], [*whole, b"version 0\n"], [*whole, b"ok 2\n"])
        with joining(first.port, second.port) as join:
            wrong = f"port {second.port}: err 15 line"
            self.assertEqual([join.told() for _ in range(5)], [wrong, join.joined, wrong, join.joined, wrong])
            self.assertEqual(join.stopped(), STOPPED)

    def test_a_peer_that_vanished_counts_as_lost(self):
        library = preloaded.build("hasten.c", self.folder() / "hasten.so")
        with socket.create_server((HERE, 0)) as silent, serving(None) as server:
            begun = time.monotonic()
            port = silent.getsockname()[1]
            with joining(port, server.port, program=PROGRAM, env=preloaded.before(library)) as join:
                self.assertEqual(join.told(), is_lost(port))
                self.assertGreater(time.monotonic() - begun, TIMEOUT / HASTENED - SOON)
                self.assertEqual(join.stopped(), STOPPED)

    def test_servers_that_come_later(self):
        ports = free_port(), free_port()
        with joining(*ports) as join:
            self.assertEqual(join.told(), has_nobody(ports[0]))
            with serving(None, port=ports[0]) as first:
                self.assertEqual(first.client().ask("set A1 5"), "ok 1")
                self.assertEqual(join.told(), has_nobody(ports[1]))
                with serving(None, "--replica", "2", port=ports[1]) as second:
                    self.assertEqual(join.told(), join.joined)
                    second.client().wait_for("get A1", "val 5")
                    self.assertEqual(join.stopped(), STOPPED)

    def test_standard_error_that_is_closed(self):
        port = free_port()
        with serving(None) as first, joining(first.port, port) as join:
            self.assertEqual(join.told(), has_nobody(port))
            join.session.stderr.close()
            with serving(None, "--replica", "2", port=port) as second:
                # (the last one goes over after the line of the first whole exchange was lost)
                for server, other, cell in ((first, second, "A1"), (second, first, "B1"), (first, second, "C1")):
                    self.assertRegex(server.client().ask(f"set {cell} 5"), "^ok ")
                    other.client().wait_for(f"get {cell}", "val 5")
                self.assertIsNone(join.session.poll())


class Replicas(ProgramTest):
    """Servers that are joined without an end."""

    def assert_goes_over(self, source, cell, content, *others):
        """What is set at one server shows at the others, and how long that took."""
        begun = time.monotonic()
        self.assertEqual(source.client().ask(f"set {cell} {content}").split()[0], "ok")
        for other in others:
            other.client().wait_for(f"get {cell}", f"val {content}")
        return time.monotonic() - begun

    def test_a_change_at_either_end_shows_at_the_other_within_a_second_and_comes_back_to_neither(self):
        with serving(None) as first, serving(None, "--replica", "2") as second, \
                joining(first.port, second.port) as join:
            self.assertEqual(join.told(), join.joined)
            rounds = 5
            waited = [[self.assert_goes_over(source, cell, number, other) for number in range(rounds)]
                      for source, other, cell in ((first, second, "A1"), (second, first, "B1"))]
            # (a machine that does much else may take longer now and then)
            for each in waited:
                self.assertLess(min(each), SOON)
            # one by one from either end, a change is a line
            for number in range(1, rounds + 1):
                self.assert_goes_over(first, "C1", number, second)
                self.assert_goes_over(second, "C1", -number, first)
            self.assertEqual(versions(first, second), [f"version {4 * rounds}"] * 2)
            self.assertEqual(join.stopped(), STOPPED)

    def test_it_sleeps_while_nothing_changes(self):
        with serving(None) as first, serving(None, "--replica", "2") as second, \
                joining(first.port, second.port) as join:
            self.assertEqual(join.told(), join.joined)
            status = Path(f"/proc/{join.session.pid}/status")

            def wakes():
                return int(re.search(r"(?m)^voluntary_ctxt_switches:\s*(\d+)$", status.read_text())[1])

            before = wakes()
            time.sleep(2)
            self.assertLess(wakes() - before, 5)
            self.assertEqual(join.stopped(), STOPPED)

    def test_changes_that_come_at_once_at_both_ends(self):
        count = 200
        with serving(None) as first, serving(None, "--replica", "2") as second, \
                joining(first.port, second.port) as join:
            self.assertEqual(join.told(), join.joined)
            for server, column in ((first, "A"), (second, "B")):
                server.client().send(lines(*(f"set {column}{row} {row}" for row in range(1, count + 1))))
            for server, column in ((first, "B"), (second, "A")):
                client = server.client()
                client.wait_for(f"get {column}{count}", f"val {count}")
                self.assertEqual(client.ask(f"rows A1:B{count}"), f"rows {count}")
                found = [client.reply().split(",")["AB".index(column)] for _ in range(count)]
                self.assertEqual(found, [str(row) for row in range(1, count + 1)])
            self.assertEqual(join.stopped(), STOPPED)

    def test_four_servers_by_three_joins(self):
        changes = 20
        with contextlib.ExitStack() as stack:
            hub, *leaves = servers = [stack.enter_context(serving(None, "--replica", str(n))) for n in (1, 2, 3, 4)]
            pairs = [(hub, leaves[0]), (leaves[1], hub), (hub, leaves[2])]
            joins = [stack.enter_context(joining(first.port, second.port)) for first, second in pairs]
            self.assertEqual([join.told() for join in joins], [join.joined for join in joins])
            self.assert_goes_over(hub, "D1", 0, *leaves)
            self.assertEqual(hub.client().ask("set A1 @tally"), "ok 2")
            for leaf in leaves:
                leaf.client().wait_for("get A1", "val 0")

            def edit(number, client):
                for change in range(changes):
                    client.ask("add A1 1")
                    client.ask(f"set B{number} {change}")
                    client.ask(f"set C1 by {number} as {change}")

            threads = [threading.Thread(target=edit, args=(n, server.client())) for n, server in enumerate(servers, 1)]
            for thread in threads:
                thread.start()
            for thread in threads:
                thread.join(LIMIT)
            clients = [server.client() for server in servers]
            for number, client in enumerate(clients, 1):
                client.wait_for("get A1", f"val {len(servers) * changes}")
                for cell in range(1, len(servers) + 1):
                    client.wait_for(f"get B{cell}", f"val {changes - 1}")
            self.assertTrue(comes_to(lambda: len({client.ask("get C1") for client in clients}) == 1))
            # they have the same now, so that a change is one line more at each of them, whoever makes it
            before = [int(it.split()[1]) for it in versions(*servers)]
            for number, server in enumerate(servers, 1):
                self.assert_goes_over(server, "D1", number, *servers)
            after = [int(it.split()[1]) for it in versions(*servers)]
            self.assertEqual(after, [count + len(servers) for count in before])
            self.assertEqual([join.stopped() for join in joins], [STOPPED] * len(joins))

    def test_a_server_that_is_stopped_and_started_again(self):
        for is_first in (True, False):
            with self.subTest(is_first=is_first), serving(None) as stays, contextlib.ExitStack() as stack:
                kept = ["--replica", "2", "--keep", str(self.folder() / "kept.lines")]
                port = free_port()
                restarted = stack.enter_context(serving(None, *kept, port=port))
                ports = (port, stays.port) if is_first else (stays.port, port)
                join = stack.enter_context(joining(*ports))
                self.assertEqual(join.told(), join.joined)
                self.assert_goes_over(stays, "A1", 1, restarted)
                self.assert_goes_over(restarted, "B1", 2, stays)
                restarted.session.kill()
                self.assertEqual([join.told(), join.told()], [is_lost(port), has_nobody(port)])
                self.assertEqual(stays.client().ask("set C1 3"), "ok 3")
                restarted = stack.enter_context(serving(None, *kept, port=port))
                self.assertEqual(join.told(), join.joined)
                restarted.client().wait_for("get C1", "val 3")
                self.assert_goes_over(restarted, "D1", 4, stays)
                self.assertEqual(versions(stays, restarted), ["version 4"] * 2)
                self.assertEqual(join.stopped(), STOPPED)

    def test_a_join_that_is_killed_and_started_again(self):
        with serving(None) as first, serving(None, "--replica", "2") as second:
            with joining(first.port, second.port) as join:
                self.assertEqual(join.told(), join.joined)
                self.assert_goes_over(first, "A1", 1, second)
                self.assert_goes_over(second, "B1", 2, first)
                join.session.kill()
                self.assertEqual(join.session.wait(LIMIT), -signal.SIGKILL)
            self.assertEqual(first.client().ask("set C1 3"), "ok 3")
            self.assertEqual(second.client().ask("set D1 4"), "ok 3")
            with joining(first.port, second.port) as join:
                self.assertEqual(join.told(), join.joined)
                first.client().wait_for("get D1", "val 4")
                second.client().wait_for("get C1", "val 3")
                self.assertEqual(versions(first, second), ["version 4"] * 2)
                self.assertEqual(join.stopped(), STOPPED)

    def test_a_server_that_ends_silent_sessions_keeps_it(self):
        idle = ("--idle", "1")
        with serving(None, *idle) as first, serving(None, "--replica", "2", *idle) as second, \
                joining(first.port, second.port) as join:
            self.assertEqual(join.told(), join.joined)
            for server in (first, second):
                # (one that comes later and says nothing more is sent away)
                silent = server.client()
                silent.send(b"get A1\n")
                self.assertEqual(silent.told(), lines("val "))
            self.assert_goes_over(first, "A1", 1, second)
            self.assert_goes_over(second, "B1", 2, first)
            self.assertEqual(join.stopped(), STOPPED)


class Slots(ProgramTest):
    """Servers with one session slot each, which a join takes."""

    def assert_gets(self, server, *asked):
        """A connection gets the slot, and each of these lines has its reply there."""
        client = server.client()
        self.assertEqual([client.ask(line) for line, _ in asked], [reply for _, reply in asked])
        client.leave()

    def test_it_takes_one_at_each_and_gives_it_back(self):
        slot = ("--seats", "1", "--wait", "0")
        with serving(None, *slot) as first, serving(None, "--replica", "2", *slot) as second:
            self.assert_gets(first, ("set A1 1", "ok 1"))
            self.assert_gets(second, ("set B1 2", "ok 1"))
            with joining(first.port, second.port) as join:
                self.assertEqual(join.told(), join.joined)
                for server in (first, second):
                    self.assertEqual(server.client().ask("get A1"), "err 21 seat")
                self.assertEqual(join.stopped(), STOPPED)
            for server in (first, second):
                self.assertTrue(comes_to(lambda: self.is_free(server)))
                self.assert_gets(server, ("get A1", "val 1"), ("get B1", "val 2"), ("wait 0", "version 2"))
            self.assertEqual(joined_once(first.port, second.port), Ended(0, lines("joined")))

    def is_free(self, server):
        """Whether the slot is free."""
        client = server.client()
        is_free = client.ask("get A1") != "err 21 seat"
        client.leave() if is_free else client.close()
        return is_free

    def test_one_that_stands_still_loses_it(self):
        """This takes some 18 seconds: the server sees after a while that nobody takes what it sends."""
        with serving(None, "--seats", "1", "--wait", "60", "--idle", "2") as first, \
                serving(None, "--replica", "2") as second, joining(first.port, second.port) as join:
            self.assertEqual(join.told(), join.joined)
            join.session.send_signal(signal.SIGSTOP)
            begun = time.monotonic()
            client = first.client()
            client.connection.settimeout(LONGEST_STILL)
            self.assertEqual(client.ask("set A1 1"), "ok 1")
            self.assertLess(time.monotonic() - begun, LONGEST_STILL)
            client.leave()
            # once it goes on, it joins them again
            join.session.send_signal(signal.SIGCONT)
            self.assertEqual(join.told(), is_lost(first.port))
            second.client().wait_for("get A1", "val 1")
            self.assertEqual(join.told(), join.joined)
            self.assertEqual(join.stopped(), STOPPED)


class CommandLine(ProgramTest):
    def test_ports_that_are_missing_or_out_of_range(self):
        for given in ([], ["--from", "7001"], ["--to", "7001"], ["--from", "0", "--to", "7001"],
                      ["--from", "7001", "--to", "65536"], ["--from", "7001", "--to", "x"]):
            for once in ([], ["--once"]):
                with self.subTest(given=given, once=once):
                    ended = run("join", *given, *once)
                    self.assertEqual((ended.status, ended.output), (2, b""))
                    self.assertIn(b"For more information, try '--help'.", ended.error)

    def test_the_help_has_an_example(self):
        ended = run("join", "--help")
        self.assertEqual(ended.status, 0)
        self.assertIn(b"  sheet join --from 7001 --to 7002\n", ended.output)
        for word in (b"--from", b"--to", b"--once", b"1 to 65535"):
            self.assertIn(word, ended.output)
