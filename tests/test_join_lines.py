"""`sheet join --with PORT --lines`: what it asks of the server, what it writes, and what ends it."""
import contextlib
import os
import re
import select
import subprocess

from program import DEVICE_FAILED, LIMIT, Ended, ProgramTest, lines, run, silent, started
from servers import comes_to, serving
from test_sync import UNEXPECTED, FakePeer, in_turn

FIRST, SECOND, THIRD = (f'[["A{row}",[1,1,"{row}"],[],[]]]' for row in (1, 2, 3))
MERGES = [f"merge {delta}" for delta in (FIRST, SECOND, THIRD)]


def words(port):
    """The words that relay the lines of a port."""
    return ["join", "--with", str(port), "--lines"]


class Relay:
    """A relay that is running, and whose input is open."""

    def __init__(self, session):
        self.session = session
        self.waiting = b""

    def send(self, *given):
        """These lines come in."""
        self.session.stdin.write(lines(*given))
        self.session.stdin.flush()

    def told(self):
        """The next line that it writes, without its line feed."""
        while b"\n" not in self.waiting:
            ready, _, _ = select.select([self.session.stdout], [], [], LIMIT)
            piece = os.read(self.session.stdout.fileno(), 65_536) if ready else b""
            if not piece:
                raise AssertionError("nothing more was written")
            self.waiting += piece
        line, self.waiting = self.waiting.split(b"\n", 1)
        return line.decode()

    def is_silent(self, seconds):
        """Whether it writes nothing for so long."""
        return not self.waiting and not select.select([self.session.stdout], [], [], seconds)[0]

    def ended(self):
        """How it ends once its input does, with all that was not read yet."""
        output, error = self.session.communicate(timeout=LIMIT)
        return Ended(self.session.returncode, self.waiting + output, error)


@contextlib.contextmanager
def relaying(port, *more):
    """A relay of a port, which is ended after this."""
    with started(*words(port), *more, stdin=subprocess.PIPE, stdout=subprocess.PIPE) as session:
        try:
            yield Relay(session)
        finally:
            session.kill()


class Requests(ProgramTest):
    """What it asks of a server in turn, and what it writes of the replies."""

    def assert_relayed(self, given, asked, written, told=()):
        """Lines come in, the server is asked these lines, each with its reply, and this is written."""
        peer = FakePeer(in_turn(*asked.values()))
        self.addCleanup(peer.close)
        # (of a file all lines are there at once, so that no pull comes between them)
        ended = run(*words(peer.port), "--once", stdin=self.file_of(lines(*given)))
        self.assertEqual(ended, Ended(0, lines(*written), lines(*told)))
        self.assertEqual(peer.asked, [*asked])

    def test_a_server_that_has_nothing(self):
        self.assert_relayed([], {"pull 0 16": b"end 0\n"}, [])

    def test_what_the_server_has_is_written(self):
        asked = {"pull 0 16": lines(f"delta 16 {FIRST}"), "pull 16 16": lines(f"delta 17 {SECOND}"),
                 "pull 17 16": b"end 17\n"}
        self.assert_relayed([], asked, MERGES[:2])

    def test_what_came_in_is_not_written(self):
        asked = {MERGES[0]: b"ok 1\n", MERGES[1]: b"ok 2\n", "pull 2 16": b"end 2\n"}
        self.assert_relayed(MERGES[:2], asked, [])

    def test_what_others_did_before_it_is_written(self):
        asked = {MERGES[0]: b"ok 19\n", "pull 0 16": lines(f"delta 16 {SECOND}"),
                 "pull 16 2": lines(f"delta 18 {THIRD}"), "pull 19 16": b"end 19\n"}
        self.assert_relayed(MERGES[:1], asked, MERGES[1:])

    def test_what_others_did_where_nothing_was_new(self):
        asked = {MERGES[0]: b"same 2\n", "pull 0 2": lines(f"delta 2 {SECOND}"), "pull 2 16": b"end 2\n"}
        self.assert_relayed(MERGES[:1], asked, MERGES[1:2])

    def test_refused_lines_are_told_and_passed_over(self):
        given = ["get A1", "", "merge x", MERGES[0], "merge", "merge " + "y" * 262_209]
        asked = {"merge x": b"err 14 delta\n", MERGES[0]: b"ok 1\n", "pull 1 16": b"end 1\n"}
        told = ["line 1: err 16 command", "line 3: err 14 delta", "line 5: err 16 command", "line 6: err 15 line"]
        self.assert_relayed(given, asked, [], told)

    def test_what_a_server_says_cannot_command_a_terminal(self):
        asked = {MERGES[0]: b"err \x1b[2J\n", "pull 0 16": b"end 0\n"}
        self.assert_relayed(MERGES[:1], asked, [], ["line 1: err \\u{1b}[2J"])

    def test_a_last_line_without_a_line_feed(self):
        peer = FakePeer(in_turn(b"ok 1\n", b"end 1\n"))
        self.addCleanup(peer.close)
        self.assertEqual(run(*words(peer.port), given=MERGES[0].encode()), Ended(0))
        self.assertEqual(peer.asked, [MERGES[0], "pull 1 16"])


class Faults(ProgramTest):
    """What ends `--once` early."""

    def assert_ends(self, ended, given, *replies):
        """With a server of these replies it ends so, and writes nothing."""
        peer = FakePeer(in_turn(*replies))
        self.addCleanup(peer.close)
        with self.subTest(given=given, replies=replies):
            self.assertEqual(run(*words(peer.port), "--once", given=lines(*given)), ended)
        peer.close()

    def test_replies_that_are_not_due(self):
        for reply in (b"hello\n", b"end 0\n", b"ok\n", b"ok 0\n", b"same x\n", b"version 1\n"):
            self.assert_ends(UNEXPECTED, MERGES[:1], reply)
        for reply in (b"end 1\n", b"delta 0 []\n", b"delta 17 []\n", b"ok 1\n", b"\n"):
            self.assert_ends(UNEXPECTED, [], reply)
        # of what lies below a change that came in
        for reply in (b"delta 3 []\n", b"end 0\n"):
            self.assert_ends(UNEXPECTED, MERGES[:1], b"ok 3\n", reply)

    def test_a_server_without_a_seat(self):
        no_seat = Ended(3, b"", b"err 21 seat\n")
        self.assert_ends(no_seat, [], b"err 21 seat\n")
        self.assert_ends(no_seat, MERGES[:1], b"err 21 seat\n")

    def test_a_port_on_which_nobody_listens(self):
        with serving("1") as server:
            port = server.port
        ended = run(*words(port), "--once", given=b"")
        self.assertEqual(ended, Ended(1, b"", silent(port)))

    def test_an_output_that_fails(self):
        for once in ([], ["--once"]):
            peer = FakePeer(in_turn(lines(f"delta 1 {FIRST}"), b"end 1\n"))
            self.addCleanup(peer.close)
            with open("/dev/full", "wb") as full:
                self.assertEqual(run(*words(peer.port), *once, stdout=full), Ended(1, b"", DEVICE_FAILED))
            self.assertEqual(peer.asked, ["pull 0 16"])


class Servers(ProgramTest):
    """Relays of servers."""

    def test_news_come_at_once_and_what_came_in_stays_out(self):
        with serving(None) as server, relaying(server.port) as relay:
            client = server.client()
            self.assertEqual(client.ask("set A1 1"), "ok 1")
            self.assertEqual(relay.told(), MERGES[0])
            relay.send(MERGES[1])
            client.wait_for("get A2", "val 2")
            self.assertEqual(client.ask("set A3 3"), "ok 3")
            self.assertEqual(relay.told(), MERGES[2])
            self.assertTrue(relay.is_silent(0.2))
            self.assertEqual(relay.ended(), Ended(0, b"", lines(f"joined {server.port}")))

    def test_a_line_that_is_not_whole_stops_nothing(self):
        with serving(None) as server, relaying(server.port) as relay:
            client = server.client()
            relay.session.stdin.write(MERGES[0][:9].encode())
            relay.session.stdin.flush()
            self.assertEqual(client.ask("set A2 2"), "ok 1")
            self.assertEqual(relay.told(), MERGES[1])
            relay.send(MERGES[0][9:])
            client.wait_for("get A1", "val 1")
            self.assertEqual(relay.ended().output, b"")

    def test_two_servers_over_two_relays(self):
        with serving(None) as first, serving(None, "--replica", "2") as second, \
                relaying(first.port) as one, relaying(second.port) as other:
            for number, (server, there) in enumerate(((first, second), (second, first), (first, second)), 1):
                self.assertRegex(server.client().ask(f"set B{number} {number}"), "ok .")
                source, target = (one, other) if server is first else (other, one)
                target.send(source.told())
                there.client().wait_for(f"get B{number}", f"val {number}")
            self.assertTrue(one.is_silent(0.2) and other.is_silent(0.2))
            self.assertEqual({server.client().ask("wait 0") for server in (first, second)}, {"version 3"})

    def test_a_server_that_is_stopped_and_started_again(self):
        kept = ["--keep", str(self.folder() / "kept.lines")]
        with contextlib.ExitStack() as stack:
            server = stack.enter_context(serving(None, *kept))
            relay = stack.enter_context(relaying(server.port))
            self.assertEqual(server.client().ask("set A1 1"), "ok 1")
            self.assertEqual(relay.told(), MERGES[0])
            server.session.kill()
            server.session.wait(LIMIT)
            relay.send(MERGES[1])
            server = stack.enter_context(serving(None, *kept, port=server.port))
            server.client().wait_for("get A2", "val 2")
            # over a new connection all is written again
            self.assertEqual(relay.told(), MERGES[0])
            ended = relay.ended()
            self.assertEqual((ended.status, ended.output), (0, b""))
            self.assertIn(f"port {server.port}: the connection ended\n".encode(), ended.error)

    def test_a_server_that_ends_silent_sessions_keeps_it(self):
        with serving(None, "--idle", "1") as server, relaying(server.port) as relay:
            self.assertEqual(server.client().ask("set A1 1"), "ok 1")
            self.assertEqual(relay.told(), MERGES[0])
            self.assertTrue(relay.is_silent(2))
            self.assertEqual(server.client().ask("set A2 2"), "ok 2")
            self.assertEqual(relay.told(), MERGES[1])
            self.assertEqual(relay.ended(), Ended(0, b"", lines(f"joined {server.port}")))

    def test_a_file_as_input(self):
        with serving(None) as server:
            server.client().ask("set A3 3")
            ended = run(*words(server.port), stdin=self.file_of(lines(*MERGES[:2])))
            self.assertEqual(ended, Ended(0, lines(MERGES[2])))
            self.assertTrue(comes_to(lambda: server.client().ask("get A2") == "val 2"))


class CommandLine(ProgramTest):
    def test_words_that_do_not_go_together(self):
        for given in ("--with 1", "--lines", "--with 1 --lines --from 2", "--with 1 --lines --to 2",
                      "--with 1 --lines --check", "--with 0 --lines", "--lines --from 1 --to 2",
                      "--with 1 --from 1 --to 2"):
            with self.subTest(given=given):
                ended = run("join", *given.split())
                self.assertEqual((ended.status, ended.output), (2, b""))
                self.assertTrue(re.match(rb"error: .*\n[^$]*For more information, try '--help'\.\n$", ended.error))
