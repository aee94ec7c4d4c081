"""`sheet talk`: what it asks a server and when, what it writes, its hints, and how it ends."""
import contextlib
import os
import socket
import struct
import subprocess
import threading

from keeping import replies_to
from peers import at_terminal, on_pipes
from program import DEVICE_FAILED, LIMIT, SHEET, Ended, ProgramTest, broken, lines, run, silent, started
from servers import HERE, free_port, serving
from test_explain import HABITS, LINES
from test_explain import AtATerminal as AtATerminalOfRun
from test_sync import UNEXPECTED, FakePeer, closed, in_turn, told

# For how long a peer looks whether it is sent more than one line, in seconds.
LOOK = 0.05
NO_SEAT = Ended(3, b"", lines("err 21 seat"))


def talk(port, given=b"", *words, **files):
    """How a session with these lines at a server on a port ended."""
    return run("talk", "--to", str(port), *words, given=given, **files)


class WatchfulPeer:
    """Replies to each line of one connection by the next of these replies, in two parts with a pause between them, and
    then closes. `asked` has the lines that came, `early` what came before the whole reply to the line before.
    """

    def __init__(self, *replies):
        self.asked, self.early = [], []
        self.listener = socket.create_server((HERE, 0))
        self.listener.settimeout(LIMIT)
        self.port = self.listener.getsockname()[1]
        self.thread = threading.Thread(target=self.serve, args=(replies,), daemon=True)
        self.thread.start()

    def serve(self, replies):
        """Replies on one connection."""
        connection, _ = self.listener.accept()
        with connection:
            for reply in replies:
                connection.settimeout(LIMIT)
                self.asked.append(self.line(connection))
                connection.sendall(reply[:-1])
                connection.settimeout(LOOK)
                with contextlib.suppress(TimeoutError):
                    self.early.append(connection.recv(1))
                connection.sendall(reply[-1:])

    def line(self, connection):
        """The next line that comes."""
        line = b""
        while not line.endswith(b"\n"):
            line += connection.recv(1) or b"\n"
        return line

    def close(self):
        """Ends it."""
        self.thread.join(LIMIT)
        self.listener.close()


class Talking(ProgramTest):
    def peer(self, *replies):
        """A fake peer with these replies, after which it closes; it is ended after the test."""
        peer = FakePeer(in_turn(*replies))
        self.addCleanup(peer.close)
        return peer

    def watchful(self, *replies):
        """A watchful peer with these replies."""
        peer = WatchfulPeer(*replies)
        self.addCleanup(peer.close)
        return peer


class Sessions(Talking):
    """A session at a server has what a session of `run` has."""

    def assert_as_run(self, given, *words):
        """These lines have the same replies and hints at a server as at `run`."""
        with serving(None) as server:
            self.assertEqual(talk(server.port, given, *words), run("run", *words, given=given))

    def test_lines_of_each_kind(self):
        given = lines("set A1 5", "set B1 =[.A1]*2", "get B1", "set C1 @tally", "add C1 4", "sub C1 1", "set D1 @choice",
                      "choose D1 7", "unchoose D1 7", "rows A1:D3", "entry B1", "entries A1:B2", "pull 0 16", "pull 8",
                      "replica", "replica 3", 'push [["A1",[2,2,"6"],[],[]]]', "rows A1:A1", "get A1")
        self.assert_as_run(given)
        self.assert_as_run(given, "--explain")

    def test_tables_as_large_as_they_come(self):
        row = "".join(f"set {column}1 {column * 32}\n" for column in "ABCDEFGH").encode()
        self.assert_as_run(row + lines("rows A1:CZ1024", "entries A1:CZ1024", "get A1"))

    def test_lines_that_are_refused(self):
        given = [line for line, _, _ in LINES] + ["set A1 =", "get", "rows A1", "entries A1:", "push", "pull x", "set A0 5"]
        self.assert_as_run(lines(*given))
        self.assert_as_run(b"get \xff\nset A1 \xff\xfe\n\xff\n\x00\nget A1\n")

    def test_lines_that_are_empty_or_end_otherwise(self):
        self.assert_as_run(b"\n\r\n\nset A1 5\r\nget A1\r\n\r\n")
        for given in (b"", b"\n", b"\r", b"get A1", b"get A1\r", b"set A1 5\nget A1", b"set A1 \rx\rget"):
            with self.subTest(given=given):
                self.assert_as_run(given)

    def test_a_line_that_is_too_long_is_refused_and_the_others_are_asked(self):
        for length in (262_208, 262_209, 1_000_000):
            with self.subTest(length=length):
                self.assert_as_run(b"set A1 5\n" + b"x" * length + b"\nget A1\n")
                self.assert_as_run(b"set A1 5\n" + b"x" * length)
        peer = self.peer(b"ok 1\n", b"val 5\n")
        ended = talk(peer.port, b"set A1 5\n" + b"x" * 262_209 + b"\nget A1\n")
        self.assertEqual((ended, peer.asked), (Ended(0, lines("ok 1", "err 15 line", "val 5")), ["set A1 5", "get A1"]))

    def test_the_longest_line(self):
        cells = ",".join(f'["A{row}",[1,2,"{row}"],[],[]]' for row in range(1, 1025))
        delta = f"[{cells}]".ljust(262_144)
        self.assert_as_run(lines(f"push {delta}", "pull 0", "get A1024"))

    def test_two_sessions_one_after_the_other_at_one_sheet(self):
        with serving(2) as server:
            self.assertEqual(talk(server.port, b"set A1 5\n"), Ended(0, lines("ok 1")))
            self.assertEqual(talk(server.port, b"get A1\n"), Ended(0, lines("val 5")))
            self.assertEqual(server.ended(), Ended(0, lines("closed 1")))


class Steps(Talking):
    """Each reply comes before the next line is read, and each line is sent once the reply before is whole."""

    def test_replies_come_while_the_input_is_open(self):
        with serving(None) as server, on_pipes("talk", "--to", str(server.port)) as peer:
            self.assertEqual(peer.ask("set A1 5"), "ok 1")
            self.assertEqual(peer.ask("rows A1:B2"), "rows 2")
            self.assertEqual([peer.reply(), peer.reply()], ["5,", ","])
            self.assertEqual(peer.ask("walk"), "err 16 command")
            # half a line, an empty one, and two at once
            peer.send(b"get")
            peer.send(b" A1\n\nget A1\nentries A1:A1\n")
            self.assertEqual([peer.reply() for _ in range(4)], ["val 5", "val 5", "entries 1", "5"])
            peer.send(b"get A1")
            peer.stop_sending()
            self.assertEqual(peer.reply(), "val 5")
            self.assertEqual(peer.ended(), Ended(0, b""))

    def test_a_line_is_sent_once_the_reply_before_is_whole(self):
        replies = (b"ok 1\n", b"rows 3\n1,2\n\n5,6\n", b"err 16 command\n", b"entries 2\n1\n2\n", b"val 7\n")
        given = ("set A1 1", "rows A1:B3", "walk", "entries A1:A2", "get A1")
        peer = self.watchful(*replies)
        self.assertEqual(talk(peer.port, lines(*given)), Ended(0, b"".join(replies)))
        peer.close()
        self.assertEqual((peer.asked, peer.early), ([lines(line) for line in given], []))

    def test_at_a_terminal(self):
        with serving(None) as server, at_terminal("talk", "--to", str(server.port)) as peer:
            self.assertEqual(peer.ask("set A1 5"), "ok 1")
            self.assertEqual(peer.ask("get A1"), "val 5")
            peer.send(b"\x04")
            self.assertEqual(peer.ended(), Ended(0, b"", b""))


class Hints(ProgramTest):
    """What `run` tells on standard error is said of the same lines at a server."""

    def test_of_lines(self):
        given = [f"set B1 {entry}" for entry, _, _ in HABITS] + ["", *(line for line, _, _ in LINES)]
        given = lines(*given) + b"\r\n" + b"x" * 300_000 + b"\nget a1"
        alone = run("run", "--explain", given=given)
        self.assertGreater(len(alone.error.splitlines()), len(LINES))
        with serving(None) as server:
            self.assertEqual(talk(server.port, given, "--explain"), alone)
        with serving(None) as server:
            # and nothing is said where nobody asks
            self.assertEqual(talk(server.port, given), alone._replace(error=b""))

    def test_a_hint_of_each_refusal(self):
        for number, name in ((1, "cell"), (4, "too-long"), (13, "clock-full"), (19, "memory"), (20, "device")):
            with self.subTest(number=number):
                peer = FakePeer(in_turn(lines(f"err {number} {name}")))
                ended = talk(peer.port, b"add A1 1\n", "--explain")
                peer.close()
                self.assertEqual((ended.status, ended.output), (0, lines(f"err {number} {name}")))
                self.assertTrue(ended.error.startswith(f"line 1: err {number} {name}".encode()) or number == 4, ended)

    def test_a_refusal_of_another_number_has_none(self):
        peer = FakePeer(in_turn(b"err 99 pears\n", b"err x\n", b"err \n"))
        ended = talk(peer.port, b"get A1\nget A1\nget A1\n", "--explain")
        peer.close()
        self.assertEqual(ended, Ended(0, lines("err 99 pears", "err x", "err ")))


class AtATerminal(AtATerminalOfRun):
    """Hints are written where a person types and reads."""

    def typed(self, *words, is_terminal):
        with serving(None) as server:
            return super().typed("talk", "--to", str(server.port), is_terminal=is_terminal)

    def test_no_hints_where_nobody_types(self):
        with serving(None) as server:
            self.assertEqual(talk(server.port, b"get a1\n"), Ended(0, lines("err 1 cell")))


class EarlyEnds(Talking):
    """What ends a session before its input does, and what standard error has then."""

    def test_a_server_without_a_seat(self):
        with serving(None, "--seats", "1", "--wait", "0") as server:
            client = server.client()
            self.assertEqual(client.ask("get A1"), "val ")
            self.assertEqual(talk(server.port, b"get A1\nget A2\n"), NO_SEAT)
            with open("/dev/null", "wb") as nowhere:
                self.assertEqual(talk(server.port, b"get A1\n", stdout=nowhere), NO_SEAT)
            client.leave()

    def test_a_refused_seat_amid_a_session(self):
        peer = self.peer(b"val 1\n", b"err 21 seat\n")
        self.assertEqual(talk(peer.port, b"get A1\nget A2\nget A3\n"), NO_SEAT._replace(output=lines("val 1")))

    def test_replies_that_are_not_due(self):
        undue = {
            "get A1": (b"hello\n", b"\n", b"ok 1\n", b"val\n", b"rows 1\n1\n", b"entry 5\n", b"end 0\n", b"err\n", b"va"),
            "set A1 5": (b"ok\n", b"ok \n", b"ok x\n", b"ok 1 \n", b"ok 18446744073709551616\n", b"val 5\n", b"ok 1"),
            "rows A1:B1": (b"rows\n", b"rows x\n", b"rows -1\n", b"entries 1\n1\n", b"val 1\n"),
            "entries A1:B1": (b"entries \n", b"rows 1\n1\n", b"entry 1\n"),
            "entry A1": (b"entries 1\n1\n", b"val 1\n"),
            "pull 0": (b"ok 1\n", b"delta\n", b"end\n", b"val 1\n"),
            "push []": (b"end 1\n", b"delta 1 []\n"),
            "replica": (b"replica\n", b"replica x\n", b"val 1\n"),
            "walk": (b"ok 1\n", b"val 1\n"),
        }
        for line, replies in undue.items():
            for reply in replies:
                with self.subTest(line=line, reply=reply):
                    peer = self.peer(b"val 1\n", reply)
                    ended = talk(peer.port, lines("get A1", line, "get A1"))
                    self.assertEqual(ended, told(UNEXPECTED._replace(output=lines("val 1")), peer))
                    self.assertEqual(peer.asked, ["get A1", line])

    def test_replies_that_are_due(self):
        due = {
            "get A1": (b"val \n", b"val x y\n", b"val \xff\n"), "entry A1": (b"entry \n",), "replica": (b"replica 007\n",),
            "unchoose A1 1": (b"ok 3\n",), "pull 0": (b"end 0\n", b"delta 1 []\n"), "push x": (b"ok 1\n", b"err 14 delta\n"),
            "rows A1:A1": (b"rows 0\n", b"rows 1\n\n", b"rows 2\nrows 1\nerr 21 seat\n"), "walk": (b"err 16 command\n",),
            "get": (b"err 16 command\n", b"val 1\n"),
        }
        for line, replies in due.items():
            for reply in replies:
                with self.subTest(line=line, reply=reply):
                    self.assertEqual(talk(self.peer(reply).port, lines(line)), Ended(0, reply))

    def test_replies_with_a_carriage_return(self):
        peer = self.peer(b"val 1\r\n", b"rows 2\r\n1\r\n2\r\r\n")
        self.assertEqual(talk(peer.port, b"get A1\nrows A1:A2\n"), Ended(0, b"val 1\nrows 2\n1\n2\r\n"))

    def test_a_line_of_a_reply_that_is_too_long(self):
        for reply in (b"val " + b"x" * 262_208 + b"\n", b"rows 1\n" + b"x" * 262_209 + b"\n"):
            ended = talk(self.peer(reply).port, b"get A1\n" if reply.startswith(b"val") else b"rows A1:A1\n")
            self.assertEqual((ended.status, ended.error), (3, UNEXPECTED.error))

    def test_a_peer_that_closes_between_two_replies(self):
        for replies in ((), (b"val 1\n",)):
            peer = self.peer(*replies)
            ended = talk(peer.port, b"get A1\nget A2\nget A3\n")
            self.assertEqual(ended, Ended(3, b"".join(replies), closed(peer.port)))
        self.assertEqual(peer.asked, ["get A1", "get A2"])

    def test_a_peer_that_closes_amid_a_reply(self):
        for reply, written in ((b"rows 3\n", b"rows 3\n"), (b"rows 3\n1\n2\n", b"rows 3\n1\n2\n"),
                               (b"rows 3\n1\n2", b"rows 3\n1\n"), (b"rows 3\n1\n2\n3", b"rows 3\n1\n2\n"),
                               (b"entries 18446744073709551615\n1\n", b"entries 18446744073709551615\n1\n")):
            with self.subTest(reply=reply):
                peer = self.watchful(b"val 1\n", reply)
                word = reply.split()[0].decode()
                ended = talk(peer.port, lines("get A1", f"{word} A1:A3"))
                self.assertEqual(ended, Ended(3, b"val 1\n" + written, closed(peer.port)))

    def test_a_peer_that_resets_the_connection(self):
        with socket.create_server((HERE, 0)) as listener:
            listener.settimeout(LIMIT)

            def reset():
                connection, _ = listener.accept()
                connection.recv(1)
                connection.setsockopt(socket.SOL_SOCKET, socket.SO_LINGER, struct.pack("ii", 1, 0))
                connection.close()

            thread = threading.Thread(target=reset, daemon=True)
            thread.start()
            port = listener.getsockname()[1]
            self.assertEqual(talk(port, b"get A1\nget A1\n"), Ended(1, b"", broken(port)))
            thread.join(LIMIT)

    def test_a_server_that_is_killed(self):
        with serving(None) as server, on_pipes("talk", "--to", str(server.port)) as peer:
            self.assertEqual(peer.ask("set A1 1"), "ok 1")
            server.session.kill()
            server.session.wait(LIMIT)
            peer.send(b"get A1\nget A1\n")
            ended = peer.ended()
            # the system closes the connection, or breaks it off
            self.assertIn(ended, (Ended(3, b"", closed(server.port)), Ended(1, b"", broken(server.port))))

    def test_a_port_on_which_nothing_listens(self):
        port = free_port()
        self.assertEqual(talk(port, b"get A1\n"), Ended(1, b"", silent(port)))


class Devices(Talking):
    """An input and an output that fail."""

    def test_an_output_that_fails(self):
        with serving(None) as server, open("/dev/full", "wb") as full:
            self.assertEqual(talk(server.port, b"set A1 5\nset A1 6\n", stdout=full), Ended(1, b"", DEVICE_FAILED))
            # the line was carried out whose reply couldn't be written, and no other
            self.assertEqual(talk(server.port, b"get A1\n"), Ended(0, lines("val 5")))
            self.assertEqual(talk(server.port, b"x" * 300_000, stdout=full), Ended(1, b"", DEVICE_FAILED))

    def test_a_reader_that_closes(self):
        with serving(None) as server, on_pipes("talk", "--to", str(server.port)) as peer:
            self.assertEqual(peer.ask("get A1"), "val ")
            peer.stop_receiving()
            peer.send(b"get A1\nset A1 5\n")
            self.assertEqual(peer.ended(), Ended(1, b"", DEVICE_FAILED))
            self.assertEqual(talk(server.port, b"get A1\n"), Ended(0, lines("val ")))

    def test_an_input_that_fails(self):
        with serving(None) as server:
            folder = os.open("/", os.O_RDONLY)
            try:
                self.assertEqual(talk(server.port, stdin=folder), Ended(1, b"", DEVICE_FAILED))
            finally:
                os.close(folder)

    def test_an_error_output_that_is_full_changes_nothing(self):
        with serving(None) as server, open("/dev/full", "wb") as full:
            ended = subprocess.run([SHEET, "talk", "--to", str(server.port), "--explain"], input=b"walk\nset A1 1\n",
                                   stdout=subprocess.PIPE, stderr=full, timeout=LIMIT)
        self.assertEqual((ended.returncode, ended.stdout), (0, lines("err 16 command", "ok 1")))


class Following(Talking):
    """`follow | talk` hands what one server has on to another."""

    def test_each_change_comes_as_it_is_made(self):
        with serving(None) as first, serving(None, "--replica", "2") as second, \
                started("follow", "--from", str(first.port), "--every", "1", stdin=subprocess.DEVNULL,
                        stdout=subprocess.PIPE) as follower, \
                started("talk", "--to", str(second.port), stdin=follower.stdout, stdout=subprocess.PIPE) as session:
            client, look = first.client(), second.client()
            for number in range(1, 20):
                client.ask(f"set A{number} {number}")
                self.assertEqual(session.stdout.readline(), lines(f"ok {number}"))
                self.assertEqual(look.ask(f"get A{number}"), f"val {number}")

    def test_the_whole_of_a_kept_file(self):
        keep = self.folder() / "kept.lines"
        given = lines(*(f"set A{number % 9 + 1} {number}" for number in range(2_000)))
        run("run", "--keep", str(keep), given=given)
        with serving(None) as server:
            content = keep.read_bytes()
            self.assertEqual(talk(server.port, content), Ended(0, replies_to(*content.decode().splitlines())))
            self.assertEqual(talk(server.port, b"get A2\n"), Ended(0, lines("val 1999")))


class CommandLine(ProgramTest):
    def test_ports_that_are_missing_or_out_of_range(self):
        for words in ([], ["--to"], ["--to", "0"], ["--to", "65536"], ["--to", "x"], ["--from", "7001"],
                      ["--to", "7001", "--strict"], ["--to", "7001", "7002"]):
            with self.subTest(words=words):
                ended = run("talk", *words)
                self.assertEqual((ended.status, ended.output), (2, b""))
                self.assertIn(b"For more information, try '--help'.", ended.error)

    def test_the_example_of_the_help_writes_what_it_tells(self):
        told = run("talk", "--help").output.decode()
        command, shown = told.split("Examples:\n\n")[1].split("\n\nwrites\n\n")
        shown = "".join(f"{line.strip()}\n" for line in shown.split("\n\n")[0].split("\n"))
        with serving(None) as server:
            command = command.strip().replace("sheet", SHEET).replace("7001", str(server.port))
            ran = subprocess.run(["sh", "-c", command], stdin=subprocess.DEVNULL, capture_output=True, timeout=LIMIT)
        self.assertEqual(Ended(ran.returncode, ran.stdout, ran.stderr), Ended(0, shown.encode()))
