"""`sheet sync` between peers that speak the lines of a session: what it sends, and what ends it early."""
import contextlib
import socket
import struct
import threading

from program import DEVICE_FAILED, LIMIT, Ended, ProgramTest, broken, lines, run, silent
from servers import free_port

UNEXPECTED = Ended(3, b"", b"err 15 line\n")


class FakePeer:
    """Listens on a port of its own, and answers each line of one connection by `reply`, which gives bytes.

    Where it gives none, and after a reply without line feed, the connection is closed, and `has_closed` is so. `asked`
    has the lines that came.
    """

    def __init__(self, reply):
        self.reply = reply
        self.asked, self.has_closed = [], False
        self.listener = socket.create_server(("127.0.0.1", 0))
        self.listener.settimeout(LIMIT)
        self.port = self.listener.getsockname()[1]
        self.thread = threading.Thread(target=self.serve, daemon=True)
        self.thread.start()

    def serve(self):
        """Answers one connection to its end."""
        with contextlib.suppress(OSError):
            connection, _ = self.listener.accept()
            with connection, connection.makefile("rb") as given:
                connection.settimeout(LIMIT)
                for line in given:
                    self.asked.append(line.decode().removesuffix("\n"))
                    reply = self.reply(self.asked[-1])
                    self.has_closed = reply is None or not reply.endswith(b"\n")
                    connection.sendall(reply or b"")
                    if self.has_closed:
                        return

    def close(self):
        """Ends it, whether it was asked or not."""
        with contextlib.suppress(OSError):
            socket.create_connection(("127.0.0.1", self.port), LIMIT).close()
        self.thread.join(LIMIT)
        self.listener.close()


def closed(port):
    """What standard error gets where the peer at this port closes its connection instead of a reply."""
    return UNEXPECTED.error + lines(f"port {port}: the connection ended")


def told(ended, *peers):
    """The same end; where it is that of a reply that isn't due and one of these peers closed, with its port."""
    port = next((peer.port for peer in peers if peer.has_closed), None)
    return ended if port is None or ended.error != UNEXPECTED.error else ended._replace(error=closed(port))


def in_turn(*replies):
    """Gives these replies one after another, and then none."""
    left = list(replies)
    return lambda line: left.pop(0) if left else None


class Syncing(ProgramTest):
    def peer(self, reply):
        """A fake peer, which is ended after the test."""
        peer = FakePeer(reply)
        self.addCleanup(peer.close)
        return peer

    def sync(self, first, second):
        """How `sheet sync` between these peers ended; both are done with it then."""
        ended = run("sync", "--from", str(first.port), "--to", str(second.port))
        for peer in (first, second):
            peer.close()
        return ended


class Lines(Syncing):
    def test_nothing_to_hand_on(self):
        first, second = self.peer(in_turn(b"end 0\n")), self.peer(in_turn())
        self.assertEqual(self.sync(first, second), Ended(0, lines("synced 0")))
        self.assertEqual((first.asked, second.asked), (["pull 0 16"], []))

    def test_several_groups(self):
        # 40 deltas are three groups: of 16, of 16 and of 8
        deltas = {0: (16, '[["A1",[16,1,"1"],[],[]]]'), 16: (32, '[["A1",[32,1,"2"],[],[]]]'),
                  32: (40, '[["A1",[40,1,"3"],[],[]]]')}

        def pulled(line):
            word, version, most = line.split(" ")
            if (word, most) != ("pull", "16"):
                return b"hello\n"
            found = deltas.get(int(version))
            return lines(f"delta {found[0]} {found[1]}") if found else lines(f"end {version}")

        first, second = self.peer(pulled), self.peer(in_turn(b"ok 1\n", b"ok 2\n", b"ok 2\n"))
        self.assertEqual(self.sync(first, second), Ended(0, lines("synced 3")))
        self.assertEqual(first.asked, ["pull 0 16", "pull 16 16", "pull 32 16", "pull 40 16"])
        self.assertEqual(second.asked, [f"push {delta}" for _, delta in deltas.values()])

    def test_each_group_is_sent_once_and_the_last_one_too(self):
        for count in (1, 2, 5):
            with self.subTest(count=count):
                deltas = [f'[["A1",[{version},1,"{version}"],[],[]]]' for version in range(1, count + 1)]
                pulled = [lines(f"delta {version} {delta}") for version, delta in enumerate(deltas, 1)]
                # the second one takes whatever comes, as often as it comes
                first, second = self.peer(in_turn(*pulled, lines(f"end {count}"))), self.peer(lambda line: b"ok 1\n")
                self.assertEqual(self.sync(first, second), Ended(0, lines(f"synced {count}")))
                self.assertEqual(second.asked, [f"push {delta}" for delta in deltas])

    def test_replies_with_a_carriage_return(self):
        delta = '[["A1",[1,1,"5"],[],[]]]'
        first = self.peer(in_turn(lines(f"delta 1 {delta}\r"), b"end 1\r\n"))
        second = self.peer(in_turn(b"ok 1\n"))
        self.assertEqual(self.sync(first, second), Ended(0, lines("synced 1")))
        self.assertEqual(second.asked, [f"push {delta}"])

    def test_a_delta_of_the_greatest_length(self):
        delta = "x" * 262_144
        first = self.peer(in_turn(lines(f"delta 1 {delta}"), b"end 1\n"))
        second = self.peer(in_turn(b"ok 1\n"))
        self.assertEqual(self.sync(first, second), Ended(0, lines("synced 1")))
        self.assertEqual(second.asked, [f"push {delta}"])


class UnexpectedReplies(Syncing):
    def assert_first_ends(self, *replies):
        """These replies of the first peer end it as `err 15 line`."""
        with self.subTest(replies=replies):
            first, second = self.peer(in_turn(*replies)), self.peer(lambda line: b"ok 1\n")
            ended = self.sync(first, second)
            self.assertEqual(ended, told(UNEXPECTED, first))

    def test_to_a_pull(self):
        self.assert_first_ends(b"hello\n")
        self.assert_first_ends(b"\n")
        self.assert_first_ends(b"ok 1\n")
        self.assert_first_ends(b"val 1\n")
        self.assert_first_ends(b"delta 1\n")
        self.assert_first_ends(b"delta one []\n")
        self.assert_first_ends(b"delta +1 []\n")
        self.assert_first_ends(b"delta 18446744073709551616 []\n")
        self.assert_first_ends(b"end 1\n")
        self.assert_first_ends(b"end\n")
        self.assert_first_ends(b"\xff\n")

    def test_a_delta_whose_version_is_not_above(self):
        self.assert_first_ends(b"delta 0 []\n")
        self.assert_first_ends(b"delta 16 []\n", b"delta 16 []\n")
        self.assert_first_ends(b"delta 16 []\n", b"delta 15 []\n")

    def test_replies_that_end_early(self):
        self.assert_first_ends()
        self.assert_first_ends(b"delta 1 []\n")
        self.assert_first_ends(b"delta 1 [[\"A1\"")
        self.assert_first_ends(b"delta 1 []\n", b"end 1")

    def test_a_reply_that_is_too_long_for_a_line(self):
        self.assert_first_ends(b"delta 1 " + b"x" * 262_208 + b"\n")

    def test_to_a_push(self):
        for reply in (b"hello\n", b"ok\n", b"ok one\n", b"end 1\n", b"delta 1 []\n", None):
            with self.subTest(reply=reply):
                first = self.peer(in_turn(b"delta 1 []\n"))
                second = self.peer(in_turn(reply))
                ended = self.sync(first, second)
                self.assertEqual(ended, told(UNEXPECTED, second))


class RefusedRequests(Syncing):
    def test_a_pull(self):
        first, second = self.peer(in_turn(b"err 17 version\n")), self.peer(in_turn())
        self.assertEqual(self.sync(first, second), Ended(3, b"", b"err 17 version\n"))

    def test_a_push(self):
        first, second = self.peer(in_turn(b"delta 1 []\n")), self.peer(in_turn(b"err 14 delta\n"))
        self.assertEqual(self.sync(first, second), Ended(3, b"", b"err 14 delta\n"))

    def test_the_line_of_a_peer_is_shown_as_it_came(self):
        said = "err 99 äpfel  und birnen"
        first, second = self.peer(in_turn(lines(said))), self.peer(in_turn())
        self.assertEqual(self.sync(first, second), Ended(3, b"", lines(said)))

    def test_the_line_of_a_peer_commands_no_terminal(self):
        """Its control characters are spelled out: those below 32, 127, and 128 to 159."""
        said = "err 99 \x1b[2J\a\x7f\x80\x9b31m\xa0ä\u202f"
        told = r"err 99 \u{1b}[2J\u{7}\u{7f}\u{80}\u{9b}31m" + "\xa0ä\u202f"
        first, second = self.peer(in_turn(lines(said))), self.peer(in_turn())
        self.assertEqual(self.sync(first, second), Ended(3, b"", lines(told)))


class Connections(Syncing):
    def test_a_port_on_which_nothing_listens(self):
        peer = self.peer(in_turn(b"end 0\n"))
        port = free_port()
        for words in (["--from", str(port), "--to", str(peer.port)], ["--from", str(peer.port), "--to", str(port)]):
            with self.subTest(words=words):
                self.assertEqual(run("sync", *words), Ended(1, b"", silent(port)))

    def test_a_peer_that_resets_its_connection(self):
        with socket.create_server(("127.0.0.1", 0)) as listener:
            peer = self.peer(in_turn())

            def reset():
                connection, _ = listener.accept()
                connection.recv(1)
                # closed with bytes unread, the connection is reset
                connection.close()

            thread = threading.Thread(target=reset, daemon=True)
            thread.start()
            port = listener.getsockname()[1]
            ended = run("sync", "--from", str(port), "--to", str(peer.port))
            thread.join(LIMIT)
            self.assertEqual(ended, Ended(1, b"", broken(port)))

    def test_a_peer_that_was_reset_before_it_is_pushed_to(self):
        """So that it isn't the reply that fails, but what is sent."""
        with socket.create_server(("127.0.0.1", 0)) as listener:
            listener.settimeout(LIMIT)

            def delta(_):
                connection, _ = listener.accept()
                connection.setsockopt(socket.SOL_SOCKET, socket.SO_LINGER, struct.pack("ii", 1, 0))
                connection.close()
                return b"delta 1 []\n"

            peer = self.peer(delta)
            port = listener.getsockname()[1]
            ended = run("sync", "--from", str(peer.port), "--to", str(port))
            self.assertEqual(ended, Ended(1, b"", broken(port)))

    def test_an_output_that_fails(self):
        first, second = self.peer(in_turn(b"end 0\n")), self.peer(in_turn())
        with open("/dev/full", "wb") as full:
            ended = run("sync", "--from", str(first.port), "--to", str(second.port), stdout=full)
        self.assertEqual(ended, Ended(1, b"", DEVICE_FAILED))


class CommandLine(ProgramTest):
    def test_ports_that_are_missing_or_out_of_range(self):
        for words in ([], ["--from", "7001"], ["--to", "7001"], ["--from", "0", "--to", "7001"],
                      ["--from", "7001", "--to", "65536"], ["--from", "7001", "--to", "x"]):
            with self.subTest(words=words):
                ended = run("sync", *words)
                self.assertEqual((ended.status, ended.output), (2, b""))
                self.assertIn(b"For more information, try '--help'.", ended.error)

    def test_the_help_has_an_example(self):
        ended = run("sync", "--help")
        self.assertEqual(ended.status, 0)
        self.assertIn(b"  sheet sync --from 7001 --to 7002\n", ended.output)
        for word in (b"--from", b"--to", b"1 to 65535"):
            self.assertIn(word, ended.output)
