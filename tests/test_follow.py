"""`sheet follow`: what it asks, what it writes, when it ends, and replicas that it keeps in step."""
import contextlib
import socket
import subprocess
import threading
import time

from program import DEVICE_FAILED, LIMIT, Ended, ProgramTest, broken, lines, run, silent, started
from servers import HERE, free_port, serving
from test_sync import UNEXPECTED, FakePeer, closed, in_turn, told


def follow(port, *words, **files):
    """How following the replica on a port ended."""
    return run("follow", "--from", str(port), *words, **files)


class Following(ProgramTest):
    def peer(self, *replies):
        """A fake peer with these replies, after which it closes; it is ended after the test."""
        peer = FakePeer(in_turn(*replies))
        self.addCleanup(peer.close)
        return peer


class Peers(Following):
    """What a peer is asked, and what ends it."""

    def test_each_pull_is_after_the_version_of_the_reply_before(self):
        peer = self.peer(b"delta 16 [1]\n", b"delta 17 [2]\n", b"end 17\n", b"version 17\n", b"end 17\n",
                         b"version 20\n", b"delta 20 [3]\n")
        self.assertEqual(follow(peer.port), Ended(0, lines("push [1]", "push [2]", "push [3]")))
        peer.close()
        self.assertEqual(peer.asked, ["pull 0 16", "pull 16 16", "pull 17 16", "wait 17", "pull 17 16", "wait 17",
                                      "pull 17 16", "pull 20 16"])

    def test_it_begins_after_the_first_changes(self):
        for after, last in ((0, 1), (3, 4), (1_000_000_000, 1_000_000_016)):
            with self.subTest(after=after):
                peer = self.peer(f"delta {last} [1]\n".encode(), f"end {last}\n".encode())
                self.assertEqual(follow(peer.port, "--after", str(after), "--until-now"), Ended(0, lines("push [1]")))
                peer.close()
                self.assertEqual(peer.asked, [f"pull {after} 16", f"pull {last} 16"])

    def test_a_delta_that_is_passed_over_is_not_due(self):
        for reply in (b"delta 3 [1]\n", b"delta 4 [1]\n", b"end 3\n", b"end 5\n"):
            with self.subTest(reply=reply):
                self.assertEqual(follow(self.peer(reply).port, "--after", "4"), UNEXPECTED)

    def test_until_now_it_ends_at_the_first_end(self):
        peer = self.peer(b"delta 16 [1]\n", b"end 16\n", b"delta 17 [2]\n")
        self.assertEqual(follow(peer.port, "--until-now"), Ended(0, lines("push [1]")))
        peer.close()
        self.assertEqual(peer.asked, ["pull 0 16", "pull 16 16"])

    def test_a_peer_that_closes(self):
        for replies, written in (((), b""), ((b"delta 3 [1]\n",), lines("push [1]")), ((b"end 0\n",), b"")):
            with self.subTest(replies=replies):
                self.assertEqual(follow(self.peer(*replies).port), Ended(0, written))
        # until now not all was written then
        peer = self.peer(b"delta 3 [1]\n")
        self.assertEqual(follow(peer.port, "--until-now"), Ended(3, lines("push [1]"), closed(peer.port)))

    def test_replies_that_are_not_due(self):
        for reply in (b"hello\n", b"delta 0 [1]\n", b"delta 3\n", b"end 1\n", b"ok 1\n", b"delta 3 [1]", b"\n"):
            with self.subTest(reply=reply):
                first, second = self.peer(reply), self.peer(b"delta 3 [1]\n", reply.replace(b"3", b"2"))
                for peer, written in ((first, b""), (second, lines("push [1]"))):
                    ended = follow(peer.port)
                    self.assertEqual(ended, told(UNEXPECTED._replace(output=written), peer))

    def test_replies_to_a_wait_that_are_not_due(self):
        for reply in (b"version 2\n", b"version\n", b"version x\n", b"end 3\n", b"delta 4 [1]\n", b"ok 4\n",
                      b"version 4"):
            with self.subTest(reply=reply):
                peer = self.peer(b"delta 3 [1]\n", b"end 3\n", reply)
                ended = follow(peer.port)
                self.assertEqual(ended, told(UNEXPECTED._replace(output=lines("push [1]")), peer))

    def test_a_line_that_is_too_long(self):
        self.assertEqual(follow(self.peer(b"delta 1 [" + b" " * 300_000 + b"]\n").port), UNEXPECTED)

    def test_a_refusal_as_it_came(self):
        ended = follow(self.peer(b"delta 3 [1]\n", b"err 4 too-long\n").port)
        self.assertEqual(ended, Ended(3, lines("push [1]"), lines("err 4 too-long")))

    def test_a_port_on_which_nothing_listens(self):
        port = free_port()
        self.assertEqual(follow(port), Ended(1, b"", silent(port)))

    def test_a_peer_is_asked_nothing_while_it_waits(self):
        asked = []

        def reply(line):
            asked.append(line)
            if line.startswith("wait"):
                time.sleep(0.5)
            return {"pull 0 16": b"end 0\n", "wait 0": b"version 0\n"}[line] if len(asked) < 5 else None

        peer = FakePeer(reply)
        self.addCleanup(peer.close)
        begun = time.monotonic()
        self.assertEqual(follow(peer.port), Ended(0))
        self.assertGreater(time.monotonic() - begun, 0.95)
        self.assertEqual(asked, ["pull 0 16", "wait 0", "pull 0 16", "wait 0", "pull 0 16"])

    def test_the_pause_of_earlier_versions_has_no_effect(self):
        begun = time.monotonic()
        self.assertEqual(follow(self.peer(b"end 0\n", b"version 0\n").port, "--every", "60000"), Ended(0))
        self.assertLess(time.monotonic() - begun, 30)


class Replicas(Following):
    """A server that is followed."""

    def test_what_comes_later(self):
        with serving(2) as server, self.followed(server.port) as follower:
            client = server.client()
            for n in range(1, 40):
                self.assertEqual(client.ask(f"set A{n} {n}"), f"ok {n}")
                self.assertEqual(follower.stdout.readline(), f'push [["A{n}",[1,1,"{n}"],[],[]]]\n'.encode())
            client.leave()

    def test_a_file_goes_on_where_it_was(self):
        with serving(4) as server:
            client = server.client()
            for n in range(1, 6):
                client.ask(f"set A{n} {n}")
            whole = follow(server.port, "--after", "2", "--until-now")
            self.assertEqual(whole.status, 0)
            self.assertEqual(whole.output.count(b"push "), 1)
            for n in range(1, 6):
                self.assertEqual(f'["A{n}",'.encode() in whole.output, n > 2)
            # all of it is passed over, and a number that there isn't is refused
            self.assertEqual(follow(server.port, "--after", "5", "--until-now"), Ended(0))
            self.assertEqual(follow(server.port, "--after", "6", "--until-now"), Ended(3, b"", lines("err 17 version")))
            client.leave()

    @contextlib.contextmanager
    def followed(self, port, *words):
        """Following a port, under way."""
        files = {"stdin": subprocess.DEVNULL, "stdout": subprocess.PIPE}
        with started("follow", "--from", str(port), *words, **files) as follower:
            yield follower

    def test_a_server_that_is_killed(self):
        with serving(2) as server, self.followed(server.port) as follower:
            server.client().ask("set A1 1")
            self.assertEqual(follower.stdout.readline(), b'push [["A1",[1,1,"1"],[],[]]]\n')
            server.session.kill()
            output, error = follower.communicate(timeout=LIMIT)
            # Where the server had not read a question yet, the system breaks the connection off instead of closing it.
            self.assertIn(Ended(follower.returncode, output, error), (Ended(0), Ended(1, b"", broken(server.port))))

    def test_a_reader_that_closes(self):
        with serving(2) as server:
            client = server.client()
            client.ask("set A1 1")
            with self.followed(server.port) as follower:
                follower.stdout.readline()
                follower.stdout.close()
                client.ask("set A1 2")
                error = follower.stderr.read()
                self.assertEqual((follower.wait(timeout=LIMIT), error), (1, DEVICE_FAILED))
            client.leave()


class Rings(Following):
    """Replicas in a ring, each with what the one before it has and gets, while clients edit at all."""

    def ring(self, count, clients, changes):
        with contextlib.ExitStack() as stack:
            servers = [stack.enter_context(serving(clients + 3, "--replica", str(n + 1))) for n in range(count)]
            for n, server in enumerate(servers):
                self.hand_on(stack, server, servers[(n + 1) % count])
            threads = [threading.Thread(target=self.edit, args=(server, n, changes))
                       for server in servers for n in range(clients)]
            for thread in threads:
                thread.start()
            for thread in threads:
                thread.join(LIMIT)
            looks = [server.client() for server in servers]
            total = str(count * clients * changes)
            for look in looks:
                look.wait_for("get A1", f"val {total}")
            deadline = time.monotonic() + LIMIT
            while len(tables := {self.table(look) for look in looks}) > 1:
                self.assertLess(time.monotonic(), deadline, tables)
                time.sleep(0.05)

    def hand_on(self, stack, source, target):
        """Follows one server, and hands each line to another, as `follow | talk` does."""
        connection = stack.enter_context(socket.create_connection((HERE, target.port)))
        stack.enter_context(started("follow", "--from", str(source.port), stdin=subprocess.DEVNULL,
                                    stdout=connection.fileno()))
        replies = threading.Thread(target=self.read_on, args=(connection,), daemon=True)
        replies.start()
        stack.callback(lambda: (connection.shutdown(socket.SHUT_RDWR), replies.join(LIMIT)))

    def read_on(self, connection):
        """Reads what comes, so that nobody waits for it."""
        with contextlib.suppress(OSError):
            while connection.recv(65_536):
                pass

    def edit(self, server, number, changes):
        """A client that counts in A1, and writes to a cell of all and to one of its own."""
        client = server.client()
        client.ask("set A1 @tally")
        for n in range(changes):
            client.ask("add A1 1")
            client.ask(f"set B{number + 1} {n}")
            client.ask(f"set C1 =[.A1]+{n}")

    def table(self, client):
        """What A1 to D9 show."""
        self.assertEqual(client.ask("rows A1:D9"), "rows 9")
        return tuple(client.reply() for _ in range(9))

    def test_two(self):
        self.ring(2, 3, 20)

    def test_three(self):
        self.ring(3, 2, 20)
