"""`serve --keep FILE`: sessions of a server that keeps its sheet, and that is killed at any moment."""
import contextlib
import errno
import os
import random
import select
import signal
import socket
import threading
import time

import preloaded
from browser_socket import WebSocket
from hunt import kept
from hunt.deltas import delta_line
from keeping import KeepingTest, Spoilt, text_of
from preloaded import PROGRAM
from program import DEVICE_FAILED, LIMIT, Ended, lines, run
from servers import Client, comes_to, free_port, serving, sync
from shortage import ALL, build, each, serve_short


def next_told(server, most):
    """What standard error of a server has next, up to so many bytes or as much as comes within some time."""
    error, read = server.session.stderr.fileno(), b""
    while len(read) < most and select.select([error], [], [], LIMIT)[0] and (piece := os.read(error, 4096)):
        read += piece
    return read


class Serve(KeepingTest):
    def serving(self, sessions, *words, **how):
        """A server that keeps its sheet in the file."""
        return serving(sessions, "--keep", str(self.file), *words, program=PROGRAM, **how)

    def assert_closed(self, server, opened, count):
        """It ends well after so many changes, so many of them opened, and the file has them all."""
        self.assertEqual(server.ended(), Ended(0, lines(f"closed {count}"), self.opened(opened)))
        self.assertEqual(self.count_in_file(), count)

    def test_what_sessions_did_is_there_at_the_next_start(self):
        first = ("set A1 5", "set B1 =[.A1]*2", "set C1 @tally", "add C1 4", "set D1 @choice", "choose D1 7")
        with self.serving(2) as server:
            one, two = server.client(), server.client()
            for number, line in enumerate(first, 1):
                self.assertEqual((one, two)[number % 2].ask(line), f"ok {number}")
                self.assertEqual(self.lines_kept(), text_of(*first[:number]))
            self.assertEqual((one.leave(), two.leave()), (b"", b""))
            self.assert_closed(server, 0, len(first))
        with self.serving(1) as server:
            client = server.client()
            # (a line that is refused is reported to nobody else, and isn't kept)
            client.send(lines("rows A1:D1", "replica", "walk", "add C1 1", "push []", "add A1 1", "pull 6",
                              "unchoose D1 7"))
            self.assertEqual(client.leave(), lines(
                "rows 1", "5,10,4,{7}", "replica 1", "err 16 command", "ok 7", "err 14 delta", "err 5 not-tally",
                'delta 7 [["C1",null,[[1,5,0]],[]]]', "ok 8"))
            self.assert_closed(server, 6, 8)
        self.assertEqual(self.lines_kept(), text_of(*first, "add C1 1", "unchoose D1 7"))

    def test_a_start_without_a_session_that_changes_anything(self):
        with self.serving(1) as server:
            self.assertEqual(server.client().leave(), b"")
            self.assert_closed(server, 0, 0)
        self.assertEqual(self.lines_kept(), text_of())

    def test_a_file_of_another_replica_or_with_a_faulty_line(self):
        for content, told in ((text_of("set A1 5", replica=3), ("err 9 replica", f"{self.file} is of replica 3")),
                              (text_of("set A1 5") + b"walk\n", ("err 14 delta", f"line 3 of {self.file}"))):
            with self.subTest(told=told):
                self.file.write_bytes(content)
                ended = run("serve", "--port", str(free_port()), "--keep", str(self.file))
                # (it says nothing of listening)
                self.assertEqual(ended, Ended(3, b"", lines(*told)))
                self.assertEqual(self.file.read_bytes(), content)

    def test_a_file_that_another_server_keeps(self):
        with self.serving(1) as server:
            ended = run("serve", "--port", str(free_port()), "--keep", str(self.file))
            told = lines("err 20 device", f"{self.file} is kept by another program")
            self.assertEqual(ended, Ended(1, b"", told))
            client = server.client()
            self.assertEqual(client.ask("set A1 5"), "ok 1")
            client.leave()
            self.assert_closed(server, 0, 1)

    def test_an_output_that_fails(self):
        with open("/dev/full", "wb") as full:
            ended = run("serve", "--port", str(free_port()), "--keep", str(self.file), stdout=full)
        self.assertEqual(ended, Ended(1, b"", DEVICE_FAILED))

    def test_the_journal_of_a_follower_and_the_file_are_the_same_sheet(self):
        with self.serving(3, "--replica", "2") as server:
            client = server.client()
            for number in range(1, 41):
                self.assertEqual(client.ask(f"set A{number} {number}"), f"ok {number}")
            journal = run("follow", "--from", str(server.port), "--until-now")
            self.assertEqual((journal.status, journal.output.count(b"\n")), (0, 3))
            client.leave()
            server.client().leave()
            self.assert_closed(server, 0, 40)
        shown = lines("rows 40", *range(1, 41))
        for given in (journal.output, self.file.read_bytes()):
            self.assertTrue(run("run", given=given + b"rows A1:A40\n").output.endswith(shown))

    def test_changes_of_its_own_replica_are_told_once_and_soon(self):
        with self.serving(3, "--replica", "5") as server:
            one, two = server.client(), server.client()
            self.assertEqual(one.ask("set A1 5"), "ok 1")
            self.assertEqual(two.ask('push [["A1",[1,5,"5"],[],[]]]'), "ok 1")
            self.assertEqual(two.ask('push [["B1",[1,6,"5"],[],[]]]'), "ok 2")
            self.assertEqual(two.ask('push [["A1",[1,5,"5"],[],[]],["B1",[2,6,"7"],[],[]]]'), "ok 3")
            self.assertEqual(two.ask('push [["A1",[2,5,"6"],[],[]],["B1",[3,6,"8"],[],[]]]'), "ok 4")
            told = self.opened(0) + self.warned(5)
            self.assertEqual(next_told(server, len(told)), told)
            self.assertEqual(one.ask('push [["C1",null,[[5,1,0]],[]]]'), "ok 5")
            self.assertEqual((one.leave(), two.leave()), (b"", b""))
            self.assertEqual(server.client().leave(), b"")
            self.assertEqual(server.ended(), Ended(0, lines("closed 5"), b""))
        # at the end, too, however soon that comes; and nothing at a start on a file that has them
        with self.serving(1, "--replica", "5") as server:
            client = server.client()
            client.send(lines('push [["A1",[3,5,"6"],[],[]]]', 'push [["A1",[4,5,"6"],[],[]]]'))
            self.assertEqual(client.leave(), lines("ok 6", "ok 7"))
            self.assertEqual(server.ended(), Ended(0, lines("closed 7"), self.opened(5) + self.warned(5)))
        with self.serving(1, "--replica", "5") as server:
            self.assertEqual(server.client().leave(), b"")
            self.assert_closed(server, 7, 7)

    def test_two_that_sync_with_each_other(self):
        with self.serving(4) as first, serving(4, "--replica", "2") as second:
            typist, other = first.client(), second.client()
            for number in range(1, 21):
                self.assertEqual(typist.ask(f"set A{number} {number}"), f"ok {number}")
            self.assertEqual(sync(first, second).status, 0)
            self.assertEqual(other.ask("set B1 7"), "ok 3")
            # (the last group has changes of both, and brings one)
            self.assertEqual(sync(second, first).status, 0)
            self.assertEqual(typist.ask("get B1"), "val 7")
            self.assertEqual((typist.leave(), other.leave()), (b"", b""))
            for server in (first, second):
                server.client().leave()
            self.assertEqual(second.ended().error, b"")
            self.assertEqual(first.ended().error, self.opened(0))

    def test_a_server_that_keeps_nothing(self):
        with serving(1) as server:
            client = server.client()
            self.assertEqual(client.ask('push [["A1",[1,1,"5"],[],[]]]'), "ok 1")
            self.assertEqual(client.leave(), b"")
            self.assertEqual(server.ended(), Ended(0, lines("closed 1"), b""))

    def test_a_seat_that_goes_on_and_a_server_that_is_stopped(self):
        with self.serving(None, "--seats", "1", "--wait", "60") as server:
            for number in range(1, 11):
                client = server.client()
                self.assertEqual(client.ask(f"set A1 {number}"), f"ok {number}")
                client.leave()
            server.session.terminate()
            self.assertEqual(server.ended(), Ended(-signal.SIGTERM, b"", self.opened(0)))
        with self.serving(1) as server:
            client = server.client()
            self.assertEqual(client.ask("get A1"), "val 10")
            client.leave()
            self.assert_closed(server, 10, 10)

    def test_it_has_as_many_seats_and_one_waits_as_long_as_is_asked_for(self):
        with self.serving(None, "--seats", "2", "--wait", "0") as server:
            clients = [server.client() for _ in range(2)]
            for number, client in enumerate(clients, 1):
                self.assertEqual(client.ask(f"set A1 {number}"), f"ok {number}")
            # (so many that waited for a few seconds would take longer)
            begun = time.monotonic()
            for _ in range(20):
                late = server.client()
                late.send(b"get A1\n")
                self.assertEqual(late.told(), lines("err 21 seat"))
            self.assertLess(time.monotonic() - begun, LIMIT)

    def test_a_session_that_fails_ends_alone(self):
        with self.serving(None, "--seats", "1", "--wait", "60") as server:
            for number in range(1, 11):
                client = server.client()
                self.assertEqual(client.ask(f"set A{number} {number}"), f"ok {number}")
                # (some amid a line, and some whose replies nobody reads)
                client.send(b"get A1" if number % 2 else b"get A1\n" * 1_000)
                client.reset()
            last = server.client()
            self.assertEqual(last.ask("set B1 =SUM([.A1:.A10])"), "ok 11")
            self.assertEqual(last.ask("get B1"), "val 55")
            self.assertTrue(server.is_running())

    def test_a_session_whose_peer_sends_nothing_ends_alone(self):
        with self.serving(None, "--seats", "1", "--idle", "1", "--wait", "60") as server:
            self.assertEqual(server.client().rest(), b"")

            def is_answered():
                # (a machine that does much else may not let this side send in time)
                with server_gone():
                    return server.client().ask("get A1") == "val "

            self.assertTrue(comes_to(is_answered))
            self.assertTrue(server.is_running())


class Failing(Spoilt):
    def test_a_sync_that_fails_ends_all_sessions_and_the_server_though_nobody_comes(self):
        with self.spoiling("s", 4, ALL, 5) as (how, _):
            with serving(None, "--keep", str(self.file), program=PROGRAM, **how) as server:
                silent, other = server.client(), server.client()
                self.assertEqual((silent.ask("get A1"), other.ask("get A1")), ("val ", "val "))
                with server_gone():
                    for number in range(1, 51):
                        self.assertEqual(other.ask(f"set A1 {number}"), f"ok {number}")
                    self.fail("no sync has failed")
                self.assertEqual(silent.told(), b"")
                self.assertEqual(server.ended(), Ended(1, b"", self.opened(0) + self.lost(errno.EIO)))

    def test_a_sync_that_fails_ends_it_and_what_was_answered_is_kept(self):
        for first in (4, 5, 9):
            with self.subTest(first=first), self.spoiling("s", first, first, 5) as (how, _):
                self.file.unlink(missing_ok=True)
                words = ("--keep", str(self.file))
                with serving(None, *words, program=PROGRAM, **how) as server:
                    answered = 0
                    with server_gone():
                        client = server.client()
                        while answered < 50:
                            self.assertEqual(client.ask(f"set A1 {answered}"), f"ok {answered + 1}")
                            answered += 1
                    self.assertLess(answered, 50)
                    with server_gone():
                        for other in (server.client(), server.client()):
                            other.leave()
                    ended = server.ended()
                    self.assertEqual((ended.status, ended.error), (1, self.opened(0) + self.lost(errno.EIO)))
                content = self.lines_kept()
                edits = [f"set A1 {number}" for number in range(answered + 1)]
                self.assertTrue(text_of(*edits).startswith(content))
                self.assertGreaterEqual(kept.changes_in(content), answered)

    def test_each_sync_and_write_that_fails_amid_sessions_leaves_what_they_were_answered(self):
        """Each receipt is the place of its change in the file. (A start makes so many calls.)"""
        clients, edits = 4, 6
        for letter, start in (("s", 3), ("f", 2)):
            # (each client waits for its edit before the next)
            for first in range(start + 1, start + 1 + edits):
                with self.subTest(letter=letter, first=first), self.spoiling(letter, first, first, errno.EIO) as (how, _):
                    self.file.unlink(missing_ok=True)
                    answered = {}
                    with serving(clients, "--keep", str(self.file), program=PROGRAM, **how) as server:
                        threads = [threading.Thread(target=self.edit_down, args=(server, column, edits, answered))
                                   for column in "ABCDEFGH"[:clients]]
                        for thread in threads:
                            thread.start()
                        for thread in threads:
                            thread.join(LIMIT)
                        self.assertEqual(server.ended(), Ended(1, b"", self.opened(0) + self.lost(errno.EIO)))
                    content = self.lines_kept().decode().split("\n")
                    self.assertEqual(content[-1], "")
                    for number, cell in answered.items():
                        self.assertEqual(content[number], f'push [["{cell}",[1,1,"7"],[],[]]]')

    def edit_down(self, server, column, edits, answered):
        """A client that enters a number down a column, until it is ended."""
        with server_gone():
            client = Client(server.port)
            for row in range(1, edits + 1):
                reply = client.ask(f"set {column}{row} 7")
                answered[int(reply.removeprefix("ok "))] = f"{column}{row}"

    def test_memory_that_is_refused(self):
        """What was answered is in the file, and so is all that is there when it closes; no session waits for memory."""
        library = build(self.place)
        scripts = [("set A1 5", "set B1 =[.A1]*2"), ("set A2 text", "get A1"), ("set C1 =[.B1]+1", "rows A1:C2")]

        def start(scripts, *span):
            file = self.place / f"plan{len(scripts)}-{span[0]}-{span[1]}.lines"
            words = ("--keep", str(file))
            return file, serve_short(library, [lines(*script) for script in scripts], *span, *words)

        opening, most = (start(asked, ALL, ALL)[1].requests for asked in ([()], scripts))
        spans = [(first, last) for first in range(opening, most + 1, 3) for last in (first, ALL)]
        ends = set()
        for span, (file, short) in zip(spans, each(lambda *span: start(scripts, *span), spans)):
            with self.subTest(span=span):
                self.file = file
                content, count, told = self.lines_kept().decode().split("\n"), self.count_in_file(), self.opened(0)
                closed, memory = Ended(0, lines(f"closed {count}"), told), Ended(3, b"", told + lines("err 19 memory"))
                failed = [Ended(1, b"", told + fault) for fault in (DEVICE_FAILED, self.lost())]
                self.assertIn(short.ended, (closed, memory, *failed))
                ends.add(short.ended.status)
                for script, replies in zip(scripts, short.replies):
                    for line, reply in zip(script, replies.decode().split("\n")):
                        if reply.startswith("ok "):
                            self.assertIn(f'push [["{line[4:6]}",', content[int(reply[3:])])
                self.assertEqual(self.run_kept(), Ended(0, b"", self.opened(count)))
        # some go on, and some end where there is none for a line of the file
        self.assertLessEqual({0, 1}, ends)

    def test_sessions_that_wait_at_the_same_time_share_syncs(self):
        clients, each = 8, 100
        with self.spoiling() as (how, counted):
            with serving(clients, "--keep", str(self.file), program=PROGRAM, **how) as server:
                threads = [threading.Thread(target=self.edit, args=(server, number, each)) for number in range(clients)]
                for thread in threads:
                    thread.start()
                for thread in threads:
                    thread.join(LIMIT)
                self.assertEqual(server.ended(), Ended(0, lines(f"closed {clients * each}"), self.opened(0)))
            # those of a start, and at most one for each edit
            self.assertLessEqual(counted().syncs, 5 + clients * each)
        self.assertEqual(self.count_in_file(), clients * each)

    def edit(self, server, number, each):
        """A client that edits so often."""
        client = Client(server.port)
        for turn in range(each):
            client.ask(f"set A{number + 1} {turn}")
        client.leave()


class server_gone:
    """What a connection to a server raises that has gone is no fault."""

    def __enter__(self):
        return self

    def __exit__(self, kind, value, trace):
        return kind is not None and issubclass(kind, (ConnectionError, EOFError))


class Syncing(KeepingTest):
    """A server that halts before each sync after those of its start."""

    SESSIONS, START = 12, 3
    # what is less than the longest wait of a session, in seconds, and for how long it is looked whether one goes on
    SOON, LOOK = 10, 0.4

    @contextlib.contextmanager
    def halting(self):
        """The server, and a socket: a byte comes of each sync, which goes on once one is sent."""
        library = preloaded.build("halt.c", self.place / "halt.so")
        ours, theirs = socket.socketpair()
        with ours, theirs:
            told = {"HALT_CALL": "s", "HALT_FILE": str(theirs.fileno()), "HALT_SKIP": str(self.START)}
            how = {"env": preloaded.before(library, **told), "pass_fds": [theirs.fileno()]}
            with serving(self.SESSIONS, "--keep", str(self.file), program=PROGRAM, **how) as server:
                theirs.close()
                ours.settimeout(LIMIT)
                yield server, ours

    def test_edits_go_on_during_a_sync_and_the_next_one_serves_all(self):
        with self.halting() as (server, ours):
            clients = [server.client() for _ in range(self.SESSIONS)]
            self.assertEqual([client.ask("get A1") for client in clients], ["val "] * self.SESSIONS)
            first, *others, last = clients
            first.send(b"set A1 7\n")
            self.assertEqual(ours.recv(1), b"s")
            for row, client in enumerate(others, 1):
                client.send(lines(f"set B{row} 7"))
            # the server tells of this change once it is made
            last.send(lines('push [["C1",[1,1,"7"],[],[]]]'))
            told = self.opened(0) + self.warned()
            self.assertEqual(next_told(server, len(told)), told)
            # nobody is answered yet
            self.assertFalse([client for client in clients if client.is_answered_within(0)])
            self.assertEqual(self.count_in_file(), 1)
            syncs = []
            releasing = threading.Thread(target=self.release, args=(ours, syncs))
            releasing.start()
            self.assertEqual(first.reply(), "ok 1")
            self.assertEqual({client.reply() for client in (*others, last)},
                             {f"ok {number}" for number in range(2, self.SESSIONS + 1)})
            self.assertEqual([client.leave() for client in clients], [b""] * self.SESSIONS)
            self.assertEqual(server.ended(), Ended(0, lines(f"closed {self.SESSIONS}"), b""))
            releasing.join(LIMIT)
        # one serves all who waited; a change that was made later waits for one more
        self.assertLessEqual(len(syncs), 2)
        self.assertEqual(self.count_in_file(), self.SESSIONS)

    def test_a_look_at_a_change_keeps_nobody_from_hearing_of_it(self):
        with self.halting() as (server, ours):
            first, writer, looker, reader = (server.client() for _ in range(4))
            self.assertEqual([client.ask("get A1") for client in (first, writer, looker, reader)], ["val "] * 4)
            first.send(b"set A1 1\n")
            self.assertEqual(ours.recv(1), b"s")
            reader.send(b"wait 2\n")
            # the second of these is to be shown after its sync, which waits for the halted one
            writer.send(lines("set A2 2", "set A3 3"))
            self.assertFalse(reader.is_answered_within(self.LOOK))
            # .. and is shown by this look before
            looker.send(b"entries A1:A3\n")
            self.assertFalse(looker.is_answered_within(self.LOOK))
            threading.Thread(target=self.release, args=(ours, []), daemon=True).start()
            begun = time.monotonic()
            self.assertEqual(reader.reply(), "version 3")
            self.assertLess(time.monotonic() - begun, self.SOON)
            self.assertEqual([writer.reply(), writer.reply()], ["ok 2", "ok 3"])
            self.assertEqual([looker.reply() for _ in range(4)], ["entries 3", "1", "2", "3"])

    def test_a_browser_that_follows_hears_of_a_change_once_it_is_kept(self):
        with self.halting() as (server, ours):
            writer = server.client()
            self.assertEqual(writer.ask("get A1"), "val ")
            with WebSocket(server.port, path="/news") as news:
                self.assertEqual(news.receive(), "version 0")
                writer.send(b"set A1 1\n")
                self.assertEqual(ours.recv(1), b"s")
                self.assertFalse(select.select([news.connection], [], [], self.LOOK)[0])
                threading.Thread(target=self.release, args=(ours, []), daemon=True).start()
                self.assertEqual(news.receive(), "version 1")
            self.assertEqual(writer.reply(), "ok 1")

    def release(self, ours, syncs):
        """Has the sync go on that has halted, and each one after it, which it counts."""
        ours.send(b"!")
        while byte := ours.recv(1):
            syncs.append(byte)
            ours.send(b"!")


class Killed(KeepingTest):
    """200 times: eight clients and a pipe change the sheet, and the server is killed meanwhile."""

    CLIENTS, ROUNDS = 8, 200

    def test_each_change_that_was_answered_is_there_at_the_next_start(self):
        chance = random.Random(39)
        rounds = killed_amid = 0
        before, deltas = b"", []
        while rounds < self.ROUNDS:
            answered, opened = {}, len(deltas)
            with serving(None, "--keep", str(self.file), "--wait", "60", program=PROGRAM) as server:
                tasks = [(self.ask_on, number) for number in range(self.CLIENTS)] + [(self.pour, 0)]
                threads = [threading.Thread(target=task, args=(server, number, rounds, answered))
                           for task, number in tasks]
                for thread in threads:
                    thread.start()
                time.sleep(chance.choice((0.001, 0.005, 0.02)) * chance.random())
                server.session.kill()
                ended = server.ended()
                for thread in threads:
                    thread.join(LIMIT)
            # (it tells that it listens before it tells what it has opened)
            self.assertIn(ended, [Ended(-signal.SIGKILL, b"", told) for told in (b"", self.opened(opened))])
            # what was kept before stays, and only what is new is read
            content = self.file.read_bytes()
            self.assertTrue(content.startswith(before))
            deltas += kept.deltas_in(b"\n" + content[len(before):] if before else content)
            before = kept.whole_lines(content)
            # each receipt is the place of its change in the file
            for number, text in answered.items():
                self.assertLess(opened, number)
                self.assertLessEqual(number, len(deltas), text)
                self.assertIn(text, delta_line(deltas[number - 1]))
            killed_amid += content != before or len(deltas) > max(answered, default=0)
            rounds += 1
        # the next start shows what the file says
        given = self.file.read_bytes()
        ended = self.run_kept(b"rows A1:I1\n")
        self.assertEqual((ended.status, ended.error), (0, self.opened(len(deltas))))
        whole = kept.whole_lines(kept.without_digests(given)).decode().split("\n")[:-1]
        self.assertTrue(run("run", given=lines(*whole, "rows A1:I1")).output.endswith(ended.output))

    def ask_on(self, server, number, turn, answered):
        """A client that changes a cell of its own again and again, until it is ended."""
        with server_gone():
            client = Client(server.port)
            for count in range(10_000):
                text = f"{turn} {number} {count}"
                reply = client.ask(f"set {'ABCDEFGH'[number]}1 {text}")
                answered[int(reply.removeprefix("ok "))] = f"'{text}\"".encode()

    def pour(self, server, _, turn, answered):
        """A client that sends many lines at once, and reads what comes."""
        texts = [f"{turn} I {count}" for count in range(300)]
        with server_gone():
            client = Client(server.port)
            client.send(lines(*(f"set I1 {text}" for text in texts)))
            for text in texts:
                answered[int(client.reply().removeprefix("ok "))] = f"'{text}\"".encode()
