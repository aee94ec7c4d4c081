"""`sheet serve` with real sockets: sessions side by side, clients that misbehave, and replicas that meet."""
import errno
import resource
import signal
import socket
import subprocess
import threading
import time

from hunt import shortages
from preloaded import PROGRAM
from program import DEVICE_FAILED, LIMIT, Ended, ProgramTest, lines, run, taken
from servers import FILES, HERE, PAUSE, comes_to, free_port, serving, sync
from sizes import COLUMNS, name, pushes

# So many slow edits come at once, for some tenths of a second at least.
SLOW = 40


class Sessions(ProgramTest):
    def test_one_session(self):
        with serving(1) as server:
            client = server.client()
            self.assertEqual(client.ask("set A1 5"), "ok 1")
            self.assertEqual(client.ask("set B1 =[.A1]*2"), "ok 2")
            client.send(b"get B1\nrows A1:B1\npull 0 16\nwalk\n\nget A1")
            self.assertEqual(client.leave(), lines(
                "val 10", "rows 1", "5,10", 'delta 2 [["A1",[1,1,"5"],[],[]],["B1",[1,1,"=[.A1]*2"],[],[]]]',
                "err 16 command", "val 5",
            ))
            self.assertEqual(server.ended(), Ended(0, lines("closed 2")))

    def test_a_session_without_lines(self):
        with serving(1) as server:
            self.assertEqual(server.client().leave(), b"")
            self.assertEqual(server.ended(), Ended(0, lines("closed 0")))

    def test_each_session_sees_what_it_set(self):
        with serving(2) as server:
            first, second = server.client(), server.client()
            self.assertEqual(first.ask("set A1 1"), "ok 1")
            self.assertEqual(second.ask("set B1 2"), "ok 2")
            self.assertEqual(first.ask("get A1"), "val 1")
            self.assertEqual(second.ask("get B1"), "val 2")
            self.assertEqual((first.leave(), second.leave()), (b"", b""))
            self.assertEqual(server.ended(), Ended(0, lines("closed 2")))

    def test_sessions_overlap(self):
        with serving(2) as server:
            first, second = server.client(), server.client()
            self.assertEqual(second.ask("set A1 1"), "ok 1")
            self.assertEqual(first.ask("get A1"), "val 1")
            self.assertEqual(first.ask("set B1 2"), "ok 2")
            self.assertEqual(first.ask("get B1"), "val 2")
            first.leave()
            self.assertTrue(server.is_running())
            second.leave()
            self.assertEqual(server.ended(), Ended(0, lines("closed 2")))

    def test_what_a_reply_tells_is_there_for_others(self):
        # changes that are sent at once are shown to others together, but none later than its reply
        for count in (1, 2, 3, 63, 64, 65, 66, 130, 20_000):
            with self.subTest(count=count), serving(2) as server:
                writer, reader = server.client(), server.client()
                writer.send("".join(f"set A1 {number}\n" for number in range(1, count + 1)).encode())
                writer.stop_sending()
                for number in range(1, count + 1):
                    self.assertEqual(writer.reply(), f"ok {number}")
                    if number < 70 or number % 1_000 == 0 or number == count:
                        self.assertGreaterEqual(int(reader.ask("get A1").removeprefix("val ")), number)
                self.assertEqual((writer.leave(), reader.leave()), (b"", b""))
                self.assertEqual(server.ended(), Ended(0, lines(f"closed {count}")))

    def test_a_session_sees_each_of_its_changes(self):
        with serving(1) as server:
            client = server.client()
            client.send(lines(
                "set A1 1", "set A1 2", "set A1 3", "get A1", "set A1 4", "set A1 5", "rows A1:A1", "set A1 6",
                "set A1 7", "entry A1", "get A1", "set A1 8", "set A1 9", "add A1 1", "get A1", "set A1 10",
                "set A1 11", "pull 10 1", "get A1",
            ))
            self.assertEqual(client.leave(), lines(
                "ok 1", "ok 2", "ok 3", "val 3", "ok 4", "ok 5", "rows 1", "5", "ok 6", "ok 7", "entry 7", "val 7",
                "ok 8", "ok 9", "err 5 not-tally", "val 9", "ok 10", "ok 11", 'delta 11 [["A1",[11,1,"11"],[],[]]]',
                "val 11",
            ))
            self.assertEqual(server.ended(), Ended(0, lines("closed 11")))

    def test_the_last_changes_of_a_session_are_shown(self):
        for end in (b"", b"\n", b"\nwalk\n"):
            with self.subTest(end=end), serving(2) as server:
                writer, reader = server.client(), server.client()
                writer.send(b"set A1 1\nset A1 2\nset A1 3" + end)
                # it doesn't wait for its replies
                writer.stop_sending()
                writer.close()
                self.assertTrue(comes_to(lambda: reader.ask("get A1") == "val 3"))
                reader.leave()
                self.assertEqual(server.ended(), Ended(0, lines("closed 3")))

    def test_as_many_sessions_at_once_as_are_served_where_nothing_is_said(self):
        with serving(64) as server:
            clients = [server.client() for _ in range(64)]
            for number, client in enumerate(clients, 1):
                self.assertEqual(client.ask(f"set A{number} {number}"), f"ok {number}")
            for client in clients:
                self.assertEqual(client.ask("get A64"), "val 64")
            for client in clients:
                self.assertEqual(client.leave(), b"")
            self.assertEqual(server.ended(), Ended(0, lines("closed 64")))

    def test_what_one_session_pushes_and_what_another_pushes_again(self):
        with serving(2) as server:
            first, second = server.client(), server.client()
            delta = '[["A1",[7,2,"5"],[],[]]]'
            self.assertEqual(first.ask(f"push {delta}"), "ok 1")
            self.assertEqual(second.ask("set B1 =[.A1]*2"), "ok 2")
            # it adds nothing, so its version is that of the sheet
            self.assertEqual(second.ask(f"push {delta}"), "ok 2")
            self.assertEqual(second.ask("pull 0"), f"delta 1 {delta}")
            self.assertEqual(first.ask("pull 1 16"), 'delta 2 [["B1",[1,1,"=[.A1]*2"],[],[]]]')
            self.assertEqual(first.ask("pull 2 16"), "end 2")
            self.assertEqual(first.ask("get B1"), "val 10")
            self.assertEqual((first.leave(), second.leave()), (b"", b""))
            self.assertEqual(server.ended(), Ended(0, lines("closed 2")))

    def test_rows_are_of_one_version_while_another_session_changes_them(self):
        changes = 1_000
        with serving(2) as server:
            reader, writer = server.client(), server.client()
            self.assertEqual(writer.ask("set A3 =[.A1]"), "ok 1")

            def change():
                for number in range(1, changes + 1):
                    cells = (f'["{name}",[{number},2,"{number}"],[],[]]' for name in ("A1", "B1", "B3"))
                    writer.ask(f"push [{','.join(cells)}]")
                writer.leave()

            thread = threading.Thread(target=change)
            thread.start()
            numbers, is_over = [], False
            while not is_over:
                is_over = not thread.is_alive()
                self.assertEqual(reader.ask("rows A1:B3"), "rows 3")
                rows = [reader.reply() for _ in range(3)]
                number = rows[0].partition(",")[0]
                self.assertEqual(rows, [f"{number},{number}", ",", f"{number or 0},{number}"])
                numbers.append(int(number or 0))
            self.assertEqual(numbers, sorted(numbers))
            self.assertEqual(numbers[-1], changes)
            reader.leave()
            self.assertEqual(server.ended(), Ended(0, lines(f"closed {changes + 1}")))

    def test_get_rows_and_replica_wait_for_no_change_of_another_session(self):
        # an edit of A2 has hundreds of formulas sum most of the sheet 19 times over, which takes a third of a second
        summing = f"=SUM({';'.join(['[.A2:.CZ963]'] * 19)})"
        cells = (f'["{name(number % COLUMNS, 1000 + number // COLUMNS)}",[1,2,"{summing}"],[],[]]'
                 for number in range(300))
        with serving(2) as server:
            writer, reader = server.client(), server.client()
            for line in (*pushes(lambda column, row: column * row, range(2, 964)), f"push [{','.join(cells)}]"):
                self.assertRegex(writer.ask(line), "^ok ")
            writer.send(b"set A2 7\n")
            begun, longest = time.monotonic(), 0
            while not writer.is_answered_within(0):
                asked = time.monotonic()
                self.assertEqual(reader.ask("get B2"), "val 2")
                self.assertEqual((reader.ask("rows B2:C2"), reader.reply()), ("rows 1", "2,4"))
                self.assertEqual(reader.ask("replica"), "replica 1")
                longest = max(longest, time.monotonic() - asked)
            # the replies to three questions come long before the change is made
            self.assertLess(longest, (time.monotonic() - begun) / 2)
            writer.leave()
            reader.leave()
            self.assertEqual(server.ended(), Ended(0, lines("closed 964")))

    def test_a_change_is_shown_at_once_though_the_lines_after_it_take_long(self):
        # an edit of A2 has hundreds of formulas sum some ten thousand cells, and all of them go on to show 0
        numbers, sums = range(2, 115), range(970, 977)
        begun = len(numbers) + len(sums)
        with serving(2) as server:
            writer, reader = server.client(), server.client()
            for line in (*pushes(lambda column, row: column * row, numbers),
                         *pushes(lambda column, row: "=SUM([.A2:.CZ114])*0", sums)):
                self.assertRegex(writer.ask(line), "^ok ")
            writer.send(lines("set A1 1", *(f"set A2 {number}" for number in range(SLOW))))
            reader.wait_for("get A1", "val 1")
            # the replies come together, once the last edit is made
            self.assertFalse(writer.is_answered_within(0.05))
            for number in range(SLOW + 1):
                self.assertEqual(writer.reply(), f"ok {begun + 1 + number}")
            writer.leave()
            reader.leave()
            self.assertEqual(server.ended(), Ended(0, lines(f"closed {begun + 1 + SLOW}")))

    def test_sessions_that_edit_at_the_same_time_lose_nothing(self):
        edits = 200
        with serving(5, "--workers", "2") as server:
            first = server.client()
            self.assertEqual(first.ask("set A1 @tally"), "ok 1")
            numbers = [[] for _ in range(4)]

            def add(client, found):
                for _ in range(edits):
                    found.append(int(client.ask("add A1 1").removeprefix("ok ")))
                client.leave()

            threads = [threading.Thread(target=add, args=(server.client(), found)) for found in numbers]
            for thread in threads:
                thread.start()
            for thread in threads:
                thread.join(LIMIT)
            # each edit has a version of its own, and a session's versions rise
            self.assertEqual(sorted(sum(numbers, [])), list(range(2, 4 * edits + 2)))
            for found in numbers:
                self.assertEqual(found, sorted(found))
            self.assertEqual(first.ask("get A1"), f"val {4 * edits}")
            first.leave()
            self.assertEqual(server.ended(), Ended(0, lines(f"closed {4 * edits + 1}")))


class Misbehaviour(ProgramTest):
    def assert_goes_on(self, server, edits):
        """Another session is answered, and then the server ends well, with so many edits before."""
        client = server.client()
        self.assertEqual(client.ask("set CZ1024 7"), f"ok {edits + 1}")
        self.assertEqual(client.ask("get CZ1024"), "val 7")
        client.leave()
        self.assertEqual(server.ended(), Ended(0, lines(f"closed {edits + 1}")))

    def test_a_client_that_breaks_off_amid_a_line(self):
        with serving(2) as server:
            client = server.client()
            self.assertEqual(client.ask("set A1 5"), "ok 1")
            client.send(b"set B1 9")
            client.reset()
            self.assert_goes_on(server, 1)

    def test_the_whole_lines_of_a_client_that_breaks_off_unanswered(self):
        with serving(2) as server:
            client, other = server.client(), server.client()
            client.send(b"set A1 5\nset A2 6\nset A3 7")
            client.reset()
            other.wait_for("get A2", "val 6")
            self.assertEqual(other.ask("rows A1:A3"), "rows 3")
            self.assertEqual([other.reply() for _ in range(3)], ["5", "6", '""'])
            other.leave()
            self.assertEqual(server.ended(), Ended(0, lines("closed 2")))

    def test_a_client_that_is_killed_amid_a_line(self):
        with serving(2) as server:
            script = (
                "import socket, time\n"
                f"connection = socket.create_connection(('{HERE}', {server.port}))\n"
                "connection.sendall(b'set A1 5\\nset B1 =[.A1')\n"
                "print(connection.recv(100), flush=True)\n"
                f"time.sleep({LIMIT})\n"
            )
            with subprocess.Popen(["python3", "-c", script], stdout=subprocess.PIPE) as killed:
                self.assertEqual(killed.stdout.readline(), b"b'ok 1\\n'\n")
                killed.kill()
            # the system ends its input, and so what it had begun is a last line, which is refused
            self.assert_goes_on(server, 1)

    def test_a_client_that_never_reads(self):
        with serving(2) as server:
            client, other = server.client(room=10_000), server.client()
            self.assertEqual(client.ask(f"set A2 {'x' * 64}"), "ok 1")
            # ten times as many bytes of replies as of lines, far more than the system keeps for a reader
            self.assertTrue(client.send_to_the_brim(b"get A2\n" * 10_000, most=1_000))
            for version in range(2, 101):
                self.assertEqual(other.ask(f"set A1 {version}"), f"ok {version}")
                self.assertEqual(other.ask("get A1"), f"val {version}")
            other.leave()
            self.assertTrue(server.is_running())
            client.reset()
            self.assertEqual(server.ended(), Ended(0, lines("closed 100")))

    def test_a_client_that_sends_nothing(self):
        with serving(2) as server:
            silent, other = server.client(), server.client()
            self.assertEqual(other.ask("set A1 5"), "ok 1")
            other.leave()
            self.assertTrue(server.is_running())
            self.assertEqual(silent.leave(), b"")
            self.assertEqual(server.ended(), Ended(0, lines("closed 1")))

    def test_a_burst_of_10_mb_whose_replies_are_read_late(self):
        label = "x" * 64
        blocks = 1_000
        # 6.9 MB of replies to 0.7 MB of lines, and few to 9.3 MB of other lines
        given = [f"set A1 {label}", *["get A1"] * 100, *["y" * 1_032] * 9]
        with serving(2) as server:
            client, other = server.client(room=10_000), server.client()
            block = lines(*given)
            self.assertGreater(len(block), 10_000)

            def send():
                client.send(block * blocks)
                client.stop_sending()

            threading.Thread(target=send, daemon=True).start()
            for _ in range(100):
                self.assertEqual(other.ask("get B1"), "val ")
            other.leave()
            self.assertTrue(server.is_running())
            found = client.rest()
            self.assertEqual(server.ended(), Ended(0, lines(f"closed {blocks}")))
        replies = [*[f"val {label}"] * 100, *["err 16 command"] * 9]
        expected = b"".join(lines(f"ok {version}", *replies) for version in range(1, blocks + 1))
        self.assertTrue(found == expected, (len(found), len(expected), found[-200:]))

    def test_a_line_that_is_too_long(self):
        with serving(2) as server:
            client = server.client()
            client.send(b"push ")
            client.connection.sendall(b"x" * 1_000_000 + b"\n")
            self.assertEqual(client.reply(), "err 15 line")
            self.assertEqual(client.ask("get A1"), "val ")
            client.leave()
            self.assert_goes_on(server, 0)


class Replicas(ProgramTest):
    def test_two_servers_and_three_clients(self):
        with serving(3) as first, serving(2, "--replica", "2") as second:
            one, two, three = first.client(), first.client(), second.client()
            self.assertEqual(one.ask("set A1 5"), "ok 1")
            self.assertEqual(two.ask("set B1 =[.A1]*2"), "ok 2")
            self.assertEqual(sync(first, second), Ended(0, lines("synced 1")))
            self.assertEqual(three.ask("get B1"), "val 10")
            for client in (one, two, three):
                self.assertEqual(client.leave(), b"")
            self.assertEqual(first.ended(), Ended(0, lines("closed 2")))
            self.assertEqual(second.ended(), Ended(0, lines("closed 1")))

    def test_more_deltas_than_one_group(self):
        with serving(2) as first, serving(2, "--replica", "2") as second:
            one, two = first.client(), second.client()
            for version in range(1, 41):
                self.assertEqual(one.ask(f"set A{version} {version}"), f"ok {version}")
            self.assertEqual(sync(first, second), Ended(0, lines("synced 3")))
            self.assertEqual(two.ask("set B1 =SUM([.A1:.A40])"), "ok 4")
            self.assertEqual(two.ask("get B1"), "val 820")
            one.leave()
            two.leave()
            self.assertEqual(first.ended(), Ended(0, lines("closed 40")))
            self.assertEqual(second.ended(), Ended(0, lines("closed 4")))

    def test_each_kind_of_content_is_handed_on(self):
        with serving(2) as first, serving(2, "--replica", "2") as second:
            one, two = first.client(), second.client()
            for version, line in enumerate((
                "set A1 -9223372036854775808", 'set A2 "tea", \\n', "set A3 äöü 漢字", "set A4 '=[.A1]", "set A5 gone",
                "set A5 ", "set B1 =IF([.B2]<5;[.B2]*2;[.A3])", "set B2 @tally", "add B2 7", "sub B2 3",
                "set B3 @choice", "choose B3 63", "choose B3 0", "choose B3 5", "unchoose B3 5", "set B4 =[.B4]",
            ), 1):
                self.assertEqual(one.ask(line), f"ok {version}")
            self.assertEqual(sync(first, second), Ended(0, lines("synced 1")))
            self.assertEqual(two.ask("rows A1:B5"), "rows 5")
            self.assertEqual([two.reply() for _ in range(5)], [
                "-9223372036854775808,8", '"""tea"", \\n",4', 'äöü 漢字,"{0,63}"', "=[.A1],#CYCLE!", ",",
            ])
            self.assertEqual((one.leave(), two.leave()), (b"", b""))
            self.assertEqual(first.ended(), Ended(0, lines("closed 16")))
            self.assertEqual(second.ended(), Ended(0, lines("closed 1")))

    def test_of_two_contents_of_one_time_that_of_the_greater_replica_stays(self):
        with serving(4) as first, serving(4, "--replica", "2") as second:
            one, two = first.client(), second.client()
            self.assertEqual(one.ask("set A1 apples"), "ok 1")
            self.assertEqual(two.ask("set A1 pears"), "ok 1")
            self.assertEqual(sync(second, first), Ended(0, lines("synced 1")))
            self.assertEqual(sync(first, second), Ended(0, lines("synced 1")))
            self.assertEqual((one.ask("get A1"), two.ask("get A1")), ("val pears", "val pears"))
            self.assertEqual(one.ask("set A1 plums"), "ok 3")
            self.assertEqual(sync(first, second), Ended(0, lines("synced 1")))
            self.assertEqual(two.ask("get A1"), "val plums")
            self.assertEqual((one.leave(), two.leave()), (b"", b""))
            self.assertEqual(first.ended(), Ended(0, lines("closed 3")))
            self.assertEqual(second.ended(), Ended(0, lines("closed 2")))

    def test_each_session_tells_the_replica_whichever_it_names(self):
        with serving(2, "--replica", "7") as server:
            first, second = server.client(), server.client()
            self.assertEqual(first.ask("set A1 5"), "ok 1")
            self.assertEqual([first.ask(line) for line in ("replica", "replica 7", "replica 1", "replica 33")],
                             ["replica 7", "replica 7", "replica 7", "err 9 replica"])
            self.assertEqual((second.ask("replica 2"), second.ask("pull 1")), ("replica 7", "end 1"))
            self.assertEqual((first.leave(), second.leave()), (b"", b""))
            self.assertEqual(server.ended(), Ended(0, lines("closed 1")))

    def test_a_replica_is_handed_to_itself(self):
        with serving(3) as server:
            client = server.client()
            self.assertEqual(client.ask("set A1 5"), "ok 1")
            self.assertEqual(sync(server, server), Ended(0, lines("synced 1")))
            self.assertEqual(client.ask("pull 1 16"), "end 1")
            client.leave()
            self.assertEqual(server.ended(), Ended(0, lines("closed 1")))

    def test_a_ring_of_three_replicas_that_are_edited_meanwhile_comes_to_show_the_same(self):
        sessions, steps, rounds = 16, 200, 3
        with serving(sessions) as one, serving(sessions, "--replica", "2") as two, \
                serving(sessions, "--replica", "3") as three:
            ring = (one, two, three)
            clients = [server.client() for server in ring]
            for client in clients:
                client.ask("set A1 @tally")
                client.ask("set B1 @choice")
                client.ask("set C1 =[.A1]*2")
            is_over = threading.Event()
            added = []

            def edit(number, client):
                for step in range(1, steps + 1):
                    if is_over.wait(PAUSE):
                        break
                    added.append(client.ask("add A1 2"))
                    client.ask(f"choose B1 {(number + step) % 64}")
                    client.ask(f"unchoose B1 {(number + step - 1) % 64}")
                    client.ask(f"set D{step % 60 + 1} {number} {step}")

            threads = [threading.Thread(target=edit, args=pair) for pair in enumerate(clients)]
            for thread in threads:
                thread.start()
            for around in range(rounds):
                # before the last round all edits are made
                if around == rounds - 1:
                    is_over.set()
                    for thread in threads:
                        thread.join(LIMIT)
                for first, second in ((one, two), (two, three), (three, one), (two, one), (one, three), (three, two)):
                    ended = sync(first, second)
                    self.assertEqual((ended.status, ended.error), (0, b""))
                    self.assertRegex(ended.output, rb"\Asynced [0-9]+\n\Z")
            self.assertEqual({reply[:3] for reply in added}, {"ok "})
            shown = []
            for client in clients:
                client.send(lines("get A1", "get C1", "rows A1:D61"))
                self.assertEqual(client.reply(), f"val {2 * len(added)}")
                self.assertEqual(client.reply(), f"val {4 * len(added)}")
                shown.append(client.leave())
            self.assertEqual(shown[1:], shown[:-1])
            # the sessions that are left, for each server ends only then
            for server in ring:
                for _ in range(sessions - 1 - 4 * rounds):
                    server.client().leave()
                ended = server.ended()
                self.assertEqual((ended.status, ended.error), (0, b""))
                self.assertRegex(ended.output, rb"\Aclosed [0-9]+\n\Z")


class Ends(ProgramTest):
    def test_a_port_that_is_taken(self):
        with socket.create_server((HERE, 0)) as listener:
            port = str(listener.getsockname()[1])
            self.assertEqual(run("serve", "--port", port, "--sessions", "1"), Ended(1, b"", taken(port)))

    def test_an_output_that_fails(self):
        with open("/dev/full", "wb") as full:
            ended = run("serve", "--port", str(free_port()), "--sessions", "1", stdout=full)
        self.assertEqual(ended, Ended(1, b"", DEVICE_FAILED))

    def test_an_output_whose_reader_has_gone_before_the_end(self):
        with serving(1) as server:
            server.session.stdout.close()
            client = server.client()
            self.assertEqual(client.ask("set A1 5"), "ok 1")
            client.leave()
            self.assertEqual(server.ended(), Ended(1, b"", DEVICE_FAILED))

    def test_a_signal_to_end_it(self):
        with serving(2) as server:
            client = server.client()
            self.assertEqual(client.ask("set A1 5"), "ok 1")
            server.session.terminate()
            self.assertEqual(server.ended(), Ended(-signal.SIGTERM))
            with self.assertRaises((EOFError, ConnectionResetError)):
                client.reply()
            client.close()
            # the port is free again at once, and the sheet is an empty one
            with serving(1, port=server.port) as again:
                client = again.client()
                self.assertEqual(client.ask("get A1"), "val ")
                client.leave()
                self.assertEqual(again.ended(), Ended(0, lines("closed 0")))

    def test_where_no_thread_can_be_started_a_session_is_served_all_the_same(self):
        # a thread's room is then more than the program may have
        def bound():
            resource.setrlimit(resource.RLIMIT_STACK, (1 << 36, resource.getrlimit(resource.RLIMIT_STACK)[1]))
            resource.setrlimit(resource.RLIMIT_AS, (1 << 35, 1 << 35))

        with serving(2, program=PROGRAM, preexec_fn=bound) as server:
            first, second = server.client(), server.client()
            self.assertEqual(first.ask("set A1 5"), "ok 1")
            second.send(b"get A1\n")
            self.assertFalse(second.is_answered_within(0.5))
            self.assertEqual(first.ask("set A1 6"), "ok 2")
            first.leave()
            self.assertEqual(second.reply(), "val 6")
            second.leave()
            self.assertEqual(server.ended(), Ended(0, lines("closed 2")))

    def test_a_connection_that_cannot_be_accepted(self):
        # a few more than the files of a server with one session
        most = FILES + 3

        def bound():
            resource.setrlimit(resource.RLIMIT_NOFILE, (most, most))

        with serving(100, program=PROGRAM, preexec_fn=bound) as server:
            session = server.client()
            self.assertEqual(session.ask("set A1 5"), "ok 1")
            # others that say nothing; one of them finds no file left
            others = [server.client() for _ in range(most)]
            self.assertEqual(others[0].told(), b"")
            # the session that runs goes on
            self.assertEqual(session.ask("get A1"), "val 5")
            self.assertTrue(server.is_running())
            session.leave()
            self.assertEqual(server.ended(), Ended(1, b"", DEVICE_FAILED))
            self.assertEqual({it.told() for it in others}, {b""})

    def test_a_call_for_a_connection_that_is_interrupted_or_whose_client_has_gone_is_made_again(self):
        library = shortages.library(self.folder())
        for error in (errno.EINTR, errno.ECONNABORTED):
            # (a call that finds no connection, and one that may)
            for first in (1, 3):
                fault = ("a", first, first + 2, error)
                with self.subTest(fault=fault), shortages.spoiling(library, fault) as (how, counts):
                    with serving(3, "--seats", "1", "--wait", "60", program=PROGRAM, **how) as server:
                        clients = [server.client() for _ in range(3)]
                        for number, client in enumerate(clients, 1):
                            self.assertEqual(client.ask(f"set A1 {number}"), f"ok {number}")
                            self.assertEqual(client.leave(), b"")
                        self.assertEqual(server.ended(), Ended(0, lines("closed 3")))
                    self.assertGreaterEqual(shortages.counted(counts).calls, first + 3)

    def test_where_no_more_can_be_accepted_who_waits_is_told_so_at_once(self):
        library = shortages.library(self.folder())
        most = 40
        with shortages.spoiling(library, ("a", most, shortages.ALL, errno.ENOBUFS)) as (how, _):
            with serving(None, "--seats", "1", "--wait", "60", program=PROGRAM, **how) as server:
                client, other, silent = (server.client() for _ in range(3))
                self.assertEqual(client.ask("get A1"), "val ")
                other.send(b"get A1\n")
                self.assertFalse(other.is_answered_within(1))
                # one that comes and leaves has it look for others
                for _ in range(most):
                    server.client().close()
                self.assertEqual((other.told(), silent.told()), (lines("err 21 seat"), b""))
                # the session that was begun goes on to its end
                self.assertEqual(client.ask("set A1 5"), "ok 1")
                self.assertTrue(server.is_running())
                self.assertEqual(client.leave(), b"")
                self.assertEqual(server.ended(), Ended(1, b"", DEVICE_FAILED))


class CommandLine(ProgramTest):
    def test_numbers_that_are_missing_or_out_of_range(self):
        for words in ([], ["--sessions", "1"], ["--port", "0", "--sessions", "1"],
                      ["--port", "65536", "--sessions", "1"], ["--port", "7001", "--sessions", "0"],
                      ["--port", "7001", "--sessions", "1000001"], ["--port", "x", "--sessions", "1"],
                      ["--port", "7001", "--seats", "0"], ["--port", "7001", "--seats", "257"],
                      ["--port", "7001", "--wait", "61"], ["--port", "7001", "--idle", "0"],
                      ["--port", "7001", "--idle", "86401"], ["--port", "7001", "--sessions"],
                      ["--port", "7001", "--sessions", "1", "--replica", "33"],
                      ["--port", "7001", "--sessions", "1", "--workers", "17"]):
            with self.subTest(words=words):
                ended = run("serve", *words)
                self.assertEqual((ended.status, ended.output), (2, b""))
                self.assertIn(b"For more information, try '--help'.", ended.error)

    def test_the_help_has_an_example(self):
        ended = run("serve", "--help")
        self.assertEqual(ended.status, 0)
        self.assertIn(b"  sheet serve --port 7001 --sessions 2 --replica 1\n", ended.output)
        for word in (b"--port", b"--sessions", b"--seats", b"--wait", b"--idle", b"--workers", b"--replica",
                     b"1 to 65535", b"1 to 1000000", b"1 to 256", b"0 to 60", b"1 to 86400", b"1 to 32"):
            self.assertIn(word, ended.output)
