"""The seats of `sheet serve`: they go on from one session to the next, and one that finds none waits, and hears so."""
import contextlib
import resource
import threading
import time
from pathlib import Path

import preloaded
from browser_socket import Ended as ClosedSocket
from browser_socket import WebSocket, answer, request
from preloaded import PROGRAM
from program import LIMIT, Ended, ProgramTest, lines
from servers import FILES, THREADS, Client, comes_to, serving

NO_SEAT = lines("err 21 seat")
# How many connections may wait for a slot, and how many may have sent nothing yet (`docs/FORMATS.md`).
MOST_WAITING, MOST_UNHEARD = 512, 200
# The longest that a server takes to see that something has changed, in seconds, on a machine that does much else.
SOON = LIMIT / 2
# What is surely less, in seconds, than the 25 after which a wait ends by itself.
BEFORE_ITS_END = 15


class Memory:
    """The memory, threads and files of a process, from /proc."""

    def __init__(self, process):
        self.folder = Path(f"/proc/{process}")

    def number(self, name):
        """A number of the process's status."""
        status = (self.folder / "status").read_text().splitlines()
        return int(next(line.split()[1] for line in status if line.startswith(f"{name}:")))

    def resident(self):
        """The kilobytes of memory that it has."""
        return self.number("VmRSS")

    def threads(self):
        """How many threads it has."""
        return self.number("Threads")

    def files(self):
        """How many files it has open."""
        return len(list((self.folder / "fd").iterdir()))

    def turns(self):
        """How often its threads were given a processor."""
        rows = [row for task in (self.folder / "task").iterdir()
                for row in (task / "status").read_text().splitlines() if "ctxt_switches" in row]
        return sum(int(row.split()[1]) for row in rows)


def beside(task, count):
    """Runs this task so many times at once, each with its number, and raises what one of them raised."""
    troubles = []

    def run(number):
        try:
            task(number)
        except BaseException as trouble:
            troubles.append(trouble)

    threads = [threading.Thread(target=run, args=(number,)) for number in range(count)]
    for thread in threads:
        thread.start()
    for thread in threads:
        thread.join()
    if troubles:
        raise troubles[0]


def turned_away(server):
    """The reply to a session of lines at a server without a free slot."""
    client = server.client()
    client.send(b"get A1\n")
    return client.told()


class Turns(ProgramTest):
    def test_a_seat_goes_to_the_next_with_all_that_was_seen_at_it(self):
        with serving(3, "--seats", "1", "--wait", "60") as server:
            first, second, third = (server.client() for _ in range(3))
            self.assertEqual(first.ask("set A1 1"), "ok 1")
            second.send(b"get A1\nset A1 2\n")
            self.assertFalse(second.is_answered_within(0.2))
            self.assertEqual(first.leave(), b"")
            self.assertEqual((second.reply(), second.reply()), ("val 1", "ok 2"))
            third.send(b"get A1\n")
            self.assertFalse(third.is_answered_within(0.2))
            self.assertEqual(second.leave(), b"")
            self.assertEqual(third.reply(), "val 2")
            self.assertEqual(third.leave(), b"")
            self.assertEqual(server.ended(), Ended(0, lines("closed 2")))

    def test_those_that_wait_come_in_the_order_in_which_they_came(self):
        with serving(6, "--seats", "1", "--wait", "60") as server:
            holder = server.client()
            self.assertEqual(holder.ask("set A1 0"), "ok 1")
            clients = [server.client() for _ in range(5)]
            # (in another order than they connected: what counts is the first byte)
            clients.reverse()
            for number, client in enumerate(clients, 1):
                client.send(lines(f"set A1 {number}"))
                client.stop_sending()
                time.sleep(0.3)
            holder.leave()
            self.assertEqual([client.rest() for client in clients], [lines(f"ok {number}") for number in range(2, 7)])
            self.assertEqual(server.ended(), Ended(0, lines("closed 6")))

    def test_without_a_number_of_sessions_it_serves_on(self):
        with serving(None) as server:
            for number in range(1, 41):
                client = server.client()
                self.assertEqual(client.ask(f"set A{number} {number}"), f"ok {number}")
                client.leave()
            last = server.client()
            self.assertEqual(last.ask("set B1 =SUM([.A1:.A40])"), "ok 41")
            self.assertEqual(last.ask("get B1"), "val 820")
            last.leave()
            self.assertTrue(server.is_running())

    def test_so_many_sessions_end_it_though_they_are_more_than_the_seats(self):
        with serving(40, "--wait", "60") as server:
            def change(number):
                client = Client(server.port)
                client.send(lines(f"set A{number + 1} 1"))
                self.assertTrue(client.leave().startswith(b"ok "))

            beside(change, 40)
            self.assertEqual(server.ended(), Ended(0, lines("closed 40")))


class Waiting(ProgramTest):
    def test_sixty_four_at_a_time_and_the_next_is_told_after_its_wait(self):
        with serving(None, "--wait", "1") as server:
            clients = [server.client() for _ in range(64)]
            for number, client in enumerate(clients, 1):
                self.assertEqual(client.ask(f"set A{number} {number}"), f"ok {number}")
            begun = time.monotonic()
            late = server.client()
            late.send(b"get A1\n")
            self.assertEqual(late.told(), NO_SEAT)
            self.assertGreaterEqual(time.monotonic() - begun, 0.9)
            self.assertLess(time.monotonic() - begun, 1 + SOON)
            # the others go on, and a seat that is left is given
            for client in clients:
                self.assertEqual(client.ask("get A64"), "val 64")
            clients[0].leave()
            self.assertTrue(comes_to(lambda: self.is_answered(server.client(), "get A64", "val 64"), SOON))

    def test_256_at_a_time_where_they_are_asked_for(self):
        with serving(None, "--seats", "256", "--wait", "0") as server:
            clients = []
            for number in range(1, 257):
                clients.append(server.client())
                self.assertEqual(clients[-1].ask(f"set A{number} {number}"), f"ok {number}")
            for _ in range(3):
                self.assertEqual(turned_away(server), NO_SEAT)
            # the first, one beyond a word's bits, and the last
            for number in (1, 65, 256):
                self.assertEqual(clients[number - 1].ask("get A256"), "val 256")
            # each slot is given again alone: a session that is over ends no other one
            for number in (65, 1, 256, 129):
                self.assertEqual(clients[number - 1].leave(), b"")
                self.assertTrue(comes_to(lambda: self.is_taken(server, clients, number - 1), SOON))
                self.assertEqual(turned_away(server), NO_SEAT)
            for client in clients:
                self.assertEqual(client.ask("get A1"), "val 1")

    def is_taken(self, server, clients, number):
        """Whether a session gets a slot, and then it has this place among the clients."""
        client = server.client()
        client.send(lines("get A256"))
        if client.reply() != "val 256":
            return False
        clients[number] = client
        return True

    def is_answered(self, client, line, reply):
        """Whether a session gets a slot, and this reply to a line; else the reply that there is none."""
        client.send(lines(line))
        client.stop_sending()
        found = client.told()
        self.assertIn(found, (lines(reply), NO_SEAT))
        return found == lines(reply)

    def test_who_waits_is_told_after_the_time_that_is_asked_for_and_else_after_five_seconds(self):
        asked = (((), 5), (("--wait", "6"), 6))

        def wait(number):
            words, seconds = asked[number]
            with serving(None, "--seats", "1", *words) as server:
                self.assertEqual(server.client().ask("set A1 5"), "ok 1")
                begun = time.monotonic()
                self.assertEqual(turned_away(server), NO_SEAT)
                self.assertGreaterEqual(time.monotonic() - begun, 0.95 * seconds)
                self.assertLess(time.monotonic() - begun, seconds + SOON)

        beside(wait, len(asked))

    def test_nobody_waits_where_no_wait_is_asked_for(self):
        with serving(None, "--seats", "1", "--wait", "0") as server:
            client = server.client()
            self.assertEqual(client.ask("set A1 5"), "ok 1")
            for _ in range(3):
                self.assertEqual(turned_away(server), NO_SEAT)
            client.leave()
            self.assertTrue(comes_to(lambda: server.client().leave() == b"", SOON))
            self.assertTrue(server.is_running())

    def test_nobody_is_turned_away_while_a_slot_is_free(self):
        with serving(None, "--wait", "0") as server:
            def come(_):
                for _ in range(200):
                    client = Client(server.port)
                    self.assertEqual(client.ask("get A1"), "val ")
                    self.assertEqual(client.leave(), b"")

            # (with as many slots left as sessions that have gone, and that the server may not know of yet)
            beside(come, 5)

    def test_a_connection_that_says_nothing_takes_no_slot(self):
        with serving(2, "--seats", "1", "--wait", "0") as server:
            silent = [server.client() for _ in range(20)]
            client = server.client()
            self.assertEqual(client.ask("set A1 5"), "ok 1")
            silent[0].send(b"g")
            self.assertFalse(silent[0].is_answered_within(0.2))
            silent[0].send(b"et A")
            self.assertEqual(silent[0].told(), NO_SEAT)
            self.assertEqual(client.leave(), b"")
            self.assertTrue(comes_to(lambda: self.is_answered(silent.pop(), "get A1", "val 5"), SOON))
            # the others are closed when the server ends, with nothing said to them
            self.assertEqual(server.ended(), Ended(0, lines("closed 1")))
            self.assertEqual({it.told() for it in silent[1:]}, {b""})

    def test_who_was_told_counts_as_no_session(self):
        with serving(2, "--seats", "1", "--wait", "0") as server:
            client = server.client()
            self.assertEqual(client.ask("set A1 5"), "ok 1")
            for _ in range(5):
                self.assertEqual(turned_away(server), NO_SEAT)
            client.leave()
            deadline = time.monotonic() + SOON
            while server.is_running() and time.monotonic() < deadline:
                try:
                    server.client().leave()
                except OSError:
                    # its port is closed: it has ended
                    break
            self.assertEqual(server.ended(), Ended(0, lines("closed 1")))

    def test_one_that_closes_while_it_waits(self):
        with serving(None, "--seats", "1", "--wait", "60") as server:
            client = server.client()
            self.assertEqual(client.ask("set A1 5"), "ok 1")
            for number in range(4):
                gone = server.client()
                gone.send(b"set A1 6" if number % 2 else b"")
                (gone.reset if number < 2 else gone.close)()
            other = server.client()
            other.send(b"get A2\n")
            self.assertFalse(other.is_answered_within(0.2))
            self.assertEqual(client.ask("get A1"), "val 5")
            client.leave()
            self.assertEqual(other.reply(), "val ")

    def test_more_than_may_wait_are_told_at_once(self):
        with serving(None, "--seats", "1", "--wait", "60") as server:
            client = server.client()
            self.assertEqual(client.ask("set A1 5"), "ok 1")
            others = []
            for _ in range(MOST_WAITING + 1):
                others.append(server.client())
                others[-1].send(b"get A1\n")

            def told():
                return [it for it in others if it.is_answered_within(0)]

            # mostly the last one; but where they come faster than a busy server takes them, the system may have taken
            # them in another order
            self.assertTrue(comes_to(told))
            self.assertEqual(client.ask("get A1"), "val 5")
            [over] = told()
            self.assertEqual(over.told(), NO_SEAT)

    def test_more_than_may_say_nothing_are_told_at_once(self):
        with serving(None, "--seats", "1") as server:
            others = [server.client() for _ in range(MOST_UNHEARD + 1)]

            def told():
                return [it for it in others if it.is_answered_within(0)]

            self.assertTrue(comes_to(told))
            [over] = told()
            # the one that has been silent longest
            self.assertEqual(others.index(over), 0)
            self.assertEqual(over.told(), NO_SEAT)
            others.remove(over)
            others.pop().close()

            def is_let_in():
                client = server.client()
                client.send(b"get A1\n")
                client.stop_sending()
                return client.told() == b"val \n"

            self.assertTrue(comes_to(is_let_in))

    def test_many_that_say_nothing_end_no_server_that_may_have_1024_files(self):
        # (a connection may take one file or two)
        for most in (1_024, 1_025):
            def bound():
                resource.setrlimit(resource.RLIMIT_NOFILE, (most, most))

            with self.subTest(most=most), serving(None, program=PROGRAM, preexec_fn=bound) as server:
                client = server.client()
                self.assertEqual(client.ask("set A1 5"), "ok 1")
                others = [server.client() for _ in range(600)]
                self.assertTrue(comes_to(lambda: any(it.is_answered_within(0) for it in others), SOON))
                self.assertEqual(client.ask("get A1"), "val 5")
                for other in others:
                    other.close()
                self.assertEqual(client.ask("get A1"), "val 5")
                client.leave()
                self.assertTrue(comes_to(lambda: self.is_answered(server.client(), "get A1", "val 5"), SOON))
                self.assertTrue(server.is_running())


class Idle(ProgramTest):
    """With `--idle`. A machine that does much else may not let this side send in time: then it tries again."""

    def begun(self, server, given, reply, **how):
        """A session that has sent these bytes in time and got this reply, and a time before it sent them."""
        for _ in range(LIMIT):
            begun = time.monotonic()
            client = server.client(**how)
            with contextlib.suppress(ConnectionError, EOFError):
                client.send(given)
                self.assertEqual(client.reply(), reply)
                return client, begun
            self.assertGreaterEqual(time.monotonic() - begun, 0.9)
        self.fail("no session could send in time")

    def test_a_session_whose_peer_sends_nothing_ends(self):
        with serving(None, "--seats", "1", "--idle", "1", "--wait", "60") as server:
            silent, begun = self.begun(server, b"set A1 5\nget A", "ok 1")
            self.assertEqual(server.client().ask("get A1"), "val 5")
            self.assertGreaterEqual(time.monotonic() - begun, 0.9)
            self.assertLess(time.monotonic() - begun, 1 + SOON)
            self.assertEqual(silent.rest(), b"")

    def test_it_ends_after_the_time_that_is_asked_for_and_else_never(self):
        # (a wait of a minute is made ten times shorter, and no shorter one is: `hasten.c`)
        library = preloaded.build("hasten.c", self.folder() / "hasten.so")
        how = {"program": PROGRAM, "env": preloaded.before(library)}
        lasting = 60 / 10

        def is_silent(number):
            words = (("--idle", "60"), ())[number]
            with serving(None, *words, **how) as server:
                client = server.client()
                self.assertEqual(client.ask("set A1 5"), "ok 1")
                since = time.monotonic()
                if not words:
                    self.assertFalse(client.is_answered_within(lasting + 1))
                    self.assertEqual(client.ask("get A1"), "val 5")
                    return
                self.assertEqual(client.rest(), b"")
                self.assertGreaterEqual(time.monotonic() - since, 0.95 * lasting)
                self.assertLess(time.monotonic() - since, lasting + SOON)

        beside(is_silent, 2)

    def test_one_that_sends_now_and_then_goes_on(self):
        idle, pause, count = 2, 0.5, 6
        with serving(None, "--seats", "1", "--idle", str(idle), "--wait", "60") as server:
            def goes_on():
                client, sent = server.client(), time.monotonic()
                try:
                    for _ in range(count):
                        time.sleep(pause)
                        since, sent = sent, time.monotonic()
                        self.assertEqual(client.ask("get A1"), "val ")
                    return True
                except (ConnectionError, EOFError):
                    # (to end it is right only after so long)
                    self.assertGreaterEqual(time.monotonic() - since, idle - 0.1)
                    return False

            self.assertTrue(comes_to(goes_on))

    def test_a_session_whose_peer_never_reads_ends(self):
        with serving(None, "--seats", "1", "--idle", "1", "--wait", "60") as server:
            client, _ = self.begun(server, lines(f"set A2 {'x' * 64}"), "ok 1", room=10_000)
            # (where it ends meanwhile, the connection is broken off)
            with contextlib.suppress(ConnectionError):
                self.assertTrue(client.send_to_the_brim(b"get A2\n" * 10_000, most=1_000))
            self.assertEqual(server.client().ask("get A3"), "val ")

    def test_without_it_a_session_waits(self):
        with serving(None, "--seats", "1", "--wait", "1") as server:
            client = server.client()
            self.assertEqual(client.ask("set A1 5"), "ok 1")
            self.assertEqual(turned_away(server), NO_SEAT)
            self.assertEqual(client.ask("get A1"), "val 5")


class FirstLine(ProgramTest):
    """Who never sends a whole line has a slot for half a minute, where no other time is asked for."""

    def test_half_a_line_and_then_nothing(self):
        # (a wait of half a minute is made ten times shorter: `hasten.c`)
        library = preloaded.build("hasten.c", self.folder() / "hasten.so")
        lasting = 30 / 10
        with serving(None, program=PROGRAM, env=preloaded.before(library)) as server:
            def is_dropped(sent):
                client, begun = Client(server.port), time.monotonic()
                client.send(sent)
                # (what was begun is no line)
                self.assertEqual(client.rest(), b"")
                self.assertGreaterEqual(time.monotonic() - begun, 0.95 * lasting)
                self.assertLess(time.monotonic() - begun, lasting + SOON)

            def goes_on(sent):
                client = Client(server.port)
                for piece in sent:
                    client.send(piece)
                    time.sleep(0.3 * lasting)
                self.assertEqual(client.reply(), "val ")
                time.sleep(1.5 * lasting)
                self.assertEqual(client.ask("get A1"), "val ")

            def silent(sent):
                # what may begin a request takes no slot, and so it may be silent for longer
                client = Client(server.port)
                client.send(sent)
                time.sleep(1.5 * lasting)
                client.send(b"get A1\n"[len(sent):])
                self.assertEqual(client.reply(), "val ")

            tasks = ((is_dropped, b"set A1"), (is_dropped, b"get A"), (goes_on, (b"get A1\n",)),
                     (goes_on, (b"get ", b"A1", b"\n")), (silent, b""), (silent, b"g"), (silent, b"get "))
            beside(lambda number: tasks[number][0](tasks[number][1]), len(tasks))


class Gone(ProgramTest):
    """A session that waits for changes by `wait` gives its slot up soon after its peer has gone."""

    def test_the_slot_of_one_that_waits_is_free_soon_after_it_has_gone(self):
        def by_lines(server):
            client = server.client()
            client.send(b"wait 0\n")
            return client

        def by_page(server):
            socket = WebSocket(server.port)
            socket.send("wait 0")
            return socket.connection

        for begin in (by_lines, by_page):
            for end in (lambda it: it.reset() if hasattr(it, "reset") else it.close(), lambda it: it.close()):
                with serving(None, "--seats", "1", "--wait", "60") as server:
                    waits = begin(server)
                    time.sleep(0.3)
                    other = server.client()
                    other.send(b"get A1\n")
                    self.assertFalse(other.is_answered_within(0.3))
                    begun = time.monotonic()
                    end(waits)
                    self.assertEqual(other.reply(), "val ")
                    self.assertLess(time.monotonic() - begun, BEFORE_ITS_END)

    def test_the_slot_of_each_of_several_that_wait_is_free_soon_after_it_has_gone(self):
        with serving(None, "--seats", "8", "--wait", "60") as server:
            waiting = [server.client() for _ in range(8)]
            for client in waiting:
                self.assertEqual(client.ask("get A1"), "val ")
                client.send(b"wait 0\n")
            self.assertFalse(waiting[-1].is_answered_within(0.3))
            for client in waiting:
                other = server.client()
                other.send(b"get A1\n")
                self.assertFalse(other.is_answered_within(0.1))
                begun = time.monotonic()
                client.close()
                self.assertEqual(other.reply(), "val ")
                self.assertLess(time.monotonic() - begun, BEFORE_ITS_END)
                # so that all slots have one that waits again
                other.send(b"wait 0\n")


class Both(ProgramTest):
    """Sessions of lines and pages have the same slots."""

    def test_a_hundred_sessions_half_of_which_are_pages(self):
        count, rounds = 100, 5
        with serving(None, "--seats", str(count), "--wait", "60") as server:
            def play(number):
                name = f"{'AB'[number % 2]}{number // 2 + 1}"
                if number % 2:
                    with WebSocket(server.port) as socket:
                        for value in range(1, rounds + 1):
                            self.assertRegex(socket.ask(f"set {name} {value}"), r"^ok \d+\n$")
                            self.assertEqual(socket.ask(f"get {name}"), f"val {value}\n")
                else:
                    client = Client(server.port)
                    for value in range(1, rounds + 1):
                        self.assertRegex(client.ask(f"set {name} {value}"), r"^ok \d+$")
                        self.assertEqual(client.ask(f"get {name}"), f"val {value}")
                    client.leave()

            beside(play, count)
            client = server.client()
            self.assertEqual(client.ask("set C1 =SUM([.A1:.B50])"), f"ok {count * rounds + 1}")
            self.assertEqual(client.ask("get C1"), f"val {count * rounds}")

    def test_the_last_slot_is_wanted_by_a_line_and_a_page_at_the_same_moment(self):
        with serving(None, "--seats", "2", "--wait", "1") as server:
            # (with a wait, for the server may not know yet that the session before has ended)
            holder = server.client()
            self.assertEqual(holder.ask("set A1 5"), "ok 1")
            for _ in range(10):
                told, both = [None, None], threading.Barrier(2)

                def line():
                    client = Client(server.port)
                    both.wait()
                    client.send(b"get A1\n")
                    told[0] = client.reply()
                    return client.close

                def page():
                    both.wait()
                    try:
                        socket = WebSocket(server.port)
                        socket.send("get A1")
                        told[1] = socket.reply()
                        return socket.connection.close
                    except (ConnectionError, ClosedSocket):
                        told[1] = "closed"
                        return lambda: None

                ends = [None, None]

                def run(number):
                    ends[number] = (line, page)[number]()

                beside(run, 2)
                self.assertIn(tuple(told), {("val 5", "closed"), ("err 21 seat", "val 5\n")})
                for end in ends:
                    end()
                self.assertTrue(comes_to(lambda: self.is_free(server), SOON))
            self.assertEqual(holder.ask("get A1"), "val 5")

    def is_free(self, server):
        """Whether there is a free slot."""
        client = server.client()
        client.send(b"get A1\n")
        client.stop_sending()
        return client.told() == b"val 5\n"


class Last(ProgramTest):
    """Once as many sessions have begun as were asked for."""

    def test_requests_are_answered_and_who_wants_a_slot_is_told(self):
        with serving(2) as server:
            first, second = server.client(), server.client()
            self.assertEqual(first.ask("set A1 5"), "ok 1")
            self.assertEqual(second.ask("get A1"), "val 5")
            for _ in range(3):
                self.assertEqual(answer(server.port, request(server.port))[0], 200)
                self.assertEqual(answer(server.port, request(server.port, path="/about"))[0], 200)
                self.assertEqual(turned_away(server), NO_SEAT)
            first.leave()
            self.assertEqual(answer(server.port, request(server.port))[0], 200)
            self.assertEqual(turned_away(server), NO_SEAT)
            self.assertTrue(server.is_running())
            second.leave()
            self.assertEqual(server.ended(), Ended(0, lines("closed 1")))

    def test_who_waits_as_the_last_session_begins_is_told(self):
        with serving(2, "--seats", "1", "--wait", "60") as server:
            first, last, late = server.client(), server.client(), server.client()
            self.assertEqual(first.ask("get A1"), "val ")
            for client in (last, late):
                client.send(b"get A1\n")
                self.assertFalse(client.is_answered_within(0.3))
            self.assertEqual(first.leave(), b"")
            self.assertEqual(last.reply(), "val ")
            begun = time.monotonic()
            self.assertEqual(late.told(), NO_SEAT)
            self.assertLess(time.monotonic() - begun, SOON)
            self.assertEqual(last.ask("set A1 1"), "ok 1")
            self.assertEqual(last.leave(), b"")
            self.assertEqual(server.ended(), Ended(0, lines("closed 1"), b""))


class Many(ProgramTest):
    def test_memory_and_threads_stay_as_they_are_over_10_000_sessions_by_32_clients(self):
        clients, first, second, third = 32, 10, 100, 203
        self.assertGreater(clients * (first + second + third), 10_000)
        # (without the launcher, whose process isn't meant)
        with serving(None, "--wait", "60", program=PROGRAM) as server:
            process = Memory(server.session.pid)

            def sessions(each, *given):
                def play(number):
                    for _ in range(each):
                        client = Client(server.port)
                        client.send(lines(*given))
                        self.assertEqual(client.leave()[:3], b"val")

                return play

            def has_settled():
                """Whether no session is left."""
                return (process.threads(), process.files()) == (THREADS, FILES)

            beside(sessions(first, "get B1", "set A1 1"), clients)
            self.assertTrue(comes_to(has_settled))
            before = process.resident()
            # they change nothing, so nothing of them stays
            beside(sessions(second, "get B1", "rows A1:B2", "walk"), clients)
            self.assertTrue(comes_to(has_settled))
            between = process.resident()
            self.assertLess(between - before, 2_000)
            # of each that changes something a change stays, of some 500 bytes
            beside(sessions(third, "get B1", "set A1 1"), clients)
            self.assertTrue(comes_to(has_settled))
            self.assertLess(process.resident() - between, 2_000 + clients * third)
            last = server.client()
            self.assertEqual(last.ask("set A1 5"), f"ok {clients * (first + third) + 1}")
