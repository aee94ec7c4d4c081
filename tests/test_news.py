"""The news of `sheet serve`: a second WebSocket of a page, which says how many changes there are."""
import contextlib
import select
import threading
import time

import browser_socket
from browser_socket import BINARY, CLOSE, PING, PONG, TEXT, WebSocket, answer, connection_to, frame, upgrade
from preloaded import PROGRAM
from program import LIMIT, Ended, ProgramTest, lines
from servers import Client, comes_to, serving
from test_seats import Memory

# How many browsers may be told at a time.
MOST = 512
# Within how many seconds a change is reported, and within how many one that went away is noticed, on a machine that does
# much else.
SOON, NOTICED = 5, 5
# Within how many seconds what comes at once comes, on the average.
AT_ONCE = 0.12
# The threads that a server has without a session, and the most turns of a processor that these have in three seconds
# in which nothing changes.
OWN_THREADS, MOST_TURNS = 3, 10


class NewsTest(ProgramTest):
    """A test of the news of a server."""

    words = ()

    def setUp(self):
        with contextlib.ExitStack() as stack:
            self.server = stack.enter_context(serving(None, *self.words, program=PROGRAM))
            self.addCleanup(stack.pop_all().close)
        self.port = self.server.port
        process = Memory(self.server.session.pid)
        self.assertTrue(comes_to(lambda: process.threads() == OWN_THREADS, NOTICED))

    def news(self, **how):
        """The news of the server, as the page opens them."""
        opened = WebSocket(self.port, path="/news", **how)
        self.addCleanup(opened.connection.close)
        return opened

    def live(self):
        """A session of a page."""
        opened = WebSocket(self.port)
        self.addCleanup(opened.connection.close)
        return opened

    def files(self):
        """How many files the server has open."""
        return Memory(self.server.session.pid).files()

    def is_silent(self, news, seconds):
        """Whether nothing comes for so long."""
        return not news.bytes and not select.select([news.connection], [], [], seconds)[0]


class Told(NewsTest):
    def test_how_many_changes_there_are_at_once(self):
        self.assertEqual(self.news().receive(), "version 0")
        client = self.server.client()
        for number in range(1, 13):
            self.assertEqual(client.ask(f"set A{number} 1"), f"ok {number}")
        self.assertEqual(self.news().receive(), "version 12")

    def test_each_change_by_whichever_session(self):
        news, client, page = self.news(), self.server.client(), self.live()
        self.assertEqual(news.receive(), "version 0")
        self.assertEqual(client.ask("set A1 1"), "ok 1")
        self.assertEqual(news.receive(), "version 1")
        self.assertEqual(page.ask("set A1 2"), "ok 2\n")
        self.assertEqual(news.receive(), "version 2")
        # what changes nothing isn't told
        client.send(lines("get A1", "walk", 'push [["A1",[1,1,"1"],[],[]]]'))
        self.assertEqual([client.reply() for _ in range(3)], ["val 2", "err 16 command", "ok 2"])
        self.assertTrue(self.is_silent(news, 1.2))

    def test_soon(self):
        news, client, times = self.news(), self.server.client(), []
        news.receive()
        for number in range(1, 51):
            begun = time.monotonic()
            client.send(lines(f"set A1 {number}"))
            self.assertEqual(news.receive(), f"version {number}")
            times.append(time.monotonic() - begun)
            self.assertEqual(client.reply(), f"ok {number}")
        # (a machine that does much else may be late now and then)
        self.assertLess(sorted(times)[len(times) // 2], 0.05)

    def test_of_many_changes_the_newest_alone(self):
        news, client, count = self.news(), self.server.client(), 5_000
        self.assertEqual(news.receive(), "version 0")
        client.send(lines(*(f"set A{number % 1_000 + 1} {number}" for number in range(count))))
        told = [int(news.receive().removeprefix("version "))]
        while told[-1] < count:
            told.append(int(news.receive().removeprefix("version ")))
        self.assertEqual(told, sorted(set(told)))
        self.assertEqual(told[-1], count)

    def test_two_hundred_at_a_time(self):
        all_news = [self.news() for _ in range(200)]
        self.assertEqual({it.receive() for it in all_news}, {"version 0"})
        client = self.server.client()
        self.assertEqual(client.ask("set A1 1"), "ok 1")
        self.assertEqual({it.receive() for it in all_news}, {"version 1"})

    def test_it_takes_no_seat(self):
        with serving(None, "--seats", "1", "--wait", "0") as server:
            self.port = server.port
            all_news = [self.news() for _ in range(5)]
            self.assertEqual(self.live().ask("set A1 1"), "ok 1\n")
            for news in all_news:
                self.assertEqual(news.receive()[:8], "version ")
            # and it isn't counted among those that are here
            self.assertEqual(answer(self.port, browser_socket.request(self.port, path="/about"))[2], b"1\n\n")

    def test_of_a_kept_sheet(self):
        with serving(None, "--keep", str(self.folder() / "kept.lines")) as server:
            self.port = server.port
            news, client = self.news(), server.client()
            self.assertEqual(news.receive(), "version 0")
            self.assertEqual(client.ask("set A1 1"), "ok 1")
            self.assertEqual(news.receive(), "version 1")


class Refused(NewsTest):
    def assert_status(self, wanted, head):
        """A head is answered by this status, with no body."""
        status, _, body = answer(self.port, head)
        self.assertEqual((status, body), (wanted, b""))

    def test_other_origins_and_hosts(self):
        port = self.port
        for origin in ("http://example.org", f"http://example.org:{port}", f"https://127.0.0.1:{port}", "null", "",
                       f"http://127.0.0.1:{port + 1}", "http://127.0.0.1", f"http://localhost:{port}"):
            with self.subTest(origin=origin):
                self.assert_status(403, upgrade(port, origin=origin, path="/news"))
        for host in ("example.org", f"127.0.0.1.example.org:{port}", f"elsewhere.localhost:{port}"):
            with self.subTest(host=host):
                self.assert_status(403, upgrade(port, host=host, origin=f"http://{host}", path="/news"))

    def test_what_is_no_handshake(self):
        self.assert_status(405, upgrade(self.port, path="/news", method="POST"))
        self.assert_status(400, upgrade(self.port, path="/news", key="short"))
        self.assert_status(404, upgrade(self.port, path="/news/"))
        self.assert_status(404, upgrade(self.port, path="/new"))

    def test_one_more_than_may_be(self):
        all_news = [self.news() for _ in range(MOST)]
        for news in all_news:
            news.receive()
        self.assert_status(503, upgrade(self.port, path="/news"))
        # the page and sessions go on
        self.assertEqual(answer(self.port, browser_socket.request(self.port))[0], 200)
        self.assertEqual(self.live().ask("set A1 5"), "ok 1\n")
        all_news.pop().connection.close()

        def is_open():
            with contextlib.suppress(browser_socket.Ended):
                return self.news().receive() == "version 1"
            return False

        self.assertTrue(comes_to(is_open, NOTICED))


class Ends(NewsTest):
    def test_a_browser_that_goes_away(self):
        before = self.files()
        ways = (lambda it: it.connection.close(), lambda it: it.connection.sendall(frame(CLOSE, b"\x03\xe9")),
                lambda it: it.connection.sendall(frame(TEXT, b"x", is_masked=False)),
                lambda it: it.connection.shutdown(1), lambda it: it.connection.sendall(frame(TEXT, b"\xff")))
        for way in ways:
            all_news = [self.news() for _ in range(5)]
            for news in all_news:
                news.receive()
            self.assertEqual(self.files(), before + 5)
            for news in all_news:
                way(news)
            self.assertTrue(comes_to(lambda: self.files() == before, NOTICED))

    def test_what_a_browser_says_is_passed_over(self):
        news, client = self.news(), self.server.client()
        self.assertEqual(news.receive(), "version 0")
        for payload in (frame(TEXT, b"set A1 5"), frame(BINARY, b"set A1 5\n"), frame(TEXT, b"x" * 4_000),
                        frame(TEXT, b"set", first=0), frame(0, b" A1 5")):
            news.connection.sendall(payload)
        news.connection.sendall(frame(PING, b"there?"))
        self.assertEqual(news.receive_frame(), (PONG, False, b"there?"))
        self.assertEqual(client.ask("pull 0"), "end 0")
        self.assertEqual(client.ask("set A1 6"), "ok 1")
        self.assertEqual(news.receive(), "version 1")
        # half a message, and the rest later
        half = frame(PING, b"still?")
        news.connection.sendall(half[:3])
        time.sleep(1.2)
        news.connection.sendall(half[3:])
        self.assertEqual(news.receive_frame(), (PONG, False, b"still?"))

    def test_a_browser_that_never_reads_holds_nothing_up(self):
        before = self.files()
        deaf = [self.news(room=2_000) for _ in range(20)]
        # some that even ask to be answered, and read no answer
        for news in deaf[:5]:
            news.connection.sendall(frame(PING, b"x" * 125) * 900)
        hearing, client = self.news(), self.server.client()
        self.assertEqual(hearing.receive(), "version 0")
        for number in range(1, 3_001):
            self.assertEqual(client.ask(f"set A1 {number}"), f"ok {number}")
            begun = time.monotonic()
            self.assertEqual(hearing.receive(), f"version {number}")
            self.assertLess(time.monotonic() - begun, SOON)
        client.leave()
        hearing.connection.close()
        self.assertEqual(len(deaf), 20)
        self.assertTrue(self.server.is_running())
        for news in deaf:
            news.connection.close()
        self.assertTrue(comes_to(lambda: self.files() == before, NOTICED))

    def test_the_end_of_the_server(self):
        for words in ((), ("--keep", str(self.folder() / "kept.lines"))):
            with self.subTest(words=words), serving(1, *words) as server:
                self.port = server.port
                news = [self.news() for _ in range(3)]
                for it in news:
                    self.assertEqual(it.receive(), "version 0")
                client = server.client()
                self.assertEqual(client.ask("set A1 5"), "ok 1")
                client.leave()
                begun = time.monotonic()
                ended = server.ended()
                self.assertEqual((ended.status, ended.output), (0, lines("closed 1")))
                self.assertLess(time.monotonic() - begun, 1 + NOTICED)
                for it in news:
                    self.assertIn(it.closing(), ((1001, "the server ends"), (None, "")))

    def test_the_end_of_the_server_is_told_at_once(self):
        taken = 0
        for _ in range(5):
            with serving(1) as server:
                self.port = server.port
                news = self.news()
                self.assertEqual(news.receive(), "version 0")
                client = server.client()
                self.assertEqual(client.ask("set A1 5"), "ok 1")
                self.assertEqual(news.receive(), "version 1")
                begun = time.monotonic()
                client.leave()
                self.assertEqual(news.closing(), (1001, "the server ends"))
                taken += time.monotonic() - begun
        self.assertLess(taken, 5 * AT_ONCE)

    def test_one_that_floods_is_ended(self):
        news, other = self.news(), self.news()
        self.assertEqual([it.receive() for it in (news, other)], ["version 0"] * 2)
        with contextlib.suppress(OSError):
            for _ in range(100):
                news.connection.sendall(frame(TEXT, b"x") * 10_000)
        self.assertEqual(self.server.client().ask("set A1 1"), "ok 1")
        self.assertEqual(other.receive(), "version 1")

    def test_where_no_thread_can_be_started_it_is_refused(self):
        def bound():
            import resource
            resource.setrlimit(resource.RLIMIT_STACK, (1 << 36, resource.getrlimit(resource.RLIMIT_STACK)[1]))
            resource.setrlimit(resource.RLIMIT_AS, (1 << 35, 1 << 35))

        with serving(None, program=PROGRAM, preexec_fn=bound) as server:
            self.port = server.port
            status, _, body = answer(server.port, upgrade(server.port, path="/news"))
            self.assertEqual((status, body), (503, b""))
            client = server.client()
            self.assertEqual(client.ask("set A1 5"), "ok 1")
            client.leave()


class Cost(NewsTest):
    def test_it_costs_next_to_nothing_while_nothing_changes(self):
        all_news = [self.news() for _ in range(100)]
        for news in all_news:
            news.receive()
        server = Memory(self.server.session.pid)
        self.assertTrue(comes_to(lambda: server.threads() == OWN_THREADS, NOTICED))
        before = server.turns()
        time.sleep(3)
        self.assertLessEqual(server.turns() - before, MOST_TURNS)

    def test_a_change_wakes_no_thread_for_each(self):
        client, all_news = self.server.client(), [self.news() for _ in range(100)]
        for news in all_news:
            news.receive()
        server, count = Memory(self.server.session.pid), 20
        self.assertTrue(comes_to(lambda: server.threads() == OWN_THREADS + 1, NOTICED))
        self.assertEqual(client.ask("get A1"), "val ")
        before = server.turns()
        for number in range(1, count + 1):
            self.assertEqual(client.ask(f"set A1 {number}"), f"ok {number}")
            self.assertEqual({it.receive() for it in all_news}, {f"version {number}"})
        self.assertLess(server.turns() - before, count * len(all_news) / 2)
