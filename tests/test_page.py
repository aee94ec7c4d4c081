"""The page of `sheet serve` with real sockets: what is answered, what is refused, and browsers that come and go."""
import contextlib
import errno
import resource
import socket
import struct
import subprocess
import tempfile
import threading
import time
import unittest
from pathlib import Path

import browser_socket
import preloaded
from browser_socket import (
    BINARY, PING, PONG, TEXT, WebSocket, accept_of, answer, connection_to, frame, request, upgrade,
)
from hunt import kept, shortages
from preloaded import PROGRAM
from program import LIMIT, TOP, Ended, ProgramTest, lines, run
from servers import FILES, THREADS, Client, comes_to, free_port, serving
from sizes import LONGEST_LINE

KEY = "dGhlIHNhbXBsZSBub25jZQ=="
# the answer to this key, from the standard of WebSockets (RFC 6455, section 1.3)
ACCEPTED = "s3pPLMBiTxaQ9kYGzzhZRbK+xOo="
# What closes a WebSocket says, and what a session of lines is sent that gets no slot.
NO_LINE, NO_ROOM = (1008, "no line"), (1013, "no room")
NO_SEAT = lines("err 21 seat")
# The names by which a machine has its own page.
NAMES = ("127.0.0.1", "localhost", "[::1]")
GONE = lines("sheet page is gone: sheet serve has the page at its own port")


def seated(port, seconds=LIMIT):
    """A WebSocket that has a slot, once one is free."""
    deadline = time.monotonic() + seconds
    while True:
        with contextlib.suppress(browser_socket.Ended, ConnectionError):
            opened = WebSocket(port)
            try:
                if opened.ask("get B1") == "val \n":
                    return opened
            except BaseException:
                opened.connection.close()
                raise
        if time.monotonic() > deadline:
            raise AssertionError(f"no slot within {seconds} seconds")
        time.sleep(0.05)


def at_once(*tasks):
    """Runs these tasks beside each other, and returns what each of them returned, or raises what one of them raised."""
    found, troubles, barrier = [None] * len(tasks), [], threading.Barrier(len(tasks))

    def work(number):
        try:
            barrier.wait(LIMIT)
            found[number] = tasks[number]()
        except BaseException as trouble:
            troubles.append(trouble)

    threads = [threading.Thread(target=work, args=(number,)) for number in range(len(tasks))]
    for thread in threads:
        thread.start()
    for thread in threads:
        thread.join(LIMIT)
    if troubles:
        raise troubles[0]
    return found


class PageTest(ProgramTest):
    """A test of a server's page."""

    words = ()

    def setUp(self):
        with contextlib.ExitStack() as stack:
            self.server = stack.enter_context(serving(None, *self.words))
            self.addCleanup(stack.pop_all().close)
        self.port = self.server.port

    def socket(self, **how):
        """A WebSocket as the page opens it."""
        opened = WebSocket(self.port, **how)
        self.addCleanup(opened.connection.close)
        return opened

    def assert_status(self, wanted, head):
        """A head is answered by this status, with no body."""
        status, _, body = answer(self.port, head)
        self.assertEqual((status, body), (wanted, b""))

    def assert_serves(self):
        """The page still comes, and a WebSocket has its replies."""
        self.assertEqual(answer(self.port, request(self.port))[0], 200)
        self.seated()

    def seated(self):
        """A WebSocket that has a slot, once one is free."""
        opened = seated(self.port)
        self.addCleanup(opened.connection.close)
        return opened


class Heads(PageTest):
    def test_the_page(self):
        status, fields, body = answer(self.port, request(self.port))
        self.assertEqual(status, 200)
        self.assertTrue(body.startswith(b"<!doctype html>\n") and body.endswith(b"</html>\n"))
        named = dict(field.split(": ", 1) for field in fields)
        self.assertEqual(named["content-type"], "text/html; charset=utf-8")
        self.assertEqual(int(named["content-length"]), len(body))
        self.assertEqual((named["x-frame-options"], named["x-content-type-options"]), ("DENY", "nosniff"))
        policy = named["content-security-policy"]
        self.assertIn("default-src 'none'", policy)
        self.assertIn("frame-ancestors 'none'", policy)
        self.assertNotIn("unsafe", policy)

    def test_the_page_is_that_of_the_files(self):
        made = subprocess.run(["python3", "-B", "-c", "import embed; print(embed.module(), end='')"],
                              cwd=TOP / "page", capture_output=True, text=True, timeout=LIMIT, check=True).stdout
        self.assertEqual((TOP / "crates/ps_page/src/page.rt").read_text(), made)

    def test_the_handshake(self):
        opened = self.socket()
        named = dict(field.split(": ", 1) for field in opened.head.decode().split("\r\n")[1:])
        self.assertEqual({name.lower(): text for name, text in named.items()}["sec-websocket-accept"], ACCEPTED)
        self.assertEqual(accept_of(KEY), ACCEPTED)

    def test_a_forwarded_port_and_each_name_of_this_machine(self):
        for name in NAMES:
            for host in (name, f"{name}:{self.port}", f"{name}:9000", f"{name}:80"):
                with self.subTest(host=host):
                    self.assertEqual(answer(self.port, request(self.port, host=host))[0], 200)
                    opened = self.socket(head=upgrade(self.port, host=host, origin=f"http://{host}"))
                    self.assertEqual(opened.ask("get A1"), "val \n")
                    opened.connection.close()

    def test_other_origins_are_forbidden(self):
        port = self.port
        for origin in ("http://example.org", f"http://example.org:{port}", f"https://127.0.0.1:{port}", "null", "",
                       f"http://127.0.0.1:{port + 1}", "http://127.0.0.1", f"http://127.0.0.1:{port}.example.org",
                       f"http://127.0.0.1:0{port}", f"http://127.0.0.1:{port}/", f"HTTP://127.0.0.1:{port}",
                       f"http://localhost:{port}", f"http://[::1]:{port}", f"127.0.0.1:{port}",
                       f"http://127.0.0.1:{port}0"):
            with self.subTest(origin=origin):
                self.assert_status(403, upgrade(port, origin=origin))
        twice = upgrade(port)[:-2] + f"Origin: http://127.0.0.1:{port}\r\n\r\n".encode()
        self.assert_status(403, twice)
        # a page at another port of this machine, whichever port it claims to be at
        self.assert_status(403, upgrade(port, host=f"127.0.0.1:{port + 1}", origin=f"http://127.0.0.1:{port}"))

    def test_other_hosts_are_forbidden(self):
        port = self.port
        for host in ("example.org", f"example.org:{port}", f"127.0.0.1:{port}.example.org", f"127.0.0.2:{port}",
                     "localhost.example.org", f"localhost.example.org:{port}", f"evil.localhost:{port}",
                     "localhost:80a", f"localhost@example.org:{port}", "127.0.0.10", "::1", f"[::2]:{port}",
                     f"[::1].example.org:{port}"):
            live = upgrade(port, host=host, origin=f"http://{host}")
            for head in (request(port, host=host), live, request(port, "POST", host=host)):
                with self.subTest(host=host, head=head[:20]):
                    self.assert_status(403, head)
        self.assert_status(403, b"GET / HTTP/1.1\r\n\r\n")
        self.assert_status(403, request(port, fields=[f"host: 127.0.0.1:{port}"]))

    def test_other_methods_are_not_allowed(self):
        for method in ("POST", "HEAD", "PUT", "DELETE", "OPTIONS"):
            with self.subTest(method=method):
                status, fields, _ = answer(self.port, request(self.port, method))
                self.assertEqual((status, "allow: GET" in fields), (405, True))

    def test_other_paths_are_not_found(self):
        for path in ("/index.html", "/live/", "/live?a", "/?a", "//", "/favicon.ico", f"http://127.0.0.1:{self.port}/"):
            with self.subTest(path=path):
                self.assert_status(404, request(self.port, path=path))

    def test_broken_heads_are_bad_requests(self):
        port = self.port
        fields = ["Connection: Upgrade", "Upgrade: websocket", "Sec-WebSocket-Version: 13", f"Sec-WebSocket-Key: {KEY}"]
        origin = f"Origin: http://127.0.0.1:{port}"
        broken = [b"GET / HTTP/3.0\r\n\r\n", b"PRI * HTTP/2.0\r\n\r\nSM\r\n\r\n", request(port) + b"body",
                  request(port, fields=["a b: c"]), request(port, fields=[f"a{n}: b" for n in range(64)]),
                  upgrade(port, key="short"), upgrade(port, key="=" * 24)]
        broken += [request(port, path="/live", fields=[origin, *fields[:n], *fields[n + 1:]]) for n in range(4)]
        for head in broken:
            with self.subTest(head=head[:60]):
                self.assert_status(400, head)
        self.assert_serves()

    def test_a_long_head_is_refused(self):
        self.assert_status(431, request(self.port, fields=["a: " + "b" * 100_000]))
        self.assert_status(431, request(self.port, path="/" + "a" * 9_000))
        # the limit is 8,192 bytes, and the rest of such a head has these
        rest = len(request(self.port, fields=["a: "]))
        for size, status in ((8_192, 200), (8_193, 431)):
            self.assertEqual(answer(self.port, request(self.port, fields=["a: " + "b" * (size - rest)]))[0], status)

    def test_a_head_in_pieces(self):
        for size in (1, 7):
            with self.subTest(size=size), connection_to(self.port) as connection:
                head = request(self.port)
                for start in range(0, len(head), size):
                    connection.sendall(head[start:start + size])
                    time.sleep(0.001)
                self.assertTrue(browser_socket.read_all(connection).startswith(b"HTTP/1.1 200 "))

    def test_half_a_head_is_ended(self):
        began = time.monotonic()
        with connection_to(self.port) as half, connection_to(self.port) as slow:
            half.sendall(request(self.port)[:-2])
            slow.sendall(b"GET / HTTP/1.1\r\n")
            with contextlib.suppress(OSError):
                while time.monotonic() < began + 8:
                    slow.sendall(b"a")
                    time.sleep(0.5)
            self.assertTrue(browser_socket.read_all(half).startswith(b"HTTP/1.1 408 "))
            # (what is sent to one that is closed already may take the answer away)
            with contextlib.suppress(ConnectionError):
                self.assertTrue(browser_socket.read_all(slow).startswith(b"HTTP/1.1 408 "))
        self.assertGreater(time.monotonic() - began, 9.5)
        self.assertLess(time.monotonic() - began, LIMIT)

    def test_half_a_handshake_takes_no_slot(self):
        with serving(None, "--seats", "1", "--wait", "0") as server, contextlib.ExitStack() as stack:
            for size in (1, 20, 100, len(upgrade(server.port)) - 1):
                stack.enter_context(connection_to(server.port)).sendall(upgrade(server.port)[:size])
            with WebSocket(server.port) as opened:
                self.assertEqual(opened.ask("set A1 5"), "ok 1\n")

    def test_connections_that_say_nothing_or_half_a_head_stop_nobody(self):
        with contextlib.ExitStack() as stack:
            for number in range(200):
                connection = stack.enter_context(connection_to(self.port))
                if number % 2:
                    connection.sendall(request(self.port)[:-2])
            self.assertEqual(answer(self.port, request(self.port))[0], 200)
            self.assertEqual(self.socket().ask("set A1 5"), "ok 1\n")
            self.assertEqual(self.server.client().ask("get A1"), "val 5")


class Messages(PageTest):
    words = ("--seats", "4", "--wait", "1")

    def test_a_message_is_a_line(self):
        opened = self.socket()
        self.assertEqual(opened.ask("set A1 5"), "ok 1\n")
        self.assertEqual(opened.ask("set B1 =[.A1]*2"), "ok 2\n")
        self.assertEqual(opened.ask("rows A1:B2"), "rows 2\n5,10\n,\n")
        self.assertEqual(opened.ask("entries A1:B2"), "entries 2\n5,=[.A1]*2\n,\n")
        self.assertEqual(opened.ask("entry B1"), "entry =[.A1]*2\n")
        self.assertEqual(opened.ask("walk"), "err 16 command\n")
        self.assertEqual(opened.ask("set A1 gr\u00fc\u00df dich"), "ok 3\n")
        self.assertEqual(opened.ask("get A1"), "val gr\u00fc\u00df dich\n")
        self.assertEqual(opened.ask("set A1 rows 9"), "ok 4\n")
        self.assertEqual(opened.ask("get A1"), "val rows 9\n")

    def test_a_browser_and_a_session_of_lines_see_each_other(self):
        opened, client = self.socket(), self.server.client()
        self.assertEqual(opened.ask("set A1 5"), "ok 1\n")
        self.assertEqual(client.ask("set B1 =[.A1]*2"), "ok 2")
        self.assertEqual(opened.ask("get B1"), "val 10\n")
        self.assertEqual(client.ask("pull 0"), 'delta 1 [["A1",[1,1,"5"],[],[]]]')

    def test_messages_at_once_have_their_replies_in_order(self):
        opened = self.socket()
        opened.connection.sendall(b"".join(frame(TEXT, f"set A{n} {n}".encode()) for n in range(1, 201)))
        self.assertEqual([opened.reply() for _ in range(200)], [f"ok {n}\n" for n in range(1, 201)])
        rows = "rows 200\n" + "".join(f"{n}\n" for n in range(1, 201))
        opened.connection.sendall(b"".join(frame(TEXT, text) for text in (b"rows A1:A200", b"get A7", b"rows A1:A200")))
        self.assertEqual([opened.reply() for _ in range(3)], [rows, "val 7\n", rows])

    def test_cut_messages(self):
        opened = self.socket()
        parts = [frame(TEXT, b"set A1 ", first=0), frame(PING, b"here"), frame(0, b"12", first=0), frame(0, b"3")]
        for byte in b"".join(parts):
            opened.connection.sendall(bytes([byte]))
        self.assertEqual(opened.receive_frame(), (PONG, False, b"here"))
        self.assertEqual(opened.receive(), "ok 1\n")
        self.assertEqual(opened.ask("get A1"), "val 123\n")
        # half a message, and then no more of it
        half = self.socket()
        half.connection.sendall(frame(TEXT, b"set A1 7")[:-3])
        half.connection.close()
        self.assertEqual(opened.ask("get A1"), "val 123\n")

    def test_what_is_no_line_closes_the_connection(self):
        for text in (b"set A1 1\nset A1 2", b"set A1 1\r", b"\rset A1 1", b"\n", b""):
            with self.subTest(text=text):
                opened = self.socket()
                opened.connection.sendall(frame(TEXT, text))
                self.assertEqual(opened.closing(), NO_LINE)
                opened.connection.close()
        opened = self.seated()
        opened.connection.sendall(frame(TEXT, b"set A2 1") + frame(TEXT, b"\n") + frame(TEXT, b"set A3 1"))
        self.assertEqual((opened.receive(), opened.closing()), ("ok 1\n", NO_LINE))
        self.assertEqual(self.seated().ask("rows A1:A3"), 'rows 3\n""\n1\n""\n')

    def test_bytes_that_are_no_text_close_the_connection(self):
        opened = self.socket()
        opened.connection.sendall(frame(BINARY, b"get A1"))
        self.assertEqual(opened.closing(), NO_LINE)
        for bad in (frame(TEXT, b"\xff\xfe"), frame(TEXT, b"get A1", is_masked=False),
                    frame(TEXT, b"get A1", first=0xC0), frame(3, b"get A1"), frame(PING, b"a" * 126),
                    bytes([0x81, 0xFF]) + struct.pack(">Q", 2**62) + b"mask"):
            with self.subTest(bad=bad[:10]):
                opened = self.socket()
                opened.connection.sendall(bad)
                self.assertNotEqual(opened.closing()[0], 1000)
        self.assert_serves()

    def test_a_giant_message_closes_the_connection(self):
        for size in (LONGEST_LINE + 1, 10_000_000):
            with self.subTest(size=size):
                opened = self.socket()
                with contextlib.suppress(OSError):
                    opened.connection.sendall(frame(TEXT, b"a" * size))
                opened.closing()
        self.assertEqual(self.seated().ask("a" * LONGEST_LINE), "err 16 command\n")
        self.assert_serves()

    def test_the_whole_sheet_is_one_message(self):
        opened = self.socket()
        whole = opened.ask("rows A1:CZ1024")
        self.assertEqual(whole, "rows 1024\n" + f"{',' * 103}\n" * 1024)

    def test_a_browser_too_many_is_told_so(self):
        opened = [self.socket() for _ in range(4)]
        for browser in opened:
            self.assertEqual(browser.ask("get A1"), "val \n")
        since = time.monotonic()
        self.assertEqual(self.socket().closing(), NO_ROOM)
        self.assertGreater(time.monotonic() - since, 0.9)
        opened[0].connection.close()
        self.seated()

    def test_browsers_that_say_nothing_keep_none_out_for_long(self):
        heard, since = self.socket(), time.monotonic()
        self.assertEqual(heard.ask("get A1"), "val \n")
        silent = [self.socket() for _ in range(3)]
        # (another one could overtake one that has no slot yet)
        here = request(self.port, path="/about")
        self.assertTrue(comes_to(lambda: answer(self.port, here)[2].startswith(b"4\n")))
        self.seated()
        self.assertGreater(time.monotonic() - since, 9)
        for opened in silent:
            self.assertEqual(opened.closing()[0], None)
        # one that has said something may be silent for longer
        self.assertEqual(heard.ask("get A1"), "val \n")

    def test_browsers_that_come_and_go(self):
        for number in range(1, 101):
            with self.seated() as opened:
                self.assertEqual(opened.ask(f"set A1 {number}"), f"ok {number}\n")
                if number % 3 == 0:
                    opened.connection.setsockopt(socket.SOL_SOCKET, socket.SO_LINGER, struct.pack("ii", 1, 0))
        self.assertEqual(self.server.client().ask("get A1"), "val 100")

    def test_browsers_at_once(self):
        faults = []

        def work(number):
            try:
                with WebSocket(self.port) as opened:
                    for count in range(50):
                        self.assertTrue(opened.ask(f"set A{number} {count}").startswith("ok "))
                        self.assertEqual(opened.ask(f"get A{number}"), f"val {count}\n")
            except Exception as fault:
                faults.append(fault)

        threads = [threading.Thread(target=work, args=(number,)) for number in range(1, 5)]
        for thread in threads:
            thread.start()
        for thread in threads:
            thread.join(LIMIT)
        self.assertEqual(faults, [])

    def test_a_slow_browser_stops_nobody(self):
        slow = self.socket()
        slow.connection.settimeout(1)
        asked = frame(TEXT, b"rows A1:CZ200")
        with contextlib.suppress(OSError):
            for _ in range(2_000):
                slow.connection.sendall(asked)
        self.assert_serves()


class Slots(ProgramTest):
    def test_sixteen_of_both_kinds(self):
        with serving(None, "--seats", "16", "--wait", "1") as server, contextlib.ExitStack() as stack:
            browsers = [stack.enter_context(WebSocket(server.port)) for _ in range(8)]
            clients = [server.client() for _ in range(8)]
            for number in range(8):
                self.assertEqual(browsers[number].ask(f"set A{number + 1} 1"), f"ok {2 * number + 1}\n")
                self.assertEqual(clients[number].ask(f"set B{number + 1} 1"), f"ok {2 * number + 2}")
            # one more of each kind, and meanwhile the page and refusals
            line = server.client()
            line.send(b"get A1\n")
            with WebSocket(server.port) as late:
                self.assertEqual(answer(server.port, request(server.port))[0], 200)
                self.assertEqual(answer(server.port, request(server.port, "POST"))[0], 405)
                self.assertEqual((line.told(), late.closing()), (NO_SEAT, NO_ROOM))
            self.assertEqual(answer(server.port, request(server.port))[0], 200)
            self.assertEqual(browsers[0].ask("set C1 =SUM([.A1:.B8])"), "ok 17\n")
            for number in range(8):
                self.assertEqual(browsers[number].ask("get C1"), "val 16\n")
                self.assertEqual(clients[number].ask("get C1"), "val 16")

    def test_a_line_and_a_browser_at_once_for_the_last_slot(self):
        with serving(None, "--seats", "2", "--wait", "1") as server:
            self.assertEqual(server.client().ask("get A1"), "val ")

            def line():
                client = server.client()
                client.send(b"get A1\n")
                return client.reply(), client.close

            def browser():
                opened = WebSocket(server.port)
                opened.send("get A1")
                try:
                    return opened.reply().rstrip("\n"), opened.connection.close
                except browser_socket.Ended as ended:
                    return ended.args[0][2:].decode(), opened.connection.close

            for turn in range(6):
                with self.subTest(turn=turn):
                    found = dict(at_once(*((line, browser) if turn % 2 else (browser, line))))
                    self.assertEqual(len(found), 2)
                    self.assertIn(set(found), ({"val ", "no room"}, {"val ", "err 21 seat"}))
                    for close in found.values():
                        close()

    def test_a_slot_is_free_within_a_second_after_its_browser_left(self):
        with serving(None, "--seats", "1", "--wait", "1") as server:
            for turn in range(9):
                with self.subTest(turn=turn):
                    opened = WebSocket(server.port)
                    self.assertEqual(opened.ask(f"set A1 {turn}"), f"ok {2 * turn + 1}\n")
                    if turn % 3 == 0:
                        opened.connection.sendall(frame(browser_socket.CLOSE, struct.pack(">H", 1001)))
                    elif turn % 3 == 1:
                        opened.connection.setsockopt(socket.SOL_SOCKET, socket.SO_LINGER, struct.pack("ii", 1, 0))
                    opened.connection.close()
                    client = server.client()
                    self.assertEqual(client.ask(f"set A2 {turn}"), f"ok {2 * turn + 2}")
                    client.leave()

    def test_a_browser_that_waits_has_the_next_slot_and_what_it_said_meanwhile(self):
        with serving(None, "--seats", "1", "--wait", "60") as server:
            client = server.client()
            self.assertEqual(client.ask("set A1 5"), "ok 1")
            with WebSocket(server.port) as opened:
                opened.send("get A1")
                opened.send("set A1 7")
                self.assertEqual(client.ask("set A1 6"), "ok 2")
                client.leave()
                self.assertEqual((opened.reply(), opened.reply()), ("val 6\n", "ok 3\n"))

    def test_a_number_of_sessions_counts_browsers_and_no_other_requests(self):
        with serving(2) as server:
            for _ in range(5):
                self.assertEqual(answer(server.port, request(server.port))[0], 200)
                self.assertEqual(answer(server.port, request(server.port, "POST"))[0], 405)
                self.assertEqual(answer(server.port, upgrade(server.port, origin="http://example.org"))[0], 403)
            with WebSocket(server.port) as opened:
                self.assertEqual(opened.ask("set A1 5"), "ok 1\n")
            self.assertEqual(answer(server.port, request(server.port))[0], 200)
            self.assertTrue(server.is_running())
            client = server.client()
            self.assertEqual(client.ask("get A1"), "val 5")
            client.leave()
            self.assertEqual(server.ended(), Ended(0, lines("closed 1")))

    def test_a_server_whose_last_session_is_a_browser(self):
        with serving(1) as server, contextlib.ExitStack() as stack:
            # one that says nothing, and one with half a head, don't hold it up
            stack.enter_context(connection_to(server.port))
            stack.enter_context(connection_to(server.port)).sendall(b"GET / HTTP/1.1\r\n")
            with WebSocket(server.port) as opened:
                self.assertEqual(opened.ask("set A1 5"), "ok 1\n")
            self.assertEqual(server.ended(), Ended(0, lines("closed 1")))

    def test_a_kept_sheet_has_on_the_disk_what_a_browser_was_answered(self):
        file = self.folder() / "plan.lines"
        with serving(None, "--keep", str(file)) as server, WebSocket(server.port) as opened:
            for number in range(1, 21):
                self.assertEqual(opened.ask(f"set A1 {number}"), f"ok {number}\n")
                wanted = f'push [["A1",[{number},1,"{number}"],[],[]]]\n'
                self.assertTrue(kept.without_digests(file.read_bytes()).endswith(wanted.encode()))
            server.session.kill()
            self.assertEqual(opened.closing(), (None, ""))
        with serving(None, "--keep", str(file)) as server, WebSocket(server.port) as opened:
            self.assertEqual(opened.ask("get A1"), "val 20\n")


class About(ProgramTest):
    def about(self, server):
        """What the server says of its sheet."""
        status, fields, body = answer(server.port, request(server.port, path="/about"))
        self.assertEqual((status, "content-type: text/plain; charset=utf-8" in fields), (200, True))
        self.assertIn(f"content-length: {len(body)}", fields)
        return body.decode()

    def test_the_title_and_how_many_browsers_have_a_slot(self):
        with serving(None, "--title", "Our pl\u00e4n") as server:
            self.assertEqual(self.about(server), "0\nOur pl\u00e4n\n")
            self.assertEqual(server.client().ask("get A1"), "val ")
            with WebSocket(server.port) as first, WebSocket(server.port) as second:
                for opened in (first, second):
                    self.assertEqual(opened.ask("get A1"), "val \n")
                self.assertEqual(self.about(server), "2\nOur pl\u00e4n\n")
            self.assertTrue(comes_to(lambda: self.about(server) == "0\nOur pl\u00e4n\n"))
            self.assertEqual(answer(server.port, request(server.port, "POST", path="/about"))[0], 405)
            self.assertEqual(answer(server.port, request(server.port, path="/about", host="example.org"))[0], 403)

    def test_the_title_where_none_is_given(self):
        file = self.folder() / "team.lines"
        keep = ("--keep", str(file))
        for words, title in (((), ""), (keep, "team.lines"), ((*keep, "--title", "Plan"), "Plan")):
            with self.subTest(words=words), serving(None, *words) as server:
                self.assertEqual(self.about(server), f"0\n{title}\n")


class Silences(ProgramTest):
    """What is waited for longer than a test likes to: at a server whose long waits are shorter (`hasten.c`)."""

    @classmethod
    def setUpClass(cls):
        folder = tempfile.TemporaryDirectory()
        cls.addClassCleanup(folder.cleanup)
        library = preloaded.build("hasten.c", Path(folder.name) / "hasten.so")
        cls.how = {"program": PROGRAM, "env": preloaded.before(library)}

    def test_a_browser_that_says_nothing_more_for_5_minutes_or_as_long_as_is_asked_for(self):
        def say_nothing(seconds, *words):
            with serving(None, *words, **self.how) as server, WebSocket(server.port) as opened:
                self.assertEqual(opened.ask("get A1"), "val \n")
                since = time.monotonic()
                self.assertEqual(opened.closing()[0], None)
                lasted = time.monotonic() - since
                self.assertGreater(lasted, 0.95 * seconds)
                # (a busy machine takes its time, too)
                self.assertLess(lasted, 1.5 * seconds + 3)

        at_once(lambda: say_nothing(300 / 60), lambda: say_nothing(60 / 10, "--idle", "60"))


class Ends(ProgramTest):
    def test_a_server_that_ends_closes_the_connection(self):
        with serving(None) as server, WebSocket(server.port) as opened:
            self.assertEqual(opened.ask("set A1 5"), "ok 1\n")
            server.session.kill()
            server.session.wait(LIMIT)
            with contextlib.suppress(OSError):
                opened.send("get A1")
            self.assertEqual(opened.closing(), (None, ""))
            with serving(None, port=server.port), WebSocket(server.port) as again:
                self.assertEqual(again.ask("get A1"), "val \n")

    def test_a_browser_that_reads_nothing_gives_its_slot_up(self):
        # (the ten seconds are two and a half: `hasten.c`)
        library = preloaded.build("hasten.c", self.folder() / "hasten.so")
        how = {"program": PROGRAM, "env": preloaded.before(library, HASTEN_TEN="yes")}
        with serving(None, "--seats", "1", **how) as server, WebSocket(server.port, room=4096) as slow:
            slow.connection.settimeout(1)
            with contextlib.suppress(OSError):
                for _ in range(500):
                    slow.connection.sendall(frame(TEXT, b"rows A1:CZ200"))
            seated(server.port).connection.close()

    def test_memory_threads_and_files_are_given_back(self):
        with serving(None, "--wait", "60", program=PROGRAM) as server:
            folder = Path(f"/proc/{server.session.pid}")

            def has_settled():
                return [len(list((folder / of).iterdir())) for of in ("task", "fd")] == [THREADS, FILES]

            def visit(count):
                for number in range(count):
                    with WebSocket(server.port) as opened:
                        self.assertEqual(opened.ask("rows A1:B2"), "rows 2\n,\n,\n")
                        if number % 2:
                            opened.connection.sendall(frame(TEXT, b"\n"))
                    self.assertEqual(answer(server.port, request(server.port))[0], 200)
                    self.assertEqual(answer(server.port, request(server.port, "POST"))[0], 405)
                    connection_to(server.port).close()

            visit(20)
            self.assertTrue(comes_to(has_settled))
            before = server.memory()
            at_once(*([lambda: visit(60)] * 4))
            self.assertTrue(comes_to(has_settled))
            self.assertLess(server.memory() - before, 2_000_000)

    def test_memory_that_is_refused(self):
        """Each request for it in turn: whatever becomes of the browser that wanted it, the next one has its slot."""
        library = shortages.library(self.folder())

        def look(refused):
            """How many requests there were before the page was asked for, and once a second browser was served."""
            with contextlib.ExitStack() as stack:
                how, counts = stack.enter_context(shortages.spoiling(library, ("m", refused, refused, errno.ENOMEM)))
                server = stack.enter_context(serving(None, "--seats", "1", "--wait", "1", program=PROGRAM, **how))
                # (a server that answers has begun, and asks for no more at its start)
                with contextlib.suppress(OSError, IndexError, ValueError):
                    answer(server.port, request(server.port))
                before = shortages.counted(counts).calls
                with contextlib.suppress(browser_socket.Ended, OSError, IndexError, ValueError):
                    answer(server.port, request(server.port))
                    with WebSocket(server.port) as opened:
                        opened.ask("rows A1:B2")
                seated(server.port).connection.close()
                return before, shortages.counted(counts).calls

        before, after = look(0)
        self.assertGreater(after, before)
        for refused in range(before + 1, after + 1):
            with self.subTest(refused=refused):
                look(refused)

    def test_without_threads_requests_are_answered_one_after_another(self):
        # a thread's room is then more than the program may have
        def bound():
            resource.setrlimit(resource.RLIMIT_STACK, (1 << 36, resource.getrlimit(resource.RLIMIT_STACK)[1]))
            resource.setrlimit(resource.RLIMIT_AS, (1 << 35, 1 << 35))

        with serving(None, program=PROGRAM, preexec_fn=bound) as server:
            for _ in range(3):
                self.assertEqual(answer(server.port, request(server.port))[0], 200)
                with WebSocket(server.port) as opened:
                    self.assertEqual(opened.ask("get A1"), "val \n")
            client = server.client()
            self.assertEqual(client.ask("set A1 5"), "ok 1")
            client.leave()

    def test_an_error_output_that_is_full_or_gone_changes_nothing(self):
        port = free_port()
        with open("/dev/full", "wb") as full:
            for error in (full, subprocess.DEVNULL):
                words = [PROGRAM, "serve", "--port", str(port), "--sessions", "1"]
                with subprocess.Popen(words, stdout=subprocess.PIPE, stderr=error) as server:
                    self.assertEqual(server.stdout.readline(), lines(f"listening {port}"))
                    self.assertEqual(answer(port, request(port))[0], 200)
                    with contextlib.closing(Client(port)) as client:
                        self.assertEqual(client.ask("set A1 5"), "ok 1")
                        client.leave()
                    self.assertEqual((server.stdout.read(), server.wait(LIMIT)), (lines("closed 1"), 0))


class Gone(ProgramTest):
    def test_the_command_page_says_where_the_page_is(self):
        for words in ((), ("--from", "7001"), ("--from", "7001", "--port", "8080"), ("--from", "0", "--browsers", "17"),
                      ("--help",), ("-h",), ("walk", "--fly")):
            with self.subTest(words=words):
                self.assertEqual(run("page", *words), Ended(2, b"", GONE))


if __name__ == "__main__":
    unittest.main()
