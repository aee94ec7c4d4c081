"""What comes to a server's port over HTTP, from a browser or not: nothing of it is carried out, and sessions go on."""
import contextlib
import http.server
import re
import shutil
import subprocess
import threading
import time
import unittest

import browser
from browser import Browser
from hunt import kept
from browser_socket import answer, request
from program import LIMIT, NO_BROWSER, Ended, ProgramTest, lines
from servers import HERE, free_port, serving

# What a page may have as its request's body: lines of a session.
BODY = b"set A1 5\nset A2 =[.A1]\npush [[\"B1\",[9007199254740991,32,\"0\"],[],[]]]\nset A3 5\r\n\nadd A4 1\n"
# Some bytes more than are looked at of a first line without an end.
LONG = 9_000
# The most ports that a browser refuses to go to are below these.
LEAST_PORT = 10_100
HEAD = b"Host: 127.0.0.1:7001\r\nOrigin: http://example.org\r\nContent-Type: text/plain\r\n"
# How a request with a body is refused, by whether the body came with its head; and how one is whose head is too long.
REFUSED = re.compile(rb"HTTP/1\.1 4(?:00 Bad Request|05 Method Not Allowed)\r\n")
REFUSED_LONG = re.compile(rb"HTTP/1\.1 4(?:00 Bad Request|05 Method Not Allowed|31 Request Header Fields Too Large)\r\n")
# A line of a session's replies.
REPLY = re.compile(rb"^(?:ok|val|err|rows|end) ", re.MULTILINE)


def post(method=b"POST", target=b"/", version=b"HTTP/1.1", end=b"\r\n"):
    """A request with lines of a session in its body."""
    head = b"%s %s %s\r\n%sContent-Length: %d\r\n\r\n" % (method, target, version, HEAD, len(BODY))
    return head.replace(b"\r\n", end) + BODY


class Admission(ProgramTest):
    """A test of a server whose sheet nothing may change."""

    def untouched(self, server):
        """The sheet of the server is as empty as it was."""
        client = server.client()
        self.assertEqual((client.ask("pull 0"), client.ask("rows A1:C3")), ("end 0", "rows 3"))
        self.assertEqual([client.reply() for _ in range(3)], [",,"] * 3)
        client.leave()

    def assert_refused(self, server, *pieces):
        """What comes in these pieces is refused as a request, and its connection is closed."""
        client = server.client()
        told = self.told(client, *pieces)
        if told or len(pieces) == 1:
            self.assertRegex(told, REFUSED)
            head, _, text = told.partition(b"\r\n\r\n")
            self.assertEqual((b"content-length: 0" in head, text), (True, b""))
        client.close()

    def told(self, client, *pieces):
        """The reply to these pieces; nothing where the last ones come to a connection that is closed already, which
        breaks it off."""
        with contextlib.suppress(ConnectionError):
            for piece in pieces:
                client.send(piece)
                if len(pieces) > 1:
                    time.sleep(0.005)
        return client.told()


class Requests(Admission):
    """Requests with lines of a session in their bodies."""

    def test_of_each_method(self):
        with serving(None) as server:
            for method in (b"POST", b"GET", b"PUT", b"OPTIONS", b"HEAD", b"DELETE", b"PATCH", b"TRACE", b"M-SEARCH", b"X",
                           b"patch", b"get", b"set", b"x"):
                for end in (b"\r\n", b"\n"):
                    with self.subTest(method=method, end=end):
                        self.assert_refused(server, post(method, end=end))
            self.assert_refused(server, post(b"CONNECT", b"example.org:443"))
            self.assert_refused(server, post(b"OPTIONS", b"*"))
            self.assert_refused(server, post(b"options", b"*"))
            self.assert_refused(server, b"PRI * HTTP/2.0\r\n\r\nSM\r\n\r\n" + BODY)
            self.assert_refused(server, post(version=b"HTTP/1.0"))
            self.assert_refused(server, b"GET  HTTP/1.1\n" + BODY)
            self.untouched(server)

    def test_however_they_are_cut(self):
        request, small = post(), post(b"post")
        with serving(None) as server:
            for cut in (1, 2, 4, 5, 6, 7, 10, 14, 15, 16, 17, 30, len(request) - len(BODY), len(request) - 1):
                with self.subTest(cut=cut):
                    self.assert_refused(server, request[:cut], request[cut:])
                    self.assert_refused(server, small[:cut], small[cut:])
            self.assert_refused(server, *(bytes([byte]) for byte in request[:18]), request[18:])
            self.untouched(server)

    def test_with_targets_of_each_length(self):
        with serving(None) as server:
            for length in (1, 4_000, 4_085, 8_176, 8_177, 8_178, LONG, 100_000, 1_000_000):
                with self.subTest(length=length):
                    client = server.client()
                    # (the server may close before it has read all)
                    told = self.told(client, post(target=b"/" + b"x" * length))
                    if told:
                        self.assertRegex(told, REFUSED_LONG)
                    client.close()
            self.untouched(server)

    def test_by_curl(self):
        if shutil.which("curl") is None:
            return
        with serving(None) as server:
            url = f"http://{HERE}:{server.port}/"
            for words in (["--http0.9", "-d", "set A1 x"], ["-d", "\nset A1 x\n"], ["-X", "PUT", "-T", "-"], ["-I"], [],
                          ["--data-binary", "@-"], ["-H", "set A1 x"], ["-H", "X: y\nset A1 x"], ["-G", "-d", "set A1 x"]):
                with self.subTest(words=words):
                    ran = subprocess.run(["curl", "-sS", *words, url], input=BODY, capture_output=True, timeout=LIMIT)
                    self.assertNotRegex(ran.stdout, REPLY)
            self.untouched(server)

    def test_at_a_kept_sheet(self):
        file = self.folder() / "kept.lines"
        with serving(None, "--keep", str(file)) as server:
            self.assert_refused(server, post())
            self.untouched(server)
        self.assertEqual(kept.without_digests(file.read_bytes()), b"replica 1\n")

    def test_their_seats_are_free_at_once(self):
        with serving(None, "--seats", "1") as server:
            for _ in range(30):
                self.assert_refused(server, post())
            client = server.client()
            self.assertEqual(client.ask("set A1 5"), "ok 1")
            client.leave()

    def test_a_server_for_some_sessions_counts_none_of_them(self):
        with serving(1) as server:
            self.assert_refused(server, post())
            self.assertEqual(answer(server.port, request(server.port))[0], 200)
            self.assertEqual(answer(server.port, b"GET / HTTP/1.1\r\n\r\n")[0], 403)
            client = server.client()
            self.assertEqual(client.ask("set A1 5"), "ok 1")
            client.leave()
            self.assertEqual(server.ended(), Ended(0, lines("closed 1")))

    def test_one_that_breaks_off_or_says_nothing(self):
        with serving(None, "--idle", "1") as server:
            silent = {front: server.client() for front in (b"", b"P", b"POST / HT", b"POST / HTTP/1.1")}
            for front, client in silent.items():
                broken = server.client()
                broken.send(front)
                broken.reset()
                client.send(front)
            for front, client in silent.items():
                with self.subTest(front=front):
                    self.assertEqual(client.told(), b"")
                    client.close()
            self.untouched(server)


class Sessions(Admission):
    """First lines that begin no request have the replies of a session."""

    def test_first_lines_of_a_session(self):
        given = {
            b"Get A1\n": b"err 16 command\n", b"GET A1\n": b"err 16 command\n", b"GET / HTTP\n": b"err 16 command\n",
            b"HTTP/1.1\n": b"err 16 command\n", b"A B C\n": b"err 16 command\n",
            b"set A1 HTTP/1.1\n": b"ok 1\n", b"get A1\n": b"val HTTP/1.1\n", b"get / HTTP\n": b"err 16 command\n",
            b"get /\n": b"err 1 cell\n", b"set / x HTTP/1.1\n": b"err 1 cell\n", b"get  / HTTP/1.1\n": b"err 16 command\n",
            b"\nget A2\n": b"val \n", b"\r\nget A2\n": b"val \n", b"\x16\x03\x01\n": b"err 16 command\n",
            b"\xffET / x\n": b"err 16 command\n", b"1\n": b"err 16 command\n", b"GET /\r\n\r\n": b"err 16 command\n",
            b"walk\r\n\r\n": b"err 16 command\n", b"y" * 8_191 + b"\nget A2\n": b"err 16 command\nval \n",
            b"\x16\x03\x01\x02\x00\x01\x00\x01\xfc\x03\x03\r\n\r\n": b"err 16 command\n",
            b"GET A1": b"err 16 command\n", b"X": b"err 16 command\n", b"GET / HTTP/1.1": b"err 16 command\n",
            b"Y" * 8_191 + b"\nget A2\n": b"err 16 command\nval \n", b"Get A1\nget A2\n": b"err 16 command\nval \n",
            b"get A2\nPOST / HTTP/1.1\nset A3 5\n": b"val \nerr 16 command\nok 2\n",
        }
        with serving(None) as server:
            for sent, replies in given.items():
                with self.subTest(sent=sent[:40]):
                    client = server.client()
                    client.send(sent)
                    self.assertEqual(client.leave(), replies)

    def test_a_small_letter_is_not_waited_for(self):
        with serving(None) as server:
            client = server.client()
            for byte in b"set A1 5\nget A1\n":
                client.send(bytes([byte]))
            self.assertEqual((client.reply(), client.reply()), ("ok 1", "val 5"))
            # half a line, and the rest later
            other = server.client()
            other.send(b"g")
            self.assertFalse(other.is_answered_within(0.1))
            other.send(b"et A1\n")
            self.assertEqual(other.reply(), "val 5")

    def test_a_long_first_line(self):
        text = b"x" * 262_000
        with serving(None) as server:
            for first, reply in ((b"set A1 " + text, b"err 4 too-long\n"), (b"set A1 " + text * 2, b"err 15 line\n")):
                client = server.client()
                client.send(first + b"\nget A1\n")
                self.assertEqual(client.leave(), reply + b"val \n")
            # (a method may be as long)
            client = server.client()
            told = self.told(client, b"x" * 300_000 + b"\nset A1 5\n")
            if told:
                self.assertRegex(told, REFUSED_LONG)
            client.close()
            self.untouched(server)


PAGE = """<!doctype html><title>elsewhere</title>
<form id=form method=post enctype=text/plain action=@ADDRESS@ target=inside><textarea name=a>
set A1 5
set A2 6
</textarea></form>
<iframe name=inside id=inside></iframe>
<script>
const THERE = '@ADDRESS@', LINES = '\\nset B1 5\\npush [["B2",[9007199254740991,32,"0"],[],[]]]\\n';
const settled = promise => promise.then(() => 'answered', () => 'failed');
const event = (it, ...names) => new Promise(done => names.forEach(name => it.addEventListener(name, () => done(name))));
async function attack() {
    const told = {};
    told.fetch = await settled(fetch(THERE, {method: 'POST', mode: 'no-cors', body: LINES}));
    told.cors = await settled(fetch(THERE, {method: 'PUT', body: LINES}));
    told.get = await settled(fetch(THERE + '?' + encodeURIComponent(LINES), {mode: 'no-cors'}));
    told.beacon = navigator.sendBeacon(THERE, LINES);
    const image = new Image();
    image.src = THERE + 'set%20C1%205';
    told.image = await event(image, 'load', 'error');
    told.page = await settled(fetch(THERE, {mode: 'no-cors'}));
    told.read = await settled(fetch(THERE));
    told.about = await settled(fetch(THERE + 'about'));
    const socket = new WebSocket(THERE.replace('http', 'ws'), ['set']);
    told.socket = await event(socket, 'open', 'error');
    const live = new WebSocket(THERE.replace('http', 'ws') + 'live');
    live.onopen = () => { live.send('set C3 5'); };
    told.live = await event(live, 'open', 'error');
    for (const path of ['\\nset C2 5\\n', '']) {
        const frame = document.createElement('iframe');
        frame.src = THERE + path;
        document.body.append(frame);
        told.frame = await Promise.race([event(frame, 'load'), new Promise(done => setTimeout(done, 3000, 'nothing'))]);
    }
    document.getElementById('form').submit();
    told.form = await Promise.race([event(document.getElementById('inside'), 'load'),
                                    new Promise(done => setTimeout(done, 3000, 'nothing'))]);
    return told;
}
</script>
"""


class Elsewhere(http.server.BaseHTTPRequestHandler):
    """A site of its own with one page."""

    page = b""

    def do_GET(self):
        self.send_response(200)
        self.send_header("Content-Type", "text/html")
        self.send_header("Content-Length", str(len(self.page)))
        self.end_headers()
        self.wfile.write(self.page)

    def log_message(self, *words):
        """Says nothing."""


class Browsers(Admission):
    """A page that isn't the server's own, in a real browser, which sends lines by all that a page has."""

    def setUp(self):
        if browser.program() is None:
            self.skipTest(NO_BROWSER)
        self.window = Browser()
        self.addCleanup(self.window.end)

    def site(self, there, port=0):
        """A site with a page that attacks this address."""
        shown = {"page": PAGE.replace("@ADDRESS@", there).encode()}
        site = http.server.ThreadingHTTPServer((HERE, port), type("Site", (Elsewhere,), shown))
        self.addCleanup(site.server_close)
        self.addCleanup(site.shutdown)
        threading.Thread(target=site.serve_forever, daemon=True).start()
        return site

    def port(self):
        """A port to which a browser goes."""
        port = free_port()
        while port < LEAST_PORT:
            port = free_port()
        return port

    def assert_in_vain(self, server, name, there):
        """A page of a site by this name, which attacks the server at this address, changes nothing."""
        page = self.window.page(f"http://{name}:{self.site(there).server_address[1]}/")
        told = page.value("attack()")
        page.close()
        self.untouched(server)
        # each came to the server, and was answered there
        self.assertEqual((told["fetch"], told["get"], told["cors"]), ("answered", "answered", "failed"), told)
        self.assertEqual((told["page"], told["read"], told["about"]), ("failed", "failed", "failed"), told)
        self.assertEqual((told["image"], told["socket"], told["live"]), ("error", "error", "error"), told)

    def test_a_page_of_another_site_or_at_another_port(self):
        with serving(None, port=self.port()) as server:
            # (a browser takes each name that ends so for one of this machine)
            for name in (HERE, "localhost", "elsewhere.localhost"):
                for host in (HERE, "localhost"):
                    with self.subTest(name=name, host=host):
                        self.assert_in_vain(server, name, f"http://{host}:{server.port}/")

    def test_a_foreign_name_for_the_address_of_the_server(self):
        with serving(None, port=self.port()) as server:
            page = self.window.page(f"http://elsewhere.localhost:{server.port}/")
            # (the browser says itself that it is forbidden)
            self.assertEqual(page.value("[document.getElementById('grid'), document.body.textContent.includes('403')]"),
                             [None, True])
            page.close()
            self.untouched(server)

    def test_a_page_whose_name_leads_to_the_server_later(self):
        """A site's page is of the server's origin, where its name and port lead to the server once it is loaded. Then a
        browser lets it choose any method."""
        port = self.port()
        site = self.site("/", port)
        page = self.window.page(f"http://elsewhere.localhost:{port}/")
        page.wait_for("typeof attack", "function")
        site.shutdown()
        site.server_close()
        with serving(None, port=port) as server:
            for method in ("patch", "set", "x", "post", "POST", "PUT"):
                told = page.value(f"settled(fetch('/', {{method: '{method}', body: LINES}}))")
                self.assertEqual(told, "answered", method)
            page.close()
            self.untouched(server)

    def test_the_page_itself_is_let_in_by_either_name(self):
        with serving(None, port=self.port()) as server:
            for name in (HERE, "localhost"):
                page = self.window.page(f"http://{name}:{server.port}/")
                page.wait_for("document.getElementById('link').textContent", "connected")
                page.close()
