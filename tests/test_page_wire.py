"""The connection of the page of `sheet serve`: its news, what is lost and comes back, and a server without a slot."""
import os
import signal
import statistics
import time
import unittest

from browser import Page
from browser_page import BrowserTest
from program import LIMIT
from servers import serving

# Notes when each text of the first cell was first drawn, by the clock of the machine, and resolves to that for a text.
NOTED = """(() => {
  const noted = new Map(), element = cells.get(0), note = (text, at) => noted.has(text) || noted.set(text, at);
  new MutationObserver(() => requestAnimationFrame(() => note(element.textContent, Date.now())))
    .observe(element, { childList: true, characterData: true, subtree: true });
  const look = (text, done) => noted.has(text) ? done(noted.get(text)) : setTimeout(look, 50, text, done);
  drawnAt = text => new Promise(done => look(text, done));
})()"""
# Resolves to how long a line and its reply take.
TRIP = "(async () => { const begin = performance.now(); await ask('get A1'); return performance.now() - begin; })()"
# Notes what is sent from here on.
SENT = """(() => {
  sent = [];
  const opened = socket, send = opened.send.bind(opened);
  opened.send = text => { sent.push(text); send(text); };
})()"""
# Has the news end, though the other side may leave it open for a while.
CUT = "(({ onclose }) => { news.onmessage = news.onclose = null; news.close(); onclose(); })(news)"
# Has a page know a server without news.
NO_NEWS = "WebSocket = class extends WebSocket { constructor(url) { super(url.replace('/news', '/none')); } }"
MOST_SECONDS, CHANGES, ROUNDS, TRIPS = 0.15, 15, 5, 3
# Notes how much of the grid is ever seen: '0' where nothing is.
NOTING = """(() => {
  window.noted = new Set();
  const note = grid => grid && noted.add(getComputedStyle(grid).opacity);
  setInterval(() => note(document.getElementById('grid')), 20);
})()"""
# Asks five lines, sends none, gives the page two messages with the replies, and resolves to what was asked.
TOGETHER = r"""(() => {
  socket.send = () => {};
  const asked = ['get A1', 'rows A1:B2', 'set A1 1', 'entries A1:A3', 'pull 9'].map(ask);
  socket.onmessage({ data: 'val rows 2\nrows 2\n1,2\nrows 7\n' });
  socket.onmessage({ data: 'ok 1\nentries 3\n\nval 5\n\nend 3\n' });
  return Promise.all(asked);
})()"""


class News(BrowserTest):
    def informed(self):
        """A page to which the server says what is new."""
        page = self.page()
        page.wait_for("heard >= 0")
        return page

    def test_anothers_change_shows_at_once(self):
        page = self.informed()
        page.value(NOTED)
        # the machine may be busy: it is late by some round trips then, and of some rounds one has to be in time
        number, rounds = 0, []
        while not rounds or rounds[-1] > MOST_SECONDS:
            self.assertLess(len(rounds), ROUNDS, rounds)
            taken, trips = [], []
            for _ in range(CHANGES):
                number, begin = number + 1, time.time()
                self.assertEqual(self.client.ask(f"set A1 {number}"), f"ok {number}")
                taken.append(page.value(f"drawnAt('{number}')") / 1000 - begin)
                trips.append(page.value(TRIP) / 1000)
            rounds.append(statistics.median(taken) - TRIPS * statistics.median(trips))

    def test_nothing_is_sent_while_nothing_changes(self):
        page = self.informed()
        # (the first news may still be due to be looked at)
        page.wait_for("due + later + underWay.length + waiting.length", 0)
        page.value(SENT)
        time.sleep(3)
        sent = page.value("sent")
        # (a sign of life at most)
        self.assertIn(sent, ([], ["pull 0 1"]))

    def test_many_changes_are_looked_at_together(self):
        page = self.informed()
        page.value(SENT)
        began = time.monotonic()
        for number in range(200):
            self.client.ask(f"set A1 {number}")
        taken = time.monotonic() - began
        self.assert_shows(page, (0, 0), "199")
        # (two lines a look, and the last one)
        self.assertLess(page.value("sent.length"), 3 * (taken / 0.04 + 3))

    def test_news_that_ends_is_asked_for_again(self):
        page = self.informed()
        page.value(CUT)
        self.assertEqual(page.value("heard"), -1)
        self.client.ask("set A1 5")
        self.assert_shows(page, (0, 0), "5")
        page.wait_for("heard", 1)
        self.client.ask("set A1 6")
        self.assert_shows(page, (0, 0), "6")

    def test_a_server_without_news_is_asked(self):
        page = Page(self.browser.port, self.browser.new_window())
        self.addCleanup(page.close)
        page.call("Page.addScriptToEvaluateOnNewDocument", source=NO_NEWS)
        page.open(self.server.url)
        page.wait_for("document.getElementById('link').textContent", "connected")
        for number in range(3):
            self.client.ask(f"set A1 {number}")
            self.assert_shows(page, (0, 0), str(number))
        self.assertEqual(page.value("heard"), -1)

    def test_what_is_selected_beyond_the_view_is_read_again(self):
        page = self.informed()
        self.fill("set A900 old")
        self.go(page, "A1:A1000")
        page.wait_for("shownAt([0, 899])", "old")
        self.fill("set A900 new")
        page.wait_for("shownAt([0, 899])", "new")


class Silence(BrowserTest):
    words = ("--idle", "2")

    def test_a_page_that_is_ended_for_its_silence_speaks_more_often(self):
        page = self.page()
        page.wait_for("silence < 2000")
        page.wait_for("document.getElementById('link').textContent", "connected")
        page.value("opened = socket, 1")
        time.sleep(5)
        self.assertTrue(page.value("socket === opened"))


class Link(BrowserTest):
    words = ("--seats", "3", "--wait", "1")

    def test_a_browser_too_many_is_told_so(self):
        """It says how many are here, and that it tries again. It has no grid: an empty one would look like an empty
        sheet."""
        # (two slots are those of clients)
        for client in (self.client, self.server.client()):
            self.assertEqual(client.ask("get A1"), "val ")
        first, other = self.page(), self.browser.page()
        self.addCleanup(other.close)
        other.call("Page.addScriptToEvaluateOnNewDocument", source=NOTING)
        other.open(self.server.url)
        for _ in range(3):
            other.wait_for("document.getElementById('link').textContent", "all places are taken, trying again")
            other.wait_for("document.getElementById('link').textContent", "waiting for the server")
        other.wait_for("document.getElementById('here').textContent", "1 here")
        self.assertEqual(other.value("[...noted]"), ["0"])
        first.open("about:blank")
        other.wait_for("document.getElementById('link').textContent", "connected")
        other.wait_for("noted.has('1')")
        other.wait_for("document.getElementById('here').textContent", "")

    def test_replies_that_come_together(self):
        page = self.page()
        page.value("link.onChange = () => {}, 1")
        page.wait_for("underWay.length + waiting.length", 0)
        self.assertEqual(page.value(TOGETHER), [
            ["val rows 2"], ["rows 2", "1,2", "rows 7"], ["ok 1"], ["entries 3", "", "val 5", ""], ["end 3"]])

    def test_a_lost_connection(self):
        page = self.page()
        port = self.server.port
        os.killpg(self.server.session.pid, signal.SIGKILL)
        self.server.session.wait(LIMIT)
        page.wait_for("document.getElementById('link').textContent", "no connection, trying again")
        self.assertEqual(page.value("document.body.className"), "lost")
        page.type("5")
        page.wait_for("document.getElementById('refusal').textContent",
                      "There is no connection: the entry waits here until it is back.")
        with serving(None, port=port):
            page.wait_for("document.body.className", "")
            page.key("Enter")
            self.assert_shows(page, (0, 0), "5")


if __name__ == "__main__":
    unittest.main()
