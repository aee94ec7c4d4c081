"""How fast the page of `sheet serve` takes in and draws a paste of 1,000 cells, by the clock of the browser.

Others may keep the machine busy, so the median of some pastes counts. The measure is tried on pages that were made slow,
too.
"""
import statistics
import unittest

from browser_page import BrowserTest

# The cells of a paste, and a window that shows them all.
COLUMNS, ROWS = 20, 50
WINDOW = {"width": 2300, "height": 1500, "deviceScaleFactor": 1, "mobile": False}
MOST_SECONDS, PASTES = 1, 5
# So many lines are under way at a time at least, as counted on the connection.
MANY = 50
# Counts the lines that put something in, and their replies, before the page has either.
COUNTED = r"""(() => {
  Object.assign(window, { sent: 0, answered: 0, most: 0 });
  const send = socket.send.bind(socket), take = socket.onmessage;
  socket.send = text => {
    if (text.startsWith('set ')) most = Math.max(most, ++sent - answered);
    send(text);
  };
  socket.onmessage = event => {
    answered += (event.data.match(/^(ok|err) /gm) || []).length;
    take(event);
  };
})()"""
# Pastes numbers from one on. Resolves to the milliseconds until all lines are answered and each cell shows its number,
# once the browser has begun the frame after the one that has them.
PASTED = r"""new Promise(ended => {
  const [first, columns, rows] = %s, data = new DataTransfer(), goal = sent + columns * rows;
  const row = n => Array.from({ length: columns }, (_, i) => first + n * columns + i).join('\t');
  data.setData('text/plain', Array.from({ length: rows }, (_, n) => row(n)).join('\n'));
  const isShown = n => (document.getElementById('cell-' + keyOf(n %% columns, Math.floor(n / columns))) || {})
    .textContent === String(first + n);
  const all = Array.from({ length: columns * rows }, (_, n) => n).reverse(), begin = performance.now();
  const look = () => answered >= goal && acting === 0 && all.every(isShown)
    ? requestAnimationFrame(() => ended(performance.now() - begin)) : requestAnimationFrame(look);
  requestAnimationFrame(look);
  document.dispatchEvent(new ClipboardEvent('paste', { clipboardData: data, bubbles: true, cancelable: true }));
})"""
# A line waits for the reply to the one before it.
ONE_BY_ONE = """(() => {
  const now = ask;
  let last = Promise.resolve();
  ask = text => { const mine = last.then(() => now(text)); last = mine.catch(() => {}); return mine; };
})()"""
WAIT = "window.wait = most => { const begin = performance.now(); while (performance.now() - begin < most); };"
# Each reply keeps the page busy.
SLOW_REPLIES = WAIT + """(() => {
  const now = ask;
  ask = async text => { const reply = await now(text); wait(2); return reply; };
})()"""


class Paste(BrowserTest):
    def window(self):
        """A page that shows all cells of a paste, and counts lines and replies."""
        page = self.page()
        page.call("Emulation.setDeviceMetricsOverride", **WINDOW)
        page.wait_for(f"cells.has(keyOf({COLUMNS - 1}, {ROWS - 1}))")
        page.value(COUNTED)
        return page

    def pasted(self, page, first):
        """How many seconds a paste of numbers from this one on takes, once nothing else is asked."""
        page.wait_for("acting + waiting.length + underWay.length", 0)
        return page.value(PASTED % [first, COLUMNS, ROWS]) / 1000

    def pastes(self, page):
        """The seconds of some pastes, each of other numbers."""
        return [self.pasted(page, 1 + 7 * n) for n in range(PASTES)]

    def test_a_thousand_cells_are_shown_within_a_second(self):
        page = self.window()
        times = self.pastes(page)
        self.assertLess(statistics.median(times), MOST_SECONDS, times)
        last = 1 + 7 * (PASTES - 1)
        wanted = [",".join(str(last + COLUMNS * row + n) for n in range(COLUMNS)) for row in range(ROWS)]
        self.assertEqual(self.entries("A1:T50"), wanted)

    def test_slow_replies_are_noticed(self):
        page = self.window()
        page.value(SLOW_REPLIES)
        self.assertGreater(statistics.median(self.pastes(page)), MOST_SECONDS)

    def test_many_lines_are_under_way_at_a_time(self):
        page = self.window()
        self.pasted(page, 1)
        self.assertEqual(page.value("[sent, answered]"), [COLUMNS * ROWS] * 2)
        self.assertGreaterEqual(page.value("most"), MANY)

    def test_lines_one_by_one_are_noticed(self):
        page = self.window()
        page.value(ONE_BY_ONE)
        self.pasted(page, 1)
        self.assertEqual(page.value("most"), 1)


if __name__ == "__main__":
    unittest.main()
