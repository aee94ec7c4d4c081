#!/usr/bin/env python3
"""Measures the page of `./sheet serve`, with Chromium without a window (`tests/browser.py`), and tells:

- how long it takes from a key in one browser to the picture in the other, the median and the longest of CHANGES;
- the memory of the server before the first browser, and with 16 of them, which have each asked for a screenful;
- frames while one scrolls, by 40 pixels a frame down the sheet, over a full screen of numbers: how many a second, and
  how many took more than 1/30 of a second.

`bench/page.py [CHANGES]` takes so many changes, 50 where it isn't given.
"""
import contextlib
import statistics
import sys
from pathlib import Path

TOP = Path(__file__).resolve().parent.parent
sys.path.insert(0, str(TOP / "tests"))
from browser import Browser
from browser_socket import WebSocket
from servers import serving

BROWSERS = 16
SCREEN = "A1:K28"
ROWS = 400
# Resolves to the time, in milliseconds since 1970, of the frame that first shows a text in A1.
SHOWN = """new Promise(done => {
  const cell = document.getElementById('cell-0');
  const look = time => cell.textContent === '%s' ? done(performance.timeOrigin + time) : requestAnimationFrame(look);
  requestAnimationFrame(look);
})"""
# Types a text into A1, and tells when its last key went down.
TYPED = """(() => {
  moveTo([0, 0]);
  edit('%s', 'cell');
  const at = performance.timeOrigin + performance.now();
  editor.dispatchEvent(new KeyboardEvent('keydown', { key: 'Enter', bubbles: true, cancelable: true }));
  return at;
})()"""
# Scrolls down for so many frames, and resolves to the times between them, in milliseconds.
SCROLLED = """new Promise(done => {
  const times = [];
  const step = time => {
    times.push(time);
    if (times.length > 240) { done(times.slice(1).map((t, i) => t - times[i])); return; }
    grid.scrollTop += 40;
    requestAnimationFrame(step);
  };
  requestAnimationFrame(step);
})"""


def opened(browser, server):
    """A page that has its first reply."""
    page = browser.page(server.url)
    page.wait_for("seenAt !== ''")
    return page


def delays(first, second, changes):
    """How many milliseconds each of so many changes of one page takes to the frame of the other that shows it."""
    for number in range(1, changes + 1):
        second.value(f"void (window.shown = {SHOWN % number})")
        began = first.value(TYPED % number)
        yield second.value("window.shown") - began


def fill(port):
    """Sets the cells of so many rows to their rows' numbers."""
    with WebSocket(port) as socket:
        for row in range(1, ROWS + 1):
            for column in "ABCDEFGHIJK":
                socket.ask(f"set {column}{row} {row}")


def main(changes):
    with contextlib.ExitStack() as stack:
        server = stack.enter_context(serving(None))
        before = server.memory()
        browser = Browser()
        stack.callback(browser.end)
        first, second = opened(browser, server), opened(browser, server)
        took = sorted(delays(first, second, changes))
        print(f"from a key to the picture in the other: {statistics.median(took):.0f} ms, {took[-1]:.0f} ms at most")
        fill(server.port)
        second.wait_for("shownAt([0, 2])", "3")
        frames = second.value(SCROLLED)
        late = sum(frame > 1000 / 30 for frame in frames)
        print(f"{1000 * len(frames) / sum(frames):.0f} frames a second while scrolling, {late} of {len(frames)} late")
        second.close()
        first.close()
        sockets = []
        while len(sockets) < BROWSERS:
            with contextlib.suppress(Exception):
                socket = WebSocket(server.port)
                socket.ask(f"rows {SCREEN}")
                socket.ask(f"entries {SCREEN}")
                sockets.append(stack.enter_context(socket))
        print(f"memory of the server: {before / 1e6:.1f} MB, with {BROWSERS} browsers {server.memory() / 1e6:.1f} MB")


if __name__ == "__main__":
    main(int(sys.argv[1]) if len(sys.argv) > 1 else 50)
