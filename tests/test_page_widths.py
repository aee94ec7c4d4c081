"""The widths of columns on the page of `sheet serve`."""
import unittest

from browser import ALT, SHIFT
from browser_page import BrowserTest


class Widths(BrowserTest):
    def edge(self, page, column):
        return page.middle(f"[...document.querySelectorAll('.edge')].find(edge => edge.dataset.edge === '{column}')")

    def test_an_edge_is_dragged_and_kept(self):
        page = self.page()
        self.addCleanup(lambda: page.value("localStorage.clear()"))
        width = page.value("widthOf(0)")
        x, y = self.edge(page, 0)
        page.mouse("mousePressed", x, y, clickCount=1, buttons=1)
        page.mouse("mouseMoved", x + 30, y, buttons=1)
        page.mouse("mouseMoved", x + 60, y, buttons=1)
        page.mouse("mouseReleased", x + 60, y, clickCount=1)
        self.assertEqual(page.value("widthOf(0)"), width + 60)
        page.key("ArrowLeft", ALT | SHIFT)
        self.assertEqual(page.value("widthOf(0)"), width + 44)
        # the cells beside it move, and a click finds them
        page.click(*self.middle(page, 1, 2))
        self.assertEqual(self.current(page), "B3")
        page.open(self.server.url)
        page.wait_for("seenAt !== ''")
        self.assertEqual(page.value("widthOf(0)"), width + 44)

    def test_the_width_that_fits(self):
        page = self.page()
        self.addCleanup(lambda: page.value("localStorage.clear()"))
        self.fill("set B700 'a text that is wider than its column")
        page.click(*self.edge(page, 1), times=2)
        page.wait_for("widthOf(1) > WIDTH * 1.5")
        wide = page.value("widthOf(1)")
        self.go(page, "B700")
        page.wait_for("(e => e.scrollWidth <= e.clientWidth)(document.getElementById('cell-' + keyOf(1, 699)))")
        self.fill("set B700 x")
        page.key("ArrowUp", ALT | SHIFT)
        page.wait_for(f"widthOf(1) < {wide}")

    def test_counters_and_sets_fit_with_their_buttons(self):
        page = self.page()
        self.addCleanup(lambda: page.value("localStorage.clear()"))
        self.fill("set B1 @tally", "add B1 1000000", "set C1 @choice")
        self.fill(*(f"choose C1 {option}" for option in range(20, 30)))
        page.wait_for("shownAt([2, 0]).length", 31)
        for column, part in ((1, "span"), (2, ".marks")):
            self.go(page, f"{'ABC'[column]}1")
            page.key("ArrowUp", ALT | SHIFT)
            page.wait_for(f"widths.has({column})")
            cell = f"document.getElementById('cell-{column}')"
            page.wait_for(f"[{cell}, {cell}.querySelector('{part}')].every(e => e.scrollWidth <= e.clientWidth + 1)")
        self.assertLess(page.value("widthOf(1)"), 160)


if __name__ == "__main__":
    unittest.main()
