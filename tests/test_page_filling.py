"""Filling down and to the right on the page of `sheet serve`, by keys, by the handle and by a copy."""
import unittest

from browser import CONTROL, SHIFT
from browser_page import BrowserTest


class Fills(BrowserTest):
    def test_control_d_and_control_r(self):
        page = self.page()
        self.fill("set A1 5", "set A2 7", "set A3 9", "set B1 =[.A1]*2")
        self.go(page, "B1:B3")
        page.key("d", CONTROL)
        self.assert_held("entry B3", "entry =[.A3]*2")
        self.assert_held("entry B2", "entry =[.A2]*2")
        # one row takes that above it
        self.go(page, "B4")
        page.key("d", CONTROL)
        self.assert_held("entry B4", "entry =[.A4]*2")
        self.go(page, "B1:D2")
        page.key("r", CONTROL)
        self.assert_held("entry D2", "entry =[.C2]*2")
        self.assert_held("entry C1", "entry =[.B1]*2")
        page.wait_for("heldAt([3, 1])", "=[.C2]*2")
        page.key("z", CONTROL)
        self.assert_held("entry D2", "entry ")

    def test_a_fill_has_the_entry_before_it(self):
        page = self.page()
        # one key after another without a pause
        for text in ("5", "=A1*2"):
            page.type(text)
            page.key("ArrowDown")
        page.key("d", CONTROL)
        self.assert_held("entry A3", "entry =[.A2]*2")

    def test_many_lines_are_under_way_at_a_time(self):
        page = self.page()
        self.fill("set A1 7")
        page.value("""window.most = 0, WebSocket.prototype.send = (old => function (text) {
            most = Math.max(most, underWay.length);
            old.call(this, text);
        })(WebSocket.prototype.send), 1""")
        self.go(page, "A1:A500")
        page.key("d", CONTROL)
        self.assert_held("get A500", "val 7")
        self.assertGreater(page.value("most"), 100)

    def test_the_handle_is_dragged(self):
        page = self.page()
        self.fill("set A1 1", "set A2 2", "set B1 =[.A1]", "set B2 x")
        self.go(page, "B1:B2")
        page.wait_for("shownAt([1, 1])", "x")
        page.mouse("mousePressed", *page.middle("document.getElementById('handle')"), clickCount=1, buttons=1)
        for row in (3, 4, 5):
            page.mouse("mouseMoved", *self.middle(page, 1, row), buttons=1)
        page.mouse("mouseReleased", *self.middle(page, 1, 5), clickCount=1)
        self.assert_held("entry B6", "entry 'x")
        self.assertEqual(self.entries("B1:B7"), ["=[.A1]", "'x", "=[.A3]", "'x", "=[.A5]", "'x", '""'])
        self.assertEqual(page.value("areaName(selected())"), "B1:B6")

    def test_a_copy_fills_a_column(self):
        page = self.page()
        self.fill("set A1 4", "set B1 =[.A1]*3")
        self.go(page, "B1")
        page.wait_for("shownAt([1, 0])", "12")
        page.key("c", CONTROL)
        for _ in range(3):
            page.key("ArrowDown", SHIFT)
        page.key("v", CONTROL)
        self.assert_held("entry B4", "entry =[.A4]*3")


if __name__ == "__main__":
    unittest.main()
