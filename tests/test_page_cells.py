"""What the page of `sheet serve` knows of the sheet: what others change, and counters."""
import unittest

from browser import CONTROL
from browser_page import BrowserTest


class Two(BrowserTest):
    def test_what_one_types_the_other_shows(self):
        first, second = self.page(), self.page()
        first.type("5")
        first.key("Enter")
        self.assert_shows(second, (0, 0), "5")
        second.key("ArrowDown")
        second.type("=a1*2,")
        second.key("Backspace")
        second.key("Enter")
        self.assert_shows(first, (0, 1), "10")
        self.assert_held("entry A2", "entry =[.A1]*2")
        # also while one types
        first.type("=SUM(")
        second.key("Home", CONTROL)
        second.type("7")
        second.key("Tab")
        self.assert_shows(first, (0, 1), "14")
        self.assertEqual(first.value("document.getElementById('editor').value"), "=SUM(")

    def test_a_change_shows_within_half_a_second(self):
        page = self.page()
        # the machine may be busy: of some changes one has to show in time
        for number in range(1, 21):
            self.assertEqual(self.client.ask(f"set C3 {number}"), f"ok {number}")
            if self.assert_shows(page, (2, 2), str(number)) < 0.5:
                return
        self.fail("no change showed in time")

    def test_counters(self):
        first, second = self.page(), self.page()
        first.click(*first.middle("document.getElementById('tally')"))
        self.assert_held("entry A1", "entry @tally")
        for page in (first, second):
            page.wait_for("document.querySelectorAll('#cell-0 button').length", 2)
        for _ in range(3):
            second.click(*self.middle(second, 0, 0, "[data-action=add]"))
        first.click(*self.middle(first, 0, 0, "[data-action=sub]"))
        first.key("+")
        first.key("-")
        self.assert_held("get A1", "val 2")
        first.wait_for("shownAt([0, 0])", "2")
        second.wait_for("shownAt([0, 0])", "2")


if __name__ == "__main__":
    unittest.main()
