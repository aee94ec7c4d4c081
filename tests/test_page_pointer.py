"""The pointer on the page of `sheet serve`: it selects, edits, and points cells into a formula."""
import unittest

from browser import SHIFT
from browser_page import BrowserTest


class Pointer(BrowserTest):
    def test_a_click_picks_a_cell(self):
        page = self.page()
        page.click(*self.middle(page, 2, 4))
        self.assertEqual(self.current(page), "C5")
        page.click(*self.middle(page, 3, 5), modifiers=SHIFT)
        self.assertEqual(page.value("JSON.stringify(selected())"), '{"left":2,"top":4,"right":3,"bottom":5}')

    def test_a_double_click_edits(self):
        page = self.page()
        self.client.ask("set B2 40")
        page.wait_for("shownAt([1, 1])", "40")
        page.click(*self.middle(page, 1, 1), times=2)
        page.type("2")
        page.key("Enter")
        self.assert_held("get B2", "val 402")

    def test_cells_are_picked_into_a_formula(self):
        page = self.page()
        self.client.ask("set A1 5")
        self.client.ask("set A3 7")
        page.click(*self.middle(page, 1, 0))
        page.type("=")
        page.click(*self.middle(page, 0, 0))
        page.type("+SUM(")
        page.mouse("mousePressed", *self.middle(page, 0, 0), clickCount=1, buttons=1)
        page.mouse("mouseMoved", *self.middle(page, 0, 1), buttons=1)
        page.mouse("mouseMoved", *self.middle(page, 0, 2), buttons=1)
        page.mouse("mouseReleased", *self.middle(page, 0, 2), clickCount=1)
        page.type(")")
        self.assertEqual(page.value("document.getElementById('editor').value"), "=A1+SUM(A1:A3)")
        page.key("Enter")
        self.assert_held("get B1", "val 17")

    def test_another_cell_takes_the_place_of_the_picked_one(self):
        page = self.page()
        self.fill("set A1 5", "set A3 7")
        page.click(*self.middle(page, 1, 0))
        page.type("=2*")
        page.click(*self.middle(page, 0, 0))
        page.click(*self.middle(page, 0, 2))
        self.assertEqual(page.value("document.getElementById('editor').value"), "=2*A3")
        page.key("Enter")
        self.assert_held("get B1", "val 14")

    def test_a_click_elsewhere_ends_an_entry(self):
        page = self.page()
        for typed in ("text", "=1+2"):
            page.click(*self.middle(page, 1, 1))
            page.type(typed)
            page.click(*self.middle(page, 3, 3))
            page.wait_for("nameOf(current)", "D4")
            page.wait_for("editing", None)
        self.assert_held("entry B2", "entry =1+2")
        # one that is refused waits at its cell
        page.click(*self.middle(page, 0, 0))
        page.type("=1//2")
        page.click(*self.middle(page, 3, 3))
        page.wait_for("document.querySelectorAll('#cell-0.refused').length", 1)
        page.click(*self.middle(page, 0, 0), times=2)
        page.wait_for("document.getElementById('editor').value", "=1//2")


if __name__ == "__main__":
    unittest.main()
