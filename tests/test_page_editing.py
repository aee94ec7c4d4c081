"""Entries on the page of `sheet serve`: typed over a cell, edited in it, and in the line above the grid."""
import unittest

from browser import CONTROL, SHIFT
from browser_page import BrowserTest

# Has an undo come a second late, when one types already.
LATE_UNDO = """takeBack = (old => async (...given) => {
  await new Promise(done => setTimeout(done, 1000));
  return old(...given);
})(takeBack), 1"""


class Typing(BrowserTest):
    def test_arrows_end_an_entry_that_was_typed(self):
        page = self.page()
        for key, cell in (("ArrowRight", "A1"), ("ArrowDown", "B1"), ("ArrowLeft", "B2"), ("ArrowUp", "A2")):
            page.type(f"at {cell}")
            page.key(key)
            self.assert_held(f"get {cell}", f"val at {cell}")
        self.assertEqual(page.value("nameOf(current)"), "A1")

    def test_arrows_move_in_an_entry_that_is_edited(self):
        page = self.page()
        self.fill("set A1 13")
        page.wait_for("shownAt([0, 0])", "13")
        page.key("F2")
        page.wait_for("document.getElementById('editor').value", "13")
        page.key("ArrowLeft")
        page.type("0")
        page.key("Enter")
        self.assert_held("get A1", "val 103")
        # F2 while one types goes over to that
        page.type("13")
        page.key("F2")
        page.key("ArrowLeft")
        page.type("0")
        page.key("Enter")
        self.assert_held("get A2", "val 103")

    def test_arrows_point_into_a_formula(self):
        page = self.page()
        self.fill("set A1 5", "set A2 7")
        self.go(page, "B2")
        page.type("=")
        page.key("ArrowLeft")
        page.type("+")
        page.key("ArrowLeft")
        page.key("ArrowUp")
        page.wait_for("document.getElementById('editor').value", "=A2+A1")
        page.type("*2")
        page.key("ArrowDown")
        self.assert_held("entry B2", "entry =[.A2]+[.A1]*2")
        self.assertEqual(page.value("nameOf(current)"), "B3")

    def test_enter_goes_back_after_tabs(self):
        page = self.page()
        self.go(page, "B2")
        for row in (2, 3):
            for column in "BCD":
                page.type(f"{column}{row}.")
                page.key("Enter" if column == "D" else "Tab")
        self.assert_held("get D3", "val D3.")
        self.assertEqual(self.entries("A1:E4"), [",,,,", ",'B2.,'C2.,'D2.,", ",'B3.,'C3.,'D3.,", ",,,,"])
        self.assertEqual(page.value("nameOf(current)"), "B4")
        # a move by an arrow begins anew
        page.type("x")
        page.key("Tab")
        page.key("ArrowDown")
        page.type("y")
        page.key("Enter")
        self.assert_held("get C5", "val y")
        self.assertEqual(page.value("nameOf(current)"), "C6")

    def test_no_key_is_lost_after_a_click_elsewhere(self):
        page = self.page()
        page.type("5")
        page.key("Enter")
        page.wait_for("document.getElementById('undo').disabled", False)
        for number, place in enumerate(("document.getElementById('undo')", "document.querySelector('footer')",
                                        "document.getElementById('link')")):
            page.click(*page.middle(place))
            page.wait_for("nameOf(current)", f"A{number + 1}")
            page.type(f"at {number}")
            page.key("Enter")
        self.assert_held("get A3", "val at 2")
        self.assertEqual(self.entries("A1:A4"), ["'at 0", "'at 1", "'at 2", '""'])

    def test_an_undo_that_comes_late_moves_no_editor(self):
        page = self.page()
        page.type("5")
        page.key("Enter")
        page.wait_for("document.getElementById('undo').disabled", False)
        page.key("ArrowDown")
        page.value(LATE_UNDO)
        page.key("z", CONTROL)
        page.type("seven")
        page.key("Enter")
        self.assert_held("get A1", "val ")
        page.wait_for("editing", None)
        page.wait_for("[...held.values()].join()", "'seven")

    def test_a_blank_is_typed_by_the_space_bar(self):
        page = self.page()
        page.type(" x")
        page.key("Enter")
        self.assert_held("get A1", "val  x")


class Edits(BrowserTest):
    def test_edits(self):
        page = self.page()
        page.type("12")
        page.key("Enter")
        self.assertEqual(self.current(page), "A2")
        self.assert_held("get A1", "val 12")
        page.type("13")
        page.key("Tab")
        self.assertEqual(self.current(page), "B2")
        page.type("14")
        page.key("Tab", SHIFT)
        self.assertEqual(self.current(page), "A2")
        self.assert_held("get B2", "val 14")
        self.assertEqual(self.client.ask("rows A1:B2"), "rows 2")
        self.assertEqual((self.client.reply(), self.client.reply()), ("12,", "13,14"))
        page.type("9")
        page.key("Escape")
        self.assert_held("get A2", "val 13")
        page.wait_for("shownAt([0, 1])", "13")
        page.key("Enter")
        self.assertEqual(page.value("document.getElementById('editor').value"), "13")
        page.type("0")
        page.key("Enter", SHIFT)
        self.assert_held("get A2", "val 130")
        self.assertEqual(self.current(page), "A1")
        page.key("Delete")
        self.assert_held("get A1", "val ")

    def test_the_line_above_the_grid(self):
        page = self.page()
        page.click(*page.middle("document.getElementById('line')"))
        page.type("=1+2")
        page.key("Enter")
        self.assert_held("get A1", "val 3")
        page.key("ArrowUp")
        page.wait_for("document.getElementById('value').textContent", "= 3")
        self.assertEqual(page.value("document.getElementById('line').value"), "=1+2")
        page.click(*page.middle("document.getElementById('name')"))
        page.type("cz1024")
        page.key("Enter")
        self.assertEqual(self.current(page), "CZ1024")
        page.type("end")
        page.key("Enter")
        self.assert_held("get CZ1024", "val end")
        self.assert_shows(page, (103, 1023), "end")


if __name__ == "__main__":
    unittest.main()
