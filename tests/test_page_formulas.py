"""Formulas on the page of `sheet serve`: how they are typed and shown, and how a copy moves their references."""
import unittest

from browser import CONTROL
from browser_page import BrowserTest


class Moved(BrowserTest):
    def test_a_dollar_holds_a_column_or_a_row(self):
        page = self.page()
        self.fill("set A1 5", "set B2 3")
        self.go(page, "C3")
        page.type("=$A$1+$B2+C$2")
        page.key("Enter")
        self.assert_held("entry C3", "entry =[.A1]+[.B2]+[.C2]")
        page.key("ArrowUp")
        page.wait_for("document.getElementById('line').value", "=$A$1+$B2+C$2")
        page.key("c", CONTROL)
        self.go(page, "E5")
        page.key("v", CONTROL)
        self.assert_held("entry E5", "entry =[.A1]+[.B4]+[.E2]")
        # .. also of a copy of the copy, which is typed with it
        page.wait_for("document.getElementById('line').value", "=$A$1+$B4+E$2")
        # what somebody else puts there has none
        self.fill("set E5 =[.A1]+[.B4]")
        page.wait_for("document.getElementById('line').value", "=A1+B4")

    def test_a_reference_that_would_leave_the_sheet_is_refused(self):
        page = self.page()
        self.fill("set B3 =[.A1]", "set C3 9")
        self.go(page, "B3:C3")
        page.wait_for("shownAt([2, 2])", "9")
        page.key("c", CONTROL)
        self.go(page, "A1")
        page.key("v", CONTROL)
        self.assert_held("get B1", "val 9")
        self.assertIn("A reference would leave the sheet", self.told(page))
        self.assertEqual(self.client.ask("entry A1"), "entry ")


class Written(BrowserTest):
    def test_texts_stay_texts(self):
        page = self.page()
        typed_and_held = (("'12", "'12"), ("apples", "'apples"), ("gr\u00fc\u00df", "'gr\u00fc\u00df"), ("a1", "'a1"))
        for row, (typed, entry) in enumerate(typed_and_held, 1):
            page.type(typed)
            page.key("Enter")
            self.assert_held(f"entry A{row}", f"entry {entry}")
        page.key("Home", CONTROL)
        page.wait_for("document.getElementById('line').value", "'12")
        page.key("ArrowDown")
        page.wait_for("document.getElementById('line').value", "apples")


if __name__ == "__main__":
    unittest.main()
