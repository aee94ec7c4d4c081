"""What the page of `sheet serve` says: refusals and faults in words."""
import unittest

from browser_page import BrowserTest


class Told(BrowserTest):
    words = ("--seats", "3", "--wait", "1")

    def test_refusals_are_told_in_words(self):
        page = self.page()
        page.type("=1+")
        page.key("Enter")
        page.wait_for("document.getElementById('refusal').hidden", False)
        self.assertIn("A1: This is no formula", page.value("document.getElementById('refusal').textContent"))
        page.wait_for("document.getElementById('editor').value", "=1+")
        page.key("Escape")
        page.wait_for("document.getElementById('refusal').hidden", True)

    def test_faults_have_a_word(self):
        page = self.page()
        self.client.ask("set A1 =[.A1]")
        page.wait_for("document.getElementById('hint').textContent",
                      "#CYCLE! a circle: the cell refers to itself, perhaps over others")
        self.assertEqual(page.value("document.getElementById('cell-0').className.includes('cycle')"), True)
        # a text that only looks like a fault
        self.client.ask("set A1 '#CYCLE!")
        page.wait_for("heldAt([0, 0])", "'#CYCLE!")
        page.wait_for("document.getElementById('cell-0').className.includes('cycle')", False)

    def test_what_is_there_is_not_made_another(self):
        page = self.page()
        self.client.ask("set A1 Friday")
        page.wait_for("shownAt([0, 0])", "Friday")
        page.click(*page.middle("document.getElementById('tally')"))
        page.wait_for("document.getElementById('refusal').textContent",
                      "A1: This cell holds something. Delete it first.")
        self.assertEqual(self.client.ask("get A1"), "val Friday")


if __name__ == "__main__":
    unittest.main()
