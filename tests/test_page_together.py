"""Several people at the page of `sheet serve`: two in one cell, and counters and sets that aren't replaced unasked."""
import unittest

from browser import CONTROL
from browser_page import BrowserTest


class OneCell(BrowserTest):
    def conflict(self):
        """A page where one types while another entry comes into the cell."""
        page = self.page()
        page.type("mine")
        self.fill("set A1 theirs")
        page.wait_for("document.getElementById('refusal').hidden", False)
        self.assertIn('Somebody has put "theirs" here meanwhile', self.told(page))
        page.key("Enter")
        return page

    def test_mine_stays(self):
        page = self.conflict()
        self.assertIn('A1: somebody has put "theirs" here while you typed "mine"', self.answer(page, "Mine"))
        self.assert_held("get A1", "val mine")
        # the other one can be had back
        page.wait_for("document.getElementById('undo').disabled", False)
        page.key("z", CONTROL)
        self.assert_held("get A1", "val theirs")

    def test_theirs_stays(self):
        page = self.conflict()
        self.answer(page, "Theirs")
        page.wait_for("acting", 0)
        self.assertEqual(page.value("[editing, marks.size]"), [None, 0])
        self.assertEqual(self.client.ask("get A1"), "val theirs")

    def test_typing_goes_on(self):
        page = self.conflict()
        page.wait_for("!!document.querySelector('#question[open]')")
        page.key("Escape")
        page.wait_for("document.getElementById('editor').value", "mine")
        page.wait_for("document.activeElement.id", "editor")
        self.assertEqual(self.client.ask("get A1"), "val theirs")
        page.type(" too")
        page.key("Enter")
        self.assert_held("get A1", "val mine too")

    def test_an_entry_that_comes_at_the_last_moment(self):
        page = self.page()
        page.type("mine")
        # (the page looks no more, as between two of its looks)
        page.value("link.onChange = () => {}")
        self.fill("set A1 theirs")
        page.key("Enter")
        self.answer(page, "Mine")
        self.assert_held("get A1", "val mine")

    def test_what_one_types_next_goes_on_after_the_question(self):
        page = self.page()
        page.type("mine")
        page.value("link.onChange = () => {}")
        self.fill("set A1 theirs")
        # the question comes while the next entry is begun
        page.value("(() => { const now = question; question = (...all) => new Promise(done => setTimeout(done, 500))"
                   ".then(() => now(...all)); })()")
        page.key("Enter")
        page.type("next")
        self.answer(page, "Mine")
        page.type(" entry")
        page.key("Enter")
        self.assert_held("get A2", "val next entry")
        self.assertEqual(self.client.ask("get A1"), "val mine")

    def test_the_same_entry_is_no_conflict(self):
        page = self.page()
        page.type("12")
        self.fill("set A1 12")
        page.wait_for("heldAt([0, 0])", "12")
        page.key("Enter")
        page.key("ArrowDown")
        page.type("x")
        page.key("Enter")
        self.assert_held("get A3", "val x")
        self.assertFalse(page.value("!!document.querySelector('#question[open]')"))

    def test_quick_changes_of_ones_own_are_no_conflict(self):
        page = self.page()
        for number in range(5):
            page.type(str(number))
            page.key("Enter")
            page.key("ArrowUp")
        self.assert_held("get A1", "val 4")
        self.assertFalse(page.value("!!document.querySelector('#question[open]')"))


class Counters(BrowserTest):
    def test_a_digit_asks(self):
        page = self.page()
        self.fill("set A1 @tally", "add A1 3")
        page.wait_for("shownAt([0, 0])", "3")
        page.type("5")
        page.key("Enter")
        asked = self.answer(page, "Leave")
        self.assertIn("A1 is a counter that shows 3. Replace it?", asked)
        self.assertIn("comes back when the cell is made a counter or a set again", asked)
        self.assertEqual(self.client.ask("get A1"), "val 3")

    def test_delete_asks_and_the_votes_come_back(self):
        page = self.page()
        self.fill("set A1 @tally", "add A1 3")
        page.wait_for("shownAt([0, 0])", "3")
        page.key("Delete")
        self.answer(page, "Replace")
        self.assert_held("entry A1", "entry ")
        page.wait_for("heldAt([0, 0])", "")
        page.click(*page.middle("document.getElementById('tally')"))
        self.assert_held("get A1", "val 3")

    def test_a_set_asks(self):
        page = self.page()
        self.fill("set A1 @choice", "choose A1 4", "set A2 text")
        page.wait_for("shownAt([0, 0])", "{4}")
        self.go(page, "A1:A2")
        page.key("Delete")
        self.assertIn("A1 is a set of options that shows {4}", self.answer(page, "Leave"))
        self.assert_held("entry A2", "entry ")
        self.assertEqual(self.client.ask("get A1"), "val {4}")

    def test_an_empty_counter_goes_without_a_question(self):
        page = self.page()
        self.fill("set A1 @tally")
        page.wait_for("shownAt([0, 0])", "0")
        page.key("Delete")
        self.assert_held("entry A1", "entry ")


if __name__ == "__main__":
    unittest.main()
