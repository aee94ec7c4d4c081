"""Undo and redo on the page of `sheet serve`: what this browser did, where nobody has changed it since."""
import unittest

from browser import CONTROL, SHIFT
from browser_page import BrowserTest


class Undo(BrowserTest):
    def put(self, page, text):
        page.type(text)
        page.key("Enter")

    def test_entries_go_back_and_come_again(self):
        page = self.page()
        self.fill("set A1 =[.B1]+1")
        page.wait_for("heldAt([0, 0])", "=[.B1]+1")
        self.put(page, "5")
        self.put(page, "6")
        self.assert_held("get A2", "val 6")
        page.key("z", CONTROL)
        self.assert_held("entry A2", "entry ")
        self.assertEqual(self.client.ask("get A1"), "val 5")
        page.key("z", CONTROL)
        self.assert_held("entry A1", "entry =[.B1]+1")
        page.key("y", CONTROL)
        self.assert_held("entry A1", "entry 5")
        page.key("Z", CONTROL | SHIFT)
        self.assert_held("entry A2", "entry 6")
        page.wait_for("document.getElementById('redo').disabled", True)
        # by the buttons, too
        page.click(*page.middle("document.getElementById('undo')"))
        self.assert_held("entry A2", "entry ")
        page.wait_for("document.getElementById('redo').disabled", False)
        page.click(*page.middle("document.getElementById('redo')"))
        self.assert_held("entry A2", "entry 6")

    def test_an_entry_that_is_under_way_is_undone(self):
        page = self.page()
        self.put(page, "5")
        # one key after another without a pause
        self.put(page, "6")
        page.key("z", CONTROL)
        page.wait_for("acting", 0)
        self.assertEqual(self.entries("A1:A2"), ["5", '""'])

    def test_what_an_undo_put_back_is_no_conflict(self):
        page = self.page()
        self.put(page, "5")
        page.wait_for("document.getElementById('undo').disabled", False)
        # the page looks at the sheet late, so that it still shows what was undone
        page.value("link.onChange = look = async () => {}, 1")
        page.wait_for("isLooking", False)
        page.key("z", CONTROL)
        page.wait_for("[done.length, nameOf(current)].join()", "0,A1")
        self.assertEqual(page.value("heldAt([0, 0])"), "5")
        self.put(page, "seven")
        self.assert_held("get A1", "val seven")

    def test_what_others_changed_since_stays(self):
        page = self.page()
        self.paste(page, "1\n2\n3\n")
        self.assert_held("get A3", "val 3")
        self.fill("set A2 20")
        page.wait_for("document.getElementById('undo').disabled", False)
        page.key("z", CONTROL)
        self.assert_held("get A3", "val ")
        self.assertIn("1 cell left alone (A2): somebody has changed it since", self.told(page))
        self.assertEqual(self.entries("A1:A3"), ['""', "20", '""'])
        page.key("y", CONTROL)
        self.assert_held("get A3", "val 3")
        self.assertEqual(self.client.ask("get A2"), "val 20")

    def test_a_deleted_area_comes_back(self):
        page = self.page()
        self.fill("set A1 1", "set B2 =[.A1]*2", "set C3 text", "set D4 stays")
        page.wait_for("shownAt([2, 2])", "text")
        self.go(page, "A1:C3")
        page.key("Delete")
        self.assert_held("entry C3", "entry ")
        self.assert_held("entry B2", "entry ")
        page.wait_for("document.getElementById('undo').disabled", False)
        page.key("z", CONTROL)
        self.assert_held("entry B2", "entry =[.A1]*2")
        self.assert_held("entry C3", "entry 'text")
        self.assertEqual(self.client.ask("entry D4"), "entry 'stays")

    def test_a_count_by_its_opposite(self):
        page = self.page()
        self.fill("set A1 @tally")
        page.wait_for("heldAt([0, 0])", "@tally")
        for _ in range(3):
            page.key("+")
        self.fill("add A1 10")
        self.assert_held("get A1", "val 13")
        page.key("z", CONTROL)
        self.assert_held("get A1", "val 12")
        page.key("y", CONTROL)
        self.assert_held("get A1", "val 13")

    def test_a_mark_by_its_opposite(self):
        page = self.page()
        self.fill("set A1 @choice", "choose A1 2")
        page.wait_for("shownAt([0, 0])", "{2}")
        page.key("Enter")
        page.click(*page.middle("document.querySelectorAll('#options label input')[5]"))
        self.assert_held("get A1", "val {2,5}")
        page.key("Escape")
        page.wait_for("document.getElementById('options').hidden", True)
        page.key("z", CONTROL)
        self.assert_held("get A1", "val {2}")
        # where somebody has taken it out already, it says so
        page.key("y", CONTROL)
        self.assert_held("get A1", "val {2,5}")
        self.fill("unchoose A1 5")
        page.key("z", CONTROL)
        self.assertIn("somebody has changed it since", self.told(page))

    def test_a_counter_that_others_used_is_not_taken_away(self):
        page = self.page()
        page.click(*page.middle("document.getElementById('tally')"))
        page.wait_for("document.getElementById('undo').disabled", False)
        self.fill("add A1 4")
        page.key("z", CONTROL)
        self.assertIn("somebody has changed it since", self.told(page))
        self.assertEqual(self.client.ask("get A1"), "val 4")

    def test_a_replaced_counter_comes_back_with_its_votes(self):
        page = self.page()
        self.fill("set A1 @tally", "add A1 4")
        page.wait_for("shownAt([0, 0])", "4")
        self.put(page, "7")
        self.answer(page, "Replace")
        self.assert_held("get A1", "val 7")
        page.wait_for("document.getElementById('undo').disabled", False)
        page.key("z", CONTROL)
        self.assert_held("get A1", "val 4")

    def test_nothing_to_undo_is_told(self):
        page = self.page()
        page.key("z", CONTROL)
        self.assertEqual(self.told(page), "There is nothing to undo.")


if __name__ == "__main__":
    unittest.main()
