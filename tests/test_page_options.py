"""Sets of options on the page of `sheet serve`, and the names of options."""
import unittest

from browser_page import BrowserTest


class Marks(BrowserTest):
    def test_choices(self):
        page = self.page()
        page.click(*page.middle("document.getElementById('choice')"))
        page.wait_for("heldAt([0, 0])", "@choice")
        page.key("Enter")
        page.wait_for("document.getElementById('options').hidden", False)
        for option in (3, 5):
            page.click(*page.middle(f"document.querySelectorAll('#options input')[{option}]"))
        self.assert_held("get A1", "val {3,5}")
        page.click(*page.middle("document.querySelectorAll('#options input')[3]"))
        self.assert_held("get A1", "val {5}")
        # others' marks show while the options are open
        self.assertEqual(self.client.ask("choose A1 7")[:3], "ok ")
        page.wait_for("document.querySelectorAll('#options input')[7].checked", True)
        self.assertEqual(self.client.ask("unchoose A1 7")[:3], "ok ")
        page.wait_for("document.querySelectorAll('#options input')[7].checked", False)
        page.key("Escape")
        page.wait_for("document.getElementById('options').hidden", True)
        page.wait_for("document.querySelector('#cell-0 .marks').textContent", "5")


class Names(BrowserTest):
    def test_options_have_names(self):
        page = self.page()
        self.fill("set A1 Who", "set B1 Days", "set F1 Mon", "set G1 Tue", "set H1 Wed", "set A2 Ann", "set B2 @choice",
                  "set C2 6", "choose B2 1")
        page.wait_for("shownAt([1, 1])", "{1}")
        self.go(page, "B2")
        page.key("Enter")
        page.wait_for("document.getElementById('options').hidden", False)
        page.click(*page.middle("document.getElementById('naming')"))
        page.type("f1:h1")
        page.key("Enter")
        self.assert_held("entry B1", "entry 'Days, options F1:H1")
        page.wait_for("document.querySelector('#cell-' + keyOf(1, 1) + ' .marks').textContent", "Tue")
        page.key("Enter")
        page.wait_for("document.querySelectorAll('#options label')[2].textContent", "2 Wed")
        page.click(*page.middle("document.querySelectorAll('#options label input')[2]"))
        self.assert_held("get B2", "val {1,2}")
        # only they are offered, and those that are on
        offered = "[...document.querySelectorAll('#options label')].filter(label => !label.hidden).length"
        self.assertEqual(page.value(offered), 3)
        self.fill("choose B2 9")
        page.wait_for(offered, 4)
        self.fill("unchoose B2 9")
        page.wait_for(offered, 3)
        # they may be pointed at, and change
        page.click(*page.middle("document.getElementById('naming')"))
        page.mouse("mousePressed", *self.middle(page, 5, 0), clickCount=1, buttons=1)
        page.mouse("mouseMoved", *self.middle(page, 6, 0), buttons=1)
        page.mouse("mouseMoved", *self.middle(page, 7, 0), buttons=1)
        page.mouse("mouseReleased", *self.middle(page, 7, 0), clickCount=1)
        page.wait_for("document.getElementById('naming').value", "F1:H1")
        page.key("Escape")
        self.fill("set H1 Wednesday")
        marks = "document.querySelectorAll('#cell-' + keyOf(1, 1) + ' .mark')"
        page.wait_for(f"[...{marks}].map(mark => mark.textContent).join()", "Tue,Wednesday")

    def test_a_head_without_room_for_the_note(self):
        page = self.page()
        head = "The days on which we could meet, and the days in reserve"
        self.fill(f"set A1 {head}", "set A2 @choice", "set F1 Mon", "set G1 Tue")
        page.wait_for("heldAt([0, 1])", "@choice")
        self.go(page, "A2")
        page.key("Enter")
        page.wait_for("document.getElementById('options').hidden", False)
        page.click(*page.middle("document.getElementById('naming')"))
        page.type("f1:g1")
        page.key("Enter")
        page.wait_for("marks.size", 1)
        page.wait_for("acting", 0)
        self.assertIn("1 of 1 cell refused (A1): A text has at most 64 bytes", self.told(page))
        self.assertEqual(self.client.ask("entry A1"), f"entry '{head}")


if __name__ == "__main__":
    unittest.main()
