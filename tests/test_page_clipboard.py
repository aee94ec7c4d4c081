"""The clipboard on the page of `sheet serve`: copies, cuts, and the fields of a text that comes from elsewhere."""
import json
import unittest

from browser import CONTROL, SHIFT
from browser_page import BrowserTest

FORM = "application/x-sheet-entries"


class Copies(BrowserTest):
    def test_a_copied_formula_moves_its_references(self):
        page = self.page()
        self.fill("set A1 5", "set A2 7", "set B1 =[.A1]*2+SUM([.A1:.A2])")
        self.go(page, "B1")
        page.wait_for("document.getElementById('line').value", "=A1*2+SUM(A1:A2)")
        page.key("c", CONTROL)
        page.key("ArrowDown")
        page.key("v", CONTROL)
        self.assert_held("entry B2", "entry =[.A2]*2+SUM([.A2:.A3])")
        self.assert_held("get B2", "val 21")
        # a copy of several, and one that fills a larger selection
        self.go(page, "B1:B2")
        page.key("c", CONTROL)
        self.go(page, "C1:D4")
        page.key("v", CONTROL)
        self.assert_held("entry D4", "entry =[.C4]*2+SUM([.C4:.C5])")
        self.assert_held("entry C1", "entry =[.B1]*2+SUM([.B1:.B2])")

    def test_shown_texts_go_outside_and_entries_beside_them(self):
        page = self.page()
        self.fill("set A1 5", "set B1 =[.A1]*2", "set A2 '12")
        self.go(page, "A1:B2")
        page.wait_for("shownAt([0, 1])", "12")
        page.wait_for("seenRange", "A1:B2")
        self.assertEqual(self.copied(page), "5\t10\n12\t")
        self.assertEqual(json.loads(self.copied(page, form=FORM)),
                         {"left": 0, "top": 0, "rows": [["5", "=A1*2"], ["'12", ""]]})

    def test_what_is_not_seen_is_copied_too(self):
        page = self.page()
        self.fill("set A1 1", "set A900 =[.A1]+1")
        page.click(*page.middle("[...document.querySelectorAll('.column')].find(head => head.textContent === 'A')"))
        page.wait_for("seenRange", "A1:A1024")
        copied = self.copied(page).split("\n")
        self.assertEqual((len(copied), copied[0], copied[899]), (900, "1", "2"))

    def test_another_page_pastes_formulas(self):
        first, second = self.page(), self.page()
        self.fill("set A1 5", "set B1 =[.A1]*2")
        self.go(first, "B1")
        first.wait_for("shownAt([1, 0])", "10")
        first.key("c", CONTROL)
        self.go(second, "C4")
        second.key("v", CONTROL)
        self.assert_held("entry C4", "entry =[.B4]*2")

    def test_an_equal_text_from_elsewhere_is_a_text(self):
        page = self.page()
        self.fill("set A1 5", "set B1 =[.A1]*2")
        self.go(page, "B1")
        page.wait_for("shownAt([1, 0])", "10")
        page.key("c", CONTROL)
        self.go(page, "C5")
        self.paste(page, "10")
        self.assert_held("entry C5", "entry 10")
        # .. but the copy itself is still a formula
        self.go(page, "D5")
        page.key("v", CONTROL)
        self.assert_held("entry D5", "entry =[.C5]*2")


class Cuts(BrowserTest):
    def test_a_cut_moves(self):
        page = self.page()
        self.fill("set A1 5", "set B1 =[.A1]*2", "set B2 text")
        self.go(page, "B1:B2")
        page.wait_for("shownAt([1, 1])", "text")
        page.key("x", CONTROL)
        page.wait_for("document.getElementById('cut').hidden", False)
        self.assertEqual(self.client.ask("entry B1"), "entry =[.A1]*2")
        self.go(page, "B2")
        page.key("v", CONTROL)
        self.assert_held("entry B3", "entry 'text")
        self.assert_held("entry B2", "entry =[.A1]*2")
        self.assert_held("entry B1", "entry ")
        page.wait_for("document.getElementById('cut').hidden", True)
        # one step takes it back
        page.wait_for("document.getElementById('undo').disabled", False)
        page.key("z", CONTROL)
        self.assert_held("entry B1", "entry =[.A1]*2")
        self.assert_held("entry B2", "entry 'text")
        self.assert_held("entry B3", "entry ")

    def test_what_is_there_by_then_moves(self):
        page = self.page()
        self.fill("set A1 5")
        page.wait_for("shownAt([0, 0])", "5")
        page.key("x", CONTROL)
        self.fill("set A1 6")
        self.go(page, "C3")
        page.key("v", CONTROL)
        self.assert_held("get C3", "val 6")
        self.assert_held("get A1", "val ")
        # an edit ends a cut, so that nothing is moved away under it
        page.wait_for("shownAt([2, 2])", "6")
        page.wait_for("acting", 0)
        page.key("x", CONTROL)
        page.type("7")
        page.key("Enter")
        page.wait_for("document.getElementById('cut').hidden", True)
        page.key("v", CONTROL)
        self.assert_held("get C4", "val 6")
        self.assertEqual(self.client.ask("get C3"), "val 7")

    def test_counters_stay_where_they_are(self):
        page = self.page()
        self.fill("set A1 Pizza", "set B1 @tally", "add B1 3")
        self.go(page, "A1:B1")
        page.wait_for("shownAt([1, 0])", "3")
        page.key("x", CONTROL)
        self.go(page, "A5")
        page.key("v", CONTROL)
        self.assert_held("get A5", "val Pizza")
        self.assertIn("1 counter or set stayed", self.told(page))
        self.assertEqual((self.client.ask("get B1"), self.client.ask("get A1")), ("val 3", "val "))

    def test_a_copy_of_another_page_with_the_same_text_moves_nothing(self):
        first, second = self.page(), self.page()
        self.fill("set A1 5", "set B1 =[.A1]")
        for page, where, key in ((first, "A1", "x"), (second, "B1", "c")):
            self.go(page, where)
            page.wait_for("shownAt([1, 0])", "5")
            page.key(key, CONTROL)
        self.go(first, "D1")
        first.key("v", CONTROL)
        self.assert_held("entry D1", "entry =[.C1]")
        self.assertEqual(self.client.ask("entry A1"), "entry 5")


class Fields(BrowserTest):
    def test_a_line_break_in_quotes_becomes_a_blank(self):
        page = self.page()
        self.paste(page, 'Ann\t"Main Street 1\nOffice"\t5\r\nBob\t"a ""b"""\t7\r\n')
        self.assert_held("get C2", "val 7")
        self.assertEqual(self.entries("A1:C3"), ["'Ann,'Main Street 1 Office,5", "'Bob,\"'a \"\"b\"\"\",7", ",,"])
        self.assertIn("1 line break became a blank", self.told(page))

    def test_quotes_that_are_none_stay(self):
        page = self.page()
        self.paste(page, '"open\tx\n5" pipe\t"a"b\n')
        self.assert_held("get B2", 'val "a"b')
        self.assertEqual([self.client.ask(f"get {cell}") for cell in ("A1", "B1", "A2")],
                         ['val "open', "val x", 'val 5" pipe'])

    def test_blank_fields_empty_cells(self):
        page = self.page()
        self.fill("set A1 1", "set B2 2")
        self.paste(page, "\t5\n6\t\n")
        self.assert_held("get A2", "val 6")
        self.assert_held("get B2", "val ")
        self.assertEqual((self.client.ask("get A1"), self.client.ask("get B1")), ("val ", "val 5"))

    def test_one_field_fills_what_is_selected(self):
        page = self.page()
        self.go(page, "B2:C3")
        self.paste(page, "7\n")
        self.assert_held("get C3", "val 7")
        self.assertEqual(self.entries("A1:D4"), [",,,", ",7,7,", ",7,7,", ",,,"])


class Texts(BrowserTest):
    def test_a_rectangle_is_copied_and_pasted(self):
        page = self.page()
        self.client.ask("set A1 1")
        self.client.ask("set B1 two")
        self.client.ask("set A2 =[.A1]+2")
        page.wait_for("shownAt([0, 1])", "3")
        page.key("ArrowRight", SHIFT)
        page.key("ArrowDown", SHIFT)
        self.assertEqual(page.value("copied()"), "1\ttwo\n3\t")
        page.value("pasteText('4\\t5\\n\\t6\\n')")
        self.assert_held("get B2", "val 6")
        self.assert_held("get A1", "val 4")
        self.assert_held("get B1", "val 5")
        self.assert_held("get A2", "val ")
        page.key("Delete")
        self.assert_held("get B2", "val ")
        self.assert_held("get A1", "val ")

    def test_the_clipboard(self):
        page = self.page()
        page.type("31")
        page.key("Enter")
        page.key("ArrowUp")
        # (a copy isn't made while an entry is on its way)
        page.wait_for("acting || shownAt([0, 0])", "31")
        page.key("c", CONTROL)
        page.key("ArrowRight")
        page.key("v", CONTROL)
        self.assert_held("get B1", "val 31")
        page.wait_for("acting || shownAt([1, 0])", "31")
        page.key("x", CONTROL)
        page.key("ArrowDown")
        page.key("v", CONTROL)
        self.assert_held("get B2", "val 31")
        self.assert_held("get B1", "val ")


if __name__ == "__main__":
    unittest.main()
