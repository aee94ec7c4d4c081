"""The keys of a spreadsheet on the page of `sheet serve`, and what they, the heads and the name box select."""
import unittest

from browser import CONTROL, SHIFT
from browser_page import BrowserTest

# How many rows are in view as a whole.
WHOLE_ROWS = """(end => [...document.querySelectorAll('.row')].filter(row =>
  row.getBoundingClientRect().bottom <= end).length)(grid.getBoundingClientRect().top + grid.clientHeight)"""
# Has each question reach the server some time later. They stay in order.
LATE = """ask = (old => async text => {
  await new Promise(done => setTimeout(done, 150));
  return old(text);
})(ask), 1"""
# What is printed where nothing is laid out.
HINT = "getComputedStyle(document.getElementById('paper'), '::before').content"


class Moves(BrowserTest):
    def assert_at(self, page, cell):
        page.wait_for("document.getElementById('name').value", cell)

    def test_control_and_arrows_go_to_the_edges(self):
        page = self.page()
        self.fill("set B2 1", "set B3 2", "set B4 3", "set B900 4", "set D2 x")
        self.go(page, "B2")
        for key, cell in (("ArrowDown", "B4"), ("ArrowDown", "B900"), ("ArrowDown", "B1024"), ("ArrowUp", "B900"),
                          ("ArrowUp", "B4"), ("ArrowUp", "B2"), ("ArrowRight", "D2"), ("ArrowRight", "CZ2"),
                          ("ArrowLeft", "D2"), ("ArrowLeft", "B2"), ("ArrowLeft", "A2"), ("End", "D900")):
            page.key(key, CONTROL)
            self.assert_at(page, cell)
        page.key("Home")
        self.assert_at(page, "A900")
        page.key("End")
        self.assert_at(page, "B900")

    def test_no_key_overtakes_a_move(self):
        page = self.page()
        self.fill("set A1 1", "set A2 2", "set A500 3")
        self.go(page, "A1")
        # one after another without a pause
        page.key("ArrowDown", CONTROL)
        page.key("ArrowDown", CONTROL)
        page.key("ArrowDown")
        page.type("last")
        page.key("Enter")
        self.assert_held("get A501", "val last")

    def test_shift_extends(self):
        page = self.page()
        self.fill("set A1 1", "set A5 5", "set C1 3")
        for key, modifiers, area in (("ArrowDown", SHIFT, "A1:A2"), ("ArrowDown", SHIFT | CONTROL, "A1:A5"),
                                     ("End", SHIFT, "A1:A5"), ("Home", SHIFT | CONTROL, "A1"),
                                     ("End", SHIFT | CONTROL, "A1:C5"), ("Home", SHIFT, "A1:A5")):
            page.key(key, modifiers)
            self.assert_at(page, area)
        self.assertEqual(page.value("nameOf(current)"), "A1")

    def test_rows_columns_and_all(self):
        page = self.page()
        head = "[...document.querySelectorAll('.%s')].find(head => head.textContent === '%s')"
        page.click(*page.middle(head % ("column", "C")))
        self.assert_at(page, "C1:C1024")
        page.click(*page.middle(head % ("column", "E")), modifiers=SHIFT)
        self.assert_at(page, "C1:E1024")
        page.click(*page.middle(head % ("row", "4")))
        self.assert_at(page, "A4:CZ4")
        page.click(*page.middle("document.getElementById('corner')"))
        self.assert_at(page, "A1:CZ1024")
        self.go(page, "B2:C3")
        page.key(" ", CONTROL)
        self.assert_at(page, "B1:C1024")
        self.go(page, "B2:C3")
        page.key(" ", SHIFT)
        self.assert_at(page, "A2:CZ3")
        page.key("a", CONTROL)
        self.assert_at(page, "A1:CZ1024")
        page.key("Escape")
        self.assert_at(page, "A1")

    def test_the_name_box_takes_a_range(self):
        page = self.page()
        self.go(page, "d5:b2")
        self.assert_at(page, "B2:D5")
        self.assertEqual(page.value("nameOf(current)"), "B2")
        self.go(page, "cz1024")
        self.assert_at(page, "CZ1024")


class Simple(BrowserTest):
    def test_moves(self):
        page = self.page()
        for key, modifiers, cell in (
            ("ArrowRight", 0, "B1"), ("ArrowDown", 0, "B2"), ("ArrowLeft", 0, "A2"), ("ArrowUp", 0, "A1"),
            ("ArrowUp", 0, "A1"), ("Tab", 0, "B1"), ("Tab", SHIFT, "A1"), ("Tab", 0, "B1"), ("Home", 0, "A1"),
            ("ArrowDown", 0, "A2"), ("Enter", SHIFT, "A1"), ("ArrowDown", 0, "A2"), ("ArrowRight", 0, "B2"),
            ("Home", CONTROL, "A1"),
        ):
            page.key(key, modifiers)
            self.assertEqual(self.current(page), cell)

    def test_page_keys(self):
        page = self.page()
        # one row of what was in view stays there
        step = page.value(WHOLE_ROWS) - 1
        self.assertGreater(step, 9)
        first, second, third = "A1", f"A{1 + step}", f"A{1 + 2 * step}"
        for key, modifiers, cell in (
            ("PageDown", 0, second), ("PageDown", 0, third), ("PageUp", 0, second),
            ("PageDown", SHIFT, f"{second}:{third}"), ("PageDown", SHIFT, f"{second}:A{1 + 3 * step}"),
            ("PageUp", SHIFT, f"{second}:{third}"), ("PageUp", SHIFT, second), ("PageUp", SHIFT, f"{first}:{second}"),
            ("PageUp", SHIFT, f"{first}:{second}"), ("PageUp", 0, first), ("PageDown", SHIFT, f"{first}:{second}"),
        ):
            page.key(key, modifiers)
            self.assertEqual(self.current(page), cell)


class Signs(BrowserTest):
    def late(self):
        """A page whose questions reach the server late."""
        page = self.page()
        page.value(LATE)
        return page

    def test_signs_count_at_once_after_the_vote(self):
        page = self.late()
        # one after another without a pause
        page.click(*self.button(page, "vote"))
        page.key("ArrowRight")
        page.key("ArrowDown")
        page.type("++-+")
        page.key("ArrowDown")
        page.type("+")
        page.key("ArrowDown")
        page.type("-")
        self.assert_held("get B4", "val -1")
        self.assertEqual(self.entries("A1:B4"), ["'Friday lunch,'Votes", "'Pizza,@tally", "'Pasta,@tally",
                                                 "'Salad,@tally"])
        self.assertEqual([self.client.ask(f"get B{row}") for row in (2, 3, 4)], ["val 2", "val 1", "val -1"])
        self.assertEqual(page.value("[editing, nameOf(current)]"), [None, "B4"])

    def test_a_sign_counts_after_the_button_and_after_an_entry(self):
        page = self.late()
        page.click(*page.middle("document.getElementById('tally')"))
        page.type("++")
        page.key("ArrowDown")
        page.type("@tally")
        page.key("Enter")
        page.key("ArrowUp")
        page.type("-")
        self.assert_held("get A2", "val -1")
        self.assertEqual(self.client.ask("get A1"), "val 2")

    def test_numbers_with_signs_are_typed_one_after_another(self):
        page = self.late()
        for text in ("5", "-7", "+9", "-x"):
            page.type(text)
            page.key("Enter")
        self.assert_held("get A4", "val -x")
        self.assertEqual(self.entries("A1:A4"), ["5", "-7", "9", "'-x"])
        self.assertEqual(page.value("[editing, nameOf(current)]"), [None, "A5"])

    def test_a_sign_waits_for_no_answer(self):
        page = self.page()
        self.fill("set A1 @tally", "add A1 3")
        page.wait_for("shownAt([0, 0])", "3")
        page.value(LATE)
        page.key("Delete")
        page.key("ArrowRight")
        # (the question comes while the sign is held up)
        page.type("-5")
        page.wait_for("document.getElementById('editor').value", "-5")
        page.wait_for("!!document.querySelector('#question[open]')")
        self.answer(page, "Leave")
        page.key("Enter")
        self.assert_held("get B1", "val -5")
        self.assertEqual(self.client.ask("get A1"), "val 3")


class Prints(BrowserTest):
    def printing(self):
        """A page with two cells, as it prints."""
        page = self.page()
        self.fill("set A1 Name", "set B2 5")
        page.wait_for("shownAt([1, 1])", "5")
        page.call("Emulation.setEmulatedMedia", media="print")
        return page

    def test_control_p(self):
        page = self.printing()
        page.value("window.printed = [], window.print = () => printed.push(paper.innerText), 1")
        # (the key has the grid, or what one finds by)
        for focus in ("grid.focus()", "openFind()"):
            page.value(focus)
            page.key("p", CONTROL)
            page.wait_for("printed.length", 1)
            self.assertEqual(page.value("printed.pop()").split(), ["Name", "5"])
            self.assertEqual(page.value(HINT), "none")
            page.call("Page.printToPDF")
            page.wait_for("paper.childNodes.length", 0)

    def test_a_print_by_the_menu_of_the_browser_says_what_to_press(self):
        page = self.printing()
        self.assertIn("Ctrl+P", page.value(HINT))
        page.value("layOutPaper()")
        self.assertEqual(page.value(HINT), "none")
        # what was laid out once isn't there any more after a change
        page.call("Page.printToPDF")
        self.fill("set A1 Other")
        page.wait_for("shownAt([0, 0])", "Other")
        self.assertEqual(page.value("paper.textContent"), "")
        self.assertIn("Ctrl+P", page.value(HINT))

    def test_a_sheet_without_anything_is_printed(self):
        page = self.page()
        page.value("layOutPaper()")
        self.assertEqual(page.value(HINT), "none")


if __name__ == "__main__":
    unittest.main()
