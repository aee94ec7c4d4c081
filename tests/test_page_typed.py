"""What one types, pastes or drops at the page arrives where it was meant for, whatever comes in between: a question, a
late reply, a lost connection, a click beside the cells."""
import unittest

from browser import ALT, CONTROL, SHIFT
from browser_page import BrowserTest

# Has all that the page asks from here on wait until `letGo` is called.
HOLD = """(() => {
  const now = ask, gate = new Promise(done => { letGo = done; });
  ask = text => gate.then(() => now(text));
})()"""
# Has the next question wait until `letGo` is called.
HOLD_QUESTION = """(() => {
  const now = question, gate = new Promise(done => { letGo = done; });
  question = (...all) => gate.then(() => now(...all));
})()"""
IS_ASKED = "!!document.querySelector('#question[open]')"
# Drops something at an element, and tells whether the page has taken it from the browser.
DROP = """(() => {
  const data = new DataTransfer();
  %s;
  return !document.querySelector('%s').dispatchEvent(new DragEvent('drop', {
    dataTransfer: data, bubbles: true, cancelable: true }));
})()"""
DROP_FILE = "data.items.add(new File(['1,2'], 'two.csv'))"
DROP_TEXT = "data.setData('text/plain', 'text')"


class TypedTest(BrowserTest):
    """A test of what one types."""

    def put(self, page, text, key="Enter"):
        """Types an entry, and ends it by a key."""
        page.type(text)
        page.key(key)

    def lose(self, page):
        """Has a page lose its connection until `connect` is called."""
        page.value("pause = 1e9, socket.onclose = null, socket.close(), lose()")

    def connect(self, page):
        page.value("connect()")
        page.wait_for("document.body.className", "")

    def assert_rows(self, where, *rows):
        """The server holds these rows, once the page has done what was asked for."""
        self.assertEqual(self.entries(where), list(rows))


class Questions(TypedTest):
    def disputed(self):
        """A page that is about to ask which of two entries stays in A1, once `letGo` is called."""
        page = self.page()
        page.type("mine")
        page.value("link.onChange = () => {}")
        self.fill("set A1 theirs")
        page.value(HOLD_QUESTION)
        page.key("Enter")
        return page

    def test_one_that_comes_amid_an_entry(self):
        page = self.disputed()
        page.type("ne")
        page.value("letGo()")
        page.wait_for(IS_ASKED)
        page.type("xt entryy")
        page.key("Backspace")
        page.key("Enter")
        self.put(page, "another", "ArrowRight")
        self.put(page, "more")
        self.answer(page, "Mine")
        self.assert_held("get B3", "val more")
        self.assert_rows("A1:B4", "'mine,", "'next entry,", "'another,'more", ",")

    def test_one_that_comes_before_an_entry(self):
        page = self.disputed()
        page.value("letGo()")
        page.wait_for(IS_ASKED)
        page.key("ArrowRight")
        self.put(page, "one", "Tab")
        page.key("Tab")
        self.put(page, "two")
        self.answer(page, "Theirs")
        self.assert_held("get D2", "val two")
        self.assert_rows("A1:D3", "'theirs,,,", ",'one,,'two", ",,,")

    def test_a_paste_waits_for_the_answer(self):
        page = self.disputed()
        page.value("letGo()")
        page.wait_for(IS_ASKED)
        self.paste(page, "1\t2\n")
        page.key("ArrowDown")
        self.put(page, "below")
        self.answer(page, "Mine")
        self.assert_held("get A3", "val below")
        self.assert_rows("A1:B3", "'mine,", "1,2", "'below,")

    def test_an_answer_by_keys(self):
        page = self.disputed()
        page.value("letGo()")
        page.wait_for(IS_ASKED)
        # F6 leads there and back
        page.key("F6")
        self.assertEqual(page.value("document.activeElement.textContent"), "Go on typing")
        page.key("F6")
        self.assertEqual(page.value("document.activeElement.id"), "grid")
        page.key("F6")
        page.key("Tab", SHIFT)
        page.key("Enter")
        page.wait_for(IS_ASKED, False)
        page.wait_for("acting", 0)
        self.put(page, "next")
        self.assert_held("get A2", "val next")
        self.assert_rows("A1:A1", "'theirs")

    def test_an_entry_that_comes_while_a_note_is_shown(self):
        page = self.page()
        # (a note is shown for a second)
        page.value("(() => { const now = setTimeout;"
                   " setTimeout = (call, wait, ...all) => now(call, wait / 8, ...all); })()")
        page.value(HOLD)
        self.put(page, "12.50")
        page.type("mine")
        page.value("letGo()")
        self.assertIn("A1: 12.50 is kept as a text", self.told(page))
        self.fill("set A2 theirs")
        page.wait_for("document.getElementById('refusal').textContent",
                      'Somebody has put "theirs" here meanwhile. Enter asks which stays.')
        page.key("Enter")
        self.answer(page, "Theirs")

    def test_a_click_at_it_takes_no_keys(self):
        page = self.disputed()
        page.type("ne")
        page.key("ArrowLeft")
        self.put(page, "next")
        page.value("letGo()")
        page.wait_for(IS_ASKED)
        page.type("on")
        page.click(*page.middle("document.getElementById('asked')"))
        self.put(page, "e")
        self.answer(page, "Mine")
        self.assert_held("get A3", "val one")


class Focus(TypedTest):
    def test_a_click_beside_the_cells(self):
        page = self.page()
        page.type("on")
        page.click(*page.middle("document.getElementById('link')"))
        page.type("e")
        page.click(*page.middle("document.querySelector('footer')"))
        page.key("Enter")
        page.click(*page.middle("document.getElementById('line')"))
        page.type("tw")
        page.click(*page.middle("document.getElementById('link')"))
        page.type("o")
        page.key("Enter")
        self.assert_held("get A2", "val two")
        self.assert_rows("A1:A3", "'one", "'two", '""')

    def test_boxes_that_open_and_close(self):
        page = self.page()
        page.type("a")
        page.click(*page.middle("document.getElementById('help-button')"))
        page.key("Escape")
        page.wait_for("document.getElementById('help').open", False)
        page.type("b")
        page.key("f", CONTROL)
        page.type("text")
        page.key("Escape")
        page.type("c")
        page.click(*page.middle("document.getElementById('menu')"))
        page.key("Escape")
        page.wait_for("document.getElementById('more').matches(':popover-open')", False)
        page.wait_for("document.activeElement.id", "editor")
        page.type("d")
        page.key("Enter")
        self.assert_held("get A1", "val abcd")

    def test_undo_by_its_button_amid_an_entry(self):
        page = self.page()
        self.put(page, "5")
        page.wait_for("document.getElementById('undo').disabled", False)
        page.type("on")
        page.click(*page.middle("document.getElementById('undo')"))
        self.put(page, "e")
        self.assert_held("get A2", "val one")
        self.assert_held("get A1", "val ")

    def late_reply(self, name):
        """What the server holds in column A, where one types while the reply to a button is awaited."""
        page = self.page()
        self.button(page, "vote")
        place = page.middle(f"document.getElementById('{name}')")
        page.value(HOLD)
        page.click(*place)
        for _ in range(8):
            page.key("ArrowDown")
        page.type("on")
        page.value("letGo()")
        page.wait_for("acting", 0)
        self.put(page, "e")
        self.assert_held("get A9", "val one")
        return self.entries("A1:A8")

    def test_a_late_reply_to_a_button(self):
        self.assertEqual(self.late_reply("tally")[0], "@tally")

    def test_a_late_reply_to_an_example(self):
        self.assertEqual(self.late_reply("vote")[6], "'Most")

    def test_a_refused_entry_takes_no_keys_from_another_field(self):
        page = self.page()
        page.value(HOLD)
        page.type("=1+")
        page.click(*page.middle("document.getElementById('name')"))
        page.type("B")
        page.value("letGo()")
        page.wait_for("marks.size", 1)
        page.type("7")
        page.key("Enter")
        self.assertEqual(self.current(page), "B7")
        self.put(page, "here")
        self.assert_held("get B7", "val here")
        self.assertEqual(self.client.ask("entry A1"), "entry ")
        # it waits at its cell
        self.go(page, "A1")
        page.key("F2")
        page.wait_for("document.getElementById('editor').value", "=1+")


class Lost(TypedTest):
    def test_an_entry_that_is_begun_without_a_connection(self):
        page = self.page()
        self.lose(page)
        page.type("12")
        self.assertEqual(self.told(page), "There is no connection: the entry waits here until it is back.")
        self.connect(page)
        page.wait_for("document.getElementById('refusal').hidden")
        self.put(page, "34")
        self.assert_held("get A1", "val 1234")

    def test_an_entry_in_the_line_without_a_connection(self):
        page = self.page()
        self.lose(page)
        page.click(*page.middle("document.getElementById('line')"))
        page.type("12")
        self.connect(page)
        page.wait_for("seenAt !== '' && !isLooking")
        self.put(page, "34")
        self.assert_held("get A1", "val 1234")

    def test_what_came_meanwhile_is_asked_about(self):
        page = self.page()
        self.lose(page)
        page.type("mine")
        self.fill("set A1 theirs")
        self.connect(page)
        page.key("Enter")
        self.answer(page, "Theirs")
        page.wait_for("acting", 0)
        self.assert_rows("A1:A1", "'theirs")

    def test_an_open_entry_stays_at_its_cell(self):
        for place in ("#columns [data-head=c2]", "#rows [data-head=r3]", "#corner", "#name"):
            with self.subTest(place=place):
                page = self.page()
                page.type("on")
                self.lose(page)
                page.click(*page.middle(f"document.querySelector('{place}')"))
                page.type("e")
                self.connect(page)
                page.key("Enter")
                self.assert_held("get A1", "val one")
                self.assertEqual(self.current(page), "A2")
                self.fill("set A1")
                self.assert_held("get A1", "val ")


class Moves(TypedTest):
    def moving(self, *keys):
        """A page that moves down to A5 once `letGo` is called, where these cells were copied before: A1."""
        page = self.page()
        self.fill("set A1 7", "set A5 5")
        page.wait_for("heldAt([0, 4])", "5")
        page.key("c", CONTROL)
        page.key("ArrowDown")
        page.value(HOLD)
        page.key("ArrowDown", CONTROL)
        return page

    def test_a_paste(self):
        page = self.moving()
        page.key("v", CONTROL)
        page.key("ArrowRight")
        self.put(page, "right")
        page.value("letGo()")
        self.assert_held("get B5", "val right")
        self.assert_held("get A5", "val 7")
        self.assertEqual(self.client.ask("entry A2"), "entry ")

    def test_a_paste_amid_an_entry(self):
        page = self.moving()
        page.type("1")
        page.key("v", CONTROL)
        self.put(page, "2")
        page.value("letGo()")
        self.assert_held("get A5", "val 172")

    def test_what_one_takes_back(self):
        page = self.moving()
        page.type("ond")
        page.key("Backspace")
        self.put(page, "e")
        page.value("letGo()")
        self.assert_held("get A5", "val one")

    def test_an_entry_in_the_line(self):
        page = self.moving()
        page.click(*page.middle("document.getElementById('line')"))
        page.type("on")
        page.value("letGo()")
        page.wait_for("document.activeElement.id", "line")
        page.key("End")
        self.put(page, "e")
        self.assert_held("get A5", "val 5one")
        self.assertEqual(self.client.ask("entry A2"), "entry ")

    def test_clicks(self):
        page = self.moving()
        page.type("edge")
        page.click(*self.middle(page, 2, 2))
        page.type("one")
        page.click(*self.middle(page, 3, 3), times=2)
        page.type("two")
        page.value("letGo()")
        page.wait_for("document.getElementById('editor').value", "two")
        # (no button is down)
        page.mouse("mouseMoved", *self.middle(page, 5, 5))
        self.put(page, "!")
        self.assert_held("get D4", "val two!")
        self.assert_held("get C3", "val one")
        self.assert_held("get A5", "val edge")

    def test_an_undo_that_comes_late_moves_nowhere(self):
        page = self.page()
        self.put(page, "5")
        page.wait_for("document.getElementById('undo').disabled", False)
        page.value(HOLD)
        page.key("z", CONTROL)
        page.key("ArrowRight")
        page.value("letGo()")
        page.wait_for("acting", 0)
        self.put(page, "one")
        self.assert_held("get B2", "val one")
        # .. but where nothing came in between, it leads to the cell
        for _ in range(2):
            page.key("z", CONTROL)
        page.key("y", CONTROL)
        page.wait_for("acting", 0)
        self.assertEqual(self.current(page), "B2")

    def test_a_find_that_comes_late_moves_nowhere(self):
        page = self.page()
        self.fill("set A9 text", "set B9 text")
        page.key("f", CONTROL)
        page.type("text")
        page.value(HOLD)
        page.key("Enter")
        page.key("Escape")
        page.key("ArrowDown")
        page.value("letGo()")
        page.wait_for("document.getElementById('found').textContent", "1 of 2")
        self.put(page, "one")
        self.assert_held("get A2", "val one")

    def test_a_sign_that_needs_alt(self):
        page = self.page()
        page.key("@", ALT)
        self.put(page, "tally")
        self.assert_held("entry A1", "entry @tally")


class Dropped(TypedTest):
    def test_a_file(self):
        for place in ("#grid", "header", "#editor"):
            with self.subTest(place=place):
                page = self.page()
                page.value(HOLD)
                self.assertTrue(page.value(DROP % (DROP_FILE, place)))
                page.key("ArrowDown")
                page.value("letGo()")
                self.assertIn("two.csv: 1 row and 2 columns, from A1 on", self.answer(page, "Take in"))
                self.assert_held("get B1", "val 2")
                self.fill("set A1", "set B1")

    def test_a_text_goes_into_a_field_alone(self):
        page = self.page()
        page.type("some")
        self.assertFalse(page.value(DROP % (DROP_TEXT, "#editor")))
        self.assertFalse(page.value(DROP % (DROP_TEXT, "#line")))
        self.assertTrue(page.value(DROP % (DROP_TEXT, "#grid")))
        self.assertTrue(page.value(DROP % (DROP_TEXT, "footer")))


if __name__ == "__main__":
    unittest.main()
