"""The page of `sheet serve` in Firefox, where it is installed: a handful of what the other tests do in Chromium."""
import contextlib
import unittest

import browser_firefox
from browser_firefox import Firefox
from program import NO_BROWSER, ProgramTest
from servers import serving

CELL = "document.getElementById('cell-%d')"


class InFirefox(ProgramTest):
    """A test for which one browser is started."""

    firefox = None

    @classmethod
    def tearDownClass(cls):
        if cls.firefox is not None:
            cls.firefox.end()
            cls.firefox = None

    def setUp(self):
        if browser_firefox.program() is None:
            self.skipTest(NO_BROWSER)
        if self.firefox is None:
            type(self).firefox = Firefox()
        with contextlib.ExitStack() as stack:
            self.server = stack.enter_context(serving(None))
            self.addCleanup(stack.pop_all().close)
        self.client = self.server.client()
        self.firefox.open(self.server.url)
        self.firefox.wait_for("document.getElementById('link').textContent", "connected")

    def entry(self, text):
        self.firefox.type(text)
        self.firefox.keys("Enter")

    def test_entries_sums_and_undo(self):
        self.entry("5")
        self.entry("=A1*2")
        self.entry("=SUM(A1:A2)")
        self.client.wait_for("get A3", "val 15")
        self.firefox.wait_for(CELL % 208 + ".textContent", "15")
        self.firefox.keys("Control", "z")
        self.client.wait_for("entry A3", "entry ")
        self.client.wait_for("get A2", "val 10")

    def test_refusals_and_notes(self):
        self.entry("12.50")
        self.client.wait_for("entry A1", "entry '12.50")
        self.firefox.wait_for("document.getElementById('refusal').textContent",
                              "A1: 12.50 is kept as a text: numbers are whole")
        self.entry("=1/2")
        self.firefox.wait_for("document.getElementById('refusal').textContent",
                              "A2: This is no formula: / is written QUOTIENT(a;b).")
        self.firefox.wait_for("document.getElementById('editor').value", "=1/2")
        self.firefox.keys("Escape")

    def test_a_counter_asks(self):
        self.client.ask("set A1 @tally")
        self.firefox.wait_for(f"{CELL % 0}.querySelectorAll('button').length", 2)
        self.firefox.click(f"{CELL % 0}.querySelector('[data-action=add]')")
        self.client.wait_for("get A1", "val 1")
        self.firefox.wait_for(f"{CELL % 0}.querySelector('span').textContent", "1")
        self.firefox.keys("Delete")
        self.firefox.wait_for("!!document.querySelector('#question[open]')")
        self.firefox.click("document.querySelectorAll('#question button')[1]")
        self.firefox.wait_for("!!document.querySelector('#question[open]')", False)
        self.assertEqual(self.client.ask("get A1"), "val 1")

    def test_a_question_takes_no_keys(self):
        self.firefox.type("mine")
        self.client.ask("set A1 theirs")
        self.firefox.wait_for("document.getElementById('refusal').hidden", False)
        self.firefox.keys("Enter")
        self.firefox.type("ne")
        self.firefox.wait_for("!!document.querySelector('#question[open]')")
        self.firefox.type("xt ")
        # .. and a click beside the cells neither
        self.firefox.click("document.getElementById('link')")
        self.entry("entry")
        self.firefox.click("document.querySelector('#question button')")
        self.client.wait_for("get A2", "val next entry")
        self.assertEqual(self.client.ask("get A1"), "val mine")

    def test_the_clipboard_and_help(self):
        self.entry("5")
        self.entry("=A1*2")
        self.client.wait_for("get A2", "val 10")
        self.firefox.wait_for(CELL % 104 + ".textContent", "10")
        self.firefox.keys("ArrowUp")
        self.firefox.keys("Control", "c")
        self.firefox.keys("ArrowDown")
        self.firefox.keys("Control", "v")
        self.client.wait_for("entry A3", "entry =[.A2]*2")
        self.firefox.keys("?")
        self.firefox.wait_for("document.getElementById('help').open")
        self.firefox.keys("Escape")
        self.firefox.wait_for("document.getElementById('help').open", False)


if __name__ == "__main__":
    unittest.main()
