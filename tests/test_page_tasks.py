"""What a new user does on the page of `sheet serve` by `README.md` and `docs/USING.md`: a plan, a vote and a budget."""
import re
import unittest

from browser import CONTROL
from browser_page import BrowserTest
from program import TOP

README = (TOP / "README.md").read_text()

# Cells of each kind, with two in a circle, a fault and a text that looks like a number.
KINDS = {
    "A1": "Friday lunch", "A2": "Pizza", "A3": "Pasta", "A4": "Salad", "A6": "All votes", "A7": "Most", "A9": "Budget",
    "A10": "Each", "A11": "Reserve", "A12": "Spent", "B1": "Votes", "B2": "@tally", "B3": "@tally", "B4": "@tally",
    "B6": "=SUM([.B2:.B4])", "B7": "=MAX([.B2:.B4])", "B9": "400", "B10": "=QUOTIENT([.B9];[.B6])",
    "B11": "=[.B9]-[.B12]", "B12": "=[.B9]-[.B11]", "D1": "Who", "D2": "Ann", "D3": "Bob", "D4": "Eve",
    "D6": "All hours", "D9": "Share", "D10": "Price", "E1": "Days", "E2": "@choice", "E3": "@choice", "E4": "@choice",
    "E9": "=[.D9]*2", "E10": "12.50", "F1": "Hours a day", "F2": "6", "F3": "8", "F4": "4", "G1": "Hours",
    "G2": "=[.E2]*[.F2]", "G3": "=[.E3]*[.F3]", "G4": "=[.E4]*[.F4]", "G6": "=SUM([.G2:.G4])",
}


class Tasks(BrowserTest):
    def window(self, height, width=760):
        """A page of the size of a picture."""
        page = self.page()
        page.call("Emulation.setDeviceMetricsOverride", width=width, height=height, deviceScaleFactor=1, mobile=False)
        page.wait_for("innerHeight", height)
        return page

    def rows(self, page, *rows):
        """Types rows from the current cell on: Tab between cells, Enter at the end of each row."""
        for row in rows:
            for text in row[:-1]:
                page.type(text)
                page.key("Tab")
            page.type(row[-1])
            page.key("Enter")

    def widen(self, page, column):
        """Has a column as wide as it needs, by a double click at its head's edge."""
        edge = f"[...document.querySelectorAll('.edge')].find(edge => edge.dataset.edge === '{column}')"
        page.click(*page.middle(edge), times=2)
        page.wait_for(f"widthOf({column}) > WIDTH")
        self.addCleanup(lambda: page.value("localStorage.clear()"))

    def keep(self, page, name):
        """Keeps a picture once nothing flashes any more."""
        page.value("new Promise(done => setTimeout(done, 1600))")
        self.assertLess(len(self.keep_picture(page, name)), 60_000)

    def test_something_of_each_kind(self):
        page = self.window(430, 960)
        self.fill(*(f"set {cell} {text}" for cell, text in KINDS.items()))
        self.fill("add B2 12", "add B3 7", "add B4 9", "choose E2 1", "choose E2 3", "choose E3 2", "choose E4 1",
                  "choose E4 2", "choose E4 5")
        self.go(page, "B6")
        page.wait_for("document.getElementById('value').textContent", "= 28")
        page.wait_for("document.querySelectorAll('.cycle').length", 2)
        self.assert_shows(page, (6, 5), "32")
        self.keep(page, "page")

    def test_a_plan(self):
        page = self.window(330)
        self.rows(page, ("Who", "Days", "Hours a day", "Hours"), ("Ann", "@choice", "6", "=B2*C2"),
                  ("Bob", "@choice", "8"), ("Eve", "@choice", "4"))
        self.assert_held("entry C4", "entry 4")
        self.go(page, "F1")
        self.rows(page, ("Mon", "Tue", "Wed", "Thu", "Fri"))
        # the hours of the first row, filled down
        self.go(page, "D2:D4")
        page.key("d", CONTROL)
        self.assert_held("entry D4", "entry =[.B4]*[.C4]")
        self.go(page, "A6")
        self.rows(page, ("All hours", "", "", "=SUM(D2:D4)"))
        # the days have names
        self.go(page, "B2")
        page.wait_for("heldAt(current)", "@choice")
        page.key("Enter")
        page.click(*page.middle("document.getElementById('naming')"))
        page.type("F1:J1")
        page.key("Enter")
        self.assert_held("entry B1", "entry 'Days, options F1:J1")
        for row, days in ((2, (0, 1)), (3, (2,)), (4, (3, 4))):
            self.go(page, f"B{row}")
            page.wait_for("heldAt(current)", "@choice")
            page.key("Enter")
            for day in days:
                page.click(*page.middle(f"document.querySelectorAll('#options label input')[{day}]"))
            self.assert_held(f"get B{row}", "val {%s}" % ",".join(map(str, days)))
            page.key("Escape")
        self.assert_held("get D6", "val 28")
        page.wait_for("document.querySelector('#cell-' + keyOf(1, 1) + ' .marks').textContent", "MonTue")
        self.widen(page, 1)
        self.go(page, "D6")
        self.keep(page, "plan")

    def test_a_vote(self):
        page, other = self.window(330), self.page()
        page.click(*self.button(page, "vote"))
        self.assert_held("entry B7", "entry =MAX([.B2:.B4])")
        for at, clicks in ((page, (1, 3)), (other, (1, 1, 2))):
            at.wait_for("document.querySelectorAll('.tally button').length", 6)
            for row in clicks:
                at.click(*self.middle(at, 1, row, "[data-action=add]"))
        self.assert_held("get B6", "val 5")
        # a click too many is taken back
        other.key("z", CONTROL)
        self.assert_held("get B6", "val 4")
        page.wait_for("shownAt([1, 5])", "4")
        page.wait_for("shownAt([1, 6])", "3" if self.client.ask("get B7") == "val 3" else "2")
        self.go(page, "B2:B4")
        page.wait_for("document.getElementById('sums').textContent.startsWith('Sum 4')")
        self.keep(page, "vote")

    def test_a_budget(self):
        page = self.window(380)
        self.paste(page, "What\tPrice in cents\tHow many\tCents\nCups\t250\t40\t=B2*C2\nCake\t1999\t3\n"
                         "Napkins, \"red\"\t12.50\t100\n\n\"All\nof it\"\t\t\t=SUM(D2:D4)\n")
        self.assert_held("entry D6", "entry =SUM([.D2:.D4])")
        self.assertEqual(self.client.ask("get A6"), "val All of it")
        self.go(page, "D2:D4")
        page.key("d", CONTROL)
        self.assert_held("entry D4", "entry =[.B4]*[.C4]")
        # the price that is a text is found by its mark, and put right
        self.assert_held("get D6", "val #VALUE!")
        self.go(page, "B4")
        page.wait_for("document.getElementById('hint').textContent", "12.50 is kept as a text: numbers are whole")
        page.type("1250")
        page.key("Enter")
        self.assert_held("get D6", "val 140997")
        self.go(page, "A8")
        self.rows(page, ("There are", "", "", "150000"), ("Left", "", "", "=D8-D6"))
        self.assert_held("get D9", "val 9003")
        self.widen(page, 0)
        self.go(page, "D6")
        page.wait_for("document.getElementById('value').textContent", "= 140997")
        self.keep(page, "budget")


class FirstSteps(BrowserTest):
    """What `README.md` says to do, and nothing else. No key waits for what the page shows."""

    def test_a_plan_is_overwritten_and_enter_opens_the_options(self):
        self.assertIn('Click "A plan" or "A vote", and overwrite it; Enter opens a set\'s options', README)
        page = self.page()
        page.click(*self.button(page, "plan"))
        page.key("ArrowDown")
        page.type("Zoe")
        page.key("Tab")
        page.key("ArrowRight")
        page.type("7")
        page.key("Enter")
        self.assert_held("entry C2", "entry 7")
        page.wait_for("heldAt([1, 1])", "@choice")
        page.click(*self.middle(page, 1, 1))
        page.key("Enter")
        page.wait_for("document.getElementById('options').hidden", False)
        page.key(" ")
        self.assert_held("get B2", "val {0}")
        page.key("Escape")
        self.assert_held("get D6", "val 7")
        self.assertEqual(self.client.ask("get A2"), "val Zoe")
        self.assert_shows(page, (3, 5), "7")

    def test_a_vote_is_overwritten_and_plus_counts(self):
        self.assertIn("+ adds one to a count", README)
        page = self.page()
        page.click(*self.button(page, "vote"))
        page.key("ArrowDown")
        page.type("Soup")
        page.key("Tab")
        page.type("++")
        page.key("ArrowDown")
        page.type("+")
        self.assert_held("get B6", "val 3")
        found = [self.client.ask(f"get {cell}") for cell in ("A2", "B2", "B3")]
        self.assertEqual(found, ["val Soup", "val 2", "val 1"])
        self.assert_shows(page, (1, 5), "3")

    def test_the_budget_is_pasted(self):
        budget = re.search(r"paste a budget(?:.*\n)+?\n((?:    .*\t.*\n)+)", README)[1]
        page = self.page()
        self.paste(page, re.sub("^    ", "", budget, flags=re.MULTILINE))
        self.assert_held("get B3", "val 137000")
        self.assertEqual(self.entries("A1:C4"), ["'Rent,95000,", "'Food,42000,", "'All,=SUM([.B1:.B2]),", ",,"])
        self.assert_shows(page, (1, 2), "137000")


if __name__ == "__main__":
    unittest.main()
