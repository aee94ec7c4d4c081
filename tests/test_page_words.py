"""The page of `sheet serve` says where a text only looks like a number, and where a sum passes it over."""
import unittest

from browser_page import BrowserTest
from program import run

# What is typed, and why it is kept as a text.
WHOLE, DATES = "numbers are whole", "there are no dates and times"
LOOK_ALIKE = (
    ("12.50", WHOLE), ("50%", "numbers have no percent sign"), ("1,234", "numbers have no commas"), ("3/4", WHOLE),
    ("2026-11-29", DATES), ("29.11.2026", DATES), ("12:30", DATES), ("$5", "numbers have no sign of a currency"),
    ("1e3", "numbers are digits alone"), ("TRUE", "truth values are written =TRUE() and =FALSE()"),
    ("SUM(1;2)", "a formula begins with ="), ("@TALLY", "@tally, @choice and of:= are in small letters"),
    ("99999999999999999999", "numbers are -9223372036854775808 to 9223372036854775807"),
    ("\u22125", "the minus sign is -"), ("-.5", WHOLE), ("5 \u20ac", "numbers have no sign of a currency"),
)
# What the program itself says nothing of.
BEYOND = {"3/4", "2026-11-29", "29.11.2026", "12:30"}
PLAIN = ("apples", "1a", "3 apples", "A-1", "v1.2.3", "...", "e5", "room 12", "+", "1/2/3/4")


class LooksLikeANumber(BrowserTest):
    def test_it_is_told_at_the_cell(self):
        page = self.page()
        page.type("12.50")
        page.key("Enter")
        self.assert_held("entry A1", "entry '12.50")
        page.wait_for("document.getElementById('refusal').textContent",
                      "A1: 12.50 is kept as a text: numbers are whole")
        page.wait_for("document.querySelectorAll('#cell-0.looks').length", 1)
        page.key("ArrowUp")
        page.wait_for("document.getElementById('hint').textContent", "12.50 is kept as a text: numbers are whole")
        # .. as long as it is one
        self.fill("set A1 12")
        page.wait_for("document.querySelectorAll('.looks').length", 0)
        page.wait_for("document.getElementById('hint').textContent", "")

    def test_each_kind_has_its_reason(self):
        page = self.page()
        for text, reason in LOOK_ALIKE:
            with self.subTest(text):
                self.assertEqual(page.value(f"habitOf({text!r})"), reason)
        for text in PLAIN:
            with self.subTest(text):
                self.assertEqual(page.value(f"habitOf({text!r})"), "")

    def test_the_page_says_what_the_program_says(self):
        page = self.page()
        texts = [text for text, _ in LOOK_ALIKE if text not in BEYOND] + [*PLAIN, " 12", "12 "]
        given = "".join(f"set A1 {text}\n" for text in texts).encode()
        said = run("run", "--explain", given=given).error.decode().splitlines()
        notes = [page.value(f"noteOf({chr(39) + text!r})") for text in texts]
        self.assertEqual([f"line {n}: {note}" for n, note in enumerate(notes, 1) if note], said)

    def test_an_apostrophe_is_told_too(self):
        page = self.page()
        self.fill("set A1 '12")
        page.wait_for("document.getElementById('hint').textContent",
                      "12 is kept as a text: an apostrophe stands before it")

    def test_a_sum_says_that_it_passes_it_over(self):
        page = self.page()
        self.fill("set A1 12.50", "set A2 10", "set A3 =SUM([.A1:.A2])", "set B3 =SUM([.C500:.D600])", "set C550 50%")
        self.go(page, "A3")
        page.wait_for("document.getElementById('value').textContent",
                      "= 10, without A1, which only looks like a number")
        # also where the range can't be seen
        page.key("ArrowRight")
        page.wait_for("document.getElementById('value').textContent",
                      "= 0, without C550, which only looks like a number")
        self.fill("set C550 50")
        page.wait_for("document.getElementById('value').textContent", "= 50")

    def test_a_reference_that_stands_alone_is_passed_over_too(self):
        page = self.page()
        self.fill("set A1 12.50", "set A2 10")
        for typed, value in (("=SUM(A1,A2)", "= 10, without A1, which only looks like a number"),
                             ("=2*MAX(ABS(A2),IF(A2,1,2),A1)", "= 20, without A1, which only looks like a number"),
                             ("=COUNT(A2)+COUNT(A1:A2,A1)", "= 2, without A1, which only looks like a number"),
                             # what isn't passed over makes a fault
                             ("=SUM(A2)+IF(A1,1,2)", "= #VALUE!"), ("=SUM(A2,-A1)", "= #VALUE!"),
                             ("=SUM(ABS(A1),A2)", "= #VALUE!")):
            self.go(page, "C1")
            page.type(typed)
            page.key("Enter")
            page.key("ArrowUp")
            with self.subTest(typed):
                page.wait_for("acting", 0)
                page.wait_for("document.getElementById('value').textContent", value)
                page.wait_for("passedOf", page.value("heldAt(current)"))
                self.assertEqual(page.value("document.getElementById('value').textContent"), value)

    def test_refused_formulas_have_a_reason(self):
        page = self.page()
        for typed, reason in (("=1/2", "/ is written QUOTIENT(a;b)"), ("=AVERAGE(A1:A2)", "AVERAGE is no function"),
                              ("=(1+2", "a ( isn't closed"), ("=2.5*2", "2.5: numbers are whole")):
            page.type(typed)
            page.key("Enter")
            page.wait_for("document.getElementById('editor').style.display", "block")
            page.wait_for("document.getElementById('editor').value", typed)
            self.assertIn(reason, self.told(page))
            page.key("Escape")


if __name__ == "__main__":
    unittest.main()
