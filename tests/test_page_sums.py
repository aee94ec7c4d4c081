"""Sum, count, least and greatest of what is selected on the page of `sheet serve`."""
import unittest

from browser_page import BrowserTest


class Sums(BrowserTest):
    def test_of_what_is_selected(self):
        page = self.page()
        self.fill("set A1 5", "set A2 -7", "set A3 text", "set B1 9223372036854775807", "set B2 @tally", "add B2 3",
                  "set A600 100", "set A4 1.5")
        self.go(page, "A1:A3")
        page.wait_for("document.getElementById('sums').textContent",
                      "Sum -2 \u00b7 Count 2 \u00b7 Least -7 \u00b7 Greatest 5")
        self.go(page, "A1:B2")
        page.wait_for("document.getElementById('sums').textContent", "Sum 9223372036854775808 \u00b7 Count 4 \u00b7 "
                      "Least -7 \u00b7 Greatest 9223372036854775807")
        # also where it can't be seen, and as others change it
        self.go(page, "A1:A1024")
        page.wait_for("document.getElementById('sums').textContent", "Sum 98 \u00b7 Count 3 \u00b7 Least -7 \u00b7 "
                      "Greatest 100 (without 1 text that looks like a number)")
        self.fill("set A600 7")
        page.wait_for("document.getElementById('sums').textContent.startsWith('Sum 5 ')")
        page.key("Escape")
        page.wait_for("document.getElementById('sums').textContent", "")


if __name__ == "__main__":
    unittest.main()
