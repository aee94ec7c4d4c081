"""Finding a text on the page of `sheet serve`, among all cells."""
import unittest

from browser import CONTROL, SHIFT
from browser_page import BrowserTest


class Finding(BrowserTest):
    def test_all_cells_are_looked_through(self):
        page = self.page()
        self.fill("set B2 Pizza", "set CZ1000 'a pizza, too'", "set A1 =[.B1]*77", "set C5 pasta")
        page.key("f", CONTROL)
        page.wait_for("document.activeElement.id", "sought")
        page.type("PIZZA")
        page.key("Enter")
        page.wait_for("document.getElementById('name').value", "B2")
        page.wait_for("document.getElementById('found').textContent", "1 of 2")
        page.key("Enter")
        page.wait_for("document.getElementById('name').value", "CZ1000")
        page.key("Enter", SHIFT)
        page.wait_for("document.getElementById('name').value", "B2")
        # what a formula holds, too
        page.value("document.getElementById('sought').value = ''")
        page.type("b1*77")
        page.key("Enter")
        page.wait_for("document.getElementById('name').value", "A1")
        page.type("7")
        page.key("Enter")
        page.wait_for("document.getElementById('found').textContent", "nowhere")
        page.key("Escape")
        page.wait_for("document.activeElement.id", "grid")
        page.wait_for("document.getElementById('find').hidden", True)


if __name__ == "__main__":
    unittest.main()
