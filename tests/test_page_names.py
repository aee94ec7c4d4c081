"""The grid of the page of `sheet serve`, the names of its cells, and what the browser keeps."""
import unittest

from browser_page import BrowserTest
from sizes import COLUMNS, name

ROWS = 1024


class Names(BrowserTest):
    def test_each_cell_has_its_name(self):
        page = self.page()
        wanted = [[name(column, row) for column in range(COLUMNS)] for row in (1, ROWS)]
        self.assertEqual(page.value("[0, 1023].map(row => [...Array(104).keys()].map(column => nameOf([column, row])))"),
                         wanted)
        # .. which is read again, in any case and with a $
        self.assertTrue(page.value("[...Array(104).keys()].every(column => ['', '$'].every(sign => { const cell ="
                                   " [column, 9], read = readName(` ${sign}${nameOf(cell).toLowerCase()} `);"
                                   " return read[0] === cell[0] && read[1] === cell[1]; }))"))

    def test_what_names_no_cell(self):
        page = self.page()
        for text in ("", "A", "1", "A0", "A01", "A1025", "DA1", "AAA1", "A1B", "A1:B2", "\u00c41"):
            self.assertIsNone(page.value(f"readName('{text}')"), text)

    def test_what_the_browser_keeps_may_be_broken(self):
        page = self.page()
        self.addCleanup(lambda: page.value("localStorage.clear()"))
        page.value("for (const name of ['widths', 'formulas', 'title']) localStorage.setItem(name, '{no map')")
        page.open(self.server.url)
        page.wait_for("document.getElementById('link').textContent", "connected")
        page.type("5")
        page.key("Enter")
        self.assert_held("get A1", "val 5")
        # .. or full
        page.value("Storage.prototype.setItem = () => { throw new Error('full'); }, keep('widths', new Map())")


if __name__ == "__main__":
    unittest.main()
