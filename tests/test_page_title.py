"""The title of the page of `sheet serve`: the one that is given there or to the server, or the first cell's text."""
import unittest

from browser_page import BrowserTest


class Title(BrowserTest):
    def give(self, page, title):
        """Types a title into the menu."""
        page.click(*page.middle("document.getElementById('menu')"))
        page.wait_for("document.getElementById('more').style.left !== ''")
        page.click(*page.middle("document.getElementById('title')"), times=3)
        page.type(title)
        page.key("Enter")
        page.wait_for("document.activeElement.id", "grid")

    def test_a_given_title_stays(self):
        page = self.page()
        self.fill("set A1 Friday")
        page.wait_for("document.title", f"Friday - sheet {self.server.port}")
        self.give(page, "Plan")
        page.wait_for("document.title", f"Plan - sheet {self.server.port}")
        page.open(self.server.url)
        page.wait_for("seenAt !== ''")
        page.wait_for("document.title", f"Plan - sheet {self.server.port}")
        self.assertEqual(page.value("document.getElementById('title').value"), "Plan")
        # a blank one is none
        self.give(page, " ")
        page.wait_for("document.title", f"Friday - sheet {self.server.port}")

    def test_a_saved_file_has_it(self):
        page = self.page()
        self.give(page, "Plan")
        page.value("HTMLAnchorElement.prototype.click = function () { window.saved = this.download; }, 1")
        page.value("saveCsv('rows')")
        self.assertEqual(page.value("saved"), "Plan.csv")
        page.value("saveCsv('entries')")
        self.assertEqual(page.value("saved"), "Plan-entries.csv")


class Served(BrowserTest):
    words = ("--title", "Our plan")

    def test_the_title_of_the_server(self):
        page = self.page()
        self.fill("set A1 Friday")
        page.wait_for("document.title", f"Our plan - sheet {self.server.port}")
        page.wait_for("shownAt([0, 0])", "Friday")
        self.assertEqual(page.value("document.title"), f"Our plan - sheet {self.server.port}")

    def test_how_many_are_here(self):
        first, here = self.page(), "document.getElementById('here').textContent"
        self.assertEqual(first.value(here), "")
        second = self.browser.page(self.server.url)
        for page in (first, second):
            page.wait_for(here, "2 here")
        second.close()
        first.wait_for(here, "")


class First(BrowserTest):
    def test_the_title_tells_the_sheet(self):
        page = self.page()
        page.wait_for("document.title", f"Sheet {self.server.port}")
        self.fill("set A1 Friday lunch")
        page.wait_for("document.title", f"Friday lunch - sheet {self.server.port}")


if __name__ == "__main__":
    unittest.main()
