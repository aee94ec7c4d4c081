"""How the page of `sheet serve` looks: with something of each kind, dark, narrow, and scrolled to its end."""
import unittest

from browser_page import BrowserTest


class Looks(BrowserTest):
    def filled(self):
        """A page with something of each kind."""
        page = self.page()
        page.click(*self.button(page, "vote"))
        self.assert_held("entry B7", "entry =MAX([.B2:.B4])")
        for line in ("add B2 3", "add B3 5", "add B4 2", "set D1 Days", "set D2 @choice", "choose D2 1", "choose D2 4",
                     "set D4 =[.A2]+1", "set D5 =[.D5]", "set D6 -1250"):
            self.assertEqual(self.client.ask(line)[:3], "ok ")
        page.wait_for("shownAt([3, 5])", "-1250")
        page.wait_for("shownAt([1, 6])", "5")
        return page

    def test_light_and_dark(self):
        page = self.filled()
        pictures = {}
        for scheme in ("light", "dark"):
            page.call("Emulation.setEmulatedMedia", features=[{"name": "prefers-color-scheme", "value": scheme}])
            pictures[scheme] = page.value("getComputedStyle(document.body).backgroundColor")
            page.value("new Promise(done => setTimeout(done, 1500))")
            self.keep_picture(page, scheme)
        self.assertEqual(pictures, {"light": "rgb(255, 255, 255)", "dark": "rgb(21, 24, 29)"})

    def test_four_hundred_pixels(self):
        page = self.filled()
        page.call("Emulation.setDeviceMetricsOverride", width=400, height=700, deviceScaleFactor=1, mobile=False)
        page.wait_for("innerWidth", 400)
        self.assertLessEqual(page.value("document.documentElement.scrollWidth"), 400)
        page.click(*self.middle(page, 1, 1, "[data-action=add]"))
        self.assert_held("get B2", "val 4")
        for box in ("name", "line", "tally", "choice", "link"):
            self.assertLessEqual(page.value(f"document.getElementById('{box}').getBoundingClientRect().right"), 400)
        self.keep_picture(page, "narrow")

    def test_the_whole_sheet_by_scrolling(self):
        page = self.page()
        self.client.ask("set CZ1024 end")
        page.value("grid.scrollTo(1e6, 1e6)")
        self.assert_shows(page, (103, 1023), "end")
        self.assertLess(page.value("document.querySelectorAll('.cell').length"), 2000)
        page.value("grid.scrollTo(0, 0)")
        self.assert_shows(page, (0, 0), "")


if __name__ == "__main__":
    unittest.main()
