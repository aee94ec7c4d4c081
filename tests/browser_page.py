"""What the tests of the page share: a browser with pages at a server, and what is done and looked at there."""
import contextlib
import json
import os
from pathlib import Path

import browser
from browser import Browser
from program import NO_BROWSER, ProgramTest
from servers import serving

# Where pictures of the page are kept; nowhere unless the variable is set.
PICTURES = os.environ.get("SHEET_PICTURES")


def middle_of(page, column, row, part=""):
    """Where the middle of a cell, or of a part of it, is."""
    return page.middle(f"document.querySelector('#cell-' + keyOf({column}, {row}) + ' {part}'.trimEnd())")


def paste_text(page, text):
    """Pastes a text that comes from elsewhere."""
    page.value("(() => { const data = new DataTransfer(); data.setData('text/plain', %s); document.dispatchEvent("
               "new ClipboardEvent('paste', { clipboardData: data, bubbles: true, cancelable: true })); })()"
               % json.dumps(text))


def connected(browser, server):
    """A page in a browser, once it is connected and has seen the sheet."""
    page = browser.page(server.url)
    page.wait_for("document.getElementById('link').textContent", "connected")
    page.wait_for("seenAt !== ''")
    return page


class BrowserTest(ProgramTest):
    """A test of the page, for which one browser is started."""

    browser = None
    words = ()

    @classmethod
    def tearDownClass(cls):
        if cls.browser is not None:
            cls.browser.end()
            cls.browser = None

    def setUp(self):
        if browser.program() is None:
            self.skipTest(NO_BROWSER)
        if self.browser is None:
            type(self).browser = Browser()
        with contextlib.ExitStack() as stack:
            self.server = stack.enter_context(serving(None, *self.words))
            self.addCleanup(stack.pop_all().close)
        self.client = self.server.client()

    def page(self):
        """A page that is connected, and at whose end nothing went wrong."""
        page = connected(self.browser, self.server)
        self.addCleanup(page.close)
        self.addCleanup(lambda: self.assertEqual(page.problems, []))
        return page

    def assert_shows(self, page, cell, text):
        """A page comes to show a text in a cell; how long that took."""
        column, row = cell
        return page.wait_for(f"(document.getElementById('cell-' + keyOf({column}, {row})) || {{}}).textContent", text)

    def assert_held(self, line, reply):
        """The server comes to answer this line so."""
        self.client.wait_for(line, reply)

    def middle(self, page, column, row, part=""):
        """Where the middle of a cell, or of a part of it, is."""
        return middle_of(page, column, row, part)

    def button(self, page, name):
        """Where the button of an example is, once the page knows that the sheet is empty."""
        page.wait_for("document.getElementById('examples').hidden", False)
        return page.middle(f"document.getElementById('{name}')")

    def current(self, page):
        """The name of the current cell."""
        return page.value("document.getElementById('name').value")

    def keep_picture(self, page, name):
        """Has a picture of a page that isn't empty, and keeps it where that is asked for."""
        picture = page.picture()
        self.assertTrue(picture.startswith(b"\x89PNG"))
        if PICTURES:
            (Path(PICTURES) / f"{name}.png").write_bytes(picture)
        return picture

    def fill(self, *texts):
        """Has the server carry out these lines, and no page."""
        for text in texts:
            self.assertEqual(self.client.ask(text)[:3], "ok ", text)

    def entries(self, where):
        """What the server holds in an area, row by row."""
        rows = int(self.client.ask(f"entries {where}").split(" ")[1])
        return [self.client.reply() for _ in range(rows)]

    def go(self, page, where):
        """Goes to a cell, or selects an area, by the name box."""
        page.click(*page.middle("document.getElementById('name')"))
        page.type(where)
        page.key("Enter")
        page.wait_for("document.activeElement.id", "grid")

    def paste(self, page, text):
        """Pastes a text that comes from elsewhere."""
        paste_text(page, text)

    def copied(self, page, kind="copy", form="text/plain"):
        """What a copy, or a cut, of what is selected hands to the clipboard."""
        return page.value("(() => { const data = new DataTransfer(); document.dispatchEvent(new ClipboardEvent('%s', "
                          "{ clipboardData: data, bubbles: true, cancelable: true })); return data.getData('%s'); })()"
                          % (kind, form))

    def told(self, page):
        """What the page says beside a cell at last."""
        page.wait_for("document.getElementById('refusal').hidden", False)
        return page.value("document.getElementById('refusal').textContent")

    def answer(self, page, name):
        """Answers a question by the button of this name, and returns what was asked."""
        page.wait_for("!!document.querySelector('#question[open]')")
        asked = page.value("document.querySelector('#question p').textContent")
        buttons = "[...document.querySelectorAll('#question button')]"
        page.click(*page.middle(f"{buttons}.find(button => button.textContent === '{name}')"))
        page.wait_for("!document.querySelector('#question[open]')")
        return asked
