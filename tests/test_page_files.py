"""Tables of CSV out of and into the page of `sheet serve`, and its print."""
import unittest

from browser import CONTROL
from browser_page import BrowserTest


class Tables(BrowserTest):
    def open(self, page, text, name="plan.csv"):
        """Chooses a file of this text, or of these bytes."""
        path = self.folder() / name
        path.write_bytes(text if isinstance(text, bytes) else text.encode())
        document = page.call("DOM.getDocument")["root"]["nodeId"]
        chooser = page.call("DOM.querySelector", nodeId=document, selector="#file")["nodeId"]
        page.call("DOM.setFileInputFiles", nodeId=chooser, files=[str(path)])

    def test_values_and_entries_go_out(self):
        page = self.page()
        self.fill("set A1 'a,b", 'set B1 "q"', "set A2 5", "set B2 =[.A2]*2", "set C3 @tally", "add C3 4")
        page.wait_for("shownAt([2, 2])", "4")
        self.assertEqual(page.value("csvOf('rows')"), '"a,b","""q""",\r\n5,10,\r\n,,4\r\n')
        self.assertEqual(page.value("csvOf('entries')"), "\"'a,b\",\"'\"\"q\"\"\",\r\n5,=[.A2]*2,\r\n,,@tally\r\n")

    def test_a_file_is_saved(self):
        page = self.page()
        folder = self.folder()
        self.fill("set A1 5", "set B1 =[.A1]*2")
        page.wait_for("shownAt([1, 0])", "10")
        page.call("Browser.setDownloadBehavior", behavior="allow", downloadPath=str(folder))
        page.click(*page.middle("document.getElementById('menu')"))
        page.wait_for("document.getElementById('more').style.left !== ''")
        page.click(*page.middle("document.getElementById('save-rows')"))
        file = folder / "sheet.csv"
        page.wait_for("document.getElementById('more').matches(':popover-open')", False)
        for _ in range(500):
            if file.is_file() and file.stat().st_size:
                break
            page.value("new Promise(done => setTimeout(done, 10))")
        self.assertEqual(file.read_bytes(), b"5,10\r\n")

    def test_a_file_comes_in_after_a_question(self):
        page = self.page()
        self.fill("set B2 old", "set C2 7")
        page.wait_for("shownAt([2, 1])", "7")
        self.go(page, "B2")
        self.open(page, '\ufeffnew,7,"a ""b"", c"\r\n=B2,' + "x" * 65 + ",1\r\n")
        asked = self.answer(page, "Cancel")
        self.assertIn("plan.csv: 2 rows and 3 columns, from B2 on. 5 cells would change, "
                      "1 of them hold something now.", asked)
        self.assertEqual(self.client.ask("get B2"), "val old")
        self.open(page, '\ufeffnew,7,"a ""b"", c"\r\n=B2,' + "x" * 65 + ",1\r\n", "again.csv")
        self.answer(page, "Take in")
        self.assert_held("get D3", "val 1")
        self.assertIn("1 of 5 cells refused (C3): A text has at most 64 bytes", self.told(page))
        self.assertEqual(self.entries("B2:D3"), ["'new,7,\"'a \"\"b\"\", c\"", "=[.B2],,1"])
        page.key("z", CONTROL)
        self.assert_held("get B2", "val old")

    def test_a_file_is_dropped(self):
        page = self.page()
        page.value("(() => { const data = new DataTransfer(); data.items.add(new File(['1,2\\n'], 'two.csv'));"
                   " grid.dispatchEvent(new DragEvent('drop',"
                   " { dataTransfer: data, bubbles: true, cancelable: true })); })()")
        self.assertIn("two.csv: 1 row and 2 columns, from A1 on", self.answer(page, "Take in"))
        self.assert_held("get B1", "val 2")

    def test_semicolons_and_entries_come_in(self):
        page = self.page()
        self.open(page, "Pizza;@tally\nall;=SUM(B1:B1)\n")
        self.answer(page, "Take in")
        self.assert_held("entry B2", "entry =SUM([.B1:.B1])")
        self.assertEqual(self.client.ask("entry B1"), "entry @tally")

    def test_other_encodings_come_in(self):
        page = self.page()
        for row, (encoding, name) in enumerate((("windows-1252", "windows-1252"), ("utf-8-sig", "UTF-8")), 1):
            self.go(page, f"A{row}")
            self.open(page, "M\u00fcller;5 \u20ac\n".encode(encoding), f"{encoding}.csv")
            self.assertTrue(self.answer(page, "Take in").endswith(f" Read as {name}."))
            self.assert_held(f"get A{row}", "val M\u00fcller")
            self.assert_held(f"get B{row}", "val 5 \u20ac")

    def test_what_went_out_comes_in(self):
        page = self.page()
        self.fill("set A1 'a,b", "set B1 '12", "set A2 =SUM([.B1:.C4])", "set C3 ''quote", "set C4 -5")
        page.wait_for("shownAt([2, 3])", "-5")
        was = self.entries("A1:D5")
        text = page.value("csvOf('entries')")
        page.key("a", CONTROL)
        page.key("Delete")
        self.assert_held("entry C4", "entry ")
        self.go(page, "A1")
        self.open(page, text)
        self.answer(page, "Take in")
        self.assert_held("entry C4", "entry -5")
        self.assertEqual(self.entries("A1:D5"), was)

    def test_the_used_part_is_printed(self):
        page = self.page()
        self.fill("set A1 Name", "set B30 5", "set C2 @choice", "choose C2 3")
        page.wait_for("shownAt([2, 1])", "{3}")
        page.value("layOutPaper()")
        self.assertEqual(page.value("[paper.rows, document.querySelectorAll('#paper tr').length]")[1], 30)
        self.assertEqual(page.value("document.querySelectorAll('#paper td').length"), 90)
        page.call("Emulation.setEmulatedMedia", media="print")
        self.assertEqual(page.value("[getComputedStyle(document.getElementById('grid')).display,"
                                    " getComputedStyle(document.getElementById('paper')).display]"), ["none", "block"])
        self.assertTrue(page.call("Page.printToPDF")["data"])


if __name__ == "__main__":
    unittest.main()
