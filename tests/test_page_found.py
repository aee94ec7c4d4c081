"""The page of `sheet serve` for everybody: by keys alone, a screen reader, on small and dark screens; help and size."""
import json
import re
import unittest

from browser import SHIFT
from browser_page import BrowserTest

# All that stands in the page at most, in bytes.
MOST_BYTES = 60_000
CONTRAST = """(() => {
  const canvas = document.createElement('canvas').getContext('2d', { willReadFrequently: true });
  const rgb = color => { canvas.clearRect(0, 0, 1, 1); canvas.fillStyle = color; canvas.fillRect(0, 0, 1, 1);
    return [...canvas.getImageData(0, 0, 1, 1).data]; };
  const part = v => v <= 0.03928 ? v / 12.92 : ((v + 0.055) / 1.055) ** 2.4;
  const light = ([r, g, b]) => 0.2126 * part(r / 255) + 0.7152 * part(g / 255) + 0.0722 * part(b / 255);
  const backOf = element => { for (let e = element; e; e = e.parentElement) {
    const color = rgb(getComputedStyle(e).backgroundColor);
    if (color[3] === 255) return color; } return rgb('Canvas'); };
  // (what has an opacity, and all in it, is mixed with what lies behind it)
  const mixed = (color, element) => { for (let e = element; e; e = e.parentElement) {
    const share = +getComputedStyle(e).opacity, behind = share < 1 && backOf(e.parentElement);
    if (behind) color = color.map((part, i) => part * share + behind[i] * (1 - share)); } return color; };
  const low = [];
  for (const element of document.querySelectorAll('body *')) {
    const own = [...element.childNodes].some(node => node.nodeType === 3 && node.data.trim());
    if (!own && element.tagName !== 'INPUT' || element.disabled || !element.checkVisibility()) continue;
    if (element.tagName === 'SCRIPT' || element.tagName === 'STYLE') continue;
    const shown = element.placeholder && !element.value ? '::placeholder' : null;
    const colors = [rgb(getComputedStyle(element, shown).color), backOf(element)];
    const [a, b] = colors.map(color => light(mixed(color, element))).sort((x, y) => y - x);
    const ratio = (a + 0.05) / (b + 0.05);
    if (ratio < 4.5) low.push([element.tagName, element.id, element.className, element.textContent, ratio].join(' '));
  }
  return low;
})()"""


class FoundTest(BrowserTest):
    """A test with something of each kind in the sheet."""

    def filled(self):
        page = self.page()
        self.fill("set A1 Friday", "set A2 @tally", "add A2 3", "set A3 @choice", "choose A3 1", "set A4 =[.A1]+1",
                  "set A5 =[.A5]", "set A6 12.50", "set A7 -1250", "set B1 =[.A7]*2")
        page.wait_for("shownAt([1, 0])", "-2500")
        return page


class Reader(FoundTest):
    def nodes(self, page):
        return page.call("Accessibility.getFullAXTree")["nodes"]

    def test_cells_heads_and_fields_have_roles_and_names(self):
        page = self.filled()
        found = {(node.get("role", {}).get("value"), node.get("name", {}).get("value")) for node in self.nodes(page)}
        for wanted in (
            ("grid", "Sheet"), ("columnheader", "A"), ("rowheader", "1"), ("gridcell", "Friday, A1"),
            ("gridcell", "3, A2, counter: + and \u2212 count"), ("gridcell", "{1}, A3, options: Enter shows them"),
            ("gridcell", "#VALUE!, A4, #VALUE! a text where a number is wanted"),
            ("gridcell", "-2500, B1, formula =A7*2"),
            ("gridcell", "12.50, A6, 12.50 is kept as a text: numbers are whole"), ("gridcell", "C3"),
            ("button", "one more"), ("button", "Undo"), ("button", "Help"), ("button", "More"),
            ("textbox", "Content of the cell"), ("textbox", "Cell"),
        ):
            self.assertIn(wanted, found)

    def test_the_current_cell_is_told(self):
        page = self.filled()
        page.key("ArrowDown")
        grid = next(node for node in self.nodes(page) if node.get("role", {}).get("value") == "grid")
        active = next(each for each in grid["properties"] if each["name"] == "activedescendant")
        self.assertEqual(active["value"]["relatedNodes"][0]["idref"], "cell-104")

    def test_a_refusal_is_an_alert(self):
        page = self.filled()
        self.go(page, "C1")
        page.type("=1+")
        page.key("Enter")
        self.assertIn("This is no formula", self.told(page))
        alert = next(node for node in self.nodes(page) if node.get("role", {}).get("value") == "alert")
        self.assertIn(("live", "assertive"), {(has["name"], has["value"].get("value")) for has in alert["properties"]})
        texts = [node.get("name", {}).get("value", "") for node in self.nodes(page)]
        self.assertTrue(any("C1: This is no formula" in text for text in texts))

    def test_a_question_is_read_out_and_reached(self):
        page = self.filled()
        self.go(page, "A2")
        page.key("Delete")
        page.wait_for("!!document.querySelector('#question[open]')")
        dialogs = [node for node in self.nodes(page) if node.get("role", {}).get("value") == "dialog"]
        self.assertTrue(any("A2 is a counter that shows 3" in node["name"]["value"] for node in dialogs))
        # it is read out at once, though the keys stay where they are
        self.assertEqual(page.value("[document.getElementById('asked').role, document.activeElement.id]"),
                         ["alert", "grid"])
        page.key("F6")
        page.wait_for("document.activeElement.textContent", "Leave")
        page.key("Enter")
        page.wait_for("!document.querySelector('#question[open]')")
        page.wait_for("document.activeElement.id", "grid")
        self.assertEqual(self.client.ask("get A2"), "val 3")


class KeysAlone(FoundTest):
    def test_everything_in_the_bar_is_reached(self):
        page = self.filled()
        page.key("F6")
        reached = []
        for _ in range(8):
            reached.append(page.value("document.activeElement.id"))
            page.key("Tab")
            if page.value("editing") is not None:
                # (the line above the grid is edited once it has the keys)
                reached.append("line")
                page.key("Escape")
                break
        self.assertEqual(reached, ["name", "line"])
        page.wait_for("document.activeElement.id", "grid")
        page.key("F6", SHIFT)
        reached = []
        for _ in range(4):
            reached.append(page.value("document.activeElement.id"))
            page.key("Tab", SHIFT)
        self.assertEqual(reached, ["help-button", "menu", "choice", "tally"])
        page.key("F6")
        page.wait_for("document.activeElement.id", "grid")

    def example(self, *keys):
        """Takes an example of an empty sheet by F6, these keys and Enter."""
        page = self.page()
        page.wait_for("document.getElementById('examples').hidden", False)
        for key in ("F6", *keys, "Enter"):
            page.key(key)
        page.wait_for("document.activeElement.id", "grid")
        page.wait_for("document.getElementById('examples').hidden")
        return page

    def test_the_vote_by_keys(self):
        page = self.example()
        self.assert_held("entry B7", "entry =MAX([.B2:.B4])")
        # without examples F6 leads to the bar
        page.key("F6")
        page.wait_for("document.activeElement.id", "name")

    def test_the_plan_by_keys(self):
        self.example("Tab")
        self.assert_held("entry D6", "entry =SUM([.D2:.D4])")

    def test_f6_leads_from_the_examples_to_the_bar_and_back(self):
        page = self.page()
        page.wait_for("document.getElementById('examples').hidden", False)
        for key, reached in (("F6", "vote"), ("F6", "name"), ("F6", "grid"), ("F6", "vote"), ("Escape", "grid")):
            page.key(key)
            page.wait_for("document.activeElement.id", reached)

    def test_f6_is_the_page_s_own(self):
        """A browser would lead it on, to its own bar."""
        page = self.filled()
        page.value("window.taken = [], addEventListener('keydown', event => taken.push(event.defaultPrevented)), 1")
        for _ in range(2):
            page.key("F6")
        self.assertEqual(page.value("taken"), [True, True])

    def test_the_menu_by_keys(self):
        page = self.filled()
        page.key("F6", SHIFT)
        page.key("Tab", SHIFT)
        page.key("Enter")
        page.wait_for("document.getElementById('more').matches(':popover-open')")
        page.key("Tab")
        page.wait_for("document.activeElement.id", "find-button")
        page.key("Enter")
        page.wait_for("document.activeElement.id", "sought")

    def test_options_by_keys(self):
        page = self.filled()
        self.go(page, "A3")
        page.key("Enter")
        page.wait_for("document.activeElement.type", "checkbox")
        page.key(" ")
        self.assert_held("get A3", "val {0,1}")
        page.key("Escape")
        page.wait_for("document.activeElement.id", "grid")


class Screens(FoundTest):
    def test_320_pixels(self):
        page = self.filled()
        page.call("Emulation.setDeviceMetricsOverride", width=320, height=568, deviceScaleFactor=1, mobile=False)
        page.wait_for("innerWidth", 320)
        self.fits(page, 320)
        self.assertGreater(page.value("grid.clientHeight"), 250)
        # what is said below the grid is there as a whole
        self.go(page, "A6:A7")
        page.wait_for("document.getElementById('sums').textContent", "Sum -1250 \u00b7 Count 1 \u00b7 Least -1250 "
                      "\u00b7 Greatest -1250 (without 1 text that looks like a number)")
        for box in ("sums", "hint"):
            page.wait_for(f"document.getElementById('{box}').textContent !== ''")
            self.assertLessEqual(page.value(f"document.getElementById('{box}').getBoundingClientRect().right"), 320)
            cut = page.value(f"(e => e.scrollWidth - e.clientWidth)(document.getElementById('{box}'))")
            self.assertLessEqual(cut, 0)
        self.assertLessEqual(page.value("document.querySelector('footer').getBoundingClientRect().bottom"), 568)
        page.click(*self.middle(page, 0, 1, "[data-action=add]"))
        self.assert_held("get A2", "val 4")
        page.key("?")
        self.assertLessEqual(page.value("document.getElementById('help').getBoundingClientRect().width"), 320)
        self.assertLessEqual(page.value("(e => e.scrollWidth - e.clientWidth)(document.getElementById('help'))"), 0)
        self.keep_picture(page, "help-320")

    def fits(self, page, width):
        self.assertLessEqual(page.value("document.documentElement.scrollWidth"), width)
        for box in ("name", "line", "undo", "redo", "tally", "choice", "menu", "help-button", "link"):
            right = page.value(f"document.getElementById('{box}').getBoundingClientRect().right")
            self.assertLessEqual(right, width, box)

    def test_200_percent(self):
        page = self.filled()
        page.call("Emulation.setDeviceMetricsOverride", width=600, height=360, deviceScaleFactor=2, mobile=False)
        page.wait_for("innerWidth", 600)
        self.fits(page, 600)
        self.assertGreater(page.value("grid.clientHeight"), 150)
        self.keep_picture(page, "zoomed")

    def test_touch(self):
        page = self.filled()
        page.call("Emulation.setTouchEmulationEnabled", enabled=True)
        for _ in range(2):
            x, y = self.middle(page, 0, 0)
            page.call("Input.dispatchTouchEvent", type="touchStart", touchPoints=[{"x": x, "y": y}])
            page.call("Input.dispatchTouchEvent", type="touchEnd", touchPoints=[])
        page.wait_for("document.getElementById('editor').value", "Friday")
        page.key("Escape")
        x, y = self.middle(page, 0, 1, "[data-action=add]")
        page.call("Input.dispatchTouchEvent", type="touchStart", touchPoints=[{"x": x, "y": y}])
        page.call("Input.dispatchTouchEvent", type="touchEnd", touchPoints=[])
        self.assert_held("get A2", "val 4")
        self.assertEqual(self.current(page), "A2")

    def test_contrast_in_light_and_dark(self):
        page = self.filled()
        self.paste(page, "x" * 65)
        self.told(page)
        for scheme in ("light", "dark"):
            page.call("Emulation.setEmulatedMedia", features=[{"name": "prefers-color-scheme", "value": scheme},
                                                              {"name": "prefers-reduced-motion", "value": "reduce"}])
            page.wait_for("matchMedia('(prefers-color-scheme: %s)').matches" % scheme)
            self.assertEqual(page.value(CONTRAST), [], scheme)
            page.value("document.getElementById('more').showPopover()")
            self.assertEqual(page.value(CONTRAST), [], f"the menu, {scheme}")
            page.value("document.getElementById('more').hidePopover()")
        page.key("?")
        page.wait_for("document.getElementById('help').open")
        self.assertEqual(page.value(CONTRAST), [])

    def test_contrast_of_a_page_whose_connection_is_lost(self):
        page = self.filled()
        looks = {}
        for state, words in (("connected", "connected"), ("lost", "connection lost, trying again")):
            if state == "lost":
                page.value("connect = () => {}, socket.close()")
            page.wait_for("document.getElementById('link').textContent", words)
            for scheme in ("light", "dark"):
                features = {"prefers-color-scheme": scheme, "prefers-reduced-motion": "reduce"}
                page.call("Emulation.setEmulatedMedia",
                          features=[{"name": name, "value": value} for name, value in features.items()])
                page.wait_for("matchMedia('(prefers-color-scheme: %s)').matches" % scheme)
                self.assertEqual(page.value(CONTRAST), [], f"{state}, {scheme}")
                looks[state, scheme] = page.value("['bar', 'corner', 'link'].map(id =>"
                                                  " getComputedStyle(document.getElementById(id).closest('#bar, #corner,"
                                                  " footer')).backgroundColor)")
                self.keep_picture(page, f"{state}-{scheme}")
        # the loss is seen above, beside and below the cells
        for scheme in ("light", "dark"):
            for before, after in zip(looks["connected", scheme], looks["lost", scheme], strict=True):
                self.assertNotEqual(before, after, scheme)


class Help(FoundTest):
    def test_a_question_mark_opens_it(self):
        page = self.filled()
        page.key("?")
        page.wait_for("document.getElementById('help').open")
        text = page.value("document.getElementById('help').textContent")
        for function in page.value("FUNCTIONS"):
            self.assertIn(function, text)
        for word in ("Ctrl+Z", "Ctrl+D", "F6", "64 bytes", "counter", "options F1:K1", "CZ1024"):
            self.assertIn(word, text)
        # one screen has all of it, where there is room
        self.assertEqual(page.value("(box => [box.scrollHeight - box.clientHeight, box.scrollWidth - box.clientWidth])"
                                    "(document.getElementById('help'))"), [0, 0])
        self.keep_picture(page, "help")
        page.key("Escape")
        page.wait_for("document.getElementById('help').open", False)
        page.wait_for("document.activeElement.id", "grid")
        page.click(*page.middle("document.getElementById('help-button')"))
        page.wait_for("document.getElementById('help').open")

    def test_all_of_it_is_reached_on_small_screens(self):
        page = self.filled()
        page.key("?")
        page.wait_for("document.getElementById('help').open")
        for width, height in ((1200, 720), (1024, 600), (1000, 700), (1100, 620), (960, 600), (960, 576), (900, 700)):
            with self.subTest(width=width, height=height):
                page.call("Emulation.setDeviceMetricsOverride", width=width, height=height, deviceScaleFactor=1,
                          mobile=False)
                page.wait_for("[innerWidth, innerHeight].join()", f"{width},{height}")
                beyond = page.value("(box => { const { left, right } = box.getBoundingClientRect();"
                                    " return [...box.querySelectorAll('p, dt, dd, h2')].filter(each => { const at ="
                                    " each.getBoundingClientRect(); return at.left < left || at.right > right; })"
                                    ".map(each => each.textContent).concat(box.scrollWidth - box.clientWidth); })"
                                    "(document.getElementById('help'))")
                self.assertEqual(beyond, [0])
                # the wheel leads to the limits
                page.value("document.getElementById('help').scrollTop = 0")
                page.mouse("mouseWheel", *page.middle("document.getElementById('help')"), deltaX=0, deltaY=5000)
                page.wait_for("(box => [...box.querySelectorAll('p')].pop().getBoundingClientRect().bottom <="
                              " box.getBoundingClientRect().bottom)(document.getElementById('help'))")
                self.keep_picture(page, f"help-{width}-{height}")

    def test_its_formulas_are_formulas(self):
        """Each function has an example of its own."""
        page = self.page()
        formulas = page.value("[...document.querySelectorAll('#help dt')].map(e => e.textContent).filter(isFormula)")
        formulas += re.findall(r"=[A-Z]+\([^()]*\)", page.value("document.getElementById('help').textContent"))
        for function in page.value("FUNCTIONS"):
            self.assertTrue([formula for formula in formulas if formula.startswith(f"={function}(")], function)
        for row, formula in enumerate(formulas, 1):
            self.fill(f"set H{row} " + page.value(f"toEntry({json.dumps(formula)})"))


class Speed(BrowserTest):
    def test_the_page_is_small_and_whole(self):
        page = self.page()
        self.assertLessEqual(page.value("performance.getEntriesByType('navigation')[0].encodedBodySize"), MOST_BYTES)
        resources = page.value("performance.getEntriesByType('resource').map(entry => entry.name)")
        # (what the server says of the sheet is asked for, too)
        others = {name for name in resources if not name.startswith("data:")}
        self.assertLessEqual(others, {f"{self.server.url}about"})

    def test_scrolling_keeps_up_with_the_screen(self):
        page = self.page()
        lines = [f"set {chr(65 + n % 26)}{n // 26 + 1} {n}" for n in range(1500)]
        self.client.send("".join(f"{text}\n" for text in lines).encode())
        for _ in lines:
            self.client.reply()
        page.wait_for("shownAt([0, 0])", "0")
        # the machine may be busy: of some tries one has to be in time
        for _ in range(10):
            cost = page.value("""new Promise(done => { const costs = []; let n = 0;
                const step = () => { const begin = performance.now(); grid.scrollTop = n * 37; draw();
                  void grid.offsetHeight; costs.push(performance.now() - begin);
                  if (++n < 40) requestAnimationFrame(step); else done(costs.sort((a, b) => a - b)[20]); };
                requestAnimationFrame(step); })""")
            if cost < 16:
                return
        self.fail(f"a picture takes {cost} ms")


if __name__ == "__main__":
    unittest.main()
