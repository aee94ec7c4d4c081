"""What a monkey does at the page, by chance from a seed, and a plain model of what the sheet has to hold after it.

The model knows cells as texts, and of formulas no more than how a copy moves their references.
"""
import random
import re

from browser_page import middle_of, paste_text

COLUMNS, ROWS = 4, 6
LONG = "a text that has more than sixty-four bytes, as a note may have which nobody cut in time"
TEXTS = ("5", "-17", "007", "apples", "12.50", "a,b", "it's", "=A1+B2", "=SUM(A1:B3)", "=$A$1+B$2", "=1+", "=A1/2",
         LONG, "'42", "@tally", "+3", "x y", "=D6*2")
KINDS = ("type", "type", "type", "delete", "paste", "copy", "cut", "down", "right", "undo", "undo", "redo")
ENDS = ("Enter", "Tab", "ArrowDown", "ArrowRight", "Escape")
# A text whose apostrophe has to stay, since it would be another entry without.
NEEDED = re.compile(r"'([+-]?\d+$|=|of:=|@tally$|@choice$|'|$)")
REFERENCE = re.compile(r"(\$?)([A-Z])(\$?)(\d+)")


def name_of(cell):
    """The name of a cell, which is a column and a row."""
    return f"{chr(65 + cell[0])}{cell[1] + 1}"


def canonical(text):
    """What a cell holds after this text; none where it is refused."""
    if text in ("=1+", "=A1/2", LONG):
        return None
    if re.fullmatch(r"[+-]?\d+", text):
        return str(int(text))
    if text in ("", "@tally") or text.startswith("'"):
        return text
    if not text.startswith("="):
        return "'" + text
    bare = text.replace("$", "")
    bare = re.sub(r"([A-Z]\d+):([A-Z]\d+)", r"[.\1:.\2]", bare)
    return re.sub(r"(?<![.A-Z])([A-Z]\d+)", r"[.\1]", bare)


def moved(text, columns, rows):
    """A text whose references are moved; none where one leaves the sheet's first column or row."""
    if not text.startswith("="):
        return text
    lost = []

    def move(found):
        column = ord(found[2]) - 65 + (0 if found[1] else columns)
        row = int(found[4]) - 1 + (0 if found[3] else rows)
        if column < 0 or row < 0:
            lost.append(found)
        return f"{found[1]}{chr(65 + max(0, column))}{found[3]}{row + 1}"

    found = REFERENCE.sub(move, text)
    return None if lost else found


class Model:
    """What the sheet holds, and what each page can undo."""

    def __init__(self, pages):
        self.held, self.typed = {}, [{} for _ in range(pages)]
        self.done = [[] for _ in range(pages)]
        self.undone = [[] for _ in range(pages)]

    def text_of(self, page, cell):
        """What a page shows to be typed: with the `$` that it typed itself, while the cell holds that entry."""
        entry = self.held.get(cell, "")
        text, was = self.typed[page].get(cell, (None, None))
        if text is not None and was == entry:
            return text
        if entry.startswith("="):
            return re.sub(r"\[\.([A-Z]\d+)(?::\.([A-Z]\d+))?\]", lambda m: m[1] + (f":{m[2]}" if m[2] else ""), entry)
        return entry

    def shown(self, page, cell):
        """The same, with a text's apostrophe only where it needs one: what an editor begins with."""
        text = self.text_of(page, cell)
        return text[1:] if text.startswith("'") and not NEEDED.match(text) else text

    def put(self, page, wanted):
        """Puts texts into cells, in one act of a page."""
        steps = []
        for cell, text in wanted:
            before = self.held.get(cell, "")
            if text is None or text == "" == before:
                continue
            after = canonical(text)
            if after is None:
                continue
            steps.append((cell, before, after))
            self.held[cell] = after
            self.typed[page].pop(cell, None)
            if text.startswith("=") and "$" in text:
                self.typed[page][cell] = (text, after)
        if steps:
            self.done[page].append(steps)
            self.undone[page].clear()

    def take_back(self, page, is_undo):
        """Undoes or redoes the last act of a page, where nobody has changed it since."""
        source, target = (self.done, self.undone) if is_undo else (self.undone, self.done)
        if not source[page]:
            return
        steps = source[page].pop()
        back = [(cell, after, before) for cell, before, after in steps if self.held.get(cell, "") == after]
        for cell, _, entry in back:
            self.held[cell] = entry
        if back:
            target[page].append(back)

    def rows(self):
        """What the server holds, row by row."""
        return [[self.held.get((column, row), "") for column in range(COLUMNS)] for row in range(ROWS)]


def steps(chance, pages, count):
    """So many steps by chance: what is done, at which page, and the seed of how it is done."""
    return [(chance.choice(KINDS), chance.randrange(pages), chance.randrange(1_000_000)) for _ in range(count)]


class Monkey:
    """Takes steps at pages and in the model at once. Each has its own seed, so that any may be left out."""

    def __init__(self, pages):
        self.chance, self.pages, self.model = random.Random(), pages, Model(len(pages))
        # what the last step was
        self.told = []

    def cell(self):
        return self.chance.randrange(COLUMNS), self.chance.randrange(ROWS)

    def area(self):
        first, second = self.cell(), self.cell()
        return [(min(a, b), max(a, b)) for a, b in zip(first, second)]

    def cells(self, area):
        return [(c, r) for r in range(area[1][0], area[1][1] + 1) for c in range(area[0][0], area[0][1] + 1)]

    def select(self, page, area):
        """Selects an area by the pointer."""
        first, last = (area[0][0], area[1][0]), (area[0][1], area[1][1])
        page.click(*middle_of(page, *first))
        if first != last:
            page.click(*middle_of(page, *last), modifiers=8)

    def settle(self):
        """Waits until all that was asked for is done, and each page knows it."""
        for page in self.pages:
            self.wait(page)
        for page in self.pages:
            page.value("(async () => { while (isLooking) await new Promise(done => setTimeout(done, 5));"
                       " await look(); })()")

    def wait(self, page):
        """Waits until a page has done what was asked for, and asks nothing."""
        asked = "document.querySelector('#asked').textContent"
        page.wait_for(f"acting && document.querySelector('#question[open]') ? {asked} : acting", 0)

    def step(self, kind, number, seed):
        """One step of one page."""
        self.chance = random.Random(seed)
        self.told = [f"page {number}", kind]
        getattr(self, kind)(number, self.pages[number])
        # a page may go on at once, but another one begins with what the sheet has
        self.settle()

    def type(self, number, page):
        cell = self.cell()
        self.select(page, [(cell[0], cell[0]), (cell[1], cell[1])])
        for _ in range(self.chance.randrange(1, 4)):
            text, end = self.chance.choice(TEXTS), self.chance.choice(ENDS)
            if self.model.held.get(cell) == "@tally":
                # (at a counter these keys count)
                text = text.lstrip("+-")
            self.told.append(f"{name_of(cell)} {text} {end}")
            page.type(text)
            page.key(end)
            if end != "Escape" and text != self.model.shown(number, cell):
                self.model.put(number, [(cell, text)])
            if end == "Escape" or canonical(text) is None:
                break
            cell = (cell[0], cell[1] + 1) if end in ("Enter", "ArrowDown") else (cell[0] + 1, cell[1])
            if cell[0] >= COLUMNS or cell[1] >= ROWS or end != "ArrowDown":
                break
        self.wait(page)
        page.wait_for("editing !== null", self.is_open(text, end))
        page.key("Escape")

    def is_open(self, text, end):
        """Whether the editor is open again, since what was typed was refused."""
        return end != "Escape" and canonical(text) is None

    def delete(self, number, page):
        area = self.area()
        self.select(page, area)
        page.key("Delete")
        self.model.put(number, [(cell, "") for cell in self.cells(area)])

    def paste(self, number, page):
        cell, (wide, high) = self.cell(), (self.chance.randrange(1, 3), self.chance.randrange(1, 3))
        self.select(page, [(cell[0], cell[0]), (cell[1], cell[1])])
        rows = [[self.chance.choice((*TEXTS, "")) for _ in range(wide)] for _ in range(high)]
        self.told.append(f"{name_of(cell)} {rows}")
        paste_text(page, "\n".join("\t".join(row) for row in rows) + "\n")
        self.model.put(number, [((cell[0] + j, cell[1] + i), text) for i, row in enumerate(rows)
                                for j, text in enumerate(row)])

    def copy(self, number, page, is_cut=False):
        area, to = self.area(), self.cell()
        self.told.append(f"{area} {to}")
        self.select(page, area)
        page.key("x" if is_cut else "c", 2)
        self.select(page, [(to[0], to[0]), (to[1], to[1])])
        page.key("v", 2)
        away = (to[0] - area[0][0], to[1] - area[1][0])
        texts = [(cell, self.model.text_of(number, cell)) for cell in self.cells(area)]
        if is_cut:
            moving = [(cell, text) for cell, text in texts if text != "@tally"]
            targets = [((c + away[0], r + away[1]), text) for (c, r), text in moving]
            covered = {cell for cell, _ in targets}
            self.model.put(number, targets + [(cell, "") for cell, _ in moving if cell not in covered])
        else:
            self.model.put(number, [((c + away[0], r + away[1]), moved(text, *away)) for (c, r), text in texts])

    def cut(self, number, page):
        self.copy(number, page, True)

    def down(self, number, page, is_right=False):
        area = self.area()
        self.told.append(f"{area}")
        self.select(page, area)
        page.key("r" if is_right else "d", 2)
        way = 0 if is_right else 1
        if area[way][0] == area[way][1]:
            area[way] = (max(0, area[way][0] - 1), area[way][1])
        wanted = []
        for cell in self.cells(area):
            source = (area[0][0], cell[1]) if is_right else (cell[0], area[1][0])
            if source != cell:
                text = self.model.text_of(number, source)
                wanted.append((cell, moved(text, cell[0] - source[0], cell[1] - source[1])))
        self.model.put(number, wanted)

    def right(self, number, page):
        self.down(number, page, True)

    def undo(self, number, page):
        page.key("z", 2)
        self.model.take_back(number, True)

    def redo(self, number, page):
        page.key("y", 2)
        self.model.take_back(number, False)
