"""Makes a script and a style short: without comments and needless blanks and signs, and with short local names.

A name is replaced by the same short one everywhere. So no scope has to be known, and nothing is shadowed that wasn't
before. What is declared outside of functions keeps its name, so that a browser's console can be read, except for a few
words that stand often.
"""
import collections
import itertools
import re
import string

# The parts of a script: comments and blanks, texts, slashes, words and signs; and a pattern, which begins with a slash.
TEXT = r"""'(?:[^'\\]|\\.)*'|"(?:[^"\\]|\\.)*\""""
FILLED = r"\$\{(?:'[^']*'|[^{}`']|`[^`]*`|\{[^{}]*\})*\}"
TEMPLATE = rf"`(?:[^`\\$]|\\.|\$(?!\{{)|{FILLED})*`"
GAP = r"(?://[^\n]*|/\*.*?\*/|\s)+"
PARTS = re.compile(rf"(?P<gap>{GAP})|{TEXT}|(?P<template>{TEMPLATE})|(?P<slash>/)|[\w$]+|.", re.DOTALL)
PATTERN = re.compile(r"/(?:[^/\\\[\n]|\\.|\[(?:[^\]\\]|\\.)*\])+/[a-z]*")
# What stands before a pattern, and not before a division.
BEFORE_PATTERN = re.compile(r"[(,=:\[!&|?{};+\-*<>]$|^return$")
WORD = re.compile(r"[A-Za-z_$][\w$]*$")
# So many parts stand in a line at least, so that lines don't get too long.
LINE_PARTS = 240
# Properties of the page's own objects that get short names, too. If the scripts use a property of that name of a
# browser's object, it is lost; a call of one is found.
OWN_PROPERTIES = {"after", "area", "before", "cell", "column", "entry", "from", "isFull", "isHeard", "isNew", "isSeen",
                  "isUp", "kind", "names", "source", "steps", "text", "why"}
# Words that are declared outside of functions, and stand so often that they get short names.
OFTEN = {"COLUMNS", "HEIGHT", "NO_LINK", "afterMove", "areaAround", "askMove", "begunWith", "boxOf", "cellAt",
         "cellsOf", "claim", "columnAt", "columnName", "commit", "copiedArea", "cutArea", "drag", "drawButtons",
         "drawOptions", "drawTitle", "editorKey", "focusAgain", "focusGrid", "fromEntry", "givenTitle", "heldUp",
         "hideOptions", "isAtGrid", "isControl", "isCounter", "isDue", "isEmpty", "isInGrid", "isMoving",
         "isSame", "isTyped", "isUnderstood", "isWhole", "isWithin", "knownCount", "lastAnswer", "layOutAgain",
         "lefts", "moveLate", "nameLists", "namesFor", "needsApostrophe", "numeralHabit", "outcome",
         "passedOver", "pickedCell", "pixels", "placeEditor", "putMany", "readArea", "readBoth", "readOptions",
         "readRange", "rowElements", "rowsOf", "seenSelected", "sendWaiting", "servedTitle", "setWidth",
         "several", "stopEditing", "takesLines", "tellChange", "tellLink", "textIn", "textOf", "wasHeard"}
# Words of one or two letters that are no names.
RESERVED = {"do", "if", "in", "of"}


def parts_of(script):
    """The parts of a script, with a blank for comments and blanks; a text with `${..}` in it is several parts."""
    at, last = 0, ""
    while at < len(script):
        found = PARTS.match(script, at)
        if found["slash"] and BEFORE_PATTERN.search(last):
            found = PATTERN.match(script, at)
        at, begin, kinds = found.end(), 0, found.groupdict()
        if kinds.get("gap"):
            yield " "
            continue
        last = found[0]
        for filled in re.finditer(FILLED, last) if kinds.get("template") else ():
            yield last[begin:filled.start() + 2]
            yield from parts_of(filled[0][2:-1])
            begin = filled.end() - 1
        yield last[begin:]


def opens(part):
    """Whether a bracket opens at the end of this part."""
    return part[-1] in "([{" and part[0] not in "'\"/"


def closes(part):
    """Whether a bracket closes at the beginning of this part."""
    return part[0] in ")]}"


def pairs_of(parts):
    """The place where each opened bracket closes, and the other way round."""
    pairs, opened = {}, []
    for place, part in enumerate(parts):
        if closes(part):
            pairs[place] = opened.pop()
            pairs[pairs[place]] = place
        if opens(part):
            opened.append(place)
    return pairs


class Names:
    """The words of a script: which of them are local names, and where they are declared."""

    def __init__(self, parts):
        self.parts = [";", *parts, ";"]
        self.pairs = pairs_of(self.parts)
        # the words that each statement outside of functions declares inside of them, and those it declares itself
        self.local, self.outer = collections.defaultdict(set), set()
        # the words that are properties, and those that are no local name in a statement
        self.properties, self.foreign = set(), set()
        self.counts = collections.Counter(part for part in parts if WORD.match(part))
        self.read()

    def read(self):
        """Takes in all parts, and then each word by what its statement declares."""
        words, opened, statement = [], [], 0
        for at, part in enumerate(self.parts):
            if closes(part):
                opened.pop()
            self.take_declared(at, self.local[statement] if opened else self.outer, self.local[statement])
            if WORD.match(part):
                words.append((statement, part, self.is_property(at, opened)))
            if opens(part):
                opened.append(part[-1])
            if not opened and part in ";}":
                statement += 1
        for statement, word, is_property in words:
            if is_property:
                self.properties.add(word)
            elif word not in self.local[statement]:
                self.foreign.add(word)

    def take_declared(self, at, around, inside):
        """Adds the words that are declared at a place to those of its scope, and parameters to those inside of it."""
        part = self.parts[at]
        if part in ("const", "let"):
            around |= self.variables(at + 1)
        elif part == "function":
            around.add(self.parts[at + 1])
            inside |= self.declared(at + 2)
        elif self.parts[at:at + 2] == ["catch", "("]:
            inside |= self.declared(at + 1)
        elif self.parts[at:at + 2] == ["=", ">"]:
            inside |= self.declared(self.pairs[at - 1]) if self.parts[at - 1] == ")" else {self.parts[at - 1]}

    def declared(self, at):
        """The words that a name, a pattern or a list of parameters at a place declares."""
        within = range(at + 1, self.pairs.get(at, at)) if opens(self.parts[at]) else ()
        words = {self.parts[i] for i in within if WORD.match(self.parts[i]) and self.parts[i - 1] in "([{,."}
        return words if within else {self.parts[at]}

    def variables(self, at):
        """The words that a list of variables declares, which begins at a place."""
        words = self.declared(at)
        while self.parts[at] not in (";", "of") and not closes(self.parts[at]):
            if self.parts[at] == ",":
                words |= self.declared(at + 1)
            at = self.pairs[at] + 1 if opens(self.parts[at]) else at + 1
        return words

    def is_property(self, at, opened):
        """Whether the word at a place is the name of a property, or may be one."""
        before, word, after = self.parts[at - 1:at + 2]
        if before == "." and after == "(" and word in OWN_PROPERTIES:
            raise SystemExit(f"{word} is called, so it is no property of the page's own")
        is_key = after == ":" or opened[-1:] == ["{"] and after in ",}"
        return before == "." and self.parts[at - 2] != "." or before in "{," and is_key

    def short(self):
        """The short name of each word that gets one: what is used most has the shortest."""
        due = set().union(OWN_PROPERTIES, *self.local.values()) - self.outer - self.foreign
        due -= self.properties - OWN_PROPERTIES
        due |= self.outer & OFTEN
        order = sorted(due, key=lambda word: (-self.counts[word] * len(word), word))
        pairs = zip(order, short_names({*self.counts, *RESERVED}))
        return {word: name for word, name in pairs if len(name) < len(word)}


def short_names(taken):
    """Words that aren't taken, the shortest first."""
    letters = string.ascii_letters
    words = itertools.chain(letters, map("".join, itertools.product(letters, letters + string.digits)))
    return (word for word in words if word not in taken)


def needs_gap(first, second):
    """Whether two parts would be another one without a blank between them."""
    return bool(re.match(r"[\w$][\w$]|\+\+|--", first[-1] + second[0]))


class Line:
    """The text of a script, as it grows part by part."""

    def __init__(self):
        self.out, self.start = [""], 0
        # whether the statement that is under way declares variables, for each bracket that is open
        self.declares = [False]

    def add(self, part, is_after_gap):
        """Adds a part, and what has to stand between it and the one before."""
        last, is_let = self.out[-1], part == "let"
        if closes(part):
            self.declares.pop()
            if last == "," or last + part[0] == ";}":
                self.out.pop()
        elif last == ";" and is_let and self.declares[-1]:
            self.out[-1] = ","
            return
        elif is_let or last in ";{}":
            self.declares[-1] = is_let
        if is_after_gap and last and needs_gap(last, part):
            self.out.append(" ")
        elif is_after_gap and len(self.out) - self.start > LINE_PARTS and last in "{},;" and not closes(part):
            self.out.append("\n")
            self.start = len(self.out)
        self.out.append(part)
        if opens(part):
            self.declares.append(False)


def short_script(script):
    """A script that does the same, and is short."""
    parts = list(parts_of(script))
    names = {**Names([part for part in parts if part != " "]).short(), "const": "let", "true": "!0", "false": "!1"}
    line, is_gap = Line(), False
    for part in parts:
        if part != " ":
            line.add(names.get(part, part), is_gap)
        is_gap = part == " "
    return "".join(line.out)


def short_style(style):
    """A style that looks the same, and is short: its variables have short names, too."""
    style = re.sub(r"\s*([{};:,>])\s*", r"\1", re.sub(r"\s+", " ", style)).replace(";}", "}")
    style = re.sub(r"(.{200}[^}]*\})", r"\1\n", style)
    counts = collections.Counter(re.findall(r"--[\w-]+", style))
    names = {word: "--" + name for (word, _), name in zip(counts.most_common(), short_names(()))}
    return re.sub(r"--[\w-]+", lambda found: names[found[0]], style)


def short_page(page):
    """A page that says the same, without quotes and ends of elements that HTML doesn't need."""
    page = re.sub(r"</(dd|dt)>|</p>(?=\s*<(/|p|d|h2|footer))", "", page)
    page = re.sub(r">\n<(?=/?(d[dlti]|h2|main|output|p|section))", "><", page)
    return re.sub(r'="([\w-]+)"', r"=\1", page)
