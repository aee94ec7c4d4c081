"""Scripts by chance: lines of a session, and each is made in the light of what the sheet is by then."""
from typing import NamedTuple

from sizes import COLUMNS

from . import contents, delta_lines, entries
from .places import CELL_OF, NAMES, ROWS
from .session import TAKING, Session

CORNERS = ((2, 1), (1, 3), (2, 2), (2, 3), (3, 3), (1, 6), (6, 1), (4, 4), (5, 6))
AMOUNTS = (b"1", b"1", b"2", b"3", b"7", b"1000000", b"999999", b"0", b"1000001", b"0007", b"-1", b"+1", b"", b"1.0",
           b"18446744073709551615", b"18446744073709551616", b"x", b"0" * 30 + b"4")
OPTIONS = (b"0", b"0", b"1", b"2", b"3", b"7", b"63", b"64", b"007", b"-1", b"", b"18446744073709551616", b"x")
VERBS = (b"set", b"add", b"sub", b"choose", b"unchoose", b"get", b"rows", b"entry", b"entries", b"push", b"merge",
         b"pull", b"replica", b"SET", b"", b"walk", b"\xff")
NO_CELLS = (b"", b"A0", b"A01", b"a1", b"A1025", b"DA1", b"AAA1", b"A", b"1", b"$A1", b"A1:B1", b"\xc3\x81", b"+A1",
            b"CZ1025")
NUMBERS = (b"0", b"1", b"00", b"01", b"16", b"17", b"x", b"", b"-1", b"18446744073709551615", b"18446744073709551616")


class Script(NamedTuple):
    """What the program is given: its words, the parts of its input, and the greatest piece that one read finds, or 0.

    The parts are lines, each with its line feed, but perhaps for the last one.
    """

    words: tuple
    parts: tuple
    piece: int = 0

    def given(self):
        """The whole input."""
        return b"".join(self.parts)

    def simpler(self):
        """Changes that make it simpler, besides leaving parts out: an option less, or no cuts."""
        for place in range(1, len(self.words), 2):
            yield {"words": self.words[:place] + self.words[place + 2:]}
        if self.piece:
            yield {"piece": 0}


def corner_names(chance):
    """The names of the few cells that a script is about, which lie in a rectangle, mostly at an end of the grid."""
    columns, rows = chance.of(CORNERS)
    left = chance.of((0, 0, 0, 0, 25, COLUMNS - columns, chance.randint(0, COLUMNS - columns)))
    top = chance.of((0, 0, 0, 0, ROWS - rows, chance.randint(0, ROWS - rows)))
    return [NAMES[row * COLUMNS + column] for row in range(top, top + rows) for column in range(left, left + columns)]


class Writer:
    """Writes a script line by line; a session of the model goes along, and a peer that edits by itself."""

    def __init__(self, chance, replica):
        self.chance = chance
        self.names = corner_names(chance)
        self.session = Session(replica)
        self.peer = Session(chance.of([it for it in (1, 2, 3, 31, 32) if it != replica]))
        # (the fewer cells the formulas mention, the fewer are in cycles)
        mentioned = self.names[0 if chance.once_in(4) else chance.randrange(len(self.names)):]
        self.pool = [entries.entry(chance, mentioned) for _ in range(chance.randint(3, 24))]
        self.texts = [entries.canonical(entry) for entry in self.pool]
        self.pushed = []
        self.lines = []

    def write(self, line):
        """Ends the script with a line, which may change the sheet."""
        self.ask(line)
        self.session.reply(line)

    def ask(self, line):
        """Ends the script with a line that changes nothing."""
        self.lines.append(line)

    # -- Edits, as words

    def name(self):
        """The name of a cell of the script, or of any other now and then."""
        if self.chance.random() < 0.01:
            return self.chance.of((*NO_CELLS, b"A1", b"CZ1024"))
        return self.chance.of(self.names)

    def names_of(self, content, sheet):
        """The names of the cells that have this content on the sheet."""
        return [name for name in self.names if sheet.content(CELL_OF[name]) == content]

    def assignment(self, _):
        """Gives a cell one of the entries of the script, or another."""
        chance = self.chance
        if chance.random() < 0.8:
            return b"set %s %s" % (self.name(), chance.of(self.pool))
        make = entries.entry if chance.once_in(2) else entries.odd_entry
        words = chance.of((b"set %s %s",) * 20 + (b"set  %s %s", b"set %s  %s"))
        return words % (self.name(), make(chance, self.names))

    def counting(self, sheet):
        """Adds or subtracts, mostly where there is a tally; or makes one."""
        names = self.names_of(contents.TALLY, sheet)
        if not names and self.chance.random() < 0.7:
            return b"set %s @tally" % self.name()
        amount = self.chance.of(AMOUNTS[:7] if self.chance.random() < 0.9 else AMOUNTS)
        return b"%s %s %s" % (self.chance.of((b"add", b"sub")), self.chance.of([*names, *names, self.name()]), amount)

    def choosing(self, sheet):
        """Puts an option in, or takes one out, mostly where there is a choice; or makes one."""
        names = self.names_of(contents.CHOICE, sheet)
        if not names and self.chance.random() < 0.7:
            return b"set %s @choice" % self.name()
        option = self.chance.of(OPTIONS[:7] if self.chance.random() < 0.9 else OPTIONS)
        verb = self.chance.of((b"choose", b"choose", b"unchoose"))
        return b"%s %s %s" % (verb, self.chance.of([*names, *names, self.name()]), option)

    # -- Lines

    def edit(self):
        self.write(self.assignment(self.session.sheet))

    def count(self):
        self.write(self.counting(self.session.sheet))

    def choose(self):
        self.write(self.choosing(self.session.sheet))

    def get(self):
        """Asks what a cell shows, or what it holds."""
        self.ask(self.chance.of((b"get ", b"get ", b"get ", b"entry ")) + self.name())

    def rows(self):
        """Asks the same of the whole corner, or of a part of it."""
        one, other = (self.names[0], self.names[-1]) if self.chance.once_in(2) else (self.name(), self.name())
        self.ask(b"%s %s:%s" % (self.chance.of((b"rows", b"rows", b"entries")), one, other))

    def replica(self):
        """Asks for the own replica, and mostly names one beside it."""
        self.ask(b"replica" + self.chance.of((b"", b" 1", b" 2", b" 32", b" " + self.chance.of(NUMBERS))))

    def pull(self):
        """Asks for deltas, mostly some that are there."""
        chance, version = self.chance, len(self.session.sheet.history)
        begin = b"%d" % chance.randint(max(0, version - chance.of((1, 3, 17, version))), version + chance.once_in(9))
        most = b" %d" % chance.randint(1, 16) if chance.random() < 0.7 else b""
        if chance.random() < 0.05:
            begin, most = chance.of(NUMBERS), b" " + chance.of(NUMBERS)
        self.ask(b"pull " + begin + most)

    def push(self, line):
        """Pushes or merges this line, which may come again."""
        self.pushed.append(line)
        self.take(line)

    def take(self, line):
        """Pushes or merges this line."""
        self.write(self.chance.of(TAKING) + line)

    def hostile(self):
        """Pushes or merges a delta that nobody made."""
        texts = self.texts
        if self.chance.once_in(10):
            texts = [entries.canonical(entries.odd_entry(self.chance, self.names))]
        self.push(delta_lines.hostile(self.chance, self.names, texts, self.session.sheet))

    def again(self):
        """Pushes or merges a line again that came before, or what was handed out."""
        if self.pushed and self.chance.random() < 0.8:
            self.take(self.chance.of(self.pushed))
        else:
            self.hand_over(self.session, self.take)

    def meet(self):
        """The peer edits, and hands over some of what it has; now and then it takes in what was done here."""
        for _ in range(self.chance.of((1, 1, 2, 4))):
            make = self.chance.of((self.assignment, self.assignment, self.counting, self.choosing))
            self.peer.reply(make(self.peer.sheet))
        self.hand_over(self.peer, self.push)
        if self.chance.once_in(3):
            self.hand_over(self.session, lambda line: self.peer.reply(self.chance.of(TAKING) + line))

    def hand_over(self, session, take):
        """Has `take` the line of some of the deltas of this session, mostly the last ones."""
        version = len(session.sheet.history)
        begin = max(0, version - self.chance.of((1, 1, 2, 2, 4, 16)))
        reply = session.reply(b"pull %d %d" % (begin, self.chance.randint(1, 16)))
        if reply.startswith(b"delta "):
            take(reply.split(b" ", 2)[2])

    def broken(self):
        """A line with something wrong in its words."""
        chance = self.chance
        words = [chance.of(VERBS), self.name(), chance.of((*AMOUNTS, *OPTIONS, *NUMBERS, *self.names))]
        line = b" ".join(words[:chance.of((1, 2, 3, 3))])
        if self.lines and chance.once_in(2):
            line = chance.of(self.lines)[:400]
        self.write(chance.changed(line).replace(b"\n", b""))

    def ending(self):
        """A line that is empty, or has carriage returns at its end."""
        self.write(self.chance.of((b"", b"\r", b"\r\r", b" ", b"get %s\r" % self.name(), b"get %s\r\r" % self.name(),
                                   b"set %s =1\r\r" % self.name(), b"set %s x\r" % self.name())))

    def close(self):
        """Asks for all that the corner shows, and for the last deltas as one line."""
        version = len(self.session.sheet.history)
        self.ask(b"rows %s:%s" % (self.names[0], self.names[-1]))
        self.ask(b"pull %d 16" % max(0, version - 16))
