"""The lines of a session and their replies ("Session lines")."""
import re

from sizes import LONGEST_DELTA, LONGEST_LINE

from . import contents, deltas
from .contents import Refusal
from .deltas import REPLICAS
from .model import Sheet
from .places import CELL_OF, spanned
from .records import written_record

LARGEST_GROUP, LARGEST_NUMBER = 16, 2**64 - 1
# How lines begin that take in a delta, which is all that follows.
TAKING = (b"push ", b"merge ")
DIGEST = re.compile(rb"[0-9a-f]{16}")


class Refused(Exception):
    """The line is refused, for the reason that is its argument."""


def cell_of(word):
    """The cell that the word names."""
    if word not in CELL_OF:
        raise Refused(contents.NO_CELL)
    return CELL_OF[word]


def number_of(word, otherwise, least=0, most=LARGEST_NUMBER):
    """The number of a word of digits, in this range; `otherwise` the line is refused."""
    digits = word.lstrip(b"0") or b"0"
    # (a number of more digits has more than 64 bits)
    if not word.isdigit() or len(digits) > 20 or not least <= int(digits) <= most:
        raise Refused(otherwise)
    return int(digits)


def table_of(word, corners, text_of):
    """A reply that begins with this word and has the texts of the cells of the smallest rectangle with both corners."""
    names = corners.split(b":")
    if len(names) != 2:
        raise Refused(contents.NO_CELL)
    records = [written_record([text_of(cell) for cell in row]) for row in spanned(*map(cell_of, names)).rows()]
    return b"\n".join([b"%s %d" % (word, len(records)), *records])


class Session:
    """A session on an empty sheet: it replies to lines."""

    def __init__(self, replica=1, kind=Sheet):
        self.sheet = kind(replica)
        # whether a new delta was pushed that its replica made all of
        self.is_elsewhere = False

    def reply(self, line):
        """The reply to a line as it stands before its line feed, without the line feed at its own end; or nothing."""
        if len(line) > LONGEST_LINE:
            return contents.NO_LINE
        line = line.removesuffix(b"\r")
        if not line:
            return None
        verb, *rest = line.split(b" ", 2 if line.startswith(b"set ") else 1 if line.startswith(TAKING) else -1)
        asked, least, most = self.VERBS.get(verb, (None, 1, 0))
        if not least <= len(rest) <= most:
            return contents.NO_COMMAND
        try:
            return asked(self, *rest)
        except Refused as refused:
            return refused.args[0]

    def edited(self, refusal):
        """The reply to an edit that was refused so, or wasn't."""
        return refusal or b"ok %d" % len(self.sheet.history)

    def set(self, name, entry=b""):
        cell, content = cell_of(name), contents.read_entry(entry)
        return content if isinstance(content, Refusal) else self.edited(self.sheet.assign(cell, content))

    def add(self, name, amount):
        return self.edited(self.sheet.count(cell_of(name), number_of(amount, contents.AMOUNT), 0))

    def sub(self, name, amount):
        return self.edited(self.sheet.count(cell_of(name), 0, number_of(amount, contents.AMOUNT)))

    def choose(self, name, option):
        return self.edited(self.sheet.choose(cell_of(name), number_of(option, contents.OPTION)))

    def unchoose(self, name, option):
        return self.edited(self.sheet.unchoose(cell_of(name), number_of(option, contents.OPTION)))

    def get(self, name):
        return b"val " + contents.shown_text(self.sheet.value(cell_of(name)))

    def rows(self, corners):
        return table_of(b"rows", corners, lambda cell: contents.shown_text(self.sheet.value(cell)))

    def entry(self, name):
        return b"entry " + contents.canonical_text(self.sheet.content(cell_of(name)))

    def entries(self, corners):
        return table_of(b"entries", corners, lambda cell: contents.canonical_text(self.sheet.content(cell)))

    def taken(self, line):
        """The delta of a line that takes it in."""
        delta = deltas.read_delta(line)
        if delta is None:
            raise Refused(contents.NO_DELTA)
        self.is_elsewhere = self.is_elsewhere or not self.sheet.has_own(delta)
        return delta

    def push(self, line):
        return self.edited(self.sheet.receive(self.taken(line)))

    def merge(self, line):
        is_new = self.sheet.merge(self.taken(line))
        return b"%s %d" % (b"ok" if is_new else b"same", len(self.sheet.history))

    def pull(self, begin, most=b"1"):
        begin = number_of(begin, contents.NO_VERSION)
        most = number_of(most, contents.NO_VERSION, 1, LARGEST_GROUP)
        history = self.sheet.history
        if begin > len(history):
            return contents.NO_VERSION
        for last in range(min(begin + most, len(history)), begin, -1):
            line = deltas.delta_line(deltas.joined_deltas(history[begin:last]))
            if len(line) <= LONGEST_DELTA:
                return b"delta %d %s" % (last, line)
        # (of a history of lines the first delta always fits)
        return b"end %d" % begin if begin == len(history) else contents.TOO_LONG

    def replica(self, named=b"1"):
        if not DIGEST.fullmatch(named):
            number_of(named, contents.NO_REPLICA, 1, REPLICAS)
        return b"replica %d" % self.sheet.replica

    # what each asks for, and how many words it has at least and at most after its first one
    VERBS = {
        b"set": (set, 1, 2), b"add": (add, 2, 2), b"sub": (sub, 2, 2), b"choose": (choose, 2, 2),
        b"unchoose": (unchoose, 2, 2), b"get": (get, 1, 1), b"rows": (rows, 1, 1), b"entry": (entry, 1, 1),
        b"entries": (entries, 1, 1), b"push": (push, 1, 1), b"merge": (merge, 1, 1), b"pull": (pull, 1, 2),
        b"replica": (replica, 0, 1),
    }


def lines_of(given):
    """The lines of these bytes, without their line feeds; what remains at the end is one too."""
    *lines, rest = given.split(b"\n")
    return [*lines, rest] if rest else lines


def written(given, replica=1, kind=Sheet):
    """All that a session writes that is given these bytes, on a sheet of this kind."""
    session = Session(replica, kind)
    replies = (session.reply(line) for line in lines_of(given))
    return b"".join(reply + b"\n" for reply in replies if reply is not None)
