"""Tables by chance, as parts of an input."""
import csv
import io

from sizes import COLUMNS

from . import entries
from .places import NAMES, ROWS

LITTLE = (b'"', b'""', b",", b"\r", b"\r\n", b"\n", b"\n\n", b'"\n', b',""', b"\xef\xbb\xbf", b" ", b'"x"y', b'a"b',
          b'"a""b"', b"'")


def field(chance, names, is_odd):
    """An entry over these cells or an empty one, and now and then an odd one where some are to be."""
    if chance.once_in(5):
        return b""
    return entries.odd_entry(chance, names) if is_odd and chance.once_in(6) else entries.entry(chance, names)


def fields(chance, rows, columns):
    """The entries of a table of about so many rows and columns."""
    names = [NAMES[row * COLUMNS + column] for row in range(rows) for column in range(columns)]
    is_odd = chance.once_in(4)
    for _ in range(rows):
        width = columns if chance.once_in(2) else chance.randint(0, columns)
        yield [field(chance, names, is_odd) for _ in range(width)]


def usual(chance):
    """A small table as Python's `csv` writes it."""
    text = io.StringIO(newline="")
    ends = chance.of(("\n", "\r\n", "\r"))
    writer = csv.writer(text, quoting=chance.of((csv.QUOTE_MINIMAL, csv.QUOTE_ALL)), lineterminator=ends)
    for record in fields(chance, chance.randint(1, 8), chance.randint(1, 6)):
        writer.writerow([field.decode("utf-8", "surrogateescape") for field in record])
    return text.getvalue().encode("utf-8", "surrogateescape")


def edge(chance):
    """A table about as long or as wide as one may be."""
    if chance.once_in(2):
        record = chance.of((b"1\n", b"1,2\n", b"=[.A1]\n"))
        return record * (ROWS + chance.of((-1, 0, 1))) + chance.of((b"", b"=bad\n"))
    wide = b",".join([chance.of((b"1", b"", b"=[.A1]"))] * (COLUMNS + chance.of((-1, 0, 1))))
    return b"5\n" + wide + chance.of((b"\n", b"\n=bad\n", b"\n,=bad\n"))


def table(chance):
    """The parts of a table by chance: its lines, some with bytes changed."""
    text = edge(chance) if chance.once_in(60) else usual(chance)
    if chance.once_in(3):
        for _ in range(chance.randint(1, 6)):
            place = chance.randint(0, len(text))
            text = text[:place] + chance.of(LITTLE) + text[place + chance.once_in(3):]
    elif chance.once_in(4):
        text = chance.changed(text)
    return tuple(text.splitlines(keepends=True)) if b"\r" not in text else (text,)
