"""The tokens of formulas, and their canonical texts ("Tokens")."""
import re
from typing import NamedTuple

from .functions import MOST
from .places import CELL_OF, NAMES, spanned

BLANKS = b" \t\n\r"
FUNCTIONS = ("SUM", "MIN", "MAX", "COUNT", "IF", "MOD", "QUOTIENT", "ABS", "AND", "OR", "NOT", "TRUE", "FALSE")
CORNER = rb"(\$?[A-Z]{1,2}\$?[0-9]+)"
PLACE = rb"\[\." + CORNER + rb"(?::\." + CORNER + rb")?\]"
TOKEN = re.compile(rb"[ \t\n\r]*(?:([0-9]+)|" + PLACE + rb"|([A-Za-z]+)|(<>|<=|>=|[-+*=<>();]))")


class NoFormula(Exception):
    """The text is outside the grammar."""


class Token(NamedTuple):
    """A token: its kind, its canonical text, and its rectangle where it is a reference or a range."""

    kind: str
    text: bytes
    rectangle: tuple = ()


def corner(text):
    """The cell of a corner, which may have `$` signs."""
    cell = CELL_OF.get(text.replace(b"$", b""))
    if cell is None:
        raise NoFormula
    return cell


def token_of(numeral, first, second, name, sign):
    """The token, of these just the one that was found."""
    if numeral is not None:
        if int(numeral) > MOST:
            raise NoFormula
        return Token("numeral", b"%d" % int(numeral))
    if first is not None:
        rectangle = spanned(corner(first), corner(first if second is None else second))
        one, other = (NAMES[cell] for cell in rectangle.corners())
        if second is None:
            return Token("reference", b"[.%s]" % one, rectangle)
        return Token("range", b"[.%s:.%s]" % (one, other), rectangle)
    if name is not None:
        if name.decode().upper() not in FUNCTIONS:
            raise NoFormula
        return Token("name", name.upper())
    return Token(sign.decode(), sign)


def tokens_of(text):
    """The tokens of a text, each the longest that stands there, with one at the end that no rule takes."""
    tokens, place, text = [], 0, text.rstrip(BLANKS)
    while place < len(text):
        found = TOKEN.match(text, place)
        if found is None:
            raise NoFormula
        tokens.append(token_of(*found.groups()))
        place = found.end()
    return [*tokens, Token("end", b"")]
