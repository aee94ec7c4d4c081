"""Formulas: their grammar, their canonical texts, and what they are worth ("Formulas")."""
import functools
import sys
from typing import Callable, NamedTuple

from .functions import BOTH, CALLS, OF_ITEMS, ONE, items_of, of_both, of_one, single
from .tokens import NoFormula, tokens_of

# A parenthesis takes six calls, a formula 512 bytes, and a chain of references as many formulas as a script has.
sys.setrecursionlimit(20_000)

# The least and the most arguments.
ANY = 512
ARGUMENTS = {
    "SUM": (1, ANY), "MIN": (1, ANY), "MAX": (1, ANY), "COUNT": (1, ANY), "AND": (1, ANY), "OR": (1, ANY),
    "IF": (2, 3), "MOD": (2, 2), "QUOTIENT": (2, 2), "ABS": (1, 1), "NOT": (1, 1), "TRUE": (0, 0), "FALSE": (0, 0),
}


class Formula(NamedTuple):
    """A formula: its canonical text, the rectangles that it refers to, and what it is worth on a sheet."""

    text: bytes
    rectangles: tuple
    value: Callable


class Reader:
    """Reads tokens by the rules of the grammar; each method is a rule, and returns what its part is worth."""

    def __init__(self, tokens):
        self.tokens = tokens
        self.place = 0

    def kind(self, ahead=0):
        """The kind of a token that wasn't taken yet."""
        return self.tokens[self.place + ahead].kind

    def take(self, kind):
        """Takes a token of this kind."""
        token = self.tokens[self.place]
        if token.kind != kind:
            raise NoFormula
        self.place += 1
        return token

    def level(self, operators, operand):
        """Operands of a rule with these operators between them, grouped from the left."""
        found = operand()
        while self.kind() in operators:
            found = of_both(BOTH[self.take(self.kind()).kind], found, operand())
        return found

    def comparison(self):
        return self.level(("=", "<>", "<", "<=", ">", ">="), self.sum)

    def sum(self):
        return self.level(("+", "-"), self.product)

    def product(self):
        return self.level(("*",), self.prefixed)

    def prefixed(self):
        if self.kind() in ("+", "-"):
            return of_one(ONE[self.take(self.kind()).kind], self.prefixed())
        return self.operand()

    def operand(self):
        if self.kind() == "numeral":
            number = int(self.take("numeral").text)
            return lambda sheet: number
        if self.kind() == "reference":
            cell = self.take("reference").rectangle.corners()[0]
            return lambda sheet: single(sheet.value(cell))
        if self.kind() == "name":
            return self.call()
        self.take("(")
        found = self.comparison()
        self.take(")")
        return found

    def call(self):
        name = self.take("name").text.decode()
        argument = self.item if name in OF_ITEMS else self.comparison
        arguments = []
        self.take("(")
        if self.kind() != ")":
            arguments.append(argument())
            while self.kind() == ";":
                self.take(";")
                arguments.append(argument())
        self.take(")")
        least, most = ARGUMENTS[name]
        if not least <= len(arguments) <= most:
            raise NoFormula
        return CALLS[name](*arguments)

    def item(self):
        """An argument of a function of items: a range, a reference that stands alone, or a value."""
        if self.kind() == "range" or self.kind() == "reference" and self.kind(1) in (";", ")"):
            return items_of(self.take(self.kind()).rectangle)
        found = self.comparison()
        return lambda sheet: [found(sheet)]


@functools.lru_cache(maxsize=1 << 16)
def read_formula(text):
    """The formula with this text, which begins with `=` or `of:=`, or nothing."""
    try:
        tokens = tokens_of(text[text.index(b"=") + 1:])
        reader = Reader(tokens)
        value = reader.comparison()
        reader.take("end")
    except NoFormula:
        return None
    rectangles = dict.fromkeys(token.rectangle for token in tokens if token.rectangle)
    return Formula(b"=" + b"".join(token.text for token in tokens), tuple(rectangles), value)
