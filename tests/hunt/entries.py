"""Entries by chance: formulas over a few cells, numbers, texts, and others close to what they must not be."""
from .contents import Refusal, canonical_text, read_entry

NUMERALS = (b"0", b"1", b"2", b"3", b"7", b"10", b"4294967296", b"3037000500", b"4611686018427387904",
            b"9223372036854775807")
SIGNS = (b"+", b"-", b"*", b"=", b"<>", b"<", b"<=", b">", b">=", b"+", b"-", b"*")
OF_ITEMS = (b"SUM", b"SUM", b"MIN", b"MAX", b"COUNT")
CALLS = ((b"IF", 2), (b"IF", 3), (b"IF", 3), (b"MOD", 2), (b"MOD", 2), (b"QUOTIENT", 2), (b"QUOTIENT", 2), (b"ABS", 1),
         (b"NOT", 1), (b"AND", 1), (b"AND", 2), (b"OR", 2), (b"OR", 3), (b"TRUE", 0), (b"FALSE", 0))
NUMBERS = (b"0", b"1", b"2", b"3", b"5", b"-1", b"-2", b"12", b"9223372036854775807", b"-9223372036854775808",
           b"9223372036854775808", b"-9223372036854775809", b"+7", b"-0", b"+0", b"007", b"-00012", b"0" * 500 + b"5",
           b"0" * 511 + b"1", b"0" * 512 + b"1", b"9" * 64, b"9" * 65, b"18446744073709551616")
TEXTS = (b"x", b"y", b"apples", b"a,b", b'a"b', b'"', b",", b"'5", b"''", b"'", b"'=1", b" =1", b" ", b"5 ", b" 5",
         b"1.5", b"+", b"-", b"--1", b"+-1", b"@tally ", b"@Tally", b"'@tally", b"@", b"of:", b"OF:=1", b"of=1",
         b"#CYCLE!", b"{1}", b"\xc3\xa9", b"\xe2\x82\xac", b"\xf0\x9f\x98\x80", b"\xff", b"\xed\xa0\x80", b"\xc0\x80",
         b"\0", b"a\tb", b"\x7f", b"\xc2\x80", b"x" * 63, b"x" * 64, b"x" * 65, b"'" + b"x" * 64, b"'" + b"x" * 65,
         b"\xc3\xa9" * 32, b"x" + b"\xc3\xa9" * 32, b"x" * 512, b"x" * 513, b"'" * 65, b"'" * 66, b"a\rb", b"\r",
         b"\\", b"\\u0041", b"/", b"null")
CELLS = (b"=[.A0]", b"=[.A01]", b"=[.DA1]", b"=[.CZ1024]", b"=[.A1025]", b"=[.a1]", b"=[.A1:.A0]", b"=[.AAA1]",
         b"=[.1]", b"=[.A]", b"=[.$A$1]", b"=[.$A1]+[.A$1]", b"=[.$$A1]", b"=[.A1$]", b"=[A1]", b"=A1", b"=[.A1.B1]",
         b"=[.A1:B1]", b"=[.A1 ]", b"=[ .A1]", b"=COUNT([.A1:.CZ1024])", b"=SUM([.CZ1024:.A1];1)",
         b"=COUNT([.B1:.CZ1024])")
# Formulas at the border of the grammar, on both sides of it.
BORDER = (b"=", b"of:=", b"==1", b"=+", b"=1+", b"=()", b"=SUM()", b"=SUM(;)", b"=SUM(1;)", b"=SUM(1;;2)", b"=TRUE",
          b"=TRUE(1)", b"=NOT()", b"=IF(1)", b"=IF(1;2;3;4)", b"=MOD(1)", b"=ABS(1;2)", b"=1 2", b"=1< =2", b"=1<>=2",
          b"=[.A1:.A2]", b"=SUM(([.A1:.A2]))", b"=AND([.A1:.A2])", b"=SUM([.A1:.A2]+1)", b"=FOO(1)", b"=1.5", b'="x"',
          b"=1/2", b"=2^3", b"=9223372036854775808", b"=SU M(1)", b"=1;2", b"=(1", b"=1)", b"=SUM (1)",
          b"=\tsum\t(\t1\t)\t", b"= 1 \r", b"=\xff", b"=\xc2\xa01", b"=SUM(1;[.A1:.A2];[.A1])=1", b"=MAX([.A2:.B1])",
          b"=-[.A1]", b"=+-+1", b"=1--1", b"=000")


def names_in(chance, names):
    """A cell's name of these, and now and then one with signs."""
    name = chance.of(names)
    if chance.once_in(40):
        letters = name.rstrip(b"0123456789")
        return chance.of((b"$", b"")) + letters + chance.of((b"$", b"")) + name[len(letters):]
    return name


def a_range(chance, names):
    """A range between two of these cells."""
    return b"[.%s:.%s]" % (names_in(chance, names), names_in(chance, names))


def item(chance, names, depth):
    """An argument of a function of items."""
    if chance.once_in(2):
        return a_range(chance, names)
    return operand(chance, names, depth)


def call(chance, names, depth):
    """A call of a function."""
    if chance.once_in(2):
        arguments = [item(chance, names, depth) for _ in range(chance.of((1, 1, 1, 2, 3)))]
        return b"%s(%s)" % (chance.of(OF_ITEMS), b";".join(arguments))
    name, count = chance.of(CALLS)
    return b"%s(%s)" % (name, b";".join(comparison(chance, names, depth) for _ in range(count)))


def operand(chance, names, depth):
    """An operand, with at most so many levels of calls and parentheses."""
    kind = chance.random()
    if kind < 0.5:
        return b"[.%s]" % names_in(chance, names)
    if kind < 0.75 or depth == 0:
        return chance.of(NUMERALS[:6] if chance.random() < 0.75 else NUMERALS)
    if kind < 0.8:
        return chance.of((b"-", b"+", b"--")) + operand(chance, names, depth - 1)
    if kind < 0.87:
        return b"(%s)" % comparison(chance, names, depth - 1)
    return call(chance, names, depth - 1)


def comparison(chance, names, depth):
    """Operands with operators between them."""
    parts = [operand(chance, names, depth)]
    while chance.random() < 0.35:
        parts += [chance.of(SIGNS), operand(chance, names, depth)]
    return b"".join(parts)


def formula(chance, names):
    """A formula over these cells."""
    kind = chance.random()
    if kind < 0.25:
        return b"=[.%s]" % chance.of(names)
    if kind < 0.4:
        return b"=%s(%s)" % (chance.of(OF_ITEMS), a_range(chance, names))
    return b"=" + (call(chance, names, 2) if kind < 0.6 else comparison(chance, names, 2))


def loosely(chance, text):
    """The formula with blanks, zeros and small letters that change nothing."""
    text = text.replace(b";", chance.of((b";", b" ; ", b"\t;"))).replace(b"(", chance.of((b"(", b" ( ", b"(\r ")))
    text = chance.of((text, text.replace(b"SUM", b"sUm").replace(b"IF", b"if"), text.replace(b"=", b"= 0", 1)))
    return text.replace(b"=", chance.of((b"=", b"of:=", b"= ", b"of:=  ")), 1) + chance.of((b"", b" ", b"\t \r "))


def long_formula(chance, names):
    """A formula about as long as one may be, as an entry or as a canonical text."""
    unit = chance.of((b"1+", b"-", b"(", b"[.%s]*" % chance.of(names), b"NOT(", b"IF(1;2;"))
    length = chance.of((250, 254, 255, 256, 257, 258, 262, 508, 512, 514))
    count = (length - 2) // len(unit)
    closing = b")" * count if unit.endswith((b"(", b";")) and chance.random() < 0.8 else b""
    if closing:
        count = (length - 2) // (len(unit) + 1) + chance.of((0, 0, 1))
    blanks = b" " * chance.of((0, 0, 0, 1, 2, 250, 400))
    return b"=" + blanks + unit * count + b"1" + (b")" * count if closing else b"")


def odd_entry(chance, names):
    """An entry close to the limits of what an entry may be."""
    kind = chance.random()
    if kind < 0.25:
        return chance.of(TEXTS)
    if kind < 0.4:
        return chance.of(NUMBERS)
    if kind < 0.55:
        return chance.of(BORDER if chance.once_in(2) else CELLS)
    if kind < 0.65:
        return long_formula(chance, names)
    if kind < 0.8:
        return loosely(chance, formula(chance, names))
    return chance.changed(chance.of((formula(chance, names), chance.of(TEXTS), chance.of(NUMBERS))))


def entry(chance, names):
    """An entry of a sheet that is full of formulas over these cells."""
    kind = chance.random()
    if kind < 0.5:
        return formula(chance, names)
    if kind < 0.7:
        return chance.of(NUMBERS[:8] if chance.random() < 0.8 else NUMBERS[8:10])
    if kind < 0.9:
        return chance.of((b"@tally", b"@choice"))
    return chance.of((b"", b"x", b"", b"apples", b"a,b"))


def canonical(entry):
    """The canonical text of what an entry says, as a delta has it; a number where it says nothing."""
    content = read_entry(entry)
    return b"5" if isinstance(content, Refusal) else canonical_text(content)
