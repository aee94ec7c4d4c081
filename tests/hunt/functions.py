"""What operators and functions give ("What operators and functions give").

What a part of a formula is worth is a function of a sheet, which it asks what a cell shows (`value`) and which cells
of a rectangle may hold anything (`cells`). A number is an `int`, and a fault its text.
"""
import functools

LEAST, MOST = -(2**63), 2**63 - 1
DIVIDED, RANGE, WRONG, CYCLE = "#DIV/0!", "#NUM!", "#VALUE!", "#CYCLE!"


def exact(number):
    """The number, or the fault of one out of range."""
    return number if LEAST <= number <= MOST else RANGE


def is_fault(value):
    """Whether the value is a fault."""
    return type(value) is str


def single(shown):
    """What a cell that shows this is worth where one number is wanted."""
    if type(shown) is int or is_fault(shown):
        return shown
    if shown is None:
        return 0
    return len(shown) if type(shown) is tuple else WRONG


def remainder(a, b):
    """MOD."""
    return a % b if b else DIVIDED


def quotient(a, b):
    """QUOTIENT, cut towards zero."""
    if not b:
        return DIVIDED
    return exact(abs(a) // abs(b) * (1 if (a < 0) == (b < 0) else -1))


BOTH = {
    "+": lambda a, b: exact(a + b), "-": lambda a, b: exact(a - b), "*": lambda a, b: exact(a * b),
    "=": lambda a, b: int(a == b), "<>": lambda a, b: int(a != b), "<": lambda a, b: int(a < b),
    "<=": lambda a, b: int(a <= b), ">": lambda a, b: int(a > b), ">=": lambda a, b: int(a >= b),
    "MOD": remainder, "QUOTIENT": quotient,
}
ONE = {"+": lambda a: a, "-": lambda a: exact(-a), "ABS": lambda a: exact(abs(a)), "NOT": lambda a: int(a == 0)}


def of_one(work, operand):
    """What `work` gives of a number, or the fault of the operand."""
    def value(sheet):
        a = operand(sheet)
        return a if is_fault(a) else work(a)
    return value


def of_both(work, left, right):
    """What `work` gives of two numbers, or the fault of the first faulty operand."""
    def value(sheet):
        a = left(sheet)
        if is_fault(a):
            return a
        b = right(sheet)
        return b if is_fault(b) else work(a, b)
    return value


def chosen(condition, then, other=lambda sheet: 0):
    """IF: the fault of the condition, else the value of the chosen branch alone."""
    def value(sheet):
        test = condition(sheet)
        if is_fault(test):
            return test
        return then(sheet) if test else other(sheet)
    return value


def of_all(test, *operands):
    """AND and OR: the first fault of any, else whether `test` holds of those that aren't 0."""
    def value(sheet):
        found = [operand(sheet) for operand in operands]
        return next(filter(is_fault, found), int(test(number != 0 for number in found if not is_fault(number))))
    return value


def items_of(rectangle):
    """The items of a range, row by row: empty cells and texts are none, and a choice is how many options it has."""
    def items(sheet):
        shown = (sheet.value(cell) for cell in sheet.cells(rectangle))
        return [single(it) for it in shown if it is not None and type(it) is not bytes]
    return items


def of_items(work, *arguments):
    """SUM, MIN and MAX: the first fault among the items, else what `work` gives of them, and 0 without any."""
    def value(sheet):
        found = [item for items in arguments for item in items(sheet)]
        return next(filter(is_fault, found), None) or (work(found) if found else 0)
    return value


def counted(*arguments):
    """COUNT: how many items are numbers."""
    return lambda sheet: sum(not is_fault(item) for items in arguments for item in items(sheet))


CALLS = {
    "SUM": lambda *items: of_items(lambda found: exact(sum(found)), *items),
    "MIN": lambda *items: of_items(min, *items), "MAX": lambda *items: of_items(max, *items), "COUNT": counted,
    "AND": lambda *operands: of_all(all, *operands), "OR": lambda *operands: of_all(any, *operands), "IF": chosen,
    "TRUE": lambda: lambda sheet: 1, "FALSE": lambda: lambda sheet: 0,
    **{name: functools.partial(of_both, BOTH[name]) for name in ("MOD", "QUOTIENT")},
    **{name: functools.partial(of_one, ONE[name]) for name in ("ABS", "NOT")},
}
OF_ITEMS = ("SUM", "MIN", "MAX", "COUNT")
