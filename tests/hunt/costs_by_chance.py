"""Dear lines by chance: plans whose change lines cost much for their length, and small changes of such plans.

A plan has groups of cells, each a word, the rectangle of its cells, and what they hold. `line` begins a change line,
and `edit` is an edit after all lines. Each number has a sense: past the last column or row the first one follows.
"""
from sizes import COLUMNS, LONGEST_DELTA

from .functions import LEAST, MOST
from .places import NAMES, ROWS
from .plans import Plan

# The longest canonical formula, and the last sequence, replica and option of a pair.
LONGEST_FORMULA, SEQUENCES, REPLICAS, OPTIONS = 256, 256, 32, 64
FUNCTIONS = (b"SUM", b"MIN", b"MAX", b"COUNT")
SIGNS = (b"+", b"*", b"=", b"-")
OPENINGS = (b"(", b"-", b"NOT(", b"IF(1;", b"MOD(1;", b"SUM(")
VERBS = (b"push", b"merge")
ENTRIES = (b"1", b"2", b"x", b"", b"@tally", b"=MOD(1;0)", b"=[.A1]", b"=[.A80]",
           b"=SUM([.A1:.CZ1024])")
CHOICES = (FUNCTIONS, SIGNS, OPENINGS, VERBS, ENTRIES)
# Numbers at an edge: of the grid, of the rows that sums remember together, of what a cell or a formula has room for.
EDGES = (0, 1, 2, 16, 17, 56, 57, 58, 103, 104, 113, 256, 512, 900, 1022, 1023, 1024, 8_192, 26_000)
# How many change lines, edits and parts a plan has at most, and how many pairs a line has room for.
MOST_LINES, MOST_EDITS, MOST_PARTS, MOST_PAIRS = 2, 3, 12, 20_000


# -- What cells hold

def place(is_relative, column, row, cell):
    """The column and row of a place, which counts from the cell where it is relative to it."""
    own_row, own_column = divmod(cell, COLUMNS)
    return (column + is_relative * own_column) % COLUMNS, (row + is_relative * own_row) % ROWS


def named(column, row):
    """The name of a cell."""
    return NAMES[row * COLUMNS + column]


def spelled_range(one, other):
    """The range between two corners, as a canonical formula has it."""
    (left, right), (top, bottom) = (sorted(both) for both in zip(one, other))
    return b"[.%s:.%s]" % (named(left, top), named(right, bottom))


def as_many(opening, texts, between, closing):
    """A formula of as many of these texts as one has room for."""
    found = opening + next(texts)
    for text in texts:
        longer = found + between + text
        if len(longer) + len(closing) > LONGEST_FORMULA:
            break
        found = longer
    return found + closing


def ranges(cell, function, count, step, *corners):
    """A function of some ranges, each of them so many rows below the one before."""
    spelled = (spelled_range(place(corners[0], corners[1], corners[2] + number * step, cell),
                             place(corners[3], corners[4], corners[5] + number * step, cell))
               for number in range(max(1, count)))
    return as_many(b"=%s(" % function, spelled, b";", b")")


def refers(cell, sign, count, step, *at):
    """Some references, each of them so many rows below the one before."""
    spelled = (b"[.%s]" % named(*place(at[0], at[1], at[2] + number * step, cell)) for number in range(max(1, count)))
    return as_many(b"=", spelled, sign, b"")


def deep(cell, opening, depth, *at):
    """A reference below so many calls, parentheses or signs."""
    closing = b")" if opening.endswith((b"(", b";")) else b""
    room = (LONGEST_FORMULA - len(b"=[.CZ1024]")) // len(opening + closing)
    depth = min(depth, room)
    return b"=" + opening * depth + b"[.%s]" % named(*place(*at, cell)) + closing * depth


def number(cell, value, step):
    """A number, so much greater with each cell; past the greatest one the least one follows."""
    return b"%d" % (LEAST + (value + cell * step - LEAST) % (MOST - LEAST + 1))


def text(_, length):
    """A text of this length, or about as long as one may be."""
    return b"'" + b"x" * (1 + length % 64)


def counters(time, count):
    """What a counter of so many replicas holds."""
    counts = b",".join(b"[%d,1,2]" % replica for replica in range(1, 1 + max(0, min(count, REPLICAS))))
    return b'[%d,2,"@tally"],[%s],[]' % (time, counts)


def pairs(time, count, gone):
    """What a set of so many pairs holds, as many of them with a replica and an option as there are sequences."""
    found = []
    for number in range(min(count, MOST_PAIRS)):
        option, rest = divmod(number, REPLICAS * SEQUENCES)
        found.append(b"[%d,%d,%d,%d]" % (option, rest // SEQUENCES + 1, rest % SEQUENCES + 1, gone % 2))
    return b'[%d,2,"@choice"],[],[%s]' % (time, b",".join(found))


CONTENTS = {"ranges": ranges, "refers": refers, "deep": deep, "number": number, "text": text}
MERGED = {"counters": counters, "pairs": pairs}


def held(cell, group, time):
    """What a line has of a cell of the group, whose register has this time."""
    word, _, _, _, _, *numbers = group
    if word in MERGED:
        return MERGED[word](time, *numbers)
    return b'[%d,2,"%s"],[],[]' % (time, CONTENTS[word](cell, *numbers))


# -- Lines

def cells_of(group):
    """The cells of a group, up to the edges of the grid."""
    _, left, top, columns, rows, *_ = group
    left, top = left % COLUMNS, top % ROWS
    right, bottom = min(COLUMNS, left + max(1, columns)), min(ROWS, top + max(1, rows))
    return [row * COLUMNS + column for row in range(top, bottom) for column in range(left, right)]


def line_of(verb, groups, time):
    """A change line of the groups' cells, as many as it has room for; where two groups meet, the later one decides."""
    group_of = {cell: group for group in groups for cell in cells_of(group)}
    found, length = [], 1
    for cell in sorted(group_of):
        found.append(b'["%s",%s]' % (NAMES[cell], held(cell, group_of[cell], time)))
        length += len(found[-1]) + 1
        if length > LONGEST_DELTA:
            found.pop()
            break
    return b"%s [%s]" % (verb, b",".join(found))


def lines_of(plan):
    """The change lines of a plan, and then its edits."""
    begun, edits = [[b"push"]], []
    for part in plan.parts:
        if part[0] == "line":
            begun.append([part[1]])
        elif part[0] == "edit":
            edits.append(b"set %s %s" % (named(part[1] % COLUMNS, part[2] % ROWS), part[3]))
        else:
            begun[-1].append(part)
    filled = [it for it in begun if len(it) > 1][:MOST_LINES]
    return [line_of(verb, groups, time) for time, (verb, *groups) in enumerate(filled, 1)] + edits[:MOST_EDITS]


# -- Plans

WHOLE = (0, 0, COLUMNS, ROWS)
TO_A1 = ("edit", 0, 0, b"2")
# Plans that are dear for a reason: what others are made of by small changes.
SHAPES = (
    # sums of the whole sheet, which hold themselves
    (("ranges", *WHOLE, b"SUM", 1, 0, 0, 0, 0, 0, -1, -1), TO_A1),
    # .. and are all replaced by such sums
    (("ranges", *WHOLE, b"SUM", 1, 0, 0, 0, 0, 0, -1, -1), ("line", b"push"),
     ("ranges", *WHOLE, b"SUM", 1, 0, 0, 0, 0, 0, -1, -1), TO_A1),
    # numbers, and formulas that each sum all of them as often as one has room for
    (("number", *WHOLE, 1, 1), ("line", b"push"), ("ranges", 0, 900, COLUMNS, 124, b"SUM", 17, 1, 0, 0, 0, 0, -1, 880),
     TO_A1),
    # a fault amid the cells that all count
    (("deep", 0, 10, 1, 1, b"MOD(1;", 1, 0, 0, 1000),
     ("ranges", 0, 900, COLUMNS, 124, b"COUNT", 17, 1, 0, 0, 0, 0, -1, 880), TO_A1),
    # running totals of all above: each changes the next
    (("number", 0, 0, COLUMNS, 1, 1, 0), ("ranges", 0, 1, COLUMNS, ROWS, b"SUM", 1, 0, 0, 0, 0, 1, 0, -1), TO_A1),
    # a chain, which a line closes to a cycle
    (("refers", 0, 1, COLUMNS, ROWS, b"+", 1, 0, 1, 0, -1), TO_A1, ("edit", 0, 0, b"=[.A80]")),
    # many references of each to few cells, and few to many
    (("refers", 0, 1, COLUMNS, ROWS, b"+", 25, 1, 0, 0, 0), TO_A1),
    (("deep", 0, 1, COLUMNS, ROWS, b"(", 120, 0, 0, 0), TO_A1, ("edit", 0, 0, b"=MOD(1;0)")),
    (("pairs", 0, 0, 1, 1, 26_000, 0), ("line", b"merge"), ("pairs", 0, 0, 1, 1, 26_000, 1), TO_A1),
    (("line", b"merge"), ("counters", *WHOLE, 32), ("line", b"merge"), ("text", *WHOLE, 63), TO_A1),
)


def corner(chance):
    """A corner of ranges, or a place that is referred to: fixed, or relative to the cell."""
    if chance.once_in(2):
        return 0, chance.of((0, 0, 1, COLUMNS - 1)), chance.of((0, 0, 1, 57, ROWS - 1, chance.randrange(ROWS)))
    return 1, chance.of((-1, 0, 0, 1)), chance.of((-1, -1, 0, 1, 57))


def many(chance):
    """How many ranges or references there are, and how many rows one is below the one before."""
    return chance.of((1, 1, 2, 17, 25)), chance.of((0, 1))


# What groups have besides their cells.
MAKES = {
    "ranges": lambda chance: (chance.of(FUNCTIONS), *many(chance), *corner(chance), *corner(chance)),
    "refers": lambda chance: (chance.of(SIGNS), *many(chance), *corner(chance)),
    "deep": lambda chance: (chance.of(OPENINGS), chance.of((1, 40, 120)), *corner(chance)),
    "number": lambda chance: (chance.of((0, 1, 2**62)), chance.of((0, 1))),
    "text": lambda chance: (chance.of((0, 63)),),
    "counters": lambda chance: (chance.of((1, 32)),),
    "pairs": lambda chance: (chance.of((1, 64, 2_000, 26_000)), chance.of((0, 1))),
}


def any_part(chance):
    """A part of a plan: mostly a group of cells."""
    if chance.once_in(5):
        column, row = chance.of((0, chance.randrange(COLUMNS))), chance.of((0, chance.randrange(ROWS)))
        return "edit", column, row, chance.of(ENTRIES)
    if chance.once_in(6):
        return "line", chance.of(VERBS)
    word = chance.of([*MAKES])
    columns, rows = chance.of(((COLUMNS, ROWS), (COLUMNS, ROWS), (1, ROWS), (COLUMNS, 1), (1, 1), (10, 57)))
    return (word, chance.of((0, 0, 0, 1, 50)), chance.of((0, 0, 1, 57, 900)), columns, rows, *MAKES[word](chance))


def other_number(chance, number):
    """A number instead of this one."""
    near = number + chance.of((1, -1, 10, -10)), number * 2, number // 2, -number
    return chance.of((*near, chance.of(EDGES)))


def tweak(chance, parts):
    """Changes one number or word of one part."""
    at = chance.randrange(len(parts))
    word, *rest = parts[at]
    place = chance.randrange(len(rest))
    if isinstance(rest[place], bytes):
        rest[place] = chance.of(next(them for them in CHOICES if rest[place] in them))
    else:
        rest[place] = other_number(chance, rest[place])
    parts[at] = (word, *rest)


def put_in(chance, parts):
    """Puts a part in, unless there are many."""
    if len(parts) < MOST_PARTS:
        parts.insert(chance.randint(0, len(parts)), any_part(chance))


def leave_out(chance, parts):
    """Leaves a part out, unless it is the last."""
    if len(parts) > 1:
        parts.pop(chance.randrange(len(parts)))


CHANGES = (tweak, tweak, tweak, tweak, tweak, put_in, put_in, leave_out)


def changed(chance, plan):
    """The plan with a few small changes."""
    parts = [*plan.parts]
    for _ in range(chance.of((1, 1, 2, 3))):
        chance.of(CHANGES)(chance, parts)
    return plan._replace(parts=tuple(parts))


def plan(chance, number, dearest):
    """The plan with this number: the shapes come first, and then changes of these dearest ones so far, or any plan."""
    if number < len(SHAPES):
        return Plan({}, SHAPES[number])
    if not dearest or chance.once_in(6):
        return changed(chance, Plan({}, tuple(any_part(chance) for _ in range(chance.randint(1, 5)))))
    return changed(chance, chance.of(dearest))
