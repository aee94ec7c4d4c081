"""What scripts are about: which lines come how often; and the few scripts with many cells or long lines."""
from sizes import COLUMNS, LONGEST_DELTA, LONGEST_LINE

from . import entries
from .chance import Chance
from .places import NAMES
from .scripts import Script, Writer, corner_names
from .tables_by_chance import table

# How often each line comes, for each theme of the usual scripts.
THEMES = (
    {"edit": 12, "hostile": 2, "meet": 1, "get": 10, "rows": 4, "pull": 1},
    {"edit": 6, "hostile": 5, "meet": 3, "again": 3, "get": 10, "rows": 3, "pull": 3, "count": 2, "choose": 2},
    {"edit": 3, "count": 8, "choose": 8, "hostile": 2, "meet": 2, "get": 8, "rows": 1, "pull": 3},
    {"hostile": 10, "again": 5, "get": 10, "rows": 2, "pull": 4, "edit": 2},
    {"meet": 8, "again": 6, "edit": 5, "count": 3, "choose": 3, "get": 10, "rows": 2, "pull": 6},
    {"broken": 10, "ending": 2, "edit": 4, "hostile": 2, "get": 4, "rows": 1, "pull": 2, "count": 2, "choose": 2,
     "replica": 1},
    {"edit": 6, "count": 3, "choose": 3, "hostile": 3, "meet": 2, "again": 2, "broken": 1, "ending": 1, "get": 8,
     "rows": 2, "pull": 3, "replica": 1},
)
LENGTHS = (5, 20, 60, 150, 300, 300, 450, 450, 600)
# Of so many scripts one is a table, and one has many cells or long lines.
TABLES, LARGE = 8, 100


def usual(chance, replica):
    """The lines of a script about a few cells."""
    writer = Writer(chance, replica)
    theme = chance.of(THEMES)
    for kind in chance.choices([*theme], [*theme.values()], k=chance.of(LENGTHS)):
        getattr(writer, kind)()
    writer.close()
    return writer.lines


def pushes(chance, cells, content, time):
    """Lines that push this content of each of these cells, as many of them in a line as have room, or fewer."""
    room = LONGEST_DELTA // (len(content) + 30)
    while cells:
        count = chance.of((room, room, room // 2, 100))
        parts = b",".join(b'["%s",[%d,2,"%s"],[],[]]' % (NAMES[cell], time, content) for cell in cells[:count])
        yield b"push [%s]" % parts
        cells = cells[count:]


def wide(chance, _):
    """A level of more than 8,192 formulas, for which several workers are started, and changes that reach it."""
    cells = range(COLUMNS, COLUMNS * 82)
    asked = [b"rows A1:CZ4", b"rows CY80:CZ83", b"get %s" % NAMES[chance.of(cells)], b"rows A1:CZ1024"]
    lines = [b"set A1 5", *pushes(chance, cells, chance.of((b"=[.A1]+1", b"=-[.A1]", b"=[.A1]*[.B1]")), 1)]
    for content in (b"7", b"x", b"=[.B2]", b"=MOD(1;0)"):
        lines += [b"set A1 " + content, chance.of(asked)]
    return lines


def chain(chance, _):
    """Formulas that each refer to the one before, in any order, whose last one closes a cycle and opens it."""
    names = NAMES[chance.of((0, 1, COLUMNS - 1))::COLUMNS][:chance.randint(50, 300)]
    kind = chance.of((b"=[.%s]+1", b"=SUM([.%s];1)", b"=MAX([.%s];0)"))
    links = [b"set %s " % name + kind % other for other, name in zip(names, names[1:])]
    chance.shuffle(links)
    ends = [b"get %s" % names[-1], b"rows %s:%s" % (names[0], names[-1])]
    return [*links, b"set %s 1" % names[0], *ends, b"set %s =[.%s]" % (names[0], chance.of(names)), *ends,
            b"set %s 2" % names[0], *ends, b"set %s x" % chance.of(names), *ends]


def groups(chance, _):
    """Deltas of long texts. As many are pulled as fit a line."""
    long = b"=" + b"+".join([b"[.CZ1024]"] * 25)
    texts = (entries.canonical(entries.entry(chance, [b"CZ1024"])), long, long, long, b"", b"'" + b"x" * 64)
    lines = []
    for time in range(1, chance.randint(4, 10)):
        begin = chance.of((0, 0, 300, 900, 1800, 2700))
        content = chance.of(texts).replace(b"\\", b"/").replace(b'"', b"'")
        lines += pushes(chance, range(begin, begin + chance.of((10, 300, 600, 900))), content, time)
    for begin in range(0, len(lines), 3):
        lines.append(b"pull %d %d" % (begin, chance.of((1, 3, 16, 16))))
    return lines


def padded(chance, _):
    """Lines about as long as a line and a delta may be."""
    names = corner_names(chance)
    name, lines = chance.of(names), []
    delta = b'push [["%s",[1,2,"5"],[],[]]]' % name
    for length in (LONGEST_LINE, LONGEST_DELTA + 5):
        for line in (delta, b"set %s 7" % name, b"get " + name, b"x", b"add %s 00" % name):
            line = line.ljust(length + chance.of((-1, 0, 1)), chance.of((b" ", b"0")))
            lines += [chance.of((line, line[:-1] + b"\r", line + b"\r")), b"get " + name]
    return lines


def input_of(chance, lines):
    """The parts of an input with these lines; the last one has no line feed now and then."""
    parts = [line + b"\n" for line in lines]
    return (*parts[:-1], lines[-1]) if chance.once_in(8) else tuple(parts)


def piece_of(chance, parts):
    """The greatest piece that a read finds: mostly there is no limit."""
    length = sum(map(len, parts))
    return chance.of([it for it in (1, 2, 7, 100, 4096) if it * 500 > length] or [0]) if chance.once_in(8) else 0


def script(seed, number):
    """The script with this number."""
    chance = Chance(seed, number)
    workers = chance.of(("1", "1", "1", "2", "16"))
    if chance.once_in(TABLES):
        parts = table(chance)
        return Script(("table", "--workers", workers), parts, piece_of(chance, parts))
    replica = chance.of((1, 1, 2, 3, 31, 32, chance.randint(1, 32)))
    make = chance.of((wide, chain, chain, groups, padded)) if chance.once_in(LARGE) else usual
    parts = input_of(chance, make(chance, replica))
    words = () if workers == "1" else ("--workers", workers)
    words += () if replica == 1 and chance.once_in(2) else ("--replica", str(replica))
    return Script(("run", *words), parts, piece_of(chance, parts))
