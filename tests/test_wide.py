"""Levels wide enough for 16 workers, as text: the same for each number of workers, and what a plain model says.

Each formula has its own value, so a value in another cell's place, or of a level before it is settled, is seen.
"""
import subprocess

from program import LIMIT, Ended, ProgramTest, lines, started
from sizes import COLUMNS, name, pushes
from test_workers import CountsThreads

# The first level: so many rows of formulas over both sources, 66,560 cells. The second: formulas over the first, each
# over a cell of another row and column, 39,520 cells.
FIRST, SECOND = 640, 380
# The row of the sources A and B, below both levels.
SOURCES = FIRST + SECOND + 1
# A level has a worker for each so many of its due cells.
CELLS_A_WORKER = 4_096
MOST = 2**63 - 1


def first_entry(column, row):
    """A formula over the sources A and B."""
    number = row * COLUMNS + column
    if number % 7 == 0:
        return f"=MOD({number};[.A{SOURCES}]-{number % 5})+0*[.B{SOURCES}]"
    if number % 11 == 0:
        return f"=0*[.A{SOURCES}]+[.B{SOURCES}]+{MOST - number}"
    return f"=[.A{SOURCES}]*{number}+[.B{SOURCES}]"


def first_value(column, row, a, b):
    """What it shows."""
    number = row * COLUMNS + column
    if number % 7 == 0:
        divisor = a - number % 5
        return number % divisor if divisor else "#DIV/0!"
    value = b + MOST - number if number % 11 == 0 else a * number + b
    return value if -MOST - 1 <= value <= MOST else "#NUM!"


def referred(column, row):
    """The cell of the first level that a cell of the second one refers to."""
    return (column * 37 + row) % COLUMNS, (row * 271 + column) % FIRST + 1


def second_value(column, row, a, b):
    """What a cell of the second level shows: its formula takes the row from the value."""
    value = first_value(*referred(column, row), a, b)
    return value - row if isinstance(value, int) else value


def second_entry(column, row):
    """A formula over the first level."""
    return f"=[.{name(*referred(column, row))}]-{row}"


def table(first, second, source):
    """The table of these two levels' cells, and of a last row."""
    rows = [",".join(str(first(column, row)) for column in range(COLUMNS)) for row in range(1, FIRST + 1)]
    below = range(FIRST + 1, SOURCES)
    rows += [",".join(str(second(column, row)) for column in range(COLUMNS)) for row in below]
    return [*rows, source + "," * (COLUMNS - source.count(",") - 1)]


def shown(a, b):
    """The rows of the table where these are the sources."""
    return table(lambda *place: first_value(*place, a, b), lambda *place: second_value(*place, a, b), f"{a},{b}")


ENTRIES = table(first_entry, second_entry, "3,-40")


def threads(workers, before, after):
    """The threads beside the caller's own that such a change of the sources starts."""
    second = ((column, row) for row in range(FIRST + 1, SOURCES) for column in range(COLUMNS))
    places = (referred(*place) for place in second)
    due = sum(first_value(*place, *before) != first_value(*place, *after) for place in places)
    return sum(max(min(workers, cells // CELLS_A_WORKER), 1) - 1 for cells in (FIRST * COLUMNS, due))


class Wide(CountsThreads):
    def assert_same(self, command, given, output, *sources):
        """The command gives this output for 1, 2 and 16 workers, and starts the threads of changes to these sources."""
        for workers in (1, 2, 16):
            counted = self.threads()
            files = {"stdin": subprocess.PIPE, "stdout": subprocess.PIPE, **counted.how}
            with self.subTest(workers=workers), started(command, "--workers", str(workers), **files) as program:
                written, error = program.communicate(given, timeout=LIMIT)
                self.assertEqual((program.returncode, error), (0, b""))
                # (a difference of megabytes is shown by its first line)
                found, wanted = written.split(b"\n"), output.split(b"\n")
                wrong = next((pair for pair in enumerate(zip(found, wanted)) if pair[1][0] != pair[1][1]), None)
                self.assertIsNone(wrong)
                self.assertEqual(len(found), len(wanted))
                wanted = sum(threads(workers, *change) for change in zip(sources, sources[1:]))
                self.assertEqual(counted.started(), wanted)

    def test_a_table(self):
        self.assertEqual(threads(16, (0, 0), (3, -40)), 15 + 8)
        self.assert_same("table", lines(*ENTRIES), lines(*shown(3, -40)), (0, 0), (3, -40))

    def test_rows_of_a_session_that_changes_the_sources(self):
        entries = [line.split(",") for line in ENTRIES]
        pushed = pushes(lambda column, row: entries[row - 1][column], range(1, SOURCES))
        asked = f"rows A1:{name(COLUMNS - 1, SOURCES)}"
        given = lines(*pushed, f"set A{SOURCES} 3", f"set B{SOURCES} 9", asked, f"set A{SOURCES} {2**40}", asked)
        count = FIRST + SECOND
        replies = [f"ok {version}" for version in range(1, count + 3)]
        replies += [f"rows {SOURCES}", *shown(3, 9), f"ok {count + 3}", f"rows {SOURCES}", *shown(2**40, 9)]
        self.assert_same("run", given, lines(*replies), (0, 0), (3, 0), (3, 9), (2**40, 9))
