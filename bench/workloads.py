#!/usr/bin/env python3
"""Writes the lines of a workload to standard output; the same ones for the same words, on any machine.

bench/workloads.py NAME [SIZE [THERE]]   NAME as below, SIZE in the workload's unit, THERE what is in the sheet before
bench/workloads.py                       tells the names, what SIZE counts, and the SIZE where none is given

`table`, `accounts`, `above` and `newest` are tables for `./sheet table`, all others are lines for `./sheet run`.
"""
import json
import random
import sys

COLUMNS, ROWS = 104, 1024
MANY = 100_000


def name(column, row):
    """The name of the cell in this column and this row, both from 0 on."""
    letters = chr(65 + column) if column < 26 else chr(64 + column // 26) + chr(65 + column % 26)
    return f"{letters}{row + 1}"


def at(index):
    """The name of the cell of this index, row by row."""
    return name(index % COLUMNS, index // COLUMNS)


def amount(draw):
    """A number of at most nine digits."""
    return draw.randrange(-10**9, 10**9)


def edits(draw, size):
    """numbers set in cells here and there, to which nothing refers"""
    for _ in range(size):
        yield f"set {at(draw.randrange(COLUMNS * ROWS))} {amount(draw)}"


def gets(draw, size):
    """`get` lines over 20,000 cells, every fifth of them a formula"""
    for index in range(20_000):
        yield f"set {at(index)} " + (f"=[.{at(index - 1)}]*2" if index % 5 == 4 else f"{amount(draw)}")
    for _ in range(size):
        yield f"get {at(draw.randrange(21_000))}"


def push(draw, size):
    """lines pushed: a third is new, a third came before, a third is older than the sheet"""
    newest, lines = {}, []
    for index in range(size):
        if index % 3 == 0:
            cell = draw.randrange(COLUMNS * ROWS)
            kind = draw.randrange(8)
            if kind == 0:
                counter, pair = f"[2,{index + 1},{index // 2}]", f"[{draw.randrange(64)},2,{index % 256 + 1},0]"
                lines.append(f'[["{at(cell)}",null,[{counter}],[{pair}]]]')
            else:
                content = {1: f"'name {index}", 2: f"=[.A1]*2+{index}"}.get(kind if cell else 3, amount(draw))
                newest[cell] = newest.get(cell, 0) + draw.randrange(1, 4)
                lines.append(f'[["{at(cell)}",[{newest[cell]},2,"{content}"],[],[]]]')
            yield "push " + lines[-1]
        elif index % 3 == 1:
            yield "push " + draw.choice(lines)
        else:
            cell = draw.choice(list(newest)[-100:] or [0])
            yield f'push [["{at(cell)}",[{newest.get(cell, 1)},1,"{draw.randrange(1000)}"],[],[]]]'


def pull(draw, size):
    """`pull` lines for one delta each, over a history of 20,000 edits"""
    yield from edits(draw, 20_000)
    for index in range(size):
        yield f"pull {index % 20_000}"


def pull16(draw, size):
    """`pull` lines for sixteen deltas each, over the same history"""
    yield from edits(draw, 20_000)
    for index in range(size):
        yield f"pull {index * 16 % 20_000} 16"


def chain(draw, size, formulas=MANY):
    """edits of the first cell of a chain of 100,000 formulas"""
    yield "set A1 0"
    for index in range(1, formulas + 1):
        yield f"set {at(index)} =[.{at(index - 1)}]+1"
    for _ in range(size):
        yield f"set A1 {draw.randrange(10**6)}"
    yield f"get {at(formulas)}"


def fan(draw, size, formulas=MANY):
    """edits of a cell to which 100,000 formulas refer"""
    yield "set A1 0"
    for index in range(1, formulas + 1):
        yield f"set {at(index)} =[.A1]+{index}"
    for _ in range(size):
        yield f"set A1 {draw.randrange(10**6)}"
    yield f"get {at(formulas)}"


def chained(draw, size):
    """formulas entered, each on the cell before"""
    yield from chain(draw, 0, size)


def fanned(draw, size):
    """formulas entered, all on one cell"""
    yield from fan(draw, 0, size)


def numbers(draw, columns, rows=ROWS):
    """Lines that fill so many columns with small numbers."""
    for row in range(rows):
        for column in range(columns):
            yield f"set {name(column, row)} {draw.randrange(1000)}"


def usual(draw, index):
    """A formula as people's over some of 20 columns, of the kind of this index, in the cell of this index below."""
    column, row = 20 + index // ROWS, index % ROWS
    one, other = (name(draw.randrange(20), row) for _ in range(2))
    return f"set {name(column, row)} " + (
        f"=[.{one}]*[.{other}]", f"=[.{one}]-[.{other}]+{index}", f"=IF([.{one}]>500;[.{other}];0)",
        f"=SUM([.{name(0, row)}:.{name(5, row)}])")[index % 4]


def mixed(draw, size):
    """formulas entered down the columns, as people's: products, an IF, a SUM of some cells; on 20 columns of numbers"""
    yield from numbers(draw, 20)
    for index in range(size):
        yield usual(draw, index)


def over(draw, size, there=80_000):
    """formulas put over THERE formulas down the columns, as people's"""
    yield from mixed(draw, there)
    for index in range(size):
        yield usual(draw, index % there)


def filled(draw, size):
    """formulas filled down the columns, all on one cell"""
    yield "set A1 1"
    for index in range(size):
        yield f"set {name(1 + index // ROWS, index % ROWS)} =[.A1]+{index}"


def ranged(draw, size):
    """running totals entered down the columns, each over up to 500 rows of one column of numbers"""
    yield from numbers(draw, 1)
    for index in range(size):
        yield f"set {name(1 + index // 1000, index % 1000)} =SUM([.A$1:.A{2 + index % 499}])"


def products(draw, size):
    """formulas entered down the columns, each a sum of twelve products over 24 columns of numbers"""
    yield from numbers(draw, 24)
    for index in range(size):
        column, row = 24 + index // ROWS, index % ROWS
        ones = (f"[.{name(2 * pair, row)}]*[.{name(2 * pair + 1, row)}]" for pair in range(12))
        yield f"set {name(column, row)} ={'+'.join(ones)}"


def ring(count=10_000):
    """A chain of so many cells, column by column, and the formula in A1 that makes a circle of it."""
    yield "set A1 0"
    for index in range(1, count):
        yield f"set {name(index // 1000, index % 1000)} =[.{name((index - 1) // 1000, (index - 1) % 1000)}]+1"
    yield f"set A1 =[.{name((count - 1) // 1000, (count - 1) % 1000)}]"


def circled(draw, size):
    """numbers set in a cell to which nothing refers, beside a circle of 10,000 formulas"""
    yield from ring()
    for _ in range(size):
        yield f"set Z1 {amount(draw)}"


def apart(draw, size):
    """formulas entered, all on one cell, beside a circle of 10,000 formulas that they don't refer to"""
    yield from ring()
    for index in range(size):
        yield f"set {name(30 + index // 1000, index % 1000)} =[.Z1]+{index}"


def asked(draw, size, there=10_000):
    """numbers set in a cell to which a formula refers, beside a circle of THERE formulas"""
    yield from ring(there)
    yield "set CB1 =[.CA1]+1"
    for _ in range(size):
        yield f"set CA1 {amount(draw)}"
    yield "get CB1"


def closed(draw, size, there=2000):
    """edits that close a small circle and open it, in turn, beside THERE small ones"""
    for index in range(there):
        one, other = (name(column + 2 * (index // 1000), index % 1000) for column in (0, 1))
        yield f"set {one} =[.{other}]"
        yield f"set {other} =[.{one}]+1"
    yield "set CB1 =[.CA1]+1"
    for index in range(size):
        yield f"set CA1 {draw.randrange(1000)}" if index % 2 else "set CA1 =[.CB1]"
    yield "get CB1"


def cycles(draw, size):
    """edits that close a circle of 10,000 formulas and open it, in turn, under a total over all of them"""
    *cells, close = ring()
    yield from cells
    yield "set K1 =SUM([.A1:.J1000])"
    for index in range(size):
        yield f"set A1 {draw.randrange(1000)}" if index % 2 else close
    yield "get K1"


def quiet(draw, size):
    """edits of two cells in turn, below a test that stays true, on which 100,000 formulas depend"""
    yield "set A1 1"
    yield "set B1 1"
    yield "set C1 =[.A1]+[.B1]>0"
    for index in range(MANY):
        yield f"set {at(index + 3)} =[.C1]+{index}"
    for index in range(size):
        yield f"set {'AB'[index % 2]}1 {draw.randrange(1, 1000)}"
    yield "get D1"


def sums(draw, size, rows=800, columns=40):
    """edits in a table of 800 by 40 numbers, with sums of its rows and columns and three totals over all of it"""
    for row in range(rows):
        for column in range(columns):
            yield f"set {name(column, row)} {draw.randrange(-1000, 1000)}"
    for row in range(rows):
        yield f"set {name(columns, row)} =SUM([.{name(0, row)}:.{name(columns - 1, row)}])"
    for column in range(columns):
        yield f"set {name(column, rows)} =SUM([.{name(column, 0)}:.{name(column, rows - 1)}])"
    every, last = f"[.A1:.{name(columns - 1, rows - 1)}]", columns + 1
    for row, total in enumerate((f"=SUM({every})", f"=MAX({every})", f"=COUNT({every})")):
        yield f"set {name(last, row)} {total}"
    for index in range(size):
        yield f"set {name(draw.randrange(columns), draw.randrange(rows))} {draw.randrange(-1000, 1000)}"
        if index % 100 == 0:
            yield f"rows {name(last, 0)}:{name(last, 2)}"


def budget(draw, size):
    """edits of amounts in a budget of 1,000 rows: products, running totals, flags, sums of months, totals"""
    for row in range(1, 1001):
        yield f"set A{row} item {row}"
        yield f"set B{row} {draw.randrange(1, 100)}"
        yield f"set C{row} {draw.randrange(1, 1000)}"
        yield f"set D{row} =[.B{row}]*[.C{row}]"
        yield f"set E{row} =SUM([.D$1:.D{row}])"
        yield f"set F{row} =IF([.D{row}]>20000;1;IF(MOD([.B{row}];7)=0;2;0))"
        for column in "GHIJKL":
            yield f"set {column}{row} {draw.randrange(1000)}"
        yield f"set M{row} =SUM([.G{row}:.L{row}])"
        yield f"set N{row} =[.M{row}]-[.D{row}]"
    for column in "BCDFGHIJKLMN":
        yield f"set {column}1001 =SUM([.{column}1:.{column}1000])"
    for index in range(size):
        yield f"set {draw.choice('BCGHIJKL')}{draw.randrange(1, 1001)} {draw.randrange(1, 1000)}"
        if index % 50 == 0:
            yield "rows B1001:N1001"


def under(draw, size, formula):
    """Numbers set here and there in a column of 1,024, beside a formula."""
    for row in range(ROWS):
        yield f"set A{row + 1} {amount(draw)}"
    yield f"set B1 {formula}"
    for _ in range(size):
        yield f"set A{draw.randrange(ROWS) + 1} {amount(draw)}"
    yield "get B1"


def summed(draw, size):
    """numbers set in a column of 1,024, under a SUM over all of them"""
    yield from under(draw, size, f"=SUM([.A1:.A{ROWS}])")


def unsummed(draw, size):
    """the same under a formula that refers to all of them, and doesn't sum them"""
    yield from under(draw, size, f"=IF(FALSE();SUM([.A1:.A{ROWS}]);0)")


def counters(draw, size):
    """`add` and `sub` lines at 1,000 counters"""
    for index in range(1000):
        yield f"set {at(index)} @tally"
    for _ in range(size):
        yield f"{draw.choice(('add', 'add', 'sub'))} {at(draw.randrange(1000))} {draw.randrange(1, 1000)}"


def poll(replicas):
    """Lines that make a choice of 256 pairs from each of so many other replicas."""
    yield "set A1 @choice"
    for replica in range(2, replicas + 2):
        pairs = sorted((sequence % 64, replica, sequence, 0) for sequence in range(1, 257))
        yield f"push {json.dumps([['A1', None, [], pairs]], separators=(',', ':'))}"


def chosen(draw, size, there=30):
    """options chosen at a choice of 256 pairs from each of THERE other replicas"""
    yield from poll(there)
    for _ in range(size):
        yield f"choose A1 {draw.randrange(64)}"


def pushed(draw, size, there=30):
    """pairs pushed at such a choice"""
    yield from poll(there)
    for sequence in range(1, size + 1):
        yield f'push [["A1",null,[],[[{draw.randrange(64)},32,{sequence},0]]]]'


def vote(draw, size):
    """people who vote on 50 choices: each ticks or unticks all in a cell of their own, counts in 50 counters with
    shares and a total, and looks at the result after every tenth"""
    yield "set A1 choice"
    for row in range(2, 52):
        yield f"set A{row} choice {row - 1}"
        yield f"set B{row} @tally"
        yield f"set C{row} =IF([.B$52]=0;0;QUOTIENT(100*[.B{row}];[.B$52]))"
    yield "set B52 =SUM([.B2:.B51])"
    yield "set C52 =MAX([.B2:.B51])"
    for person in range(size):
        own = name(4 + person // 1000, person % 1000)
        yield f"set {own} @choice"
        for choice in draw.sample(range(50), 50):
            yield f"choose {own} {choice}"
            yield f"add B{choice + 2} 1"
            if draw.random() < 0.3:
                yield f"unchoose {own} {choice}"
                yield f"sub B{choice + 2} 1"
            if choice % 10 == 0:
                yield "rows A1:C52"


def replicas(draw, size):
    """one of two replicas that exchange deltas: it makes one of its own and pulls it, and the other's is pushed at it,
    SIZE in all: numbers, texts, formulas, counts and choices"""
    times = {}
    for index in range(size // 2):
        for other in (False, True):
            cell, kind = draw.randrange(2000), draw.randrange(10)
            if kind < 2:
                cell = 2000 + index % 1000
                if other:
                    pair = f"[{index // 1000 % 64},2,{index // 1000 + 1},0]"
                    yield f'push [["{at(cell)}",null,[[2,{index + 1},0]],[{pair}]]]'
                else:
                    yield f"set {at(cell)} @tally" if times.setdefault(cell, 0) == 0 else f"add {at(cell)} 1"
                    times[cell] = 1
            else:
                content = f"item {index}" if kind == 2 else f"=[.{at(2000)}]+{index}" if kind == 3 else amount(draw)
                times[cell] = times.get(cell, 0) + 1
                if other:
                    text = f"'{content}" if kind == 2 else content
                    yield f'push [["{at(cell)}",[{times[cell]},2,"{text}"],[],[]]]'
                else:
                    yield f"set {at(cell)} {content}"
            if not other:
                yield f"pull {2 * index}"


def table(draw, size):
    """a table of rows of 104 fields: half are numbers, half formulas on the cells beside and above, and sums"""
    for row in range(size):
        fields = []
        for column in range(COLUMNS):
            one = f"[.{name(column - 1, row)}]"
            if row == 0 or column % 4 < 2:
                fields.append(f"{draw.randrange(-10**6, 10**6)}")
            elif column % 4 == 2:
                fields.append(f"={one}*2+[.{name(column - 2, row)}]")
            elif row % 7:
                fields.append(f"={one}-[.{name(column, row - 1)}]")
            else:
                fields.append(f'"=SUM([.{name(column, max(0, row - 6))}:.{name(column, row - 1)}])"')
        yield ",".join(fields)


def accounts(draw, size):
    """a table of rows of 100 numbers, with the sum of each row, of each column, and of all"""
    for row in range(size):
        yield ",".join(f"{draw.randrange(-10**6, 10**6)}" for _ in range(100)) + f",=SUM([.A{row + 1}:.CV{row + 1}])"
    yield ",".join(f"=SUM([.{name(column, 0)}:.{name(column, size - 1)}])" for column in range(101))


def above(draw, size):
    """the same table with the sums of columns in its first row, above the numbers"""
    *rows, last = accounts(draw, size)
    yield ",".join(f"=SUM([.{name(column, 1)}:.{name(column, size)}])" for column in range(last.count(",") + 1))
    for row, line in enumerate(rows, 2):
        yield f"{line[:line.index(',=')]},=SUM([.A{row}:.CV{row}])"


def newest(draw, size):
    """a table of rows of 104 fields, each on the one below, as where the newest stands on top"""
    for row in range(2, size + 1):
        yield ",".join(f"=[.{name(column, row - 1)}]+{draw.randrange(1000)}" for column in range(COLUMNS))
    yield ",".join(f"{draw.randrange(1000)}" for _ in range(COLUMNS))


def accounting(draw, size):
    """edits in a table of 1,000 by 100 numbers with these sums, which is entered line by line before"""
    yield from sums(draw, size, 1000, 100)


def rate(draw, size, there=20_000):
    """edits of a rate under THERE products, over which 200 running totals lie"""
    columns = there // 1000
    yield "set A1 1"
    for index in range(there):
        yield f"set {name(1 + index // 1000, index % 1000)} =[.A1]*{draw.randrange(1, 1000)}"
    for row in range(5, 1001, 5):
        yield f"set {name(columns + 1, row)} =SUM([.B$1:.{name(columns, row - 1)}])"
    for _ in range(size):
        yield f"set A1 {draw.randrange(1, 1000)}"
    yield f"get {name(columns + 1, 1000)}"


def fault(draw, size, there=100):
    """edits in a table of 1,000 rows by THERE columns of numbers, with one fault amid them and a total over all"""
    yield from numbers(draw, there, 1000)
    yield f"set {name(there // 2, 500)} =QUOTIENT(1;0)"
    yield f"set {name(there, 0)} =SUM([.A1:.{name(there - 1, 999)}])"
    for index in range(size):
        column, row = draw.randrange(there), draw.randrange(1000)
        yield f"set {name(column, row + (row == 500))} {draw.randrange(1000)}"
    yield f"get {name(there, 0)}"


def outside(draw, size, there=60_000):
    """edits of a cell below the ranges in its column of THERE such totals"""
    yield from ranged(draw, there)
    for _ in range(size):
        yield f"set A{ROWS} {draw.randrange(1000)}"


def ifs(draw, size):
    """formulas with an IF put into 1,000 cells again and again; the history has all of them"""
    for index in range(size):
        row = index % 1000 + 1
        yield f"set E{row} =IF([.A{row}]>[.B{row}];[.C{row}]*{index};IF([.D{row}]=0;0;{index}))"


def deep(draw, size):
    """formulas of 240 signs before a cell, down the columns"""
    for index in range(size):
        yield f"set {name(1 + index // ROWS, index % ROWS)} ={'-' * 240}[.A{index % ROWS + 1}]"


SIZES = {
    edits: (200_000, "lines"), gets: (500_000, "lines"), push: (100_000, "lines"), pull: (100_000, "lines"),
    pull16: (5000, "lines"), chain: (20, "edits"), fan: (20, "edits"), cycles: (100, "edits"), quiet: (40, "edits"),
    sums: (2000, "edits"), budget: (3000, "edits"), table: (1024, "rows"), counters: (200_000, "lines"),
    chained: (100_000, "formulas"), fanned: (100_000, "formulas"), mixed: (80_000, "formulas"),
    circled: (1000, "lines"), apart: (200, "formulas"), summed: (400_000, "lines"), unsummed: (400_000, "lines"),
    vote: (100, "people"), replicas: (50_000, "deltas"), accounts: (1000, "rows"), above: (1000, "rows"),
    accounting: (2000, "edits"), newest: (800, "rows"), filled: (80_000, "formulas"), over: (8000, "formulas"),
    products: (30_000, "formulas"), ranged: (30_000, "formulas"), rate: (8, "edits"), fault: (400, "edits"),
    outside: (400, "edits"), asked: (400, "lines"), closed: (200, "edits"), chosen: (200, "lines"),
    pushed: (200, "lines"), ifs: (100_000, "formulas"), deep: (30_000, "formulas"),
}
NAMES = {workload.__name__: workload for workload in SIZES}
GROWN = {
    newest: 266, above: 333, table: 341, filled: 26_666, mixed: 26_666, products: 10_000, ranged: 10_000,
    chained: 33_333, fanned: 33_333, ifs: 33_333, deep: 10_000,
}
"""A third of SIZE, for those workloads where that is what grows."""
STANDING = {
    over: (26_666, 80_000), rate: (20_000, 60_000), fault: (33, 100), outside: (20_000, 60_000),
    asked: (10_000, 50_000), closed: (667, 2000), chosen: (10, 30), pushed: (10, 30),
}
"""How much is THERE, little and much, for those workloads that take it."""


def lines(workload, size=None, *there):
    """The lines of the workload of this name, of this size or of its own."""
    it = NAMES[workload]
    return it(random.Random(workload), size or SIZES[it][0], *there)


def main():
    """Writes what the words ask for."""
    if len(sys.argv) < 2:
        for it, (size, unit) in SIZES.items():
            print(f"{it.__name__:12}{size:>8} {unit:10}{' '.join(it.__doc__.split())}")
    elif sys.argv[1] in NAMES:
        for line in lines(sys.argv[1], *map(int, sys.argv[2:])):
            print(line)
    else:
        sys.exit(__doc__)


if __name__ == "__main__":
    main()
