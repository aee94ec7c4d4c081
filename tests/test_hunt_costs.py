"""The hunt for dear lines: it finds each program that is planted there and slow at something, and no other."""
import re
import unittest

from hunt import costs_by_chance, finds
from hunt.deltas import read_delta
from hunt.finds import Hunt
from hunt.parts import Costs
from hunt.plans import Plan
from program import ProgramTest

SEED = 1
# Each slow program has to be found among so many plans, and its plan to be left with so few parts.
FEW_PLANS, FEW_PARTS = 40, 4
COUNTER, PAIR = re.compile(rb"\[\d+,1,2\]"), re.compile(rb"\[\d+,\d+,\d+,\d+\]")


class StandIn:
    """A program that takes a microsecond for each byte of a line."""

    def __init__(self):
        self.time = 0.0
        self.pairs = 0

    def ask(self, line):
        """The reply to a line, after some time."""
        self.time += len(line) / 1e6 + self.more(line)
        self.pairs += len(PAIR.findall(line))
        return b"ok 1"

    def seconds(self):
        """How long it took so far."""
        return self.time

    def more(self, line):
        """How much longer it takes for a line."""
        return 0.0

    def kill(self):
        """Nothing is left of it."""


class Sums(StandIn):
    """It is slow at each range after the first: only a change of a shape has many of them in few bytes."""

    def more(self, line):
        return line.count(b";[.") * 700e-6


class Deep(StandIn):
    """It reads what is in parentheses again for each of them around it."""

    def more(self, line):
        deep = [len(it) ** 2 for it in re.findall(rb"\(+", line)]
        return sum(deep) / 2e6


class Pairs(StandIn):
    """It looks for each pair of a line among all that there are."""

    def more(self, line):
        return self.pairs * len(PAIR.findall(line)) * 50e-9


class Counters(StandIn):
    """It is slow at counters that are merged."""

    def more(self, line):
        return len(COUNTER.findall(line)) * 500e-6 if line.startswith(b"merge ") else 0.0


class Edits(StandIn):
    """It is slow at an edit after a line, and not at the line."""

    def more(self, line):
        return 5.0 if line.endswith(b" =MOD(1;0)") else 0.0


class Refusing(StandIn):
    """It refuses lines of texts."""

    def ask(self, line):
        return b"err 14 delta" if b"'x" in line else super().ask(line)


SLOW = (Sums, Deep, Pairs, Counters, Edits)


class Planted(ProgramTest):
    def found(self, kind):
        """The hunt, and what it finds of such a program."""
        hunt = Hunt(SEED, [Costs(kind)])
        return hunt, hunt.first(hunt.parts[0], FEW_PLANS)

    def test_each_slow_program_is_found(self):
        for kind in (*SLOW, Refusing):
            with self.subTest(kind=kind.__name__):
                self.assertIsNotNone(self.found(kind)[1])

    def test_a_find_is_made_smaller_and_replayed(self):
        hunt, find = self.found(Sums)
        folder, _ = hunt.keep(find, self.folder())
        name, plan = finds.read(folder / "plan")
        self.assertEqual(name, "costs")
        self.assertLessEqual(len(plan.parts), FEW_PARTS)
        self.assertIsNotNone(hunt.parts[0].trouble(plan))

    def test_a_program_that_takes_as_long_for_each_byte_is_not_found(self):
        self.assertIsNone(self.found(StandIn)[1])


class Lines(ProgramTest):
    def test_the_shapes_are_lines_that_the_model_reads(self):
        for shape in costs_by_chance.SHAPES:
            for line in costs_by_chance.lines_of(Plan({}, shape)):
                word, _, rest = line.partition(b" ")
                with self.subTest(line=line[:60]):
                    self.assertTrue(word == b"set" or read_delta(rest) is not None)


class Contents(unittest.TestCase):
    def test_a_number_has_64_bits_wherever_it_begins(self):
        for value, wanted in ((2**63 - 1, b"9223372036854775807"), (2**63, b"-9223372036854775808"),
                              (-(2**63) - 1, b"9223372036854775807"), (-1, b"-1")):
            with self.subTest(value=value):
                self.assertEqual(costs_by_chance.number(0, value, 1), wanted)
