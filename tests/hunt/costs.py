"""What dear lines cost: the change lines of a plan at `run`, and edits after them.

`docs/FORMATS.md` has the bound ("What a line may take"). Times are of the processor, so each run of a plan takes a
little more or less, and a hunt of the same seed doesn't come by the same plans.
"""
import contextlib
import time
from typing import NamedTuple

from program import LIMIT
from sizes import LONGEST_DELTA

from . import costs_by_chance
from .chance import Chance
from .processes import Gone, Process

# The bound of a line or an edit, in seconds: so many, and so many more where a whole delta line was sent until its end.
# For two such lines it is four times as many more, since each cell of one may refer to each of the other.
LEAST, WHOLE_LINE = 0.1, 4.0
# How many of the dearest plans are changed further, and how often a plan is run before it counts as too dear.
KEPT, TRIES = 8, 3
RIGHT = (b"ok ", b"same ")


class Cost(NamedTuple):
    """The seconds that a line took, the bytes that were sent until its end, and its beginning."""

    seconds: float
    length: int
    line: bytes

    def bound(self):
        """How many seconds it may take."""
        return LEAST + WHOLE_LINE * (self.length / LONGEST_DELTA) ** 2

    def share(self):
        """The share of them that it took."""
        return self.seconds / self.bound()

    def __str__(self):
        line = self.line.decode("latin-1")
        return f"{self.seconds:.2f} of {self.bound():.2f} s for {line}.., {self.length} bytes after the start"


class Refused(Exception):
    """A line was refused that has nothing wrong."""


class Timed(Process):
    """A session of `run` whose processor time is counted."""

    # (what is counted is the time of a processor, which a machine that does much else may not give for long)
    patience = 10 * LIMIT

    def seconds(self):
        """The seconds of processors that it has had so far; where the system doesn't tell, the time."""
        try:
            # the number of the clock of a process, as the C library makes it
            return time.clock_gettime(~self.session.pid << 3 | 2)
        except OSError:
            return time.monotonic()


def costs_of(lines, start):
    """What each of these lines costs, at a session that begins with an empty sheet."""
    session, length, found = start(), 0, []
    with contextlib.ExitStack() as stack:
        stack.callback(session.kill)
        for line in lines:
            length += len(line) + 1
            before = session.seconds()
            reply = session.ask(line)
            found.append(Cost(session.seconds() - before, length, line[:40]))
            if not reply.startswith(RIGHT):
                raise Refused(f"the reply to {line[:200]!r} is {reply!r}")
    return found


def dearest_of(lines, start):
    """The cost of the line that took the greatest share of its bound: the least at several runs, if it is above 1."""
    runs = []
    while len(runs) < TRIES and all(cost.share() >= 1 for cost in runs):
        runs.append(max(costs_of(lines, start), key=Cost.share))
    return min(runs, key=Cost.share)


class Dearest:
    """The plans that took the greatest shares of their bounds so far, and the cost of the first of them."""

    def __init__(self):
        self.plans = []
        self.most = Cost(0.0, 0, b"")

    def plan(self, seed, number):
        """The plan with this number."""
        return costs_by_chance.plan(Chance(f"{seed}/costs", number), number, [plan for _, plan in self.plans])

    def take(self, cost, plan):
        """Keeps the plan, unless there are enough that are dearer."""
        self.most = max(self.most, cost, key=Cost.share)
        self.plans = sorted([*self.plans, (cost.share(), plan)], key=lambda it: -it[0])[:KEPT]


def trouble(plan, start, dearest):
    """What is wrong with the costs of a plan, or nothing."""
    lines = costs_by_chance.lines_of(plan)
    try:
        cost = dearest_of(lines, start) if lines else Cost(0.0, 0, b"")
    except (Refused, Gone) as ended:
        return str(ended)
    dearest.take(cost, plan)
    return f"it is too dear: {cost}" if cost.share() >= 1 else None
