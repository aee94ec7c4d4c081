"""Plans of replicas by chance: what they edit, and what becomes of the lines between them."""
from . import delta_lines, entries
from .chance import Chance
from .model import Sheet
from .plans import Plan
from .replicas import ENDS, FORGETS, KILLED
from .scripts import OPTIONS, corner_names
from .session import TAKING

# How many there are, mostly few.
REPLICAS = (2, 2, 2, 3, 3, 4, 5, 8, 12, 32)
LENGTHS = (10, 30, 60, 100, 200, 300)
# How often each step comes, in a calm network and in worse ones.
STEPS = (
    {"line": 10, "carry": 8, "deliver": 8, "heal": 1},
    {"line": 10, "carry": 6, "deliver": 6, "repeat": 3, "drop": 2, "join": 2, "stop": 1, "start": 1, "cut": 1},
    {"line": 6, "carry": 8, "deliver": 5, "repeat": 5, "drop": 5, "join": 3, "heal": 1},
    {"line": 8, "carry": 5, "deliver": 5, "stop": 3, "start": 3, "repeat": 1},
    {"line": 8, "carry": 6, "deliver": 8, "cut": 2, "heal": 1},
)
# How often those come besides, where each replica keeps itself in a file.
KEPT_STEPS = {"stop": 2, "tear": 3, "start": 3}


class Planner:
    """Makes the steps of a plan over a few cells, most of them counters or choices at each replica."""

    def __init__(self, chance, replicas):
        self.chance = chance
        self.replicas = replicas
        self.names = corner_names(chance)
        count = len(self.names) // 3
        self.tallies, self.choices = self.names[:count], self.names[count:2 * count]
        mentioned = self.names[chance.randrange(len(self.names)):]
        self.pool = [entries.entry(chance, mentioned) for _ in range(chance.randint(3, 12))]

    def one(self):
        """One of the replicas."""
        return self.chance.randrange(self.replicas)

    def two(self):
        """Two of them that differ."""
        one = self.one()
        return one, (one + self.chance.randrange(1, self.replicas)) % self.replicas

    def edit(self):
        """A line that edits."""
        chance = self.chance
        kind = chance.random()
        if kind < 0.25 and self.tallies:
            amount = chance.of((b"1", b"1", b"2", b"5", b"1000000"))
            return b"%s %s %s" % (chance.of((b"add", b"add", b"sub")), chance.of(self.tallies), amount)
        if kind < 0.5 and self.choices:
            verb = chance.of((b"choose", b"choose", b"unchoose"))
            return b"%s %s %s" % (verb, chance.of(self.choices), chance.of(OPTIONS[:7]))
        if kind < 0.65 and self.tallies:
            name = chance.of(self.names[:2 * len(self.tallies)])
            return b"set %s %s" % (name, b"@tally" if name in self.tallies else b"@choice")
        if kind > 0.93:
            # a total that is in no cycle by itself
            name, other = self.names[-1], chance.of(self.names[:-1])
            return b"set %s =%s([.%s:.%s])" % (name, chance.of(entries.OF_ITEMS), self.names[0], other)
        return b"set %s %s" % (chance.of(self.names), chance.of(self.pool))

    def line(self):
        """An edit, a look, or a delta that nobody made."""
        kind = self.chance.random()
        if kind < 0.75:
            return self.one(), self.edit()
        if kind < 0.9:
            return self.one(), self.chance.of((b"get ", b"entry ")) + self.chance.of(self.names)
        return self.hostile()

    def hostile(self):
        """A delta that nobody made, at one of the replicas."""
        return self.one(), self.chance.of(TAKING) + self.delta()

    def delta(self):
        """The line of a delta that nobody made."""
        texts = [entries.canonical(entry) for entry in self.pool]
        return delta_lines.hostile(self.chance, self.names, texts, Sheet())

    def carry(self):
        return *self.two(), self.chance.of((1, 1, 2, 3, 16, 16))

    def place(self):
        return *self.two(), self.chance.of((0, 0, 0, 1, 2, 5))

    def deliver(self):
        return *self.place(), self.chance.of(TAKING)

    def stop(self):
        return self.one(), self.chance.of((ENDS, ENDS, KILLED, KILLED, FORGETS))

    def tear(self):
        one, line = self.line()
        # (mostly within the time that a line takes)
        return one, line, self.chance.of((0, 0, 50, 200, 1_000, self.chance.randint(0, 5_000)))

    def start(self):
        return (self.one(),)

    def cut(self):
        return (self.chance.getrandbits(self.replicas),)

    def heal(self):
        return (self.chance.of(TAKING),)

    MAKES = {"line": line, "carry": carry, "deliver": deliver, "repeat": deliver, "drop": place, "join": place,
             "stop": stop, "tear": tear, "start": start, "cut": cut, "heal": heal}


def plan(seed, number):
    """The plan with this number."""
    chance = Chance(f"{seed}/replicas", number)
    planner = Planner(chance, chance.of(REPLICAS))
    steps = chance.of(STEPS)
    if planner.replicas > 8:
        # (each of many replicas is handed all at each heal)
        steps = {word: count for word, count in steps.items() if word != "heal"}
    is_kept = chance.once_in(2)
    for word, count in KEPT_STEPS.items() if is_kept else ():
        steps = {**steps, word: steps.get(word, 0) + count}
    words = chance.choices([*steps], [*steps.values()], k=chance.of(LENGTHS))
    parts = tuple((word, *planner.MAKES[word](planner)) for word in words)
    shown = f"{planner.names[0].decode()}:{planner.names[-1].decode()}"
    workers = chance.of((1, 1, 1, 2, 16))
    return Plan({"replicas": planner.replicas, "workers": workers, "shown": shown, "kept": is_kept}, parts)
