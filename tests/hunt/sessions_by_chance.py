"""Plans of sessions by chance: what each sends, when it reads, and how it ends."""
from sizes import LONGEST_LINE

from .chance import Chance
from .plans import Plan
from .replicas_by_chance import Planner
from .scripts import NO_CELLS, NUMBERS
from .session import TAKING

SESSIONS = (1, 2, 3, 4, 6, 8, 12, 15)
LENGTHS = (10, 30, 60, 100, 200)
# Of so many plans one has followers, and one has a server that keeps its sheet and is killed now and then.
FOLLOWED, KEPT = 2, 3
# How often each step comes: polite sessions, hasty ones, and such as break off.
STEPS = (
    {"polite": 10, "look": 1, "end": 1},
    {"hasty": 10, "wait": 4, "look": 4, "end": 1},
    {"polite": 5, "hasty": 5, "wait": 3, "half": 2, "leave": 1, "end": 1, "sync": 1},
    {"hasty": 8, "look": 3, "leave": 2, "half": 1, "flood": 1},
    {"polite": 6, "hasty": 4, "flood": 1, "long": 1, "wait": 2, "sync": 1},
)


class SessionPlanner(Planner):
    """Makes the steps of a plan; the lines are of a few cells that all sessions share."""

    def __init__(self, chance, sessions):
        super().__init__(chance, sessions)
        self.pushed = []

    def text(self):
        """A line of a session."""
        chance = self.chance
        kind = chance.random()
        if kind < 0.45:
            return self.edit()
        if kind < 0.7:
            return chance.of((b"get ", b"get ", b"entry ")) + chance.of(self.names)
        if kind < 0.8:
            return b"%s %s:%s" % (chance.of((b"rows", b"rows", b"entries")), self.names[0], self.names[-1])
        if kind < 0.9:
            return b"pull %d%s" % (chance.of((0, 0, 1, 3, 8, 20)), chance.of((b"", b" 1", b" 3", b" 16")))
        if kind < 0.97:
            return self.push()
        return chance.of((b"get " + chance.of(NO_CELLS), b"walk", b"", b"\r", b"pull " + chance.of(NUMBERS),
                          b"replica", b"replica 2"))

    def push(self):
        """A line that pushes or merges a delta that nobody made, often one that came before."""
        if not self.pushed or self.chance.once_in(2):
            self.pushed.append(self.delta())
        return self.chance.of(TAKING) + self.chance.of(self.pushed)

    def lines(self, most):
        """So many lines at most."""
        return b"".join(self.text() + b"\n" for _ in range(self.chance.randint(1, most)))

    def polite(self):
        """One line, and then the reply to it."""
        one = self.one()
        return ("send", one, self.lines(1)), ("wait", one)

    def hasty(self):
        return (("send", self.one(), self.lines(30)),)

    def half(self):
        """A part of a line, which goes on at the session's next one."""
        text = self.text()
        return (("send", self.one(), text[:self.chance.randint(0, len(text))]),)

    def flood(self):
        """Lines whose replies are more than the system keeps for a reader."""
        return (("send", self.one(), b"rows A1:CZ40\n" * self.chance.of((5, 20, 40))),)

    def long(self):
        """A line about as long as one may be."""
        length = LONGEST_LINE + self.chance.of((-1, 0, 1, 100_000))
        return (("send", self.one(), b"get ".ljust(length, b"x") + b"\n"),)

    def wait(self):
        return (("wait", self.one()),)

    def look(self):
        return (("look", self.one()),)

    def end(self):
        return (("end", self.one()),)

    def leave(self):
        return (("leave", self.one(), self.chance.of((0, 1))),)

    def sync(self):
        return (("sync", self.chance.of((0, 1))),)

    MAKES = {"polite": polite, "hasty": hasty, "half": half, "flood": flood, "long": long, "wait": wait, "look": look,
             "end": end, "leave": leave, "sync": sync}


def with_followers(chance, parts, count):
    """The steps with so many followers among them; some write what there is and end."""
    for _ in range(count):
        step = chance.of((("follow", 0, chance.of((1, 1, 5, 20))), ("journal", 0)))
        parts = put_in(chance, parts, step)
    return parts


def with_crashes(chance, parts):
    """The steps with crashes among them, each after a pause of so many millionths of a second."""
    for _ in range(chance.of((1, 1, 2, 3, 5))):
        parts = put_in(chance, parts, ("crash", 0, chance.of((0, 0, 100, 1_000, chance.randint(0, 10_000)))))
    return parts


def put_in(chance, parts, step):
    """The steps with another one among them."""
    place = chance.randint(0, len(parts))
    return (*parts[:place], step, *parts[place:])


def plan(seed, number):
    """The plan with this number."""
    chance = Chance(f"{seed}/sessions", number)
    servers = chance.of((1, 1, 1, 2))
    sessions = chance.of(SESSIONS)
    syncs = chance.randint(1, 15 - sessions) if servers == 2 and sessions < 15 else 0
    planner = SessionPlanner(chance, sessions)
    steps = chance.of(STEPS)
    if syncs:
        # (of a session that broke off it isn't known when its lines are all carried out, and so what a sync finds)
        steps = {word: often for word, often in steps.items() if word != "leave"}
    words = chance.choices([*steps], [*steps.values()], k=chance.of(LENGTHS))
    parts = tuple(step for word in words for step in planner.MAKES[word](planner))
    settings = {"servers": servers, "sessions": sessions, "syncs": syncs, "replica": chance.randint(1, 31),
                "workers": chance.of((1, 1, 2, 16)), "followers": 0, "kept": False}
    if servers == 1 and chance.once_in(KEPT):
        settings["kept"] = True
        parts = with_crashes(chance, parts)
    if sessions + syncs < 12 and chance.once_in(FOLLOWED):
        settings["followers"] = chance.randint(1, 3)
        # (after a crash there may be as many again)
        parts = with_followers(chance, parts, settings["followers"] * (1 + settings["kept"]))
    return Plan(settings, parts)
