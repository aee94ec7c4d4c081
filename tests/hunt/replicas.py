"""Replicas that edit apart and meet: a plan of a simulated network, and what is wrong with what comes of it.

A replica is a process of the program, with the model's session beside it; each reply has to be that of the model. What
one replica has is carried to another as delta lines, which wait on their way until the plan delivers, repeats, drops or
joins them, in any order. They are pushed or merged there. A replica that is stopped has kept the lines that it had sent
until then. Once it is started they are pushed again before all else. Or it keeps itself in a file, and goes on by it as
it was, whatever ended it. When the network heals, each replica sends all that it has to the next one, twice round. Then
all have to show what the model shows of the join of all lines that were sent.
"""
import tempfile
from pathlib import Path

from . import deltas, kept
from .model import Sheet
from .processes import Gone
from .session import Session

# How a replica stops: its input ends, it is killed, or it is killed with lines that it hasn't kept.
ENDS, KILLED, FORGETS = range(3)


class Trouble(Exception):
    """What is wrong; the argument tells it."""


class Replica:
    """A replica that runs or is stopped: its process, the model's session beside it, and the lines that it keeps."""

    def __init__(self, number, start, workers, file=None):
        self.number = number
        self.words = ("--replica", str(number), "--workers", str(workers))
        self.words += ("--keep", str(file)) if file else ()
        # where it keeps itself, with how many changes it was opened, and a line that was sent as it was killed
        self.file = file
        self.opened = 0
        self.torn = None
        self.start_process = start
        self.process = None
        self.session = None
        self.kept = []
        self.kept_to = 0

    def ask(self, line):
        """The program's reply, which has to be that of the model."""
        self.start()
        try:
            reply = self.process.ask(line)
        except Gone as gone:
            raise Trouble(f"replica {self.number} is asked {line!r}: {gone.args[0]}") from None
        wanted = self.session.reply(line)
        if reply != wanted:
            raise Trouble(f"replica {self.number} is asked {line!r}, and replies\n{reply!r}\nthe model\n{wanted!r}")
        return reply

    def start(self):
        """Starts it, where it is stopped, and pushes what it has kept."""
        if self.process is not None:
            return
        self.process = self.start_process(*self.words)
        if self.file:
            self.go_on()
            return
        self.session = Session(self.number)
        for line in self.kept:
            self.ask(b"push " + line)
        # (it has all of these, and hands them out in other groups)
        self.kept_to = len(self.session.sheet.history)

    def go_on(self):
        """Goes on from its file: as it was, and with the line that was sent as it was killed, if that is kept."""
        self.session = self.session or Session(self.number)
        self.opened = len(self.session.sheet.history)
        is_known, line, self.torn = self.is_known_after(self.opened), self.torn, None
        if is_known and line is not None:
            self.session.reply(line)
            self.opened = len(self.session.sheet.history)
        self.session.is_elsewhere = False
        self.compare_file(is_whole=True)

    def is_known_after(self, version):
        """Whether it knows changes after a version."""
        try:
            return self.process.ask(b"pull %d" % version) != b"end %d" % version
        except Gone as gone:
            raise Trouble(f"replica {self.number} doesn't go on from its file: {gone.args[0]}") from None

    def compare_file(self, is_whole):
        """The file has each change, and what follows its last line feed only where it isn't whole."""
        content = self.file.read_bytes() if self.file.exists() else b""
        wanted = kept.text_of(self.number, self.session.sheet.history)
        found = kept.without_digests(content if is_whole else kept.whole_lines(content))
        is_torn = self.torn is not None and found.startswith(wanted) and found.count(b"\n") == wanted.count(b"\n") + 1
        if found != wanted and not is_torn:
            raise Trouble(f"the file of replica {self.number} ends with\n{found[-600:]!r}\nand has to with\n"
                          f"{wanted[-600:]!r}")

    def tear(self, line, pause):
        """Sends a line, and kills it meanwhile."""
        self.start()
        process, self.process = self.process, None
        process.tear(line, pause)
        self.torn = line
        self.compare_file(is_whole=False)

    def handed_out(self, begin, most=16):
        """The lines of all deltas after a version."""
        while True:
            word, version, *line = self.ask(b"pull %d %d" % (begin, most)).split(b" ", 2)
            if word != b"delta":
                return
            begin = int(version)
            yield line[0]

    def keep(self):
        """Keeps the lines of what is new."""
        self.kept += self.handed_out(self.kept_to)
        self.kept_to = len(self.session.sheet.history)

    def stop(self, how):
        """Stops it."""
        if self.process is None:
            return
        if how != FORGETS and not self.file:
            self.keep()
        process, self.process = self.process, None
        if how != ENDS:
            process.kill()
        else:
            self.compare_end(process.end())
        if self.file:
            self.compare_file(is_whole=how == ENDS)

    def compare_end(self, ended):
        """It has ended well, and has told what it has opened, if anything, and where its number is used elsewhere."""
        elsewhere = self.number if self.session.is_elsewhere else None
        told = kept.told(self.file, self.opened, elsewhere) if self.file else b""
        if (ended.status, ended.output, ended.error) != (0, b"", told):
            raise Trouble(f"replica {self.number}, opened with {self.opened} changes, ends with {ended}")

    def close(self):
        """Ends its process, whatever it does."""
        if self.process is not None:
            self.process.kill()


class Network:
    """The replicas of a plan, and the lines that are on their way between them."""

    def __init__(self, settings, start):
        numbers = range(1, settings["replicas"] + 1)
        self.folder = tempfile.TemporaryDirectory(prefix="hunt-kept-") if settings.get("kept") else None
        files = [Path(self.folder.name) / f"{number}.lines" if self.folder else None for number in numbers]
        self.replicas = [Replica(number, start, settings["workers"], file) for number, file in zip(numbers, files)]
        self.shown = settings["shown"].encode()
        self.ways, self.told = {}, {}
        self.groups = 0
        self.counts = {"steps": 0, "deltas carried": 0, "stops": 0, "starts from files": 0, "heals": 0}

    def way(self, one, other):
        """The lines on their way from one replica to another."""
        return self.ways.setdefault((one, other), [])

    def is_cut(self, one, other):
        """Whether the two lie apart: the bits of a number tell to which of two groups each replica belongs."""
        return (self.groups >> one) % 2 != (self.groups >> other) % 2

    # -- Steps

    def line(self, one, line):
        """A line of a session."""
        self.replicas[one].ask(line)

    def carry(self, one, other, most):
        """Sends what the one has and hasn't sent to the other on its way, as one line of so many deltas at most."""
        begin = min(self.told.get((one, other), 0), self.version(one))
        for line in self.replicas[one].handed_out(begin, most):
            self.way(one, other).append(line)
            break
        self.told[one, other] = min(begin + most, self.version(one))

    def version(self, one):
        """How many deltas a replica has."""
        self.replicas[one].start()
        return len(self.replicas[one].session.sheet.history)

    def deliver(self, one, other, place, verb=b"push ", is_last=True):
        """Delivers a line that is on its way, to be pushed or merged, for the last time or not."""
        way = self.way(one, other)
        if way and not self.is_cut(one, other) and self.replicas[other].process is not None:
            line = way.pop(place % len(way)) if is_last else way[place % len(way)]
            self.counts["deltas carried"] += 1
            self.replicas[other].ask(verb + line)

    def repeat(self, one, other, place, verb=b"push "):
        """Hands over a line that stays on its way."""
        self.deliver(one, other, place, verb, False)

    def drop(self, one, other, place):
        """Loses a line that is on its way."""
        way = self.way(one, other)
        if way:
            del way[place % len(way)]

    def join(self, one, other, place):
        """Makes one line of two that are on their way, where it has room."""
        way = self.way(one, other)
        if len(way) >= 2:
            place %= len(way) - 1
            line = deltas.delta_line(deltas.joined_deltas(map(deltas.read_delta, way[place:place + 2])))
            if len(line) <= deltas.LONGEST_DELTA:
                way[place:place + 2] = [line]

    def stop(self, one, how):
        """Stops a replica."""
        self.counts["stops"] += 1
        self.replicas[one].stop(how)

    def tear(self, one, line, pause):
        """Sends a line to a replica that keeps itself, and kills it meanwhile."""
        if self.folder:
            self.counts["stops"] += 1
            self.replicas[one].tear(line, pause)

    def start(self, one):
        """Starts a replica."""
        self.counts["starts from files"] += self.folder is not None and self.replicas[one].process is None
        self.replicas[one].start()

    def close(self):
        """Ends all of it."""
        for replica in self.replicas:
            replica.close()
        if self.folder:
            self.folder.cleanup()

    def cut(self, groups):
        """Cuts the network into two groups."""
        self.groups = groups

    def heal(self, verb=b"push "):
        """Joins all groups: what is on its way arrives, all send what they have, and all show the same."""
        self.groups = 0
        self.counts["heals"] += 1
        for replica in self.replicas:
            replica.start()
        for (one, other), way in self.ways.items():
            while way:
                self.deliver(one, other, len(way) // 2, verb)
        lines = [line for _ in range(2) for one in range(len(self.replicas)) for line in self.hand_on(one, verb)]
        self.compare(lines)

    def hand_on(self, one, verb):
        """Hands all that a replica has to the next one, and returns its lines."""
        lines = [*self.replicas[one].handed_out(0)]
        following = self.replicas[(one + 1) % len(self.replicas)]
        for line in lines:
            self.counts["deltas carried"] += 1
            following.ask(verb + line)
        return lines

    def compare(self, lines):
        """All replicas show what a sheet shows that took these lines from their end on."""
        both = Session()
        both.sheet = Sheet()
        for line in reversed(lines):
            both.reply(b"push " + line)
        wanted = both.reply(b"rows " + self.shown)
        for replica in self.replicas:
            shown = replica.ask(b"rows " + self.shown)
            if shown != wanted:
                raise Trouble(f"replica {replica.number} shows\n{shown!r}\nand all that was handed out\n{wanted!r}")

    STEPS = {"line": line, "carry": carry, "deliver": deliver, "repeat": repeat, "drop": drop, "join": join,
             "stop": stop, "tear": tear, "start": start, "cut": cut, "heal": heal}


def trouble(plan, start, counts=None):
    """What is wrong with what comes of the plan, or nothing; `start` starts a process with these words."""
    network = Network(plan.settings, start)
    try:
        for word, *rest in plan.parts:
            network.counts["steps"] += 1
            network.STEPS[word](network, *rest)
        network.heal()
    except Trouble as found:
        return found.args[0]
    finally:
        network.close()
        for name, count in network.counts.items() if counts is not None else ():
            counts[name] = counts.get(name, 0) + count
    return None
