"""Sessions by chance at servers of the program: a plan of what they send, and what is wrong with what comes of it.

There are one or two servers. The sessions of a plan come and go, stall, break off and send too much; at the end each
server has one session more, which pulls each change by itself. `histories` judges by that. With two servers some of
the changes are handed from one to the other by `sync`. Followers go along, whose lines are the history; and a single
server may keep its sheet in a file, from which it goes on after it was killed (`houses`).
"""
import re
import subprocess
import tempfile

from program import LIMIT, Ended

from .channels import Broken
from .deltas import delta_line, read_delta
from .histories import History, Judge, Wrong
from .houses import House, followed_to
from .session import Session
from .talks import CLOCK, Line, Talk

# A server may have so much more memory at the end than at the beginning, and so much for each session that there was,
# which the C library keeps for threads to come.
KILOBYTES, KILOBYTES_EACH = 40_000, 20_000
SEATS = 16


class Handed:
    """What a `sync` has handed over, as a session of the server that it pushed to."""

    # what any server has
    first, last = 0, None

    def __init__(self, sent):
        self.sent = sent
        self.lines = []
        self.certain = []

    def unanswered(self):
        """Its lines, of whose replies nothing is known."""
        return self.lines

    def compare(self, history):
        """What it has handed over for certain is there at the end."""
        for text in self.certain:
            if history.answer(text, len(history.deltas))[1] is not None:
                raise Wrong(f"sync hasn't handed over all of\n{text[:600]!r}")


class Run:
    """A run of a plan."""

    def __init__(self, settings, start, sync):
        self.settings = settings
        self.sync_by = sync
        self.houses = []
        self.syncs = []
        self.counts = {"lines": 0, "receipts": 0, "reads": 0, "syncs": 0, "followers": 0, "crashes": 0}
        self.folder = tempfile.TemporaryDirectory(prefix="hunt-kept-") if settings.get("kept") else None
        followers = settings.get("followers", 0)
        for number in range(settings["servers"]):
            # (a session for each sync and follower, and one that pulls all at the end)
            counts = settings["sessions"] + settings["syncs"] + followers + 1, followers
            words = ("--replica", str(settings["replica"] + number), "--workers", str(settings["workers"]))
            self.houses.append(House(lambda *asked: start(*asked, settings.get("fault")), words, counts,
                                     self.folder and self.folder.name))

    def house(self, number):
        """The server of the session with this number."""
        return self.houses[number % len(self.houses)]

    def talk(self, number):
        """The session with this number, which is begun where it hasn't been."""
        return self.house(number).talk(number)

    # -- Steps

    def send(self, number, given):
        talk = self.talk(number)
        if talk.is_open:
            talk.send(given)

    def wait(self, number):
        talk = self.talk(number)
        if talk.is_open:
            talk.wait_for_replies()

    def look(self, number):
        talk = self.talk(number)
        if talk.is_open:
            talk.look()

    def end(self, number):
        talk = self.talk(number)
        if talk.is_open:
            talk.end()

    def leave(self, number, is_reset):
        talk = self.talk(number)
        if talk.is_open:
            talk.break_off(is_reset)

    def sync(self, one):
        """Hands what a server has to the other one, where there are two and this many syncs are left."""
        if len(self.houses) < 2 or self.counts["syncs"] == self.settings["syncs"]:
            return
        self.counts["syncs"] += 1
        first, second = (self.houses[it % 2] for it in (one, one + 1))
        for talk in first.talks.values():
            if talk.is_open:
                talk.wait_for_replies()
        begun = next(CLOCK)
        ended = self.sync_by(first.server, second.server)
        first.count, second.count = first.count - 1, second.count - 1
        found = re.fullmatch(rb"synced (\d+)\n", ended.output)
        if found is None or ended != Ended(0, ended.output):
            raise Broken(f"sync ends with {ended}")
        handed = Handed(begun)
        second.handed.append(handed)
        self.syncs.append((first, begun, int(found[1]), handed))

    def follow(self, one, every):
        self.counts["followers"] += 1
        self.house(one).follow(every)

    def journal(self, one):
        self.counts["followers"] += 1
        self.house(one).journal()

    def crash(self, one, pause):
        self.counts["crashes"] += 1
        self.house(one).crash(pause)

    STEPS = {"send": send, "wait": wait, "look": look, "end": end, "leave": leave, "sync": sync, "follow": follow,
             "journal": journal, "crash": crash}

    # -- The end

    def finish(self):
        """Ends all sessions, lets each server tell its history, and judges."""
        for house in self.houses:
            for talk in house.talks.values():
                if talk.is_open:
                    talk.end()
            while house.count > 1:
                Talk(house.server.connect()).end()
                house.count -= 1
            self.ask_for_all(house)
        for synced in self.syncs:
            self.lines_of(*synced)
        for number, house in enumerate(self.houses):
            talks = [*house.all_talks(), *house.handed]
            history = History(self.settings["replica"] + number, house.deltas)
            house.compare_file(self.settings["replica"] + number)
            judge = Judge(history, talks, (self.settings.get("fault") or "-")[0] == "m")
            judge.judge()
            for begun, ended, output in house.journals:
                judge.judge_journal(begun, ended, followed_to(house.deltas, output))
            for handed in house.handed:
                handed.compare(history)
            self.count_lines(house)

    def ask_for_all(self, house):
        """Has a last session of the server pull each change, and the server end as it has to."""
        following = house.following()
        last = Talk(house.server.connect())
        # (once it is answered, all before it have been accepted)
        last.ask(b"pull 0")
        self.compare_measures(house, 1 + following)
        number = 0
        while (reply := last.ask(b"pull %d" % number)) is not None and reply.startswith(b"delta %d " % (number + 1)):
            number += 1
            text = reply.split(b" ", 2)[2]
            delta = read_delta(text)
            if delta is None or delta_line(delta) != text:
                raise Broken(f"the line of delta {number} is {text!r}")
            house.deltas.append(delta)
        if reply != b"end %d" % number:
            raise Broken(f"the last session asks for what comes after {number}, and the reply is {reply!r}")
        house.wait_for_followers()
        self.compare_measures(house, 1)
        last.end()
        house.compare_end(house.server.ended(), number)

    def compare_measures(self, house, count):
        """Once all sessions but so many have ended, memory, open files and threads are as at the beginning."""
        server, before, each = house.server, house.server.before, KILOBYTES_EACH * self.settings["sessions"]
        # (a server that keeps its sheet has a file for each seat that isn't given on yet)
        files = count + (SEATS if house.file else 0)
        found = server.settled(lambda it: it and it["threads"] <= before["threads"] + count
                               and it["files"] <= before["files"] + files)
        for name, more in (("threads", count), ("files", files), ("kilobytes", KILOBYTES + each)):
            if found.get(name, 0) > before[name] + more:
                raise Broken(f"after its sessions it has {found[name]} {name}, at the beginning {before[name]}")

    def lines_of(self, first, begun, count, handed):
        """Gives what a sync has handed over its lines: those of the first one's history at some version.

        That isn't known to the last; so there is a last line for each version that gives as many.
        """
        versions = [lines_at(first.deltas, version) for version in range(len(first.deltas) + 1)]
        versions = [lines for lines in versions if len(lines) == count]
        if not versions:
            raise Broken(f"sync tells {count} lines, which {len(first.deltas)} changes are at no time")
        texts = versions[0][:-1] + [lines[-1] for lines in versions if lines]
        handed.certain = [b"push " + text for text in versions[0]]
        handed.lines = [Line(b"push " + text) for text in texts]
        for line in handed.lines:
            line.sent = begun

    def count_lines(self, house):
        """Counts what was judged."""
        for talk in house.all_talks():
            replies = [line.reply for line in talk.lines if line.reply is not None]
            self.counts["lines"] += len(talk.lines)
            self.counts["receipts"] += sum(reply.startswith(b"ok ") for reply in replies)
            self.counts["reads"] += sum(reply.startswith((b"val", b"rows")) for reply in replies)

    def close(self):
        """Ends all that still runs."""
        for house in self.houses:
            house.close()
        if self.folder:
            self.folder.cleanup()


def lines_at(deltas, version):
    """The lines in which a session hands out all of these deltas up to a version."""
    session, lines, place = Session(), [], 0
    session.sheet.history = deltas[:version]
    while place < version:
        _, place, text = session.reply(b"pull %d 16" % place).split(b" ", 2)
        place = int(place)
        lines.append(text)
    return lines


def synced(program):
    """How a sync of the program from one server to another ends."""
    def sync(first, second):
        words = [program, "sync", "--from", str(first.port), "--to", str(second.port)]
        ran = subprocess.run(words, stdin=subprocess.DEVNULL, capture_output=True, timeout=LIMIT)
        return Ended(ran.returncode, ran.stdout, ran.stderr)
    return sync


def trouble(plan, start, sync, counts=None):
    """What is wrong with what comes of the plan, or nothing; `start` starts a server, `sync` hands over."""
    run = Run(plan.settings, start, sync)
    try:
        for word, *rest in plan.parts:
            run.STEPS[word](run, *rest)
        run.finish()
    except (Broken, Wrong) as found:
        return found.args[0]
    finally:
        run.close()
        for name, count in run.counts.items() if counts is not None else ():
            counts[name] = counts.get(name, 0) + count
    return None
