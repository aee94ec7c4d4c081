"""A server of a run, with its sessions and followers; where it keeps its sheet it may be killed, and goes on."""
import time
from pathlib import Path

from program import DEVICE_FAILED, broken, lines, silent
from servers import comes_to

from . import kept
from .channels import Broken
from .deltas import EMPTY, delta_line, joined
from .histories import Wrong
from .talks import CLOCK, Talk

# How many deltas a follower is handed at once at most.
LARGEST_GROUP = 16


def killed(port):
    """How a follower may end whose server on this port is killed: it is closed, broken off, amid a reply, or before or
    while it connects."""
    unreached = DEVICE_FAILED + lines(f"port {port} can't be connected to")
    closed = lines("err 15 line", f"port {port}: the connection ended")
    return (0, b""), (1, broken(port)), (3, closed), (1, silent(port)), (1, unreached)


def followed_to(deltas, written):
    """How many of these deltas a follower has written, group by group, in order and each once."""
    place = 0
    for line in written.split(b"\n")[:-1]:
        group, begin = {}, place
        while True:
            if place == min(len(deltas), begin + LARGEST_GROUP):
                raise Wrong(f"after {begin} of {len(deltas)} changes a follower writes\n{line[:600]!r}")
            for cell, state in deltas[place].items():
                group[cell] = joined(group.get(cell, EMPTY), state)
            place += 1
            # (each delta adds something to those before it, so no two groups from one place on have the same line)
            if line == b"push " + delta_line(group):
                break
    return place


class House:
    """A server, its sessions by their numbers, and how many it still waits for."""

    def __init__(self, start, words, counts, folder=None):
        self.start, self.sessions, self.followers = start, *counts
        self.file = Path(folder) / "kept.lines" if folder else None
        self.words = (*words, *(("--keep", str(self.file)) if folder else ()))
        self.talks, self.past = {}, []
        self.handed, self.followed, self.journals, self.deltas, self.left = [], [], [], [], []
        self.begin(0)

    def begin(self, opened):
        """Starts the server, which opens so many changes."""
        self.opened = opened
        self.count, self.room = self.sessions, self.followers
        self.server = self.start(self.sessions, self.words)
        self.talks = {}

    def talk(self, number):
        """The session with this number, which is begun where it hasn't been."""
        if number not in self.talks:
            self.talks[number] = Talk(self.server.connect(number % 3 == 0), self.opened)
            self.count -= 1
        return self.talks[number]

    def all_talks(self):
        """All sessions that there were."""
        return [*self.past, *self.talks.values()]

    # -- Followers

    def follow(self, every):
        """Has a follower begin, where one more is allowed for."""
        if self.room > 0:
            self.room -= 1
            self.count -= 1
            self.followed.append(Followed(self.server.follow(every)))

    def journal(self):
        """Has a follower write what there is now, where one more is allowed for."""
        if self.room > 0:
            self.room -= 1
            self.count -= 1
            begun = next(CLOCK)
            ended = self.server.follow_until_now()
            if (ended.status, ended.error) != (0, b"") or not (b"\n" + ended.output).endswith(b"\n"):
                raise Broken(f"follow --until-now ends with {ended}")
            self.journals.append((begun, next(CLOCK), ended.output))

    def following(self):
        """How many followers go on, once each has its connection."""
        going_on = [it.follower for it in self.followed if it.output is None]
        for it in going_on:
            if not comes_to(it.is_connected):
                raise Broken("a follower has no connection")
        return len(going_on)

    def wait_for_followers(self):
        """Waits until each follower has all, and stops it."""
        for it in self.followed:
            it.wait(self.deltas)

    # -- A kept sheet

    def crash(self, pause):
        """Kills the server after a pause of so many millionths of a second, and starts another from its file."""
        if self.file is None:
            return
        time.sleep(pause / 1e6)
        error = self.server.kill()
        content = self.file.read_bytes() if self.file.exists() else b""
        count = kept.changes_in(content)
        self.left.append((kept.whole_lines(kept.without_any_digests(content)), content))
        # (it may be amid the line, and not have begun it, since it tells first that it listens)
        if not any(told.startswith(error) for told in self.all_told()):
            raise Broken(f"a server that opens {self.opened} changes tells\n{error!r}")
        for talk in self.talks.values():
            if talk.is_open:
                talk.lose()
            talk.last = count
        for it in self.followed:
            it.lose(count)
        self.past += self.talks.values()
        self.begin(count)

    def all_told(self):
        """What a server can have told that keeps its sheet, which doesn't know who brought which change."""
        replica = int(self.words[self.words.index("--replica") + 1])
        return kept.told(self.file, self.opened), kept.told(self.file, self.opened, replica)

    def compare_end(self, ended, count):
        """The server has ended well after so many changes, and its file has them all."""
        is_told = ended.error in self.all_told() if self.file else ended.error == b""
        if (ended.status, ended.output) != (0, b"closed %d\n" % count) or not is_told:
            raise Broken(f"after {count} changes, of which it has opened {self.opened}, the server ends with {ended}")

    def compare_file(self, replica):
        """The file has all changes, and had a beginning of them after each crash."""
        if self.file is None:
            return
        wanted, found = kept.text_of(replica, self.deltas), kept.without_digests(self.file.read_bytes())
        if found != wanted:
            raise Wrong(f"the file ends with\n{found[-600:]!r}\nand has to with\n{wanted[-600:]!r}")
        for whole, content in self.left:
            if not wanted.startswith(whole):
                raise Wrong(f"a crash leaves\n{content[-600:]!r}\nand another history goes on")

    def close(self):
        """Ends all that still runs."""
        for talk in self.all_talks():
            talk.channel.close()
        for it in self.followed:
            it.follower.close()
        self.server.kill()


class Followed:
    """A follower, and how many changes at most it can have written when its server was killed."""

    def __init__(self, follower):
        self.follower = follower
        self.last = None
        self.output = None

    def lose(self, count):
        """Waits for its end, since its server is gone, whose file has so many changes."""
        if self.output is None:
            ended = self.follower.ended()
            if (ended.status, ended.error) not in killed(self.follower.port):
                raise Broken(f"a follower whose server is killed ends with {ended}")
            self.output, self.last = ended.output, count

    def wait(self, deltas):
        """Waits until it has all of these, and stops it; of one whose server was killed, it has some of those."""
        if self.output is not None:
            count = followed_to(deltas, self.output)
            if count > self.last:
                raise Wrong(f"a follower has written {count} changes, of which the server has kept {self.last}")
            return
        deadline = time.monotonic() + self.follower.patience
        while followed_to(deltas, self.follower.written()) < len(deltas):
            if time.monotonic() > deadline:
                raise Wrong(f"a follower has written {self.follower.written()[-600:]!r} at last, which isn't all")
            time.sleep(0.005)
        written = self.follower.written()
        if followed_to(deltas, written) != len(deltas) or not (b"\n" + written).endswith(b"\n"):
            raise Wrong(f"a follower has written {written[-600:]!r} at last")
        self.follower.close()
