"""The command `./test --hunt MINUTES [--seed NUMBER] [--only PART]`, and `./test --hunt --replay FILE`."""
import argparse
import random
import tempfile
import time


from . import finds, runs
from .finds import Hunt
from .parts import PARTS

# So many finds end a hunt, and each so many seconds it tells how far it is.
MOST_FINDS, TELLS = 20, 60
NAMES = [part.name for part in PARTS]


def asked(words):
    """What the words ask for."""
    parser = argparse.ArgumentParser(prog="./test", description="Looks for trouble by chance; docs/TESTING.md.")
    parser.add_argument("--hunt", metavar="MINUTES", type=float, nargs="?", help="how long")
    parser.add_argument("--seed", metavar="NUMBER", type=int, help="which plans; any where it isn't given")
    parser.add_argument("--only", metavar="PART", choices=NAMES, help=f"one part alone: {', '.join(NAMES)}")
    parser.add_argument("--replay", metavar="FILE", help="runs the plan of a find once more")
    ask = parser.parse_args(words)
    if (ask.hunt is None) == (ask.replay is None):
        parser.error("either how long has to be told, or what to replay")
    return ask


def found(hunt, find, folder):
    """Makes a find smaller, writes it down and tells of it."""
    path, about = hunt.keep(find, folder or tempfile.mkdtemp(prefix="hunt-"))
    print(f"hunt: found {path}\n{about}", flush=True)
    return path.parent


class Turns:
    """Whose turn it is: that of the part that has had the least time."""

    def __init__(self, parts):
        self.parts = parts
        self.had = dict.fromkeys(parts, 0.0)

    def next(self):
        """The part whose turn it is."""
        return min(self.parts, key=self.had.get)

    def take(self, part, work):
        """What the work of a part gives, whose time is counted."""
        begun = time.monotonic()
        try:
            return work(part)
        finally:
            self.had[part] += time.monotonic() - begun


def hunted(hunt, seconds):
    """Hunts as long as that, and returns how many finds there are."""
    turns, count, folder = Turns(hunt.parts), 0, None
    begun = told_at = time.monotonic()
    while (now := time.monotonic()) <= begun + seconds and count < MOST_FINDS:
        if now > told_at + TELLS:
            print(hunt.told(), flush=True)
            told_at = now
        find = turns.take(turns.next(), hunt.compare)
        if find is not None:
            folder = found(hunt, find, folder)
            count += 1
    return count


def replayed(file):
    """Runs the plan of a find once more, and returns how many finds there are."""
    name, plan = finds.read(file)
    trouble = PARTS[NAMES.index(name)]().trouble(plan)
    if trouble is not None:
        print(trouble)
    return int(trouble is not None)


def main(words):
    """Hunts as the words ask, and returns the exit status."""
    ask = asked(words)
    if ask.replay is not None:
        count = replayed(ask.replay)
        print(f"{1 - count} passed, {count} failed")
        return count
    seed = random.randrange(1_000_000) if ask.seed is None else ask.seed
    print(f"hunt: seed {seed}", flush=True)
    asked_for = [part for part in PARTS if ask.only in (None, part.name)]
    lacking = [part for part in asked_for if part.lacks()]
    for part in lacking:
        print(f"hunt: no {part.name}, since {part.lacks()}")
    hunt = Hunt(seed, [part() for part in asked_for if part not in lacking])
    count = hunted(hunt, ask.hunt * 60) if hunt.parts else 0
    print(hunt.told())
    skipped = f", {len(lacking)} skipped" if lacking else ""
    print(f"{sum(hunt.numbers.values()) - count} passed, {count} failed{skipped}")
    return 1 if count else 0
