"""The hunt itself: it runs one plan after another of its parts, and keeps those that show a trouble."""
import sys
from pathlib import Path
from typing import NamedTuple

from program import TOP

from . import plans, shrink
from .scripts import Script

ABOUT = """\
{trouble}

It is {part} {number} of seed {seed}, made smaller: {length} steps or lines are left of {whole}. Once more:
$ {test} --hunt --replay {path}
"""


class Find(NamedTuple):
    """A plan of a part that shows a trouble, with its number."""

    part: object
    number: int
    plan: object
    trouble: str


def shrunk(find):
    """The same find with a smaller plan, or as it is where it doesn't come again."""
    plan = shrink.shrunk(find.plan, lambda it: find.part.trouble(it) is not None)
    trouble = find.part.trouble(plan)
    return find if trouble is None else find._replace(plan=plan, trouble=trouble)


def write_down(find, seed, whole, folder):
    """Writes the find into a folder of its own in this one, and returns the folder's path and what it is about."""
    folder = Path(folder) / f"seed-{seed}-{find.part.name}-{find.number}"
    folder.mkdir()
    path = folder / "plan"
    path.write_text(plans.written(find.part.name, find.plan))
    about = ABOUT.format(trouble=find.trouble, part=find.part.name, number=find.number, seed=seed,
                         length=len(find.plan.parts), whole=whole, test=TOP / "test", path=path)
    (folder / "about").write_text(about)
    if isinstance(find.plan, Script):
        (folder / "given").write_bytes(find.plan.given())
    return folder, about


def read(path):
    """The name of the part, and the plan, that this file has."""
    return plans.read(Path(path).read_text())


class Hunt:
    """Runs plans of a seed, each part's one after another, and counts."""

    def __init__(self, seed, parts):
        self.seed = seed
        self.parts = parts
        self.numbers = dict.fromkeys([part.name for part in parts], 0)

    def compare(self, part):
        """The find that the part's next plan is, or nothing."""
        number = self.numbers[part.name]
        self.numbers[part.name] += 1
        plan = part.plan(self.seed, number)
        try:
            trouble = part.trouble(plan)
        except Exception as error:
            # what the hunt itself didn't reckon with is a find too
            print(f"hunt: {part.name} {number} of seed {self.seed}", file=sys.stderr)
            trouble = f"{type(error).__name__}: {error}"
        return None if trouble is None else Find(part, number, plan, trouble)

    def first(self, part, most):
        """The first find among the part's next plans, so many at most, or nothing."""
        finds = (self.compare(part) for _ in range(most))
        return next((find for find in finds if find is not None), None)

    def keep(self, find, folder):
        """Makes the find smaller and writes it into the folder; returns the path, and what it is about."""
        return write_down(shrunk(find), self.seed, len(find.plan.parts), folder)

    def told(self):
        """What was run so far."""
        plans_run = (f"{self.numbers[part.name]} {part.name}{part.told()}" for part in self.parts)
        return f"hunt: {'; '.join(plans_run)}"
