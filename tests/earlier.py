"""What earlier runs on this machine had refused, so that `./test` needn't try a mutant again.

A refusal rests on the kit, on the files of the crate and of those below it, on the mutant, and on how mutants are tried.
It is stored under a sum over all of these, as the gate stores its proofs. Whoever can write there is trusted.
"""
import functools
import hashlib
import os
from pathlib import Path

import crates
import tools

# How mutants are applied and tried.
JUDGES = [Path(__file__).parent / name for name in ("edits.py", "wrong.py")]


def place():
    """Returns the folder in which refusals are stored."""
    return Path(os.environ.get("XDG_CACHE_HOME") or Path.home() / ".cache") / "sheet-mutants"


def sum_of(parts):
    """Returns a sum over these bytes, each with its length."""
    found = hashlib.sha256()
    for part in parts:
        found.update(b"%d " % len(part) + part)
    return found.hexdigest()


class Refusals:
    """The refusals that are stored for the mutants of this repository."""

    def __init__(self, top, kit, folder):
        self.top, self.known, self.folder = top, crates.uses(top), folder
        self.judged = sum_of([tools.identity(kit).encode(), *(file.read_bytes() for file in JUDGES)])
        self.sum_of_crate = functools.cache(self.crate)

    def crate(self, name):
        """Returns a sum over the files of a crate, and over those of the repository's crates below it."""
        folder = self.top / "crates" / name
        files = sorted(it for part in crates.PARTS for it in (folder / part).rglob("*") if it.is_file())
        own = [each for it in files for each in (str(it.relative_to(folder)).encode(), it.read_bytes())]
        libraries = self.known[name]
        below = [self.sum_of_crate(it).encode() for it in libraries if it in self.known]
        return sum_of([" ".join(libraries).encode(), *below, *own])

    def file(self, name, mutant):
        """Returns the file that stands for the refusal of a crate's mutant, by the files as they are now."""
        return self.folder / sum_of(it.encode() for it in (self.judged, self.sum_of_crate(name), mutant.read_text()))

    def add(self, file):
        """Stores a refusal, where that can be done: else the mutant is tried again by the next run."""
        try:
            self.folder.mkdir(parents=True, exist_ok=True)
            file.touch()
        except OSError:
            pass
