"""Tries the mutants (`edits.py`): the prover has to refuse each, over the libraries that the gate has proved.

Those of a crate that change different functions are tried at once, in a copy of the crate, by checks of these functions
alone. What such a check doesn't refuse is tried once more by itself. What a crate's checks prove is kept between them.
What an earlier run on this machine had refused, over the same files, `./test` doesn't try again (`earlier.py`).
"""
import os
import re
import shutil
import subprocess
import sys
import tempfile
import threading
from concurrent.futures import ThreadPoolExecutor
from pathlib import Path
from typing import NamedTuple

import edits
from edits import Round, Unusable
from program import TOP

sys.path.insert(0, str(TOP / "release"))
import crates
import earlier
import libraries
import tools
from tools import Fault

# The most memory that such a check took.
MEMORY = 3_000_000_000
# What a function's line says where one that it calls is refused, and nothing else.
RESTS = re.compile(r"(?:no proof: )?it calls `[^`]*`, which is not proved")
# What the prover says of a text that it can't read, which is no refusal.
UNREAD = re.compile(r"(?:\./)?src/\S+?:\d+:\d+: error: |.*\berror\[[\w-]+\]")


class Checked(NamedTuple):
    """How a check ended: its status, what it says of each function, and what else it wrote."""

    status: int
    said: dict
    lines: list


def below(known, crate):
    """Returns the repository's libraries that a crate stands on, at any distance."""
    found = {}
    for library in known[crate]:
        if library in known:
            found |= {library: None} | dict.fromkeys(below(known, library))
    return list(found)


def words(top, kit, crate):
    """Returns the words of a check of a crate over the libraries that are built below this folder."""
    known = crates.uses(top)
    rlib = {name: top / "crates" / name / "out/rlib" for name in below(known, crate)}
    root = "main" if (top / "crates" / crate / "src/main.rt").is_file() else "lib"
    found = ["--crate-name", crate, f"src/{root}.rt", "--extern", f"std={kit}/rlibs/std.rlib", "-L", f"dependency={kit}/rlibs"]
    for library in known[crate]:
        folder = rlib.get(library, kit / "rlibs")
        found += ["--extern", f"{library}={folder}/{library}.rlib"]
    for folder in rlib.values():
        found += ["-L", f"dependency={folder}"]
    return [*found, "--antt-project", f"{kit}/rattle/logic/antt-project.json", "--logic-built", f"{kit}/logic_built", "--jobs", "1"]


class Crate:
    """A copy of a crate, in which edits of it are tried."""

    def __init__(self, top, kit, name, room):
        self.folder, self.room, self.name = top / "crates" / name, room, name
        # (what runs beside the gate takes what that leaves)
        self.words = ["nice", kit / "bin/rattle", "check", *words(top, kit, name), "--incremental", room / "kept"]
        (room / "kept").mkdir()

    def check(self, trial):
        """Checks the functions of the round's edits, with its texts instead of the crate's own."""
        copy = self.room / "copy"
        shutil.rmtree(copy, ignore_errors=True)
        for part in crates.PARTS:
            if (self.folder / part).is_dir():
                shutil.copytree(self.folder / part, copy / part)
        for path, text in trial.texts.items():
            (copy / path).write_text(text)
        only = [word for edit in trial.edits for word in ("--only", edit.function)]
        ran = subprocess.run(
            [*self.words, *only], cwd=copy, stdin=subprocess.DEVNULL, stdout=subprocess.PIPE, stderr=subprocess.STDOUT, errors="replace"
        )
        lines = ran.stdout.splitlines()
        found = (re.match(rf"fn {self.name}::(.+?): (.*)", line) for line in lines)
        return Checked(ran.returncode, {it[1]: it[2] for it in found if it}, lines)

    def is_refused(self, checked, edit):
        """Whether the check refuses the function for what stands in it: not only for a function that it calls."""
        said = checked.said.get(edit.function, "proved")
        return checked.status == 1 and said != "proved" and RESTS.fullmatch(said) is None

    def alone(self, edit):
        """Tries an edit by itself. Returns why it isn't refused, or None where it is."""
        checked = self.check(Round([edit], edits.applied(edit, self.folder, {})))
        if self.is_refused(checked, edit):
            return None
        if checked.said.get(edit.function) == "proved":
            return "is still proved"
        said = next((line for line in checked.lines if UNREAD.match(line)), "".join(checked.lines[-1:]))
        return f"has no verdict (status {checked.status}): {said[:200]}"

    def faults(self, bodies):
        """Tries these edits. Returns, by its name, why each that isn't refused isn't."""
        found, usable = {}, []
        for file in bodies:
            try:
                edit = edits.read(file)
                edits.applied(edit, self.folder, {})
                usable.append(edit)
            except Unusable as fault:
                found[file.stem] = f"can't be tried: {fault}"
        for trial in edits.rounds(usable, self.folder):
            checked = self.check(trial)
            for edit in trial.edits:
                why = None if self.is_refused(checked, edit) else self.alone(edit)
                if why is not None:
                    found[edit.name] = why
        return found


def tried(top, kit, refusals, name, bodies):
    """Tries these edits of a crate, unless their refusal is stored, and shows what each came to. Returns how many were
    refused, and how many weren't."""
    stored = {it: refusals.file(name, it) for it in bodies}
    left = [it for it in bodies if not stored[it].is_file()]
    faults = {}
    if left:
        with tempfile.TemporaryDirectory(prefix="sheet-wrong-") as room:
            faults = Crate(top, kit, name, Path(room)).faults(left)
    for file in left:
        if file.stem not in faults:
            refusals.add(stored[file])
    ends = {it: faults.get(it.stem, "refused") if it in left else "refused by an earlier run" for it in bodies}
    # written at once, since crates are tried side by side
    sys.stdout.write("".join(f"mutant {name}/{it.stem}: {end}\n" for it, end in ends.items()))
    sys.stdout.flush()
    return len(bodies) - len(faults), len(faults)


def in_order(top, chosen):
    """Returns the crates of these mutants, first what is likely to take longest: many mutants over much text."""
    def work(name):
        files = (top / "crates" / name / "src").rglob("*.rt")
        return len(chosen[name]) * sum(file.stat().st_size for file in files)

    return sorted(chosen, key=work, reverse=True)


class Turns:
    """The crates whose mutants are still to be tried, in their order: each has its turn once what it stands on is proved."""

    def __init__(self, known, names, is_over):
        self.below = {name: below(known, name) for name in names}
        self.names, self.proved, self.is_over, self.changed = list(names), set(), is_over, threading.Condition()

    def note(self, name):
        """The gate has proved this crate."""
        with self.changed:
            self.proved.add(name)
            self.changed.notify_all()

    def end(self):
        """The gate is over, so nothing is waited for any more."""
        with self.changed:
            self.is_over = True
            self.changed.notify_all()

    def take(self, is_beside):
        """Returns the next crate, or None where there is none left. Where it isn't one that may run beside the gate, it
        comes after that."""
        with self.changed:
            while self.names:
                may = self.is_over or is_beside
                is_ready = (name for name in self.names if self.is_over or self.proved.issuperset(self.below[name]))
                found = next(is_ready, None) if may else None
                if found is not None:
                    self.names.remove(found)
                    return found
                self.changed.wait()
        return None


class Trials:
    """The mutants of every crate, or of one, and whose turn it is."""

    def __init__(self, top, only="", is_over=True):
        self.top = top
        self.chosen = {name: files for name, files in edits.of_crates(top).items() if files and only in ("", name)}
        self.turns = Turns(crates.uses(top), in_order(top, self.chosen), is_over)

    def lane(self, kit, is_beside):
        """Tries the mutants of one crate after another. Returns how many were refused, and how many weren't."""
        refused, failed = 0, 0
        while (name := self.turns.take(is_beside)) is not None:
            counts = tried(self.top, kit, self.refusals, name, self.chosen[name])
            refused, failed = refused + counts[0], failed + counts[1]
        return refused, failed

    def counts(self):
        """Tries all of them, in one lane beside the gate and in as many as there are processors after it. Returns how
        many were refused, and how many weren't."""
        kit = tools.folder()
        self.refusals = earlier.Refusals(self.top, kit, earlier.place())
        lanes = max(1, min(len(os.sched_getaffinity(0)), libraries.free_memory() // MEMORY))
        with ThreadPoolExecutor(lanes) as pool:
            counts = list(pool.map(lambda number: self.lane(kit, number == 0), range(lanes)))
        return sum(refused for refused, _ in counts), sum(failed for _, failed in counts)
