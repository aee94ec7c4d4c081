"""The parts of the hunt: each makes plans by chance, and tells what is wrong with what comes of one."""
import tempfile

import browser
from program import NO_BROWSER

from . import (
    channels, costs, pages, processes, replicas, replicas_by_chance, runs, sessions, sessions_by_chance, shortages,
    themes,
)

DIFFERS = """\
$ ./sheet {words}
{cuts}It differs first at line {place} of the output, where the model has
{model}
and the program
{program}"""
CUTS = "The input is cut into pieces of at most {} bytes.\n"


def first_difference(model, program):
    """The number of the first line that differs, from 1 on, and what both have there."""
    one, other = (ended.output.split(b"\n") for ended in (model, program))
    for place, (left, right) in enumerate(zip(one, other), 1):
        if left != right:
            return place, left, right
    return min(len(one), len(other)), model._replace(output=b"..."), program._replace(output=b"...")


class Part:
    """A part of the hunt."""

    name = ""

    def __init__(self):
        self.counts = {}

    @classmethod
    def lacks(cls):
        """Why it can't hunt on this machine, or nothing."""
        return None

    def told(self):
        """What it has counted."""
        counts = ", ".join(f"{count} {name}" for name, count in self.counts.items())
        return f" ({counts})" if counts else ""

    def plan(self, seed, number):
        """The plan with this number."""
        raise NotImplementedError

    def trouble(self, plan):
        """What is wrong with what comes of the plan, or nothing."""
        raise NotImplementedError


class Scripts(Part):
    """Scripts and tables, whose replies are compared with the model's byte for byte."""

    name = "scripts"

    def __init__(self, by_program=runs.by_program):
        super().__init__()
        self.by_program = by_program

    def plan(self, seed, number):
        return themes.script(seed, number)

    def trouble(self, plan):
        self.counts["lines"] = self.counts.get("lines", 0) + len(plan.parts)
        model, program = runs.by_model(plan), self.by_program(plan)
        if model == program:
            return None
        place, left, right = first_difference(model, program)
        cuts = CUTS.format(plan.piece) if plan.piece else ""
        return DIFFERS.format(words=" ".join(plan.words), cuts=cuts, place=place, model=left, program=right)


class Replicas(Part):
    """Replicas that edit apart and meet again."""

    name = "replicas"

    def __init__(self, start=None):
        super().__init__()
        self.start = start or (lambda *words: processes.Process(runs.PROGRAM, *words))

    def plan(self, seed, number):
        return replicas_by_chance.plan(seed, number)

    def trouble(self, plan):
        return replicas.trouble(plan, self.start, self.counts)


def serve(count, words, _):
    """A server of the program."""
    return channels.Server(runs.PROGRAM, count, words)


class Sessions(Part):
    """Sessions side by side at one or two servers."""

    name = "sessions"

    def __init__(self, start=serve, sync=None):
        super().__init__()
        self.start = start
        self.sync = sync or (lambda *servers: sessions.synced(runs.PROGRAM)(*servers))

    def plan(self, seed, number):
        return sessions_by_chance.plan(seed, number)

    def trouble(self, plan):
        return sessions.trouble(plan, self.start, self.sync, self.counts)


class Faults(Part):
    """Scripts and sessions beside calls of the C library that fail or are cut short."""

    name = "faults"

    def __init__(self):
        super().__init__()
        self.folder = tempfile.TemporaryDirectory(prefix="hunt-")
        self.library = shortages.library(self.folder.name)

    def plan(self, seed, number):
        return shortages.plan(seed, number)

    def trouble(self, plan):
        if "words" in plan.settings:
            self.counts["scripts"] = self.counts.get("scripts", 0) + 1
            return shortages.of_script(self.library, plan.settings, plan.parts)
        return sessions.trouble(plan, shortages.serve(self.library), None, self.counts)


class Pages(Part):
    """Two browsers at the page of one server."""

    name = "pages"

    def __init__(self, fault=None):
        super().__init__()
        self.fault = fault

    @classmethod
    def lacks(cls):
        return None if browser.program() else NO_BROWSER

    def plan(self, seed, number):
        return pages.plan(seed, number)

    def trouble(self, plan):
        return pages.trouble(plan, self.counts, self.fault)


class Costs(Part):
    """The dearest change lines, made of the dearest before."""

    name = "costs"

    def __init__(self, start=None):
        super().__init__()
        self.start = start or (lambda: costs.Timed(runs.PROGRAM))
        self.dearest = costs.Dearest()

    def told(self):
        return f" (the dearest: {self.dearest.most})"

    def plan(self, seed, number):
        return self.dearest.plan(seed, number)

    def trouble(self, plan):
        return costs.trouble(plan, self.start, self.dearest)


PARTS = (Scripts, Replicas, Sessions, Faults, Costs, Pages)
