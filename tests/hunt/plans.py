"""Plans: what a part of the hunt does, step by step, and how a plan is written down so that it can be run again.

A plan has steps, each of them a tuple of a word and of numbers and bytes, and settings that hold for all of them. Any
steps may be left out: each is passed over where it has no sense without those before it.
"""
import json
from typing import NamedTuple

from .scripts import Script


class Plan(NamedTuple):
    """Steps and settings of a part of the hunt."""

    settings: dict
    parts: tuple

    def simpler(self):
        """Changes that make it simpler, besides leaving steps out."""
        for name, least in (("workers", 1), ("fault", None)):
            if self.settings.get(name, least) != least:
                yield {"settings": {**self.settings, name: least}}


def written_part(part):
    """A part as a JSON value: a line as a text, a step as an array."""
    if type(part) is bytes:
        return part.decode("latin-1")
    return [written_part(it) if type(it) is bytes else it for it in part]


def read_part(value):
    """The part with this JSON value."""
    if type(value) is str:
        return value.encode("latin-1")
    word, *rest = value
    return (word, *(it.encode("latin-1") if type(it) is str else it for it in rest))


def written(part, plan):
    """The text of a plan of a part of the hunt: a line with what holds for all, then one for each step."""
    settings = plan._asdict()
    parts = settings.pop("parts")
    return "".join(f"{json.dumps(it)}\n" for it in ({"part": part, **settings}, *map(written_part, parts)))


def read(text):
    """The part of the hunt and the plan that this text has."""
    head, *parts = map(json.loads, text.splitlines())
    part, parts = head.pop("part"), tuple(map(read_part, parts))
    if "words" in head:
        return part, Script(tuple(head["words"]), parts, head["piece"])
    return part, Plan(head["settings"], parts)
