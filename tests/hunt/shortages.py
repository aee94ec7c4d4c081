"""Faults by chance: calls of the C library that fail or are cut short, beside scripts and beside sessions.

A program with a fault is started with the library of `calls.c`. What comes is then what `docs/FORMATS.md` allows. A
call that is cut short changes nothing. A line may be answered that memory is lacking, and then it changes nothing. An
input that fails is answered up to its last whole line, and an output that fails has a beginning of what was due.
"""
import contextlib
import errno
import os
import struct
import subprocess
from pathlib import Path
from typing import NamedTuple

import preloaded
from program import LIMIT, Ended

from . import channels, contents, runs, sessions_by_chance, themes
from .chance import Chance
from .histories import OUT_OF_MEMORY
from .plans import Plan
from .processes import first_reply
from .scripts import Script
from .session import Session, lines_of

ALL = 2**64 - 1
# How many calls the program makes a second at least, on a machine that does much else.
SLOW_CALLS = 5_000
NO_DEVICE = contents.refusal("device")
# What may fail of each kind of call, by its letter; 0 where it is cut to one byte.
ERRORS = {"m": (errno.ENOMEM,), "r": (0, 0, errno.EIO), "w": (0, 0, errno.EIO, errno.ENOSPC),
          "a": (errno.EINTR, errno.ECONNABORTED, errno.ENOBUFS)}
# The first words of lines that take memory.
TAKING = (b"set", b"push", b"merge", b"add", b"sub", b"choose", b"unchoose", b"rows", b"pull", b"entry",
          b"entries")


def library(folder):
    """The library of `calls.c`, built in this folder."""
    path = Path(folder) / "calls.so"
    if not path.exists():
        preloaded.build("hunt/calls.c", path)
    return path


def fault(chance, calls):
    """A fault by chance of one of these kinds of calls: its letter, the first and last call, and the error."""
    call = chance.of(calls)
    first = chance.of((1, 2, 3, chance.randint(1, 20), chance.randint(1, 300), chance.randint(1, 3_000)))
    error = chance.of(ERRORS[call])
    # (what fails for ever but an interrupted call, which would be made again for ever)
    lasting = (first, first, first + chance.randint(1, 50)) if error in (errno.EINTR, errno.ECONNABORTED) else (
        first, first + chance.randint(1, 50), ALL)
    return [call, first, chance.of(lasting), error]


class Counts(NamedTuple):
    """How many calls of the kind that is meant a program has made, the bytes it has read and written, its syncs, and
    the number of the folder that it has synced last."""

    calls: int
    read: int
    written: int
    syncs: int
    folder: int


def counted(counts):
    """What this file has counted so far."""
    return Counts(*struct.unpack("QQQQQ", os.pread(counts.fileno(), 40, 0)))


@contextlib.contextmanager
def spoiling(path, fault):
    """How a program with a fault is started, and the file that counts its calls."""
    call, first, last, error = fault
    with open(os.memfd_create("calls"), "r+b") as counts:
        counts.truncate(40)
        told = {"FAULT_CALL": call, "FAULT_FIRST": first, "FAULT_LAST": last, "FAULT_ERROR": error,
                "FAULT_COUNTS": counts.fileno()}
        env = preloaded.before(path, **{name: str(it) for name, it in told.items()})
        yield {"env": env, "pass_fds": [counts.fileno()]}, counts


def patience(script):
    """How many seconds a program may take: each byte of the script may be a call of its own."""
    return LIMIT + len(script.given()) / SLOW_CALLS


def run(path, script, fault):
    """How the program ends on a script with a fault, and how many bytes it has read and written."""
    with spoiling(path, fault) as (how, counts), runs.file_of(script.given()) as given, runs.file_of() as output:
        try:
            words = [runs.PROGRAM, *script.words]
            files = {"stdin": given, "stdout": output, "stderr": subprocess.PIPE}
            ran = subprocess.run(words, timeout=patience(script), **files, **how)
            status, error = ran.returncode, ran.stderr
        except subprocess.TimeoutExpired:
            status, error = None, b"it didn't end"
        output.seek(0)
        return Ended(status, output.read(), error), counted(counts).read


# -- What may come

def lacking(script, output):
    """The first place at which the replies of a session that lacks memory now and then can't be so, or nothing."""
    session, place = Session(runs.option(script, "--replica", 1)), 0
    for line in lines_of(script.given()):
        takes = line.split(b" ", 1)[0] in TAKING
        if takes and output.startswith(OUT_OF_MEMORY + b"\n", place):
            place += len(OUT_OF_MEMORY) + 1
            continue
        reply = session.reply(line)
        if reply is None:
            continue
        if not output.startswith(reply + b"\n", place):
            found = first_reply(output, place)
            return f"{line[:300]!r} is answered\n{found[:300]!r}\nand the model has\n{reply[:300]!r}"
        place += len(reply) + 1
    return None if place == len(output) else f"more is written: {output[place:][:300]!r}"


def whole(script):
    """How the script ends without a fault."""
    return runs.by_model(script)


def short_of_memory(script, ended):
    """What is wrong with how a script ended where memory was refused, or nothing."""
    if ended == Ended(3, b"", OUT_OF_MEMORY + b"\n"):
        return None
    if script.words[0] == "table":
        return None if ended == whole(script) else f"it ends with {ended}"
    if (ended.status, ended.error) != (0, b""):
        return f"it ends with {ended._replace(output=ended.output[-200:])}"
    return lacking(script, ended.output)


def unread(script, ended, read):
    """What is wrong where the input failed after so many bytes, or nothing."""
    if ended == whole(script):
        return None
    given = script.given()[:read]
    output = b""
    if script.words[0] == "run":
        output = runs.by_model(script._replace(parts=(given[:given.rfind(b"\n") + 1],))).output
    wanted = Ended(1, output, NO_DEVICE + b"\n")
    return None if ended == wanted else f"after {read} bytes were read it ends with\n{ended}\nthe model with\n{wanted}"


def unwritten(script, ended):
    """What is wrong where the output failed, or nothing."""
    due = whole(script)
    if ended == due:
        return None
    if (ended.status, ended.error) in ((1, NO_DEVICE + b"\n"), (1, b"")) and due.output.startswith(ended.output):
        return None
    return f"it ends with\n{ended}\nand without a fault with\n{due}"


def of_script(path, settings, parts):
    """What is wrong with how a script ends with a fault, or nothing."""
    script, fault = Script(tuple(settings["words"]), parts), settings["fault"]
    if fault is None:
        return None
    ended, read = run(path, script, fault)
    call, _, _, error = fault
    if call == "m":
        return short_of_memory(script, ended)
    if error == 0:
        return None if ended == whole(script) else f"calls are cut short, and it ends with\n{ended}"
    return unread(script, ended, read) if call == "r" else unwritten(script, ended)


# -- Plans

def serve(path):
    """How a server with a fault is started."""
    def start(count, words, fault):
        if fault is None:
            return channels.Server(runs.PROGRAM, count, words)
        with spoiling(path, fault) as (how, _):
            return channels.Server(runs.PROGRAM, count, words, **how)
    return start


def harmless(chance):
    """A fault that sessions don't notice: calls that are cut short, and connections that are interrupted."""
    call, first, last, _ = fault(chance, "rwwa")
    if call == "a":
        return [call, first % 16 + 1, first % 16 + 1 + chance.randint(0, 3), chance.of(ERRORS["a"][:2])]
    return [call, first, last, 0]


def plan(seed, number):
    """The plan with this number: mostly a script, and else sessions."""
    chance = Chance(f"{seed}/faults", number)
    if chance.once_in(6):
        plan = sessions_by_chance.plan(f"{seed}/faults", number)
        settings = {**plan.settings, "servers": 1, "syncs": 0, "fault": harmless(chance)}
        return plan._replace(settings=settings)
    script = themes.script(f"{seed}/faults", number)
    return Plan({"words": list(script.words), "fault": fault(chance, "mmmrw")}, script.parts)
