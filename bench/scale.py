#!/usr/bin/env python3
"""Prints how many rounds and bytes it takes until all replicas agree, by their number and by loss.

Each replica is a process of `./sheet run` that has made EDITS changes of its own. In a round each asks one other, by
chance, for what it has, by `pull <from> 16` until the reply is `end`, and pushes the lines at itself; each line is lost
by chance. One way it remembers for each other replica how far it got without a loss, the other way it asks from 0
on each time, as `sync` does. The bytes are those of all delta lines that were sent, the lost ones too.

`bench/scale.py [SEEDS]` takes so many runs of each kind, 3 where it isn't given, and tells their means. It's a
simulation: seeds decide all of it, and no time is measured.
"""
import itertools
import subprocess
import sys
from pathlib import Path

TOP = Path(__file__).resolve().parent.parent
sys.path.insert(0, str(TOP / "tests"))
from hunt.chance import Chance
from hunt.processes import Process
from sizes import name

EDITS = 10
REPLICAS = (2, 4, 8, 16, 32)
LOSSES = (0, 10, 30, 50)
ROW = "| {replicas} | {loss} % | {rounds:.1f} | {kept:,.0f} | {again_rounds:.1f} | {again:,.0f} |"
HEAD = ("| Replicas | Lost lines | Rounds | Bytes | Rounds, from 0 on | Bytes, from 0 on |\n"
        "|---|---|---|---|---|---|")


def edited(program, number):
    """A replica that has made its changes, to a counter that all share and to cells of its own column."""
    process = Process(program, "--replica", str(number))
    process.ask(b"set A1 @tally")
    for edit in range(1, EDITS):
        line = f"add A1 {edit}" if edit % 2 else f"set {name(number, edit)} {edit}"
        process.ask(line.encode())
    return process


def asked(one, other, begin, chance, loss):
    """One replica asks another: returns how far it got without a loss, and the bytes that were sent."""
    reached, sent, is_whole = begin, 0, True
    while True:
        word, version, *line = other.ask(b"pull %d 16" % begin).split(b" ", 2)
        if word != b"delta":
            return reached, sent
        sent += len(line[0])
        begin = int(version)
        if chance.random() * 100 < loss:
            is_whole = False
            continue
        one.ask(b"push " + line[0])
        if is_whole:
            reached = begin


def run(program, replicas, loss, seed, remembers):
    """The rounds and the bytes until all agree."""
    chance = Chance(f"scale/{seed}", replicas)
    processes = [edited(program, number) for number in range(1, replicas + 1)]
    corner = f"rows A1:{name(replicas, EDITS)}".encode()
    reached, sent = {}, 0
    try:
        for rounds in itertools.count():
            if len({process.ask(corner) for process in processes}) == 1:
                return rounds, sent
            for one in range(replicas):
                other = (one + chance.randrange(1, replicas)) % replicas
                begin = reached.get((one, other), 0) if remembers else 0
                reached[one, other], more = asked(processes[one], processes[other], begin, chance, loss)
                sent += more
    finally:
        for process in processes:
            process.kill()


def mean(values):
    """The mean of some numbers."""
    return sum(values) / len(values)


def main(seeds):
    """Prints the table."""
    program = subprocess.run([TOP / "build"], stdout=subprocess.PIPE, text=True, check=True).stdout.rstrip("\n")
    print(HEAD)
    for replicas, loss in itertools.product(REPLICAS, LOSSES):
        kept, again = ([run(program, replicas, loss, seed, remembers) for seed in range(seeds)]
                       for remembers in (True, False))
        print(ROW.format(replicas=replicas, loss=loss, rounds=mean([it[0] for it in kept]),
                         kept=mean([it[1] for it in kept]), again_rounds=mean([it[0] for it in again]),
                         again=mean([it[1] for it in again])), flush=True)


if __name__ == "__main__":
    main(int(sys.argv[1]) if len(sys.argv) > 1 else 3)
