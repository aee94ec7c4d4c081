#!/usr/bin/env python3
"""Tells what a start over a kept file costs, beside `squash` over it and then a start over what that leaves.

starts.py budget EDITS [EDITS ..]   a budget of 1,000 rows and so many edits of its amounts
starts.py team DAYS [DAYS ..]       what 500 people change on so many days, as in `team.py`

Times are of processors, as in `team.py`; memory is the most that was resident.
"""
import collections
import pathlib
import random
import subprocess
import sys
import tempfile

from team import OFFICE, built, digest_line, lines_of, seconds, size, squash, start, year
from workloads import lines

PEOPLE, ROUNDS = 500, 3


def budget(program, edits, folder, told):
    """Has a budget kept in a file, adds so many edits of amounts as lines, and tells of it."""
    file, draw, times = folder / "kept.lines", random.Random("budget"), collections.Counter()
    words = [program, "run", "--replica", str(OFFICE), "--keep", str(file)]
    given = "".join(line + "\n" for line in lines("budget", 1)).encode()
    subprocess.run(words, input=given, stdout=subprocess.DEVNULL, stderr=subprocess.DEVNULL, check=True)
    begin, text = file.read_bytes().splitlines(keepends=True)[-1], bytearray()
    for _ in range(edits):
        cell = f"{draw.choice('BCGHIJKL')}{draw.randrange(1, 1001)}"
        times[cell] += 1
        text += f'push [["{cell}",[{times[cell] + 2},{OFFICE},"{draw.randrange(1, 1000)}"],[],[]]]\n'.encode()
    with open(file, "ab") as kept:
        kept.write(text + digest_line(begin + text))
    told(edits, file)


def team(program, days, folder, told):
    """Has a team's days kept in a file, and tells of it."""
    year(program, PEOPLE, days, folder, lambda passed, file: told(days, file) if passed == days else None)


def row(program, what, count, file):
    """Prints what a kept file costs."""
    small = file.with_suffix(".small")
    took, memory = start(program, file)
    squashed = min(squash(program, file, small) for _ in range(ROUNDS))
    again, less = start(program, small)
    every = lines_of(file)
    print(f"| {what} {count:,} | {every:,} lines, {size(file.stat().st_size)} | start {seconds(took)} | "
          f"squash {seconds(squashed)} to {size(small.stat().st_size)} | start then {seconds(again)} | "
          f"{took / (squashed + again):.2f} | {size(memory)}, then {size(less)}; "
          f"{(memory - less) / every:.0f} bytes a line more |", flush=True)


def main():
    """Measures what the words ask for."""
    what, *counts = sys.argv[1:]
    program = built()
    for count in map(int, counts):
        with tempfile.TemporaryDirectory(prefix="starts-") as folder:
            {"budget": budget, "team": team}[what](
                program, count, pathlib.Path(folder), lambda size, file: row(program, what, size, file))


if __name__ == "__main__":
    main()
