#!/usr/bin/env python3
"""Measures workloads of `bench/workloads.py`: instructions, processor time and memory, also beside another program.

bench/beside.py NAME [NAME ...] [--other PROGRAM] [--profiles FOLDER] [--caches]
bench/beside.py --grows NAME [NAME ...] [--other PROGRAM]

Instructions are what a unit of the workload takes more, by the difference of its SIZE and half of that, with one
worker. Time and memory are those of the whole; the time is the least of five runs, of both programs in turn. With
another program, which takes `run` and `table` as ours does, each row has ours, its, and how many times that is, and
tells whether both wrote the same. It needs valgrind and GNU time. FOLDER takes what callgrind tells of each run.

With `--caches` a row ends with the data that a unit misses in the first cache and in the last one, as callgrind
simulates them. With `--grows` it has the instructions where there is little and where there is about three times that,
and how many times as many that takes.
"""
import argparse
import filecmp
import os
import pathlib
import re
import subprocess
import tempfile

from workloads import GROWN, NAMES, SIZES, STANDING, lines

TOP = pathlib.Path(__file__).resolve().parent.parent
TABLES = ("table", "accounts", "above", "newest")
CELLS = {"chain": 100_000, "fan": 100_000, "cycles": 10_000, "table": 104, "accounts": 101, "above": 101, "newest": 104}
"""How many cells a unit of SIZE has, where a cell is what is counted."""
CACHES = ("--cache-sim=yes", "--I1=32768,8,64", "--D1=32768,8,64", "--LL=1048576,16,64")
"""Caches that are the same on any machine."""


def run(before, program, source, target):
    """Runs a program on a file and returns its processor seconds, and what it wrote to standard error."""
    command = [*before, program, "table" if source.stem.split(".")[0] in TABLES else "run", "--workers", "1"]
    with open(source, "rb") as read, open(target, "wb") as write, tempfile.TemporaryFile() as told:
        peer = subprocess.Popen(command, stdin=read, stdout=write, stderr=told)
        _, status, used = os.wait4(peer.pid, 0)
        peer.returncode = os.waitstatus_to_exitcode(status)
        told.seek(0)
        text = told.read().decode()
    assert peer.returncode == 0, text
    return used.ru_utime + used.ru_stime, text


def peak(program, source, target):
    """The most memory that was resident in a run, in MB."""
    return int(run(["time", "-f", "%M"], program, source, target)[1].split()[-1]) / 1024


class Workload:
    """The lines of a workload, whole and half of them, of a size, where so much is there."""

    def __init__(self, folder, name, size, *there):
        self.name, self.size, self.folder = name, size, folder
        self.whole, self.half = (folder / f"{name}.{part}.in" for part in (size, size // 2))
        for source, part in (self.whole, size), (self.half, size // 2):
            source.write_text("".join(line + "\n" for line in lines(name, part, *there)), encoding="ascii")

    def target(self, program):
        """The file that this program writes."""
        return self.folder / f"{self.name}.{pathlib.Path(program).name}.out"

    def counts(self, program, profiles=None, caches=()):
        """What callgrind counts of a unit: instructions, and with caches what it misses in the first and the last."""
        found = []
        for source in (self.whole, self.half):
            profile = f"{profiles}/{source.stem}.{pathlib.Path(program).name}" if profiles else "/dev/null"
            counting = ["valgrind", "--tool=callgrind", f"--callgrind-out-file={profile}", *caches]
            _, text = run(counting, program, source, self.target(program))
            count = [*map(int, re.search(r"Collected : ([\d ]+)", text)[1].split())]
            # (of instructions, data read and written; of what is missed in the first cache, and in the last one)
            found.append([count[0], sum(count[4:6]), sum(count[7:9])])
        print(f"# {self.name} {self.size} by {program}: {found[0][0] / 1e6:.1f} million instructions", flush=True)
        units = (self.size - self.size // 2) * CELLS.get(self.name, 1)
        return [(whole - half) / units for whole, half in zip(*found)]


def told(form, both):
    """A figure of each program, and how many times the other's ours is."""
    figures = [" and ".join(form.format(each) for each in both)]
    return figures + [f"{both[0] / both[1]:.2f}"] if len(both) == 2 else figures


def is_same(workload, programs):
    """Whether the programs wrote the same, in words."""
    return ["same" if filecmp.cmp(*map(workload.target, programs), shallow=False) else "DIFFERENT"]


def row(name, programs, folder, profiles, caches):
    """The figures of a workload as a row."""
    it = Workload(folder, name, SIZES[NAMES[name]][0])
    times = zip(*([run([], program, it.whole, it.target(program))[0] for program in programs] for _ in range(5)))
    words = [name, *told("{:.3f} s", [min(each) for each in times])]
    words[1:1] = is_same(it, programs) if len(programs) == 2 else []
    words += told("{:.1f} MB", [peak(program, it.whole, it.target(program)) for program in programs])
    counts = [*zip(*(it.counts(program, profiles, CACHES if caches else ()) for program in programs))]
    words[1:1] = told("{:,.0f}", counts[0])
    for missed in counts[1:] if caches else ():
        words += told("{:.2f}", missed)
    return f"| {' | '.join(words)} |"


def grown(name, programs, folder):
    """The instructions of a workload as a row, where there is little and where there is much."""
    workload = NAMES[name]
    size = SIZES[workload][0]
    scales = [(GROWN[workload],), (size,)] if workload in GROWN else [(size, there) for there in STANDING[workload]]
    words, ours = [name], []
    for scale in scales:
        it = Workload(folder, name, *scale)
        counts = [it.counts(program)[0] for program in programs]
        words += [f"{scale[-1]:,}", *told("{:,.0f}", counts)]
        ours.append(counts[0])
    return f"| {' | '.join([*words, f'{ours[1] / ours[0]:.2f}'])} |"


def main():
    """Measures what the words ask for."""
    words = argparse.ArgumentParser(description=__doc__.splitlines()[0])
    words.add_argument("names", nargs="+", choices=NAMES, metavar="NAME")
    words.add_argument("--other", metavar="PROGRAM")
    words.add_argument("--profiles", metavar="FOLDER")
    words.add_argument("--caches", action="store_true")
    words.add_argument("--grows", action="store_true")
    words = words.parse_args()
    ours = subprocess.run([TOP / "build"], stdout=subprocess.PIPE, text=True, check=True).stdout.rstrip("\n")
    programs = [ours, words.other] if words.other else [ours]
    with tempfile.TemporaryDirectory() as folder:
        for name in words.names:
            folder = pathlib.Path(folder)
            found = (grown(name, programs, folder) if words.grows
                     else row(name, programs, folder, words.profiles, words.caches))
            print(found, flush=True)


if __name__ == "__main__":
    main()
