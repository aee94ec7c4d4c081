#!/usr/bin/env python3
"""Pushes sixteen deltas of some 218 KB each at `./sheet run`, and tells how long a pull of sixteen takes beside one.

The forms: `pairs`, no two deltas with a pair in common; `near`, pairs that are nearly all common, so that no join
fits a line and each is only a little too long; `counts`, counters like that; `texts`, other cells in each delta;
`again`, the same cells in each delta but the first.

`bench/pulls.py FORM REPEATS` takes processor time; with `count` as a third word, instructions by `valgrind`, of the
program that `./sheet` has built.
"""
import itertools
import pathlib
import re
import resource
import subprocess
import sys

LINE = 218_000
COLUMNS = 104


def name(index):
    column, row = index % COLUMNS, index // COLUMNS + 1
    letters = chr(65 + column) if column < 26 else chr(64 + column // 26) + chr(65 + column % 26)
    return f"{letters}{row}"


def filled(items):
    """As many of the items as a line of 218 KB has room for."""
    length, taken = 0, []
    for item in items:
        length += len(item) + 1
        if length > LINE:
            break
        taken.append(item)
    return taken


def all_pairs():
    for option, replica, sequence in itertools.product(range(10, 64), range(1, 33), range(100, 257)):
        yield f"[{option},{replica},{sequence},0]"


def all_counts():
    for index in range(20_000):
        counts = ",".join(f"[{replica},{2**40},{2**40}]" for replica in range(1, 33))
        yield f'["{name(index)}",null,[{counts}],[]]'


def all_texts(time):
    for index in range(COLUMNS * 1024):
        formula = "=" + "+".join(["[.CZ1024]"] * 25)
        yield f'["{name(index)}",[{time},1,"{formula}"],[],[]]'


def after(items, count):
    return filled(itertools.islice(items, count, None))


def of_pairs(pairs):
    return f'[["A1",null,[],[{",".join(pairs)}]]]'


def of_cells(cells):
    return f'[{",".join(cells)}]'


def deltas(form):
    if form == "pairs":
        size = len(filled(all_pairs())) - 5
        every = list(itertools.islice(all_pairs(), 16 * size))
        return [of_pairs(every[k * size:(k + 1) * size]) for k in range(16)]
    if form == "near":
        size, more = len(filled(all_pairs())) - 5, 3_500
        every = list(all_pairs())
        first = of_pairs(every[:size])
        return [first] + [of_pairs(every[more + k:more + k + size]) for k in range(15)]
    if form == "counts":
        size, more = len(filled(all_counts())), 60
        every = list(itertools.islice(all_counts(), size + more + 15))
        return [of_cells(every[:size])] + [of_cells(every[more + k:more + k + size]) for k in range(15)]
    if form == "texts":
        size = len(filled(all_texts(1))) - 5
        every = list(itertools.islice(all_texts(1), 16 * size))
        return [of_cells(every[k * size:(k + 1) * size]) for k in range(16)]
    size = len(filled(all_texts(1))) - 5
    first = of_cells(list(itertools.islice(all_texts(1), size)))
    return [first] + [of_cells(list(itertools.islice(all_texts(k + 2), size, 2 * size))) for k in range(15)]


def last_reply(done):
    """The last reply's word and version."""
    return b" ".join(done.stdout[done.stdout.rstrip().rfind(b"\n") + 1:].split()[:2]).decode()


def milliseconds(text):
    """Processor time of the user of a run, the least of three, and the last reply's version."""
    best = None
    for _ in range(3):
        before = resource.getrusage(resource.RUSAGE_CHILDREN).ru_utime
        done = subprocess.run([TOP / "sheet", "run"], input=text.encode(), stdout=subprocess.PIPE, check=True)
        took = (resource.getrusage(resource.RUSAGE_CHILDREN).ru_utime - before) * 1e3
        best = took if best is None else min(best, took)
    return best, last_reply(done)


def millions(text):
    """Millions of instructions of a run, and the last reply's version."""
    counting = ["valgrind", "--tool=callgrind", "--callgrind-out-file=/dev/null"]
    program = subprocess.run([TOP / "build"], stdout=subprocess.PIPE, text=True, check=True).stdout.rstrip("\n")
    done = subprocess.run([*counting, program, "run"], input=text.encode(), capture_output=True, check=True)
    return int(re.search(rb"Collected : (\d+)", done.stderr)[1]) / 1e6, last_reply(done)


TOP = pathlib.Path(__file__).resolve().parent.parent
form = sys.argv[1] if len(sys.argv) > 1 else "near"
repeats = int(sys.argv[2]) if len(sys.argv) > 2 else 200
measure, unit = (millions, "million instructions") if sys.argv[3:] == ["count"] else (milliseconds, "ms")
lines = deltas(form)
pushed = "".join(f"push {line}\n" for line in lines)
empty, reply = measure(pushed)
assert reply == "ok 16", reply
one, first = measure(pushed + "pull 0\n" * repeats)
group, last = measure(pushed + "pull 0 16\n" * repeats)
one, group = (one - empty) / repeats, (group - empty) / repeats
print(f"{form}: {len(lines[0])} bytes; pull 0 ({first}) {one:.2f} {unit}, pull 0 16 ({last}) {group:.2f} {unit}, "
      f"{group / one:.2f} times")
