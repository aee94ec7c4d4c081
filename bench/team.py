#!/usr/bin/env python3
"""Tells what a team's day and its year cost: lines, bytes, memory and processor time of a sheet that is kept in a file.

The team is made up, and no team's days were counted. Each of its people makes EDITS changes a day. Of twenty, 12 put a
number or a short text into a cell, and 4 raise or lower one of 20 counters. Two vote for an option of the day's poll
or take it back, and two put a formula into a cell. There is one sheet and a replica for each 16 people, 31 at most.
The people at a replica have two rows each, which they change by chance. The counters and the polls are everybody's. An
office keeps what all of them change, day after day, a line for each change, those of a day mixed by chance.

team.py [--people N..] [--days N] [--program FILE] [--folder FOLDER]

For 5, 50 and 500 people and 250 days where nothing else is said; `--people 5 --days 10` takes seconds. The files are
made in the folder, the temporary one where none is given. Times are of processors, the least of three starts, or that
of one that takes longer than 2 s; memory is the most that was resident.
"""
import argparse
import concurrent.futures
import functools
import hashlib
import os
import pathlib
import random
import re
import subprocess
import sys
import tempfile

TOP = pathlib.Path(__file__).resolve().parent.parent
sys.path.insert(0, str(TOP / "tests"))
from sizes import COLUMNS, name

EDITS = 20
SEATS, OFFICE = 16, 32
COUNTERS, OPTIONS = 20, 10
# The counters are in the first column and the polls in the second one, a row for each day.
FORMULAS, ENTRIES = range(2, 12), range(12, COLUMNS)
TEXTS = ("yes", "no", "open", "done", "see below", "ask again", "next week", "Ann and Bob")
DIGEST = re.compile(rb"replica [0-9a-f]{16}")
# So many lines are asked at once: these, and the replies to them, fit a pipe.
AT_ONCE = 500
ROUNDS, LONG = 3, 2
COLUMNS_TOLD = ("People", "After", "Lines", "Bytes a line", "File", "Start", "Memory", "Squashed, in", "Lines", "File",
                "Start", "Memory")
HEAD = f"| {' | '.join(COLUMNS_TOLD)} |\n{'|---' * len(COLUMNS_TOLD)}|"
ROW = ("| {people} | {days} | {lines:,} | {each:.1f} | {size} | {start} | {memory} | {squash} | {few:,} | {small} | "
       "{again} | {less} |")


class Session:
    """A session of `run`."""

    def __init__(self, program, *words):
        files = {"stdin": subprocess.PIPE, "stdout": subprocess.PIPE, "stderr": subprocess.DEVNULL}
        self.peer = subprocess.Popen([program, "run", *words], **files)
        self.version = 0

    def ask(self, lines):
        """The replies to these lines, without line feeds."""
        replies = []
        for begin in range(0, len(lines), AT_ONCE):
            part = lines[begin:begin + AT_ONCE]
            self.peer.stdin.write(b"\n".join(part) + b"\n")
            self.peer.stdin.flush()
            replies += [self.peer.stdout.readline()[:-1] for _ in part]
        return replies

    def change(self, lines):
        """Has these lines carried out, and returns how many were refused."""
        done = [reply for reply in self.ask(lines) if reply.startswith(b"ok ")]
        if done:
            self.version = int(done[-1].split()[1])
        return len(lines) - len(done)

    def later(self, version):
        """The changes after a version, each as a line to push."""
        replies = self.ask([b"pull %d" % number for number in range(version, self.version)])
        return [b"push " + reply.split(b" ", 2)[2] for reply in replies]

    def memory(self):
        """The most that was resident, in bytes."""
        status = pathlib.Path(f"/proc/{self.peer.pid}/status").read_text(encoding="ascii")
        return int(re.search(r"^VmHWM:\s+(\d+) kB$", status, re.MULTILINE)[1]) * 1024

    def end(self):
        """Ends it, and returns the seconds of processor time that it took."""
        self.peer.stdin.close()
        return seconds_of(self.peer)


def seconds_of(process):
    """The seconds of processor time of a process that ends well, once it has."""
    _, status, used = os.wait4(process.pid, 0)
    process.returncode = os.waitstatus_to_exitcode(status)
    assert process.returncode == 0, process.args
    return used.ru_utime + used.ru_stime


def cell(column, row):
    """The name of a cell."""
    return name(column, row).encode()


def counters():
    """Lines that make the counters."""
    return [b"set %s @tally" % cell(0, row) for row in range(1, COUNTERS + 1)]


def poll(day):
    """The line that makes the poll of a day."""
    return b"set %s @choice" % cell(1, day)


def entry(chance, rows):
    """A number or a short text in some cell of these rows."""
    content = chance.choice(TEXTS) if chance.random() < 0.25 else str(chance.randrange(10_000))
    return b"set %s %s" % (cell(chance.choice(ENTRIES), chance.choice(rows)), content.encode())


def count(chance):
    """A counter that is raised, or now and then lowered."""
    verb = b"sub" if chance.random() < 0.1 else b"add"
    return b"%s %s %d" % (verb, cell(0, chance.randrange(COUNTERS) + 1), chance.randrange(1, 20))


def vote(chance, day):
    """A vote in the poll of the day, or one that is taken back."""
    verb = b"unchoose" if chance.random() < 0.1 else b"choose"
    return b"%s %s %d" % (verb, cell(1, day), chance.randrange(OPTIONS))


def formula(chance, rows):
    """A formula over the entries of its row, which is one of these."""
    row = chance.choice(rows)
    first, last = name(ENTRIES[0], row), name(ENTRIES[-1], row)
    one, two = (name(chance.choice(ENTRIES), row) for _ in range(2))
    text = chance.choice((f"=SUM([.{first}:.{last}])", f"=COUNT([.{first}:.{last}])", f"=[.{one}]*2+[.{two}]",
                          f"=IF([.{one}]>[.{two}];[.{one}];0)"))
    return b"set %s %s" % (cell(chance.choice(FORMULAS), row), text.encode())


def edits_of(chance, people, rows, day):
    """What these people change on a day."""
    lines = []
    for _ in range(people * EDITS):
        kind = chance.randrange(20)
        lines.append(entry(chance, rows) if kind < 12 else count(chance) if kind < 16
                     else vote(chance, day) if kind < 18 else formula(chance, rows))
    return lines


def mixed(chance, parts):
    """The lines of all of these lists, each list's in order."""
    turns = [number for number, part in enumerate(parts) for _ in part]
    chance.shuffle(turns)
    lines = [iter(part) for part in parts]
    return [next(lines[turn]) for turn in turns]


class Replica:
    """A replica, and what its people change, which is written into a file as lines to push."""

    def __init__(self, number, people, rows, file):
        self.number, self.people, self.rows, self.file = number, people, rows, file
        self.chance = random.Random(f"team/{number}/{people}")
        self.refused, self.counts = 0, []

    def write(self, program, shared, days):
        """Has so many days go by, at a sheet that has the shared cells."""
        session = Session(program, "--replica", str(self.number))
        session.change(shared)
        with open(self.file, "wb") as file:
            for day in range(1, days + 1):
                begin = session.version
                self.refused += session.change(edits_of(self.chance, self.people, self.rows, day))
                lines = session.later(begin)
                file.write(b"".join(line + b"\n" for line in lines))
                self.counts.append(len(lines))
        session.end()

    def days(self):
        """The lines of each day."""
        with open(self.file, "rb") as file:
            for count in self.counts:
                yield [file.readline()[:-1] for _ in range(count)]


def replicas_of(people, folder):
    """The replicas of a team."""
    number = min(OFFICE - 1, -(-people // SEATS))
    first = 1
    for place in range(number):
        share = people // number + (place < people % number)
        yield Replica(place + 1, share, range(first, first + 2 * share), folder / f"{place + 1}.lines")
        first += 2 * share


def shared_lines(program, days):
    """The lines that make the counters, and the one that makes the poll of each day."""
    session = Session(program)
    session.change([*counters(), *(poll(day) for day in range(1, days + 1))])
    lines = session.later(0)
    session.end()
    return lines[:COUNTERS], lines[COUNTERS:]


def keep(program, lines, file):
    """Has the office take in these lines, and keep them in this file."""
    words = [program, "run", "--replica", str(OFFICE), "--keep", str(file)]
    subprocess.run(words, input=lines, stdout=subprocess.DEVNULL, stderr=subprocess.DEVNULL, check=True)


def digest_line(text):
    """The digest that a kept file has after these lines, which are all of it or begin with the last digest."""
    return b"replica %s\n" % hashlib.md5(text).hexdigest()[:16].encode()


def changes(file):
    """The lines of a kept file without its digests."""
    return [line for line in file.read_bytes().splitlines() if not DIGEST.fullmatch(line)]


def year(program, people, days, folder, told):
    """Makes the office's file of what so many people change in so many days, and tells of it after one day and after
    all of them. Returns how many changes were refused.

    The file is the line of its replica, and then the lines of all others with a digest after each day. A `run --keep`
    that takes them in writes the same with more digests, as is tried for the first day. A start would refuse a line
    that changes nothing.
    """
    made, polls = shared_lines(program, days)
    replicas = list(replicas_of(people, folder))
    with concurrent.futures.ThreadPoolExecutor(os.cpu_count()) as pool:
        list(pool.map(lambda replica: replica.write(program, [*made, *polls], days), replicas))
    file, chance, digest = folder / "office.lines", random.Random(f"team/{people}"), b"replica %d\n" % OFFICE
    with open(file, "wb") as kept:
        kept.write(digest)
        for day, parts in enumerate(zip(*(replica.days() for replica in replicas)), 1):
            lines = [*(made if day == 1 else ()), polls[day - 1], *mixed(chance, parts)]
            text = b"".join(line + b"\n" for line in lines)
            digest = digest_line(digest + text)
            kept.write(text + digest)
            if day == 1:
                kept.flush()
                first = folder / "first.lines"
                keep(program, text, first)
                assert changes(first) == changes(file)
                told(1, first)
    if days > 1:
        told(days, file)
    return sum(replica.refused for replica in replicas)


def start(program, file):
    """The processor time and the memory of a start over a kept file, and how many changes it has."""
    found = []
    while len(found) < ROUNDS and (not found or found[0][0] < LONG):
        session = Session(program, "--replica", str(OFFICE), "--keep", str(file))
        session.ask([b"replica"])
        memory = session.memory()
        found.append((session.end(), memory))
    return min(found)[0], max(memory for _, memory in found)


def squash(program, file, small):
    """Squashes a kept file, and returns the seconds of processor time that it took."""
    with open(file, "rb", buffering=0) as given, open(small, "wb", buffering=0) as few:
        return seconds_of(subprocess.Popen([program, "squash"], stdin=given, stdout=few))


def lines_of(file):
    """How many lines push something."""
    with open(file, "rb") as lines:
        return sum(line.startswith(b"push ") for line in lines)


def size(count):
    """So many bytes, in words."""
    return f"{count / 1e6:,.1f} MB" if count >= 1e5 else f"{count / 1e3:,.1f} KB"


def seconds(count):
    """So many seconds, in words."""
    return f"{count:.1f} s" if count >= 1 else f"{count * 1e3:.0f} ms"


def row(program, people, days, file):
    """What a kept file costs, before and after it is squashed."""
    small = file.with_suffix(".small")
    took, memory = start(program, file)
    squashed = squash(program, file, small)
    again, less = start(program, small)
    lines, many = lines_of(file), file.stat().st_size
    print(ROW.format(people=people, days="a day" if days == 1 else f"{days} days", lines=lines, each=many / lines,
                     size=size(many), start=seconds(took), memory=size(memory), squash=seconds(squashed),
                     few=lines_of(small), small=size(small.stat().st_size), again=seconds(again), less=size(less)),
          flush=True)
    small.unlink()


def built():
    """The program of this repository."""
    return subprocess.run([TOP / "build"], stdout=subprocess.PIPE, text=True, check=True).stdout.rstrip("\n")


def main():
    """Prints the table."""
    parser = argparse.ArgumentParser()
    parser.add_argument("--people", type=int, nargs="+", default=[5, 50, 500])
    parser.add_argument("--days", type=int, default=250)
    parser.add_argument("--program")
    parser.add_argument("--folder")
    given = parser.parse_args()
    program = given.program or built()
    print(HEAD)
    refused = []
    for people in given.people:
        with tempfile.TemporaryDirectory(prefix="team-", dir=given.folder) as folder:
            count = year(program, people, given.days, pathlib.Path(folder), functools.partial(row, program, people))
        refused.append(f"{count:,} of {people * given.days * EDITS:,}")
    print(f"refused, as a vote that nobody cast can't be taken back: {', '.join(refused)}")


if __name__ == "__main__":
    main()
