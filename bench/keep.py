#!/usr/bin/env python3
"""Tells what a sheet costs that is kept in a file: `run --keep`, beside `run` where that says something.

    keep.py edits [N] [FOLDER]   N edits that come at once: seconds with and without, syncs, and as many syncs alone
    keep.py waits [N] [FOLDER]   N edits that each wait for their reply: the same, for an edit
    keep.py start [N] [FOLDER]   a start over N lines: seconds, lines a second, and memory

The file is made in the folder, the temporary one where none is given; of times it is the least of three.
"""
import os
import pathlib
import subprocess
import sys
import tempfile
import time

TOP = pathlib.Path(__file__).resolve().parent.parent
sys.path.insert(0, str(TOP / "tests"))
from hunt import shortages

ROUNDS = 3
NOTHING = ["s", 0, 0, 0]
program = subprocess.run([TOP / "build"], stdin=subprocess.DEVNULL, stdout=subprocess.PIPE, text=True).stdout.strip()


def edit(number):
    """An edit of one of a thousand cells."""
    return b"set A%d %d\n" % (number % 1000 + 1, number)


def line(number):
    """The line of a kept file that this edit makes."""
    return b'push [["A%d",[%d,1,"%d"],[],[]]]\n' % (number % 1000 + 1, number // 1000 + 1, number)


def timed(words, given, **how):
    """The seconds that the program took on a file, those of its processor time, and its memory in kilobytes."""
    with open(given, "rb") as stdin, open(os.devnull, "wb") as nowhere:
        began = time.perf_counter()
        ran = subprocess.Popen([program, *words], stdin=stdin, stdout=nowhere, stderr=nowhere, **how)
        _, status, used = os.wait4(ran.pid, 0)
        took = time.perf_counter() - began
    assert status == 0, status
    return took, used.ru_utime + used.ru_stime, used.ru_maxrss


def syncs_of(folder, words, given):
    """How many syncs the program makes."""
    with shortages.spoiling(shortages.library(folder), NOTHING) as (how, counts):
        timed(words, given, **how)
        return shortages.counted(counts).syncs


def seconds_of_syncs(file, count, size):
    """The seconds that so many syncs take, each after this many bytes at the end of a file."""
    took = 0.0
    with open(file, "ab", buffering=0) as end:
        for _ in range(count):
            end.write(b"x" * size)
            began = time.perf_counter()
            os.fdatasync(end.fileno())
            took += time.perf_counter() - began
    return took


def fresh(file):
    """The words that keep a sheet in a file that isn't there yet."""
    file.unlink(missing_ok=True)
    return ["run", "--keep", str(file)]


def edits(count, folder):
    """Edits that come at once."""
    given, file = folder / "given", folder / "kept.lines"
    given.write_bytes(b"".join(map(edit, range(count))))
    plain = min(timed(["run"], given) for _ in range(ROUNDS))
    kept = min(timed(fresh(file), given) for _ in range(ROUNDS))
    size, syncs = file.stat().st_size, syncs_of(folder, fresh(file), given)
    alone = min(seconds_of_syncs(folder / "syncs", syncs, size // syncs) for _ in range(ROUNDS))
    print(f"{count} edits: {plain[0]:.3f} s without ({plain[1]:.3f} of processors), {kept[0]:.3f} s kept "
          f"({kept[1]:.3f}); {syncs} syncs, which take {alone:.3f} s by themselves; "
          f"{(kept[0] - alone) / plain[0]:.2f} times without them, {kept[1] / plain[1]:.2f} times by processor time; "
          f"a file of {size} bytes")


def waiting(words, count, **how):
    """The least seconds of an edit that waits for its reply, of so many."""
    files = {"stdin": subprocess.PIPE, "stdout": subprocess.PIPE, "stderr": subprocess.DEVNULL}
    with subprocess.Popen([program, *words], bufsize=0, **files, **how) as peer:
        began = time.perf_counter()
        for number in range(count):
            peer.stdin.write(edit(number))
            assert peer.stdout.readline().startswith(b"ok ")
        took = time.perf_counter() - began
        peer.stdin.close()
    return took / count


def waits(count, folder):
    """Edits that wait."""
    file = folder / "kept.lines"
    plain = min(waiting(["run"], count) for _ in range(ROUNDS))
    kept = min(waiting(fresh(file), count) for _ in range(ROUNDS))
    with shortages.spoiling(shortages.library(folder), NOTHING) as (how, counts):
        waiting(fresh(file), count, **how)
        syncs = shortages.counted(counts).syncs
    alone = min(seconds_of_syncs(folder / "syncs", count, 40) for _ in range(ROUNDS)) / count
    print(f"{count} edits that wait: {plain * 1e6:.0f} us an edit without, {kept * 1e6:.0f} us kept, of which a sync "
          f"takes {alone * 1e6:.0f} us by itself; {syncs} syncs")


def start(count, folder):
    """A start over many lines."""
    file = folder / "kept.lines"
    with open(file, "wb") as lines:
        lines.write(b"replica 1\n")
        for number in range(count):
            lines.write(line(number))
    size = file.stat().st_size
    found = min(timed(["run", "--keep", str(file)], os.devnull) for _ in range(ROUNDS))
    assert file.stat().st_size == size
    print(f"a start over {count} lines, {size} bytes: {found[0]:.2f} s ({found[1]:.2f} of processors), "
          f"{count / found[0]:.0f} lines a second; {found[2] / 1024:.0f} MB resident at most")


def main():
    """Measures what the words ask for."""
    what, *rest = sys.argv[1:] or ["edits"]
    measure, count = {"edits": (edits, 100_000), "waits": (waits, 1_000), "start": (start, 1_000_000)}[what]
    with tempfile.TemporaryDirectory(prefix="keep-", dir=rest[1] if len(rest) > 1 else None) as folder:
        measure(int(rest[0]) if rest else count, pathlib.Path(folder))


if __name__ == "__main__":
    main()
