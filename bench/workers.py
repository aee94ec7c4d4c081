#!/usr/bin/env python3
"""Tells how long an edit takes by the clock that evaluates a level of N formulas, with one worker and with more.

    workers.py sums [N] [WORKERS]    each formula is the sum of the same 40 cells
    workers.py short [N] [WORKERS]   each formula adds 1 to the same cell
    workers.py chain [N] [WORKERS]   each formula adds 1 to the one before: N levels of one formula
"""
import pathlib
import subprocess
import sys
import time

COLUMNS = 104
program = pathlib.Path(__file__).resolve().parent.parent / "sheet"


def name(index):
    """The name of a cell by its index."""
    column = index % COLUMNS
    letters = chr(65 + column) if column < 26 else chr(64 + column // 26) + chr(65 + column % 26)
    return f"{letters}{index // COLUMNS + 1}"


def entry(kind, index):
    """The formula of a cell from the second row on."""
    if kind == "sums":
        return "=SUM([.A1:.AN1])"
    if kind == "short" or index == COLUMNS:
        return "=[.A1]+1"
    return f"=[.{name(index - 1)}]+1"


def tell(peer, lines):
    """Sends lines and waits for all replies; the seconds that this took."""
    began = time.perf_counter()
    for start in range(0, len(lines), 1000):
        part = lines[start:start + 1000]
        peer.stdin.write(("\n".join(part) + "\n").encode())
        peer.stdin.flush()
        for _ in part:
            reply = peer.stdout.readline()
            assert reply.startswith(b"ok "), reply
    return time.perf_counter() - began


def least(kind, count, workers):
    """The least time of an edit of A1, of twenty."""
    words = [program, "run", "--workers", str(workers)]
    with subprocess.Popen(words, stdin=subprocess.PIPE, stdout=subprocess.PIPE) as peer:
        tell(peer, [f"set {name(index)} {index}" for index in range(40)])
        tell(peer, [f"set {name(index)} {entry(kind, index)}" for index in range(COLUMNS, COLUMNS + count)])
        found = min(tell(peer, [f"set A1 {number}"]) for number in range(1, 21))
        peer.stdin.close()
    return found * 1e3


def main():
    """Measures what the words ask for."""
    kind = sys.argv[1] if len(sys.argv) > 1 else "sums"
    count = int(sys.argv[2]) if len(sys.argv) > 2 else 100_000
    workers = int(sys.argv[3]) if len(sys.argv) > 3 else 4
    one, several = least(kind, count, 1), least(kind, count, workers)
    print(f"{one:.2f} ms with 1 worker, {several:.2f} with {workers}: {one / several:.2f} times as fast")


if __name__ == "__main__":
    main()
