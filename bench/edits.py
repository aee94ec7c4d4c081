#!/usr/bin/env python3
"""Tells what an edit costs the program in processor time after other lines: the least of several rounds.

    edits.py formulas [N]   edits of a cell that nothing refers to, on an empty sheet and beside N formulas on one cell
    edits.py history [N]    10,000 edits of a thousand cells, after 1,000 such edits and after N
"""
import pathlib
import random
import subprocess
import sys

COLUMNS, ROWS = 104, 1024
program = pathlib.Path(__file__).resolve().parent.parent / "sheet"


def name(index):
    """The name of a cell by its index."""
    column = index % COLUMNS
    letters = chr(65 + column) if column < 26 else chr(64 + column // 26) + chr(65 + column % 26)
    return f"{letters}{index // COLUMNS + 1}"


def used(peer):
    """The processor seconds of a program so far."""
    with open(f"/proc/{peer.pid}/schedstat", encoding="ascii") as times:
        return int(times.read().split()[0]) / 1e9


def tell(peer, lines):
    """Sends lines, waits for all replies, and returns the processor seconds that they took."""
    began = used(peer)
    for start in range(0, len(lines), 1000):
        part = lines[start:start + 1000]
        peer.stdin.write(("\n".join(part) + "\n").encode())
        peer.stdin.flush()
        for _ in part:
            reply = peer.stdout.readline()
            assert reply.startswith((b"ok ", b"val ")), reply
    return used(peer) - began


def cost(before, rounds):
    """The least cost of an edit of these rounds, each after the last, in a program that had other lines before."""
    with subprocess.Popen([program, "run"], stdin=subprocess.PIPE, stdout=subprocess.PIPE) as peer:
        tell(peer, ["get A1"] + before)
        least = min(tell(peer, lines) / len(lines) for lines in rounds)
        peer.stdin.close()
    return least * 1e6


def edits(count, seed):
    """So many edits of numbers in a thousand cells, by chance."""
    draw = random.Random(seed)
    return [f"set {name(draw.randrange(1000) * 104)} {draw.randrange(10**9)}" for _ in range(count)]


def main():
    """Measures what the words ask for."""
    what, *rest = sys.argv[1:] or ["formulas"]
    if what == "formulas":
        count = int(rest[0]) if rest else 100_000
        formulas = [f"set {name(index)} =[.A1]+{index}" for index in range(1, count + 1)]
        rounds = [[f"set CZ1024 {number}" for number in range(10_000)] for _ in range(20)]
        few, many = cost([], rounds), cost(formulas, rounds)
    else:
        count = int(rest[0]) if rest else 1_000_000
        rounds = [edits(10_000, seed) for seed in range(10)]
        few = min(cost(edits(1000, 0), [lines]) for lines in rounds)
        many = cost(edits(count, 0), rounds)
    print(f"{few:.3f} and {many:.3f} us an edit: {many / few:.2f} times")


if __name__ == "__main__":
    main()
