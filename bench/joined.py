#!/usr/bin/env python3
"""Measures replicas that are joined: servers in a star, each but the first by a `sheet join` of its own, with so many
edits a second at each. It tells how many edits there were, and

- how many changes a history has: without an echo, no more than there were edits;
- how long after the last edit all of them show the same;
- how long the longest kept file is, and what a squash leaves of it;
- how much processor time the servers and the joins took.

joined.py [REPLICAS [PACE [SECONDS]]]   8 replicas, 10 edits a second at each, for 10 seconds where it isn't given
"""
import contextlib
import sys
import tempfile
import time
from pathlib import Path

TOP = Path(__file__).resolve().parent.parent
sys.path.insert(0, str(TOP / "tests"))
from browser import processor_time
from program import run, started
from servers import serving

COLUMNS = "ABCDEFGHIJKLMNOPQRSTUVWXYZ"


def shown(person, replicas):
    """What a replica shows."""
    person.ask(f"rows A1:Z{replicas}")
    return [person.reply() for _ in range(replicas)]


def edit(people, pace, seconds):
    """Has each edit at this pace, and returns how many edits there were."""
    begin, turns = time.monotonic(), pace * seconds
    for turn in range(turns):
        time.sleep(max(0.0, begin + turn / pace - time.monotonic()))
        for row, person in enumerate(people, 1):
            person.ask(f"set {COLUMNS[turn % 26]}{row} {turn}")
    return turns * len(people)


def main(replicas=8, pace=10, seconds=10):
    """Measures once, and tells it."""
    with tempfile.TemporaryDirectory() as folder, contextlib.ExitStack() as stack:
        files = [Path(folder) / f"{number}.lines" for number in range(1, replicas + 1)]
        servers = [
            stack.enter_context(serving(None, "--keep", str(file), "--replica", str(number)))
            for number, file in enumerate(files, 1)
        ]
        first, *others = [str(server.port) for server in servers]
        joins = [stack.enter_context(started("join", "--from", first, "--to", other)) for other in others]
        people = [server.client() for server in servers]
        edits = edit(people, pace, seconds)
        last = time.monotonic()
        while any(shown(person, replicas) != shown(people[0], replicas) for person in people):
            time.sleep(0.01)
        print(f"{replicas} replicas, {pace} edits a second at each: {edits} edits")
        print(f"all show the same {time.monotonic() - last:.2f} s after the last edit")
        changes = [int(person.ask("wait 0").split()[1]) for person in people]
        print(f"changes of a history: {min(changes)} to {max(changes)}")
        longest = max((file.read_bytes() for file in files), key=len)
        squashed = run("squash", given=longest).output
        print(f"the longest kept file: {len(longest):,} bytes, squashed {len(squashed):,}")
        taken = sum(processor_time(session.pid) for session in [*(it.session for it in servers), *joins])
        print(f"processor time: {taken:.1f} s of all servers and joins")


if __name__ == "__main__":
    main(*map(int, sys.argv[1:]))
