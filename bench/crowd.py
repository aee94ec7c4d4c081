#!/usr/bin/env python3
"""Measures replicas over a broker: servers, each beside a `sheet join --with --lines` between mosquitto's clients, with so
many edits a second at each. It tells how many edits there were, and

- how many lines were published: without an echo, no more than there were edits;
- how long after the last edit all of them show the same;
- how long the longest kept file is, what of that are digests, and what a squash leaves of it.

crowd.py [REPLICAS [PACE [SECONDS]]]   16 replicas, 10 edits a second at each, for 20 seconds where it isn't given
"""
import contextlib
import os
import signal
import subprocess
import sys
import tempfile
import time
from pathlib import Path

TOP = Path(__file__).resolve().parent.parent
sys.path.insert(0, str(TOP / "tests"))
from hunt.kept import without_digests
from joined import edit, shown
from program import SHEET, run
from servers import comes_to, free_port, serving

BROKER = "listener {0} 127.0.0.1\nallow_anonymous true\nmax_queued_messages 0\n"
BESIDE = "mosquitto_sub -p {0} -t plan -q 1 | {1} join --with {2} --lines | mosquitto_pub -p {0} -l -t plan -q 1"


def begun(stack, words, **how):
    """A process in a group of its own, which is ended with the stack."""
    ran = subprocess.Popen(words, stdin=subprocess.DEVNULL, stderr=subprocess.DEVNULL, start_new_session=True, **how)
    stack.callback(ran.wait)
    stack.callback(os.killpg, ran.pid, signal.SIGKILL)
    return ran


def main(replicas=16, pace=10, seconds=20):
    """Measures once, and tells it."""
    with tempfile.TemporaryDirectory() as folder, contextlib.ExitStack() as stack:
        port, settings, published = free_port(), Path(folder) / "broker.conf", Path(folder) / "published"
        settings.write_text(BROKER.format(port))
        begun(stack, ["mosquitto", "-c", settings], stdout=subprocess.DEVNULL)
        heard = ["mosquitto_sub", "-p", str(port), "-t", "plan", "-q", "1"]
        if not comes_to(lambda: subprocess.run([*heard, "-E"], capture_output=True).returncode == 0):
            sys.exit("there is no broker")
        begun(stack, heard, stdout=stack.enter_context(open(published, "wb")))
        files = [Path(folder) / f"{number}.lines" for number in range(1, replicas + 1)]
        servers = [
            stack.enter_context(serving(None, "--keep", str(file), "--replica", str(number)))
            for number, file in enumerate(files, 1)
        ]
        for server in servers:
            begun(stack, ["bash", "-c", BESIDE.format(port, SHEET, server.port)])
        time.sleep(2)
        people = [server.client() for server in servers]
        edits = edit(people, pace, seconds)
        last = time.monotonic()
        while any(shown(person, replicas) != shown(people[0], replicas) for person in people):
            time.sleep(0.01)
        print(f"{replicas} replicas, {pace} edits a second at each: {edits} edits")
        print(f"all show the same {time.monotonic() - last:.2f} s after the last edit")
        time.sleep(1)
        print(f"lines published: {len(published.read_bytes().splitlines())}")
        longest = max((file.read_bytes() for file in files), key=len)
        digests = len(longest) - len(without_digests(longest))
        squashed = run("squash", given=longest).output
        print(f"the longest kept file: {len(longest):,} bytes, {digests:,} of digests, squashed {len(squashed):,}")


if __name__ == "__main__":
    main(*map(int, sys.argv[1:]))
