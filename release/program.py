"""Has the program proved and built, where that isn't done yet. The last line of standard output is its path.

`build` calls this where there is no program of these sources to link, or where the word `--prove` asks for it.
"""
import fcntl
import hashlib
import os
import signal
import subprocess
import sys
import time
from pathlib import Path

import crates
import proved
import tools
from tools import Fault

TOP = Path(__file__).resolve().parent.parent
OUT = TOP / "crates" / crates.PROGRAM / "out"
PROVED = OUT / crates.PROGRAM
# what it was made from, beside it
STAMP = OUT / f"{crates.PROGRAM}.sums"
NOT_BUILT = 4


def say(text):
    """Says this on standard error."""
    print(f"sheet: {text}", file=sys.stderr, flush=True)


def stamped(text):
    """Returns what the stamp holds where the program was made from what this text tells."""
    return f"{text}program {hashlib.sha256(PROVED.read_bytes()).hexdigest()}\n"


def is_made_from(text):
    """Returns whether the program is there and was made from what this text tells."""
    return os.access(PROVED, os.X_OK) and STAMP.is_file() and STAMP.read_text() == stamped(text)


def build(text):
    """Returns whether the program is proved and built."""
    say("building, which proves what changed; the first time this takes about half an hour")
    log = OUT / "build.log"
    is_built = proved.build(TOP, log) and os.access(PROVED, os.X_OK)
    if is_built:
        STAMP.write_text(stamped(text))
    else:
        say(f"the build failed; all that it said is in {log}")
    return is_built


def wait_for_turn():
    """Waits until no other start builds, which then finds the program made, and keeps others out until this one ends."""
    held = os.open(TOP / "release", os.O_RDONLY)
    try:
        fcntl.flock(held, fcntl.LOCK_EX | fcntl.LOCK_NB)
    except BlockingIOError:
        say("waiting for another start, which builds the program")
        fcntl.flock(held, fcntl.LOCK_EX)


def main():
    """Sees to the program, and returns the exit status."""
    # an interrupt ends it without a word
    signal.signal(signal.SIGINT, signal.SIG_DFL)
    OUT.mkdir(exist_ok=True)
    wait_for_turn()
    begun = time.time()
    text = f"kit {tools.identity(tools.folder())}\n{crates.sums(TOP)}"
    if not is_made_from(text) and not build(text):
        return NOT_BUILT
    # what is edited meanwhile is newer than the program
    os.utime(PROVED, (begun, begun))
    print(PROVED)
    return 0


if __name__ == "__main__":
    try:
        sys.exit(main())
    except (OSError, subprocess.SubprocessError, Fault) as error:
        say(f"the program can't be built: {error}")
        sys.exit(NOT_BUILT)
