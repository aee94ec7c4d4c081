"""The kit whose `rt` is on `PATH`: where it lies, what it is, and how its tools are called."""
import os
import shutil
import subprocess
from pathlib import Path


class Fault(Exception):
    """Why something can't be made, as a sentence's end."""


def folder():
    """Returns the kit's folder."""
    rt = shutil.which("rt")
    if rt is None:
        raise Fault("there is no rt on PATH")
    return Path(os.path.realpath(rt)).parent.parent


def identity(kit):
    """Returns the line that the kit calls itself by."""
    return call([kit / "bin/rt", "version"]).decode(errors="replace").strip()


def call(words, **how):
    """Runs a tool of the kit and returns what it writes, or stops with the last line that it said."""
    how = {"stdin": subprocess.DEVNULL, "stdout": subprocess.PIPE, "stderr": subprocess.PIPE, **how}
    name = os.path.basename(words[0])
    try:
        ran = subprocess.run(words, **how)
    except OSError as error:
        raise Fault(f"{name} can't be run: {error.strerror}") from error
    if ran.returncode != 0:
        said = ran.stderr.decode(errors="replace").strip().splitlines()
        raise Fault(f"{name} ended with status {ran.returncode}{''.join(f': {line}' for line in said[-1:])}")
    return ran.stdout

