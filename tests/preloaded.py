"""Libraries that are loaded before the program, and stand in for the C library's calls."""
import os
import subprocess
from pathlib import Path

from program import LIMIT, TOP


def launched():
    """The path of the program that the launcher starts."""
    return subprocess.run([TOP / "build"], stdout=subprocess.PIPE, check=True, text=True).stdout.strip()


# The program without the launcher, whose own calls aren't meant.
PROGRAM = Path(os.environ.get("SHEET_PROGRAM") or launched())


def build(source, library):
    """The library of a source of `tests/`, built at this path."""
    words = ["cc", "-shared", "-fPIC", "-O2", "-Wall", "-Wextra", "-Werror", "-o", library, TOP / "tests" / source]
    subprocess.run(words, check=True, timeout=LIMIT)
    return library


def before(library, **variables):
    """The environment in which a program is started that asks this library first, with these further variables."""
    return {**os.environ, **variables, "LD_PRELOAD": str(library)}
