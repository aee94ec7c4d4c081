"""Has the program and all crates below it proved and built, with a line on standard error for each that is begun."""
import re
import subprocess
import sys
import tempfile
from pathlib import Path

import crates
import tools
from tools import Fault

TRIPLE = "x86_64-unknown-linux-gnu"
BEGUN = re.compile(r"\w+: chose --jobs \d+ for (.+)\n?")
# The libraries side by side, and then what is left: the program, with what the first wouldn't build.
COMMANDS = [[sys.executable, "-B", Path(__file__).with_name("libraries.py")], ["rt", "run", "--", "--help"]]


class Shown:
    """Shows the crates that the work has reached, as `3 of 13 ps_lattice`."""

    def __init__(self, names):
        self.left = {name: number for number, name in enumerate(names, 1)}
        self.number = len(names)

    def read(self, line):
        """Shows the crate that the tools begin with by this line, the first time."""
        begun = BEGUN.fullmatch(line)
        if begun and begun[1] in self.left:
            place = self.left.pop(begun[1])
            print(f"{place} of {self.number} {begun[1]}", file=sys.stderr, flush=True)


def build(top, log):
    """Proves and builds; all that the tools say is in the log, whose end is shown where it fails."""
    shown = Shown(crates.below(top))
    with open(log, "w", errors="replace") as out:
        is_built = all(run(words, top / "crates" / crates.PROGRAM, out, shown) for words in COMMANDS)
    if not is_built:
        sys.stderr.write("".join(log.read_text(errors="replace").splitlines(True)[-5:]))
    return is_built


def run(words, folder, out, shown):
    """Runs a command, whose lines go to the log, and returns whether it ends well."""
    how = {"cwd": folder, "stdin": subprocess.DEVNULL, "stdout": subprocess.PIPE, "stderr": subprocess.STDOUT}
    with subprocess.Popen(words, errors="replace", **how) as ran:
        for line in ran.stdout:
            out.write(line)
            out.flush()
            shown.read(line)
    return ran.returncode == 0


def object_of(top):
    """Compiles the proved program once more, over the libraries that the gate or a build has left, and returns the bytes
    of the object. It is that of the proved program: the kit links it to the same bytes.
    """
    crate = top / "crates" / crates.PROGRAM
    made = crate / f"out/{crates.PROGRAM}.o"
    made.unlink(missing_ok=True)
    tools.call([sys.executable, "-B", Path(__file__).with_name("libraries.py"), "--object"], cwd=crate)
    if not made.is_file():
        raise Fault("no object was made")
    found = made.read_bytes()
    if linked(found) != (crate / "out" / crates.PROGRAM).read_bytes():
        raise Fault("its object makes another program than the proved one")
    return found


def linked(made):
    """Returns the bytes of the program that the kit links of this object."""
    kit = tools.folder()
    with tempfile.TemporaryDirectory(prefix="sheet-linked-") as room:
        of, program = Path(room) / "sheet.o", Path(room) / "sheet"
        of.write_bytes(made)
        words = ["--target", TRIPLE, "--toolchain", kit / "toolchain", "-o", program, of]
        tools.call([kit / "bin/rattle-link", *words, kit / "c/libos_c.a", kit / "c/liblibc_c.a"])
        return program.read_bytes()
