"""A small repository of four crates, with stand-ins for the tool that proves and builds and for the C compiler."""
import os
import shutil
import stat
import subprocess

from program import LIMIT, TOP, Ended, ProgramTest

CRATES = """\
# A line for each crate, lowest first: its name, then the libraries that it stands on.
low:
aside: low
middle tests_may=Threads: itoa low
sheet: clap middle low
"""
# The program's source is also the object that is made of it, and the program that is linked of that.
SOURCE = """\
#!/bin/sh
echo "words: $*"
exit 3
"""
# What stands in for the tool says on both of its outputs what the tool says.
BUILDS = """\
#!/bin/sh
[ "$1" = version ] && exec echo kit-1 logic 5a
echo "built: $*" >> ../../calls
for crate in low middle sheet; do
    echo "rt: chose --jobs 2 for $crate" >&2
    echo "fn $crate::first: proved"
done
mkdir -p out
cp src/main.rt out/sheet.o
cp out/sheet.o out/sheet
chmod +x out/sheet
"""
FAILS = """\
#!/bin/sh
[ "$1" = version ] && exec echo kit-1 logic 5a
echo "rt: chose --jobs 2 for low" >&2
echo "rt: chose --jobs 2 for middle" >&2
echo "fn middle::first: not proved"
exit 1
"""
COMPILER = """\
#!/bin/sh
echo "cc: $*" >> {top}/calls
while [ $# != 0 ]; do
    [ "$1" = -o ] && program=$2
    case $1 in *.o) made=$1 ;; esac
    shift
done
cp "$made" "$program"
chmod +x "$program"
"""
# What stands in for the kit's linker, and for its file, by which the program is compiled once more.
LINK = """\
#!/bin/sh
while [ $# != 0 ]; do
    [ "$1" = -o ] && program=$2
    case $1 in *.o) made=$1 ;; esac
    shift
done
cp "$made" "$program"
"""
OF_KIT = """\
import shutil


class Crate:
    def __init__(self, folder, root, known):
        self.folder = folder

    def below(self):
        return []

    def stamp(self):
        return ""

    def compile(self, flags, to):
        return int(not shutil.copy(self.folder + "/src/main.rt", self.folder + "/" + to))


def guarded():
    return []


def lock(crates):
    return []
"""
# What stands in for a tool that fails.
BREAKS = """\
#!/bin/sh
[ "$1" = version ] && exec echo kit-1 logic 5a
echo "it is too hot" >&2
exit 7
"""
# Where the proved program and the one that is linked lie.
PROVED, RELEASED = "crates/sheet/out/sheet", "release/out/sheet"


class StandIns(ProgramTest):
    """A test in such a repository."""

    def setUp(self):
        self.top = self.folder().resolve()
        for crate in ("low", "aside", "middle", "sheet"):
            for part in ("src", "specs", "proofs"):
                (self.top / "crates" / crate / part).mkdir(parents=True)
        self.write("crates.txt", CRATES)
        self.write("crates/sheet/src/main.rt", SOURCE)
        for script in ("build", "sheet"):
            shutil.copy(TOP / script, self.top)
        ours = ["make", "link", "changed", "sources", "host.c", *(file.name for file in (TOP / "release").glob("*.py"))]
        (self.top / "release").mkdir()
        for name in ours:
            shutil.copy(TOP / "release" / name, self.top / "release")
        self.use(BUILDS)
        self.use(COMPILER, "bin/cc")
        self.use(LINK, "bin/rattle-link")
        self.use(OF_KIT, "bin/rtlib.py")

    def write(self, name, text):
        """Writes this file of the repository."""
        file = self.top / name
        file.parent.mkdir(parents=True, exist_ok=True)
        file.write_text(text)

    def use(self, text, name="bin/rt"):
        """Has this script stand in for a tool of the kit."""
        self.write(f"kit/{name}", text.replace("{top}", str(self.top)))
        (self.top / "kit" / name).chmod(stat.S_IRWXU)

    def environment(self):
        """An environment with the kit on `PATH`."""
        return {**os.environ, "PATH": f"{self.top}/kit/bin:{os.environ['PATH']}"}

    def run_script(self, *words, environment=None):
        """Runs a script of the repository to its end, with the kit on `PATH` where nothing else is said."""
        how = {"env": environment or self.environment(), "timeout": LIMIT, "cwd": self.top, "input": b"", "capture_output": True}
        ran = subprocess.run([self.top / words[0], *words[1:]], **how)
        return Ended(ran.returncode, ran.stdout, ran.stderr)

    def start(self, *before):
        """Starts the launcher with these words and two more."""
        return self.run_script("sheet", *before, "two", "words")

    def release(self):
        """Makes the released program, as of a fresh clone in which nothing is built."""
        ended = self.run_script("release/make")
        self.assertEqual(ended.status, 0, ended)
        shutil.rmtree(self.top / "crates/sheet/out")
        (self.top / "calls").unlink()

    def calls(self, begin):
        """The calls of the tools that begin so."""
        file = self.top / "calls"
        return [line for line in file.read_text().splitlines() if line.startswith(begin)] if file.is_file() else []

    def make_newer(self, name, program):
        """Makes a file newer than a program."""
        newer = (self.top / program).stat().st_mtime_ns + 1_000_000_000
        os.utime(self.top / name, ns=(newer, newer))
