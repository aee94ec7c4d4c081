"""Tests of sheets that are kept in a file: what the file has to have, and how a program is started on it."""
import contextlib
import os
import subprocess

from hunt import kept, shortages
from hunt.session import Session
from preloaded import PROGRAM
from program import LIMIT, Ended, ProgramTest, lines, said_of, started

# No call of the C library fails.
NOTHING = ["s", 0, 0, 0]
ALL = shortages.ALL
# Why a file keeps a sheet no longer, where no call of the system failed.
UNNAMED = "it was removed or replaced"
MOVED = "its path doesn't lead to it any more"
RESIZED = "it was cut, or another program wrote to it"
NO_MEMORY = "there is no memory for its lines"


def session_of(*given, replica=1):
    """A session of the model that was given these lines."""
    session = Session(replica)
    for line in given:
        session.reply(line if type(line) is bytes else line.encode())
    return session


def text_of(*given, replica=1):
    """The file of a replica that was given these lines."""
    return kept.text_of(replica, session_of(*given, replica=replica).sheet.history)


def replies_to(*given, replica=1):
    """What a session of the model replies to these lines."""
    session = Session(replica)
    return b"".join(reply + b"\n" for line in given if (reply := session.reply(line.encode())) is not None)


class KeepingTest(ProgramTest):
    """A test with a file of its own, which isn't there yet. (The program is started without the launcher.)"""

    def setUp(self):
        self.place = self.folder()
        self.file = self.place / "plan.lines"

    def opened(self, count):
        """What is said once the file was opened with so many changes."""
        return lines(f"opened {self.file}, {count} changes")

    def warned(self, replica=1):
        """What is said once the session was pushed changes of its own replica that the file hasn't got."""
        return lines(f"replica {replica} makes changes elsewhere, too, or lines of {self.file} were lost")

    def lost(self, reason=NO_MEMORY):
        """What is said once the file keeps the sheet no longer."""
        return lines("err 20 device", f"{self.file} isn't kept any more: {said_of(reason)}")

    def damaged(self, number):
        """What is said of the file if its digest line of this number is the first wrong one."""
        rows = self.file.read_bytes().splitlines(keepends=True)[:number - 1]
        intact = max((place for place, row in enumerate(rows, 1) if kept.DIGEST_LINE.fullmatch(row)), default=0)
        whole = f"Lines 1 to {intact} are whole" if intact else "No line is known to be whole"
        what = f'it is not the digest of the lines before it. {whole}: see docs/USING.md, "A damaged file"'
        return lines("err 14 delta", f"line {number} of {self.file}: {what}")

    def run_kept(self, given=b"", *words, **how):
        """How `run --keep` ends that is given these bytes."""
        files = {"stdin": subprocess.PIPE, "stdout": subprocess.PIPE}
        with started("run", "--keep", str(self.file), *words, program=PROGRAM, **files, **how) as session:
            with contextlib.suppress(BrokenPipeError):
                output, error = session.communicate(given, timeout=LIMIT)
            return Ended(session.returncode, output, error)

    def assert_kept(self, given, replies, content, opened=0, *words):
        """These lines have these replies, and the file has this afterwards."""
        self.assertEqual(self.run_kept(given, *words), Ended(0, replies, self.opened(opened)))
        self.assertEqual(self.lines_kept(), content)

    def assert_untouched(self, ended, content, *words):
        """On a file with this content it ends so, and leaves it as it was."""
        self.file.write_bytes(content)
        self.assertEqual(self.run_kept(b"get A1\n", *words), ended)
        self.assertEqual(self.file.read_bytes(), content)

    def lines_kept(self):
        """What the file has without its digest lines, which have to be due where they stand."""
        return kept.without_digests(self.file.read_bytes())

    def count_in_file(self):
        """How many changes the whole lines of the file have."""
        return kept.changes_in(self.file.read_bytes())


class Spoilt(KeepingTest):
    """A test with calls of the C library that are counted, or fail."""

    def setUp(self):
        super().setUp()
        self.library = shortages.library(self.place)

    @contextlib.contextmanager
    def spoiling(self, *fault):
        """How a program is started with a fault, and what it has counted."""
        with shortages.spoiling(self.library, fault or NOTHING) as (how, counts):
            yield how, lambda: shortages.counted(counts)


def sizes_limited(most):
    """How a program is started that may have files of so many bytes at most."""
    import resource
    import signal

    def limit():
        signal.signal(signal.SIGXFSZ, signal.SIG_IGN)
        resource.setrlimit(resource.RLIMIT_FSIZE, (most, most))

    return {"preexec_fn": limit}


def without_rights():
    """How a program is started that isn't the system's manager's."""
    return {"user": 65_534} if os.geteuid() == 0 else {}
