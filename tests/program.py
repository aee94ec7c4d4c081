"""What the tests share: they start the program as a user does, by `./sheet`, and compare the whole of how it ends."""
import contextlib
import errno
import os
import signal
import subprocess
import tempfile
import unittest
from pathlib import Path
from typing import NamedTuple

TOP = Path(__file__).resolve().parent.parent
# What is tested: the launcher, or where this names another program, that one.
SHEET = os.environ.get("SHEET_PROGRAM", str(TOP / "sheet"))
# The longest wait for anything, in seconds.
LIMIT = 60
DEVICE_FAILED = b"err 20 device\n"


def said_of(reason):
    """How a reason reads: for a number of `errno` the system's text, else this one."""
    return f"{os.strerror(reason)} (os error {reason})" if isinstance(reason, int) else reason


def unusable(file, reason):
    """What standard error gets of a file that can't be used."""
    return DEVICE_FAILED + lines(f"{file}: {said_of(reason)}")


def silent(port):
    """What standard error gets where nobody listens on this port."""
    return DEVICE_FAILED + lines(f"port {port}: nobody listens on it; sheet serve --port {port} would")


def taken(port):
    """What standard error gets of a server whose port another program has."""
    return DEVICE_FAILED + lines(f"port {port}: another program listens on it")


def broken(port):
    """What standard error gets where the connection to this port is reset."""
    return DEVICE_FAILED + lines(f"port {port}: {said_of(errno.ECONNRESET)}")


# Why a test of the page is left out, which `./test` counts as skipped; any other skip counts as failed.
NO_BROWSER = "there is no browser: apt-get install -y chromium"
# .. and why a test may be left out that runs the tests of a crate.
NO_TESTS = "the tests of the crates aren't built: rt ci"
# .. and why a recipe may be.
NO_GIT = "there is no git: apt-get install -y git"
# .. and where the kit isn't there.
NO_KIT = "there is no kit"
# .. and why one over a broker may be.
NO_BROKER = "there is no broker: apt-get install -y mosquitto mosquitto-clients redis-server"


class Ended(NamedTuple):
    """How a program ended: its exit status, and all that it wrote."""

    status: int
    output: bytes = b""
    error: bytes = b""


@contextlib.contextmanager
def started(*words, program=SHEET, **files):
    """`./sheet` with these words and standard files, and nothing of it runs on once the block is left."""
    session = subprocess.Popen([program, *words], stderr=subprocess.PIPE, start_new_session=True, **files)
    try:
        yield session
    finally:
        if session.poll() is None:
            os.killpg(session.pid, signal.SIGKILL)
        session.communicate(timeout=LIMIT)


def run(*words, given=b"", stdin=subprocess.PIPE, stdout=subprocess.PIPE):
    """Runs `./sheet` with these words to its end. `given` is its standard input, unless there is another `stdin`."""
    with started(*words, stdin=stdin, stdout=stdout) as session:
        output, error = session.communicate(given if stdin == subprocess.PIPE else None, timeout=LIMIT)
        return Ended(session.returncode, output or b"", error)


def lines(*texts):
    """The bytes of these texts, each with a line feed after it."""
    return "".join(f"{text}\n" for text in texts).encode()


def cuts(given):
    """Places amid these bytes: in the first line, one about the middle and the last, and beside their line feeds."""
    ends = [place for place, byte in enumerate(given) if byte == ord("\n")]
    for end in {ends[0], ends[len(ends) // 2], ends[-1]} if ends else ():
        begin = given.rfind(b"\n", 0, end) + 1
        yield from ((begin + end) // 2, end, end + 1)


class ProgramTest(unittest.TestCase):
    """A test of the program."""

    maxDiff = 2000

    def file_of(self, content):
        """A file of these bytes, open for reading, which is gone after the test."""
        file = tempfile.TemporaryFile()
        self.addCleanup(file.close)
        file.write(content)
        file.seek(0)
        return file

    def folder(self):
        """The path of a folder of the test's own, which is gone after the test."""
        folder = tempfile.TemporaryDirectory(prefix="sheet-test-")
        self.addCleanup(folder.cleanup)
        return Path(folder.name)

    def assert_session(self, given, replies, *words):
        """`./sheet run` with these further words answers these lines by these replies, and ends well."""
        self.assertEqual(run("run", *words, given=given), Ended(0, replies))

    def assert_pieces(self, pieces, replies, *words):
        """A session that reads these pieces, of at most 4,096 bytes, one at a time has these replies, and ends well."""
        # what is written at once into a pipe of this kind is read by itself
        reads, writes = os.pipe2(os.O_DIRECT)
        files = {"stdin": reads, "stdout": subprocess.PIPE}
        with started("run", *words, **files) as session, open(writes, "wb", buffering=0) as pipe:
            os.close(reads)
            for piece in pieces:
                pipe.write(piece)
            pipe.close()
            output, error = session.communicate(timeout=LIMIT)
            self.assertEqual(Ended(session.returncode, output, error), Ended(0, replies))

    def assert_bytewise(self, given, replies, *words):
        """A session that reads these bytes one at a time has these replies, and ends well."""
        self.assert_pieces((bytes([byte]) for byte in given), replies, *words)

    def assert_however_cut(self, given, replies, *words):
        """These bytes have these replies read whole, byte by byte, and cut into two pieces."""
        self.assert_session(given, replies, *words)
        self.assert_bytewise(given, replies, *words)
        for cut in cuts(given):
            with self.subTest(cut=cut):
                self.assert_pieces((given[:cut], given[cut:]), replies, *words)

    def assert_table(self, given, shown, *words):
        """`./sheet table` with these further words writes this table for the given one, and ends well."""
        self.assertEqual(run("table", *words, given=given), Ended(0, shown))

    def assert_refused_table(self, given, refusal):
        """`./sheet table` refuses the given table by this number and name, and writes nothing."""
        self.assertEqual(run("table", given=given), Ended(3, b"", lines(f"err {refusal}")))
