"""The host's part of the program in C, `release/host.c`: each function at its edges, by a program in C that calls them."""
import os
import subprocess

from hunt import kept
from program import LIMIT, TOP, Ended, ProgramTest, lines, run


class Host(ProgramTest):
    def hosted(self, *flags):
        """How the program that calls the functions ends, compiled with these flags."""
        program = self.folder() / "hosted"
        words = ["cc", "-O2", "-Wall", "-Wextra", "-Werror", "-pthread", *flags, "-o", program, TOP / "tests/hosted.c"]
        subprocess.run(words, check=True, timeout=LIMIT)
        return subprocess.run([program, b"\xff\xfe"], capture_output=True, timeout=LIMIT)

    def test_each_function_at_its_edges(self):
        for flags in ((), ("-static",)):
            with self.subTest(flags=flags):
                ran = self.hosted(*flags)
                self.assertEqual((ran.returncode, ran.stderr, ran.stdout.splitlines()[-1:]), (0, b"", [b"all hold"]))

    def test_the_program_without_arguments(self):
        # (a process that is started with no word at all gets an empty one)
        ended = run()
        self.assertEqual((ended.status, ended.output), (2, b""))

    def test_an_argument_that_is_no_utf8(self):
        for words in ((b"\xff\xfe",), (b"run", b"--keep", b"\xff")):
            with self.subTest(words=words):
                ended = run(*(os.fsdecode(word) for word in words))
                self.assertEqual((ended.status, ended.output), (2, b""))

    def test_a_long_argument(self):
        # the longest that the system takes
        ended = run("x" * 131_000)
        self.assertEqual((ended.status, ended.output), (2, b""))

    def test_a_long_name_of_a_kept_file(self):
        folder = self.folder()
        name = "/".join([str(folder), *["." for _ in range(1500)], "k"])
        self.assertEqual(run("run", "--keep", name, given=b"set A1 5\n").output, lines("ok 1"))
        self.assertEqual(kept.without_digests((folder / "k").read_bytes()), lines("replica 1", 'push [["A1",[1,1,"5"],[],[]]]'))
