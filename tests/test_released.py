"""The released object: how it is made, and how it is compared with a proved build, with stand-ins for the tools."""
import hashlib
import lzma
import os
import shutil
from unittest import mock

import compared
from program import Ended, lines
from stand_ins import BREAKS, FAILS, LINK, SOURCE, StandIns

FILES = ("sheet.o.xz", "sums")


class Make(StandIns):
    def made(self):
        """The bytes of the released files that are there."""
        files = [self.top / "release" / name for name in FILES]
        return [file.read_bytes() for file in files if file.is_file()]

    def assert_makes_nothing(self, why):
        """`release/make` ends with status 1 and this reason, and leaves what was released as it was."""
        before = self.made()
        ended = self.run_script("release/make")
        self.assertEqual((ended.status, ended.output, ended.error.splitlines(True)[-1:]), (1, b"", [why]))
        self.assertEqual(self.made(), before)

    def test_it_writes_the_object_and_the_sums(self):
        ended = self.run_script("release/make")
        self.assertRegex(ended.output.decode(), rf"release/sheet\.o\.xz: \d+ bytes, of {len(SOURCE)}\n")
        packed, sums = self.made()
        self.assertEqual(lzma.decompress(packed), SOURCE.encode())
        rows = [row.split(" ", 1) for row in sums.decode().splitlines()]
        self.assertEqual([name for name, _ in rows], ["kit", "object", "low", "middle", "sheet"])
        of_object = hashlib.sha256(SOURCE.encode()).hexdigest()
        self.assertEqual([said for _, said in rows[:2]], ["kit-1 logic 5a", of_object])

    def test_the_sum_of_a_crate(self):
        # by another program: its row, then the sum and the path of each file, in the order of their bytes
        self.write("crates/middle/specs/B.antt", "b\n")
        self.write("crates/middle/specs/a/C.antt", "c\n")
        self.run_script("release/make")
        of = lambda text: hashlib.sha256(text.encode()).hexdigest()
        whole = "middle tests_may=Threads: itoa low\n" + f"{of('b' + chr(10))}  specs/B.antt\n{of('c' + chr(10))}  specs/a/C.antt\n"
        self.assertIn(f"\nmiddle {of(whole)}\n", self.made()[1].decode())

    def test_it_writes_the_same_again(self):
        self.run_script("release/make")
        before = self.made()
        self.release()
        self.assertEqual(self.made(), before)

    def test_it_leaves_the_proved_program(self):
        self.run_script("release/make")
        ended = self.start("--prove")
        self.assertEqual((ended.status, ended.output), (3, lines("words: two words")))

    def test_nothing_is_made_of_what_is_not_proved(self):
        self.release()
        self.use(FAILS)
        self.assert_makes_nothing(b"release/make: nothing is made, since the program isn't proved\n")

    def test_nothing_is_made_where_the_object_is_of_another_program(self):
        self.release()
        self.use(LINK + 'echo more >> "$program"\n', "bin/rattle-link")
        why = b"release/make: nothing is made, since its object makes another program than the proved one\n"
        self.assert_makes_nothing(why)

    def test_nothing_is_made_where_a_source_changes_meanwhile(self):
        self.release()
        self.use(LINK + f"date +%N > {self.top}/crates/low/src/lib.rt\n", "bin/rattle-link")
        self.assert_makes_nothing(b"release/make: nothing is made, since a source has changed meanwhile\n")


class Compared(StandIns):
    def setUp(self):
        super().setUp()
        self.release()
        self.run_script("sheet", "--prove")
        path = {"PATH": f"{self.top}/kit/bin:{os.environ['PATH']}"}
        self.enterContext(mock.patch.dict(os.environ, path))

    def assert_differs(self, why):
        """The comparison fails for this reason."""
        self.assertEqual(compared.difference(self.top), why)

    def test_the_object_of_the_proved_build(self):
        self.assertIsNone(compared.difference(self.top))

    def test_other_sources(self):
        self.write("crates/low/src/lib.rt", "more\n")
        self.write("crates/sheet/specs/Lib.antt", "more\n")
        self.assert_differs("the released program was made of other sources (low sheet): run release/make")

    def test_a_crate_more_or_less(self):
        rows = (self.top / "crates.txt").read_text()
        self.write("crates.txt", rows.replace("middle low\n", "aside low\n"))
        self.assert_differs("the released program was made of other sources (aside middle sheet): run release/make")

    def test_a_file_that_is_missing(self):
        (self.top / "release/sheet.o.xz").unlink()
        self.assertIn("the released object can't be compared: ", compared.difference(self.top))

    def test_a_broken_object(self):
        file = self.top / "release/sheet.o.xz"
        file.write_bytes(file.read_bytes()[:30])
        self.assertIn("the released object can't be compared: ", compared.difference(self.top))

    def test_another_object(self):
        (self.top / "release/sheet.o.xz").write_bytes(lzma.compress(SOURCE.encode() + b"\n"))
        self.assert_differs("the released object isn't that of the proved build")

    def test_a_program_that_was_not_proved(self):
        file = self.top / "crates/sheet/out/sheet"
        file.write_bytes(file.read_bytes() + b"# proved\n")
        self.assert_differs("the released object isn't that of the proved build")

    def test_a_tool_that_fails(self):
        self.use(BREAKS, "bin/rattle-link")
        self.assert_differs("the released object can't be compared: rattle-link ended with status 7: it is too hot")

    def test_no_proved_build(self):
        shutil.rmtree(self.top / "crates/sheet/out")
        self.assert_differs("there is no proved build to compare with")
