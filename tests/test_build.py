"""The script `build` and the launcher, with stand-ins for the tools."""
import fcntl
import lzma
import os
import shutil
import subprocess
from concurrent.futures import ThreadPoolExecutor

from program import LIMIT, Ended, lines
from stand_ins import BREAKS, BUILDS, FAILS, PROVED, RELEASED, StandIns

BEGINS = b"sheet: building, which proves what changed; the first time this takes about half an hour\n"
EACH = lines("1 of 3 low", "2 of 3 middle", "3 of 3 sheet")
WORDS = lines("words: two words")
LINKED = lines("sheet: linked the released program; ./test proves it and compares")
FAILED_LOG = lines("rt: chose --jobs 2 for low", "rt: chose --jobs 2 for middle", "fn middle::first: not proved")
NEEDS_KIT = (
    "a proof needs the Rattle kit, the compiler and prover of the language, with its rt on PATH;"
    " only a change of the sources needs it"
)


def other(*crates):
    """Why a program is proved where these crates have other sources than the released one."""
    return lines(f"sheet: the released program was made of other sources ({' '.join(crates)})")


class Proved(StandIns):
    """Where the word `--prove` asks for a proof."""

    def prove(self):
        return self.start("--prove")

    def builds(self):
        """How often the program was proved and built."""
        return len(self.calls("built: run -- --help"))

    def change(self, name):
        """Changes a file, which is newer than the program then."""
        file = self.top / name
        file.write_text(f"{file.read_text() if file.is_file() else ''}\n# more\n")
        self.make_newer(name, PROVED)

    def test_each_crate_that_is_worked_on_has_a_line(self):
        self.assertEqual(self.prove(), Ended(3, WORDS, BEGINS + EACH))

    def test_the_whole_log_is_kept(self):
        self.prove()
        log = (self.top / "crates/sheet/out/build.log").read_text()
        self.assertIn("rt: chose --jobs 2 for middle\nfn middle::first: proved\n", log)

    def test_what_is_built_is_not_built_again(self):
        self.prove()
        self.assertEqual(self.prove(), Ended(3, WORDS))
        self.assertEqual(self.builds(), 1)

    def test_it_is_built_again_where_a_source_is_changed(self):
        self.prove()
        files = ["crates/low/src/lib.rt", "crates/middle/specs/Low.antt", "crates/middle/proofs/a/b/Answers.antt"]
        for count, file in enumerate([*files, "crates/sheet/src/main.rt"], 2):
            with self.subTest(file=file):
                (self.top / file).parent.mkdir(parents=True, exist_ok=True)
                self.change(file)
                self.prove()
                self.assertEqual(self.builds(), count)
                os.utime(self.top / file, ns=(0, 0))

    def test_it_is_built_again_where_a_crate_below_has_another_row(self):
        self.prove()
        file = self.top / "crates.txt"
        file.write_text(file.read_text().replace("low:", "low: itoa"))
        self.make_newer("crates.txt", PROVED)
        self.assertEqual(self.prove(), Ended(3, WORDS, BEGINS + EACH))

    def test_it_is_not_built_again_for_a_crate_that_it_does_not_stand_on(self):
        self.prove()
        self.change("crates/aside/src/lib.rt")
        self.assertEqual(self.prove(), Ended(3, WORDS))
        self.assertEqual(self.builds(), 1)

    def test_it_is_built_again_where_another_was_made_meanwhile(self):
        self.prove()
        program = self.top / PROVED
        program.write_text("#!/bin/sh\necho another\n")
        os.utime(program, ns=(0, 0))
        self.assertEqual(self.prove(), Ended(3, WORDS, BEGINS + EACH))

    def test_a_build_that_fails_ends_with_status_4_and_names_its_log(self):
        self.use(FAILS)
        log = self.top / "crates/sheet/out/build.log"
        said = FAILED_LOG + lines(f"sheet: the build failed; all that it said is in {log}")
        self.assertEqual(self.prove(), Ended(4, b"", BEGINS + lines("1 of 3 low", "2 of 3 middle") + said))
        self.assertEqual(log.read_bytes(), FAILED_LOG)

    def test_an_older_program_is_not_run_where_its_build_fails(self):
        self.prove()
        self.use(FAILS)
        self.change("crates/low/src/lib.rt")
        ended = self.prove()
        self.assertEqual((ended.status, ended.output), (4, b""))

    def test_to_prove_alone_says_nothing_more(self):
        self.assertEqual(self.run_script("sheet", "--prove"), Ended(0, b"", BEGINS + EACH))
        self.assertEqual(self.run_script("sheet", "--prove"), Ended(0))

    def test_one_that_waits_for_another_says_so(self):
        held = os.open(self.top / "release", os.O_RDONLY)
        fcntl.flock(held, fcntl.LOCK_EX)
        how = {"env": self.environment(), "stderr": subprocess.PIPE, "stdout": subprocess.PIPE}
        with subprocess.Popen([self.top / "sheet", "--prove", "two", "words"], **how) as start:
            waits = lines("sheet: waiting for another start, which builds the program")
            self.assertEqual(start.stderr.readline(), waits)
            os.close(held)
            self.assertEqual(start.communicate(timeout=LIMIT), (WORDS, BEGINS + EACH))

    def test_without_the_kit_it_says_what_that_is(self):
        (self.top / "kit/bin/rt").unlink()
        ended = self.run_script("sheet", "--prove", environment={"PATH": "/usr/bin:/bin"})
        self.assertEqual(ended, Ended(4, b"", lines(f"sheet: {NEEDS_KIT}")))


class Released(StandIns):
    """Where there is a released program."""

    def setUp(self):
        super().setUp()
        self.release()

    def forget(self):
        """Removes all that was built."""
        for folder in ("crates/sheet/out", "release/out"):
            shutil.rmtree(self.top / folder, ignore_errors=True)

    def assert_fails(self, said):
        """It ends with status 4 and this last line."""
        ended = self.start()
        self.assertEqual((ended.status, ended.output, ended.error.splitlines(True)[-1:]), (4, b"", [said]))

    def test_it_is_linked(self):
        self.assertEqual(self.start(), Ended(3, WORDS, LINKED))
        self.assertEqual(self.calls("built"), [])
        [linked] = self.calls("cc")
        self.assertRegex(linked, rf"cc: -O2 -Wl,--gc-sections -o /\S+/sheet {self.top}/release/host\.c /\S+/sheet\.o")

    def test_it_is_linked_without_the_kit(self):
        (self.top / "kit/bin/rt").unlink()
        self.assertEqual(self.start(), Ended(3, WORDS, LINKED))

    def test_it_is_not_linked_again(self):
        self.start()
        self.assertEqual(self.start(), Ended(3, WORDS))
        self.assertEqual(len(self.calls("cc")), 1)

    def test_it_is_linked_again_where_sources_are_newer_and_the_same(self):
        self.start()
        (self.top / "crates/low/src").touch()
        self.make_newer("crates/low/src", RELEASED)
        self.assertEqual(self.start(), Ended(3, WORDS, LINKED))

    def test_a_changed_source_is_proved(self):
        files = ["low/src/more.rt", "middle/specs/More.antt", "sheet/proofs/more/Answers.antt"]
        for is_linked in (False, True):
            for file in files:
                with self.subTest(is_linked=is_linked, file=file):
                    if is_linked:
                        self.assertEqual(self.start().error, LINKED)
                    self.write(f"crates/{file}", "more\n")
                    if is_linked:
                        self.make_newer(f"crates/{file}", RELEASED)
                    why = other(file.partition("/")[0])
                    self.assertEqual(self.start(), Ended(3, WORDS, why + BEGINS + EACH))
                    if not is_linked:
                        # .. once
                        self.assertEqual(self.start(), Ended(3, WORDS))
                    (self.top / "crates" / file).unlink()
                    self.forget()

    def test_the_changed_program_is_run(self):
        self.start()
        file = self.top / "crates/sheet/src/main.rt"
        file.write_text(file.read_text().replace("words", "changed"))
        self.make_newer("crates/sheet/src/main.rt", RELEASED)
        self.assertEqual(self.start(), Ended(3, lines("changed: two words"), other("sheet") + BEGINS + EACH))

    def test_a_changed_row_is_proved(self):
        file = self.top / "crates.txt"
        rows = file.read_text()
        file.write_text(rows.replace("low:", "low: itoa"))
        self.assertEqual(self.start(), Ended(3, WORDS, other("low") + BEGINS + EACH))
        self.forget()
        file.write_text(rows.replace("aside: low", "aside:"))
        self.assertEqual(self.start(), Ended(3, WORDS, LINKED))

    def test_changed_sources_without_the_kit(self):
        (self.top / "kit/bin/rt").unlink()
        self.write("crates/low/src/more.rt", "more\n")
        self.write("crates/sheet/src/more.rt", "more\n")
        ended = self.run_script("sheet", environment={"PATH": "/usr/bin:/bin"})
        why = other("low", "sheet").decode().rstrip("\n")
        self.assertEqual(ended, Ended(4, b"", lines(f"{why}; {NEEDS_KIT}")))

    def test_a_broken_object(self):
        file = self.top / "release/sheet.o.xz"
        packed = file.read_bytes()
        for broken in (b"", packed[:20], packed[:40] + b"xxxx" + packed[44:], b"no archive"):
            with self.subTest(broken=broken):
                file.write_bytes(broken)
                ended = self.start()
                self.assertIn(b"sheet: release/sheet.o.xz ", ended.error)
                self.assertEqual((ended.status, ended.output, self.calls("cc")), (4, b"", []))

    def test_another_object(self):
        (self.top / "release/sheet.o.xz").write_bytes(lzma.compress(b"#!/bin/sh\necho another\n"))
        self.assert_fails(lines("sheet: release/sheet.o.xz isn't the object that release/sums tells of"))
        self.assertEqual(self.calls("cc"), [])

    def test_a_compiler_that_fails(self):
        self.use(BREAKS, "bin/cc")
        self.assert_fails(lines("sheet: cc can't link the released program; on Debian it needs libc6-dev, too"))
        self.assertIn(b"it is too hot\n", self.start().error)

    def without(self, *tools):
        """An environment in which these tools are not to be had."""
        place = self.folder()
        for folder in ("/usr/bin", "/bin"):
            for file in os.scandir(folder):
                if file.name not in tools and not (place / file.name).exists():
                    (place / file.name).symlink_to(file.path)
        return {"PATH": str(place)}

    def test_a_tool_that_is_missing_is_named_with_its_package(self):
        compilers = {file.name for file in os.scandir("/usr/bin") if file.name in ("cc", "gcc", "clang")}
        for tools, said in (
            (compilers, "the released program is linked by a C compiler, and there is none: apt-get install gcc"),
            ({"xz"}, "the released program is linked by xz, which isn't here: apt-get install xz-utils"),
        ):
            with self.subTest(tools=tools):
                ended = self.run_script("sheet", environment=self.without(*tools))
                self.assertEqual(ended, Ended(4, b"", lines(f"sheet: {said}")))

    def test_to_prove_takes_no_released_program(self):
        self.start()
        self.assertEqual(self.start("--prove"), Ended(3, WORDS, BEGINS + EACH))
        # .. and a start without that word takes it again
        self.assertEqual(self.start(), Ended(3, WORDS))
        self.assertEqual(self.run_script("build").output, lines(str(self.top / RELEASED)))

    def test_two_that_are_started_at_once(self):
        with ThreadPoolExecutor(2) as pool:
            starts = [pool.submit(self.start) for _ in range(2)]
            ended = [start.result() for start in starts]
        self.assertEqual([(it.status, it.output) for it in ended], [(3, WORDS)] * 2)
        self.assertEqual([file.name for file in (self.top / "release/out").iterdir()], ["sheet"])

    def test_what_is_newly_released_is_linked(self):
        self.start()
        file = self.top / "crates/sheet/src/main.rt"
        file.write_text(file.read_text().replace("words", "changed"))
        self.make_newer("crates/sheet/src/main.rt", RELEASED)
        self.release()
        self.assertEqual(self.start(), Ended(3, lines("changed: two words"), LINKED))

    def test_what_is_edited_while_it_is_linked_is_newer(self):
        edits = '#!/bin/sh\necho "echo more" >> {top}/crates/sheet/src/main.rt\n'
        self.use(edits + (self.top / "kit/bin/cc").read_text().partition("\n")[2], "bin/cc")
        self.assertEqual(self.start(), Ended(3, WORDS, LINKED))
        self.assertEqual(self.start().error, other("sheet") + BEGINS + EACH)
