"""The program as one file, its man page and its completions, and how they are installed."""
import importlib.machinery
import importlib.util
import subprocess

from program import LIMIT, TOP, Ended, ProgramTest, lines

FILES = ("bin/sheet", "share/man/man1/sheet.1", "share/bash-completion/completions/sheet")
USAGE = "usage: ./install [PREFIX], or ./install --uninstall [PREFIX]"


def manual():
    """The module that makes the man page and the completions, whose file has no ending."""
    loader = importlib.machinery.SourceFileLoader("manual", str(TOP / "release/manual"))
    module = importlib.util.module_from_spec(importlib.util.spec_from_loader("manual", loader))
    loader.exec_module(module)
    return module


def called(*words, **how):
    """How a command ends."""
    ran = subprocess.run(words, stdin=subprocess.DEVNULL, capture_output=True, timeout=LIMIT, **how)
    return Ended(ran.returncode, ran.stdout, ran.stderr)


class Manual(ProgramTest):
    def test_it_is_made_of_what_the_help_says(self):
        for name, text in manual().made().items():
            with self.subTest(name=name):
                self.assertEqual((TOP / "release" / name).read_text(), text, "run release/manual")

    def completed(self, *words):
        """What bash offers for the last of these words."""
        script = f"""
            . {TOP}/release/sheet.bash
            COMP_WORDS=("$@")
            COMP_CWORD=$(($# - 1))
            _sheet sheet "${{COMP_WORDS[COMP_CWORD]}}"
            printf '%s\\n' "${{COMPREPLY[@]}}"
        """
        return called("bash", "-c", script, "bash", "sheet", *words).output.split()

    def test_commands_and_options_are_completed(self):
        self.assertEqual(self.completed("s"), [b"serve", b"sync", b"squash"])
        self.assertEqual(self.completed("run", "--rep"), [b"--replica"])
        self.assertEqual(self.completed("follow", "--e"), [b"--every", b"--explain"])
        self.assertEqual(self.completed("help", "ta")[:1], [b"table"])

    def test_a_file_is_completed_where_one_is_kept(self):
        folder = self.folder()
        (folder / "plan.lines").touch()
        self.assertEqual(self.completed("run", "--keep", f"{folder}/pl"), [f"{folder}/plan.lines".encode()])


class Packed(ProgramTest):
    def packed(self):
        """A folder that the program was packed into."""
        folder = self.folder() / "new/folder"
        ended = called(TOP / "release/pack", folder)
        self.assertEqual((ended.status, ended.error), (0, b""), ended)
        return folder

    def test_one_program_with_its_pages_and_sums(self):
        folder = self.packed()
        names = {file.name for file in folder.iterdir()}
        self.assertEqual(names, {"sheet", "sheet.1", "sheet.bash", "SHA256SUMS"})
        checked = called("sha256sum", "-c", "SHA256SUMS", cwd=folder)
        self.assertEqual(checked, Ended(0, lines("sheet: OK", "sheet.1: OK", "sheet.bash: OK")))

    def test_the_program_needs_no_other_file(self):
        program = self.packed() / "sheet"
        self.assertNotIn(b"/ld-linux", program.read_bytes())
        ran = subprocess.run([program, "run"], input=b"set A1 5\nget A1\n", capture_output=True, timeout=LIMIT, env={})
        self.assertEqual((ran.returncode, ran.stdout, ran.stderr), (0, lines("ok 1", "val 5"), b""))

    def test_other_words_are_refused(self):
        for words in ([], ["a", "b"]):
            self.assertEqual(called(TOP / "release/pack", *words), Ended(2, b"", lines("usage: release/pack DIR")))


class Installed(ProgramTest):
    def test_it_is_installed_and_taken_away(self):
        place = self.folder()
        paths = [place / file for file in FILES]
        named = f"{paths[0]}, {paths[1]} and {paths[2]}"
        # (the first start of a clone says on standard error that it links)
        self.assertEqual(called(TOP / "install", place)[:2], (0, lines(f"installed {named}")))
        self.assertEqual([path.stat().st_mode & 0o777 for path in paths], [0o755, 0o644, 0o644])
        ran = subprocess.run([paths[0], "run"], input=b"set A1 5\nget A1\n", capture_output=True, timeout=LIMIT)
        self.assertEqual((ran.returncode, ran.stdout), (0, lines("ok 1", "val 5")))
        self.assertEqual(called(TOP / "install", "--uninstall", place), Ended(0, lines(f"removed {named}")))
        self.assertEqual([path for path in paths if path.exists()], [])
        # .. and again, where nothing is left
        self.assertEqual(called(TOP / "install", "--uninstall", place).status, 0)

    def test_other_words_are_refused(self):
        for words in (["-x"], ["a", "b"], ["--uninstall", "a", "b"], ["--uninstall", "--uninstall"]):
            with self.subTest(words=words):
                self.assertEqual(called(TOP / "install", *words), Ended(2, b"", lines(USAGE)))
