"""Starting the program: the first example, the launcher, and the help."""
import os
import re
import shlex
import subprocess

from pages import beginning, recipes
from program import LIMIT, SHEET, TOP, Ended, ProgramTest, lines, run

TWO_REPLICAS = r"""
ask() { awk '{ print } END { while (n < NR) print "pull " n++ }'; }
here=$(mktemp -d)
printf 'set A1 apples\nset B1 @tally\nadd B1 3\n' | ask | ./sheet run --replica 1 > $here/one
printf 'set A1 pears\nset B1 @tally\nadd B1 4\n' | ask | ./sheet run --replica 2 > $here/two
sed -n 's/^delta [0-9]* /push /p' $here/one $here/two > $here/lines
(cat $here/lines; printf 'get A1\nget B1\n') | ./sheet run --replica 1 | tail -n 2
(tac $here/lines; cat $here/lines; printf 'get A1\nget B1\n') | ./sheet run --replica 2 | tail -n 2
"""
# The commands and the options, each with a word of what the help says of it; of an option by its command, where that
# makes a difference.
COMMANDS = {
    "run": "each line of standard input", "table": "CSV", "serve": "several sessions",
    "sync": "one replica has to another", "join": "at the same changes", "follow": "as change lines",
    "talk": "asks a server", "squash": "few change lines",
}
WITHOUT_NUMBER = ("--keep", "--squash", "--explain", "--strict", "--entries", "--until-now", "--once", "--check",
                  "--lines", "--title")
# Read as texts, since `-` may stand there: test_join_pipe.py has their range.
WITH_DASH = (("join", "--from"), ("join", "--to"))
WHY_NO_PORT = dict.fromkeys(("serve", "sync", "join", "follow", "talk"), "why a port")
OPTIONS = {
    "--workers": "threads", "--replica": "of this replica", "--strict": "status 3", "--squash": "half as long",
    "--keep": {"run": "kept in", "serve": "kept in", "squash": "in its place"},
    "--entries": "entries", "--port": "listen", "--sessions": "before it ends", "--seats": "to serve at a time",
    "--wait": "wait for a session slot", "--idle": "be silent", "--after": "passes over", "--until-now": "ends once",
    "--every": "milliseconds", "--title": "title of the page", "--once": "all that the other one had",
    "--check": "hold the same", "--until": "from the first on", "--with": "merges at",
    "--lines": "lines of standard input", "--without": "this replica assigned",
    "--to": {"sync": "takes them in", "join": "the other replica", "talk": "is asked"},
    "--from": {"sync": "are pulled", "join": "go to the other one first", "follow": "is followed"},
    "--explain": {"run": "with a hint", "table": "with a hint", **WHY_NO_PORT},
}


def shell(command, folder=TOP, environment=None):
    """Runs a command of the shell in this folder to its end."""
    how = {"cwd": folder, "env": environment, "stdin": subprocess.DEVNULL, "capture_output": True, "timeout": LIMIT}
    ran = subprocess.run(["sh", "-c", command], **how)
    return Ended(ran.returncode, ran.stdout, ran.stderr)


class Examples(ProgramTest):
    def test_the_first_example_of_the_readme(self):
        [example] = beginning("README.md", "printf 'set A1 5")
        self.assertEqual(shell(example), Ended(0, lines("ok 1", "ok 2", "val 10")))

    def test_the_table_of_the_readme(self):
        [example] = beginning("README.md", "printf '2,=")
        self.assertEqual(shell(example), Ended(0, lines("2,6", '"x,y",0')))

    def test_two_replicas_that_edit_apart_and_meet(self):
        [(command, shown)] = recipes("README.md", "sh")
        self.assertEqual(command, TWO_REPLICAS.removeprefix("\n"))
        folder, elsewhere = self.folder(), self.folder()
        os.symlink(SHEET, folder / "sheet")
        ended = shell(TWO_REPLICAS, folder, {**os.environ, "TMPDIR": str(elsewhere)})
        self.assertEqual(ended, Ended(0, shown.encode()))
        # nothing is written into the folder of the program
        self.assertEqual([file.name for file in folder.iterdir()], ["sheet"])

    def test_each_session_of_two_replicas_writes_the_block_after_it(self):
        sessions = recipes("docs/USING.md", "sh")
        self.assertEqual(len(sessions), 2)
        for command, shown in sessions:
            with self.subTest(command=command):
                self.assertTrue(command.startswith("./sheet run"))
                self.assertEqual(shell(command), Ended(0, shown.encode()))


class Launcher(ProgramTest):
    def test_it_can_be_started_from_another_folder(self):
        self.assertEqual(shell(f"echo get A1 | '{SHEET}' run", folder="/"), Ended(0, lines("val ")))

    def test_it_can_be_started_by_a_link(self):
        link = self.folder() / "spreadsheet"
        os.symlink(SHEET, link)
        self.assertEqual(shell(f"echo get A1 | '{link}' run", folder="/"), Ended(0, lines("val ")))


class Help(ProgramTest):
    def assert_tells(self, words, *told):
        """The program started with these words tells all of this on standard output, and ends well."""
        ended = run(*words)
        self.assertEqual((ended.status, ended.error), (0, b""))
        for text in told:
            self.assertIn(text, ended.output.decode())

    def test_help_names_the_commands(self):
        self.assert_tells(["--help"], "Usage: sheet <COMMAND>", *COMMANDS)

    def test_help_lists_the_refusals(self):
        listed = (TOP / "docs/FORMATS.md").read_text().split("## Refusals\n\n")[1].split("\n\n")[0]
        refusals = [refusal.split() for refusal in listed.split(",")]
        self.assertEqual([int(number) for number, _ in refusals], list(range(1, 22)))
        self.assert_tells(["--help"], *(f"\n  {number:>2} {name:11} " for number, name in refusals))

    def test_help_of_run_names_its_options_and_each_line(self):
        verbs = ["set", "add", "sub", "get", "choose", "unchoose", "rows", "entry", "entries", "pull", "push", "replica"]
        self.assert_tells(["run", "--help"], "Usage: sheet run", "--workers", "--replica", "--explain", "--strict", "--keep",
                          *(f"{it} " for it in verbs))

    def test_help_of_run_names_the_last_cell_and_the_largest_group(self):
        self.assert_tells(["run", "--help"], "A1 to CZ1024. ", "  pull 0 16  ")
        given = lines("get CZ1024", "get CZ1025", "get DA1024", "pull 0 16", "pull 0 17")
        self.assertEqual(run("run", given=given),
                         Ended(0, lines("val ", "err 1 cell", "err 1 cell", "end 0", "err 17 version")))

    def test_help_of_table_names_its_options(self):
        self.assert_tells(["table", "--help"], "Usage: sheet table", "--workers", "--entries", "--explain")

    def options(self, command):
        """The options that the help of a command lists, each with what it says of it."""
        told = run(command, "--help").output.decode()
        listed = re.findall(r"^ +(--[a-z-]+)(?: <[a-z]+>)?(?:  +(\S.*))?$", told, flags=re.MULTILINE)
        self.assertEqual(len(listed), len(re.findall(r"^ +--", told, flags=re.MULTILINE)))
        return dict(listed)

    def test_each_command_is_told_by_a_text_of_its_own(self):
        told = run("--help").output.decode()
        for command, phrase in COMMANDS.items():
            with self.subTest(command=command):
                text, = re.findall(rf"^  {command}  +(\S.*)$", told, flags=re.MULTILINE)
                self.assertIn(phrase, text)
                self.assertEqual(run(command, "--help").output.decode().split("\n")[0], text)

    def test_each_option_is_told_by_a_text_of_its_own(self):
        for command in COMMANDS:
            texts = self.options(command)
            for option, text in texts.items():
                with self.subTest(command=command, option=option):
                    phrase = OPTIONS[option]
                    self.assertIn(phrase if type(phrase) is str else phrase[command], text)

    def test_the_numbers_that_an_option_takes_are_those_of_its_text(self):
        for command in COMMANDS:
            for option, text in self.options(command).items():
                if option in WITHOUT_NUMBER or (command, option) in WITH_DASH:
                    continue
                (least, most), = re.findall(r", ([0-9]+) to ([0-9]+)\b", text)
                for number, status in ((int(least) - 1, 2), (least, 0), (most, 0), (int(most) + 1, 2)):
                    with self.subTest(command=command, option=option, number=number):
                        # (what comes before the word for help is read first)
                        self.assertEqual(run(command, f"{option}={number}", "--help").status, status)

    def examples(self, *words):
        """The words of each example of the help after these, from the name of the program on."""
        told = run(*words, "--help").output.decode()
        after = re.split(r"^Examples?\b.*:$", told, maxsplit=1, flags=re.MULTILINE)[1]
        found = re.findall(r"^  (?:.* \| )?sheet ([^|<>&\n]+)", after, flags=re.MULTILINE)
        return told, [shlex.split(example) for example in found]

    def test_each_command_has_an_example(self):
        _, examples = self.examples()
        self.assertEqual({words[0] for words in examples}, {*COMMANDS, "help", "--version"})

    def test_each_option_has_an_example(self):
        for command in COMMANDS:
            with self.subTest(command=command):
                told, examples = self.examples(command)
                options = set(re.findall(r"^ +(?:-\w, )?(--[a-z-]+)", told, flags=re.MULTILINE)) - {"--help"}
                own = [words for words in examples if words[0] == command]
                self.assertEqual({word for words in own for word in words if word.startswith("--")}, options)
                self.assertTrue(own)

    def test_the_lines_of_the_help_of_run_have_the_replies_that_it_tells(self):
        told = run("run", "--help").output.decode()
        # columns for lines, for what they do and for their replies
        table = told.split("has a reply on standard output:\n\n")[1].split("\n\n")[0].split("\n")
        taken = [row for row in table if row.startswith(("  push ", "  merge "))]
        table = [row for row in table if row not in taken]
        asked = [line for row in table for line in re.split("  +", row[2:24].strip())]
        due = [reply for row in table for reply in re.split(", then |, (?=ok )", row[53:])]
        replies = run("run", given=lines(*asked)).output.decode().splitlines()
        for reply, wanted in zip(replies, due, strict=True):
            shown = wanted.removesuffix(" ..")
            self.assertEqual(reply if shown == wanted else reply[:len(shown)], shown)
        # what a pull told, at another replica: pushed, and merged, when all of it is known
        delta, = [reply.split(" ", 2)[2] for reply in replies if reply.startswith("delta ")]
        again = [f"{row.split()[0]} {delta}" for row in taken]
        self.assertEqual(run("run", "--replica", "2", given=lines(*again)), Ended(0, lines(*(row[53:] for row in taken))))

    def test_the_examples_of_the_help_write_what_it_tells(self):
        told = run("table", "--help").output.decode()
        command, shown = re.search(r"\n  (printf .*)\n\nwrites\n\n((?:  .*\n)+)", told).groups()
        self.assertEqual(shell(command.replace("sheet", SHEET)), Ended(0, re.sub("(?m)^  ", "", shown).encode()))
        told = run("squash", "--help").output.decode()
        given, shown = re.search(r"\nFrom\n\n((?:  .*\n)+)\nit writes\n\n((?:  .*\n)+)", told).groups()
        self.assertEqual(run("squash", given=re.sub("(?m)^  ", "", given).encode()),
                         Ended(0, re.sub("(?m)^  ", "", shown).encode()))

    def test_the_words_of_each_example_are_taken(self):
        for command in ([], *([command] for command in COMMANDS)):
            for words in self.examples(*command)[1]:
                with self.subTest(words=words):
                    # what comes before the word for help is read first
                    ended = run(*words, *(["--help"] if words[0] in COMMANDS else []))
                    self.assertEqual((ended.status, ended.error), (0, b""))

    def test_the_version_is_told(self):
        self.assertEqual(run("--version"), Ended(0, b"sheet 0.1.0\n"))

    def test_the_short_option_and_the_command_help_tell_the_same(self):
        for words in ([], *([command] for command in COMMANDS)):
            with self.subTest(words=words):
                told = run(*words, "--help").output
                self.assertEqual(run(*words, "-h"), Ended(0, told))
                self.assertEqual(run("help", *words), Ended(0, told))
