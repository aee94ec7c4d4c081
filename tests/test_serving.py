"""The recipes of `docs/USING.md`: each block of commands writes the block after it, and none loses a change."""
import contextlib
import csv
import io
import os
import re
import shutil
import signal
import socket
import subprocess

from pages import beginning, functions, recipes
from program import LIMIT, NO_GIT, SHEET, TOP, Ended, ProgramTest, lines, run, started, taken
from servers import HERE, Client, comes_to, free_port, serving
from sizes import COLUMNS, LONGEST_DELTA, name

# What the page has first: the functions that its recipes call.
FUNCTIONS = functions("docs/USING.md")
RECIPES = recipes("docs/USING.md", "bash")
# How long recipes wait for what goes on beside them, and how long they wait when they are tried again.
PAUSE, LONGER = "sleep 2 &&\n", "sleep 15 &&\n"


class Pasting(ProgramTest):
    """A test that pastes commands in a folder with the program at `./sheet`."""

    def setUp(self):
        self.place = self.folder()
        os.symlink(SHEET, self.place / "sheet")

    def paste(self, commands):
        """How these commands end after the functions of the page."""
        how = {"cwd": self.place, "stdin": subprocess.DEVNULL, "stdout": subprocess.PIPE}
        with started("-c", FUNCTIONS + commands, program="bash", **how) as shell:
            output, error = shell.communicate(timeout=LIMIT)
            return Ended(shell.returncode, output, error)


class Recipes(Pasting):
    def test_each_writes_the_block_after_it(self):
        self.assertEqual(len(RECIPES), 9)
        for commands, shown in RECIPES:
            if "git " not in commands:
                self.assert_writes(commands, shown)

    def test_the_one_over_git_writes_the_block_after_it(self):
        if shutil.which("git") is None:
            self.skipTest(NO_GIT)
        [(commands, shown)] = [recipe for recipe in RECIPES if "git " in recipe[0]]
        self.assert_writes(commands, shown)

    def assert_writes(self, commands, shown):
        """This block of commands writes this block of text."""
        with self.subTest(commands=commands):
            ended, wanted = self.pasted(commands, shown)
            if PAUSE in commands and ended != wanted:
                # what comes meanwhile may take longer on a machine that does much else
                self.forget()
                ended, wanted = self.pasted(commands.replace(PAUSE, LONGER), shown)
            self.assertEqual(ended, wanted)

    def forget(self):
        """Takes away the sheets that are kept, which the recipe begins without."""
        for file in self.place.glob("*.lines"):
            file.unlink()

    def pasted(self, commands, shown):
        """How these commands end, and how they have to, with ports of the test's own for those that they name."""
        ports = {named: str(free_port()) for named in ("7001", "7002")}
        commands, shown = (re.sub(r"\b700[12]\b", lambda port: ports[port[0]], it) for it in (commands, shown))
        return self.paste(commands), Ended(0, shown.encode())

    def test_one_whose_port_is_taken_ends_and_says_nothing_to_who_has_it(self):
        starting = [commands for commands, _ in RECIPES if "start " in commands]
        self.assertEqual(len(starting), 3)
        with socket.create_server((HERE, 0)) as listener:
            port = str(listener.getsockname()[1])
            for commands in starting:
                with self.subTest(commands=commands):
                    ended = self.paste(commands.replace("7001", port).replace("7002", str(free_port())))
                    self.assertEqual(ended, Ended(1, b"", taken(port)))
            listener.setblocking(False)
            with self.assertRaises(BlockingIOError):
                listener.accept()


class Keeping(Pasting):
    """Nothing is lost by `follow` from `serve`, and by the `ask` of `README.md`."""

    def from_serve(self):
        """Keeps what the file `given` does at `serve`."""
        port = free_port()
        self.assertEqual(self.paste(f"""
            start log ./sheet serve --port {port} --sessions 2 &&
            ./sheet talk --to {port} < given > replies &&
            ./sheet follow --from {port} --until-now > kept &&
            wait
        """), Ended(0))
        self.assertNotIn(b"err", (self.place / "replies").read_bytes())

    def by_asking(self):
        """Keeps what the file `given` does at `run`, each change by itself."""
        ask = re.search(r"^ask\(\) .*$", (TOP / "README.md").read_text(), re.MULTILINE)[0]
        kept = "ask < given | ./sheet run | sed -n 's/^delta [0-9]* /push /p' > kept"
        self.assertEqual(self.paste(f"{ask}\n{kept}"), Ended(0))

    def assert_kept(self, given, shown, groups):
        """What these lines do is kept, in so many groups, and shows this table again at another replica."""
        table = io.StringIO()
        csv.writer(table, lineterminator="\n").writerows(shown)
        asked = f"rows A1:{name(len(shown[0]) - 1, len(shown))}"
        (self.place / "given").write_text("".join(f"{line}\n" for line in given))
        for keep, count in ((self.from_serve, groups), (self.by_asking, len(given))):
            with self.subTest(keep=keep.__name__):
                keep()
                kept = (self.place / "kept").read_text().split("\n")[:-1]
                self.assertEqual(len(kept), count)
                replies = lines(*(f"ok {number + 1}" for number in range(count)), f"rows {len(shown)}")
                ended = run("run", "--replica", "2", given=lines(*kept, asked))
                self.assertEqual(ended, Ended(0, replies + table.getvalue().encode()))

    def assert_numbers_are_kept(self, count):
        """So many changes are kept, of a cell for each group of 16."""
        cells = [name(number // 16 % COLUMNS, number // 16 // COLUMNS + 1) for number in range(count)]
        last = [str(min(number + 16, count) - 1) for number in range(0, count, 16)]
        rows = [last[begin:begin + COLUMNS] for begin in range(0, len(last), COLUMNS)]
        rows[-1] += [""] * (COLUMNS - len(rows[-1]))
        self.assert_kept([f"set {cell} {number}" for number, cell in enumerate(cells)], rows, len(last))

    def test_a_single_change(self):
        self.assert_numbers_are_kept(1)

    def test_a_change_more_than_a_group_has(self):
        self.assert_numbers_are_kept(17)

    def test_100_changes(self):
        self.assert_numbers_are_kept(100)

    def test_50_000_changes(self):
        self.assert_numbers_are_kept(50_000)

    def test_groups_that_the_length_of_a_line_cuts_short(self):
        """Batches of long texts, no two of them in a line, each with a few changes after it."""
        given, shown = [], []
        for batch in range(6):
            rows = range(batch * 17 + 1, batch * 17 + 17)
            texts = [[f"{name(column, row)}".ljust(64, "x") for column in range(COLUMNS)] for row in rows]
            cells = (f'["{name(column, row)}",[1,2,"\'{text}"],[],[]]'
                     for row, line in zip(rows, texts) for column, text in enumerate(line))
            given.append(f"push [{','.join(cells)}]")
            self.assertTrue(LONGEST_DELTA / 2 < len(given[-1]) - len("push ") <= LONGEST_DELTA)
            given += [f"set {name(column, rows.stop)} {column}" for column in range(batch)]
            shown += [*texts, [str(column) for column in range(batch)] + [""] * (COLUMNS - batch)]
        # there are 21 changes, and each group ends before the next batch
        self.assert_kept(given, shown, 6)

    def test_texts_byte_by_byte(self):
        texts = ["two  blanks ", " before", "\\n \\\\ \\", '"quoted", and not', "äpfel 梨", "$HOME `x` %s *", "-n"]
        self.assert_kept([f"set {name(column, 1)} {text}" for column, text in enumerate(texts)], [texts], 1)


# A stand-in for `ssh`, which leads to the port of this machine that `-W` names, and ends with that connection.
SSH = """#!/bin/bash
to=${@: -2:1}
exec 3<> "/dev/tcp/${to/://}"
cat <&0 >&3 &
exec cat <&3
"""


class Running(Pasting):
    """A test of what the pages start, with clients."""

    @contextlib.contextmanager
    def running(self, commands, place=None):
        """The shell of what these commands start in a folder; all of it is killed after the block."""
        path = f"{self.place}:{os.environ['PATH']}"
        how = {"cwd": place or self.place, "stdin": subprocess.DEVNULL, "stdout": subprocess.DEVNULL}
        with started("-c", f"{commands}wait", program="bash", env={**os.environ, "PATH": path}, **how) as shell:
            try:
                yield shell
            finally:
                with contextlib.suppress(ProcessLookupError):
                    os.killpg(shell.pid, signal.SIGKILL)

    def client(self, port):
        """A session at the server on this port, as soon as that listens."""
        def listens():
            with socket.socket() as look:
                return look.connect_ex((HERE, port)) == 0

        self.assertTrue(comes_to(listens))
        client = Client(port)
        self.addCleanup(client.close)
        return client


class Starting(Running):
    """Servers as the pages start them: a team's, and those of an office and two laptops."""

    def machine(self):
        """The folder of one more machine."""
        place = self.folder()
        os.symlink(SHEET, place / "sheet")
        return place

    def test_a_server_has_all_that_it_answered_when_it_is_started_again(self):
        served = [*beginning("README.md", "./sheet serve"),
                  *beginning("docs/USING.md", "./sheet serve --port 7001 --keep")]
        self.assertEqual(len(served), 2)
        for commands in served:
            port = free_port()
            for number in (1, 2, 3):
                with self.subTest(commands=commands, number=number), self.running(commands.replace("7001", str(port))):
                    client = self.client(port)
                    self.assertEqual(client.ask("get A1"), f"val {number - 1 or ''}")
                    self.assertEqual(client.ask(f"set A1 {number}"), f"ok {number}")

    def test_by_nohup_it_outlives_its_terminal(self):
        [commands] = beginning("docs/USING.md", "./sheet serve --port 7001 --keep")
        port = free_port()
        commands = commands.replace("./sheet serve", "nohup ./sheet serve").replace("7001", str(port))
        with self.running(commands.replace("\n", " &\n")) as shell:
            client = self.client(port)
            os.killpg(shell.pid, signal.SIGHUP)
            self.assertEqual(shell.wait(LIMIT), -signal.SIGHUP)
            self.assertEqual(client.ask("set A1 5"), "ok 1")
            self.assertEqual(self.client(port).ask("get A1"), "val 5")

    def test_two_laptops_and_the_office_agree_after_each_time_without_a_network(self):
        [office] = beginning("docs/USING.md", "./sheet serve --port 7001 --replica 1")
        [laptop] = beginning("docs/USING.md", "./sheet serve --port 7001 --replica 2")
        there, ports, place = free_port(), (free_port(), free_port()), self.machine()
        (self.place / "ssh").write_text(SSH)
        (self.place / "ssh").chmod(0o755)
        # (all machines have the port 7001, and a pause of five seconds is long)
        laptop = laptop.replace("-W 127.0.0.1:7001", f"-W 127.0.0.1:{there}").replace("sleep 5", "sleep 0.2")
        one, two = (laptop.replace("7001", str(port)) for port in ports)
        two = two.replace("--replica 2", "--replica 3")
        self.assertNotEqual(two.replace(str(ports[1]), str(ports[0])), one)
        with self.running(one, self.machine()), self.running(two, self.machine()):
            ours, count = [self.client(port) for port in ports], 0
            for client in ours:
                self.assertEqual(client.ask("set A1 @tally"), "ok 1")
            for _ in range(2):
                for client in ours:
                    self.assertTrue(client.ask("add A1 3").startswith("ok "))
                with self.running(office.replace("7001", str(there)), place):
                    theirs = self.client(there)
                    theirs.wait_for("get A1", f"val {count + 6}")
                    self.assertTrue(theirs.ask("add A1 4").startswith("ok "))
                    count += 10
                    for client in ours:
                        client.wait_for("get A1", f"val {count}")


class Copies(Pasting):
    """The copy of a running server, and what is made of it, as `docs/USING.md` has them."""

    def test_a_copy_is_a_sheet_again(self):
        [copy], [restore] = beginning("docs/USING.md", "./sheet follow"), beginning("docs/USING.md", "sed '1i")
        (self.place / "backup").mkdir()
        with serving(None, "--keep", str(self.place / "team.lines")) as server:
            client = server.client()
            for number, line in enumerate(("set A1 7", "set B1 @tally", "add B1 3"), 1):
                self.assertEqual(client.ask(line), f"ok {number}")
            self.assertEqual(self.paste(copy.replace("7001", str(server.port))), Ended(0, b"copied\n"))
        [copied] = (self.place / "backup").iterdir()
        # its name is one as that in the next command
        named = re.search(r"backup/\S+", restore)[0]
        self.assertEqual(re.sub(r"\d", "0", f"backup/{copied.name}"), re.sub(r"\d", "0", named))
        self.assertEqual(self.paste(restore.replace(named, f"backup/{copied.name}")), Ended(0))
        ended = run("run", "--keep", str(self.place / "restored.lines"), given=b"rows A1:B1\nset A1 8\n")
        self.assertEqual(ended.output, lines("rows 1", "7,3", "ok 2"))

    def test_no_copy_of_a_server_that_is_gone(self):
        [copy] = beginning("docs/USING.md", "./sheet follow")
        (self.place / "backup").mkdir()
        ended = self.paste(copy.replace("7001", str(free_port())))
        self.assertEqual((ended.status, ended.output), (1, b""))

    def test_no_recipe_moves_a_file(self):
        """A file that is moved over another one replaces it, which a server may have."""
        files = [TOP / "README.md", *(TOP / "docs").glob("*.md"), *(TOP / "packaging").iterdir()]
        self.assertIn(TOP / "docs/USING.md", files)
        for file in files:
            with self.subTest(file=file.name):
                self.assertEqual(re.findall(r".*\bmv\b.*", file.read_text()), [])


class Damaged(Running):
    """What `docs/USING.md` does about a damaged file: its whole lines go on under another number."""

    EDITS = ("set A1 @tally", "add A1 3", "set B1 early", "add A1 7", "set B1 late")

    def kept(self):
        """The lines of replica 1's file, where each edit waited for its reply. Replica 2 has them too, and adds 10."""
        file, other = self.place / "plan.lines", self.place / "other.lines"
        for number, edit in enumerate(self.EDITS, 1):
            self.assertEqual(run("run", "--keep", str(file), given=lines(edit)).output, lines(f"ok {number}"))
        given = b"".join([file.read_bytes(), lines("add A1 10")])
        self.assertEqual(run("run", "--replica", "2", "--keep", str(other), given=given).status, 0)
        return file.read_bytes().splitlines(keepends=True)

    def assert_refused(self, rows, number):
        """The file of these lines is refused by this one of them."""
        file = self.place / "plan.lines"
        file.write_bytes(b"".join(rows))
        ended = run("run", "--keep", str(file))
        self.assertEqual(ended.status, 3)
        self.assertRegex(ended.error.decode(), rf"^err 14 delta\nline {number} of {re.escape(str(file))}\b")
        return file

    def assert_goes_on(self, rows, number, whole, shown):
        """The file of these lines is refused by this one of them. So many whole lines show this, and get the rest."""
        file = self.assert_refused(rows, number)
        [recipe] = beginning("docs/USING.md", "head -n 30")
        ours, theirs = free_port(), free_port()
        with self.running(recipe.replace("-n 30", f"-n {whole}").replace("7001", str(ours))), \
                self.running(f"./sheet serve --port {theirs} --replica 2 --keep other.lines &\n"):
            one, two = self.client(ours), self.client(theirs)
            self.assertEqual([one.ask(line) for line in ("get A1", "get B1")], [f"val {value}" for value in shown])
            # somebody counts before the changes of the damaged file are back
            self.assertTrue(one.ask("add A1 5").startswith("ok "))
            self.assertEqual(run("join", "--from", str(ours), "--to", str(theirs), "--once"), Ended(0, b"joined\n"))
            for client in (one, two):
                self.assertEqual([client.ask(line) for line in ("get A1", "get B1")], ["val 25", "val late"])
        self.assertEqual(file.read_bytes(), b"".join(rows))

    def test_lines_up_to_the_last_right_digest_go_on(self):
        rows = self.kept()
        place = next(place for place, row in enumerate(rows) if b"[[1,10,0]]" in row)
        rows[place] = rows[place].replace(b"10", b"11")
        # (a digest line follows each line, the first one too)
        self.assertEqual([row.startswith(b"replica ") for row in rows[place - 1:place + 2]], [True, False, True])
        self.assert_goes_on(rows, place + 2, place, (3, "early"))

    def test_lines_before_one_that_pushes_nothing_go_on(self):
        rows = self.kept()
        self.assert_goes_on([*rows, b"push [[\0\0\0\n"], len(rows) + 1, len(rows), (10, "late"))

    def test_lines_without_any_right_digest_go_on_up_to_the_torn_one(self):
        """As of a squashed file, whose first write was torn: its digest stands there."""
        rows = [row for row in self.kept() if row.startswith(b"push ") or len(row) < 24]
        self.assertEqual(len(rows), 1 + len(self.EDITS))
        torn = [*rows, b"push [[\0\0\0\n", b"replica 0123456789abcdef\n"]
        self.assert_refused(torn[:-1], len(rows) + 1)
        self.assert_goes_on(torn, len(torn), len(rows), (10, "late"))


class GoingBack(Pasting):
    """The way back of `docs/USING.md`, after a line that makes a cell unusable: it has its last time."""

    HOSTILE = """push [["A1",[9007199254740991,7,"'gone"],[],[]]]"""

    def kept(self, file, *given, replica=1):
        """The replies to these lines of a sheet that is kept in this file, and what was said of the file."""
        ended = run("run", "--replica", str(replica), "--keep", str(self.place / file), given=lines(*given))
        self.assertEqual(ended.status, 0, ended)
        return ended.output.decode().splitlines(), ended.error.decode()

    def test_it_has_the_first_100_changes_and_other_replicas_begin_with_them(self):
        [squashed], [renumbered] = beginning("docs/USING.md", "./sheet squash"), beginning("docs/USING.md", "sed '1s")
        made = [f"set A{row} {row}" for row in range(1, 100)] + ["set A1 kept"]
        later = [self.HOSTILE, "set B1 later", "set A2 changed"]
        self.kept("team.lines", *made, *later)
        self.assertEqual(self.kept("team.lines", "set A1 kept")[0], ["err 13 clock-full"])
        before = (self.place / "team.lines").read_bytes()
        # the first two make files of replica 1, and the last one a file of replica 2
        told = lines("squash: left out 3 of 103 lines", "squash: left out parts of 1 cells")
        self.assertEqual(self.paste(squashed + renumbered), Ended(0, b"", told))
        self.assertEqual((self.place / "team.lines").read_bytes(), before)
        for replica, file, first in ((1, "early.lines", ["kept,", "2,"]), (2, "home.lines", ["kept,", "2,"]),
                                     (1, "others.lines", ["kept,later", "changed,"])):
            with self.subTest(file=file):
                asked = ("rows A1:B3", f"set C{replica} 1", "set A1 again")
                replies, told = self.kept(file, *asked, replica=replica)
                self.assertEqual(told, f"opened {self.place / file}, 1 changes\n")
                self.assertEqual(replies, ["rows 3", *first, "3,", "ok 2", "ok 3"])

    def test_another_replica_would_bring_the_later_changes_back(self):
        ours, theirs = free_port(), free_port()
        (self.place / "early.lines").write_text('replica 1\npush [["A1",[1,1,"\'kept"],[],[]]]\n')
        self.assertEqual(self.kept("theirs.lines", self.HOSTILE, replica=2)[0], ["ok 1"])
        ended = self.paste(f"""
            start ours ./sheet serve --port {ours} --sessions 2 --keep early.lines &&
            start theirs ./sheet serve --port {theirs} --sessions 1 --replica 2 --keep theirs.lines &&
            ./sheet sync --from {theirs} --to {ours} &&
            printf 'get A1\\nset A1 kept\\n' | ./sheet talk --to {ours} &&
            wait
        """)
        self.assertEqual(ended, Ended(0, lines("synced 1", "val gone", "err 13 clock-full")))
