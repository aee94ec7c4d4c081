"""Words that help: `--explain` of each command that has it, and `--strict` of `run`."""
import csv
import errno
import io
import os
import pty
import subprocess

from hunt import contents, entries, shortages
from hunt.chance import Chance
from hunt.records import written_record
from hunt.scripts import NO_CELLS, VERBS
from preloaded import PROGRAM
from program import DEVICE_FAILED, LIMIT, SHEET, Ended, ProgramTest, lines, run
from servers import free_port, serving

FUNCTIONS = "SUM, MIN, MAX, COUNT, IF, MOD, QUOTIENT, ABS, AND, OR, NOT, TRUE, FALSE"
# Invalid formulas that people write by habit, and what is said of each.
FORMULAS = (
    ("=A1+1", "A1 is written [.A1]"),
    ("=$B$2", "$B$2 is written [.$B$2]"),
    ("=2*cz1024", "cz1024 is written [.CZ1024]"),
    ("=SUM(A1:A3)", "A1:A3 is written [.A1:.A3]"),
    ("=sum(a1:B3)", "a1:B3 is written [.A1:.B3]"),
    ("=SUM(A:A)", "a range has two cells, as [.A1:.A1024]"),
    ("=[A1]+1", "a reference is written [.A1]"),
    ("=[.a1]+1", "a reference is written [.A1]"),
    ("=SUM([.A1:A3])", "a range is written [.A1:.A3]"),
    ("=DA1", "there is no DA1: cells are A1 to CZ1024"),
    ("=[.A1025]", "there is no A1025: cells are A1 to CZ1024"),
    ("=[Sheet1.A1]", "there is one sheet: a reference is written [.A1]"),
    ("=Sheet1!A1", "there is one sheet: a reference is written [.A1]"),
    ("=[.A1:.A3]+1", "a range is an argument of SUM, MIN, MAX or COUNT and stands nowhere else"),
    ("=ABS([.A1:.A3])", "a range is an argument of SUM, MIN, MAX or COUNT and stands nowhere else"),
    ("=IF(1,2,3)", "arguments have ; between them, and numbers are whole"),
    ('="yes"', "a formula has no texts"),
    ("=12.5*2", "12.5: numbers are whole"),
    ("=.5", ".5: numbers are whole"),
    ("=1e5", "1e5: numbers are digits alone"),
    ("=9223372036854775808", "9223372036854775808: numbers end at 9223372036854775807"),
    ("=TRUE", "TRUE is written TRUE()"),
    ("=false+1", "false is written FALSE()"),
    ("=SUM", "SUM has its arguments in parentheses"),
    ("=AVERAGE([.A1:.A3])", f"AVERAGE is no function; the functions are {FUNCTIONS}"),
    ("=[.A1]/2", "/ is written QUOTIENT(a;b)"),
    ("=1!=2", "!= is written <>"),
    ("=2×3", "× is written *"),
    ("=2^3", "a formula has no ^"),
    ("=IF(1;;2)", "an argument is missing"),
    ("=SUM(", "a ( isn't closed"),
    ("=SUM(1))", "a ) closes nothing"),
    ("=[.A1", "a [ isn't closed"),
    ("=1+", "something is missing at its end"),
    ("=", "something is missing at its end"),
    ("=1 2", "a formula is written like =SUM([.A1:.A3])*2"),
)
# Entries that are kept as texts and look like something else, and what is said of each; nothing is said of the last.
TEXTS = (
    ("12.50", "12.50 is kept as a text: numbers are whole"),
    ("1,200", "1,200 is kept as a text: numbers have no commas"),
    (" 7", '" 7" is kept as a text: a blank stands before or after it'),
    ("7 ", '"7 " is kept as a text: a blank stands before or after it'),
    (" =1", '" =1" is kept as a text: a blank stands before or after it'),
    ("$5", "$5 is kept as a text: numbers have no sign of a currency"),
    ("-$5.20", "-$5.20 is kept as a text: numbers have no sign of a currency"),
    ("5 €", "5 € is kept as a text: numbers have no sign of a currency"),
    ("50%", "50% is kept as a text: numbers have no percent sign"),
    ("1e5", "1e5 is kept as a text: numbers are digits alone"),
    ("−5", "−5 is kept as a text: the minus sign is -"),
    ("9223372036854775808",
     "9223372036854775808 is kept as a text: numbers are -9223372036854775808 to 9223372036854775807"),
    ("SUM([.A1:.A3])", "SUM([.A1:.A3]) is kept as a text: a formula begins with ="),
    ("[.A1]*2", "[.A1]*2 is kept as a text: a formula begins with ="),
    ("TRUE", "TRUE is kept as a text: truth values are written =TRUE() and =FALSE()"),
    ("@Tally", "@Tally is kept as a text: @tally, @choice and of:= are in small letters"),
    ("7", ""),
    ("-7", ""),
    ("=1", ""),
    ("'12.50", ""),
    ("@tally", ""),
    ("apples", ""),
    ("25.11.2026", ""),
    ("v1.2", ""),
    ("-", ""),
    ("SUMMARY (all)", ""),
    ("", ""),
)
# Entries that are refused for their length, the reply, and what is said of it.
LENGTHS = (
    ("x" * 71, "err 2 text", "71 bytes of at most 64"),
    ("x" * 513, "err 4 too-long", "513 bytes of at most 512"),
)
# What people write by habit into a cell, the reply to it, and what is said of it.
HABITS = (
    *((entry, "err 3 formula", f"err 3 formula: {hint}") for entry, hint in FORMULAS),
    *((entry, reply, f"{reply}: {hint}") for entry, reply, hint in LENGTHS),
    *((entry, "ok", hint) for entry, hint in (*TEXTS, ("=[.A1]+1", ""))),
)
# Signs that people know from elsewhere, and what stands for each in a formula.
SIGNS = (
    ("!=", "<>"), ("≠", "<>"), ("==", "="), ("=<", "<="), ("≤", "<="), ("=>", ">="), ("≥", ">="),
    ("−", "-"), ("–", "-"), ("×", "*"), ("·", "*"), ("/", "QUOTIENT(a;b)"), ("÷", "QUOTIENT(a;b)"), ("%", "MOD(a;b) or QUOTIENT(a;100)"),
    ("&&", "AND(a;b)"), ("||", "OR(a;b)"), ("{", "("), ("}", ")"),
)
# Lines after which a counter, a set and a register are full.
FULL = (
    "set T1 @tally", 'push [["T1",null,[[1,1099511627776,0]],[]]]',
    "set C1 @choice", 'push [["C1",null,[],[[0,1,256,0]]]]',
    'push [["X1",[9007199254740991,1,"5"],[],[]]]',
)
NO_CELL, SPACES = "cells are A1 to CZ1024", "one space stands between two words, and none at the end"
PLAIN_CELL = "a cell is written A1, without brackets and $"
# Lines that are refused after those, the reply, and what is said.
LINES = (
    ("SET A1 5", "err 16 command", "SET is written set"),
    ("walk A1", "err 16 command", "walk is no verb; the verbs are get, set, add, sub, choose, unchoose, rows, entry, "
     "entries, push, merge, pull, replica, wait"),
    ("add A1", "err 16 command", "it is written add <cell> <amount>"),
    ("get A1 ", "err 16 command", SPACES),
    ("get  A1", "err 16 command", SPACES),
    ("Replica 1", "err 16 command", "Replica is written replica"),
    ("replica 3 4", "err 16 command", "it is written replica or replica <number>"),
    ("replica 33", "err 9 replica", "replicas are 1 to 32"),
    ("replica ", "err 9 replica", SPACES),
    ("get a1", "err 1 cell", "a1 is written A1"),
    ("get A1025", "err 1 cell", NO_CELL),
    ("get $A$1", "err 1 cell", PLAIN_CELL),
    ("get [.A1]", "err 1 cell", PLAIN_CELL),
    ("rows A1", "err 1 cell", "a rectangle is written A1:B2"),
    ("rows A1:b2", "err 1 cell", "b2 is written B2"),
    ("rows A1:DA2", "err 1 cell", NO_CELL),
    ("set B1 '", "err 2 text", "a text has one byte at least"),
    ("set B1 a\tb", "err 2 text", "a text has no tab"),
    ("set B1 a\x7f", "err 2 text", "a text has no byte 127"),
    (f"set B1 ={'-' * 255}1", "err 4 too-long", "written out it has more than 256 bytes"),
    ("add A1 1", "err 5 not-tally", "set A1 @tally makes it a counter"),
    ("choose A1 1", "err 6 not-choice", "set A1 @choice makes it a set"),
    ("add A1 0", "err 7 amount", "amounts are 1 to 1000000"),
    ("add A1 1.5", "err 7 amount", "1.5: numbers are whole"),
    ("add A1 -5", "err 7 amount", "amounts have no sign; sub takes away"),
    ("choose A1 64", "err 8 option", "options are 0 to 63"),
    ("add T1 1", "err 10 tally-full", "this replica's count ends at 1099511627776"),
    ("choose C1 1", "err 11 choice-full", "this replica has chosen 256 times in this cell"),
    ("unchoose C1 1", "err 12 not-chosen", "the option isn't in the cell"),
    ("set X1 1", "err 13 clock-full", "the cell has been set to its last time"),
    ('push delta 1 [["A1",[1,1,"5"],[],[]]]', "err 14 delta",
     "of a reply to pull only what follows its number is pushed"),
    ("push x", "err 14 delta", 'the line of a delta is [["A1",[1,1,"5"],[],[]]]'),
    ("pull 0 17", "err 17 version", "pull has a version that there is, and at most 16 deltas"),
)


def by_chance(chance):
    """A line by chance, many of them refused."""
    verb = chance.choice(VERBS[:-1])
    cell = chance.choice(NO_CELLS) if chance.once_in(8) else chance.choice((b"A1", b"B2", b"CZ1024", b"A1:B2"))
    last = entries.entry(chance, [b"A1", b"B2"]) if chance.once_in(2) else chance.choice((b"1", b"0", b"x", b"1.5"))
    return b" ".join((verb, cell, last)).replace(b"\n", b" ").rstrip(b"\r")


class OfLines(ProgramTest):
    def test_habits_are_told_with_their_line(self):
        given, replies, told, version = [], [], [], 0
        for number, (entry, reply, note) in enumerate(HABITS, 1):
            given.append(f"set B1 {entry}")
            version += reply == "ok"
            replies.append(f"ok {version}" if reply == "ok" else reply)
            told += [f"line {number}: {note}"] if note else []
        ended = run("run", "--explain", given=lines(*given))
        self.assertEqual(ended, Ended(0, lines(*replies), lines(*told)))
        # and nothing is said where nobody asks
        self.assertEqual(run("run", given=lines(*given)), Ended(0, lines(*replies)))

    def test_the_form_of_each_verb(self):
        verbs = ("get", "set", "add", "sub", "choose", "unchoose", "rows", "entry", "entries", "push", "merge", "pull",
                 "wait")
        ended = run("run", "--explain", given=lines(*verbs))
        self.assertEqual((ended.status, ended.output), (0, lines(*["err 16 command"] * len(verbs))))
        for number, (verb, told) in enumerate(zip(verbs, ended.error.decode().splitlines(), strict=True), 1):
            self.assertTrue(told.startswith(f"line {number}: err 16 command: it is written {verb} <"), told)

    def test_signs_that_are_written_otherwise(self):
        told = [f"line {number}: err 3 formula: {sign} is written {meant}"
                for number, (sign, meant) in enumerate(SIGNS, 1)]
        ended = run("run", "--explain", given=lines(*(f"set B1 =1{sign}1" for sign, _ in SIGNS)))
        self.assertEqual(ended, Ended(0, lines(*["err 3 formula"] * len(SIGNS)), lines(*told)))

    def test_words_of_lines(self):
        told = [f"line {number}: {reply}: {note}" for number, (_, reply, note) in enumerate(LINES, len(FULL) + 1)]
        ended = run("run", "--explain", given=lines(*FULL, *(line for line, _, _ in LINES)))
        replies = [*(f"ok {version}" for version in range(1, len(FULL) + 1)), *(reply for _, reply, _ in LINES)]
        self.assertEqual(ended, Ended(0, lines(*replies), lines(*told)))

    def test_empty_lines_and_lines_that_are_too_long_count(self):
        given = b"\n\r\n" + b"x" * 300_000 + b"\nset A1 1.5\nget a1"
        told = lines("line 3: err 15 line: nothing of so long a line is carried out",
                     "line 4: 1.5 is kept as a text: numbers are whole", "line 5: err 1 cell: a1 is written A1")
        ended = run("run", "--explain", given=given)
        self.assertEqual(ended, Ended(0, lines("err 15 line", "ok 1", "err 1 cell"), told))

    def test_lines_by_chance_have_the_same_replies_and_each_refusal_is_told(self):
        for number in range(100):
            chance = Chance("explain", number)
            given = [by_chance(chance) for _ in range(chance.randint(1, 20))]
            given = [line for line in given if not line.startswith((b"rows", b"entries", b"push", b"pull"))]
            with self.subTest(number=number, given=given):
                plain = run("run", given=b"".join(line + b"\n" for line in given))
                ended = run("run", "--explain", given=b"".join(line + b"\n" for line in given))
                self.assertEqual((ended.status, ended.output), (0, plain.output))
                refused = [b"line %d: %s: " % (line, reply) for line, reply in enumerate(plain.output.split(b"\n"), 1)
                           if reply.startswith(b"err")]
                told = [note for note in ended.error.splitlines(True) if b" is kept as a text: " not in note]
                self.assertEqual(len(told), len(refused))
                for note, begin in zip(told, refused):
                    self.assertTrue(note.startswith(begin) and note.endswith(b"\n") and len(note) > len(begin) + 5)

    def test_an_error_output_that_is_full_changes_nothing(self):
        with open("/dev/full", "wb") as full:
            ended = subprocess.run([SHEET, "run", "--explain"], input=b"walk\nset A1 1\n", stdout=subprocess.PIPE,
                                   stderr=full, timeout=LIMIT)
        self.assertEqual((ended.returncode, ended.stdout), (0, lines("err 16 command", "ok 1")))


class AtATerminal(ProgramTest):
    def typed(self, *words, is_terminal):
        """What standard error has once a refused line was typed at a terminal, and standard error is one or isn't."""
        person, terminal = pty.openpty()
        try:
            error = terminal if is_terminal else subprocess.PIPE
            with subprocess.Popen([SHEET, *words], stdin=terminal, stdout=subprocess.PIPE, stderr=error) as session:
                os.close(terminal)
                os.write(person, b"get a1\n\x04")
                output, told = session.communicate(timeout=LIMIT)
                self.assertEqual((session.returncode, output), (0, lines("err 1 cell")))
                return self.shown(person) if is_terminal else told
        finally:
            os.close(person)

    def test_no_hints_where_nobody_types(self):
        """Though the errors are shown at a terminal."""
        person, terminal = pty.openpty()
        try:
            how = {"stdout": subprocess.PIPE, "stderr": terminal, "timeout": LIMIT}
            ran = subprocess.run([SHEET, "run"], input=b"get a1\n", **how)
            os.close(terminal)
            self.assertEqual((ran.returncode, ran.stdout, self.shown(person)), (0, lines("err 1 cell"), b""))
        finally:
            os.close(person)

    def shown(self, person):
        """All that a terminal shows which nobody holds any more."""
        pieces = [b""]
        while True:
            try:
                pieces.append(os.read(person, 4096))
            except OSError:
                # its end is reported as a device that is gone
                return b"".join(pieces)

    def test_hints_are_told_where_a_person_types_and_reads(self):
        self.assertIn(b"line 1: err 1 cell: a1 is written A1", self.typed("run", is_terminal=True))

    def test_no_hints_where_the_errors_go_elsewhere(self):
        self.assertEqual(self.typed("run", is_terminal=False), b"")


def words_with_port(port):
    """The words of each command that is to listen on this port, and of each that is to connect to it."""
    return (
        (["serve", "--port", port],),
        (["sync", "--from", port, "--to", port], ["join", "--from", port, "--to", port, "--once"],
         ["follow", "--from", port], ["follow", "--from", port, "--until-now"], ["talk", "--to", port]),
    )


class OfPorts(ProgramTest):
    def assert_told(self, words, told):
        """These words end as a device that fails, and this line is said of it, with `--explain` and without."""
        for more in ((), ("--explain",)):
            self.assertEqual(run(*words, *more), Ended(1, b"", DEVICE_FAILED + lines(told)))

    def test_a_port_that_another_program_has(self):
        with serving(None) as server:
            for words in words_with_port(str(server.port))[0]:
                with self.subTest(words=words):
                    self.assert_told(words, f"port {server.port}: another program listens on it")

    def test_a_port_on_which_nobody_listens(self):
        port = free_port()
        told = f"port {port}: nobody listens on it; sheet serve --port {port} would"
        for words in words_with_port(str(port))[1]:
            with self.subTest(words=words):
                self.assert_told(words, told)

    def test_a_port_that_the_system_does_not_give(self):
        library, port = shortages.library(self.folder()), str(free_port())
        listening, connecting = words_with_port(port)
        may_not = f"port {port}: listening on it isn't allowed; all may listen on ports from 1024 on"
        for call, error, each, told in (
            ("b", errno.EACCES, listening, may_not),
            ("b", errno.ENOBUFS, listening, f"port {port} can't be listened on"),
            ("c", errno.ENETUNREACH, connecting, f"port {port} can't be connected to"),
        ):
            for words in each:
                with self.subTest(words=words, error=error), \
                        shortages.spoiling(library, (call, 1, shortages.ALL, error)) as (how, _):
                    ran = subprocess.run([PROGRAM, *words], capture_output=True, timeout=LIMIT, **how)
                    self.assertEqual(Ended(ran.returncode, ran.stdout, ran.stderr),
                                     Ended(1, b"", DEVICE_FAILED + lines(told)))

    def test_the_second_port_of_two(self):
        port = free_port()
        with serving(None) as server:
            for command, *more in (["sync"], ["join", "--once"]):
                self.assert_told([command, "--from", str(server.port), "--to", str(port), *more],
                                 f"port {port}: nobody listens on it; sheet serve --port {port} would")

    def test_a_port_that_can_be_had(self):
        with serving(None, "--explain") as server:
            self.assertEqual(run("follow", "--from", str(server.port), "--until-now", "--explain"), Ended(0))

    def test_other_faults_of_devices_have_no_such_line(self):
        with serving(None) as server, open("/dev/full", "wb") as full:
            self.assertEqual(server.client().ask("set A1 5"), "ok 1")
            words = ["follow", "--from", str(server.port), "--until-now", "--explain"]
            self.assertEqual(run(*words, stdout=full), Ended(1, b"", DEVICE_FAILED))

    def test_at_a_terminal_it_is_told_by_itself(self):
        port = free_port()
        person, terminal = pty.openpty()
        try:
            words = [SHEET, "sync", "--from", str(port), "--to", str(port)]
            with subprocess.Popen(words, stdin=terminal, stdout=subprocess.PIPE, stderr=terminal) as session:
                self.assertEqual((session.communicate(timeout=LIMIT)[0], session.returncode), (b"", 1))
            self.assertIn(b"nobody listens on it", os.read(person, 4096))
        finally:
            os.close(person)
            os.close(terminal)


class OfTables(ProgramTest):
    def assert_told(self, rows, status, output, *told):
        table = io.StringIO(newline="")
        csv.writer(table).writerows(rows)
        ended = run("table", "--explain", given=table.getvalue().encode())
        self.assertEqual(ended, Ended(status, output, lines(*told)))

    def test_a_refused_field_has_its_place(self):
        rows = [["1", "2", "3"]] * 9 + [["1", "2", "x" * 71]] + [["=A1", "2", "3"]]
        self.assert_told(rows, 3, b"", "row 10, column C: err 2 text: 71 bytes of at most 64", "err 2 text")
        self.assert_told([["1", "=A1+1"]], 3, b"", "row 1, column B: err 3 formula: A1 is written [.A1]",
                         "err 3 formula")

    def test_the_last_column(self):
        self.assert_told([[""] * 103 + ["=A1"]], 3, b"", "row 1, column CZ: err 3 formula: A1 is written [.A1]",
                         "err 3 formula")

    def test_fields_that_look_like_numbers(self):
        self.assert_told([["7", "12.50"], [" 7", "$5"]], 0, b"7,12.50\n 7,$5\n",
                         "row 1, column B: 12.50 is kept as a text: numbers are whole",
                         'row 2, column A: " 7" is kept as a text: a blank stands before or after it',
                         "row 2, column B: $5 is kept as a text: numbers have no sign of a currency")

    def test_texts_that_look_otherwise(self):
        table = io.StringIO(newline="")
        csv.writer(table).writerows([entry] for entry, _ in TEXTS)
        ended = run("table", "--explain", given=table.getvalue().encode())
        told = [f"row {number}, column A: {hint}" for number, (_, hint) in enumerate(TEXTS, 1) if hint]
        self.assertEqual((ended.status, ended.error), (0, lines(*told)))

    def test_lengths(self):
        for entry, refusal, hint in LENGTHS:
            self.assert_told([["1", entry]], 3, b"", f"row 1, column B: {refusal}: {hint}", refusal)

    def test_nothing_is_told_after_the_first_refused_field(self):
        self.assert_told([["1.5", ""], ["", "", "=A1"], ["1.5"]], 3, b"",
                         "row 1, column A: 1.5 is kept as a text: numbers are whole",
                         "row 2, column C: err 3 formula: A1 is written [.A1]", "err 3 formula")

    def test_fields_without_hints(self):
        self.assert_told([], 0, b"")
        self.assert_told([["7", "=[.A1]"], ["'1.5", "apples"]], 0, b"7,7\n1.5,apples\n")

    def test_a_table_that_is_too_large(self):
        self.assert_told([["1"]] * 1025, 3, b"", "row 1025: err 18 csv: a table has at most 1024 records", "err 18 csv")
        self.assert_told([["1"], ["1"] * 105], 3, b"", "row 2: err 18 csv: a record has at most 104 fields",
                         "err 18 csv")

    def test_tables_by_chance_are_taken_in_alike(self):
        for number in range(60):
            chance = Chance("explained-tables", number)
            rows = [[entries.entry(chance, [b"A1", b"B2"]) for _ in range(3)] for _ in range(chance.randint(1, 5))]
            given = b"".join(written_record(row) + b"\n" for row in rows)
            with self.subTest(number=number, given=given):
                plain = run("table", given=given)
                ended = run("table", "--explain", given=given)
                self.assertEqual((ended.status, ended.output), (plain.status, plain.output))
                told = ended.error.splitlines(True)
                if plain.error.startswith((b"err 2", b"err 3", b"err 4")):
                    # the place is that of the first field that the model refuses
                    row, column = next((down, across) for down, fields in enumerate(rows)
                                       for across, field in enumerate(fields)
                                       if isinstance(contents.read_entry(field), contents.Refusal))
                    begin = b"row %d, column %c: %s: " % (row + 1, ord("A") + column, plain.error.rstrip(b"\n"))
                    self.assertTrue(told[-2].startswith(begin), (told, begin))
                    self.assertEqual(told.pop(), plain.error)
                    told.pop()
                self.assertTrue(all(b" is kept as a text: " in note for note in told))


class Strict(ProgramTest):
    def test_a_refused_line_is_a_fault_in_the_end(self):
        given, replies = lines("walk", "set A1 5", "get a1", "get A1"), lines("err 16 command", "ok 1", "err 1 cell", "val 5")
        self.assertEqual(run("run", "--strict", given=given), Ended(3, replies, lines("refused lines: 2")))
        self.assertEqual(run("run", given=given), Ended(0, replies))

    def test_no_refused_line_is_none(self):
        given = lines("set A1 1.5", "", "get A1")
        self.assertEqual(run("run", "--strict", given=given), Ended(0, lines("ok 1", "val 1.5")))
        self.assertEqual(run("run", "--strict", given=b""), Ended(0))

    def test_with_hints(self):
        told = lines("line 1: err 1 cell: a1 is written A1", "refused lines: 1")
        self.assertEqual(run("run", "--explain", "--strict", given=b"get a1\n"), Ended(3, lines("err 1 cell"), told))

    def test_a_device_that_fails_comes_first(self):
        with open("/dev/full", "wb") as full:
            self.assertEqual(run("run", "--strict", given=b"walk\n", stdout=full), Ended(1, b"", b"err 20 device\n"))
