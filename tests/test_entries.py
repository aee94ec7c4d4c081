"""The lines `entry` and `entries`: the canonical text of what a cell holds, and a table of it that is taken in again."""
from hunt import contents, tables_by_chance
from hunt.chance import Chance
from hunt.model import Sheet
from hunt.places import NAMES
from hunt.records import records_of, written_record
from program import Ended, ProgramTest, lines, run
from servers import serving
from sizes import COLUMNS

TABLES = 300
# What is typed, and the canonical text of what it stands for.
TYPED = (
    (b"", b""),
    (b"7", b"7"), (b"007", b"7"), (b"+7", b"7"), (b"-0", b"0"), (b"-12", b"-12"),
    (b"9223372036854775807", b"9223372036854775807"), (b"-9223372036854775808", b"-9223372036854775808"),
    (b"9223372036854775808", b"'9223372036854775808"),
    (b"word", b"'word"), (b" 7", b"' 7"), (b"7 ", b"'7 "), (b"1.5", b"'1.5"), (b"a,b", b"'a,b"), (b'"', b"'\""),
    (b"'word", b"'word"), (b"'7", b"'7"), (b"'=1", b"'=1"), (b"''", b"''"), (b"'@tally", b"'@tally"), (b"'-", b"'-"),
    ("é".encode(), "'é".encode()), (b"x" * 64, b"'" + b"x" * 64),
    (b"=1", b"=1"), (b"of:=1", b"=1"), (b"= sum( [.$B$2:.A1] ; 007 )", b"=SUM([.A1:.B2];7)"), (b"=[.CZ1]", b"=[.CZ1]"),
    (b"=((-+1))<>true()", b"=((-+1))<>TRUE()"), (b"=MOD(1;0)", b"=MOD(1;0)"),
    (b"@tally", b"@tally"), (b"@choice", b"@choice"),
)


def rectangle(row, column, rows, columns):
    """The word for a rectangle of so many rows and columns whose first cell is in this row and column, from 0."""
    return NAMES[row * COLUMNS + column] + b":" + NAMES[(row + rows - 1) * COLUMNS + column + columns - 1]


def typed(records, row=0, column=0):
    """The lines that set the fields that aren't empty, from this row and column on."""
    for down, fields in enumerate(records):
        for across, field in enumerate(fields):
            if field:
                yield b"set %s %s\n" % (NAMES[(row + down) * COLUMNS + column + across], field)


def valid_fields(chance):
    """The records of a table by chance, filled up with empty fields, without what is refused or ends a line."""
    records = list(tables_by_chance.fields(chance, chance.randint(1, 8), chance.randint(1, 6)))
    width = max(1, max(map(len, records)))

    def kept(entry):
        refused = isinstance(contents.read_entry(entry), contents.Refusal)
        return b"" if refused or b"\n" in entry or entry.endswith(b"\r") else entry

    return [[kept(entry) for entry in fields] + [b""] * (width - len(fields)) for fields in records]


class Entries(ProgramTest):
    def test_each_kind_of_content(self):
        for entry, told in TYPED:
            with self.subTest(entry=entry):
                given = b"set B2 %s\nentry B2\nentries B2:B2\n" % entry
                replies = b"ok 1\nentry %s\nentries 1\n%s\n" % (told, written_record([told]))
                self.assertEqual(run("run", given=given), Ended(0, replies))

    def test_what_is_told_is_an_entry_for_the_same(self):
        for entry, told in TYPED:
            with self.subTest(entry=entry):
                self.assertEqual(run("run", given=b"set B2 %s\nentry B2\n" % told), Ended(0, b"ok 1\nentry %s\n" % told))

    def test_a_counter_and_a_set_are_told_by_their_kind(self):
        given = lines("set A1 @tally", "add A1 5", "get A1", "entry A1", "set A2 @choice", "choose A2 3", "get A2",
                      "entry A2", "entries A1:A2", "rows A1:A2")
        replies = lines("ok 1", "ok 2", "val 5", "entry @tally", "ok 3", "ok 4", "val {3}", "entry @choice",
                        "entries 2", "@tally", "@choice", "rows 2", "5", "{3}")
        self.assert_however_cut(given, replies)

    def test_the_whole_grid(self):
        given = lines("set CZ1024 =[.A1]", "entries A1:CZ1024")
        row = "," * (COLUMNS - 1)
        self.assert_session(given, lines("ok 1", "entries 1024", *[row] * 1023, row + "=[.A1]"))

    def test_tables_by_chance_come_back(self):
        for number in range(TABLES):
            chance = Chance("entries", number)
            records = valid_fields(chance)
            rows, columns = len(records), len(records[0])
            row, column = chance.randint(0, 1024 - rows), chance.randint(0, COLUMNS - columns)
            told = [[contents.canonical_text(contents.read_entry(field)) for field in fields] for fields in records]
            table = b"".join(written_record(fields) + b"\n" for fields in told)
            with self.subTest(number=number, table=table):
                given = b"".join(typed(records, row, column))
                sets = given.count(b"\n")
                oks = b"".join(b"ok %d\n" % version for version in range(1, sets + 1))
                answer = b"entries %d\n%s" % (rows, table)
                asked = b"entries %s\n" % rectangle(row, column, rows, columns)
                self.assertEqual(run("run", given=given + asked), Ended(0, oks + answer))
                # taken into an empty sheet by lines, and as a table
                self.assertEqual(records_of(table), told)
                here = rectangle(0, 0, rows, columns)
                back = b"".join(typed(records_of(table))) + b"entries %s\n" % here
                self.assertEqual(run("run", given=back), Ended(0, oks + answer))
                if chance.once_in(5):
                    self.assertEqual(run("table", given=table), Ended(0, self.shown(told)))

    def test_the_entries_of_tables_by_chance_are_the_same_table(self):
        for number in range(TABLES):
            chance = Chance("table-entries", number)
            records = valid_fields(chance)
            told = [[contents.canonical_text(contents.read_entry(field)) for field in fields] for fields in records]
            table = b"".join(written_record(fields) + b"\n" for fields in told)
            given = b"".join(written_record(fields) + b"\n" for fields in records)
            with self.subTest(number=number, table=table):
                self.assertEqual(run("table", "--entries", given=given), Ended(0, table))
                # what is written, taken in again, gives the same entries
                self.assertEqual(run("table", "--entries", given=table), Ended(0, table))

    def test_a_table_of_entries(self):
        given = b'2,=[.A1] * 3\n"x,y",@tally\n +7,007\n'
        self.assertEqual(run("table", "--entries", given=given), Ended(0, b'2,=[.A1]*3\n"\'x,y",@tally\n\' +7,7\n'))
        self.assertEqual(run("table", "--entries", given=b""), Ended(0))
        self.assertEqual(run("table", "--entries", given=b'""\n'), Ended(0, b'""\n'))

    def test_a_refused_table_has_no_entries(self):
        self.assertEqual(run("table", "--entries", given=b"1,=bad\n"), Ended(3, b"", lines("err 3 formula")))

    def shown(self, told):
        """The table that `FORMATS.md` has a sheet show with these entries."""
        sheet = Sheet()
        for down, fields in enumerate(told):
            for across, field in enumerate(fields):
                if field:
                    sheet.assign(down * COLUMNS + across, contents.read_entry(field))
        cells = [[down * COLUMNS + across for across in range(len(fields))] for down, fields in enumerate(told)]
        return b"".join(written_record([contents.shown_text(sheet.value(it)) for it in row]) + b"\n" for row in cells)


class AtAServer(ProgramTest):
    def test_each_session_is_told_what_any_session_typed(self):
        with serving(2) as server:
            first, second = server.client(), server.client()
            for number, (entry, told) in enumerate(TYPED, 1):
                with self.subTest(entry=entry):
                    one, other = (first, second) if number % 2 else (second, first)
                    one.send(b"set C3 %s\n" % entry)
                    self.assertEqual(one.reply(), f"ok {number}")
                    other.send(b"entry C3\nentries C3:C3\n")
                    self.assertEqual(other.reply(), "entry " + told.decode())
                    self.assertEqual(other.reply(), "entries 1")
                    self.assertEqual(other.reply(), written_record([told]).decode())
            first.send(b"entry c3\nentries C3\nentry\n")
            self.assertEqual(first.leave(), lines("err 1 cell", "err 1 cell", "err 16 command"))
            self.assertEqual(second.leave(), b"")
            self.assertEqual(server.ended(), Ended(0, lines(f"closed {len(TYPED)}")))

    def test_entries_while_another_session_types(self):
        with serving(2) as server:
            typist, reader = server.client(), server.client()
            typist.send(b"".join(b"set A%d =%d\nset B%d =%d\n" % (row, row, row, row) for row in range(1, 201)))
            seen = 0
            while seen < 200:
                reader.send(b"entries A1:B200\n")
                self.assertEqual(reader.reply(), "entries 200")
                rows = [reader.reply() for _ in range(200)]
                full = rows.index(",") if "," in rows else 200
                # one sheet after another: its cells come in the order in which they were typed, and stay
                begun = [row for row in rows[:full] if row.endswith(",")]
                self.assertIn(begun, ([], rows[full - 1:full]))
                self.assertEqual([row for row in rows if row not in begun and row != ","],
                                 [f"={row},={row}" for row in range(1, full - len(begun) + 1)])
                self.assertGreaterEqual(full - len(begun), seen)
                seen = full - len(begun)
            typist.leave()
            reader.leave()
            self.assertEqual(server.ended(), Ended(0, lines("closed 400")))
