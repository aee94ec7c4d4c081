"""The command `table`: a table of entries in, the table of their settled values out."""
import csv
import io
import time

from program import Ended, ProgramTest, lines, run
from sizes import COLUMNS, LARGEST_TABLE

ROWS = 1024


def table_of(rows, **dialect):
    """These rows as Python's `csv` writes them."""
    text = io.StringIO(newline="")
    csv.writer(text, **dialect).writerows(rows)
    return text.getvalue().encode()


class Shown(ProgramTest):
    def test_formulas_show_their_values(self):
        self.assert_table(b'2,=[.A1]*3\n"x,y",@tally\n', b'2,6\n"x,y",0\n')

    def test_a_record_of_empty_fields_is_a_row(self):
        self.assert_table(b"1,,3\n,,\n=[.A1]+[.C1]\n", b"1,,3\n,,\n4,,\n")

    def test_what_python_writes_is_read_and_written_back_as_python_writes_it(self):
        entries = [
            ["name", "price", "count", "total"],
            ["tea, green", "7", "3", "=[.B2]*[.C2]"],
            ['"earl" grey', "-5", "=2*2", "=[.B3]*[.C3]"],
            ["", "", "", "=SUM([.D2:.D3])"],
        ]
        shown = [
            ["name", "price", "count", "total"],
            ["tea, green", "7", "3", "21"],
            ['"earl" grey', "-5", "4", "-20"],
            ["", "", "", "1"],
        ]
        self.assert_table(table_of(entries), table_of(shown, lineterminator="\n"))
        self.assert_table(table_of(entries, quoting=csv.QUOTE_ALL), table_of(shown, lineterminator="\n"))

    def test_each_kind_of_value(self):
        given = b"=MOD(1;0),=9223372036854775807+1,word,=[.C1]+1\n=[.B2],=[.A2],=[.A2],@choice\n"
        self.assert_table(given, b"#DIV/0!,#NUM!,word,#VALUE!\n#CYCLE!,#CYCLE!,#CYCLE!,{}\n")

    def test_each_spelling_of_an_entry(self):
        self.assert_table(b"+7,-0,007,'5, =1 ,of:=1+1\n", b"7,0,7,5, =1 ,2\n")

    def test_texts_of_each_length(self):
        texts = ["x" * count for count in range(1, 65)]
        self.assert_table(lines(*texts), lines(*texts))
        given = lines(*(f"set A{row} {text}" for row, text in enumerate(texts, 1)), "rows A1:A64", "entries A1:A64")
        entries = ["'" + text for text in texts]
        replies = [*(f"ok {number}" for number in range(1, 65)), "rows 64", *texts, "entries 64", *entries]
        self.assert_session(given, lines(*replies))

    def test_the_ends_of_the_numbers(self):
        least, most = -(2**63), 2**63 - 1
        self.assert_table(lines(f"{least},{most}"), lines(f"{least},{most}"))
        # one further is a text, with which no formula reckons
        self.assert_table(lines(f"{least - 1},=[.A1]+0"), lines(f"{least - 1},#VALUE!"))

    def test_formulas_refer_to_what_comes_later(self):
        self.assert_table(b"=[.A2]+1\n=[.A3]+1\n1\n", b"3\n2\n1\n")

    def test_the_number_of_workers_changes_nothing(self):
        for workers in ("1", "2", "16"):
            with self.subTest(workers=workers):
                self.assert_table(b"=[.A2]+1,=[.A1]*2\n1\n", b"2,4\n1,\n", "--workers", workers)


class Shape(ProgramTest):
    def test_no_record_has_no_output(self):
        self.assert_table(b"", b"")
        self.assert_table(b"\n\r\n\n", b"")

    def test_records_are_filled_up_to_the_longest(self):
        self.assert_table(b"1\n2,3,4\n\n5,6\n", b"1,,\n2,3,4\n5,6,\n")

    def test_a_record_of_one_empty_field_is_a_row(self):
        self.assert_table(b'""\n5\n""\n', b'""\n5\n""\n')

    def test_records_end_by_line_feed_or_carriage_return_or_the_end(self):
        self.assert_table(b"1\n2\r3\r\n4", b"1\n2\n3\n4\n")

    def test_quotes(self):
        self.assert_table(b'"1",a"b,"c""d"\n"5', b'1,"a""b","c""d"\n5,,\n')

    def test_a_byte_order_mark_is_dropped(self):
        self.assert_table(b"\xef\xbb\xbf5\n", b"5\n")

    def test_the_largest_row_and_column(self):
        row = ",".join(str(number) for number in range(COLUMNS))
        self.assert_table(lines(*[row] * ROWS), lines(*[row] * ROWS))

    def test_a_table_of_the_most_bytes(self):
        self.assertEqual(run("table", stdin=self.file_of(b"\n" * LARGEST_TABLE)), Ended(0))


class Settled(ProgramTest):
    def timed(self, records):
        """The seconds that a table of these records takes, the least of three, and what it shows."""
        given, best = lines(*records), None
        for _ in range(3):
            begun = time.monotonic()
            ended = run("table", given=given)
            took = time.monotonic() - begun
            best = took if best is None else min(best, took)
        self.assertEqual((ended.status, ended.error), (0, b""))
        return best, ended.output

    def test_values_are_settled_once_for_all_records(self):
        # each on the one below, the newest on top: settled at each record, the last would be the 800th evaluation of A1
        count = 800
        chain = [f"=[.A{row + 1}]+1" for row in range(1, count)] + ["1"]
        plain, shown = self.timed(["1"] * count)
        self.assertEqual(shown, lines(*["1"] * count))
        took, shown = self.timed(chain)
        self.assertEqual(shown, lines(*range(count, 0, -1)))
        self.assertLess(took, 8 * plain + 0.3)


class Refused(ProgramTest):
    def test_a_text_that_is_none(self):
        for text in (b"x" * 65, b"\xff", b"a\0b", b"a\tb", b'"a\nb"', b"'"):
            with self.subTest(text=text):
                self.assert_refused_table(b"1," + text + b"\n", "2 text")

    def test_a_formula_that_is_none(self):
        for formula in (b"=", b"=bad", b"=SUM()", b"=[.A0]", b"=1+", b"=[.A1:.A2]"):
            with self.subTest(formula=formula):
                self.assert_refused_table(b"1," + formula + b"\n", "3 formula")
        self.assert_refused_table(b"1,2\n=bad,3\n", "3 formula")

    def test_an_entry_that_is_too_long(self):
        self.assert_refused_table(b"1" * 513, "4 too-long")
        self.assert_refused_table(b"=" + b"1+" * 128 + b"1", "4 too-long")

    def test_a_field_too_many(self):
        self.assert_table(b"1" + b",1" * (COLUMNS - 1), b"1" + b",1" * (COLUMNS - 1) + b"\n")
        self.assert_refused_table(b"1" + b",1" * COLUMNS, "18 csv")

    def test_a_record_too_many(self):
        self.assert_table(b"1\n" * ROWS, b"1\n" * ROWS)
        self.assert_refused_table(b"1\n" * (ROWS + 1), "18 csv")

    def test_a_byte_too_many(self):
        given = self.file_of(b"\n" * (LARGEST_TABLE + 1))
        self.assertEqual(run("table", stdin=given), Ended(3, b"", lines("err 18 csv")))

    def test_the_first_fault_in_reading_order(self):
        too_many = b"1" + b",1" * COLUMNS
        self.assert_refused_table(b"1\n=bad," + too_many + b"\n", "3 formula")
        self.assert_refused_table(too_many + b"\n=bad\n", "18 csv")
        self.assert_refused_table(b"1,=bad,\xff\n", "3 formula")
        self.assert_refused_table(b"1,\xff,=bad\n", "2 text")

    def test_nothing_is_written_for_the_good_records_before_a_fault(self):
        self.assert_refused_table(b"1\n" * 1000 + b"=bad\n", "3 formula")
