"""Delta lines in the program's own form are read without a tree of JSON values.

Such a tree takes memory for each array and each text. The same line with one blank in it is no longer in that form: it is
read by a tree, so it makes more requests for memory. A run of the program makes the same number of them each time.
"""
from program import Ended, ProgramTest, lines
from shortage import ALL, build, run_short
from sizes import COLUMNS, name

# How often each line is pushed; each time but the first it adds nothing new.
COUNT = 50
# The fewest requests that a tree makes for each line, beyond those of the short way.
SPARED = 4


def row(count, content):
    """A delta of this many cells of a row."""
    cells = (f'["{name(column, 20)}",[1,2,"{content}"],[],[]]' for column in range(count))
    return f"[{','.join(cells)}]"


LINES = {
    "a number": '[["A1",[1,2,"5"],[],[]]]',
    "a long number": '[["CZ1024",[9007199254740991,32,"-9223372036854775808"],[],[]]]',
    "a blank": '[["A1",[1,2,""],[],[]]]',
    "a text": """[["A1",[1,2,"'äöü and more"],[],[]]]""",
    "a formula": '[["A1",[1,2,"=SUM([.A1:.B2];-[.C1])*2"],[],[]]]',
    "a counter": '[["A1",[1,2,"@tally"],[[1,1099511627776,0],[32,7,1]],[]]]',
    "counts alone": '[["A1",null,[[1,5,0],[2,0,7],[3,1,1]],[]]]',
    "a choice": '[["A1",[1,2,"@choice"],[],[[5,1,64,0]]]]',
    "pairs alone": '[["A1",null,[],[[7,1,1,1],[7,2,256,0],[63,32,9,0]]]]',
    "two cells": row(2, "7"),
    "a row of numbers": row(COLUMNS, "-7"),
    "a row of formulas": row(COLUMNS, "=[.A1]+1"),
    "cells of each kind": '[["A1",[1,2,"@tally"],[[1,5,0]],[]],["B1",null,[],[[7,1,1,1]]],["C1",[1,2,"\'x"],[],[]]]',
}


class OwnForm(ProgramTest):
    def test_lines_in_the_own_form_are_read_without_a_tree(self):
        library = build(self.folder())
        for what, line in LINES.items():
            with self.subTest(what):
                short = self.requests(library, line)
                by_a_tree = self.requests(library, line.replace("[", "[ ", 1))
                self.assertLessEqual(short + SPARED * COUNT, by_a_tree)

    def requests(self, library, line):
        """How many requests for memory a session makes that pushes the line so often."""
        given = self.folder() / "given"
        given.write_bytes(lines(*[f"push {line}"] * COUNT))
        short = run_short(library, ["run"], given, ALL, ALL)
        self.assertEqual(short.ended, Ended(0, lines(*["ok 1"] * COUNT)))
        return short.requests
