"""The lists that `./test --list` prints: what each test shows, and the function whose proof each mutant has to break.

They are made of the comments and names of the tests, the titles of the transcripts, and the files of `wrong/`.
"""
import ast
import re

import edits

TEST = "#[test]"


def comment_above(lines, place):
    """Returns the doc comment above the line at this place, past other attributes, as one text."""
    found = []
    while place > 0 and (above := lines[place - 1].strip()).startswith(("///", "#[")):
        place -= 1
        if above.startswith("///"):
            found.insert(0, above.removeprefix("///").strip())
    return " ".join(found)


def crate_tests(top):
    """Yields each test of the crates: the module's path below `crates/`, the function's name, and its comment."""
    for file in sorted(top.glob("crates/checks_*/src/**/*.rt")):
        lines = file.read_text().splitlines()
        for place, line in enumerate(lines):
            if line.strip() == TEST:
                named = (re.search(r"\bfn (\w+)", below) for below in lines[place + 1 :])
                name = next(it[1] for it in named if it)
                yield str(file.relative_to(top / "crates")), name, comment_above(lines, place)


def in_words(name):
    """Returns the words of a test's name."""
    return name.removeprefix("test_").replace("_", " ")


def program_tests(top):
    """Yields each test of the program: its file, what the file says of itself, and the words of the test's name."""
    for file in sorted(top.glob("tests/test_*.py")):
        tree = ast.parse(file.read_text())
        about = " ".join((ast.get_docstring(tree) or "").split("\n\n")[0].split())
        functions = (it for group in tree.body if isinstance(group, ast.ClassDef) for it in group.body)
        names = [it.name for it in functions if isinstance(it, ast.FunctionDef) and it.name.startswith("test_")]
        for name in names:
            yield file.name, about, in_words(name)


def transcripts(top):
    """Yields each session of `transcripts/`: its file and its title."""
    for file in sorted(top.glob("tests/transcripts/*.txt")):
        for text in file.read_text().split("\n\n"):
            yield file.name, text.splitlines()[0].removeprefix("# ")


def mutants(top):
    """Yields each mutant: its crate, what it does wrong, and the function whose proof has to fail."""
    for crate, files in edits.of_crates(top).items():
        for file in files:
            yield crate, file.stem.replace("-", " "), edits.read(file).function


def grouped(rows):
    """Yields a line for each heading of rows that follow one another, and an indented one for each row."""
    last = None
    for heading, row in rows:
        if heading != last:
            yield f"\n{heading}"
            last = heading
        yield f"  {row}"


def text(top):
    """Returns the lists as text."""
    parts = {
        "TESTS OF THE CRATES": ((file, f"{name}: {comment}" if comment else name) for file, name, comment in crate_tests(top)),
        "TESTS OF THE PROGRAM": ((f"{file}: {about}", name) for file, about, name in program_tests(top)),
        "TRANSCRIPTS": transcripts(top),
        "MUTANTS, AND THE FUNCTION WHOSE PROOF HAS TO FAIL": (
            (crate, f"{name}: {function}") for crate, name, function in mutants(top)
        ),
    }
    return "\n\n".join("\n".join([title, *grouped(rows)]) for title, rows in parts.items()) + "\n"
