"""The comments of the sources and scripts: their sentences, words and costs."""
import ast
import re
import unittest
from pathlib import Path

from pages import ENDS, TURNS, long_sentences, words_of
from program import TOP

COMMENT = re.compile(r"\s*//[/!]?\s?(.*)")
# How a comment is written in each kind of source. In C and in scripts of the page, also in several lines.
FORMS = {".rt": COMMENT, ".js": re.compile(r"\s*(?://|/?\*+/?)\s?(.*?)(?:\*/)?")}
FORMS[".c"] = FORMS[".js"]
FORMS[".py"] = re.compile(r"\s*#(?!!)\s?(.*)")
FORMS[".antt"] = re.compile(r"\s*--\s?(.*)")
# A script of the shell, or a unit of systemd.
FORMS |= dict.fromkeys((".bash", ".service", ".timer", ".sh"), FORMS[".py"])
# Where sources are, and scripts besides the ones at the top.
FOLDERS = ("bench", "page", "packaging", "release", "tests")
SCRIPTS = (".ci/*", "bench/*", "packaging/*", "release/*", "*")
# A cost that needs no words.
COST = re.compile(r"\bCost:\s+(?:constant|none)(?:\.(?!\w)|\s*(?:\n\s*\n|\Z))")
# In the crates a colon and a semicolon end a sentence, too, until those of some contracts are divided.
CRATES_ENDS = f"{ENDS}:;"
# How many faults a file may have until it is mended.
KNOWN = {"bench/pulls.py": 1, "build": 1, "release/make": 1, "release/pack": 2}


def comments(text, form=COMMENT):
    """The comments of a source, as the text of a page."""
    found = (form.fullmatch(line) for line in text.split("\n"))
    return "\n".join(it[1] if it else "" for it in found)


def docstrings(text):
    """The texts of a script, its classes and functions, as those of a page."""
    kinds = (ast.Module, ast.ClassDef, ast.FunctionDef)
    found = (node for node in ast.walk(ast.parse(text)) if isinstance(node, kinds))
    return "\n\n".join(ast.get_docstring(node, clean=not isinstance(node, ast.Module)) or "" for node in found)


def faults(text, kind=".rt", ends=ENDS):
    """What a reader of these comments stumbles over."""
    said = comments(text, FORMS[kind]) + ("\n\n" + docstrings(text) if kind == ".py" else "")
    return [*long_sentences(said, ends), *words_of(TURNS, said), *COST.findall(said)]


def kind_of(name, text):
    """The kind of a source, by its first line where its name has no suffix."""
    first, suffix = text.partition("\n")[0], Path(name).suffix
    return suffix or (".py" if "python" in first else ".sh" if first.startswith("#!") else "")


def sources():
    """The texts of all sources whose comments are looked at, by their names."""
    others = (file for part in FOLDERS for file in (TOP / part).rglob("*"))
    files = [*TOP.glob("crates/*/src/**/*.rt"),
             *(file for part in ("specs", "proofs") for file in TOP.glob(f"crates/*/{part}/**/*.antt")),
             *(file for file in others if file.suffix in FORMS and "out" not in file.parts),
             *(file for pattern in SCRIPTS for file in TOP.glob(pattern) if file.is_file() and not file.suffix)]
    return {str(file.relative_to(TOP)): file.read_text() for file in sorted(files)}


class Comments(unittest.TestCase):
    def test_readers_do_not_stumble(self):
        for name, text in sources().items():
            kind = kind_of(name, text)
            with self.subTest(source=name):
                found = faults(text, kind, CRATES_ENDS if name.startswith("crates/") else ENDS) if kind else []
                self.assertEqual(len(found), KNOWN.get(name, 0), found)

    def test_scripts_without_a_suffix_are_looked_at(self):
        kinds = {name: kind_of(name, text) for name, text in sources().items() if not Path(name).suffix}
        scripts = {"sheet", "test", "build", "install", ".ci/run", "packaging/sheet-redis", "release/pack"}
        self.assertLessEqual(scripts, {name for name, kind in kinds.items() if kind})
        self.assertEqual((kinds["release/manual"], kinds["build"]), (".py", ".sh"))


class Planted(unittest.TestCase):
    """The check finds what is planted, and takes nothing else for it."""

    def test_a_long_sentence(self):
        whole, longer = (" ".join(["Word", *["word"] * more]) + "." for more in (34, 35))
        for text in (f"/// {longer}", f"//! Short.\n//! {longer}", f"    // {longer}", f"/// - {longer}"):
            self.assertEqual(len(faults(text)), 1)
        for text in (f"/// {whole}", f"/// {whole}\n/// Short.", f"{longer}", f"/// `{longer}`"):
            self.assertEqual(faults(text), [])
        for text in (f"/// {whole[:-1]}: {whole}", f"/// {whole[:-1]}; {whole}"):
            self.assertEqual((len(faults(text)), faults(text, ends=CRATES_ENDS)), (1, []))

    def test_a_cost_that_needs_no_words(self):
        for text in ("/// Gives it.\n///\n/// Cost: constant.", "    /// Cost: none", "/// Cost: constant. It is all.",
                     "//! Cost:\n//! none.\nfn a() {}", "/// Cost: constant\nfn a() {}"):
            self.assertEqual(len(faults(text)), 1, text)
        for text in ("/// Cost: constant, except for one.", "/// Cost: constant; the first call takes memory.",
                     "/// Cost: constant\n/// for each cell.", 'let a = "Cost: none.";', "/// Cost: `constant`."):
            self.assertEqual(faults(text), [], text)

    def test_a_turn(self):
        for text in ("/// The rows, of\n/// which some stay.", "//! It is told so.", "    // none but for two"):
            self.assertEqual(len(faults(text)), 1)
        for text in ("let is_told = told;", "/// `of which`", "/// The lentils of a whichever."):
            self.assertEqual(faults(text), [])

    def test_in_each_kind_of_source(self):
        for kind, text in (
            (".js", "/** It is told\n * so. */"), (".js", "  // none but for two\nlet a;"),
            (".c", "/* It is told so. */"), (".antt", "-- It is told so."), (".py", "# It is told so."),
            (".py", 'def f():\n    """It is told so."""'),
            (".py", 'class A:\n    """Short.\n\n    None but\n    for two."""'),
            (".sh", "#!/bin/sh\n# It is told\n# so.\necho"), (".service", "[Unit]\n# It is told so.\nType=simple"),
            (".py", "#!/usr/bin/env python3\n# It was lent.\n"),
        ):
            self.assertEqual(len(faults(text, kind)), 1, text)
        for kind, text in ((".js", "const told = 'it is told';"), (".c", 'say("it is told");'),
                           (".antt", "it-is : is told"), (".py", 'A = """it is told"""'),
                           (".py", "a = 'it is told'\n"), (".sh", "#!/bin/is told\necho it is told"),
                           (".timer", "A=it is told")):
            self.assertEqual(faults(text, kind), [], text)
