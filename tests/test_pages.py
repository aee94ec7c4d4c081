"""The pages: their length, sentences and words, links that lead somewhere, and commands that a test runs."""
import re
import unittest

from pages import INDENTED, TURNS, below, blocks, indented_blocks, long_sentences, pairs, without_fences, words_of
from program import TOP

# The greatest number of words of each page.
WORDS = {
    "CHANGELOG.md": 1500,
    "CONTRIBUTING.md": 3000,
    "README.md": 900,
    "bench/README.md": 100,
    "docs/ARCHITECTURE.md": 4000,
    "docs/DECISIONS.md": 5000,
    "docs/DEFINITIONS.md": 5000,
    "docs/FORMATS.md": 7000,
    "docs/IDIOMS.md": 2000,
    "docs/PERFORMANCE.md": 2500,
    "docs/PROVED.md": 4000,
    "docs/TESTING.md": 2000,
    "docs/USING.md": 3000,
}
# What no page says: besides turns that readers stumble over, words that the field has others for.
NEVER = (
    *TURNS, "(?:be|been|being) told", "(?:have|had) come", "just where", "hand(?:s|ed|ing)? out",
    "(?:is|are|was|were) handed", "lack of memory", "below the state", "what a crash leaves", "what (?:was|were) there",
    "lines? (?:that|to) push", "settled with", "(?<!21 )(?<!--)seats?",
)
# What the help says still: `once two sessions have come`.
SAID_BY_HELP = ("(?:have|had) come",)
# The languages of blocks that aren't commands. How an indented block begins that isn't: a transcript, a number, a word
# of a mutant's file, a row to paste. Any other counts as commands.
TEXTS = ("text", "rust", "antt")
TEXT = re.compile(r"# .*\n> |\d|\w+: |.*\t")
# A command of ours amid a sentence, and what it has after its words: a file, a pipe, or words that are left out.
INLINE = re.compile(r"`((?:\w+=\S+\s+|nohup\s+)?\./(?:sheet|test|install)\s[^`]+)`")
AFTER = re.compile(r" (?:[<>|&]|\.\.).*")
# The commands that no test runs, or their beginnings, and why.
UNRUN = {
    "ssh -N -L": "it needs another machine, with an account there",
    "bench/": "they measure for minutes each, and no test depends on a figure",
    "./test --program\n./test": "no test runs all tests; test_whole runs both with stand-ins for them",
    "./test --list": "test_lists reads the lists that it prints",
}
# What a name of a file looks like, and one that isn't one alone.
FILE = re.compile(r"`((?:docs|bench|tests|crates|release|page)/[\w/.-]+\.(?:md|py|rt|antt|txt|c|js))`")
PATTERN = re.compile(r"\.\.|\b[A-Z]+\b(?!\.md)")


def pages():
    """The pages of the repository, by their names."""
    files = (file for file in sorted(TOP.rglob("*.md")) if "out" not in file.parts)
    return {str(file.relative_to(TOP)): file.read_text() for file in files}


def sources():
    """The sources that may name a page."""
    found = (file for part in ("bench", "crates", "page", "release", "tests") for file in (TOP / part).rglob("*"))
    return [file for file in found if file.suffix in (".py", ".rt", ".antt", ".js") and "out" not in file.parts]


def anchors(text):
    """The places of a page that a link may name: its headings, as a reader of Markdown names them."""
    headings = re.findall(r"^#+ (.*)$", text, re.MULTILINE)
    return {re.sub(r"[^\w\- ]", "", heading).strip().lower().replace(" ", "-") for heading in headings}


def dead_links(name, text):
    """The links of this page that lead nowhere."""
    found = []
    for link in re.findall(r"\]\(([^)\s]+)\)", re.sub(r"`[^`\n]*`", "X", text)):
        path, _, place = link.partition("#")
        file = TOP / name if not path else (TOP / name).parent / path
        is_place = file.exists() and (not place or place in anchors(text if not path else file.read_text()))
        is_there = "://" in link or is_place
        found += [] if is_there else [link]
    return found


def missing_files(text):
    """The files that a text names as code, and that there aren't."""
    return [file for file in FILE.findall(text) if not PATTERN.search(file) and not (TOP / file).exists()]


def forbidden_words(text):
    """The words of a page that none may have, wherever they stand outside of code."""
    return words_of(NEVER, text)


def tests():
    """The sources of the tests of the program, without this one, and without what they say of commands in backticks."""
    files = (file for file in sorted((TOP / "tests").glob("test_*.py")) if file.name != "test_pages.py")
    return [re.sub(r"`[^`\n]*`", "X", file.read_text()) for file in files]


def blocks_of_commands(text):
    """The blocks of commands of a page. A fence that isn't at the beginning of its line counts as one."""
    fenced = [commands for language, commands in blocks(text) if language not in TEXTS]
    fences = re.findall(r"^[ \t>]*(?:```|~~~).*$", text, re.MULTILINE)
    return [*fenced, *(block for block in indented_blocks(text) if not TEXT.match(block)),
            *(fence for fence in fences if not fence.startswith("```"))]


def taken(name, text, tests):
    """The blocks of this page that a test runs: one of these sources takes them from the page."""
    def named(function):
        """The words that the function is called with after this page."""
        return re.findall(rf'\b{function}\("{re.escape(name)}", "([^"]*)"\)', "".join(tests))

    lists = [indented_blocks(below(text, heading)) for heading in named("indented")]
    found = [commands for language in named("recipes") for commands, _ in pairs(text, language)]
    if any(f'functions("{name}")' in source for source in tests):
        found.append(blocks(text)[0][1])
    found += [block for begin in named("beginning") for block in indented_blocks(text) if block.startswith(begin)]
    return found + [block for each in lists for place, block in enumerate(each)
                    if any(f"BLOCKS[{place}]" in source for source in tests)]


def is_run(command, run, tests):
    """Whether these commands or sources have the words of a command, with any others for those that a user chooses."""
    words = AFTER.sub("", command).split()
    program = next(place for place, word in enumerate(words) if word.startswith("./"))
    ours = [word if place <= program or word.startswith("--") or words[place - 1] == "./sheet" else None
            for place, word in enumerate(words)]
    spoken = " ".join(r"\S+" if word is None or "=" in word else re.escape(word) for word in ours) + r"(?![\w-])"
    is_sheet = words[program] == "./sheet"
    if any(re.search(spoken, text) for text in (run, *(tests if is_sheet else ()))):
        return True
    # .. or a call has them in a line; another program than `./sheet` is started by its path
    called = "[^\n]*".join(f'"{word}"' for word in ours[program + 1:] if word is not None)
    path = "" if is_sheet else f'/ "{words[program][2:]}"'
    return "nohup" not in words and any(path in source and re.search(called, source) for source in tests)


def untested(name, text, tests, run=""):
    """The commands of this page that no test runs: blocks that none takes from it, and those amid sentences that have
    other words than the ones that are run."""
    found = taken(name, text, tests)
    inline = [" ".join(it.split()) for it in INLINE.findall(INDENTED.sub("", without_fences(text)))]
    return [*(block for block in blocks_of_commands(text) if block not in found),
            *(command for command in inline if not is_run(command, run + "".join(found), tests))]


def strings(text):
    """The texts that a source in Rattle has in quotes, each as one of a page."""
    code = re.sub(r"^\s*//.*$", "", text, flags=re.MULTILINE)
    found = re.findall(r'"((?:[^"\\]|\\.)*)"', code, re.DOTALL)
    return "\n\n".join(re.sub(r"\\\n\s*", "", it).replace("\\n", "\n") for it in found)


class Pages(unittest.TestCase):
    def assert_all(self, faults, names):
        """None of these pages has a fault of this kind."""
        texts = pages()
        for name in names:
            with self.subTest(name=name):
                self.assertEqual(faults(name, texts[name]), [])

    def test_each_page_has_a_length(self):
        self.assertEqual(set(pages()), set(WORDS))

    def test_no_page_is_longer_than_it_may_be(self):
        texts = pages()
        for name, most in WORDS.items():
            with self.subTest(name=name):
                self.assertLessEqual(len(texts[name].split()), most)

    def test_no_sentence_is_long(self):
        self.assert_all(lambda _, text: long_sentences(text), WORDS)

    def test_no_word_is_one_that_readers_stumble_over(self):
        self.assert_all(lambda _, text: forbidden_words(text), WORDS)

    def test_each_link_leads_somewhere(self):
        self.assert_all(dead_links, pages())

    def test_each_file_that_a_page_names_is_there(self):
        self.assert_all(lambda _, text: missing_files(text), pages())

    def test_each_page_that_a_source_names_is_there(self):
        for source in sources():
            named = set(re.findall(r"\b(?:docs|bench)/[A-Z]+\.md\b", source.read_text()))
            with self.subTest(source=str(source.relative_to(TOP))):
                self.assertEqual([page for page in named if not (TOP / page).exists()], [])

    def test_no_word_of_the_help_is_one_that_readers_stumble_over(self):
        said = strings((TOP / "crates/ps_words/src/help.rt").read_text())
        self.assertIn("Examples:", said)
        self.assertEqual(words_of([word for word in NEVER if word not in SAID_BY_HELP], said), [])

    def test_each_command_is_run(self):
        texts, sources = pages(), tests()
        run = "".join(block for name, text in texts.items() for block in taken(name, text, sources))
        unrun = {name: untested(name, text, sources, run) for name, text in texts.items()}
        for name, commands in unrun.items():
            with self.subTest(name=name):
                self.assertEqual([command for command in commands if not command.startswith(tuple(UNRUN))], [])
        needed = {begin for begin in UNRUN for commands in unrun.values() for it in commands if it.startswith(begin)}
        self.assertEqual(needed, set(UNRUN))


class Planted(unittest.TestCase):
    """Each check finds what is planted, and takes nothing else for it."""

    def test_a_long_sentence(self):
        whole, longer = (" ".join(["Word", *["word"] * more]) + "." for more in (34, 35))
        half = " ".join(["Word", *["word"] * 17])
        for text in (longer, f"- {longer}", f"Short.\n{longer} Short.", f"1. Short: `a b`.\n2. {longer}",
                     f"{half}: {half}.", f"{half}; `a` {half}.", f"{half} .. {half}.", f"10. {half}\n    {half}.",
                     f"**Short.** {longer}", f"# Title\n{longer}"):
            self.assertEqual(len(long_sentences(text)), 1)
        for text in (whole, f"| {longer} |", f"# {longer}", f"    {longer}", f"```text\n{longer}\n```", f"`{longer}`",
                     f"{half}. {half}.", f"{half}:\n\n- {half}.", f"{half}:\n1. {half}.", f"**{half}.** {half}.",
                     f"{half}.) {half}."):
            self.assertEqual(long_sentences(text), [])

    def test_a_forbidden_word(self):
        for text in ("The rows, of\nwhich some stay.", "# Who is there", "| It is told so. |", "A line to push.",
                     "Two seats.", "One who soon is there", "It was lent.", "10. Text\n    that is told",
                     "It has to be told.", "It is handed over."):
            self.assertEqual(len(forbidden_words(text)), 1)
        for text in ("`of which`", "    of which", "```text\nof which\n```", "The lentils of a whichever.", "21 seat"):
            self.assertEqual(forbidden_words(text), [])

    def test_a_dead_link(self):
        page = "# Here\n[a](#here) [b](FORMATS.md) [c](FORMATS.md#session-lines) [d](https://nowhere) ![e](plan.png)"
        self.assertEqual(dead_links("docs/USING.md", page), [])
        for link in ("#there", "NONE.md", "FORMATS.md#none", "none.png"):
            self.assertEqual(dead_links("docs/USING.md", f"{page} [f]({link})"), [link])

    def test_a_file_that_is_not_there(self):
        for there in ("docs/USING.md", "tests/test_..py", "tests/wrong/NAME.txt"):
            self.assertEqual(missing_files(f"`{there}`"), [])
        for gone in ("docs/none.md", "tests/none.py"):
            self.assertEqual(missing_files(f"`{gone}`"), [gone])

    def test_a_command_that_no_test_runs(self):
        page = "```bash\nfirst\n```\n```bash\nsecond\n```\n```text\nshown\n```\n```rust\ncode\n```"
        run = ['functions("a/page.md")', 'recipes("a/page.md", "bash")']
        self.assertEqual(untested("a/page.md", page, run), [])
        self.assertEqual(untested("a/page.md", page, []), ["first\n", "second\n"])
        for language in ("sh", "bash", "zsh", "fish", "shell-session", "console title"):
            more = f"{page}\n```{language}\nthird\n```"
            self.assertEqual(untested("a/page.md", more, run), ["third\n"])
        self.assertEqual(untested("a/page.md", f"{page}\n```sh\nthird\n```\n```text\nshown\n```", run), ["third\n"])
        for fence in ("  ```bash", "~~~"):
            self.assertIn(fence, untested("a/page.md", f"{page}\n{fence}\nthird\n{fence[:5]}", run))

    def test_an_indented_command_that_no_test_runs(self):
        page = "# Here\n\n    ./sheet run |\n        cat\n\nText.\n\n    ssh there\n\n# There\n\n    listen 1\n"
        shown = ["./sheet run |\n    cat\n", "ssh there\n", "listen 1\n"]
        self.assertEqual(untested("a/page.md", page, []), shown)
        for source, left in (('beginning("a/page.md", "ssh")', [0, 2]), ('beginning("b/page.md", "ssh")', [0, 1, 2]),
                             ('indented("a/page.md", "# There") BLOCKS[0]', [0, 1]),
                             ('indented("a/page.md", "# Here") BLOCKS[1]', [0, 2])):
            self.assertEqual(untested("a/page.md", page, [source]), [shown[place] for place in left])
        for text in ("10. This\n    ./sheet goes on", "    # A title\n    > get A1\n    val ", "    1 cell, 2 text",
                     "    file: a", "    Rent\t9", "```text\n\n    ./sheet\n```"):
            self.assertEqual(untested("a/page.md", f"Text:\n\n{text}\n", []), [])

    def test_a_command_amid_a_sentence_that_no_test_runs(self):
        run = "start log ./sheet serve --port 7001 --keep a &&"
        source = 'here = TOP / "test"; start("--hunt", "0.1", "--only", "a")\nrun("run", "--help")'
        for command in ("./sheet serve --port 80 --keep b.lines", "./sheet serve\n--port p", "./sheet run --help",
                        "./sheet serve ..", "./test --hunt 9", "./test --hunt 9 --only costs", "A=b ./test --hunt 9",
                        "./sheet", "./sheet-redis a"):
            self.assertEqual(untested("a/page.md", f"Text `{command}`.", [source], run), [])
        for command in ("./sheet serve --prot 80", "./sheet serve --ports 80", "./sheet talk --to 80", "./test --list",
                        "./install a", "nohup ./sheet serve .. &", "./test --only a --hunt 9"):
            self.assertEqual(untested("a/page.md", f"Text `{command}`.", [source], run), [command])
            code = f"```text\n`{command}`\n```\n\n    1 `{command}`\n"
            self.assertEqual(untested("a/page.md", code, [source], run), [])

    def test_the_texts_of_a_source(self):
        source = '/// "no"\nconst A: &str =\n    "one";\nf("two\\nthree \\\n    four");\n    // "no"'
        self.assertEqual(strings(source), "one\n\ntwo\nthree four")
