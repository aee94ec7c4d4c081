"""What no clause tells and the sources do.

Whether an allocation failed no clause tells, so a body that says that memory ran out, without cause, would be proved. And
a meter counts what is evaluated by it, and knows nothing of a second meter that is thrown away. So each place that says
the one by itself, or makes the other, is found in the sources, and has to be one that is known.
"""
import re
import shutil
import subprocess
import sys
import unittest

from program import NO_KIT, TOP

sys.path.insert(0, str(TOP / "release"))
import tools

# What says it: a variant `Memory`, or the allocator's or the system's own error made by hand.
SAID = re.compile(r"\b(?:\w+::(?:OutOf)?Memory|AllocError)\b")
# An import by which `Memory` alone says it, which no source has.
IMPORTED = re.compile(r"^\s*(?:pub )?use\b[^;]*?(?:::(?:\{[^;]*\b)?Memory\b|(?:Refusal|Fault)::\*)", re.MULTILINE)
# What follows a pattern: such an arm passes on what somebody below said.
PATTERN = re.compile(r"\)*\s*(?:=>|\|(?!\|)|if\b)")
# What stands before a value that another one is compared with.
COMPARED = re.compile(r"[=!]= *(?:\w+::)*$")
# What stands before a type.
TYPED = re.compile(r"(?:[<:]\s*|,\s*|->\s*|\bfor\s+)$")
# Each place that says it by itself: the line before it and the line, and why it may.
KNOWN = {
    "ps_commands/src/fault.rt": {
        ("fn from(_error: AllocError) -> ProgramFault {", "ProgramFault::Refused(Refusal::Memory)"):
            "the conversion of the allocator's error"},
    "ps_content/src/content.rt": {
        ("out.truncate(start);", "return Err(Refusal::Memory);"): "an append that failed, after what it left is cut off"},
    "ps_csv/src/fault.rt": {
        ("match error.kind() {", "ErrorKind::OutOfMemory => ImportFault::from(Refusal::Memory),"): "the reader's word"},
    "ps_csv/src/rows.rt": {("{", "Refusal::Memory"): "the one failure of a writer over memory"},
    "ps_csv/src/shown.rt": {
        ("", "Err(Refusal::Device) => Err(Refusal::Memory),"): "the one failure of a sink over memory"},
    "ps_face/src/face.rt": {("Ok(()) => Ok(()),", "Err(_) => Err(AllocError),"): "the refusal of a copy, in the trait's words"},
    "ps_face/src/writer.rt": {
        ("if copies.append(idle).is_err() {", "return Err(Refusal::Memory);"): "the queue gives back what it has no room for"},
    "ps_grid/src/refusal.rt": {
        ("fn from(_error: AllocError) -> Refusal {", "Refusal::Memory"): "the conversion of the allocator's error",
        ("fn from(_error: AllocFailed<T>) -> Refusal {", "Refusal::Memory"): "the same, with a value given back"},
    "ps_index/src/column.rt": {
        ("if self.spans.len() >= u32::MAX as usize {", "return Err(Refusal::Memory);"): "more spans than a number counts"},
    "ps_keep/src/digested.rt": {
        ("fn from(_: AllocError) -> DigestFault {", "DigestFault::Memory"): "the conversion of the allocator's error"},
    "ps_keep/src/file.rt": {
        ("if error.kind() == ErrorKind::OutOfMemory {", "FileFault::Memory"): "the system's word"},
    "ps_kept/src/fault.rt": {
        ("fn from(_error: AllocError) -> KeepFault {", "KeepFault::Memory"): "the conversion of the allocator's error"},
    "ps_peers/src/asking.rt": {
        ("18 => Some(Refusal::Csv),", "19 => Some(Refusal::Memory),"): "the number that a peer replied"},
    "ps_shorten/src/fault.rt": {
        ("fn from(_error: AllocError) -> ShortenFault {", "ShortenFault::Memory"): "the conversion of the allocator's error"},
    "ps_shorten/src/in_place.rt": {
        ("", "KeepFault::Device => Err(ShortenFault::Memory),"): "the one failure of a file in memory",
        ("Err(SquashFault::Memory | SquashFault::Source | SquashFault::Sink) => {", "return Err(ShortenFault::Memory);"):
            "the one failure of a sink over memory"},
    "ps_squash/src/fault.rt": {
        ("fn from(_error: AllocError) -> SquashFault {", "SquashFault::Memory"): "the conversion of the allocator's error"},
    "ps_wire/src/decoder.rt": {("if fault.is_memory() {", "Err(Refusal::Memory)"): "the word of `serde_json`"},
    "ps_wire/src/line.rt": {
        ("Ok(text) => Ok(text),", "Err(_) => Err(Refusal::Memory),"): "the one failure of a text over memory"},
    "ps_words/src/words.rt": {
        ("let Some((name, found)) = matches.subcommand() else {", "return Err(AllocError.into());"): "`clap` leaves it out only then",
        ("let Some(options) = options_of(name, found) else {", "return Err(AllocError.into());"): "`clap` leaves it out only then"},
    "sheet/src/main.rt": {
        ("if error.kind() == io::ErrorKind::OutOfMemory {", "return Err(ProgramFault::Refused(Refusal::Memory));"): "the system's word",
        ("if error.kind() == ErrorKind::OutOfMemory {", "return Err(ProgramFault::Refused(Refusal::Memory));"): "the word of `clap`"},
}

# Each file that makes a meter, and how often: where the program begins to count, and for each worker of a wide level,
# whose count is added to the level's.
METERS = {"ps_server/src/attend.rt": 1, "ps_workers/src/level.rt": 1, "sheet/src/main.rt": 5}


def code_of(text):
    """Returns the lines of a source that are carried out; comments, contracts and imports are left blank."""
    kept, is_ghost = [], False
    for line in text.splitlines():
        bare = re.sub(r"(?<!:)//.*", "", line).strip()
        if re.match(r"(?:ghost|requires|ensures)\b", bare):
            is_ghost = True
        kept.append("" if is_ghost or bare.startswith(("use ", "pub use ")) else bare)
        if is_ghost and re.search(r"[};]\s*$", bare):
            is_ghost = False
    return kept


def says(code):
    """Returns whether a line says it by itself, and doesn't pass on what the arm that it stands in matched."""
    is_told = False
    for said in SAID.finditer(code):
        if PATTERN.match(code, said.end()):
            # (a place that tells what the system said has to be known, too)
            is_told = is_told or "OutOf" not in said.group()
        elif not is_told and not any(it.search(code[:said.start()]) for it in (TYPED, COMPARED)):
            return True
    return False


def places(text):
    """Returns each place of a source that says it by itself, the line before it and the line, and each import."""
    code = code_of(text)
    said = [(before, line) for before, line in zip(["", *code], code) if says(line)]
    return said + [("", found.group()) for found in IMPORTED.finditer(text)]


def meters(text):
    """Returns how many meters a source makes. Another name for their type counts as one, too."""
    made = re.findall(r"\bMeter(?:(?:::)?<[^;\n(){}]*?>)?>?::new\b", "\n".join(code_of(text)))
    return len(made) + len(re.findall(r"\bMeter as\b|^(?:pub )?type\b[^;]*=[^;]*\bMeter\b", text, flags=re.MULTILINE))


def sources():
    """The texts of the program's sources, by their paths below the crates."""
    paths = {path.relative_to(TOP / "crates").as_posix(): path for path in sorted((TOP / "crates").glob("*/src/**/*.rt"))}
    return {name: path.read_text() for name, path in paths.items() if not name.startswith("checks_")}


class Meters(unittest.TestCase):
    """What is evaluated is counted by one meter."""

    def test_each_place_that_makes_one_is_known(self):
        self.assertEqual({name: count for name, text in sources().items() if (count := meters(text))}, METERS)

    def test_one_more_is_found(self):
        self.assertEqual(meters("let mut own = Meter::<L>::new(blank);\n// Meter::new\nlet other = Meter::new(blank);"), 2)
        for text in ("let own = Meter::<Own<L>>::new(blank);", "let own = <Meter<L>>::new(blank);", "use ps_eval::Meter as Own;",
                     "use ps_eval::{Look, Meter as Own};", "pub type Own = Meter<Brand>;"):
            with self.subTest(text):
                self.assertEqual(meters(text), 1)

    def test_none_can_be_dropped(self):
        """So whoever makes one has to end it."""
        self.assertNotRegex(sources()["ps_eval/src/meter.rt"], r"\bDrop\b")


class MemoryTold(unittest.TestCase):
    """Out of memory is said where an allocation failed."""

    def test_each_place_is_known(self):
        found = {name: here for name, text in sources().items() if (here := places(text))}
        self.assertEqual(found, {name: list(known) for name, known in KNOWN.items()})

    def test_one_without_cause_is_found(self):
        for text in ("if cells.len() == 53 { return Err(Refusal::Memory); }",
                     "let Ok(read) = read(bytes) else { return Err(Refusal::Memory); };",
                     "Ok(false) => return Err(KeepFault::Memory),",
                     "_ => Err(Refusal::Memory),",
                     "Some(_) => Err(AllocError),",
                     "let fault = fault_of(&io::Error::from(ErrorKind::OutOfMemory));",
                     "use ps_grid::Refusal::Memory;",
                     "use ps_grid::Refusal::{Delta,\n    Memory};",
                     "use ps_grid::Refusal::*;"):
            with self.subTest(text):
                self.assertTrue(places(text))

    def test_what_is_passed_on_is_not(self):
        for text in ("Err(Refusal::Memory) => return Err(KeepFault::Memory),",
                     "Err(AllocError) => Err(Refusal::Memory),",
                     "if error.kind() == io::ErrorKind::OutOfMemory {",
                     "ghost use Rattle.ps_grid.specs.declared.refusal.Refusal.TheVariants.{Memory, Version};",
                     "use ps_keep::{MemoryFile, first_line};\nuse std::alloc::{AllocError, Global};",
                     "fn new(alloc: Global) -> Result<Peer, AllocError>",
                     "impl From<AllocError> for Refusal {"):
            with self.subTest(text):
                self.assertFalse(places(text))


class Layout(unittest.TestCase):
    """The layout of the crates' files, which the gate holds as well, but at each crate's turn."""

    def test_each_file_has_the_layout_of_the_formatter(self):
        if shutil.which("rt") is None:
            self.skipTest(NO_KIT)
        found = [it for part in ("src", "specs", "proofs") for it in (TOP / "crates").glob(f"*/{part}/**/*")]
        files = [it for it in found if it.suffix in (".rt", ".antt")]
        self.assertGreater(len(files), 100)
        ran = subprocess.run([tools.folder() / "bin/rattle", "fmt", "--check", *files], capture_output=True, text=True)
        self.assertEqual((ran.returncode, ran.stdout + ran.stderr), (0, ""))
