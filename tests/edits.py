"""Mutants: edits of `wrong/CRATE/`. Each makes one function of the crate wrong.

A file has a line `function: PATH`, the function that the prover then has to refuse, by its path below the crate as a
check prints it, then `file: PATH` and pairs of lines `old: TEXT` and `new: TEXT`. Each old text is one line or a piece
of one, and stands in its file once; the pairs apply one after another.
"""
from pathlib import Path
from typing import NamedTuple

SUFFIX = ".edit"


class Unusable(Exception):
    """Why an edit can't be tried."""


class Change(NamedTuple):
    """A text that replaces another one, in a file of the crate."""

    file: str
    old: str
    new: str


class Edit(NamedTuple):
    """A mutant, with its file's name, the function that it makes wrong, and its changes in their order."""

    name: str
    function: str
    changes: tuple


def read(file):
    """Reads an edit from its file."""
    function, path, old, changes = "", "", "", []
    for line in file.read_text().splitlines():
        kind, _, text = line.partition(":")
        text = text.removeprefix(" ")
        if kind == "function":
            function = text
        elif kind == "file":
            path = text
        elif kind == "old":
            old = text
        elif kind == "new" and path and old:
            changes.append(Change(path, old, text))
        elif line:
            raise Unusable(f"it can't be read at {line!r}")
    if not function or not changes:
        raise Unusable("it names no function, or changes nothing")
    return Edit(file.stem, function, tuple(changes))


def applied(edit, folder, texts):
    """Returns these texts of the crate in this folder, by their paths, with the edit applied to them."""
    changed = dict(texts)
    for change in edit.changes:
        if change.file not in changed:
            if not (folder / change.file).is_file():
                raise Unusable(f"there is no {change.file}")
            changed[change.file] = (folder / change.file).read_text()
        count = changed[change.file].count(change.old)
        if count != 1:
            raise Unusable(f"an old text stands {count} times in {change.file}")
        changed[change.file] = changed[change.file].replace(change.old, change.new)
    return changed


class Round(NamedTuple):
    """Edits of different functions that are tried at once, and the texts that they change, by their paths."""

    edits: list
    texts: dict


def rounds(edits, folder):
    """Divides the edits of the crate in this folder, which each apply alone, into as few rounds as come of themselves."""
    found = []
    for edit in edits:
        for place, (others, texts) in enumerate(found):
            if edit.function in [other.function for other in others]:
                continue
            try:
                found[place] = Round([*others, edit], applied(edit, folder, texts))
            except Unusable:
                # its text is another edit's too
                continue
            break
        else:
            found.append(Round([edit], applied(edit, folder, {})))
    return found


def of_crates(top):
    """Returns the files of the mutants below this folder, by crate."""
    folders = sorted(it for it in (top / "tests/wrong").iterdir() if it.is_dir())
    return {folder.name: sorted(folder.glob(f"*{SUFFIX}")) for folder in folders}
