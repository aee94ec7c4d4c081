"""Entries, contents and what they show ("Refusals", "Entries", "Canonical contents", "Shown values").

A content is a tuple of its kind and what it holds, so contents are in order as tuples are. The kinds are blank, number,
text, formula, tally and choice. Texts go by their bytes, and formulas by the bytes of their canonical texts.
"""
import functools
import re

from .formulas import read_formula
from .functions import LEAST, MOST

BLANK, TALLY, CHOICE = (0,), (4,), (5,)
NUMBER, TEXT, FORMULA = 1, 2, 3
LONGEST_ENTRY, LONGEST_FORMULA, LONGEST_TEXT = 512, 256, 64
DIGITS = re.compile(rb"[+-]?[0-9]+")
PRINTED = re.compile(r"[^\0-\x1f\x7f]+")
REFUSALS = (
    "cell", "text", "formula", "too-long", "not-tally", "not-choice", "amount", "option", "replica", "tally-full",
    "choice-full", "not-chosen", "clock-full", "delta", "line", "command", "version", "csv", "memory", "device", "seat",
)


class Refusal(bytes):
    """A refusal, which is its reply."""


def refusal(name):
    """The refusal with this name."""
    return Refusal(b"err %d %s" % (REFUSALS.index(name) + 1, name.encode()))


NO_CELL, NO_TEXT, NO_FORMULA, TOO_LONG = map(refusal, ("cell", "text", "formula", "too-long"))
NOT_TALLY, NOT_CHOICE, AMOUNT, OPTION = map(refusal, ("not-tally", "not-choice", "amount", "option"))
TALLY_FULL, CHOICE_FULL, NOT_CHOSEN = map(refusal, ("tally-full", "choice-full", "not-chosen"))
CLOCK_FULL, NO_DELTA, NO_LINE = map(refusal, ("clock-full", "delta", "line"))
NO_COMMAND, NO_VERSION, NO_CSV, NO_REPLICA = map(refusal, ("command", "version", "csv", "replica"))


def read_label(text):
    """The content that is this text."""
    try:
        is_label = len(text) <= LONGEST_TEXT and PRINTED.fullmatch(text.decode())
    except UnicodeDecodeError:
        is_label = False
    return (TEXT, text) if is_label else NO_TEXT


@functools.lru_cache(maxsize=1 << 16)
def read_entry(entry):
    """The content of an entry, or why it is refused."""
    if len(entry) > LONGEST_ENTRY:
        return TOO_LONG
    if not entry:
        return BLANK
    # (such a number has at most 512 digits)
    if DIGITS.fullmatch(entry) and LEAST <= int(entry) <= MOST:
        return NUMBER, int(entry)
    if entry.startswith((b"=", b"of:=")):
        formula = read_formula(entry)
        if formula is None:
            return NO_FORMULA
        return (FORMULA, formula.text) if len(formula.text) <= LONGEST_FORMULA else TOO_LONG
    if entry in (b"@tally", b"@choice"):
        return TALLY if entry == b"@tally" else CHOICE
    return read_label(entry.removeprefix(b"'"))


def canonical_text(content):
    """The canonical text of a content."""
    kind, *held = content
    if kind == NUMBER:
        return b"%d" % held[0]
    if kind == TEXT:
        return b"'" + held[0]
    return held[0] if kind == FORMULA else {BLANK: b"", TALLY: b"@tally", CHOICE: b"@choice"}[content]


@functools.lru_cache(maxsize=1 << 16)
def read_canonical(text):
    """The content with this canonical text, or nothing."""
    content = read_entry(text)
    return None if isinstance(content, Refusal) or canonical_text(content) != text else content


def shown_text(value):
    """What a cell with this value shows: nothing, a number, a text, the options of a choice, or a fault."""
    if value is None:
        return b""
    if type(value) is bytes:
        return value
    if type(value) is tuple:
        return b"{%s}" % b",".join(b"%d" % option for option in value)
    return str(value).encode()
