"""The table of settled values that is written for a table of entries ("Tables")."""
from program import Ended
from sizes import COLUMNS, LARGEST_TABLE

from . import contents
from .contents import Refusal
from .model import Sheet
from .places import ROWS
from .records import records_of, written_record


def fault_of(row, column, entry):
    """Why this field of this record is refused, or nothing."""
    if row >= ROWS or column >= COLUMNS:
        return contents.NO_CSV
    content = contents.read_entry(entry)
    return content if entry and isinstance(content, Refusal) else None


def shown(records, sheet):
    """The table of what these entries show on the sheet, record by record."""
    for row, fields in enumerate(records):
        for column, entry in enumerate(fields):
            if entry:
                sheet.assign(row * COLUMNS + column, contents.read_entry(entry))
    width = max(map(len, records), default=0)
    for row in range(len(records)):
        cells = range(row * COLUMNS, row * COLUMNS + width)
        yield written_record([contents.shown_text(sheet.value(cell)) for cell in cells]) + b"\n"


def ended(table, kind=Sheet):
    """How the program ends that is given this table, on a sheet of this kind."""
    if len(table) > LARGEST_TABLE:
        return Ended(3, b"", contents.NO_CSV + b"\n")
    records = records_of(table)
    for row, fields in enumerate(records):
        for column, entry in enumerate(fields):
            if (fault := fault_of(row, column, entry)) is not None:
                return Ended(3, b"", fault + b"\n")
    return Ended(0, b"".join(shown(records, kind())))
