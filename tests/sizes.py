"""The sizes of the grid and of lines, and lines that fill the grid."""
COLUMNS = 104
LONGEST_LINE = 262_208
LONGEST_DELTA = 262_144
LARGEST_TABLE = 68_157_440


def name(column, row):
    """The name of the cell in this column, from 0 on, and this row."""
    first = "" if column < 26 else chr(ord("A") + column // 26 - 1)
    return f"{first}{chr(ord('A') + column % 26)}{row}"


def pushes(content_of, rows):
    """Lines that give each cell of these rows the content that is given for its column and row; a line for each row."""
    for row in rows:
        cells = (f'["{name(column, row)}",[1,2,"{content_of(column, row)}"],[],[]]' for column in range(COLUMNS))
        yield f"push [{','.join(cells)}]"
