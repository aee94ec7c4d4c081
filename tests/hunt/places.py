"""The names of cells, and rectangles of cells ("Names of cells").

A cell is its number in order: row by row, each row from column A on.
"""
import functools
from typing import NamedTuple

from sizes import COLUMNS, name

ROWS = 1024
NAMES = [name(column, row).encode() for row in range(1, ROWS + 1) for column in range(COLUMNS)]
CELL_OF = {text: cell for cell, text in enumerate(NAMES)}
# So many cells of a rectangle are listed; of a larger one those are sought that hold anything.
FEW = 512


class Rectangle(NamedTuple):
    """The cells from a column to another, and from a row to another, all of them from 0 on and inside."""

    left: int
    top: int
    right: int
    bottom: int

    def holds(self, cell):
        """Whether the cell lies inside."""
        row, column = divmod(cell, COLUMNS)
        return self.top <= row <= self.bottom and self.left <= column <= self.right

    def size(self):
        """How many cells it has."""
        return (self.right - self.left + 1) * (self.bottom - self.top + 1)

    def rows(self):
        """Its rows from above, each of them its cells in order."""
        for row in range(self.top * COLUMNS, (self.bottom + 1) * COLUMNS, COLUMNS):
            yield range(row + self.left, row + self.right + 1)

    def corners(self):
        """The cells at the top left and the bottom right."""
        return self.top * COLUMNS + self.left, self.bottom * COLUMNS + self.right


@functools.lru_cache(maxsize=1 << 16)
def spanned(one, other):
    """The smallest rectangle with both cells."""
    (row, column), (other_row, other_column) = divmod(one, COLUMNS), divmod(other, COLUMNS)
    return Rectangle(min(column, other_column), min(row, other_row), max(column, other_column), max(row, other_row))


@functools.lru_cache(maxsize=1 << 12)
def cells_of_few(rectangle):
    """The cells of a small rectangle, in order."""
    return [cell for row in rectangle.rows() for cell in row]


def cells_in(rectangle, held):
    """The cells of the rectangle in order; of a large one only those of `held`, the cells that hold anything."""
    if rectangle.size() <= FEW:
        return cells_of_few(rectangle)
    return sorted(filter(rectangle.holds, held))
