"""02, item 6: the energy book, the words of its columns, and 16 and 17, which a book is refused with."""

from dataclasses import dataclass

from .ranges import all_in, refuse

COLUMNS = range(-(2**120), 2**120 + 1)  # both ends included
LARGEST_COUNT = 2**32 - 1


@dataclass(frozen=True)
class Book:
    """The columns are whole numbers; the product has each in two words."""

    stored: int
    work: int
    loss: int
    rounding: int
    count: int  # of accepted steps

    @property
    def columns(self):
        return self.stored, self.work, self.loss, self.rounding


def fresh_book(stored):
    """The book of a fresh start: its stored energy, and zeros."""
    return Book(stored, 0, 0, 0, 0)


def words(column):
    """The high and the low word of a column: 64 bits each, two's complement."""
    return divmod(column % 2**128, 2**64)


def column_of(high, low):
    """The column that has these words."""
    bits = high * 2**64 + low
    return bits if bits < 2**127 else bits - 2**128


def check_count(book):
    """16."""
    refuse(16, book.count == LARGEST_COUNT)


def check_columns(book):
    """17 for the columns passed in; what is booked may lead beyond."""
    refuse(17, not all_in(book.columns, COLUMNS))
