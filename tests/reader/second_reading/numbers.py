"""The numbers of a table: whole numbers at a scale of two, and the limits past which an attempt stops."""
from __future__ import annotations

from dataclasses import dataclass

RAW_DIGITS = 32
"""Binary digits behind the point in the numbers of a program."""


class Stop(Exception):
    """A number left its range; the attempt that met it is over."""


def bits(number: int) -> int:
    """The number of binary digits of the size of a number; 0 has none."""
    return abs(number).bit_length()


def towards_zero(dividend: int, divisor: int) -> int:
    """The quotient without its fraction."""
    size = abs(dividend) // abs(divisor)
    return size if (dividend < 0) == (divisor < 0) else -size


def fits(number: int, digits: int) -> bool:
    """Whether a signed number of so many digits, its sign among them, can hold the number."""
    return -(1 << (digits - 1)) <= number < 1 << (digits - 1)


def in_128(number: int) -> int:
    """The number, where 128 bits hold it."""
    if not fits(number, 128):
        raise Stop
    return number


@dataclass(frozen=True)
class Numbers:
    """The scales, limits and tolerances of one arithmetic.

    Cells of the table, scaled terms, reduced costs and scaled duals have `cells` binary digits behind the point. Points, bounds and
    sides have `points` of them.
    """

    cells: int
    points: int
    cell_limit: int
    value_limit: int
    least_pivot: int
    tolerance: int
    noise: int
    inverse: int
    gap: int
    shift_limit: int

    def cell(self, number: int) -> int:
        """The number as a cell, where its size is below the limit of cells."""
        if abs(number) >= self.cell_limit:
            raise Stop
        return number

    def value(self, number: int) -> int:
        """The number as a point, a bound or a side, where its size is below the limit of these."""
        if abs(number) >= self.value_limit:
            raise Stop
        return number

    def down(self, total: int) -> int:
        """A sum of products with cells, brought back by the scale of cells and rounded to the nearest, halves upwards."""
        return (total + (1 << (self.cells - 1))) >> self.cells

    def shift(self, number: int, places: int) -> int:
        """The number times a power of two: rounded down where the power is negative, and within the limit where it is not.

        The limit is 128 bits with their sign in lean numbers. In wide ones the digits of the number and the places may be 250
        together at most.
        """
        if number == 0:
            return 0
        if places < 0:
            return number >> -places
        if self.shift_limit == 128:
            return in_128(number << places)
        if bits(number) + places > self.shift_limit:
            raise Stop
        return number << places

    @property
    def cell_shift(self) -> int:
        """By how many digits a cell is finer than a number of a program."""
        return self.cells - RAW_DIGITS

    @property
    def point_shift(self) -> int:
        """By how many digits a point is finer than a number of a program."""
        return self.points - RAW_DIGITS


LEAN = Numbers(
    cells=40, points=32, cell_limit=1 << 60, value_limit=1 << 55, least_pivot=1 << 24, tolerance=1 << 12, noise=1 << 16,
    inverse=56, gap=1 << 56, shift_limit=128,
)
"""Numbers of 64 bits, with sums of 128."""

WIDE = Numbers(
    cells=80, points=64, cell_limit=1 << 124, value_limit=1 << 110, least_pivot=1 << 40, tolerance=1 << 40, noise=0,
    inverse=124, gap=1 << 128, shift_limit=250,
)
"""Numbers of 128 bits, with sums of 256. No reduced cost counts as noise."""
