"""Decimal sides as whole numbers: chooses the unit of a dimension, and names any rounding.

Where the finest decimal needs more than 1,000,000 units,
the unit is coarser: boxes and kerfs are rounded up and the container down. What fits the rounded
sides fits the real ones; a refutation then speaks of the rounded sides alone.
"""
from dataclasses import dataclass
from decimal import ROUND_CEILING, ROUND_FLOOR, Decimal, InvalidOperation
from math import gcd

from .errors import QuestionRefused
from .instance import MAX_KERF, MAX_SIDE

MAX_POWER = 15


def to_decimal(number, what):
    """A positive finite decimal of an int, a float, a Decimal or a string."""
    try:
        value = Decimal(str(number).strip())
    except InvalidOperation:
        value = None
    if value is None or not value.is_finite():
        raise QuestionRefused(f"{what} is {number!r}, which isn't a number", "write it as 60.5")
    if value and abs(value.adjusted()) > MAX_POWER:
        raise QuestionRefused(f"{what} is {number!r}, which is out of range", "choose another unit")
    return value


def plain(value):
    """An int where the decimal is whole, else the decimal without trailing zeros."""
    value = Decimal(value)
    return int(value) if value == value.to_integral_value() else value.normalize()


def units_in(value, unit, rounding):
    """How many units a length is, rounded in this way."""
    return int((value / unit).to_integral_value(rounding=rounding))


@dataclass(frozen=True)
class Scale:
    """The unit of one dimension, in the user's unit, and whether sides were rounded to it."""

    unit: Decimal
    is_rounded: bool

    def up(self, value):
        """The least whole number of units that covers a length."""
        return units_in(value, self.unit, ROUND_CEILING)

    def down(self, value):
        """The greatest whole number of units within a length."""
        return units_in(value, self.unit, ROUND_FLOOR)

    def back(self, number):
        """A whole number of units in the user's unit."""
        return plain(number * self.unit)


def places_of(value):
    """The number of decimal places that a value needs."""
    return max(0, -value.normalize().as_tuple().exponent)


def choose_scale(lengths, sides, kerf):
    """The scale of one dimension: `lengths` of boxes, `sides` of containers (may be none), the kerf."""
    known = [*lengths, *sides, kerf]
    unit = Decimal(1).scaleb(-max(map(places_of, known)))
    if fits_range(unit, lengths, sides, kerf):
        return Scale(Decimal(plain(unit)), False)
    common = 0
    for it in known:
        common = gcd(common, int(it / unit))
    if fits_range(unit * common, lengths, sides, kerf):
        return Scale(Decimal(plain(unit * common)), False)
    while not fits_range(unit, lengths, sides, kerf):
        unit *= 10
    return Scale(Decimal(plain(unit)), True)


def fits_range(unit, lengths, sides, kerf):
    """Whether all numbers of a dimension are in range with this unit."""
    kerf_units = units_in(kerf, unit, ROUND_CEILING)
    longest = max(units_in(it, unit, ROUND_CEILING) for it in lengths)
    side = max((units_in(it, unit, ROUND_FLOOR) for it in sides), default=0)
    return kerf_units <= MAX_KERF and max(longest, side) + kerf_units <= MAX_SIDE
