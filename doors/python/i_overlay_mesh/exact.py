"""Numbers as a caller has them, taken exactly."""

from __future__ import annotations

import math
import operator
from fractions import Fraction
from typing import Any, Optional, Union

from .errors import DrawingError

Number = Union[int, float, Fraction]

MOST_SPLITS = 2**64 - 1


def exact_ratio(value: Number) -> tuple[int, int]:
    """A number as a numerator over a denominator above 0."""
    return value.as_integer_ratio()


def read_number(where: str, what: str, value: Any) -> Number:
    """A finite number of any kind: an int or a float as it is, any other as a fraction."""
    if type(value) is int:
        return value
    if isinstance(value, float):
        if math.isfinite(value):
            return float(value)
        raise DrawingError(where, f"{what} is {value}, and has to be finite")
    try:
        return Fraction(*value.as_integer_ratio())
    except (ValueError, OverflowError):
        raise DrawingError(where, f"{what} is {value}, and has to be finite") from None
    except (AttributeError, TypeError):
        pass
    try:
        return operator.index(value)
    except TypeError:
        raise DrawingError(where, f"{what} is {value!r}, and has to be a number") from None


def read_most_splits(most_splits: Any) -> Optional[int]:
    """A limit on splits, if one is given."""
    if most_splits is None:
        return None
    number = read_number("", "most_splits", most_splits)
    if number != int(number) or not 0 <= number <= MOST_SPLITS:
        raise DrawingError("", f"most_splits is {most_splits}, and has to be a whole number from 0 to 2^64 - 1")
    return int(number)


def nearest_whole(value: Fraction) -> int:
    """The nearest whole number, a half away from zero."""
    size = (2 * abs(value.numerator) + value.denominator) // (2 * value.denominator)
    return size if value >= 0 else -size


def plain(value: Fraction) -> Number:
    """A number as a caller reads it: an int where it is whole, else a float, the nearest one."""
    return value.numerator if value.denominator == 1 else float(value)
