"""A word with mismatches, as `~1{TATAAT}`: a formula of what has its length and differs from it in so many places at most."""
from __future__ import annotations

from functools import lru_cache
from typing import NamedTuple, Sequence

__all__ = ['MOST_UNITS', 'Unit', 'units_written', 'with_mismatches']

MOST_UNITS = 10_000
"""The most signs and classes that a word with mismatches is written out to."""


class Unit(NamedTuple):
    """What one place of a word fits, and whether that may be a line feed, which no dot fits."""

    text: bytes
    fits_line_feed: bool


@lru_cache(maxsize=None)
def units_written(length: int, most: int) -> int:
    """To how many units a word of this length is written out.

    >>> units_written(6, 1), units_written(40, 6)
    (22, 10272)
    """
    if not most or most >= length:
        return length
    half = length // 2
    return sum(units_written(half, left) + units_written(length - half, most - left)
               for left in range(most + 1) if left <= half and most - left <= length - half)


def with_mismatches(units: Sequence[Unit], most: int) -> bytes:
    r"""The formula of all that differs from a word in so many places at most; a place that differs is no line feed.

    >>> with_mismatches([Unit(b'a', False), Unit(b'b', False), Unit(b'c', False)], 1)
    b'(a(b.|.c)|.bc)'
    >>> with_mismatches([Unit(b'a', False), Unit(rb'\n', True)], 2)
    b'.(.|\\n)'
    """
    if not most:
        return b''.join(unit.text for unit in units)
    if most >= len(units):
        return b''.join(b'(.|%s)' % unit.text if unit.fits_line_feed else b'.' for unit in units)
    half = len(units) // 2
    arms = [with_mismatches(units[:half], left) + with_mismatches(units[half:], most - left)
            for left in range(most + 1) if left <= half and most - left <= len(units) - half]
    return b'(' + b'|'.join(arms) + b')'
