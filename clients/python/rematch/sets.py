"""Sets of bytes and of characters, as ranges of their numbers that ascend and do not touch."""
from __future__ import annotations

from typing import FrozenSet, Iterable, List, Tuple

__all__ = ['ALL_PROPERTIES', 'BYTES', 'CHARACTERS', 'DIGITS', 'GROUPS', 'LINE_FEED', 'NAMED', 'Ranges', 'WORD', 'members', 'others', 'ranges_of',
           'shared', 'united']

Ranges = Tuple[Tuple[int, int], ...]

BYTES: Ranges = ((0, 0xff),)
CHARACTERS: Ranges = ((0, 0xd7ff), (0xe000, 0x10ffff))
LINE_FEED: Ranges = ((10, 10),)
DIGITS: Ranges = ((0x30, 0x39),)
WORD: Ranges = ((0x30, 0x39), (0x41, 0x5a), (0x5f, 0x5f), (0x61, 0x7a))
NAMED = {b'd': DIGITS, b'w': WORD, b's': ((9, 13), (32, 32))}

GROUPS = frozenset((b'L', b'M', b'N', b'P', b'S', b'Z', b'C'))
"""The groups of general categories: together they have each character."""
ALL_PROPERTIES = GROUPS | frozenset(b'Alphabetic Lu Ll Lt Lm Lo Mn Mc Me Nd Nl No Pc Pd Ps Pe Pi Pf Po Sm Sc Sk So Zs Zl Zp Cc Cf Co Cn'.split())


def united(ranges: Iterable[Tuple[int, int]]) -> Ranges:
    """The set of what is in some range.

    >>> united([(5, 6), (1, 2), (3, 3)])
    ((1, 3), (5, 6))
    """
    made: List[List[int]] = []
    for low, high in sorted(ranges):
        if made and low <= made[-1][1] + 1:
            made[-1][1] = max(made[-1][1], high)
        else:
            made.append([low, high])
    return tuple((low, high) for low, high in made)


def shared(one: Ranges, other: Ranges) -> Ranges:
    """What both sets have.

    >>> shared(((1, 3), (5, 9)), ((2, 6),))
    ((2, 3), (5, 6))
    """
    found, k, n = [], 0, 0
    while k < len(one) and n < len(other):
        low, high = max(one[k][0], other[n][0]), min(one[k][1], other[n][1])
        if low <= high:
            found.append((low, high))
        if one[k][1] < other[n][1]:
            k += 1
        else:
            n += 1
    return tuple(found)


def others(whole: Ranges, some: Ranges) -> Ranges:
    """What the whole has and the set has not.

    >>> others(((0, 9),), ((0, 3), (5, 5)))
    ((4, 4), (6, 9))
    """
    gaps, at = [], 0
    for low, high in some:
        gaps.append((at, low - 1))
        at = high + 1
    return shared(whole, tuple((low, high) for low, high in [*gaps, (at, whole[-1][1])] if low <= high))


def members(some: Ranges) -> FrozenSet[int]:
    """The numbers of a set."""
    return frozenset(number for low, high in some for number in range(low, high + 1))


def ranges_of(numbers: Iterable[int]) -> Ranges:
    """The set of these numbers."""
    return united((number, number) for number in numbers)
