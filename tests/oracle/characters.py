"""Sets of characters, as ranges of their numbers, and what the names of properties mean.

A character is a number from 0 to 10FFFF that is none of D800 to DFFF. A set is a tuple of pairs of a first and a
last number, which ascend and between which a number is missing.

Python's tables of Unicode are older than those of the program, and do not know `Alphabetic`: what is made here of
a letter, a mark or a number is theirs. So a test asks only about letters and digits that both have had for
long, and never for the printed form of a property.
"""
import functools
import unicodedata

LAST_BYTE = 0xff
LAST_CHARACTER = 0x10ffff
BYTES = ((0, LAST_BYTE),)
CHARACTERS = ((0, 0xd7ff), (0xe000, LAST_CHARACTER))
CATEGORIES = ('Lu Ll Lt Lm Lo Mn Mc Me Nd Nl No Pc Pd Ps Pe Pi Pf Po Sm Sc Sk So Zs Zl Zp Cc Cf Co Cn').split()
GROUPS = 'LMNPSZC'


def united(ranges):
    """The set of what is in some range."""
    made = []
    for low, high in sorted(ranges):
        if made and low <= made[-1][1] + 1:
            made[-1][1] = max(made[-1][1], high)
        else:
            made.append([low, high])
    return tuple(map(tuple, made))


def shared(a, b):
    """What is in both sets."""
    return united((max(x[0], y[0]), min(x[1], y[1])) for x in a for y in b if max(x[0], y[0]) <= min(x[1], y[1]))


def others(whole, a):
    """What is in the whole and not in the set."""
    gaps, at = [], 0
    for low, high in a:
        if at < low:
            gaps.append((at, low - 1))
        at = high + 1
    if at <= whole[-1][1]:
        gaps.append((at, whole[-1][1]))
    return shared(whole, gaps)


def numbers(ranges):
    return frozenset(n for low, high in ranges for n in range(low, high + 1))


def ranges_of(some):
    return united((n, n) for n in some)


def is_alphabetic(c):
    return unicodedata.category(c)[0] == 'L' or unicodedata.category(c) == 'Nl'


@functools.lru_cache(maxsize=None)
def property_set(name):
    """The characters of a property, or None where it has none of the names."""
    if name == 'Alphabetic':
        has = is_alphabetic
    elif name in CATEGORIES:
        def has(c):
            return unicodedata.category(c) == name
    elif len(name) == 1 and name in GROUPS:
        def has(c):
            return unicodedata.category(c)[0] == name
    else:
        return None
    return ranges_of(n for low, high in CHARACTERS for n in range(low, high + 1) if has(chr(n)))
