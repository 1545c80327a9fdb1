"""The letters of a query on sequences: open letters of nucleotides as classes, and letters that no record has."""
from __future__ import annotations

from typing import FrozenSet, Iterator, List, NamedTuple, Optional

from .. import sets
from ..reader import query_fault, read
from ..tree import Item, One, ones_of
from .cases import class_with

__all__ = ['Small', 'has_plain_t', 'open_letters', 'small_letter', 'with_iupac']

_BASES = frozenset(b'ACGT')
# What a letter means; U is the T of RNA.
_MEANS = {ord(letter): frozenset(of) for letter, of in (
    (b'R', b'AG'), (b'Y', b'CT'), (b'S', b'CG'), (b'W', b'AT'), (b'K', b'GT'), (b'M', b'AC'), (b'B', b'CGT'),
    (b'D', b'AGT'), (b'H', b'ACT'), (b'V', b'ACG'), (b'N', b'ACGT'))}
_PLAIN = {**{base: frozenset((base,)) for base in _BASES}, ord('U'): frozenset(b'T')}
_ALL_MEAN = {**_MEANS, **_PLAIN}


# -- Open letters

def _fitting(means: FrozenSet[int]) -> FrozenSet[int]:
    """The letters that mean no more than these bases."""
    return frozenset(letter for letter, of in _ALL_MEAN.items() if of <= means)


def _touching(means: FrozenSet[int]) -> FrozenSet[int]:
    """The letters that may be one of these bases."""
    return frozenset(letter for letter, of in _ALL_MEAN.items() if of & means)


def _has(one: One) -> FrozenSet[int]:
    """The bytes of ASCII that a class names."""
    named = [sets.WORD if item.name in (b'L', b'Lu', b'Alphabetic') else item.ranges() for item in one.items]
    return sets.members(sets.shared(sets.united(found for part in named for found in part), ((0, 127),)))


def _meant(one: One) -> FrozenSet[int]:
    """The bases that the letters of a class mean."""
    return frozenset().union(*(_ALL_MEAN[letter] for letter in _has(one) if letter in _ALL_MEAN))


def _opens(one: One) -> FrozenSet[int]:
    return frozenset(item.low for item in one.items if len(item.text) == 1 and item.low in _MEANS)


def _is_cut(one: One) -> Optional[Item]:
    """A range with some open letters in a class that has not all bases, of which nobody knows what it means."""
    if _BASES <= _has(one):
        return None
    return next((item for item in one.items if item.low < item.high and any(item.low <= letter <= item.high for letter in _MEANS)), None)


def _class_of(one: One, query: bytes) -> bytes:
    """A class with what its open letters mean; of one that is negated everything that may be it is left out."""
    cut = _is_cut(one)
    if cut is not None:
        raise query_fault('unexpected', query, cut.start, f'with --iupac a range of letters is all of them or none: list those of {cut.text.decode()} that '
                          'are meant')
    if not _opens(one) or _BASES <= _has(one):
        return one.text
    more = (_touching if one.is_negated else _fitting)(_meant(one)) - _has(one)
    return class_with(one, bytes(sorted(more)))


def _ones(text: bytes) -> Iterator[One]:
    return (one for atom in read(text).atoms for one in ones_of(atom.formula))


def with_iupac(text: bytes) -> bytes:
    r"""The query with each open letter of nucleotides in it, as N or R, as the letters that it means, also within classes.

    A letter of the query fits what means no more than it does, where U means what T means; a negated class fits nothing that
    may be one of its letters. A class without an open letter, or with all bases, stays as it is. `QueryError` for a range that
    has some open letters and not all bases.

    >>> with_iupac(b'/!N{GRC[YG]}[^R]/')
    b'/!N{G[AGR]C[BCKSTUYG]}[^ABDGHKMNSVWR]/'
    >>> with_iupac(b'/[-R][ST]/')
    b'/[AG\\-R][BCGKUYST]/'
    """
    made, end = b'', 0
    for one in _ones(text):
        changed = one.text
        if one.kind == 'literal' and one.number in _MEANS:
            changed = b'[' + bytes(sorted(_fitting(_MEANS[one.number]))) + b']'
        elif one.kind == 'class':
            changed = _class_of(one, text)
        made += text[end:one.start] + changed
        end = one.end
    return made + text[end:]


def open_letters(text: bytes) -> bytes:
    """The open letters of nucleotides that stand in a query as plain letters, and in no class that has all bases.

    >>> open_letters(b'/GGNCC!R{[ACGTK][Y]}/ join /TATA/')
    b'NY'
    """
    found = set()
    for one in _ones(text):
        if one.kind == 'literal' and one.number in _MEANS:
            found.add(one.number)
        elif one.kind == 'class' and not _BASES <= _has(one):
            found |= {letter for letter in _opens(one) if not _MEANS[letter] <= _has(one)}
    return bytes(sorted(found))


def has_plain_t(text: bytes) -> bool:
    """Whether a query asks somewhere for a T and not for a U.

    >>> has_plain_t(b'/!x{TATA}/'), has_plain_t(b'/!x{[TU]A.}/')
    (True, False)
    """
    return any(ord('T') in _has(one) and ord('U') not in _has(one) and not one.is_negated for one in _ones(text) if one.kind != 'dot')


# -- Small letters

class Small(NamedTuple):
    """A part of a query that small letters alone would fit: its place, and what is meant."""

    offset: int
    meant: str


def small_letter(text: bytes) -> Optional[Small]:
    """The first small letter of a query that is there without its capital, and what to write; None where there is none.

    Letters of records are raised, so that such a letter fits nothing.

    >>> small_letter(b'/!x{GATC[gA]}/'), small_letter(rb'/!x{[Aa]\\w\\n}/')
    (Small(offset=9, meant='G'), None)
    """
    ones = list(_ones(text))
    for k, one in enumerate(ones):
        if 97 <= one.number <= 122:
            run = _run_of_letters(ones[k:])
            return Small(one.start, run.upper())
        found = _small_of_class(one) if one.kind == 'class' and not one.is_negated else None
        if found is not None:
            return found
    return None


def _run_of_letters(ones: List[One]) -> str:
    """The letters that follow each other at the beginning, without a sign between them."""
    run = ''
    for one, before in zip(ones, [None, *ones]):
        if not (65 <= one.number <= 90 or 97 <= one.number <= 122) or (before is not None and before.end != one.start):
            break
        run += chr(one.number)
    return run


def _small_of_class(one: One) -> Optional[Small]:
    has = _has(one)
    for item in one.items:
        for byte in range(max(item.low, 97), min(item.high, 122) + 1):
            if byte - 32 not in has:
                return Small(item.start, item.text.decode('utf-8', 'replace').upper())
    return None
