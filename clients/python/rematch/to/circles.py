"""Records that are circles, as plasmids are: a site may go over the end of its record, on to the beginning."""
from __future__ import annotations

from typing import Any, Dict, Iterable, Iterator, List, Optional, Tuple

from ..bounds import NoReach, length_of_printed
from ..faults import QueryError
from ..match import Row
from ..query import Query
from .merged import order_of

__all__ = ['Circles', 'blocks_of', 'longest_fit']

Span = Tuple[int, int]


def longest_fit(query: Query) -> int:
    """The most letters that a fit has; `QueryError` where there is no such number."""
    try:
        return length_of_printed(query.printed.encode())
    except NoReach as reason:
        fault = QueryError(f'query: {reason}, and --circular needs the length of a fit', 4, query.text)
        fault.hint = 'give each repeat an end, as in [ACGT]{0,1000}'
        raise fault from None


class Circles:
    """Records as circles: each is opened, with some of its letters once more, and sites in it are brought to places of the circle.

    A place of a span counts from 0 up to the length of the record; the end of a span that goes over the end of the record is
    greater than that length.
    """

    def __init__(self, query: Query, strand: str) -> None:
        self._more = max(longest_fit(query) - 1, 0)
        self._is_other = strand == '-'
        self._records: Dict[int, Tuple[Any, int]] = {}  # each, and where it begins in what was searched

    def opened(self, record: Any) -> Any:
        """The record with its first letters once more behind it; for the other strand with its last ones before it."""
        letters = record.letters
        more = min(self._more, max(len(letters) - 1, 0))
        self._records[record.number] = record, more if self._is_other else 0
        before = letters[len(letters) - more:] if self._is_other else b''
        return record._replace(letters=bytes(before) + bytes(letters) + (b'' if self._is_other else bytes(letters[:more])))

    def closed(self, found: Iterable[Optional[Any]]) -> Iterator[Optional[Any]]:
        """The sites of records that were opened, each once, by record and place; all are held."""
        sites: Dict[Tuple[Any, ...], Any] = {}
        for site in found:
            if site is None:
                yield None
                continue
            record, begins = self._records[site.record.number]
            row = _turned(site.row, begins, len(record.letters))
            if row is not None:
                sites.setdefault((record.number, row, site.pattern), site._replace(record=record, row=row))
        self._records.clear()
        yield from (sites[key] for key in sorted(sites, key=lambda key: (key[0], order_of(key[1]), key[2])))


def _turned(row: Row, begins: int, length: int) -> Optional[Row]:
    """The row at places of the circle; None where it covers more than all of it.

    >>> _turned((5, 7, -1, -1, 4, 6), 2, 4), _turned((0, 5), 0, 4)
    ((3, 5, -1, -1, 2, 4), None)
    """
    places = [place for place in row if place >= 0]
    if max(places) - min(places) > length:
        return None
    made: List[int] = []
    for start, end in zip(row[::2], row[1::2]):
        first = (start - begins) % length if start >= 0 and length else start
        made += (first, first + end - start)
    return tuple(made)


def blocks_of(spans: Iterable[Span], length: int) -> List[Span]:
    """The spans of a circle as blocks of a line, from left to right; one that goes over the end is two.

    >>> blocks_of([(2, 3), (5, 8)], 6)
    [(0, 2), (2, 3), (5, 6)]
    """
    found: List[Span] = []
    for start, end in spans:
        found += [(start, end)] if end <= length else [(start, length), (0, end - length)]
    return sorted(found)
