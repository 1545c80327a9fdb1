r"""What the rows of a document say of the query: ends that are open, and texts that end with `\r` or at an escaped quote."""
from __future__ import annotations

from collections import defaultdict
from typing import DefaultDict, Iterator, List, NamedTuple, Sequence, Set

from ..match import Row

__all__ = ['MOST_SEEN', 'doubts_of_rows']

MOST_SEEN = 20_000
"""How many rows of a document are looked at."""
_LEAST = 2  # places with several rows, of which one may be on purpose
_SHOWN = 3
_INSIDE_TOKENS = b'._:/@-'  # what numbers, addresses, paths and names have between their letters


class _Side(NamedTuple):
    """Of each place where spans of a variable begin (or end), where they end (or begin)."""

    name: str
    others: DefaultDict[int, Set[int]]
    are_ends: bool

    def doubt(self, data: bytes) -> Iterator[str]:
        """One sentence, where half of the places have spans that differ within a token."""
        places = [(place, others) for place, others in self.others.items() if len(others) > 1 and _is_token(data[min(others):max(others)])]
        if len(places) < _LEAST or 2 * len(places) < len(self.others):
            return
        place, others = places[0]
        chosen = sorted(others)[:_SHOWN] if self.are_ends else sorted(others, reverse=True)[:_SHOWN]
        texts = [data[place:other] if self.are_ends else data[other:place] for other in chosen]
        shown = ', '.join(text.decode('utf-8', 'replace') or '(nothing)' for text in texts)
        how, side = ('begin alike and end apart', 'after') if self.are_ends else ('end alike and begin apart', 'before')
        yield (f'of {self.name}, {len(places):,} of {len(self.others):,} places have rows that {how}, as {shown}: say what comes {side} it')


def _is_token(text: bytes) -> bool:
    """Whether it is within one word, number, address or path."""
    return text.translate(None, _INSIDE_TOKENS).isalnum()


def doubts_of_rows(names: Sequence[str], rows: Sequence[Row], data: bytes) -> List[str]:
    r"""What a reader of the rows may not expect, a sentence each.

    >>> rows = [(2, 3), (2, 4), (7, 8), (7, 9)]
    >>> doubts_of_rows(['s'], rows, b's=20 s=37 ')
    ['of s, 2 of 2 places have rows that begin alike and end apart, as 2, 20: say what comes after it']
    >>> doubts_of_rows(['x'], [(0, 2)], b'a\r\n')
    ['1 text of x ends with a carriage return, since lines end with \\r\\n: leave \\r out, as in [^\\r\\n]']
    """
    told: List[str] = []
    for at, name in enumerate(names):
        spans = {(row[2 * at], row[2 * at + 1]) for row in rows if row[2 * at] >= 0}
        ends, starts = (_Side(name, defaultdict(set), are_ends) for are_ends in (True, False))
        for start, end in spans:
            ends.others[start].add(end)
            starts.others[end].add(start)
        told += [*ends.doubt(data), *starts.doubt(data)]
        last = [data[end - 1:end + 1] for start, end in spans if start < end]
        told += _of_last(name, last.count(b'\r\n'), last.count(b'\\"'))
    return told


def _of_last(name: str, returns: int, quotes: int) -> Iterator[str]:
    """What is told of texts by how they end: of so many before a line feed, and of so many before an escaped quote."""
    if returns:
        yield (f'{returns:,} {"text" if returns == 1 else "texts"} of {name} {"ends" if returns == 1 else "end"} with a carriage return, since lines end with '
               r'\r\n: leave \r out, as in [^\r\n]')
    if quotes:
        yield (f'{quotes:,} {"text" if quotes == 1 else "texts"} of {name} {"ends" if quotes == 1 else "end"} before an escaped quote, \\": write what is '
               r'between quotes as ([^"\\]|\\.)*')
