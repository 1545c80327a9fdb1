"""Whole lines that a row touches."""
from __future__ import annotations

from typing import Iterable, Iterator, List, NamedTuple, Optional, Tuple

from ..match import Row
from .packed import Given
from .tables import coloured, extent_of

__all__ = ['Shown', 'count_lines', 'shown_lines']

_Span = Tuple[int, int]
_BLOCK = 1 << 20


class _Touched(NamedTuple):
    """Lines that rows touch together, in bytes: from the start of the first to the end of the last, and the spans in them."""

    start: int
    end: int
    spans: List[_Span]


def _touched(data: bytes, rows: Iterable[Row], *, keep: bool = False) -> Iterator[_Touched]:
    """The lines of rows, which come by their first place, put together where they share one; with ``keep`` with their spans."""
    held: Optional[_Touched] = None
    for row in rows:
        extent = extent_of(row)
        if extent is None:
            continue
        if held is not None and extent[0] < held.end:
            if extent[1] > held.end:
                held = held._replace(end=_line_end(data, extent))
        else:
            start = data.rfind(b'\n', 0, extent[0]) + 1
            if start == len(data):
                continue  # behind the last line feed is no line
            if held is None or start >= held.end:  # else at the end of a last line without a line feed
                if held is not None:
                    yield held
                held = _Touched(start, _line_end(data, extent), [])
        if keep:
            held.spans.extend(zip(row[::2], row[1::2]))
    if held is not None:
        yield held


def _line_end(data: bytes, extent: _Span) -> int:
    """The end of the last line of an extent, behind its line feed; a line feed at the extent's end belongs to the line before."""
    end = data.find(b'\n', max(extent[0], extent[1] - 1))
    return len(data) if end < 0 else end + 1


def count_lines(given: Given, rows: Iterable[Row]) -> int:
    """How many lines of a document rows touch.

    >>> from rematch import Document, Query
    >>> given = Given('d', Document(b'aa\\nb\\na'))
    >>> count_lines(given, given.rows(Query('/!x{a}/')))
    2
    """
    data: bytes = given.data
    return sum(len(list(_lines(data, part.start, part.end))) for part in _touched(data, rows))


def _lines(data: bytes, start: int, end: int) -> Iterator[_Span]:
    """The lines from one place to another, both at line ends."""
    while start < end:
        stop = data.find(b'\n', start, end)
        stop = end if stop < 0 else stop + 1
        yield start, stop
        start = stop


class Shown(NamedTuple):
    """A line that is shown: its number from 1, its place, whether a row touches it, its spans, whether lines are left out before."""

    number: int
    start: int
    end: int
    is_touched: bool
    spans: List[_Span]
    is_behind_a_gap: bool

    def text(self, data: bytes, *, is_coloured: bool) -> str:
        """The line without its line feed; bytes that are no text stay what they are, by surrogates."""
        end = self.end - 1 if data[self.end - 1:self.end] == b'\n' else self.end
        made, at = '', self.start
        for start, stop in _joined(self.spans) if is_coloured else ():
            start, stop = max(start, at), min(stop, end)
            if start < stop:
                made += _text(data[at:start]) + coloured(_text(data[start:stop]))
                at = stop
        return made + _text(data[at:end])


def _text(part: bytes) -> str:
    return part.decode('utf-8', 'surrogateescape')


def _joined(spans: List[_Span]) -> List[_Span]:
    found: List[_Span] = []
    for start, end in sorted(span for span in spans if 0 <= span[0] < span[1]):
        if found and start <= found[-1][1]:
            found[-1] = (found[-1][0], max(found[-1][1], end))
        else:
            found.append((start, end))
    return found


def _feeds(data: bytes, start: int, end: int) -> int:
    """How many line feeds stand from one place to another."""
    return sum(data[at:min(end, at + _BLOCK)].count(b'\n') for at in range(start, end, _BLOCK))


def shown_lines(given: Given, rows: Iterable[Row], around: int = 0, *, others: bool = False,
                keep: bool = False) -> Iterator[Shown]:
    """The lines that rows touch, with so many lines around them; with ``others`` the lines that none touches.

    With ``keep`` they have the spans of the rows.

    >>> from rematch import Document, Query
    >>> given = Given('d', Document(b'one\\ntwo\\nthree\\nfour\\n'))
    >>> [(line.number, line.is_touched) for line in shown_lines(given, given.rows(Query('/!x{w}/')), 1)]
    [(1, False), (2, True), (3, False)]
    >>> [line.number for line in shown_lines(given, given.rows(Query('/!x{w}/')), others=True)]
    [1, 3, 4]
    """
    data: bytes = given.data
    wanted = _gaps(data, _touched(data, rows)) if others else _touched(data, rows, keep=keep)
    number, shown_to = 1, 0  # of the line that begins at shown_to
    for part, behind in _with_next(wanted):
        first = _back(data, part.start, around, shown_to)
        last = _on(data, part.end, around, len(data) if behind is None else behind.start)
        is_behind_a_gap = first > shown_to
        number += _feeds(data, shown_to, first)
        for start, end in _lines(data, first, last):
            is_touched = part.start <= start < part.end
            yield Shown(number, start, end, is_touched, part.spans if is_touched else [], is_behind_a_gap and start == first)
            number += 1
        shown_to = max(shown_to, last)


def _with_next(found: Iterator[_Touched]) -> Iterator[Tuple[_Touched, Optional[_Touched]]]:
    held = next(found, None)
    while held is not None:
        behind = next(found, None)
        yield held, behind
        held = behind


def _gaps(data: bytes, found: Iterator[_Touched]) -> Iterator[_Touched]:
    at = 0
    for part in found:
        if at < part.start:
            yield _Touched(at, part.start, [])
        at = part.end
    if at < len(data):
        yield _Touched(at, len(data), [])


def _back(data: bytes, at: int, lines: int, least: int) -> int:
    for _ in range(lines):
        if at <= least:
            break
        at = data.rfind(b'\n', 0, at - 1) + 1
    return max(at, least)


def _on(data: bytes, at: int, lines: int, most: int) -> int:
    for _ in range(lines):
        if at >= most:
            break
        end = data.find(b'\n', at)
        at = len(data) if end < 0 else end + 1
    return min(at, most)
