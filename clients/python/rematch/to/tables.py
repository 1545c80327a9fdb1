"""Rows of many documents as one table, as a concordance, and as annotations for brat."""
from __future__ import annotations

import os
import re
import unicodedata
from array import array
from itertools import accumulate
from typing import Any, Callable, Dict, Iterable, Iterator, List, NamedTuple, Optional, Sequence, TextIO, Tuple

from ..documents import REST, Document
from ..match import Row
from ..query import Query
from ..visible import BIDI
from .packed import Given
from .sentences import sentence_round

__all__ = ['Characters', 'Context', 'Layout', 'Table', 'concordance', 'extent_of', 'first_place', 'has_names', 'json_lines', 'sorted_contexts',
           'write_annotations']


def shown_text(part: bytes) -> str:
    """The text of bytes as it is; bytes that are no text as \\xhh."""
    return part.decode('utf-8', 'backslashreplace')


def has_names(query: Query) -> bool:
    """Whether a row has the name of a pattern."""
    from .patterns import PatternQuery
    return isinstance(query, PatternQuery)


def first_place(row: Row) -> Optional[int]:
    """Where the first span of a row begins; None for a row without spans."""
    return min((start for start in row[::2] if start >= 0), default=None)


# -- CSV and TSV

_NEEDS_QUOTES = re.compile('["\n\r]|^ | $')
_BLOCK = 4096  # bytes of which the characters are counted together


def cell_of(text: str, delimiter: str) -> str:
    if delimiter in text or _NEEDS_QUOTES.search(text):
        return '"' + text.replace('"', '""') + '"'
    return text


class Characters:
    """How many characters begin before a place in bytes.

    >>> Characters('né'.encode()).before(3)
    2
    """

    def __init__(self, data: bytes) -> None:
        self._data = data
        sizes = (len(data[start:start + _BLOCK].translate(None, REST)) for start in range(0, len(data), _BLOCK))
        self._before = array('q', accumulate(sizes, initial=0))

    def before(self, at: int) -> int:
        """The number, for a place."""
        block = at // _BLOCK
        return self._before[block] + len(self._data[block * _BLOCK:at].translate(None, REST))


class Layout(NamedTuple):
    """How a table is written: its columns (None: all), or the texts alone, what stands around a row, and how places are counted."""

    columns: Optional[Sequence[str]] = None
    is_texts_alone: bool = False
    context: Optional[int] = None  # so many characters on either side
    is_sentence: bool = False  # the rest of its sentence instead
    middle: Optional[str] = None  # the variable whose context it is; None: the whole row
    is_in_characters: bool = False
    delimiter: str = ','


class Table:
    """The lines of a table of a query: the document, the line of the row's first span, and start, end and text of each variable.

    Lines are counted from 1, places in bytes from 0; an absent variable has empty cells. A column that is not there raises
    `ValueError`, which has those that are.

    >>> query = Query('/(!x{a})?!y{b,c}/')
    >>> given = Given('d.txt', Document(b'\\nab,c'))
    >>> table = Table(query, Layout())
    >>> print(table.head(), *table.lines(given, given.rows(query)), sep='', end='')
    document,line,x_start,x_end,x,y_start,y_end,y
    d.txt,2,1,2,a,2,5,"b,c"
    d.txt,2,,,,2,5,"b,c"
    >>> table = Table(query, Layout(['y', 'left', 'line'], context=1))
    >>> print(table.head(), *table.lines(given, given.rows(query)), sep='', end='')
    y,left,line
    "b,c"," ",2
    "b,c",a,2
    """

    def __init__(self, query: Query, layout: Layout) -> None:
        self._query = query
        self._layout = layout
        around = ['left', 'right'] if layout.context is not None or layout.is_sentence else []
        named = ['pattern'] * has_names(query)
        every = ['document', 'line'] + named + [name + end for name in query.variables for end in ('_start', '_end', '')] + around
        if layout.is_texts_alone:
            self._names: Sequence[str] = ['document', 'line', *named, *query.variables, *around]
        else:
            self._names = every if layout.columns is None else layout.columns
        missing = next((name for name in self._names if name not in every), None)
        if missing is not None:
            raise ValueError(f'there is no column {missing!r}: there are {", ".join(every)}' + ('' if around
                                                                                                else ', and with --context or --sentence left and right'))
        twice = next((name for name in self._names if every.count(name) > 1), None)
        if twice is not None:
            raise ValueError(f'two columns would be called {twice!r}: give the variable another name' + ('' if layout.columns else
                             ', or say by --columns which columns there are'))
        if layout.middle is not None and layout.middle not in query.variables:
            raise ValueError(f'the query has no variable {layout.middle}')
        self._is_usual = list(self._names) == every and not around and not named and not layout.is_in_characters

    def head(self) -> str:
        """The first line."""
        return self._layout.delimiter.join(self._names) + '\n'

    def lines(self, given: Given, rows: Iterable[Row], first_line: int = 1, base: int = 0) -> Iterator[str]:
        """A line a row; of a part of a document ``first_line`` is the number of its first line, and ``base`` where it begins."""
        return (self._usual if self._is_usual else self._chosen)(given, rows, first_line, base)

    def _usual(self, given: Given, rows: Iterable[Row], first_line: int, base: int) -> Iterator[str]:
        data, delimiter = given.data, self._layout.delimiter
        number = given.numbers()
        name = cell_of(given.name, delimiter)
        for row in rows:
            first = first_place(row)
            cells = [name, '' if first is None else str(number(first) + first_line - 1)]
            places = iter(row)
            for start, end in zip(places, places):
                cells += ('', '', '') if start < 0 else (str(start + base), str(end + base),
                                                         cell_of(shown_text(data[start:end]), delimiter))
            yield delimiter.join(cells) + '\n'

    def _chosen(self, given: Given, rows: Iterable[Row], first_line: int, base: int) -> Iterator[str]:
        data, delimiter = given.data, self._layout.delimiter
        number = given.numbers()
        told = Characters(data).before if self._layout.is_in_characters else lambda place: place + base
        makers = [self._maker(name, given, lambda place: number(place) + first_line - 1, told) for name in self._names]
        for row in rows:
            yield (delimiter.join([maker(row) for maker in makers]) or '""') + '\n'  # readers of tables pass over an empty line

    def _maker(self, name: str, given: Given, number: Callable[[int], int],
               told: Callable[[int], int]) -> Callable[[Row], str]:
        """What makes the cells of a column."""
        data, delimiter = given.data, self._layout.delimiter
        if name == 'document':
            shown = cell_of(given.name, delimiter)
            return lambda row: shown
        if name == 'line':
            return lambda row: '' if first_place(row) is None else str(number(first_place(row)))  # type: ignore[arg-type]
        if name == 'pattern' and has_names(self._query):
            return lambda row: cell_of(row.pattern, delimiter)  # type: ignore[attr-defined]
        if name in self._query.variables:
            at = 2 * self._query.variables.index(name)
            return lambda row: '' if row[at] < 0 else cell_of(shown_text(data[row[at]:row[at + 1]]), delimiter)
        if name in ('left', 'right'):
            return lambda row: cell_of(self._around(name, data, row), delimiter)
        variable, _, side = name.rpartition('_')
        place = 2 * self._query.variables.index(variable) + (side == 'end')
        return lambda row: '' if row[place] < 0 else str(told(row[place]))

    def _around(self, side: str, data: bytes, row: Row) -> str:
        """What stands before or behind the middle of a row, on one line."""
        span = extent_of(row)
        if self._layout.middle is not None:
            at = 2 * self._query.variables.index(self._layout.middle)
            span = (row[at], row[at + 1]) if row[at] >= 0 else None
        if span is not None and self._layout.is_sentence:
            return _flat(sentence_round(data, *span)[side == 'right'])
        signs = self._layout.context or 0
        if span is None or not signs:
            return ''
        if side == 'left':
            return _flat(data[max(0, span[0] - 4 * signs):span[0]].decode('utf-8', 'ignore')[-signs:])
        return _flat(data[span[1]:span[1] + 4 * signs].decode('utf-8', 'ignore')[:signs])


def extent_of(row: Row) -> Optional[Tuple[int, int]]:
    """From the first place of a row's spans to the last; None for a row without spans.

    >>> extent_of((-1, -1, 3, 4, 1, 2)), extent_of(())
    ((1, 4), None)
    """
    first = first_place(row)
    return None if first is None else (first, max(row[1::2]))


# -- JSON

def json_lines(query: Query, given: Given, rows: Iterable[Row], *, is_texts_alone: bool = False) -> Iterator[str]:
    """An object of JSON for each row, with document, line, and start, end and text of each variable, or its text alone.

    >>> query = Query('/!x{a}(!y{é})?/')
    >>> given = Given('d', Document('aé'.encode()))
    >>> print(*json_lines(query, given, given.rows(query)), sep='', end='')
    {"document":"d","line":1,"x":[0,1,"a"],"y":[1,3,"é"]}
    {"document":"d","line":1,"x":[0,1,"a"],"y":null}
    """
    from json import dumps
    data = given.data
    is_named = has_names(query)
    number = given.numbers()
    for row in rows:
        first = first_place(row)
        cells: Dict[str, Any] = {'document': shown_text(os.fsencode(given.name)), 'line': None if first is None else number(first)}
        if is_named:
            cells['pattern'] = row.pattern  # type: ignore[attr-defined]
        places = iter(row)
        for name, start, end in zip(query.variables, places, places):
            text = shown_text(data[start:end]) if start >= 0 else None
            cells[name] = text if is_texts_alone or text is None else [start, end, text]
        yield dumps(cells, ensure_ascii=False, separators=(',', ':')) + '\n'


# -- Keyword in context

class Context(NamedTuple):
    """A line of a concordance: the document's name and line, what stands before the span, the span, what stands behind it."""

    name: str
    line: int
    left: str
    word: str
    right: str

    def shown(self, columns: Optional[int], label: int, *, is_coloured: bool = False) -> str:
        """The line with so many columns on either side of the span, and before it its place, so many columns wide.

        Without a number it has all that stands around the span, which is in brackets.
        """
        place = f'{self.name}:{self.line}'
        word = coloured(self.word) if is_coloured else self.word
        if columns is None:
            return f'{place}  {self.left}[{word}]{self.right}'
        return f'{place:>{label}}  {_clipped(self.left, columns, True)}  {word}  {_clipped(self.right, columns, False)}'.rstrip()


def coloured(text: str) -> str:
    """The text in the colour of what was found, for a terminal."""
    return f'\x1b[1;31m{text}\x1b[m' if text else text


def _flat(text: str) -> str:
    """The text on one line."""
    text = re.sub(r'\s+', ' ', text)
    if text.isprintable():
        return text
    return ''.join(sign if sign.isprintable() or (unicodedata.category(sign) == 'Cf' and sign not in BIDI) else '·'
                   for sign in text)


def _width(sign: str) -> int:
    """The columns that a sign takes on a screen."""
    if unicodedata.combining(sign) or unicodedata.category(sign) in ('Mn', 'Me', 'Cf'):
        return 0
    return 2 if unicodedata.east_asian_width(sign) in 'WF' else 1


def _clipped(text: str, columns: int, from_end: bool) -> str:
    """The end of a text, or its beginning, of at most so many columns, filled up with blanks."""
    if text.isascii():
        return text[-columns:].rjust(columns) if from_end else text[:columns].ljust(columns)
    kept: List[str] = []
    left = columns
    for sign in reversed(text) if from_end else text:
        left -= _width(sign)
        if left < 0:
            left += _width(sign)
            break
        kept.append(sign)
    if not from_end:
        return ''.join(kept) + ' ' * left
    while kept and _width(kept[-1]) == 0:  # a mark whose sign was cut off
        kept.pop()
    return ' ' * left + ''.join(reversed(kept))


def concordance(query: Query, given: Given, rows: Iterable[Row], name: str, columns: Optional[int] = 35) -> Iterator[Context]:
    """Each span of a variable with what stands around it, up to so many columns on either side; without a number the rest of its sentence.

    >>> query = Query('/ !w{b.} /')
    >>> given = Given('d', Document(b'aa bb cc'))
    >>> [context.shown(4, 5) for context in concordance(query, given, given.rows(query), 'w', 4)]
    ['  d:1   aa   bb   cc']
    """
    data = given.data
    number = given.numbers()
    at = 2 * query.variables.index(name)
    for row in rows:
        start, end = row[at], row[at + 1]
        if start < 0:
            continue
        if columns is None:
            left, right = sentence_round(data, start, end)
        else:
            left = data[max(0, start - 4 * columns):start].decode('utf-8', 'ignore')
            right = data[end:end + 4 * columns].decode('utf-8', 'ignore')
        yield Context(given.name, number(start), _flat(left), _flat(shown_text(data[start:end])), _flat(right))


def sorted_contexts(found: Iterable[Context], by: Optional[str]) -> Iterable[Context]:
    """The lines in order of what stands behind the span (right), of the words before it, the nearest first (left), of the span
    (word), or as they are."""
    if by == 'word':
        return sorted(found, key=lambda context: context.word.casefold())
    if by == 'right':
        return sorted(found, key=lambda context: context.right.casefold().split())
    if by == 'left':
        return sorted(found, key=lambda context: context.left.casefold().split()[::-1])
    return found


# -- Annotations for brat

def write_annotations(query: Query, document: Document, out: TextIO) -> None:
    """Standoff lines as brat has them: a T line for each span that is new, an R line between neighbours of a row.

    Places count characters of the document, which is a ``str``. Empty spans have no T line, since brat knows none.

    >>> import sys
    >>> write_annotations(Query('/!x{a}!y{é}/u'), Document('aé'), sys.stdout)
    T1	x 0 1	a
    T2	y 1 2	é
    R1	Row Arg1:T1 Arg2:T2
    """
    numbers: Dict[Tuple[str, int, int], int] = {}
    relations = 0
    for match in query.finditer(document):
        members = []
        for name, span in match.spandict().items():
            if span is None or span[0] == span[1]:
                continue
            key = (name, *span)
            if key not in numbers:
                numbers[key] = len(numbers) + 1
                out.write(f'T{numbers[key]}\t{name} {span[0]} {span[1]}\t{" ".join(str(match[name]).splitlines())}\n')
            members.append(numbers[key])
        for first, second in zip(members, members[1:]):
            relations += 1
            out.write(f'R{relations}\tRow Arg1:T{first} Arg2:T{second}\n')
