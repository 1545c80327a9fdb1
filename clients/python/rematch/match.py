"""A row of the answer, lists of them, and pages."""
from __future__ import annotations

from typing import Any, AnyStr, Dict, Generic, Iterable, List, Optional, Tuple, overload

from .documents import Document, Window

__all__ = ['Match', 'Matches', 'NoVariable', 'Page', 'Row', 'Span', 'Variables', 'check_variable', 'row_of']

Span = Tuple[int, int]
"""Start and end, counted from 0; the end is behind the last byte or character."""
Row = Tuple[int, ...]
"""Start and end of each variable in turn, -1 and -1 where it is absent."""

class Variables:
    """What has the variables of a query: a `Query`, or one that a `Server` answers."""

    def __init__(self, names: Iterable[str]) -> None:
        self.variables: Tuple[str, ...] = tuple(names)
        self._index: Dict[str, int] = _Index((name, 2 * k) for k, name in enumerate(self.variables))

    def _cursor(self, length: int, row: Row) -> str:
        places = iter(row)
        parts = [f';{name}:{"-" if start < 0 else f"{start}-{end}"}' for name, start, end in zip(self.variables, places, places)]
        return f'c2:{length}{"".join(parts)}'


class NoVariable(KeyError):
    """A name that is no variable of the query, or a number: spans have names, and a row has no group 0.

    >>> import rematch
    >>> match = rematch.search('/!x{a}!y{b}/', 'ab')
    >>> match.group(0)
    Traceback (most recent call last):
      ...
    rematch.match.NoVariable: there is no group 0: a row has spans and no whole match; name one of x, y, or use extent
    """

    def __str__(self) -> str:
        return str(self.args[0])


class _Index(Dict[str, int]):
    """Where the places of each variable begin in a row."""

    def __missing__(self, name: Any) -> int:
        names = ', '.join(self)
        if isinstance(name, str):
            raise NoVariable(f'{name!r} is no variable of the query, which has {names or "none"}')
        if not self:
            raise NoVariable(f'there is no group {name}: the query has no variable; write !name{{..}} around what is wanted')
        if name == 0:
            raise NoVariable(f'there is no group 0: a row has spans and no whole match; name one of {names}, or use extent')
        raise NoVariable(f'there is no group {name!r}: variables have names, and no numbers; name one of {names}')


def check_variable(query: Variables, name: str) -> None:
    """Raises `NoVariable` where the name is no variable of the query."""
    query._index[name]


_NO_NAME: Any = 0  # what ``re`` takes where no name is given: its group 0
_SHOWN = 200  # rows of a list that a notebook shows


class Match(Generic[AnyStr]):
    """One row: which part of the document each variable takes.

    Places are counted from 0, in bytes; where the document is a ``str``, in characters. A variable that the row leaves
    out is absent: its span, start, end and text are None. A name that is no variable of the query raises `NoVariable`,
    a `KeyError`. So does a number, and a call without a name: a row has no whole match, which ``re`` has as its group 0.

    >>> import rematch
    >>> match = rematch.Query('/(!x{a})?!y{b}/').findall(b'ab')[1]
    >>> match
    <rematch.Match x=- y=1-2>
    >>> match.span('y'), match['y'], match['x']
    ((1, 2), b'b', None)
    """

    __slots__ = ('_query', '_document', '_row')

    def __init__(self, query: Variables, document: Document, row: Row) -> None:
        self._query = query
        self._document = document
        self._row = row

    @property
    def query(self) -> Variables:
        """The query that gave the row."""
        return self._query

    @property
    def row(self) -> Row:
        """The row as `Query.rows` gives it, but in bytes for each document."""
        return self._row

    def byte_span(self, name: str = _NO_NAME) -> Optional[Span]:
        """Start and end in bytes, also where the document is a ``str``; None where the variable is absent.

        >>> import rematch
        >>> rematch.Query('/!x{t.}/u').findall('été')[0].byte_span('x')
        (2, 5)
        """
        row, at = self._row, self._query._index[name]
        return None if row[at] < 0 else (row[at], row[at + 1])

    def span(self, name: str = _NO_NAME) -> Optional[Span]:
        """Start and end of what the variable takes; None where it is absent.

        >>> import rematch
        >>> rematch.Query('/!x{t.}/u').findall('été')[0].span('x')
        (1, 3)
        """
        row, at = self._row, self._query._index[name]
        start = row[at]
        if start < 0:
            return None
        places = self._document.places
        return (start, row[at + 1]) if places is None else (places[start], places[row[at + 1]])

    def start(self, name: str = _NO_NAME) -> Optional[int]:
        """Where the variable's part begins; None where it is absent.

        >>> import rematch
        >>> rematch.Query('/!x{b+}/').findall('abb')[1].start('x')
        1
        """
        span = self.span(name)
        return None if span is None else span[0]

    def end(self, name: str = _NO_NAME) -> Optional[int]:
        """Where the variable's part ends, which is behind its last byte or character; None where it is absent.

        >>> import rematch
        >>> rematch.Query('/!x{b+}/').findall('abb')[1].end('x')
        3
        """
        span = self.span(name)
        return None if span is None else span[1]

    def __getitem__(self, name: str) -> Optional[AnyStr]:
        span = self.span(name)
        return None if span is None else self._document.text(span[0], span[1])  # type: ignore[return-value]

    @overload
    def group(self, name: str, /) -> Optional[AnyStr]: ...

    @overload
    def group(self, name: str, other: str, /, *more: str) -> Tuple[Optional[AnyStr], ...]: ...

    def group(self, name: str = _NO_NAME, /, *more: str) -> Any:
        """What a variable takes: bytes, of a ``str`` a ``str``; of several variables a tuple.

        >>> import rematch
        >>> rematch.Query('/!x{a}!y{b+}/').findall('abb')[1].group('x', 'y')
        ('a', 'bb')
        """
        return tuple(map(self.__getitem__, (name, *more))) if more else self[name]

    def groups(self, default: Any = None) -> Tuple[Any, ...]:
        """What each variable takes, in the order of `Query.variables`; ``default`` where it is absent.

        >>> import rematch
        >>> rematch.Query('/!x{a}(!y{b})?/').findall('ab')[1].groups()
        ('a', None)
        """
        return tuple([default if self._row[at] < 0 else self[name] for name, at in self._query._index.items()])

    def keys(self) -> Tuple[str, ...]:
        """The variables, so that ``dict(match)`` is `groupdict`.

        >>> import rematch
        >>> dict(rematch.search('/!x{a}!y{b}/', 'ab'))
        {'x': 'a', 'y': 'b'}
        """
        return self._query.variables

    def groupdict(self) -> Dict[str, Optional[AnyStr]]:
        """What each variable takes, by its name.

        >>> import rematch
        >>> rematch.Query('/!x{a}(!y{b})?/').findall('ab')[1].groupdict()
        {'x': 'a', 'y': None}
        """
        return {name: self[name] for name in self._query.variables}

    def spandict(self) -> Dict[str, Optional[Span]]:
        """Start and end of each variable, by its name.

        >>> import rematch
        >>> rematch.Query('/!x{a}(!y{b})?/').findall('ab')[0].spandict()
        {'x': (0, 1), 'y': (1, 2)}
        """
        return {name: self.span(name) for name in self._query.variables}

    @property
    def extent(self) -> Optional[Span]:
        """From the first place of the row's spans to the last, as they are told; None for a row without spans.

        >>> import rematch
        >>> rematch.Query('/!x{a}.!y{c}/').findall('abc')[0].extent
        (0, 3)
        """
        spans = [span for span in self.spandict().values() if span is not None]
        return (min(start for start, _ in spans), max(end for _, end in spans)) if spans else None

    @property
    def cursor(self) -> str:
        """The text with which `Query.finditer` and `Query.page` go on behind this row, in the same document.

        >>> import rematch
        >>> query = rematch.Query('/!x{a}/')
        >>> first = query.findall(b'aa')[0]
        >>> first.cursor, query.findall(b'aa', after=first.cursor)
        ('c2:2;x:0-1', [<rematch.Match x=1-2>])
        """
        return self._query._cursor(self._document.length, self._row)

    def __repr__(self) -> str:
        shown = [f' {name}={"-" if span is None else "%d-%d" % span}' for name, span in self.spandict().items()]
        return f'<rematch.Match{"".join(shown)}>'

    def __eq__(self, other: object) -> bool:
        if not isinstance(other, Match):
            return NotImplemented
        return (self._row == other._row and self._query.variables == other._query.variables
                and (self._document is other._document or self.groupdict() == other.groupdict()))

    def __hash__(self) -> int:
        return hash(self._row)

    def _repr_html_(self) -> str:
        return Matches([self])._repr_html_() or ''


def row_of(query: Variables, match: Match[AnyStr]) -> Match[AnyStr]:
    """The same row of the same document, as one of another query, which has the same variables."""
    return Match(query, match._document, match._row)


class Matches(List[Match[AnyStr]]):
    """A list of rows, which a notebook shows as a view of the document."""

    def _repr_html_(self) -> Optional[str]:
        if not self or not self[0]._query.variables:
            return None
        first = self[0]
        if isinstance(first._document, Window) and first._document.begins:
            return None
        from .view import fragment
        shown = [match._row for match in self[:_SHOWN] if match._document is first._document]
        return fragment(first._document, first._query.variables, shown, of=len(self))


class Page(Matches[AnyStr]):
    """Some rows, and where to go on.

    ``cursor`` is the text for the next page, and None where no row remains.
    """

    cursor: Optional[str] = None
