"""A document cut at line ends, its pieces searched apart, and the rows of the whole: each once, in order, at its place.

A row belongs to the piece in which its first span begins. A piece is read with as many lines around it as the query
reaches, so that its rows are those of the whole. A row that begins earlier stands earlier in the order, so the rows of
the pieces, one piece after another, are those of the whole in their order.

    rematch-cut BIG.LOG 8000000 | parallel -k --colsep ' ' rematch-piece QUERY BIG.LOG {1} {2}

writes what ``rematch -q QUERY BIG.LOG`` writes, byte for byte, and for documents that are too long for one run too.
"""
from __future__ import annotations

import os
from typing import IO, Any, Dict, Iterator, List, NamedTuple, Optional, Sequence, Tuple, Union

from .bounds import NoReach, Ties, reach_of_printed, ties_of_printed
from .documents import MOST_BYTES, unreadable, packed_by
from .faults import DocumentError
from .match import Row
from .query import Query

__all__ = ['NoReach', 'Piece', 'cuts', 'reach', 'rows_of_piece', 'rows_in_pieces', 'table_of_piece', 'ties']

Path = Union[str, 'os.PathLike[str]']
_BLOCK = 1 << 16  # bytes that are read at once in search of line feeds
_USUAL = 64_000_000  # bytes of a piece where no size is asked for


class Piece(NamedTuple):
    """A part of a file, in bytes from 0: from ``start`` up to ``end``."""

    start: int
    end: int


def reach(query: Query) -> int:
    r"""How many line feeds the fits of a row of the query cover together at most.

    Where there is no such number `NoReach` says why.

    >>> from rematch import Query
    >>> reach(Query(r'/!x{a}\n([^\n]*\n){0,3}!y{b}/'))
    4
    >>> reach(Query('/!x{a}/ join /!y{b}/'))
    Traceback (most recent call last):
      ...
    rematch.bounds.NoReach: parts of a join share no variable, so they may be any number of lines apart
    """
    return reach_of_printed(_with_places(query))


def ties(query: Query) -> Ties:
    """The same, with what else ties the rows to the text around them: anchors are no hindrance here.

    >>> from rematch import Query
    >>> ties(Query('/^!x{a}/')).is_to_start
    True
    """
    return ties_of_printed(_with_places(query))


def _with_places(query: Query) -> bytes:
    """The printed query, of which each row has a place."""
    if not query.variables:
        raise NoReach('the query has no variables, and a row without spans begins nowhere')
    return query.printed.encode()


def _open(path: Path) -> IO[bytes]:
    try:
        return open(path, 'rb')
    except OSError as fault:
        raise unreadable(os.fspath(path), fault) from fault


def cuts(path: Path, size: int) -> Iterator[Piece]:
    """The pieces of a file: each of at least ``size`` bytes, the last aside, and up to a line end.

    An empty file is one empty piece. A file that cannot be read, and one that is packed, raises `DocumentError`.

    >>> import tempfile
    >>> with tempfile.NamedTemporaryFile() as file:
    ...     flushed = file.write(b'ab\\ncdef\\ng'), file.flush()
    ...     [tuple(piece) for piece in cuts(file.name, 4)]
    [(0, 8), (8, 9)]
    """
    if size < 1:
        raise ValueError(f'a piece has 1 byte or more, not {size}')
    with _open(path) as file:
        if packed_by(file.read(10)) is not None:
            raise unreadable(os.fspath(path), ValueError('it is packed: unpack it first'))
        total, start = os.fstat(file.fileno()).st_size, 0
        while True:
            end = min(start + size, total)
            if end < total:
                file.seek(end - 1)
                end = min(_line_end(file, end - 1), total)
            yield Piece(start, end)
            start = end
            if start >= total:
                return


def lines_back(file: IO[bytes], at: int, lines: int, least: int = 0) -> int:
    """The start of the line that is so many lines before that of a place; of a place at a line's start, one line more. It is not before ``least``."""
    wanted, end = lines + 1, max(least, at - 1)
    while end > least:
        start = max(least, end - _BLOCK)
        file.seek(start)
        block = file.read(end - start)
        place = len(block)
        while wanted:
            place = block.rfind(b'\n', 0, place)
            if place < 0:
                break
            wanted -= 1
        if not wanted:
            return start + place + 1
        end = start
    return least


def _lines_on(file: IO[bytes], at: int, lines: int) -> int:
    """The end of the line that is so many lines behind that of a place, or of the file."""
    file.seek(at)
    for _ in range(lines + 1):
        end = _line_end(file, at)
        if end == at:
            break
        at = end
    return at


def _line_end(file: IO[bytes], at: int) -> int:
    """The end of the line at this place, which is the file's own, or of the file. However long the line is, one block of it is held."""
    while True:
        part = file.readline(_BLOCK)
        at += len(part)
        if len(part) < _BLOCK or part.endswith(b'\n'):
            return at


def rows_of_piece(query: Query, path: Path, start: int, end: int, lines: Optional[int] = None) -> Iterator[Row]:
    """The rows whose first span begins from ``start`` up to ``end``, with the places of the whole file, in bytes.

    Rows are those of `Query.rows`. A row that begins at the file's very end belongs to the piece that ends there.
    ``lines`` is the query's reach, where it is known. Raises `NoReach` where there is none, or where a row has no spans,
    and `DocumentError` where the file cannot be read.

    >>> import tempfile
    >>> from rematch import Query
    >>> with tempfile.NamedTemporaryFile() as file:
    ...     flushed = file.write(b'a\\na\\na\\n'), file.flush()
    ...     list(rows_of_piece(Query('/!x{a}/'), file.name, 2, 4))
    [(2, 3)]
    """
    return _taken(query, path, Piece(start, end), lines)[2]


def _taken(query: Query, path: Path, piece: Piece, lines: Optional[int]) -> Tuple[int, bytes, Iterator[Row]]:
    """Where what is read for a piece begins, the bytes that are read, and the rows of the piece."""
    reached = reach(query) if lines is None else lines
    with _open(path) as file:
        total = os.fstat(file.fileno()).st_size
        piece = Piece(min(piece.start, total), min(piece.end, total))
        first = lines_back(file, piece.start, reached)
        last = _lines_on(file, piece.end, reached)
        if last - first > MOST_BYTES:
            raise too_long_a_line()
        file.seek(first)
        part = file.read(last - first)
    if len(part) != last - first:
        raise unreadable(os.fspath(path), ValueError('the file has changed while it was read'))
    return first, part, _owned(query, part, first, piece, piece.end == total)


def too_long_a_line() -> DocumentError:
    """The fault of a document in which a line, with those around it, is more than one run takes."""
    fault = DocumentError(f'document longer than {MOST_BYTES} bytes', 6)
    fault.hint = 'it is cut at line ends, and a line, with those around it that the query reaches, is longer than that'
    return fault


def _owned(query: Query, part: bytes, first: int, piece: Piece, owns_end: bool) -> Iterator[Row]:
    for row in query.rows(part):
        begins = min((place for place in row[::2] if place >= 0), default=None)
        if begins is None:
            raise NoReach('a row has no spans, and begins nowhere')
        begins += first
        if piece.start <= begins < piece.end or (owns_end and begins == piece.end):
            places = tuple([place if place < 0 else place + first for place in row])
            yield places if type(row) is tuple else row.at(places)  # type: ignore[attr-defined]  # a row with a name keeps it


def table_of_piece(query: Query, path: Path, start: int, end: int, lines: Optional[int] = None) -> Dict[str, Sequence[Any]]:
    """The rows of `rows_of_piece` as columns: those of `Query.table`, with ``document`` before them.

    Texts are ``str``; bytes that are no UTF-8 stand in them as \\xhh.

    >>> import tempfile
    >>> from rematch import Query
    >>> with tempfile.NamedTemporaryFile() as file:
    ...     flushed = file.write(b'a\\na\\na\\n'), file.flush()
    ...     table = table_of_piece(Query('/!x{a}/'), file.name, 2, 6)
    >>> table['x_start'], table['x'], len(table['document'])
    ([2, 4], ['a', 'a'], 2)
    """
    first, part, found = _taken(query, path, Piece(start, end), lines)
    rows = list(found)
    table: Dict[str, Sequence[Any]] = {'document': [os.fspath(path)] * len(rows)}
    for k, name in enumerate(query.variables):
        starts, ends = [row[2 * k] for row in rows], [row[2 * k + 1] for row in rows]
        table[name + '_start'], table[name + '_end'] = starts, ends
        table[name] = [None if low < 0 else part[low - first:high - first].decode('utf-8', 'backslashreplace')
                       for low, high in zip(starts, ends)]
    return table


def rows_in_pieces(query: Query, path: Path, size: Optional[int] = None, lines: Optional[int] = None) -> Iterator[Row]:
    """The rows of a whole file, one piece after another, so that a file of any length can be searched.

    ``size`` is the least length of a piece in bytes, and ``lines`` the query's reach, where it is known. Raises what
    `rows_of_piece` does.
    """
    reached = reach(query) if lines is None else lines
    for piece in cuts(path, _USUAL if size is None else size):
        yield from rows_of_piece(query, path, piece.start, piece.end, reached)


def rows_of_stream(query: Query, stream: Any, lines: int, size: Optional[int] = None) -> Iterator[Row]:
    """The rows of what is read once, one piece after another, as of `Held`; what no later row needs is let go."""
    start = first = 0
    while True:
        end = stream.line_end(start + (_USUAL if size is None else size))
        last = _lines_on(stream, end, lines)
        yield from _owned(query, stream[first:last], first, Piece(start, end), last == end)
        if last == end:
            return
        start, first = end, lines_back(stream, end, lines, first)
        stream.forget(first)


# -- Lines, and the two commands
