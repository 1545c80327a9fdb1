"""Rows of a text that grows, as they come: what is read again at each step is as many lines as the query reaches.

A row whose fits have new text in them lies in the new lines and in as many before them as the query reaches. So these are
searched, and the rows that were given before are left out. Where the query has a ``minus`` or a ``$``, later text may take a row away:
such rows are given when as many lines follow them. Where it has a ``^``, rows at the start of what is searched may be false, and are left out.
"""
from __future__ import annotations

import os
import time
from typing import IO, TYPE_CHECKING, Any, Callable, Iterator, NamedTuple, Optional, Set, Union

from .documents import MOST_BYTES, Window, unreadable
from .faults import DocumentError
from .match import Match, Row
from .pieces import NoReach, lines_back, ties

if TYPE_CHECKING:
    from .query import Query

__all__ = ['File', 'Followed', 'Step', 'Window', 'first_place', 'followed', 'lines_before', 'steps', 'stream']

_READ = 1 << 20  # bytes that are asked for at once
_TAIL = 64  # bytes before the place, by which a file that was cut and filled again is known


class Step(NamedTuple):
    """What one step has searched, and its new rows, with places of the whole text. They are taken before the next step."""

    window: Window
    rows: Iterator[Row]


def first_place(row: Row) -> int:
    """Where the first span of a row begins; `NoReach` where it has none."""
    begins = min((place for place in row[::2] if place >= 0), default=None)
    if begins is None:
        raise NoReach('a row has no spans, and begins nowhere')
    return begins


class Followed:
    """The rows of a text whose parts come one after another: each row once, when no later text can take it away.

    >>> from rematch import Query
    >>> state = Followed(Query('/!x{a}b/'))
    >>> [list(state.step(part).rows) for part in (b'ab\\na', b'b', b'\\nab')], list(state.end().rows)
    ([[(0, 1)], [], [(3, 4)]], [(6, 7)])
    """

    def __init__(self, query: 'Query', name: Optional[str] = None) -> None:
        self.query = query
        self.name = name
        found = ties(query)  # raises where there is no reach
        self.lines = found.lines
        self.waits = found.has_minus or found.is_to_end  # whether more text may take a row away
        self.guard = self.lines + 1 if found.is_to_start else 0  # the lines at the start of a window in which rows may be false
        self.kept = b''  # whole lines that new ones may be searched with, and then what has no line feed yet
        self.begins = 0  # of what is kept, in the text
        self.line = 1  # the number of the first line of what is kept
        self._searched = -1  # up to where of what is kept rows were looked for; -1 where never
        self._given: Set[Row] = set()  # rows that begin in what is kept and are not given again
        self._settled = 0  # rows that begin before it are given, where rows wait

    def step(self, part: bytes) -> Step:
        """The rows that come with a part. What has no line feed at its end is searched with the next part, or at the end."""
        self._forget()
        self.kept += part
        end = self.kept.rfind(b'\n') + 1
        return self._search(end, self._back(end, self.lines) if self.waits else end) if end > self._searched and end else self._nothing()

    def end(self) -> Step:
        """The rows that are left when nothing more comes."""
        self._forget()
        is_known = self._searched == len(self.kept) and not self.waits
        return self._nothing() if is_known else self._search(len(self.kept), None)

    def pass_over(self, file: IO[bytes], place: int) -> None:
        """Takes what is before a place of the file as known: the rows that it has are not given."""
        first = lines_back(file, place, 2 * self.lines + self.guard)
        file.seek(first)
        self.kept, self.begins = file.read(place - first), first
        self._searched = len(self.kept)
        whole = self.kept.rfind(b'\n') + 1
        self._settled = first + (self._back(whole, self.lines) if self.waits else whole)
        self._given = {self._moved(row) for row in self.query.rows(self.kept)}

    def go_on(self, file: IO[bytes], place: int) -> None:
        """Goes on behind the lines before a place of the file, which were followed in another run: rows that waited there are given."""
        self.pass_over(file, place)
        if self.waits:
            self._given = {row for row in self._given if first_place(row) < self._settled}

    def _nothing(self) -> Step:
        return Step(Window(b'', self.begins, self.line), iter(()))

    def _search(self, end: int, limit: Optional[int]) -> Step:
        """The rows of what is kept up to this end; where rows wait, those that begin before the limit, or all at the end of the text."""
        window = Window(self.kept[:end], self.begins, self.line)
        window.name = self.name
        if end > MOST_BYTES:
            raise DocumentError(f'document longer than {MOST_BYTES} bytes: a line, and those before it that the query reaches', 6)
        self._searched = end
        before = self._settled
        if not self.waits:
            valid = self.begins + self._guarded()
            return Step(window, (row for row in self._new(window) if valid <= first_place(row)))
        if limit is None:
            return Step(window, (row for row in self._new(window) if before <= first_place(row)))
        self._settled = max(before, self.begins + limit)
        return Step(window, (row for row in self._new(window) if before <= first_place(row) < self._settled))

    def _new(self, window: Window) -> Iterator[Row]:
        for found in self.query.rows(window.data):  # type: ignore[arg-type]
            row = self._moved(found)
            if row in self._given:
                continue
            if not self.waits:
                self._given.add(row)
            yield row

    def _moved(self, row: Row) -> Row:
        first_place(row)
        return tuple([place + self.begins if place >= 0 else place for place in row])

    def _back(self, end: int, lines: int) -> int:
        """The start of the line that is so many lines before the end."""
        for _ in range(lines):
            end = self.kept.rfind(b'\n', 0, max(0, end - 1)) + 1
        return end

    def _guarded(self) -> int:
        """Where the lines end in which rows may be false, since the window begins as if it were the text."""
        at = 0
        for _ in range(self.guard if self.begins else 0):
            at = self.kept.find(b'\n', at) + 1
        return at

    def _forget(self) -> None:
        """Drops the lines that no new row can reach."""
        whole = self.kept.rfind(b'\n', 0, max(0, self._searched)) + 1
        start = self._back(whole, self.lines * (2 if self.waits else 1) + self.guard)
        if not start:
            return
        self.line += self.kept.count(b'\n', 0, start)
        self.kept, self.begins, self._searched = self.kept[start:], self.begins + start, self._searched - start
        self._given = {row for row in self._given if first_place(row) >= self.begins}


def lines_before(file: IO[bytes], place: int) -> int:
    """How many line feeds a file has before a place."""
    file.seek(0)
    count = 0
    while place:
        block = file.read(min(place, _READ))
        if not block:
            break
        count += block.count(b'\n')
        place -= len(block)
    return count


class File:
    """A file that grows, also where it is cut, filled again or replaced meanwhile."""

    def __init__(self, name: Union[str, 'os.PathLike[str]']) -> None:
        self.name = name
        self.file = self._opened()
        self._place = 0
        self._tail = b''  # the last bytes before the place

    def _opened(self) -> IO[bytes]:
        try:
            return open(self.name, 'rb', buffering=0)
        except OSError as fault:
            raise unreadable(os.fspath(self.name), fault) from fault

    def close(self) -> None:
        """Let the file go."""
        self.file.close()

    def to_end(self) -> int:
        """Goes to the end of what is there, and returns its place; a pipe has none but 0."""
        if self.file.seekable():
            self._place = self.file.seek(0, os.SEEK_END)
            self._tail = os.pread(self.file.fileno(), _TAIL, max(0, self._place - _TAIL))
        return self._place

    def read(self) -> Union[bytes, str]:
        """What has come since; as a `str` why the file is read from its start from here on."""
        try:
            found = os.pread(self.file.fileno(), len(self._tail) + _READ, self._place - len(self._tail))
        except OSError:  # a pipe
            return self._counted(self.file.read(_READ))
        why = 'it was cut'
        if found[:len(self._tail)] == self._tail:
            new = found[len(self._tail):]
            if not new and self._is_replaced():
                new = os.pread(self.file.fileno(), _READ, self._place)  # what came between
                why = 'it was replaced'
            if new or why == 'it was cut':
                return self._counted(new)
            self.close()
            self.file = self._opened()
        self._place, self._tail = 0, b''
        return why

    def _counted(self, new: bytes) -> bytes:
        self._place += len(new)
        self._tail = (self._tail + new[-_TAIL:])[-_TAIL:]
        return new

    def _is_replaced(self) -> bool:
        """Whether another file has the name now, as after a log was turned over."""
        held = os.fstat(self.file.fileno())
        try:
            named = os.stat(self.name)
        except OSError:
            return False  # between two files; the old one may still grow
        return (held.st_dev, held.st_ino) != (named.st_dev, named.st_ino)

    def news(self, wait: float, quiet: Optional[float] = None, until: Optional[Callable[[], bool]] = None) -> Iterator[Union[bytes, str]]:
        """What comes, as `read` returns it; it ends where for ``quiet`` seconds nothing has come, or where ``until`` is true then."""
        heard = time.monotonic()
        while True:
            new = self.read()
            if new:
                heard = time.monotonic()
                yield new
            elif until is not None and until() or quiet is not None and time.monotonic() - heard >= quiet:
                return
            else:
                time.sleep(wait)


def stream(file: IO[bytes]) -> Iterator[bytes]:
    """What comes from an open binary file, up to its end."""
    read = getattr(file, 'read1', file.read)
    while True:
        part = read(_READ)
        if not isinstance(part, bytes):
            raise TypeError('what is followed is open as bytes, as of open(path, "rb") and of sys.stdin.buffer')
        if not part:
            return
        yield part


def steps(state: Followed, news: Iterator[Union[bytes, str]]) -> Iterator[Step]:
    """The steps of what comes; where it begins anew, so do its places and lines."""
    for new in news:
        if isinstance(new, str):
            yield state.end()
            state = Followed(state.query, state.name)
        else:
            yield state.step(new)
    yield state.end()


def followed(query: 'Query', source: Any, is_from_end: bool, wait: float, quiet: Optional[float],
             until: Optional[Callable[[], bool]]) -> Iterator[Match[Any]]:
    """The rows of a file or a stream as they come; `Query.follow` says more."""
    if wait <= 0:
        raise ValueError(f'wait is a number of seconds above 0, not {wait}')
    if hasattr(source, 'read'):
        name = getattr(source, 'name', None)
        return _matches(Followed(query, name if isinstance(name, str) else None), stream(source))
    if not isinstance(source, (str, os.PathLike)):
        raise TypeError(f'what is followed is a path or an open binary file, not {type(source).__name__}')
    state = Followed(query, os.fsdecode(source))
    file = File(source)  # what is wrong is told now, and not at the first row
    if is_from_end:
        state.pass_over(file.file, file.to_end())
    return _matches(state, file.news(wait, quiet, until), file)


def _matches(state: Followed, news: Iterator[Union[bytes, str]], file: Optional[File] = None) -> Iterator[Match[Any]]:
    try:
        for window, rows in steps(state, news):
            for row in rows:
                yield Match(state.query, window, row)
    finally:
        if file is not None:
            file.close()
