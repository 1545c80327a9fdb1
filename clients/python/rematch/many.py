"""A query on many texts: they are put behind one another and searched in one run, where that gives the rows of each.

A fit that covers no separator lies in one text. So the texts are joined by a byte that no formula of the query reads, an
anchor is a separator before or behind a formula, and a row belongs to the text in which its spans lie. Where there is no such
byte, where the parts of a join share no variable, and of rows without spans, each text has a session of its own, and what no
session takes has a run. With the library in this process it is asked in their place, of a few texts of each by itself.
"""
from __future__ import annotations

from itertools import chain, islice, repeat
from typing import TYPE_CHECKING, Any, FrozenSet, Iterable, Iterator, List, Optional, Tuple, Union

from . import sets, tree, variables
from .bounds import do_fits_touch
from .documents import Document, document_of_text
from .faults import DocumentError, OutOfMemory, ProgramNotFound, QueryError, RematchError, SizeError
from .match import Match, Matches, row_of
from .query import Query, asked_alike, may_be_served
from .reader import read

if TYPE_CHECKING:
    from .library import Compiled
    from .session import Served, Server

__all__ = ['Mapped', 'bytes_read', 'mapped']

Text = Union[str, bytes]

_USUAL = [0x0a, 0x00, 0x1e, 0x1f, 0xff, 0xfe, 0xc0, 0xc1]  # what is seldom read, and what UTF-8 never has
_LEAST, _MOST = 64, 1 << 14  # texts of the first batch, and of any
_MOST_BYTES = 1 << 22  # of a batch
_MOST_WAITING = 200_000  # rows of a batch that are held while it is not known whether each has spans
_LONG = 1 << 16  # of a text that has a run rather than a session


def _ones(query: tree.Query) -> Iterator[tree.One]:
    return (one for atom in query.atoms for one in tree.ones_of(atom.formula))


def bytes_read(query: tree.Query) -> FrozenSet[int]:
    """The bytes that a formula of a query reads anywhere, which is in the program's own form.

    >>> sorted(bytes_read(read(rb'/^!x{[a-c]}/ join /!x{a}e/')))
    [97, 98, 99, 101]
    """
    return sets.members(sets.united(found for one in _ones(query) for found in one.ranges()))


def _expressions(query: tree.Query) -> Iterator[tree.Expression]:
    return (found for whole in (*(let.expression for let in query.lets), query.body) for found in tree.expressions_of(whole))


def _are_sure(query: tree.Query) -> bool:
    """Whether each row has spans, since each atom has a capture, each of them in each of its fits, and none is projected away."""
    every = [(variables.captured(atom.formula), variables.sure(atom.formula)) for atom in query.atoms]
    return all(names and names == sure for names, sure in every) and not any(isinstance(found, tree.Project) for found in _expressions(query))


def _may_be_joined(query: tree.Query) -> bool:
    """Whether the fits of each row touch one another, so that they lie in one text."""
    if any(isinstance(found, tree.Minus) for found in _expressions(query)) and not _are_sure(query):
        return False  # a row without spans may be taken away by that of another text
    return do_fits_touch(query)


def _with_ends(query: tree.Query, separator: int) -> bytes:
    r"""The query with a separator in the place of each anchor.

    >>> _with_ends(read(rb'/^!x{a}|b/ union /!x{c}$/'), 10)
    b'/\\x0a(!x{a}|b)/ union /(!x{c})\\x0a/'
    """
    sign, made, end = b'\\x%02x' % separator, b'', 0
    for atom in query.atoms:
        if atom.is_first or atom.is_last:
            inner = query.text[atom.start + 1 + atom.is_first:atom.end - 1 - atom.is_last]
            made += query.text[end:atom.start] + b'/%s(%s)%s/' % (sign * atom.is_first, inner or b'()', sign * atom.is_last)
            end = atom.end
    return made + query.text[end:]


class _NoSpans(Exception):
    """A row of many texts has no spans."""


class Mapped:
    """How a query is asked of many texts."""

    def __init__(self, query: Query) -> None:
        self.query = query
        self.tree = read(query.printed.encode('utf-8', 'surrogateescape'), is_limited=False)
        taken = bytes_read(self.tree)
        free = [byte for byte in dict.fromkeys([*_USUAL, *range(256)]) if byte not in taken]
        is_one = bool(query.variables) and _may_be_joined(self.tree)
        self.separators: List[int] = free if is_one else []
        # Whether each row has spans, so that the rows of a text need not wait for those of the others.
        self.is_sure = _are_sure(self.tree)
        self.has_ends = any(atom.is_first or atom.is_last for atom in self.tree.atoms)
        self._known: Tuple[int, Optional[Query]] = (-1, None)  # the separator of the newest batch, and its query
        self._server: Optional['Server'] = None
        self._served: Optional['Served'] = None

    def rows(self, texts: Iterable[Text]) -> Iterator[Matches[Any]]:
        """The rows of each text, in order. A fault is raised in the place of its text, behind the rows of those before it."""
        number, size = 0, _LEAST
        given = iter(texts)
        try:
            while True:
                batch, fault, is_end = _batch(given, size, number)
                size = min(2 * size, _MOST)
                for found in self._of_batch(batch, number):
                    number += 1
                    yield found
                if fault is not None:
                    raise fault
                if is_end:
                    return
        finally:
            if self._server is not None:
                self._server.close()
                self._server = self._served = None

    # -- One run for many texts

    def _of_batch(self, batch: List[Tuple[Text, bytes]], number: int) -> Iterator[Matches[Any]]:
        query, separator = self._joining(batch)
        done = 0
        if query is not None and len(batch) > 1:
            try:
                for found in self._in_one(query, separator, batch):
                    done += 1
                    yield found
                return
            except (SizeError, OutOfMemory):  # together, and perhaps not in halves
                middle = (done + len(batch) + 1) // 2
                if done < middle < len(batch):
                    yield from self._of_batch(batch[done:middle], number + done)
                    yield from self._of_batch(batch[middle:], number + middle)
                    return
            except _NoSpans:
                pass
        for at, (text, _) in enumerate(batch[done:], number + done):
            try:
                one = self._apart(text, len(batch) == 1 and self._server is None)
            except RematchError as fault:
                fault.hint = _placed(at, fault.hint)
                raise
            yield one

    def _joining(self, batch: List[Tuple[Text, bytes]]) -> Tuple[Optional[Query], bytes]:
        """The query of a joined document and its separator; None where there is none."""
        for byte in self.separators:
            separator = bytes((byte,))
            if self.has_ends and any(separator in data for _, data in batch):
                continue
            if self._known[0] != byte:
                if not self.has_ends:
                    self._known = byte, self.query
                else:
                    try:
                        self._known = byte, asked_alike(self.query, _with_ends(self.tree, byte))
                    except (QueryError, SizeError):  # groups or states more than a query has
                        self._known = byte, None
            return self._known[1], separator
        return None, b''

    def _in_one(self, query: Query, separator: bytes, batch: List[Tuple[Text, bytes]]) -> Iterator[Matches[Any]]:
        """The rows of each text by one run, a text as soon as its rows are there.

        Where a row may have no spans, of which nobody knows the text, all are waited for, and `_NoSpans` is raised at such a row.
        """
        waiting: List[Matches[Any]] = []
        rows = 0
        for found in self._by_text(query, separator, batch):
            if self.is_sure:
                yield found
                continue
            waiting.append(found)
            rows += len(found)
            if rows > _MOST_WAITING:
                raise SizeError(f'size: more than {_MOST_WAITING} rows that wait', 4, self.query.text)
        yield from waiting

    def _by_text(self, query: Query, separator: bytes, batch: List[Tuple[Text, bytes]]) -> Iterator[Matches[Any]]:
        joined = separator + separator.join(data for _, data in batch) + separator
        at, start, end = 0, 1, 1 + len(batch[0][1])  # the text that is looked at, and its place in the joined document
        document: Optional[Document] = None
        found: Matches[Any] = Matches()
        for row in query.rows(joined):
            first = min((place for place in row[::2] if place >= 0), default=None)
            if first is None:
                raise _NoSpans
            if not 0 < first < len(joined):
                continue  # before the first separator, or behind the last
            while first > end:
                yield found
                at, start, document, found = at + 1, end + 1, None, Matches()
                end = start + len(batch[at][1])
            if document is None:
                document = document_of_text(batch[at][0])
            found.append(Match(self.query, document, tuple([place - start if place >= 0 else place for place in row])))
        yield found
        for _ in batch[at + 1:]:
            yield Matches()

    # -- A text by itself

    def _apart(self, text: Text, is_only: bool = False) -> Matches[Any]:
        from .session import Server
        try:
            if is_only or len(text) > _LONG or not may_be_served(self.query):
                return self.query.findall(document_of_text(text))
            if self._server is None:
                self._server = Server(self.query.program)
            if self._served is None:
                self._served = self._server.query(self.query.text)
            found = self._served.findall(text)
            return Matches(row_of(self.query, match) for match in found)
        except (DocumentError, SizeError, OutOfMemory):  # what no session takes, a run may
            return self.query.findall(document_of_text(text))


def mapped(query: Query, inside: Optional['Compiled'], texts: Iterable[Text]) -> Iterator[Matches[Any]]:
    """The rows of each text, in order."""
    return Mapped(query).rows(texts) if inside is None else _within(query, inside, texts)


def _within(query: Query, inside: 'Compiled', texts: Iterable[Text]) -> Iterator[Matches[Any]]:
    """The rows of each text by the library in this process: of many texts together, where the program is there to print the query."""
    given = iter(texts)
    first = list(islice(given, _LEAST))
    found: Optional[Mapped] = None
    if len(first) == _LEAST:
        try:
            found = Mapped(query)
        except ProgramNotFound:
            pass
    given = chain(first, given)
    yield from _each_within(query, inside, given) if found is None else found.rows(given)


def _each_within(query: Query, inside: 'Compiled', texts: Iterable[Text]) -> Iterator[Matches[Any]]:
    rows = inside.empty()
    for number, text in enumerate(texts):
        if not isinstance(text, (str, bytes)):
            raise _no_text(number, text)
        data = _encoded(text)
        try:
            inside.read(data, rows)
        except RematchError as fault:
            fault.hint = _placed(number, fault.hint)
            raise
        found: Matches[Any] = Matches()
        document: Optional[Document] = None
        for count, numbers in rows.pages():
            document = document or document_of_text(text)
            places = iter(numbers)
            given = zip(*[places] * rows.width) if rows.width else repeat((), count)
            found.extend(map(Match, repeat(query), repeat(document), given))
        yield found


def _no_text(number: int, text: Any) -> TypeError:
    return TypeError(f'text {number} is a str or bytes, not {type(text).__name__}')


def _placed(number: int, hint: Optional[str]) -> str:
    return f'it is text {number}, counted from 0' + (f'; {hint}' if hint else '')


def _encoded(text: Text) -> bytes:
    return text.encode('utf-8', 'surrogatepass') if isinstance(text, str) else text


def _batch(given: Iterator[Text], size: int, number: int) -> Tuple[List[Tuple[Text, bytes]], Optional[TypeError], bool]:
    """The next texts with their bytes; the fault of the one behind them; whether they are the last."""
    batch: List[Tuple[Text, bytes]] = []
    length = 0
    for text in given:
        if not isinstance(text, (str, bytes)):
            return batch, _no_text(number + len(batch), text), True
        batch.append((text, _encoded(text)))
        length += len(batch[-1][1]) + 1
        if len(batch) >= size or length >= _MOST_BYTES:
            return batch, None, False
    return batch, None, True
