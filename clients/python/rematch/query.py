"""A query, and the ways to ask it."""
from __future__ import annotations

import os
from array import array
from itertools import repeat
from json import loads
from typing import IO, TYPE_CHECKING, Any, Callable, Dict, Iterable, Iterator, List, Optional, Sequence, Tuple, Union, overload

from .documents import Document, Source, open_document
from .faults import ProgramError
from .library import compiled, numbers_view
from .match import Match, Matches, Page, Row, Variables
from .program import Run, find_program

if TYPE_CHECKING:
    from .replace import Replacement

__all__ = ['Query', 'asked_alike', 'flat_places', 'may_be_served']

_COMMAS = bytes.maketrans(b'-\t\n', b',,,')
_Bytes = Union[bytes, bytearray, memoryview, 'os.PathLike[str]', 'os.PathLike[bytes]', IO[bytes]]
_Text = Union[str, IO[str]]


class Query(Variables):
    r"""A query, ready to be asked of any number of documents.

    ``text`` is a query as docs/LANGUAGE.md has it, a ``str`` or UTF-8. ``filter`` has the program read only where some
    atom touches the document, and ``max_table`` (1 to 100,000,000) is the most that the table of a reading may weigh;
    neither changes an answer. ``program`` is the program's path, where it is not that of `find_program`.

    Where the library ``librematch.so.1`` is beside the package, queries are answered by it in this process, with the same rows and
    the same faults. ``program``, or REMATCH of the environment, has every query run that program, and REMATCH_LIBRARY names
    another library, or ``none``.

    A text that is no query raises `QueryError`, and a program that is not there `ProgramNotFound`. A query whose
    automata are too large raises `SizeError` when it is asked.

    >>> query = Query(r'/from !address{[\d.]+} port/')
    >>> query.variables
    ('address',)
    >>> [match['address'] for match in query.finditer('from 192.0.2.7 port 22')]
    ['192.0.2.7']

    Each way to ask takes a document as `Document` tells, and raises `DocumentError` where it cannot be read or is longer
    than 268,435,456 bytes, `SizeError`, `OutOfMemory`, and `ProgramError` where the program dies. A way that gives rows
    one by one runs the program beside the caller, and waits where nobody takes rows; leaving it ends the program.
    """

    def __init__(self, text: Union[str, bytes], *, filter: bool = False, max_table: Optional[int] = None,
                 program: Union[None, str, 'os.PathLike[str]'] = None) -> None:
        self.text: bytes = text if isinstance(text, bytes) else text.encode('utf-8', 'surrogateescape')
        self._given = (text, filter, max_table, program)
        self._program: Optional[str] = None if program is None else os.fspath(program)
        self._explanation: Optional[str] = None
        self._words: List[str] = ['--filter'] * bool(filter)
        if max_table is not None:
            if not 1 <= max_table <= 100_000_000:
                raise ValueError(f'max_table is 1 to 100000000, not {max_table}')
            self._words.append(f'--max-table={max_table}')
        self._inside = compiled(self.text, bool(filter), max_table, program is not None)
        super().__init__(self._names() if self._inside is None else self._inside.variables)
        self._head: bytes = '\t'.join(self.variables).encode() or b'()'

    @classmethod
    def from_file(cls, path: Union[str, 'os.PathLike[str]'], **words: Any) -> 'Query':
        """The query that a file holds; ``words`` are those of `Query`.

        >>> import tempfile
        >>> with tempfile.NamedTemporaryFile() as file:
        ...     size = file.write(b'/!x{a}/'), file.flush()
        ...     Query.from_file(file.name)
        rematch.Query('/!x{a}/')
        """
        with open(path, 'rb') as file:
            return cls(file.read(), **words)

    def __repr__(self) -> str:
        return f'rematch.Query({self.text.decode("utf-8", "backslashreplace")!r})'

    def __reduce__(self) -> Tuple[Any, ...]:
        return _again, self._given

    # -- What it is

    @property
    def program(self) -> str:
        """The path of the program that it runs."""
        if self._program is None:
            self._program = find_program()
        return self._program

    @property
    def explanation(self) -> str:
        """What ``--explain`` writes of it."""
        if self._explanation is None:
            self._explanation = self._explained()
        return self._explanation

    def _explained(self) -> str:
        within = None if self._inside is None else self._inside.explanation()
        if within is not None:
            return within
        run = Run(self.program, self.text, [*self._words, '--explain'], None)
        try:
            return run.output().decode('utf-8', 'backslashreplace')
        finally:
            run.close()

    def _names(self) -> Tuple[str, ...]:
        for line in self.explanation.split('\n'):
            if line.startswith('variables '):
                names = line.split(' ')[1:]
                return () if names == ['none'] else tuple(names)  # no variable is called none
        raise ProgramError(f'{self.program!r} does not tell the variables of the query: is it rematch?')

    @property
    def printed(self) -> str:
        """The query as the program prints it, over bytes.

        >>> Query(r'/!x{[cab]}/').printed
        '/!x{[a-c]}/'
        """
        return self.explanation.split('\n', 1)[0][len('query '):]

    # -- Running

    def _run(self, document: Document, words: Sequence[str], keep: bool) -> Run:
        with document.opened(keep=keep) as file:
            return Run(self.program, self.text, [*self._words, '-f=table', *words], file)

    def _pieces(self, run: Run) -> Iterator[bytes]:
        """The lines of the rows, in pieces of whole lines; the head of the table is not among them."""
        pieces = iter(run)
        for lines in pieces:
            head, _, lines = lines.partition(b'\n')
            if head != self._head:
                raise ProgramError(f'{self.program!r} wrote another head than the variables: {head[:80]!r}')
            if lines:
                yield lines
            break
        yield from pieces

    def _numbers(self, lines: bytes) -> List[int]:
        """The places of some lines, one after another; an absent span is -1, -1."""
        if lines.startswith(b'-') or b'\t-' in lines or b'\n-' in lines:
            lines = (b'\n' + lines).replace(b'\n-', b'\n~').replace(b'\t-', b'\t~')[1:]
            listed = lines.translate(_COMMAS).replace(b'~', b'-1,-1')
        else:
            listed = lines.translate(_COMMAS)
        try:
            numbers: List[int] = loads(b'[' + listed[:-1] + b']')  # the quickest way to many numbers
        except ValueError:
            numbers = []
        if len(numbers) != 2 * len(self.variables) * lines.count(b'\n'):
            raise ProgramError(f'{self.program!r} wrote lines that are no rows: {lines[:80]!r}')
        return numbers

    def _rows(self, lines: bytes, document: Optional[Document]) -> Iterator[Row]:
        """The rows of some lines; in bytes where no document is given, else as the document counts."""
        if not self.variables:
            return iter([()] * lines.count(b'\n'))
        numbers = self._numbers(lines)
        places = iter(numbers if document is None else document.told(numbers))
        return zip(*[places] * (2 * len(self.variables)))

    # -- In this process

    def _is_within(self, after: str) -> bool:
        """Whether the library gives the rows behind this cursor."""
        return self._inside is not None and (after == 'start' or self._inside.goes_on)

    def _within(self, document: Document, after: str, limit: Optional[int], is_told: bool) -> Iterator[Row]:
        """The rows by the library; in bytes, or as the document counts."""
        assert self._inside is not None
        for rows, numbers in self._inside.open(document.data, after).pages(limit):
            if not self.variables:
                yield from repeat((), rows)
                continue
            places = iter(document.told(numbers) if is_told else numbers)
            yield from zip(*[places] * (2 * len(self.variables)))

    # -- Asking

    @overload
    def finditer(self, document: _Bytes, *, after: str = ..., limit: Optional[int] = ...) -> Iterator[Match[bytes]]: ...

    @overload
    def finditer(self, document: _Text, *, after: str = ..., limit: Optional[int] = ...) -> Iterator[Match[str]]: ...

    @overload
    def finditer(self, document: Document, *, after: str = ..., limit: Optional[int] = ...) -> Iterator[Match[Any]]: ...

    def finditer(self, document: Source, *, after: str = 'start', limit: Optional[int] = None) -> Iterator[Match[Any]]:
        """The rows in their order, one by one, as they come.

        ``after`` is a cursor (`Match.cursor`): only rows behind it are given; a text that is no cursor of this query and
        document raises `CursorError`. ``limit`` is the most rows. Closing the iterator, or dropping it, ends the program.

        >>> rows = Query('/!x{a+}/').finditer(b'aab')
        >>> next(rows)
        <rematch.Match x=0-1>
        >>> rows.close()
        """
        return self._matches(open_document(document), _asked(after, limit), after, limit)

    def _matches(self, document: Document, words: Sequence[str], after: str, limit: Optional[int]) -> Iterator[Match[Any]]:
        if self._is_within(after):
            yield from map(Match, repeat(self), repeat(document), self._within(document, after, limit, False))
            return
        run = self._run(document, words, keep=True)
        try:
            for lines in self._pieces(run):
                yield from map(Match, repeat(self), repeat(document), self._rows(lines, None))
        finally:
            run.close()

    @overload
    def findall(self, document: _Bytes, *, after: str = ..., limit: Optional[int] = ...) -> Matches[bytes]: ...

    @overload
    def findall(self, document: _Text, *, after: str = ..., limit: Optional[int] = ...) -> Matches[str]: ...

    @overload
    def findall(self, document: Document, *, after: str = ..., limit: Optional[int] = ...) -> Matches[Any]: ...

    def findall(self, document: Source, *, after: str = 'start', limit: Optional[int] = None) -> Matches[Any]:
        """The rows as a list, which a notebook shows over the document; the words are those of `finditer`.

        >>> Query('/!x{a+}/').findall(b'aab')
        [<rematch.Match x=0-1>, <rematch.Match x=0-2>, <rematch.Match x=1-2>]
        """
        return Matches(self.finditer(document, after=after, limit=limit))

    def search(self, document: Source, *, after: str = 'start') -> Optional[Match[Any]]:
        """The first row (behind the cursor), or None where there is none.

        >>> Query('/!x{a+}/').search('baa')
        <rematch.Match x=1-2>
        """
        found = self.findall(document, after=after, limit=1)
        return found[0] if found else None

    def match(self, document: Source) -> Optional[Match[Any]]:
        """The first row whose first span begins where the document does, or None where there is none.

        >>> query = Query('/!x{a+}/')
        >>> query.match('aab'), query.match('baa')
        (<rematch.Match x=0-1>, None)
        """
        found = self.search(document)  # rows that begin there come before all others
        return found if found is not None and found.extent is not None and found.extent[0] == 0 else None

    def fullmatch(self, document: Source) -> Optional[Match[Any]]:
        """The first row whose spans reach from the start of the document to its end, or None where there is none.

        >>> Query('/!x{a+}!y{b?}/').fullmatch('aab'), Query('/!x{a+}/').fullmatch('aab')
        (<rematch.Match x=0-2 y=2-3>, None)
        """
        opened = open_document(document)
        for found in self.finditer(opened):
            if found.extent is None or found.extent[0] > 0:
                return None
            if found.extent[1] == len(opened):
                return found
        return None

    def split(self, document: Source, *, name: Optional[str] = None, count: int = 0) -> List[Any]:
        """What is between the spans of a variable: of the one that the query has, of several of ``name``.

        Spans are taken as `sub` takes them, with ``count`` at most so many; an empty span splits nothing.

        >>> Query('/!x{, *}/').split('a, b,c')
        ['a', 'b', 'c']
        """
        from .replace import pieces_between
        return pieces_between(self, open_document(document), name, count)

    def sub(self, replacement: 'Replacement', document: Source, *, name: Optional[str] = None,
            count: int = 0) -> Union[str, bytes]:
        r"""The document with the spans of a variable replaced: of the one that the query has, of several of ``name``.

        Spans are taken from the left, of those that begin at one place the longest, and none that overlaps one before; with
        ``count`` at most so many. ``replacement`` is a function of the `Match`, of several rows with the span the first, or a
        text in which ``\g<x>`` is what the variable x takes in it. Of a ``str`` the answer is a ``str``, else bytes.

        >>> query = Query(r'/!user{\w+}@!host{\w+};/')
        >>> query.sub(r'\g<host>', 'ann@one; bob@two;', name='user')
        'one@one; two@two;'
        >>> query.sub(lambda match: match['host'].upper(), 'ann@one;', name='host')
        'ann@ONE;'
        """
        from .replace import replaced
        return replaced(self, replacement, open_document(document), name, count)

    @overload
    def page(self, document: _Bytes, size: int, *, after: str = ...) -> Page[bytes]: ...

    @overload
    def page(self, document: _Text, size: int, *, after: str = ...) -> Page[str]: ...

    @overload
    def page(self, document: Document, size: int, *, after: str = ...) -> Page[Any]: ...

    def page(self, document: Source, size: int, *, after: str = 'start') -> Page[Any]:
        """At most ``size`` rows behind the cursor ``after``, as a list whose ``cursor`` goes on, or is None at the end.

        Each page reads the document anew: pages are for going on another day, `finditer` for going on now.

        >>> query = Query('/!x{a}/')
        >>> page = query.page(b'aaa', 2)
        >>> page, page.cursor
        ([<rematch.Match x=0-1>, <rematch.Match x=1-2>], 'c2:3;x:1-2')
        >>> page = query.page(b'aaa', 2, after=page.cursor)
        >>> page, page.cursor
        ([<rematch.Match x=2-3>], None)
        """
        opened = open_document(document)
        words = _asked(after, size)
        if self._is_within(after) and size > 0:
            within = Page(self._matches(opened, words, after, size + 1))
            if len(within) > size:
                del within[size:]
                within.cursor = within[-1].cursor
            return within
        run = self._run(opened, words, keep=True)
        try:
            page: Page[Any] = Page(Match(self, opened, row) for lines in self._pieces(run) for row in self._rows(lines, None))
        finally:
            run.close()
        page.cursor = run.note[len('more '):] if run.note.startswith('more ') else None
        return page

    def any(self, document: Source, *, after: str = 'start') -> bool:
        """Whether there is a row (behind the cursor).

        >>> Query('/aba/').any(b'xxabab'), Query('/aba/').any(b'xx')
        (True, False)
        """
        words = _asked(after, 0)
        if self._is_within(after):
            return next(self._within(open_document(document), after, 1, False), None) is not None
        run = self._run(open_document(document), words, keep=False)
        try:
            run.output()
        finally:
            run.close()
        return run.note != 'end'

    def count(self, document: Source) -> int:
        """How many rows there are.

        >>> Query('/!x{a*}/').count(b'aaaa')
        15
        """
        if self._inside is not None:
            return self._inside.open(open_document(document).data).count()
        run = self._run(open_document(document), (), keep=False)
        try:
            return sum(lines.count(b'\n') for lines in self._pieces(run))
        finally:
            run.close()

    def map(self, texts: Iterable[Union[str, bytes]]) -> Iterator[Matches[Any]]:
        """The rows of each of many texts, as a list a text, in order; what each gives is what `findall` gives of it.

        Texts are searched together, so that short ones cost little. A fault is raised in the place of its text.

        >>> [[match['x'] for match in found] for found in Query('/^!x{[a-z]+}=/').map(['one=1', 'two', 'three=3'])]
        [['one'], [], ['three']]
        """
        from .many import mapped
        return mapped(self, self._inside, texts)

    def follow(self, source: 'Union[str, os.PathLike[str], IO[bytes]]', *, from_end: bool = False, wait: float = 0.2,
               quiet: Optional[float] = None, until: Optional[Callable[[], bool]] = None) -> Iterator[Match[bytes]]:
        """The rows of a file that grows, as they come, as ``tail -f`` has its lines.

        ``source`` is an open binary file, which ends by itself, or a path, also as a ``str``, which is looked at every ``wait``
        seconds. Following a path ends when ``quiet`` seconds brought nothing new, or where ``until`` is true then; with
        ``from_end`` the rows that the file already has are not given. Where another file has the name, or the file was cut,
        it is read from its start, also where it was filled again past its old length.

        Whole lines are searched, with as many before them as the query reaches, so that each step costs what is new; `NoReach`
        says why a query has no reach. Each row is given once. Of a query with ``minus`` or ``$`` a row comes when as many lines
        follow it as the query reaches. What has no line feed is searched at the end.

        >>> import io
        >>> [(match.span('x'), match['x']) for match in Query('/!x{[0-9]+} up/').follow(io.BytesIO(b'7 up, 8 up'))]
        [((0, 1), b'7'), ((6, 7), b'8')]
        """
        from .follow import followed
        return followed(self, source, from_end, wait, quiet, until)

    def rows(self, document: Source, *, after: str = 'start', limit: Optional[int] = None) -> Iterator[Row]:
        """The rows as flat tuples, start and end of each variable in turn, -1 and -1 for an absent one.

        Twice as fast as `finditer`, whose words it takes; places are counted as there.

        >>> list(Query('/(!x{a})?!y{b}/').rows(b'ab'))
        [(0, 1, 1, 2), (-1, -1, 1, 2)]
        """
        return self._flat(open_document(document), _asked(after, limit), after, limit)

    def _flat(self, document: Document, words: Sequence[str], after: str, limit: Optional[int]) -> Iterator[Row]:
        if self._is_within(after):
            yield from self._within(document, after, limit, True)
            return
        run = self._run(document, words, keep=False)
        try:
            for lines in self._pieces(run):
                yield from self._rows(lines, document)
        finally:
            run.close()

    def columns(self, document: Source) -> 'Dict[str, Tuple[array[int], array[int]]]':
        """For each variable the starts and the ends of all rows, as arrays of 64-bit numbers; -1 where it is absent.

        ``numpy.asarray`` takes such an array without copying it.

        >>> Query('/(!x{a})?!y{b}/').columns(b'ab')
        {'x': (array('q', [0, -1]), array('q', [1, -1])), 'y': (array('q', [1, 1]), array('q', [2, 2]))}
        """
        flat, _ = flat_places(self, open_document(document), kind='q')
        step = 2 * len(self.variables)
        return {name: (flat[2 * k::step], flat[2 * k + 1::step]) for k, name in enumerate(self.variables)}

    def spans(self, document: Source, *, after: str = 'start') -> Any:
        """All rows as one array of 32-bit numbers with a line a row: start and end of each variable in turn, -1 and -1 for an
        absent one.

        ``after`` is a cursor, as of `finditer`: only rows behind it are given. Where numpy is installed the array is one of
        its own, else a ``memoryview``, of which an empty one has one dimension. With the library, of bytes, it is the memory that
        the library wrote, which nobody else has.

        >>> Query('/(!x{a})?!y{b}/').spans(b'ab').tolist()
        [[0, 1, 1, 2], [-1, -1, 1, 2]]
        >>> Query('/!x{a}/').spans(b'aa', after='c2:2;x:0-1').tolist()
        [[1, 2]]
        """
        opened = open_document(document)
        width = 2 * len(self.variables)
        if self._inside is not None and self._is_within(after) and opened.places is None:
            rows, numbers = self._inside.open(opened.data, after).all()
            return numbers_view(rows, width, numbers)
        flat, rows = flat_places(self, opened, after)
        return numbers_view(rows, width, flat)

    def _many_numbers(self, document: Document, after: str) -> Iterator[Tuple[int, List[int]]]:
        """How many rows there are next, and their places, some at a time, as the document counts."""
        if self._inside is not None and self._is_within(after):
            for rows, numbers in self._inside.open(document.data, after).pages():
                yield rows, document.told(numbers)
            return
        run = self._run(document, _asked(after, None), keep=False)
        try:
            for lines in self._pieces(run):
                yield lines.count(b'\n'), document.told(self._numbers(lines)) if self.variables else []
        finally:
            run.close()

    def table(self, document: Source, *, encoding: Optional[str] = None) -> Dict[str, Sequence[Any]]:
        """The rows as columns of one table: of each variable x the columns ``x_start``, ``x_end`` and ``x``, its text.

        ``pandas.DataFrame`` takes it as it is. An absent variable has -1, -1 and None. With ``encoding``, as ``'utf-8'``, the
        document is read as text, as `Document` does it: its places count characters, and texts are ``str``.

        >>> Query('/(!x{a})?!y{b}/').table('ab')
        {'x_start': array('q', [0, -1]), 'x_end': array('q', [1, -1]), 'x': ['a', None],
         'y_start': array('q', [1, 1]), 'y_end': array('q', [2, 2]), 'y': ['b', 'b']}
        """
        opened = open_document(document) if encoding is None else Document(document, encoding)
        opened.data  # read once, so that places and texts are of the same bytes
        table: Dict[str, Sequence[Any]] = {}
        for name, (starts, ends) in self.columns(opened).items():
            table[name + '_start'], table[name + '_end'] = starts, ends
            table[name] = [None if start < 0 else opened.text(start, end) for start, end in zip(starts, ends)]
        return table

    def arrow(self, documents: Any, *, encoding: Optional[str] = None) -> Any:
        """The rows of documents as a table of ``pyarrow``, which must be installed; else `ImportError`.

        ``documents`` is one document, several, or a mapping of names to documents. The table has the columns ``document``, which is
        a name, a path, or of a text how many are before it, and of each variable x ``x_start``, ``x_end`` and ``x``. Places are
        numbers of 32 bits, which are not copied. Documents and texts are dictionaries. An absent variable is null. Of a ``str``, and
        with ``encoding``, texts are strings, else binary. ``polars.from_arrow`` takes the table.

        >>> Query('/(!x{a})?!y{b}/').arrow(['ab', 'b']).to_pydict()
        {'document': ['0', '0', '1'], 'x_start': [0, None, None], 'x_end': [1, None, None], 'x': ['a', None, None],
         'y_start': [1, 1, 0], 'y_end': [2, 2, 1], 'y': ['b', 'b', 'b']}
        """
        from .arrow import table_of_documents
        return table_of_documents(self, documents, encoding)


def flat_places(query: Query, document: Document, after: str = 'start', kind: str = 'i') -> 'Tuple[array[int], int]':
    """The places of all rows, one after another, as numbers of that kind, and how many rows there are."""
    flat, rows = array(kind), 0
    for some, places in query._many_numbers(document, after):
        rows += some
        flat.extend(places)
    return flat, rows


def asked_alike(query: Query, text: bytes) -> Query:
    """The query of another text, with the words of this one."""
    _, filter, max_table, program = query._given
    return Query(text, filter=filter, max_table=max_table, program=program)


def may_be_served(query: Query) -> bool:
    """Whether sessions may answer the query: it has no words, which no session takes, and the library does not answer it."""
    return not query._words and query._inside is None


def _asked(after: str, limit: Optional[int]) -> List[str]:
    if limit is not None and limit < 0:
        raise ValueError(f'a limit is 0 or more, not {limit}')
    return [f'-a={after}'] + ([] if limit is None else [f'-n={limit}'])


def _again(text: Union[str, bytes], filter: bool, max_table: Optional[int], program: Optional[str]) -> Query:
    return Query(text, filter=filter, max_table=max_table, program=program)
