"""Many queries of small documents, and documents that grow, in one run of the program: ``rematch --serve``.

A request is a line of JSON, and so is its reply. A document is UTF-8 here; its rows come without their texts, so the client
keeps it.
"""
from __future__ import annotations

import json
import subprocess
import threading
from array import array
from itertools import accumulate
from typing import Any, Dict, Iterable, Iterator, List, Optional, Set, Union

from .documents import BEGINS, Document
from .faults import DocumentError, OutOfMemory, ProgramError, QueryError, RematchError, SizeError, error_of
from .match import Match, Matches, Row, Variables
from .program import find_program, serving

__all__ = ['Server', 'Served', 'Session', 'SessionError']

LONGEST_REQUEST = 1_048_576  # bytes of a request
_MOST_ROWS = 1000  # of one request
_PART = 150_000  # characters of a document that are sent at once where it does not fit one request
_WAITED = 10  # seconds that a server has to end once its input has ended

_Text = Union[str, bytes]


_MEMBERS: Dict[str, Dict[str, type]] = {'open': {'query': str, 'doc': str}, 'next': {'n': int}, 'grow': {'text': str},
                                        'close': {}}


class SessionError(RematchError, RuntimeError):
    """A request that is refused: it is none, its session is not open or is lost with its server, or 64 are open already."""


def refusal(request: Any) -> Optional[str]:
    """Why this is no request; None where it is one.

    >>> refusal({'op': 'next', 'id': 1, 'n': 5000}), refusal({'op': 'close', 'id': 1})
    ('n is a whole number from 1 to 1000, not 5000', None)
    """
    if not isinstance(request, dict):
        return f'it is an object with the members op and id, not {type(request).__name__}'
    op = request.get('op')
    if not isinstance(op, str) or op not in _MEMBERS:
        return f'op is one of {", ".join(_MEMBERS)}, not {op!r}'
    wanted: Dict[str, type] = {'id': int, **_MEMBERS[op]}
    for name in (*wanted, *request):
        if name not in request:
            return f'{op} has the members op, {", ".join(wanted)}, and {name} is missing'
        if name != 'op' and name not in wanted:
            return f'{op} has the members op, {", ".join(wanted)}, and no {name!r}'
    for name, kind in wanted.items():
        value = request[name]
        least, most = (0, (1 << 32) - 1) if name == 'id' else (1, _MOST_ROWS)
        if kind is int and (type(value) is not int or not least <= value <= most):
            return f'{name} is a whole number from {least} to {most}, not {value!r}'
        if kind is str and not isinstance(value, str):
            return f'{name} is a str, not {type(value).__name__}'
    return None


def _fault(told: str, query: bytes) -> RematchError:
    if told.startswith('query: '):
        return QueryError(told, 3, query)
    if told.startswith('size: '):
        fault = SizeError(told, 4, query)
        if 'table' in told:
            fault.hint = 'a session has this limit; Query takes max_table'
        return fault
    if told == 'memory':
        return OutOfMemory('out of memory', 9, query)
    if told == 'long':
        return DocumentError('document longer than 16777216 bytes', 6, query)
    notes = {'full': '64 sessions are open', 'not open': 'the session is not open', 'taken': 'a session with this id is open',
             'request': 'the server does not know this request'}
    return SessionError(notes.get(told, told), None, query)


class Server:
    """A program that answers many queries, one after another or several at a time, and ends with the ``with`` block.

    ``program`` is its path, where it is not that of `find_program`, and ``memory`` the most bytes of memory that it may take, where
    that is limited. Threads may share a server: requests are answered one by one. A program without sessions raises `ProgramError`.

    A server that dies raises `ProgramError` at the request that it does not answer. The next `query` or `open` starts it
    anew, which ``restarts`` counts, and each session of before raises `SessionError`, since it is lost.

    >>> with Server() as server:
    ...     query = server.query('/!x{a+}/')
    ...     print([match['x'] for match in query.finditer('aab')])
    ['a', 'aa', 'a']
    """

    def __init__(self, program: Optional[str] = None, *, memory: Optional[int] = None) -> None:
        self.program = find_program() if program is None else program
        self.memory = memory
        self._lock = threading.Lock()
        self._numbers = 0
        self._asked: Set[int] = set()  # sessions that are open by `ask`
        self._is_closed = False
        self._lost: Optional[str] = None  # why the program ended, where it has
        self.restarts = 0
        self._start()

    def _start(self) -> None:
        self._process = serving(self.program, self.memory)
        self._lost = None
        self._asked.clear()

    def __enter__(self) -> 'Server':
        return self

    def __exit__(self, *fault: Any) -> None:
        self.close()

    def __del__(self) -> None:
        process = getattr(self, '_process', None)
        if process is not None and process.poll() is None:
            process.kill()
            process.wait()
            self._release()

    def close(self) -> None:
        """End the server, and all its sessions. A server that has died raises its fault, where no request has raised it."""
        with self._lock:
            self._is_closed = True
            process = self._process
            if process.stdin is None or process.stdin.closed:
                return
            try:
                process.stdin.close()
            except BrokenPipeError:
                pass
            try:
                process.wait(_WAITED)
            except subprocess.TimeoutExpired:
                process.kill()
            self._end()

    def kill(self) -> None:
        """End the program at once, as from another thread when a request takes too long; that request raises `ProgramError`.

        >>> with Server() as server:
        ...     server.kill()
        ...     server.query('/!x{a}/').count('aa'), server.restarts
        (2, 1)
        """
        process = self._process
        process.kill()
        process.wait()

    def _end(self) -> None:
        """Waits for the program's end, and raises its fault where it did not end well."""
        assert self._process.stderr is not None
        told = self._process.stderr.read().decode('utf-8', 'backslashreplace').strip()
        status = self._process.wait()
        self._release()
        self._lost = f'ended by signal {-status}' if status < 0 else f'ended with status {status}' + (f', {told}' if told else '')
        if status == 2:
            raise ProgramError(f'{self.program!r} knows no sessions (--serve)', status)
        if status:
            raise error_of(status, told)
        if told != 'end':
            raise ProgramError(f'{self.program!r} ended without its note: does it know --serve?')

    def _release(self) -> None:
        for stream in (self._process.stdin, self._process.stdout, self._process.stderr):
            if stream is not None:
                try:
                    stream.close()
                except BrokenPipeError:
                    pass

    def _give_up(self, why: str) -> None:
        """Ends a program whose replies cannot be trusted any more."""
        self._process.kill()
        self._process.wait()
        self._release()
        self._lost = why

    def _alive(self, is_open: bool, restarts: int) -> None:
        """Starts the program anew for a session that is new, and raises `SessionError` for one that is lost."""
        if self._is_closed:
            raise SessionError('the server is closed')
        if is_open and (self._lost is not None or self._process.poll() is not None):
            self._release()
            self._start()
            self.restarts += 1
        elif not is_open and (self._lost is not None or restarts != self.restarts):
            why = f', which {self._lost}' if self._lost is not None else ''
            raise SessionError(f'the session is lost with its server{why}: open it anew')

    def _ask(self, request: Dict[str, Any], query: bytes, restarts: Optional[int] = None) -> Dict[str, Any]:
        """The reply to a request; an error reply is raised. ``restarts`` are those of when its session was opened."""
        try:
            return self._answer(request, query, restarts)
        except RematchError as fault:
            fault.request, fault.query = request, query
            raise

    def _answer(self, request: Dict[str, Any], query: bytes, restarts: Optional[int]) -> Dict[str, Any]:
        line = _line(request)
        if len(line) > LONGEST_REQUEST:
            raise DocumentError(f'request longer than {LONGEST_REQUEST} bytes', 6, query)
        with self._lock:
            self._alive(request.get('op') == 'open', self.restarts if restarts is None else restarts)
            process = self._process
            assert process.stdin is not None and process.stdout is not None
            try:
                process.stdin.write(line + b'\n')
                process.stdin.flush()
                reply = process.stdout.readline()
            except BrokenPipeError:
                reply = b''
            if not reply.endswith(b'\n'):
                self._end()
                raise ProgramError(f'{self.program!r} ended before it answered')
            try:
                found: Dict[str, Any] = json.loads(reply)
                told = found.get('error')
                has_id = told == 'request' or found['id'] == request['id']
            except (ValueError, AttributeError, KeyError):
                self._give_up('wrote a line that is no reply')
                raise ProgramError(f'{self.program!r} wrote a line that is no reply: {reply[:80]!r}') from None
            if not has_id:
                self._give_up('answered another request')
                raise ProgramError(f'{self.program!r} answered another request: {reply[:80]!r}')
        if told is not None:
            raise _fault(told, query)
        return found

    def ask(self, request: Dict[str, Any]) -> Dict[str, Any]:
        """The reply to a request as docs/FORMATS.md has it ("Sessions"), for those who number their sessions themselves.

        What is no request is not sent, since the program tells no reason: it raises `SessionError` with the reason. Nor is one
        of more than 1,048,576 bytes, at which the program ends: it raises `DocumentError`. An error reply is raised as
        everywhere; a fault has the ``request``.

        >>> with Server() as server:
        ...     server.ask({'op': 'open', 'id': 7, 'query': '/!x{a}/', 'doc': 'a'}), server.ask({'op': 'next', 'id': 7, 'n': 9})
        ({'id': 7, 'variables': ['x']}, {'id': 7, 'more': False, 'rows': [{'x': [0, 1]}]})
        """
        reason = refusal(request)
        try:
            if reason is None:
                _line(request)
        except UnicodeError as fault:
            reason = f'it is no UTF-8: {fault}'
        if reason is not None:
            refused = SessionError('no request: ' + reason)
            refused.request = request
            raise refused
        reply = self._ask(request, request.get('query', '').encode('utf-8'))
        with self._lock:
            if request['op'] == 'open':
                self._asked.add(request['id'])
            elif request['op'] == 'close':
                self._asked.discard(request['id'])
        return reply

    def _number(self) -> int:
        with self._lock:
            while True:
                self._numbers = (self._numbers + 1) % (1 << 32)
                if self._numbers not in self._asked:
                    return self._numbers

    # -- What is asked

    def query(self, text: _Text) -> 'Served':
        """A query that this server answers. A text that is no query raises `QueryError`, one that is too large `SizeError`.

        >>> with Server() as server:
        ...     server.query('/!x{a}/').variables
        ('x',)
        """
        return Served(self, text)

    def open(self, text: _Text, document: _Text = '') -> 'Session':
        """A session: a query on a document that may grow. The document is a ``str``, whose places count characters, or UTF-8.

        Raises `QueryError`, `SizeError`, `DocumentError` for a document that is no UTF-8 or has more than 16,777,216 bytes, and
        `SessionError` where 64 sessions are open.

        >>> with Server() as server, server.open('/!x{a}/', 'ba') as session:
        ...     session.next()
        [<rematch.Match x=1-2>]
        """
        return Session(self, text, document)


def _line(request: Dict[str, Any]) -> bytes:
    return json.dumps(request, ensure_ascii=False, separators=(',', ':')).encode('utf-8')


def _decoded(part: _Text) -> str:
    try:
        if isinstance(part, str):
            part.encode('utf-8')
            return part
        return bytes(part).decode('utf-8')
    except UnicodeError as fault:
        raise DocumentError(f'a document of a session is UTF-8: {fault}', 5) from None


class _Kept:
    """The document of a session, which only grows, in parts that are put together when a text is asked for."""

    def __init__(self, is_text: bool) -> None:
        self.is_text = is_text
        self.parts: List[Any] = ['' if is_text else b'']
        self.length = 0  # in bytes
        self.places: 'Optional[array[int]]' = None  # of a text that is not ASCII, without the -1 at the end

    def append(self, part: _Text) -> None:
        data = part.encode('utf-8') if isinstance(part, str) else part
        if self.is_text and (self.places is not None or len(data) != len(part)):
            if self.places is None:
                self.places = array('i', range(self.length + 1))
            before = self.places[-1]
            found = accumulate(data.translate(BEGINS), initial=before)
            next(found)
            self.places.extend(found)
        self.length += len(data)
        self.parts.append(part)

    def whole(self) -> Any:
        if len(self.parts) > 1:
            self.parts[:] = [self.parts[0][:0].join(self.parts)]
        return self.parts[0]


class _Grown(Document):
    """The document of a session as it was when a row was given."""

    __slots__ = ('_kept', '_bytes')

    def __init__(self, kept: _Kept) -> None:
        super().__init__(b'')
        self._kept = kept
        self._bytes = kept.length
        self.places = kept.places

    @property
    def data(self) -> bytes:
        """The bytes of the document."""
        whole = self._kept.whole()
        return (whole.encode('utf-8') if self._kept.is_text else whole)[:self._bytes]  # type: ignore[no-any-return]

    @property
    def length(self) -> int:
        """The number of bytes."""
        return self._bytes

    def __len__(self) -> int:
        return self._bytes if self.places is None else self.places[self._bytes]

    def text(self, start: int, end: int) -> _Text:
        """What stands from one place to another, both as they are told."""
        return self._kept.whole()[start:end]  # type: ignore[no-any-return]


class Session:
    """A query on a document that may grow, answered by a server. Iterating gives the rows that are left, as `next` does.

    ``variables`` are those of the query. Leaving the ``with`` block, or closing the server, closes the session.
    """

    def __init__(self, server: Server, text: _Text, document: _Text) -> None:
        self._server = server
        self._query = text if isinstance(text, bytes) else text.encode('utf-8', 'surrogateescape')
        self._number = server._number()
        self._kept = _Kept(isinstance(document, str))
        self._is_open = False
        self.more = True
        """Whether rows may be left; False once the last one was given."""
        shown = _decoded(document)
        try:
            asked = self._query.decode('utf-8')
        except UnicodeDecodeError as fault:
            raise QueryError(f'query: not UTF-8 at {fault.start}', 3, self._query) from None
        request = {'op': 'open', 'id': self._number, 'query': asked, 'doc': shown}
        is_short = len(shown) < LONGEST_REQUEST and len(_line(request)) <= LONGEST_REQUEST
        if not is_short:
            request['doc'] = ''
        reply = server._ask(request, self._query)
        self._restarts = server.restarts
        self._is_open = True
        self._named = Variables(reply['variables'])
        self.variables = self._named.variables
        if is_short:
            self._kept.append(document)
        else:
            try:
                self.append(document)
            except BaseException:
                self.close()
                raise
        self._document = _Grown(self._kept)

    def __enter__(self) -> 'Session':
        return self

    def __exit__(self, *fault: Any) -> None:
        self.close()

    @property
    def length(self) -> int:
        """The number of bytes of the document."""
        return self._kept.length

    def _ask(self, **request: Any) -> Dict[str, Any]:
        if not self._is_open:
            raise SessionError('the session is not open', None, self._query)
        try:
            return self._server._ask({**request, 'id': self._number}, self._query, self._restarts)
        except (SizeError, OutOfMemory):
            self._is_open = False  # the server has closed it
            raise

    def next(self, most: int = _MOST_ROWS) -> Matches[Any]:
        """The next rows, at most so many (1 to 1,000), or all that are left; after `append` they begin anew at the first.

        ``more`` then tells whether rows are left.

        >>> with Server() as server, server.open('/!x{a+}/', 'aa') as session:
        ...     session.next(2), session.more, session.next(2), session.more
        ([<rematch.Match x=0-1>, <rematch.Match x=0-2>], True, [<rematch.Match x=1-2>], False)
        """
        if not 1 <= most <= _MOST_ROWS:
            raise ValueError(f'a request gives 1 to {_MOST_ROWS} rows, not {most}')
        reply = self._ask(op='next', n=most)
        self.more = reply['more']
        return Matches(Match(self._named, self._document, self._row(row)) for row in reply['rows'])

    def _row(self, told: Dict[str, Optional[List[int]]]) -> Row:
        return tuple([place for name in self.variables for place in (told[name] or (-1, -1))])

    def __iter__(self) -> Iterator[Match[Any]]:
        while self.more:
            yield from self.next()

    def append(self, text: _Text) -> None:
        """Let the document grow at its end, by a ``str`` or by UTF-8, as it began; its rows begin anew at the first.

        A document that would have more than 16,777,216 bytes raises `DocumentError`, and stays as it was.

        >>> with Server() as server, server.open('/!x{ab}/', 'a') as session:
        ...     session.append('b')
        ...     session.next(), session.length
        ([<rematch.Match x=0-2>], 2)
        """
        if isinstance(text, str) != self._kept.is_text:
            raise TypeError('a document that began as a str grows by a str, and one of bytes by bytes')
        shown = _decoded(text)
        if self._kept.length + len(shown.encode('utf-8')) > 16_777_216:
            raise _fault('long', self._query)
        for at in range(0, max(1, len(shown)), _PART):
            part = shown[at:at + _PART]
            reply = self._ask(op='grow', text=part)
            self._kept.append(part if self._kept.is_text else part.encode('utf-8'))
            if reply['bytes'] != self._kept.length:
                raise ProgramError(f'the server has {reply["bytes"]} bytes of the document, and not {self._kept.length}')
        self.more = True
        self._document = _Grown(self._kept)

    def close(self) -> None:
        """Close the session; closing it again, or when its server has ended, does nothing."""
        if self._is_open:
            self._is_open = False
            server = self._server
            if not server._is_closed and server._lost is None and server.restarts == self._restarts:
                try:
                    server._ask({'op': 'close', 'id': self._number}, self._query, self._restarts)
                except ProgramError:
                    pass  # the session has ended with its server, which the others are told


class Served(Variables):
    """A query that a server answers; rows and faults are those of `Query`, and documents are a ``str`` or UTF-8.

    The program reads the query anew for each document, which costs more than a short document; `map` takes many at once.
    """

    def __init__(self, server: Server, text: _Text) -> None:
        self.text = text
        self._server = server
        with server.open(text) as session:
            super().__init__(session.variables)

    def finditer(self, document: _Text) -> Iterator[Match[Any]]:
        """The rows in their order, one by one; closing the iterator closes its session.

        >>> with Server() as server:
        ...     [match['x'] for match in server.query('/!x{é.}/u').finditer('éa')]
        ['éa']
        """
        with self._server.open(self.text, document) as session:
            yield from session

    def findall(self, document: _Text) -> Matches[Any]:
        """The rows as a list.

        >>> with Server() as server:
        ...     server.query('/!x{a}/').findall(b'ba')
        [<rematch.Match x=1-2>]
        """
        return Matches(self.finditer(document))

    def any(self, document: _Text) -> bool:
        """Whether there is a row.

        >>> with Server() as server:
        ...     server.query('/a/').any('ba'), server.query('/a/').any('b')
        (True, False)
        """
        with self._server.open(self.text, document) as session:
            return bool(session.next(1))

    def count(self, document: _Text) -> int:
        """How many rows there are.

        >>> with Server() as server:
        ...     server.query('/!x{a*}/').count('aa')
        6
        """
        return sum(1 for _ in self.finditer(document))

    def map(self, texts: Iterable[_Text]) -> Iterator[Matches[Any]]:
        """The rows of each of many texts, as `Query.map` gives them: the query is read once for thousands of texts, and not for each.

        >>> with Server() as server:
        ...     [[match['x'] for match in found] for found in server.query('/!x{[a-z]+}=/').map(['one=1', 'two'])]
        [['one', 'ne', 'e'], []]
        """
        from .query import Query
        return Query(self.text, program=self._server.program).map(texts)
