"""``rematch-play``: a page on this machine alone, to write a query beside a document and see its rows as one types.

The server listens on 127.0.0.1, answers one address with a secret in it, and ends with Ctrl-C. Queries are asked in sessions
of the program. A newer question ends one that is still worked on, and none is worked on for more than some seconds.
"""
from __future__ import annotations

import json
import os
import re
import secrets
import sys
import threading
from contextlib import contextmanager, nullcontext
from http.server import BaseHTTPRequestHandler, ThreadingHTTPServer
from typing import Any, Dict, Iterator, List, Optional, Tuple

from ..advice import is_of_ends
from ..documents import Document, document_of_text
from ..faults import DocumentError, ProgramError, QueryError, RematchError
from ..match import Row
from ..query import Query
from ..session import Server, Session, SessionError
from ..view import section
from .command import MEGABYTE, add_memory, run_told
from .doubts import SEVERAL_LINES, has_anchors_alone, has_several_lines
from .expand import Expanded, expanded
from .play_page import page
from .row_doubts import MOST_SEEN, doubts_of_rows

__all__ = ['Player', 'main', 'serve']

MOST_BYTES = 16_777_216
"""The most bytes of a document, which are those of a session."""
_SCREEN = 100  # rows that are shown at once
_SECONDS = 10.0  # that a question may take
_MEMORY = 2_000_000_000  # bytes that the program may take
_WAIT = 30  # seconds in which a request is there
_LINES_OF_SPAN = 40  # lines of a long span that are shown
_PATIENCE = 0.2  # seconds that a newer question leaves an older one


class Player:
    """The questions of one page: the document that was given last, and the rows of the newest query."""

    def __init__(self, text: str = '', seconds: float = _SECONDS, memory: int = _MEMORY) -> None:
        self.document = text
        self.number = 0  # of the document, which counts those that were given
        self.seconds = seconds
        self._server = Server(memory=memory)
        self._session: Optional[Session] = None
        self._asked: Tuple[str, str] = ('', '')  # the query and the document of the session
        self._expansion = Expanded(b'')  # of the query of the session
        self._rows: List[Row] = []
        self._turn = threading.Lock()
        self._count = threading.Lock()
        self._newest = 0
        self._is_ended = False  # whether the question was ended from here

    def close(self) -> None:
        """End the program."""
        self._server.kill()
        try:
            self._server.close()
        except RematchError:
            pass  # it was killed

    def ask(self, query: str, document: Optional[str], first: int, known: int = 0) -> Dict[str, Any]:
        """What the page shows: a screenful of rows from the row ``first`` on, or the fault.

        ``document`` is None where it is the one with the number ``known``; where another page has given another one since, the answer
        asks for it. An answer has the number of its document.
        """
        with self._count:
            self._newest += 1
            number = self._newest
        if not self._turn.acquire(timeout=_PATIENCE):
            self._end_question()
            self._turn.acquire()
        try:
            if document is not None and document != self.document:
                self.document, self.number = document, self.number + 1
            elif document is None and known != self.number:
                return {'again': True}
            if number != self._newest:
                return {'old': True}
            return {**self._answer(query, first), 'known': self.number}
        finally:
            self._turn.release()

    def why(self, query: str) -> Dict[str, Any]:
        """How far the query fits the document that was given last, as lines; or the fault."""
        from .why import told_why
        try:
            made = Query(expanded(query.encode('utf-8', 'surrogatepass')).text)
            return {'why': '\n'.join(told_why(made, self.document.encode('utf-8', 'surrogatepass'), self.seconds))}
        except RematchError as fault:
            return {'why': str(fault)}

    def _end_question(self) -> None:
        self._is_ended = True
        self._server.kill()

    def _answer(self, query: str, first: int) -> Dict[str, Any]:
        self._is_ended = False
        late = threading.Timer(self.seconds, self._end_question)
        late.start()
        try:
            try:
                return self._shown(query, first)
            except (SessionError, ProgramError):
                if self._is_ended:
                    raise
                self._session = None  # the program had ended before; once more with a new one
                return self._shown(query, first)
        except QueryError as fault:
            return {'fault': str(fault), 'at': None if fault.offset is None else _units(fault.query[:fault.offset])}
        except ProgramError as fault:
            self._session = None
            if self._is_ended:
                return {'fault': f'the query took more than {self.seconds:g} seconds, or a newer one came'}
            return {'fault': str(fault)}
        except RematchError as fault:
            self._session = None
            fault.request = None
            return {'fault': str(fault)}
        finally:
            late.cancel()

    def _shown(self, query: str, first: int) -> Dict[str, Any]:
        if self._session is None or self._asked != (query, self.document):
            if self._session is not None:
                old, self._session = self._session, None
                old.close()
            self._rows = []
            self._session = self._opened(query)
            self._asked = (query, self.document)
        session = self._session
        first = max(0, first - first % _SCREEN)
        while session.more and len(self._rows) < first + _SCREEN:
            self._rows += [match.row for match in session.next(min(1000, first + _SCREEN - len(self._rows)))]
        shown = self._rows[first:first + _SCREEN]
        has_more = session.more or first + _SCREEN < len(self._rows)
        document = document_of_text(self.document)
        html = section(document, session.variables, shown, None, 1, first, _LINES_OF_SPAN)
        return {'html': html, 'first': first, 'rows': len(shown), 'found': len(self._rows), 'more': has_more,
                'all': not session.more, 'advice': self._advice(session, document)}

    def _advice(self, session: Session, document: Document) -> List[str]:
        """What is accepted and seldom meant in the query, and what its rows say of it."""
        data = bytes(document.data)
        doubts = doubts_of_rows(session.variables, self._rows[:MOST_SEEN], data)
        are_ends_known = bool(doubts) or not session.more
        told = [advice.message for advice in self._expansion.advised() if not (is_of_ends(advice) and are_ends_known)]
        if has_anchors_alone(self._expansion.source) and has_several_lines(data):
            told.append(f'the document: {SEVERAL_LINES}')
        return told + doubts

    def _opened(self, query: str) -> Session:
        """A session of the query, whose conveniences are written out; a fault is at its place in the query."""
        self._expansion = expanded(query.encode('utf-8', 'surrogatepass'))
        try:
            return self._server.open(self._expansion.text, self.document)
        except QueryError as fault:
            raise self._expansion.fault(fault) from None


def _units(part: bytes) -> int:
    """How many of the units in which a browser counts a text are in the beginning of a query."""
    return len(part.decode('utf-8', 'replace').encode('utf-16-le')) // 2


class _Handler(BaseHTTPRequestHandler):
    server: '_Http'
    protocol_version = 'HTTP/1.1'
    server_version, sys_version = 'rematch-play', ''
    timeout = _WAIT

    def log_message(self, format: str, *words: Any) -> None:
        """Nothing is written of what is asked."""

    def _is_ours(self) -> bool:
        """Whether the request has the secret, and the name of this server, so that no other page asks by this browser."""
        host = self.headers.get('Host', '')
        origin = self.headers.get('Origin')
        return (host in self.server.hosts and (origin is None or origin == 'http://' + host)
                and secrets.compare_digest(self.path.encode(), self.server.path.encode()))

    def _send(self, status: int, kind: str, body: bytes) -> None:
        self.send_response(status)
        heads = {'Content-Type': kind, 'Content-Length': str(len(body)), 'Cache-Control': 'no-store',
                 'X-Content-Type-Options': 'nosniff', 'Referrer-Policy': 'no-referrer',
                 'Content-Security-Policy': self.server.policy}
        for name, value in heads.items():
            self.send_header(name, value)
        self.end_headers()
        self.wfile.write(body)

    def _refuse(self, status: int, reason: str) -> None:
        self.close_connection = True
        self._send(status, 'text/plain; charset=utf-8', (reason + '\n').encode())

    def do_GET(self) -> None:
        if not self._is_ours():
            self._refuse(404, 'nothing here: the address has a secret, which rematch-play has written')
            return
        self._send(200, 'text/html; charset=utf-8', self.server.page)

    def do_POST(self) -> None:
        if not self._is_ours():
            self._refuse(404, 'nothing here: the address has a secret, which rematch-play has written')
            return
        length = self.headers.get('Content-Length')
        if length is None:
            self._refuse(411, 'a question says how long it is')
            return
        if not re.fullmatch('[0-9]{1,18}', length):
            self._refuse(400, 'the length of a question is a number')
            return
        if int(length) > 7 * MOST_BYTES:
            self._refuse(413, f'document longer than {MOST_BYTES} bytes')
            return
        try:
            asked = json.loads(self.rfile.read(int(length)))
            query, document, first, known = asked['query'], asked.get('document'), asked['first'], asked.get('known', 0)
            is_why = asked.get('why', False)
            if not (isinstance(query, str) and isinstance(document, (str, type(None))) and type(first) is type(known) is int and type(is_why) is bool):
                raise ValueError
        except (ValueError, KeyError, TypeError, AttributeError, RecursionError):
            self._refuse(400, 'a question is an object with query and first, and perhaps document, known and why')
            return
        player = self.server.player
        reply = player.why(query) if is_why else player.ask(query, document, first, known)
        self._send(200, 'application/json', json.dumps(reply).encode())


class _Http(ThreadingHTTPServer):
    daemon_threads = True

    def __init__(self, port: int, player: Player, query: str, name: str) -> None:
        super().__init__(('127.0.0.1', port), _Handler)
        self.player = player
        self.hosts = [f'{host}:{self.server_port}' for host in ('127.0.0.1', 'localhost')]
        self.path = f'/{secrets.token_urlsafe(24)}/'
        nonce = secrets.token_urlsafe(16)
        self.page = page(query, player.document, name, nonce).encode('utf-8', 'replace')
        self.policy = (f"default-src 'none'; script-src 'nonce-{nonce}'; style-src 'unsafe-inline'; connect-src 'self'; "
                       "base-uri 'none'; form-action 'none'; frame-ancestors 'none'")

    @property
    def address(self) -> str:
        """What a browser is given."""
        return f'http://127.0.0.1:{self.server_port}{self.path}'

    def handle_error(self, request: Any, client_address: Any) -> None:
        """A browser that leaves is no fault; another is told."""
        if not isinstance(sys.exc_info()[1], ConnectionError):
            super().handle_error(request, client_address)


def serve(query: str = '', text: str = '', name: str = '', port: int = 0, player: Optional[Player] = None) -> _Http:
    """A server for the page, which waits for ``serve_forever``; ``server_close`` and ``player.close`` end it."""
    if len(text.encode('utf-8', 'surrogatepass')) > MOST_BYTES:
        raise DocumentError(f'document longer than {MOST_BYTES} bytes', 6)
    player = Player(text) if player is None else player
    try:
        return _Http(port, player, query, name)
    except OSError as fault:
        player.close()
        fault.filename = fault.filename or f'port {port}'
        raise


def _text_of(name: str) -> str:
    from .packed import given_document

    def refuse() -> None:
        raise DocumentError(f'document longer than {MOST_BYTES} bytes', 6)

    try:
        data = given_document(name, refuse).data
        if len(data) > MOST_BYTES:
            refuse()
        return data[:].decode('utf-8')
    except UnicodeDecodeError as reason:
        fault = DocumentError(f'no UTF-8 at {reason.start}, and the page shows text', 5)
        fault.filename = name
        raise fault from None
    except DocumentError as fault:
        fault.filename = name
        raise


@contextmanager
def _opened(address: str) -> Iterator[None]:
    """Opens the address in the browser by a file that this user alone can read, since each user sees the words of a command."""
    import webbrowser
    from tempfile import TemporaryDirectory
    with TemporaryDirectory(prefix='rematch-play-') as folder:
        path = os.path.join(folder, 'open.html')
        with open(os.open(path, os.O_WRONLY | os.O_CREAT | os.O_EXCL, 0o600), 'w') as file:
            file.write(f'<!doctype html><meta charset="utf-8"><title>rematch-play</title><meta http-equiv="refresh" content="0; url={address}">\n')
        webbrowser.open('file://' + path)
        yield


def main(words: Optional[List[str]] = None) -> int:
    """Runs the command: status 0 at Ctrl-C, and that of the program for its faults."""
    from argparse import ArgumentParser
    parser = ArgumentParser(prog='rematch-play', description='Open a page on this machine alone, to write a query beside a '
                            'document and see its rows as one types. Its address is written, with a secret in it; Ctrl-C ends it.')
    text = parser.add_mutually_exclusive_group()
    text.add_argument('-e', dest='text', metavar='TEXT', default='', help='the query to begin with')
    text.add_argument('-q', dest='name', metavar='NAME', help='a file that holds it')
    parser.add_argument('--port', type=int, default=0, metavar='N', help='the port (any that is free)')
    parser.add_argument('--open', action='store_true', help='open the address in the browser')
    parser.add_argument('document', nargs='?', help='the document to begin with; packed ones are unpacked')
    add_memory(parser)
    given = parser.parse_args(words)
    if not 0 <= given.port < 65536:
        parser.error(f'a port is 0 to 65535, not {given.port}')

    def run() -> None:
        query = given.text
        if given.name is not None:
            with open(given.name, encoding='utf-8', errors='surrogateescape') as file:
                query = file.read()
        document = '' if given.document is None else _text_of(given.document)
        player = Player(document, memory=given.memory * MEGABYTE)
        http = serve(query, document, os.path.basename(given.document or ''), given.port, player)
        try:
            print(http.address, flush=True)
            with _opened(http.address) if given.open else nullcontext():
                http.serve_forever()
        except KeyboardInterrupt:
            pass
        finally:
            http.server_close()
            http.player.close()

    return run_told(run)
