"""``rematch-serve``: requests passed on to ``rematch --serve``, where a wrong one is told back with its number and a reason.

The program itself answers what is no request by ``{"error":"request"}``, and ends at a line that is too long, with all its
sessions. Here such a line has a reply, and does not reach the program.
"""
from __future__ import annotations

import json
import re
import subprocess
import sys
from threading import Timer
from typing import IO, Any, Dict, Iterator, List, Optional, Tuple

from ..faults import error_of
from ..program import find_program, serving
from ..session import LONGEST_REQUEST, refusal
from .command import MEGABYTE, add_memory, run_told

__all__ = ['Relay', 'main', 'requests_of']

_ID = re.compile(rb'"id"[ \t]*:[ \t]*(\d{1,10})(?!\d)')
_BLOCK = 1 << 16


class _Line(bytes):
    """A line of requests without its line feed; of one that is too long its beginning, and its length."""

    length: int


def requests_of(file: IO[bytes]) -> Iterator[_Line]:
    """The lines of requests, of which none is held past the most that a request has."""
    while True:
        read = file.readline(LONGEST_REQUEST + 2)
        if not read:
            return
        line = _Line(read[:-1] if read.endswith(b'\n') else read)
        line.length = len(line)
        while not read.endswith(b'\n') and len(read) >= _BLOCK:
            read = file.readline(_BLOCK)
            line.length += len(read) - read.endswith(b'\n')
        yield line


def _checked(line: _Line) -> Tuple[Optional[int], Optional[str]]:
    """The number of a line, where it can be read, and why it is no request; None where it is one."""
    number = next((int(found[1]) for found in reversed(list(_ID.finditer(line))) if int(found[1]) < 1 << 32), None)
    if line.length > LONGEST_REQUEST:
        return number, (f'a request has at most {LONGEST_REQUEST} bytes, and this one has {line.length}: open a part of the document, and let it '
                        'grow by the rest')
    try:
        request = json.loads(line.decode('utf-8'))
    except UnicodeDecodeError as fault:
        return number, f'it is no UTF-8 at {fault.start}'
    except ValueError as fault:
        return number, f'it is no JSON: {fault}' if line.strip() else 'the line is empty'
    except RecursionError:
        return number, 'it is too deep'
    if isinstance(request, dict) and type(request.get('id')) is int and 0 <= request['id'] < 1 << 32:
        number = request['id']
    return number, refusal(request)


class Relay:
    """A program whose requests are looked at first; where it ends it is started anew, without the sessions that it had.

    A request that takes more than so many seconds ends it; it may take so many bytes of memory.

    >>> relay = Relay()
    >>> relay.reply(b'{"op":"next","id":7,"n":5000}')
    b'{"error":"request","id":7,"reason":"n is a whole number from 1 to 1000, not 5000"}'
    >>> relay.reply(b'{"op":"open","id":7,"query":"/!x{a}/","doc":"a"}')
    b'{"id":7,"variables":["x"]}'
    >>> relay.close()
    'end'
    """

    def __init__(self, program: Optional[str] = None, seconds: Optional[float] = None, memory: Optional[int] = None) -> None:
        self.program = find_program() if program is None else program
        self.memory = memory
        self.seconds = seconds
        self._process: 'Optional[subprocess.Popen[bytes]]' = None
        self._begin()

    def _begin(self) -> 'subprocess.Popen[bytes]':
        self._process = serving(self.program, self.memory)
        return self._process

    def reply(self, line: bytes) -> bytes:
        """The reply to a line of requests; neither has its line feed."""
        if not isinstance(line, _Line):
            line = _Line(line)
            line.length = len(line)
        number, reason = _checked(line)
        if reason is not None:
            return _told('request', number, reason)
        process = self._process or self._begin()
        late = Timer(self.seconds, process.kill) if self.seconds is not None else None
        if late is not None:
            late.daemon = True
            late.start()
        found = _asked(process, line)
        is_late = late is not None and not late.is_alive()
        if late is not None:
            late.cancel()
        if not found.endswith(b'\n'):
            why = self._why()
            why = f'the request took more than {self.seconds:g} seconds' if is_late else why
            return _told('ended', number, f'{why}; its sessions are lost, and the next request starts it anew')
        if found == b'{"error":"request"}\n':
            return _told('request', number, 'the program does not know this request')
        return found[:-1]

    def _why(self) -> str:
        """Why the program has ended, which is then waited for."""
        process, self._process = self._process, None
        assert process is not None and process.stdin is not None and process.stderr is not None and process.stdout is not None
        told = process.stderr.read().decode('utf-8', 'backslashreplace').strip()
        status = process.wait()
        for stream in (process.stdin, process.stdout, process.stderr):
            try:
                stream.close()
            except BrokenPipeError:
                pass
        return f'the program was ended by signal {-status}' if status < 0 else f'the program ended with status {status}: {told}'

    def close(self) -> str:
        """Ends the program, and gives its note; raises its fault where it did not end well."""
        process, self._process = self._process, None
        if process is None:
            return 'end'
        out, told = process.communicate()
        if process.returncode:
            raise error_of(process.returncode, told.decode('utf-8', 'backslashreplace').strip())
        return told.decode('utf-8', 'backslashreplace').strip()


def _asked(process: 'subprocess.Popen[bytes]', line: bytes) -> bytes:
    """The reply with its line feed; where the program ends before it, less."""
    assert process.stdin is not None and process.stdout is not None
    try:
        process.stdin.write(line + b'\n')
        process.stdin.flush()
        return process.stdout.readline()
    except BrokenPipeError:
        return b''


def _told(error: str, number: Optional[int], reason: str) -> bytes:
    reply: Dict[str, Any] = {'error': error, **({} if number is None else {'id': number}), 'reason': reason}
    return json.dumps(reply, ensure_ascii=False, separators=(',', ':')).encode('utf-8', 'backslashreplace')


def main(words: Optional[List[str]] = None) -> int:
    """Runs the command: status 0 at the end of the requests."""
    from argparse import ArgumentParser
    parser = ArgumentParser(prog='rematch-serve', description='Answer requests as rematch --serve does, and tell back with its number and '
                            'a reason what is no request or is too long, which then ends nothing.')
    parser.add_argument('--seconds', type=float, metavar='N', help='end the program, with its sessions, where a request takes longer')
    add_memory(parser)
    parser.add_argument('--version', action='store_true', help='which rematch-serve this is, and which program it runs')
    given = parser.parse_args(words)
    if given.seconds is not None and not 0 < given.seconds <= 1e6:
        parser.error(f'--seconds is more than 0, and at most a million, not {given.seconds:g}')

    def run() -> None:
        if given.version:
            from ..version import version_text
            print(version_text())
            return
        relay = Relay(seconds=given.seconds, memory=given.memory * MEGABYTE)
        try:
            for line in requests_of(sys.stdin.buffer):
                sys.stdout.buffer.write(relay.reply(line) + b'\n')
                sys.stdout.buffer.flush()
        finally:
            note = relay.close()
        print(note, file=sys.stderr)

    return run_told(run)
