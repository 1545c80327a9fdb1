"""The program rematch: where it is, and one run of it, whose rows come as pieces of whole lines while it goes on."""
from __future__ import annotations

import os
import subprocess
from shutil import which
from typing import Dict, IO, Iterator, List, Optional, Sequence, Union

from .faults import ProgramError, ProgramNotFound, error_of

__all__ = ['serving', 'environment', 'find_program', 'Run']

_PIECE = 1 << 17  # bytes that are asked of the pipe at once
_MOST_WORD = 100_000  # bytes of a query that is given as a word of the command line
_HERE = os.path.dirname(os.path.abspath(__file__))


def _is_program(path: str) -> bool:
    return os.path.isfile(path) and os.access(path, os.X_OK)


def _beside() -> Iterator[str]:
    """Where the program may be beside this package, or beside the file that holds it."""
    yield os.path.join(_HERE, 'bin', 'rematch')
    above = os.path.dirname(_HERE)
    if os.path.isfile(above):  # this package is in a zip file
        folder = os.path.dirname(os.path.realpath(above))
        yield os.path.join(os.path.dirname(folder), 'libexec', 'rematch', 'rematch')
        yield os.path.join(folder, 'rematch')


def _of_checkout(root: str) -> str:
    """The program of this checkout. Where none is unpacked, or the release is newer, the script ``rematch`` unpacks it."""
    built, unpacked = (os.path.join(root, *folders, 'out', 'rematch') for folders in (('crates', 'rematch'), ('release',)))
    script, sources, stamp = (os.path.join(root, *names) for names in (('rematch',), ('release', 'SOURCES'), ('release', 'out', 'checked_at')))
    if _is_program(built):
        return built
    if not os.path.isfile(script) or not os.path.isfile(sources):
        raise ProgramNotFound('not in a checkout')
    if _is_program(unpacked) and os.path.isfile(stamp) and os.stat(stamp).st_mtime >= os.stat(sources).st_mtime:
        return unpacked
    others = {key: value for key, value in os.environ.items() if key != 'REMATCH_BUILD'}
    done = subprocess.run([script], env={**others, 'REMATCH_WHERE': '1'}, stdin=subprocess.DEVNULL,
                          stdout=subprocess.PIPE, stderr=subprocess.PIPE)
    found = os.fsdecode(done.stdout.rstrip(b'\n'))
    if done.returncode or not _is_program(found):
        raise ProgramNotFound(done.stderr.decode('utf-8', 'replace').strip().rpartition('\n')[2])
    return found


def environment() -> Dict[str, str]:
    """What the program is run with: glibc asks for pages of 2 MB, unless the user has set its tunables."""
    return {'GLIBC_TUNABLES': 'glibc.malloc.hugetlb=1', **os.environ}


def find_program() -> str:
    """The path of the program rematch.

    It is the one that the variable REMATCH of the environment names. Else it is one beside this package, or beside the
    zip file that holds it. Else it is that of the checkout that this package is in, which is unpacked where it is not
    yet, or else the first of the path. Where there is none, or REMATCH names none, it raises `ProgramNotFound`.

    >>> import os
    >>> os.access(find_program(), os.X_OK)
    True
    """
    named = os.environ.get('REMATCH')
    if named:
        found = named if os.path.dirname(named) else which(named)
        if found and _is_program(found):
            return os.path.abspath(found)
        raise ProgramNotFound(f'REMATCH names no program: {named}')
    for path in _beside():
        if _is_program(path):
            return os.path.normpath(path)
    try:
        return _of_checkout(os.path.normpath(os.path.join(_HERE, '..', '..', '..')))
    except ProgramNotFound as fault:
        reason = str(fault)
    found = which('rematch')
    if found is None:
        raise ProgramNotFound(f'there is no program rematch: not named by REMATCH, not beside this package, not on the path; {reason}; '
                              'the released one needs Linux on x86_64 with glibc 2.34 or later')
    return found


def serving(program: str, memory: Optional[int] = None) -> 'subprocess.Popen[bytes]':
    """A run of ``rematch --serve``, which may take so many bytes of memory where that can be said to the system."""
    try:
        process = subprocess.Popen([program, '--serve'], stdin=subprocess.PIPE, stdout=subprocess.PIPE, stderr=subprocess.PIPE, env=environment())
    except OSError as fault:
        raise ProgramNotFound(f'the program {program} cannot be run: {fault.strerror}') from fault
    if memory is not None:
        import resource
        try:
            resource.prlimit(process.pid, resource.RLIMIT_AS, (memory, memory))
        except (AttributeError, OSError):
            pass  # no such system, or the program has ended, which the first request finds
    return process


class Run:
    """A run of the program on one open document.

    Iterating gives pieces of whole lines of its output, as they come. At the end of the output the run is over, and its
    note is `note`; a run that did not end well raises its fault then. `close` ends a run early: the program stops, and
    nothing is left of it.
    """

    def __init__(self, program: str, query: bytes, words: Sequence[str], document: Union[None, int, IO[bytes]]) -> None:
        self.query = query
        self.note = ''
        self._process = self._start(program, query, words, document)

    @staticmethod
    def _start(program: str, query: bytes, words: Sequence[str], document: Union[None, int, IO[bytes]]) -> 'subprocess.Popen[bytes]':
        given: List[Union[str, bytes]] = [program]
        held: Optional[int] = None
        try:
            query.decode('utf-8')
            is_word = len(query) <= _MOST_WORD and b'\0' not in query
        except UnicodeDecodeError:
            is_word = False
        if is_word:
            given.append(b'-e=' + query)
        else:
            held = held_file(query)
            given.append(f'-q=/dev/fd/{held}')
        given += words
        try:
            return subprocess.Popen(given, bufsize=0, stdin=subprocess.DEVNULL if document is None else document,
                                    stdout=subprocess.PIPE, stderr=subprocess.PIPE, pass_fds=() if held is None else (held,), env=environment())
        except OSError as fault:
            raise ProgramNotFound(f'the program {program} cannot be run: {fault.strerror}') from fault
        finally:
            if held is not None:
                os.close(held)

    def __iter__(self) -> Iterator[bytes]:
        output = self._process.stdout
        assert output is not None
        rest = b''
        while True:
            piece = output.read(_PIECE)
            if not piece:
                break
            end = piece.rfind(b'\n') + 1
            if end:
                lines, rest = rest + piece[:end], piece[end:]
                yield lines
            else:
                rest += piece
        self._finish(rest)

    def output(self) -> bytes:
        """All that the run writes."""
        return b''.join(self)

    def _finish(self, rest: bytes) -> None:
        assert self._process.stderr is not None
        told = self._process.stderr.read()
        status = self._process.wait()
        self.close()
        lines = told.decode('utf-8', 'backslashreplace').splitlines()
        note = lines[-1] if lines else ''
        if status:
            raise error_of(status, note, self.query)
        if rest or not (note == 'end' or note.startswith('more ')):
            raise ProgramError(f'{self._process.args[0]!r} ended without its note: is it rematch?', status, self.query)  # type: ignore[index]
        self.note = note

    def close(self) -> None:
        """End the run, where it still goes on, and give back its files."""
        process = self._process
        if process.poll() is None:
            process.kill()
            process.wait()
        for stream in (process.stdout, process.stderr):
            if stream is not None:
                stream.close()


def held_file(data: bytes) -> int:
    """An open file of these bytes without a name, at its start."""
    if hasattr(os, 'memfd_create'):
        number = os.memfd_create('rematch', os.MFD_CLOEXEC)
    else:
        from tempfile import TemporaryFile
        with TemporaryFile() as file:
            number = os.dup(file.fileno())
    view = memoryview(data)
    while view:
        view = view[os.write(number, view):]
    os.lseek(number, 0, os.SEEK_SET)
    return number
