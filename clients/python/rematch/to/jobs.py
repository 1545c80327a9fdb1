"""Documents, and pieces of long ones, side by side: each in a process of its own, with the output in the order of documents."""
from __future__ import annotations

import os
import pickle
import signal
import sys
import tempfile
from collections import deque
from io import StringIO
from typing import Any, Callable, Deque, Iterator, List, NamedTuple, Optional, Sequence, Tuple

from ..bounds import NoReach
from ..faults import ProgramError, RematchError
from ..pieces import Piece, cuts
from .packed import Given, PieceOfDocument, given_document

__all__ = ['Part', 'done_in_order', 'parts_of_documents', 'read_aside', 'written_aside']

_LEAST = 4_000_000  # bytes of a document that is taken in pieces, and of a piece
_TOGETHER, _MOST = 1_000_000, 64  # bytes of small documents that one process does, and how many


class Part(NamedTuple):
    """A piece of the work: a document, or a piece of one."""

    name: str
    piece: Optional[Piece] = None

    def given(self, refuse_long: Optional[Callable[[], None]] = None, *, is_read_once: bool = False) -> Given:
        """The document, or what has the rows of the piece alone; ``refuse_long`` and ``is_read_once`` are as of `given_document`."""
        found = given_document(self.name, refuse_long, is_read_once=is_read_once)
        return found if self.piece is None else PieceOfDocument(found, self.piece)


def parts_of_documents(names: Sequence[str], jobs: int, lines: Optional[int]) -> Iterator[Part]:
    """The documents as pieces of work; where the query has a reach (``lines``) a long file is cut, so that all processes share it."""
    from ..documents import packed_by
    for name in names:
        if lines is None or name == '-' or not os.path.isfile(name) or os.path.getsize(name) < 2 * _LEAST:
            yield Part(name)
            continue
        try:
            with open(name, 'rb') as file:
                is_packed = packed_by(file.read(10)) is not None
            if is_packed:
                yield Part(name)
            else:
                size = min(64_000_000, max(_LEAST, os.path.getsize(name) // (2 * jobs)))
                yield from (Part(name, piece) for piece in cuts(name, size))
        except (OSError, RematchError):
            yield Part(name)  # whose fault is told when it is read


class _Done(NamedTuple):
    value: Any
    notes: str
    fault: Optional[Exception]
    errno: Optional[int]  # of the fault, which is lost on the way from another process


def _do(part: Part, work: Callable[[Part], Any]) -> _Done:
    told, sys.stderr = sys.stderr, StringIO()
    try:
        value, fault = work(part), None
    except (RematchError, NoReach, OSError) as found:
        value, fault = None, found
    finally:
        notes, sys.stderr = sys.stderr.getvalue(), told
    return _Done(value, notes, fault, getattr(fault, 'errno', None))


class _Batch:
    """Some parts, which a process of its own does, and what it has made of them."""

    def __init__(self, parts: Sequence[Part], work: Callable[[Part], Any]) -> None:
        self.parts = parts
        self._file = tempfile.TemporaryFile(prefix='rematch-')
        self._process = os.fork()
        if not self._process:
            status = 1
            try:
                pickle.dump([_do(part, work) for part in parts], self._file)
                self._file.flush()
                status = 0
            finally:
                os._exit(status)  # whatever happens, the child is no second one of the process that it comes from

    def done(self) -> Sequence[_Done]:
        """What was made of each part; it waits for the process."""
        process, self._process = self._process, 0
        if os.waitpid(process, 0)[1]:
            raise ProgramError('a process of the command was ended from outside')
        self._file.seek(0)
        found: Sequence[_Done] = pickle.load(self._file)
        self._file.close()
        return found

    def drop(self) -> None:
        """Ends the process, where it is not over."""
        if self._process:
            os.kill(self._process, signal.SIGTERM)
            os.waitpid(self._process, 0)
            self._process = 0
        self._file.close()


def _length(part: Part) -> int:
    """The bytes of a part; 0 where that is not known before it is read."""
    if part.piece is not None:
        return part.piece.end - part.piece.start
    return os.path.getsize(part.name) if part.name != '-' and os.path.isfile(part.name) else 0


def _batches(parts: Iterator[Part]) -> Iterator[List[Part]]:
    """The parts, small documents together; standard input, which only the process itself can read, by itself."""
    batch: List[Part] = []
    size = 0
    for part in parts:
        length = _length(part)
        if batch and (part.name == '-' or batch[-1].name == '-' or len(batch) == _MOST or size + length > _TOGETHER):
            yield batch
            batch, size = [], 0
        batch.append(part)
        size += length
    if batch:
        yield batch


def done_in_order(parts: Iterator[Part], jobs: int, work: Callable[[Part], Any]) -> Iterator[Tuple[Part, Any,
                                                                                                   Optional[Exception]]]:
    """What ``work`` gives for each part, or its fault, in the order of the parts; so many processes work at once.

    >>> list(done_in_order(iter([Part('ab'), Part('c')]), 2, lambda part: len(part.name)))
    [(Part(name='ab', piece=None), 2, None), (Part(name='c', piece=None), 1, None)]
    """
    begun: 'Deque[Tuple[Sequence[Part], Optional[_Batch]]]' = deque()
    batches = _batches(parts)
    sys.stdout.flush()
    try:
        while True:
            while len(begun) < jobs:
                batch = next(batches, None)
                if batch is None:
                    break
                begun.append((batch, None if batch[0].name == '-' else _Batch(batch, work)))
            if not begun:
                return
            batch, process = begun[0]
            found = [_do(part, work) for part in batch] if process is None else process.done()
            begun.popleft()
            for part, done in zip(batch, found):
                sys.stderr.write(done.notes)
                if done.errno is not None:
                    done.fault.errno = done.errno  # type: ignore[union-attr]
                yield part, done.value, done.fault
    finally:
        for _, process in begun:
            if process is not None:
                process.drop()


def written_aside(pieces: Iterator[str]) -> str:
    """The name of a new file that has these texts, which come from another process than the one that reads it."""
    number, path = tempfile.mkstemp(prefix='rematch-')
    with open(number, 'w', encoding='utf-8', errors='surrogateescape', newline='\n') as file:
        file.writelines(pieces)
    return path


def read_aside(path: str) -> Iterator[str]:
    """The texts of `written_aside`, whose file is then removed."""
    try:
        with open(path, encoding='utf-8', errors='surrogateescape', newline='') as file:
            while True:
                text = file.read(1 << 20)
                if not text:
                    break
                yield text
    finally:
        os.unlink(path)


