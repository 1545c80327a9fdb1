"""Documents of the commands: files by their names, unpacked where their content is packed, whatever they are called."""
from __future__ import annotations

import errno
import mmap
import os
import subprocess
import sys
import tempfile
from bisect import bisect_right
from contextlib import contextmanager
from functools import partial
from io import BytesIO
from shutil import which
from typing import IO, Any, Callable, Iterator, List, Optional

from ..documents import MOST_BYTES, Document, unreadable, packed_by
from ..faults import DocumentError, RematchError
from ..match import Row
from ..pieces import NoReach, Piece, reach, rows_in_pieces, rows_of_piece, rows_of_stream, too_long_a_line
from ..query import Query

__all__ = ['Given', 'Held', 'PieceOfDocument', 'Streamed', 'given_document', 'line_numbers', 'reach_of_long', 'too_long']

_COPIED = 1 << 22
_MOST_UNPACKED = 1 << 34  # bytes of what is packed, or comes by a pipe
_AT_ONCE = 64_000_000  # bytes of what is read once, before its rows are asked for
_MOST_HELD = MOST_BYTES  # of what is read once, beside what is read at once
_HEAD = 1 << 20  # bytes of a document that are looked at for what may hide rows
_ZSTD = b'\x28\xb5\x2f\xfd'


def line_numbers(data: bytes) -> Callable[[int], int]:
    """A function from a place to the number of its line, from 1.

    >>> number = line_numbers(b'ab\\ncd\\n')
    >>> number(0), number(2), number(3), number(6)
    (1, 1, 2, 3)
    """
    starts = [0]
    at = data.find(b'\n')
    while at >= 0:
        starts.append(at + 1)
        at = data.find(b'\n', at + 1)
    return lambda place: bisect_right(starts, place)


class Given:
    """A document of a command: its name, its bytes and its rows, whatever its length."""

    is_whole = True  # whether its rows are those of the whole document

    def __init__(self, name: str, document: Optional[Document], file: Optional[IO[bytes]] = None) -> None:
        self.name = name
        self.document = document
        self._file = file  # of what is too long for one run
        self._data: Optional[mmap.mmap] = None

    @property
    def size(self) -> int:
        """The number of bytes."""
        return os.fstat(self._file.fileno()).st_size if self._file is not None else len(self.data)

    @property
    def data(self) -> Any:
        """The bytes."""
        if self.document is not None:
            return self.document.data
        if self._data is None:
            assert self._file is not None
            self._data = mmap.mmap(self._file.fileno(), 0, access=mmap.ACCESS_READ)
        return self._data

    @property
    def head(self) -> bytes:
        """The first of its bytes."""
        return bytes(self.data[:_HEAD])

    def numbers(self) -> Callable[[int], int]:
        """A function from a place to the number of its line, from 1; of a row that has come last at least."""
        return line_numbers(self.data)

    def holds(self, row: Row) -> bool:
        """Whether the bytes of a row that has come can still be read."""
        return True

    def opened(self) -> IO[bytes]:
        """An open file of the bytes, at their start."""
        if self._file is None:
            return BytesIO(self.data[:])
        return open(f'/dev/fd/{self._file.fileno()}', 'rb')

    def whole(self) -> Document:
        """The document, which one run must be able to take."""
        if self.document is None:
            raise too_long(self.name)
        return self.document

    def rows(self, query: Query) -> Iterator[Row]:
        """Its rows, in bytes; what is too long for one run is taken in pieces, and raises `NoReach` where that cannot be."""
        if self.document is not None:
            self.document.data  # read once, so that places and texts are of the same bytes
            return query.rows(self.document)
        assert self._file is not None
        reached = reach_of_long(query)
        return rows_in_pieces(query, f'/dev/fd/{self._file.fileno()}', lines=reached)

    def count(self, query: Query) -> int:
        """How many rows it has."""
        return query.count(self.document) if self.document is not None else sum(1 for _ in self.rows(query))


class PieceOfDocument(Given):
    """A document of which a piece alone is searched; its bytes and places are those of the whole."""

    is_whole = False

    def __init__(self, whole: Given, piece: Piece) -> None:
        super().__init__(whole.name, whole.document, whole._file)
        self.piece = piece

    def rows(self, query: Query) -> Iterator[Row]:
        """The rows whose first span begins in the piece."""
        path = self.name if self._file is None else f'/dev/fd/{self._file.fileno()}'
        return rows_of_piece(query, path, *self.piece)

    def count(self, query: Query) -> int:
        """How many rows begin in it."""
        return sum(1 for _ in self.rows(query))


class Streamed(Given):
    """A document that is unpacked while its rows are asked for, once. Its data are those that are held, at their places of the whole."""

    def __init__(self, name: str, held: 'Held') -> None:
        super().__init__(name, None)
        self._held = held
        self._head = held[:_HEAD]

    @property
    def data(self) -> Any:
        """The bytes that are held."""
        return self._held

    @property
    def head(self) -> bytes:
        """The first of its bytes."""
        return self._head

    def numbers(self) -> Callable[[int], int]:
        """A function from a place that is held to the number of its line."""
        return self._held.line_of

    def holds(self, row: Row) -> bool:
        """Whether the bytes of a row that has come are held."""
        return all(place < 0 or place >= self._held.begins for place in row)

    def rows(self, query: Query) -> Iterator[Row]:
        """Its rows, which are asked for once."""
        return rows_of_stream(query, self._held, reach_of_long(query))


class Held:
    """What is held of a document that is read once: places are those of the whole, and what was let go cannot be read again.

    >>> held = Held(b'ab', BytesIO(b'\\ncd').read)
    >>> held.line_end(2), held[1:5], held.line_of(3)
    (3, b'b\\ncd', 2)
    """

    def __init__(self, head: bytes, more: Callable[[int], bytes]) -> None:
        self.begins = 0
        self._bytes = bytearray(head)
        self._more = more  # reads so many bytes at most; none at the end
        self._is_over = False
        self._at = 0
        self._feeds = 0  # line feeds before what is held
        self._number: Optional[Callable[[int], int]] = None  # of the lines that are held

    def __len__(self) -> int:
        """The bytes of the document up to the end of what is held."""
        return self.begins + len(self._bytes)

    def __getitem__(self, part: slice) -> bytes:
        start, end = part.start or 0, len(self) if part.stop is None else part.stop
        if start < self.begins:
            raise IndexError(f'the bytes before {self.begins} are no longer held')
        return bytes(self._bytes[start - self.begins:max(0, end - self.begins)])

    def line_of(self, place: int) -> int:
        """The number of the line of a place that is held, from 1 on."""
        if self._number is None:
            self._number = line_numbers(self._bytes)  # type: ignore[arg-type]
        return self._feeds + self._number(place - self.begins)

    def forget(self, place: int) -> None:
        """Lets go what is before a place."""
        gone = place - self.begins
        self._feeds += self._bytes.count(b'\n', 0, gone)
        del self._bytes[:gone]
        self.begins, self._number = place, None

    # As of an open file

    def seek(self, place: int) -> int:
        """Goes to a place."""
        self._at = place
        return place

    def read(self, size: int) -> bytes:
        """So many bytes, or those up to the end."""
        while len(self) < self._at + size and self._fill():
            pass
        found = self[self._at:self._at + size]
        self._at += len(found)
        return found

    def readline(self, most: int) -> bytes:
        """The bytes up to the end of a line, or so many of them."""
        return self.read(min(most, self.line_end(self._at + 1) - self._at))

    def line_end(self, place: int) -> int:
        """The end of the line that has the byte before a place; the document's end where none has it."""
        looked_at = place - 1
        while True:
            found = self._bytes.find(b'\n', max(0, looked_at - self.begins))
            if found >= 0:
                return self.begins + found + 1
            looked_at = max(looked_at, len(self))
            if not self._fill():
                return len(self)

    def _fill(self) -> bool:
        """Reads more; whether there was more. A line that is too long for one run raises `DocumentError`."""
        if self._is_over:
            return False
        if len(self._bytes) > _MOST_HELD:
            raise too_long_a_line()
        found = self._more(_COPIED)
        self._bytes += found
        self._number, self._is_over = None, not found
        return bool(found)


def reach_of_long(query: Query) -> int:
    """The reach of a query, for a document that one run cannot take; `NoReach` says why there is none."""
    try:
        return reach(query)
    except NoReach as reason:
        raise NoReach(f'it is too long for one run, and cannot be cut: {reason}') from None


def too_long(name: str) -> Exception:
    """The fault of a document that one run must take, and cannot."""
    fault = DocumentError(f'document longer than {MOST_BYTES} bytes', 6)
    fault.filename = name
    return fault


class _Unpacked:
    """What is packed by zstd, as that program unpacks it; an `OSError` where it says that what is packed is broken."""

    def __init__(self, name: str, file: IO[bytes]) -> None:
        self._packed = file
        if not file.seekable():
            self._packed = tempfile.TemporaryFile()
            for block in iter(partial(_bounded(name, file, 0), _COPIED), b''):
                self._packed.write(block)
            self._packed.seek(0)
        os.lseek(self._packed.fileno(), self._packed.tell(), os.SEEK_SET)  # what was looked at of it is read again
        self._process = subprocess.Popen(['zstd', '-dcq'], stdin=self._packed, stdout=subprocess.PIPE, stderr=subprocess.PIPE)

    def read(self, most: int) -> bytes:
        """The next bytes; none at the end."""
        assert self._process.stdout is not None and self._process.stderr is not None
        data = self._process.stdout.read(most)
        if len(data) < most:
            told = self._process.stderr.read().decode('utf-8', 'replace').strip()
            if self._process.wait():
                raise OSError(errno.EIO, told.rpartition(': ')[2] or 'what is packed is broken')
        return data


@contextmanager
def _readable(name: str) -> Iterator[None]:
    """Raises as `DocumentError` why a document cannot be read or unpacked."""
    try:
        yield
    except RematchError:
        raise
    except Exception as fault:
        if isinstance(fault, (OSError, EOFError)) or type(fault).__name__ in ('error', 'LZMAError'):
            raise unreadable(name, fault) from fault
        raise


def given_document(name: str, refuse_long: Optional[Callable[[], None]] = None, *, is_read_once: bool = False) -> Given:
    """The document of that name; ``-`` is standard input. What is packed by gzip, bzip2 or xz is unpacked, and
    where zstd is installed what is packed by it. Where it is long, is read once and can be cut, it is unpacked as its rows are asked for.

    Raises `DocumentError` where it cannot be read, where what is packed is broken, or where it unpacks to more than 16 GiB.
    ``refuse_long`` is called where one run cannot take it, before more of it is unpacked, and may raise why nothing can.

    >>> import gzip, tempfile
    >>> with tempfile.NamedTemporaryFile() as file:
    ...     flushed = file.write(gzip.compress(b'ab')), file.flush()
    ...     given_document(file.name).data
    b'ab'
    """
    with _readable(name):
        file: IO[bytes] = sys.stdin.buffer if name == '-' else open(name, 'rb')
        head = file.peek(10)[:10] if hasattr(file, 'peek') else b''
        module = packed_by(head)
        if module is None and name != '-' and os.path.isfile(name) and not (head.startswith(_ZSTD) and which('zstd')):
            return _file_of(name, file, refuse_long)
        source: Any = file
        if head.startswith(_ZSTD) and which('zstd'):
            source = _Unpacked(name, file)
        elif module is not None:
            from importlib import import_module
            source = import_module(module).open(file)
        return _read(name, source, refuse_long, is_read_once)


def _file_of(name: str, file: IO[bytes], refuse_long: Optional[Callable[[], None]]) -> Given:
    """A file that is as it is searched."""
    if os.path.getsize(name) > MOST_BYTES:
        if refuse_long is not None:
            refuse_long()
        return Given(name, None, file)
    file.close()
    from pathlib import Path
    return Given(name, _named(Document(Path(name)), name))


def _read(name: str, file: Any, refuse_long: Optional[Callable[[], None]], is_read_once: bool) -> Given:
    """What a pipe or a packed file holds: in memory, as a stream, or where it is too long for one run in a file for a while."""
    least = min(_AT_ONCE, MOST_BYTES) if is_read_once else MOST_BYTES
    data = file.read(least + 1)
    if len(data) > least and is_read_once and _can_be_cut(refuse_long):
        return Streamed(name, Held(data, _bounded(name, file, len(data))))
    if len(data) > least:
        data += file.read(MOST_BYTES - least)
    if len(data) <= MOST_BYTES:
        return Given(name, _named(Document(data), name))
    if refuse_long is not None:
        refuse_long()
    more = _bounded(name, file, len(data))
    spool = tempfile.TemporaryFile()
    while data:
        spool.write(data)
        data = more(_COPIED)
    spool.flush()
    return Given(name, None, spool)


def _can_be_cut(refuse_long: Optional[Callable[[], None]]) -> bool:
    try:
        if refuse_long is not None:
            refuse_long()
        return True
    except NoReach:
        return False


def _bounded(name: str, file: Any, length: int) -> Callable[[int], bytes]:
    """What reads so many bytes of a document of which some are read already, up to the most that one may hold."""
    def more(size: int) -> bytes:
        nonlocal length
        with _readable(name):
            found: bytes = file.read(size)
            length += len(found)
            if length > _MOST_UNPACKED:
                raise OSError(errno.EFBIG, f'it holds more than {_MOST_UNPACKED} bytes: unpack it, and give the file')
            return found

    return more


def _named(document: Document, name: str) -> Document:
    document.name = name
    return document
