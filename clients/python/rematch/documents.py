"""What is searched: bytes, a text or a file, and how its places are counted."""
from __future__ import annotations

import mmap
import os
from array import array
from itertools import accumulate
from typing import IO, Any, List, Optional, Sequence, Union
from weakref import ref

from .faults import DocumentError
from .program import held_file

__all__ = ['Document', 'Source', 'Window', 'MOST_BYTES', 'document_of_text']

MOST_BYTES = 268_435_456
"""The most bytes of a document that the program takes."""

Source = Union[bytes, bytearray, memoryview, str, 'os.PathLike[str]', 'os.PathLike[bytes]', IO[bytes], IO[str], 'Document']
"""What may be given as a document."""

_Places = Union['array[int]', '_Counted']

BEGINS = bytes(0 if 0x80 <= byte < 0xC0 else 1 for byte in range(256))  # whether a character begins at a byte
REST = bytes(range(0x80, 0xC0))  # the bytes of which none begins a character
_SMALL = 4096  # bytes of a text whose places are all worked out at once
_BLOCK = 1024  # bytes of which the characters are counted together
_COPIED = 1 << 22
_LONGEST_NAME = 256  # characters of a text that may be the name of a file


class Document:
    r"""A document to be searched, which several queries may share.

    ``source`` is one of these:

    - ``bytes``, or what has its buffer: places count bytes;
    - a ``str``: places count characters, as in ``re``, and texts are ``str``. A place inside of a character, which a
      formula without the sign u may give, is told as the end of that character;
    - a path (``pathlib.Path`` or another ``os.PathLike``): the file's bytes. A ``str`` is a text and never a path;
    - an open binary file: where it can seek, all of it, whatever its position; else from its position to its end. An
      open text file: the same, as a ``str``.

    With ``encoding``, as ``'utf-8'`` or ``'latin-1'``, bytes, a path or a binary file are read as text at once, and are as a
    ``str`` from then on; `DocumentError` tells the first byte that is none.

    A path of a packed file, and a text that is the name of a file, are taken as they are, with a warning: ``gzip.open`` and the
    like give open files.

    A file is read once, when its texts or its length are first asked for or when it cannot be opened again. What a
    match tells is of what was read then, also where the file is changed meanwhile. A file that is missing or cannot be
    read raises `DocumentError`.

    >>> Document('né').data, len(Document('né')), len(Document(b'n\xc3\xa9')), len(Document(b'n\xc3\xa9', 'utf-8'))
    (b'n\xc3\xa9', 2, 3, 2)
    """

    __slots__ = {'places': 'What has at each place in bytes the place that is told, and -1 at -1; None where both are the same.',
                 **dict.fromkeys(('name', '_data', '_text', '_held', '_path', '_watched', '__weakref__'))}

    def __init__(self, source: Source, encoding: Optional[str] = None) -> None:
        self.name: Optional[str] = None
        self._data: Union[None, bytes, mmap.mmap] = None
        self._text: Optional[str] = None
        self.places: Optional[_Places] = None
        self._held: Optional[int] = None  # a file of the bytes that no one else can change
        self._path: Union[None, str, bytes] = None
        self._watched: Optional[int] = None  # shares its position with the file that the program reads
        if isinstance(source, Document):
            for part in ('name', '_data', '_text', 'places', '_path'):
                setattr(self, part, getattr(source, part))
            self._held = None if source._held is None else os.dup(source._held)
        elif isinstance(source, str):
            if len(source) < _LONGEST_NAME and '\n' not in source and os.path.isfile(source):
                _warn(f'a str is a text, and no path: for the file {source!r} give pathlib.Path({source!r})')
            self._take_text(source)
        elif isinstance(source, (bytes, bytearray, memoryview)):
            self._data = bytes(source)
        elif isinstance(source, os.PathLike):
            self._path = os.fspath(source)
            self.name = os.fsdecode(self._path)
            _warn_of_packed(self._path)
        else:
            self._take_buffer(source)
        if encoding is not None and self._text is None:
            self._decode(encoding)

    def _decode(self, encoding: str) -> None:
        data = self.data
        try:
            text = data[:].decode(encoding)
        except UnicodeDecodeError as reason:
            fault = DocumentError(f'read failed: document: no {encoding} at {reason.start}', 5)
            fault.filename = self.name
            fault.hint = 'give its own encoding; latin-1 takes every byte'
            raise fault from reason
        if self._held is not None:
            os.close(self._held)
            self._held = None
        self._path = None
        self._take_text(text)

    def __del__(self) -> None:
        for number in (getattr(self, '_held', None), getattr(self, '_watched', None)):
            if number is not None:
                os.close(number)

    def _take_text(self, text: str) -> None:
        self._text = text
        self._data = text.encode('utf-8', 'surrogatepass')
        if len(self._data) != len(text):
            self.places = _all_places(self._data) if len(self._data) <= _SMALL else _Counted(self, self._data)

    def _take_buffer(self, source: Any) -> None:
        """Takes the bytes of what has a buffer, as a map of a file, which can be read as a file too."""
        try:
            view = memoryview(source)
        except TypeError:
            self._take_file(source)
            return
        with view:
            self._data = bytes(view)

    def _take_file(self, file: Any) -> None:
        if not hasattr(file, 'read'):
            raise TypeError(f'a document is bytes, str, a path or an open file, not {type(file).__name__}')
        name = getattr(file, 'name', None)
        self.name = name if isinstance(name, str) else None
        try:
            position = file.tell() if file.seekable() else None
            if position is not None:
                file.seek(0)
            found = file.read()
            if position is not None:
                file.seek(position)
        except (OSError, UnicodeDecodeError) as fault:
            raise unreadable(self.name, fault) from fault
        if isinstance(found, str):
            self._take_text(found)
        else:
            self._data = found

    # -- What is read of it

    @property
    def data(self) -> Union[bytes, mmap.mmap]:
        """The bytes of the document: of a ``str`` its UTF-8, of a path a map of what was read."""
        if self._data is None:
            self._read_path()
        assert self._data is not None
        return self._data

    @property
    def length(self) -> int:
        """The number of bytes."""
        return len(self.data)

    def __len__(self) -> int:
        """The number of bytes, of a ``str`` of characters."""
        return len(self.data) if self._text is None else len(self._text)

    def _read_path(self) -> None:
        """Copies the file to one that no one else can change, and maps it."""
        with self._open_path() as file:
            held = held_file(b'')
            try:
                length = 0
                while length <= MOST_BYTES:  # of what is longer, enough is kept to be refused
                    piece = file.read(_COPIED)
                    if not piece:
                        break
                    view = memoryview(piece)
                    while view:
                        view = view[os.write(held, view):]
                    length += len(piece)
                self._data = mmap.mmap(held, length, access=mmap.ACCESS_READ) if length else b''
            except OSError as fault:
                os.close(held)
                raise unreadable(self.name, fault) from fault
        self._held = held

    def _open_path(self) -> IO[bytes]:
        assert self._path is not None
        try:
            return open(self._path, 'rb', buffering=0)
        except OSError as fault:
            raise unreadable(self.name, fault) from fault

    def opened(self, *, keep: bool) -> IO[bytes]:
        """A new open file of the document, at its start, for the program to read.

        With ``keep`` it is of the bytes that `data` has, so that texts can be taken of them.
        """
        file = self._opened(keep)
        if self._watched is not None:
            os.dup2(file.fileno(), self._watched, inheritable=False)
        return file

    def watch(self) -> None:
        """Keep count, from the next run on, of what the program has read; `bytes_read` tells it."""
        if self._watched is None:
            self._watched = os.open(os.devnull, os.O_RDONLY)

    @property
    def bytes_read(self) -> int:
        """How many bytes of it the program has read in the newest run, where `watch` was called before it."""
        try:
            return 0 if self._watched is None else os.lseek(self._watched, 0, os.SEEK_CUR)
        except OSError:  # a pipe
            return 0

    def _opened(self, keep: bool) -> IO[bytes]:
        if self._data is None and not keep:
            return self._open_path()
        if self._held is None:
            data = self.data
            if self._held is None:
                self._held = held_file(data)  # type: ignore[arg-type]
        try:
            return open(f'/proc/self/fd/{self._held}', 'rb', buffering=0)
        except OSError:  # no such system: a copy of its own
            return os.fdopen(held_file(bytes(self.data)), 'rb', buffering=0)

    # -- How places are counted

    def text(self, start: int, end: int) -> Union[bytes, str]:
        """What stands from one place to another, both as they are told: bytes, of a ``str`` a ``str``."""
        held = self._text if self._text is not None else self._data
        return self.data[start:end] if held is None else held[start:end]

    def told(self, places: List[int]) -> List[int]:
        """Places in bytes as they are told; -1 stays -1."""
        known = self.places
        return places if known is None else [known[place] for place in places]


class Window(Document):
    """A part of a text that grows; its places are those of the text."""

    __slots__ = ('_begins', 'line')

    def __init__(self, data: bytes, begins: int, line: int) -> None:
        super().__init__(data)
        self._begins = begins
        self.line = line  # the number of its first line, from 1 on

    @property
    def begins(self) -> int:
        """Where it begins in the text."""
        return self._begins

    @property
    def length(self) -> int:
        """The bytes of the text up to the part's end."""
        return self._begins + len(self.data)

    def __len__(self) -> int:
        return self.length

    def text(self, start: int, end: int) -> bytes:
        """The bytes from one place of the text to another."""
        return self.data[start - self._begins:end - self._begins]  # type: ignore[return-value]


def _all_places(data: bytes) -> 'array[int]':
    """For each place in bytes the number of characters that begin before it; at last -1, which stands at -1."""
    places = array('i', accumulate(data.translate(BEGINS), initial=0))
    places.append(-1)
    return places


class _Counted:
    """The same of a large text, worked out where it is asked for; where it is asked often, all of it, and once."""

    __slots__ = ('_document', '_data', '_before', '_left')

    def __init__(self, document: Document, data: bytes) -> None:
        self._document = ref(document)
        self._data = data
        self._before: Optional[Sequence[int]] = None  # characters that begin before each block
        self._left = len(data) // 12  # so many are asked for in the time in which all are worked out

    def __getitem__(self, at: int) -> int:
        if at < 0:
            return at
        before = self._before
        if before is None:
            data = self._data
            sizes = (len(data[start:start + _BLOCK].translate(None, REST)) for start in range(0, len(data), _BLOCK))
            before = self._before = array('i', accumulate(sizes, initial=0))
        self._left -= 1
        document = self._document()
        if self._left < 0 and document is not None and document.places is self:
            document.places = _all_places(self._data)
        block = at // _BLOCK
        return before[block] + len(self._data[block * _BLOCK:at].translate(None, REST))


def _warn(message: str) -> None:
    """Warns of the caller's line, which is the first that is not of this package."""
    import sys
    import warnings
    level, frame = 1, sys._getframe()
    while frame.f_back is not None and frame.f_globals.get('__name__', '').partition('.')[0] == 'rematch':
        level, frame = level + 1, frame.f_back
    warnings.warn(message, stacklevel=level)


def packed_by(head: bytes) -> Optional[str]:
    """The module that unpacks what begins so; None for what none of Python's unpacks.

    >>> packed_by(b'BZh91AY&SY'), packed_by(b'BZh is a word')
    ('bz2', None)
    """
    if head.startswith(b'\x1f\x8b\x08'):
        return 'gzip'
    if head.startswith(b'\xfd7zXZ\x00'):
        return 'lzma'
    is_block = head[:3] == b'BZh' and head[3:4].isdigit() and head[4:10] in (b'1AY&SY', b'\x17rE8P\x90')
    return 'bz2' if is_block else None


def _warn_of_packed(path: Union[str, bytes]) -> None:
    """Tells where a path is of a packed file, of which the packed bytes would be searched."""
    try:
        if not os.path.isfile(path):
            return
        with open(path, 'rb', buffering=0) as file:
            module = packed_by(file.read(10))
    except OSError:
        return  # which is told when the document is read
    if module is not None:
        _warn(f'{os.fsdecode(path)} is packed, and its packed bytes are searched: {module}.open(path) gives what is in it')


def unreadable(name: Optional[str], fault: Exception) -> DocumentError:
    reason = getattr(fault, 'strerror', None) or str(fault)
    found = DocumentError('read failed: document', 5)
    found.filename, found.reason = name, reason
    if isinstance(fault, OSError):
        found.errno = fault.errno
    found.hint = f'{name}: {reason}' if name else reason
    return found


def open_document(source: Source) -> Document:
    """The document of a source; a `Document` is itself."""
    return source if isinstance(source, Document) else Document(source)


def document_of_text(text: Union[str, bytes]) -> Document:
    """The document of a text, which is never taken for the name of a file.

    >>> document_of_text('rows.txt').data
    b'rows.txt'
    """
    if isinstance(text, bytes):
        return Document(text)
    document = Document(b'')
    document._take_text(text)
    return document
