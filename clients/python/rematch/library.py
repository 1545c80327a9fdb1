"""The library in this process: where it is, a query that it has compiled, and rows as numbers, as `Query` takes them.

It gives the same rows and the same faults as the program. A call of it is not ended by Ctrl-C.
"""
from __future__ import annotations

import os
from ctypes import (CDLL, POINTER, Structure, addressof, byref, c_bool, c_char, c_char_p, c_int32, c_size_t, c_uint32, c_uint64,
                    c_void_p, create_string_buffer, py_object, pythonapi)
from itertools import chain
from threading import Lock
from typing import Any, Dict, Iterator, List, Optional, Tuple, Union

from .faults import SizeError, error_of

__all__ = ['Compiled', 'Rows', 'compiled', 'find_library', 'numbers_view']

NAME = 'librematch.so.1'
_HERE = os.path.dirname(os.path.abspath(__file__))
_FIRST, _LAST = 64, 1 << 16  # rows that are asked for at once, at first and at most
_NO_ROOM = 8  # the status of an output without room
_LEAST_ROOM, _MOST_ROOM, _NOTE_ROOM = 1 << 12, 1 << 24, 1 << 12  # bytes for what the program writes

allowed = True
"""Whether queries may use the library where nobody names it; the commands, which Ctrl-C ends, run the program."""


class _Slot(Structure):
    _fields_ = [('at', c_void_p), ('held', c_bool)]


class _Text(Structure):
    _fields_ = [('length', c_size_t), ('bytes', c_char * 248)]


class _Options(Structure):
    _fields_ = [('max_table', c_uint64), ('filter', c_bool)]


class _Command(Structure):
    _fields_ = [('words', POINTER(c_char_p)), ('word_count', c_size_t), ('documents', c_void_p), ('document_count', c_size_t),
                ('input', c_char_p), ('input_length', c_size_t)]


class _Output(Structure):
    _fields_ = [('bytes', c_void_p), ('room', c_size_t), ('length', c_size_t)]


class _Buffer(Structure):
    """What CPython tells of the memory of an object."""
    _fields_ = [('buf', c_void_p), ('obj', c_void_p), ('len', c_size_t), ('rest', c_char * 128)]


_SLOT, _TEXT, _SIZE = POINTER(_Slot), POINTER(_Text), POINTER(c_size_t)
_CALLS: Dict[str, Tuple[Any, ...]] = {
    'compile': (c_char_p, c_size_t, _SLOT, _TEXT),
    'variables': (_SLOT, _SIZE),
    'variable': (_SLOT, c_size_t, _TEXT),
    'open': (_SLOT, c_void_p, c_size_t, POINTER(_Options), _SLOT, _TEXT),
    'fill': (_SLOT, c_void_p, c_size_t, c_size_t, _SIZE),
}
_LATER: Dict[str, Tuple[Any, ...]] = {  # of version 1.2; a library without them leaves what they do to the program
    'open_after': (_SLOT, c_void_p, c_size_t, POINTER(_Options), c_char_p, c_size_t, _SLOT, _TEXT),
    'run': (POINTER(_Command), POINTER(_Output), POINTER(_Output)),
}
_loaded: Dict[str, CDLL] = {}


def _beside() -> Iterator[str]:
    """Where the library may stand beside this package, and in the checkout that it stands in."""
    yield os.path.join(_HERE, 'bin', NAME)
    yield os.path.join(_HERE, '..', '..', '..', 'library', 'out', NAME)


def find_library(is_named: bool = False) -> Optional[str]:
    """The path of the library, or None where queries are to run the program.

    It is the one that the variable REMATCH_LIBRARY of the environment names, which may be ``none``. Without it, and where no
    program is named, by REMATCH or by ``is_named``, it is the one beside this package or in its checkout.
    """
    named = os.environ.get('REMATCH_LIBRARY')
    if named:
        return None if named == 'none' or is_named else named
    if is_named or not allowed or os.environ.get('REMATCH'):
        return None
    return next((os.path.normpath(path) for path in _beside() if os.path.isfile(path)), None)


def _library(path: str) -> CDLL:
    found = _loaded.get(path)
    if found is None:
        found = CDLL(path)
        for name, types in chain(_CALLS.items(), _LATER.items()):
            call = getattr(found, 'rematch_' + name, None) if name in _LATER else getattr(found, 'rematch_' + name)
            if call is not None:
                call.argtypes, call.restype = types, c_uint32
        found.rematch_close.argtypes, found.rematch_close.restype = (_SLOT,), None
        if hasattr(found, 'rematch_usual_table'):  # of version 1.4
            found.rematch_usual_table.argtypes, found.rematch_usual_table.restype = (), c_uint64
        found.rematch_version.argtypes, found.rematch_version.restype = (), c_char_p
        _loaded[path] = found
    return found


def compiled(text: bytes, filter: bool, max_table: Optional[int], is_named: bool) -> Optional['Compiled']:
    """A query that the library has compiled; None where the program is to run, as of a query that is too large, or of one that asks for the
    usual limit of the table of a library that does not say it."""
    path = find_library(is_named)
    if path is None:
        return None
    library = _library(path)
    if max_table is None and not hasattr(library, 'rematch_usual_table'):
        return None
    try:
        return Compiled(library, text, filter, library.rematch_usual_table() if max_table is None else max_table)
    except SizeError:
        return None


class _Memory:
    """The memory of bytes, or of a map of a file, for as long as it is needed: nobody resizes or closes it until then."""

    def __init__(self, data: Any) -> None:
        self._view = _Buffer()
        pythonapi.PyObject_GetBuffer(py_object(data), byref(self._view), 0)
        self.at: Any = self._view.buf
        self.length: int = self._view.len

    def __enter__(self) -> '_Memory':
        return self

    def __exit__(self, *_: Any) -> None:
        pythonapi.PyBuffer_Release(byref(self._view))


class Compiled:
    """A compiled query. One call of it runs at a time, in whatever thread."""

    def __init__(self, library: CDLL, text: bytes, filter: bool, max_table: int) -> None:
        self._library, self._text, self._lock = library, text, Lock()
        self._slot, self._note = _Slot(), _Text()
        self._options = _Options(max_table, filter)
        self._check(library.rematch_compile(text, len(text), byref(self._slot), byref(self._note)))
        count = c_size_t()
        library.rematch_variables(byref(self._slot), byref(count))
        self.variables: Tuple[str, ...] = tuple(map(self._name, range(count.value)))

    def _name(self, place: int) -> str:
        name = _Text()
        self._library.rematch_variable(byref(self._slot), place, byref(name))
        return name.bytes.decode()

    def _check(self, status: int) -> None:
        if status:
            raise error_of(status, self._note.bytes.decode('utf-8', 'backslashreplace'), self._text)

    def explanation(self) -> Optional[str]:
        """What ``--explain`` writes of it; None where the library runs no program, or the query is no UTF-8 or holds a byte 0."""
        try:
            is_word = b'\0' not in self._text and self._text.decode('utf-8') is not None
        except UnicodeDecodeError:
            is_word = False
        if not is_word or not hasattr(self._library, 'rematch_run'):
            return None
        words = (c_char_p * 2)(b'-e=' + self._text, b'--explain')
        command = _Command(words, len(words), None, 0, None, 0)
        room = _LEAST_ROOM
        while True:
            rows, notes = create_string_buffer(room), create_string_buffer(_NOTE_ROOM)
            outputs = _Output(addressof(rows), room, 0), _Output(addressof(notes), _NOTE_ROOM, 0)
            status = self._library.rematch_run(byref(command), byref(outputs[0]), byref(outputs[1]))
            if status == _NO_ROOM and room < _MOST_ROOM:
                room *= 16
                continue
            if status:
                raise error_of(status, notes.raw[:outputs[1].length].decode('utf-8', 'backslashreplace').rstrip('\n'), self._text)
            return rows.raw[:outputs[0].length].decode('utf-8', 'backslashreplace')

    def empty(self) -> 'Rows':
        """No rows, for `read`."""
        return Rows(self._library, 2 * len(self.variables))

    @property
    def goes_on(self) -> bool:
        """Whether the library takes cursors."""
        return hasattr(self._library, 'rematch_open_after')

    def open(self, data: Any, after: str = 'start') -> 'Rows':
        """The rows on a document, which may be let go; those behind a cursor, where one is given."""
        rows = self.empty()
        self.read(data, rows, after)
        return rows

    def read(self, data: Any, rows: 'Rows', after: str = 'start') -> None:
        """Puts the rows on a document into those of another, which are given up."""
        with self._lock:
            if isinstance(data, bytes):
                status = self._opened(data, len(data), after, rows)
            else:
                with _Memory(data) as memory:
                    status = self._opened(memory.at, memory.length, after, rows)
            self._check(status)

    def _opened(self, at: Any, length: int, after: str, rows: 'Rows') -> int:
        slot, options, note = byref(self._slot), byref(self._options), byref(self._note)
        status: int
        if after == 'start':
            status = self._library.rematch_open(slot, at, length, options, byref(rows.slot), note)
        else:
            cursor = after.encode('utf-8', 'surrogateescape')
            status = self._library.rematch_open_after(slot, at, length, options, cursor, len(cursor), byref(rows.slot), note)
        return status

    def __del__(self) -> None:
        if hasattr(self, '_slot'):
            self._library.rematch_close(byref(self._slot))


class Rows:
    """Rows that are still to come; an absent span is -1, -1."""

    def __init__(self, library: CDLL, width: int) -> None:
        self.slot, self.width = _Slot(), width
        self._library, self._given = library, c_size_t()
        self._out: Any = None

    def _fill(self, at: Any, room: int, most: int) -> int:
        status = self._library.rematch_fill(byref(self.slot), at, room, most, byref(self._given))
        if status:
            raise error_of(status, '')
        return self._given.value

    def pages(self, limit: Optional[int] = None) -> Iterator[Tuple[int, List[int]]]:
        """How many rows there are next, and their numbers, some at a time; few at first, so that the first are there at once."""
        size = _FIRST
        while limit is None or limit > 0:
            most = size if limit is None else min(size, limit)
            if self._out is None or len(self._out) < size * self.width:
                self._out = (c_int32 * (size * self.width))()
            given = self._fill(self._out, len(self._out), most)
            if given:
                yield given, self._out[:given * self.width]
            if given < most:
                return
            limit = None if limit is None else limit - given
            size = min(4 * size, _LAST)

    def count(self) -> int:
        """How many rows remain."""
        all_of = 0
        out = (c_int32 * (_LAST * self.width))() if self.width else None
        while True:
            given = self._fill(out, _LAST * self.width, _LAST)
            all_of += given
            if given < _LAST:
                return all_of

    def all(self) -> Tuple[int, bytearray]:
        """How many rows remain, and their numbers, of 32 bits each, as the library wrote them."""
        numbers = bytearray()
        rows, size = 0, _FIRST
        while True:
            numbers.extend(bytes(4 * size * self.width))
            at = addressof(c_char.from_buffer(numbers, 4 * rows * self.width)) if self.width else None
            given = self._fill(at, size * self.width, size)
            rows += given
            if given < size:
                del numbers[4 * rows * self.width:]
                return rows, numbers
            size = min(4 * size, 4 * _LAST)

    def close(self) -> None:
        self._library.rematch_close(byref(self.slot))

    def __del__(self) -> None:
        self.close()


def numbers_view(rows: int, width: int, numbers: Union[bytearray, Any]) -> Any:
    """Numbers of 32 bits as one array with a line a row: of numpy where it is installed, else a memoryview. Nothing is copied."""
    try:
        import numpy
    except ImportError:
        view = memoryview(numbers).cast('B')
        return view.cast('i', (rows, width)) if rows and width else view.cast('i')
    return numpy.frombuffer(numbers, numpy.int32).reshape(rows, width)
