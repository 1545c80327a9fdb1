"""The program's notes as exceptions: a class for each kind of end, the place under the query, and what to write instead."""
from __future__ import annotations

from typing import Any, Dict, Optional, Tuple, Type

__all__ = ['RematchError', 'QueryError', 'SizeError', 'DocumentError', 'CursorError', 'OutOfMemory', 'ProgramError',
           'ProgramNotFound', 'error_of']

_WIDEST = 72  # columns of a line of the query that are shown
_ABOUT = 30  # characters that are shown before the place where a line is longer


class RematchError(Exception):
    """A run that did not end with its page.

    ``status`` is the program's exit status (None where it has none), ``note`` the line that it wrote, ``hint`` what to
    do about it, or None. ``request`` is what a `Server` was asked, with its ``id``, and None of a run. The text of the
    exception is all of this.
    """

    request: Optional[Dict[str, Any]] = None

    def __init__(self, note: str, status: Optional[int] = None, query: bytes = b'') -> None:
        super().__init__(note)
        self.note = note
        self.status = status
        self.query = query
        from .hints import hint_of  # a table that a run without faults does not read
        self.hint: Optional[str] = hint_of(note, query, self._offset_of(note))

    @staticmethod
    def _offset_of(note: str) -> Optional[int]:
        digits = note.rpartition(' at ')[2]
        return int(digits) if note.startswith('query: ') and digits.isdigit() else None

    def _lines(self) -> Tuple[str, ...]:
        return ()

    def __str__(self) -> str:
        lines = [self.note, *self._lines()]
        if self.request is not None and not isinstance(self, QueryError):
            shown = str(self.request)
            lines.append('in the request ' + (shown if len(shown) <= _WIDEST else shown[:_WIDEST] + '..'))
        if self.hint:
            lines.append('hint: ' + self.hint)
        return '\n'.join(lines)

    def __reduce__(self) -> Tuple[Any, ...]:
        return type(self), (self.note, self.status, self.query), self.__dict__


class QueryError(RematchError, ValueError):
    r"""The query is refused (status 3).

    ``kind`` is the fault in words, without the offset and without a variable's name. ``offset`` counts bytes of the
    query's text from 0; ``line`` and ``column`` count lines and characters from 1. All three are None where the note
    speaks of a variable, whose name is then ``variable``, or of the whole text.

    >>> import rematch
    >>> try:
    ...     rematch.Query('/"!q{.*?}"/')
    ... except rematch.QueryError as fault:
    ...     print(fault)
    query: repeat after repeat at 7
      /"!q{.*?}"/
             ^
    hint: there are no lazy repeats, since every match is returned: drop the ? and say what comes after, as in !q{[^"]*}"
    >>> fault = rematch.QueryError('query: variable x twice', 3, b'/!x{a}!x{a}/')
    >>> fault.kind, fault.variable, fault.offset
    ('variable twice', 'x', None)
    """

    def __init__(self, note: str, status: Optional[int] = 3, query: bytes = b'') -> None:
        super().__init__(note, status, query)
        self.offset = self._offset_of(note)
        words = note[len('query: '):].split(' ')
        self.variable: Optional[str] = None
        if self.offset is not None:
            del words[-2:]
        elif 'variable' in words:
            self.variable = words.pop(words.index('variable') + 1)
        self.kind = ' '.join(words)
        self.line: Optional[int] = None
        self.column: Optional[int] = None
        if self.offset is not None:
            before = query[:self.offset]
            self.line = before.count(b'\n') + 1
            self.column = len(_text(before[before.rfind(b'\n') + 1:])) + 1

    def _lines(self) -> Tuple[str, ...]:
        if self.offset is None or self.line is None or self.column is None:
            return ()
        start = self.query.rfind(b'\n', 0, self.offset) + 1
        end = self.query.find(b'\n', self.offset)
        line = _text(self.query[start:len(self.query) if end < 0 else end])
        shown, at = _clipped(line, self.column - 1)
        place = (f'line {self.line}, column {self.column}:',) if b'\n' in self.query else ()
        return (*place, '  ' + shown, '  ' + ''.join(map(_blank, shown[:at])) + '^')


class SizeError(RematchError, ValueError):
    """An automaton of the query, the filter or the table of the reading is too large (status 4)."""


class DocumentError(RematchError, OSError):
    """The document cannot be read (status 5) or is too long (status 6).

    ``filename`` is its name where it has one, ``reason`` why it cannot be read, and ``errno`` the system's number where the
    system told one.
    """

    reason: Optional[str] = None


class CursorError(RematchError, ValueError):
    """The cursor is no cursor, or is of another query or another document (status 7)."""


class OutOfMemory(RematchError, MemoryError):
    """The program had no more memory (status 9). Rows that were given before are right, and the first ones."""


class ProgramError(RematchError, RuntimeError):
    """The program ended as it never should: by a signal, without its note, or with words that it does not know.

    Rows that were given before it are right, and the first ones; others may be missing.
    """


class ProgramNotFound(ProgramError, FileNotFoundError):
    """There is no program rematch where it is looked for."""


_KINDS: Dict[int, Type[RematchError]] = {3: QueryError, 4: SizeError, 5: DocumentError, 6: DocumentError, 7: CursorError,
                                         9: OutOfMemory}


def error_of(status: int, note: str, query: bytes = b'') -> RematchError:
    """The exception of a run that ended with this status, which is not 0, and this note.

    >>> error_of(7, 'cursor: other variables')
    CursorError('cursor: other variables')
    """
    if status in _KINDS and note:
        return _KINDS[status](note, status, query)
    if status < 0:
        return ProgramError(f'the program was ended by signal {-status}', status, query)
    told = f': {note}' if note else ''
    return ProgramError(f'the program ended with status {status}{told}', status, query)


def _text(part: bytes) -> str:
    return part.decode('utf-8', 'backslashreplace')


def _clipped(line: str, at: int) -> Tuple[str, int]:
    """The part of a line around a place, and the place in it."""
    if len(line) <= _WIDEST:
        return line, at
    start = max(0, min(at - _ABOUT, len(line) - _WIDEST))
    part = line[start:start + _WIDEST]
    before, after = '..' if start else '', '..' if start + _WIDEST < len(line) else ''
    return before + part + after, at - start + len(before)


def _blank(sign: str) -> str:
    """Blanks as wide as the sign is on a screen."""
    import unicodedata
    if sign == '\t':
        return sign
    if unicodedata.combining(sign) or unicodedata.category(sign) in ('Mn', 'Me', 'Cf'):
        return ''
    return '  ' if unicodedata.east_asian_width(sign) in 'WF' else ' '
