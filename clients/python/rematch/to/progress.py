"""A line on a terminal that tells how far a command is, where it takes more than a second; nothing in a pipe."""
from __future__ import annotations

import sys
import threading
import time
from typing import Any, Iterable, Iterator, Optional, TypeVar

from ..documents import Document
from ..visible import visible
from .output import Screen

__all__ = ['Progress']

_FIRST, _EVERY = 1.0, 0.2  # seconds
_Item = TypeVar('_Item')


class Progress:
    """How far a command is: bytes of all documents so far that the program has read, and rows.

    The line is written on standard error, and taken away again at the end.
    """

    def __init__(self) -> None:
        self.rows = 0
        self._before = 0  # bytes of documents that are done
        self._document: Optional[Document] = None
        self._name = ''
        self._is_shown = False
        self._ended = threading.Event()
        self._thread: Optional[threading.Thread] = None

    def __enter__(self) -> 'Progress':
        if sys.stderr is not None and sys.stderr.isatty():
            self._thread = threading.Thread(target=self._tell, daemon=True)
            self._thread.start()
        return self

    def __exit__(self, *fault: Any) -> None:
        self._ended.set()
        if self._thread is not None:
            self._thread.join()
        if self._is_shown:
            self._write('\r\x1b[K')

    def begin(self, name: str, document: Optional[Document]) -> None:
        """A document is begun."""
        if self._document is not None:
            self._before += self._document.bytes_read
        self._name, self._document = name, document
        if document is not None and self._thread is not None:
            document.watch()

    def counted(self, rows: Iterable[_Item]) -> Iterator[_Item]:
        """The same rows, each counted."""
        if self._thread is None:
            yield from rows
            return
        for row in rows:
            self.rows += 1
            yield row

    def line(self) -> str:
        """The line as it is now."""
        read = self._before + (self._document.bytes_read if self._document is not None else 0)
        return f'{self._name}: {read / 1e6:,.1f} MB read, {self.rows:,} rows'

    def _tell(self) -> None:
        begun = time.monotonic()
        while not self._ended.wait(_EVERY):
            if time.monotonic() - begun >= _FIRST:
                self._is_shown = True
                self._write(f'\r{visible(self.line())[:78]}\x1b[K')

    @staticmethod
    def _write(text: str) -> None:
        stream: Any = sys.stderr.stream if isinstance(sys.stderr, Screen) else sys.stderr
        stream.write(text)
        stream.flush()
