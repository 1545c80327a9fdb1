"""A query of many small documents: one program answers for all of them (``rematch --serve``), in place of a run for each."""
from __future__ import annotations

import os
from itertools import islice
from typing import Any, Iterator, Optional, Union

from ..documents import Document, Source, open_document
from ..faults import OutOfMemory, ProgramError, SizeError
from ..match import Row
from ..query import Query
from ..session import Served, Server, SessionError

__all__ = ['SmallDocuments']

_SMALL = 1 << 16  # bytes of a document that is asked of the server
_REFUSED = (SizeError, OutOfMemory, SessionError)  # what a run may take


class SmallDocuments(Query):
    """A query whose small documents are answered by one server, with the same rows; others, and what it refuses, by a run each.

    It is begun where it is first asked, once in each process. Where the program has no sessions each document is a run.

    >>> query = SmallDocuments('/!x{a}/')
    >>> list(query.rows(b'aba')), query.count(b'ba'), query.any(b'b')
    ([(0, 1), (2, 3)], 1, False)
    >>> query.close()
    """

    def __init__(self, text: Union[str, bytes], **words: Any) -> None:
        super().__init__(text, **words)
        self._server: Optional[Server] = None
        self._served: Optional[Served] = None
        self._owner = 0  # the process that has begun the server; 0 where there is none
        self._is_there = True

    def _asked(self, document: Source) -> Optional[bytes]:
        """The bytes of a document that the server is asked for; None for one that is a run."""
        if not self._is_there:
            return None
        opened = open_document(document)
        data = opened.data
        if len(data) > _SMALL or opened.places is not None:
            return None
        data = data[:]
        try:
            data.decode('utf-8')
        except UnicodeDecodeError:
            return None
        return data if self._begin() else None

    def _begin(self) -> bool:
        if self._owner != os.getpid():
            self._owner = os.getpid()
            try:
                self._server = Server(self.program)
                self._served = self._server.query(self.text)
            except (ProgramError, *_REFUSED):
                self._is_there = False
        return self._is_there

    def close(self) -> None:
        """End the server."""
        if self._server is not None and self._owner == os.getpid():
            server, self._server, self._owner = self._server, None, 0
            server.close()

    def rows(self, document: Source, *, after: str = 'start', limit: Optional[int] = None) -> Iterator[Row]:
        """The rows as `Query.rows` gives them."""
        opened = document if isinstance(document, Document) else open_document(document)
        data = self._asked(opened) if after == 'start' and limit is None else None
        return super().rows(opened, after=after, limit=limit) if data is None else self._of_server(data, opened)

    def _of_server(self, data: bytes, document: Document) -> Iterator[Row]:
        assert self._served is not None
        given = 0
        try:
            for match in self._served.finditer(data):
                yield match.row
                given += 1
        except _REFUSED:
            yield from islice(super().rows(document), given, None)

    def count(self, document: Source) -> int:
        """How many rows there are."""
        opened = open_document(document)
        data = self._asked(opened)
        return super().count(opened) if data is None else sum(1 for _ in self._of_server(data, opened))

    def any(self, document: Source, *, after: str = 'start') -> bool:
        """Whether there is a row."""
        opened = open_document(document)
        data = self._asked(opened) if after == 'start' else None
        if data is None:
            return super().any(opened, after=after)
        rows = self._of_server(data, opened)
        try:
            return next(rows, None) is not None
        finally:
            rows.close()  # type: ignore[attr-defined]
