"""The calls that ``re`` has under the same names, for a query that is written where it is used."""
from __future__ import annotations

import os
from functools import lru_cache
from typing import TYPE_CHECKING, Any, Iterator, List, Optional, Union

from .match import Match, Matches
from .query import Query

if TYPE_CHECKING:
    from .documents import Source
    from .replace import Replacement

__all__ = ['expand', 'findall', 'finditer', 'fullmatch', 'search', 'split', 'sub']

_KEPT = 64  # queries that are kept ready


@lru_cache(_KEPT)
def _made(text: Union[str, bytes], program: Optional[str]) -> Query:
    return Query(text)


def query_of(text: Union[str, bytes, Query]) -> Query:
    return text if isinstance(text, Query) else _made(text, os.environ.get('REMATCH'))


def search(query: Union[str, bytes, Query], document: 'Source', *, after: str = 'start') -> Optional[Match[Any]]:
    """The first row, or None where there is none. The last queries that were given as texts are kept ready.

    >>> search('/!x{a+}/', 'baa')
    <rematch.Match x=1-2>
    >>> search('/!x{c}/', 'baa') is None
    True
    """
    return query_of(query).search(document, after=after)


def fullmatch(query: Union[str, bytes, Query], document: 'Source') -> Optional[Match[Any]]:
    """The first row that is as long as the document, as `Query.fullmatch` has it.

    >>> fullmatch('/!x{a+}/', 'aa')
    <rematch.Match x=0-2>
    """
    return query_of(query).fullmatch(document)


def split(query: Union[str, bytes, Query], document: 'Source', *, name: Optional[str] = None, count: int = 0) -> List[Any]:
    """What is between the spans of a variable, as `Query.split` has it.

    >>> split('/!x{, *}/', 'a, b,c', count=1)
    ['a', 'b,c']
    """
    return query_of(query).split(document, name=name, count=count)


def expand(text: Union[str, bytes], *, folder: Optional[str] = None) -> Union[str, bytes]:
    r"""The query that the program reads for a text with the conveniences of ``rematch-to``; `QueryError` for one that cannot be read.

    A list of words, as `%{words.txt}`, is read from ``folder``, and refused where none is given.

    >>> expand('part ip = /[0-9.]+/; /FROM !ip{%{ip}}/i')
    '/[Ff][Rr][Oo][Mm] !ip{([0-9.]+)}/'
    """
    from .to.expand import expanded
    from .to.listed import Lists
    made = expanded(text, None if folder is None else Lists(folder)).text
    return made.decode('utf-8', 'surrogateescape') if isinstance(text, str) else made


def findall(query: Union[str, bytes, Query], document: 'Source', *, after: str = 'start',
            limit: Optional[int] = None) -> Matches[Any]:
    """The rows as a list.

    >>> findall('/!x{a+}/', 'aa')
    [<rematch.Match x=0-1>, <rematch.Match x=0-2>, <rematch.Match x=1-2>]
    """
    return query_of(query).findall(document, after=after, limit=limit)


def finditer(query: Union[str, bytes, Query], document: 'Source', *, after: str = 'start',
             limit: Optional[int] = None) -> Iterator[Match[Any]]:
    """The rows one by one, as they come.

    >>> [match['x'] for match in finditer('/!x{a+}/', 'aa')]
    ['a', 'aa', 'a']
    """
    return query_of(query).finditer(document, after=after, limit=limit)


def sub(query: Union[str, bytes, Query], replacement: 'Replacement', document: 'Source', *, name: Optional[str] = None,
        count: int = 0) -> Union[str, bytes]:
    r"""The document with spans replaced, as `Query.sub` has it.

    >>> sub(r'/from !ip{[\d.]+} /', '*', 'from 192.0.2.7 port 22')
    'from * port 22'
    """
    return query_of(query).sub(replacement, document, name=name, count=count)
