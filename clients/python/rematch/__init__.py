r"""Every match of a query in a document, over the program rematch.

    >>> import rematch
    >>> query = rematch.Query(r'/!x{a+}!y{b+}/')
    >>> for match in query.finditer('aabb'):
    ...     print(match.span('x'), match['y'])
    (0, 2) b
    (0, 2) bb
    (1, 2) b
    (1, 2) bb

The names here are all that is public: `Query` with `Match`, `Matches`, `Page` and `Document`; `search`, `match`, `fullmatch`,
`findall`, `finditer`, `split` and `sub`, as ``re`` has them; `expand`, which writes out the conveniences of rematch-to; the faults, each
also of a built-in kind; `advise`, on what is accepted and seldom meant; `Server`, for many queries of small documents and for documents
that grow; `reach` and `NoReach`, for documents in pieces; `on_dask`, for many machines. clients/README.md has examples.
"""
from typing import TYPE_CHECKING, Any, List, Optional, Union

from .documents import Document
from .faults import (CursorError, DocumentError, OutOfMemory, ProgramError, ProgramNotFound, QueryError, RematchError,
                     SizeError)
from .match import Match, Matches, NoVariable, Page
from .program import find_program
from .query import Query
from .version import VERSION

if TYPE_CHECKING:
    from .dask import on_dask
    from .advice import Advice, advise
    from .calls import expand, findall, finditer, fullmatch, search, split, sub
    from .pieces import NoReach, reach
    from .session import Server, Session, SessionError

__all__ = ['Query', 'Match', 'Matches', 'Page', 'Document', 'RematchError', 'QueryError', 'SizeError', 'DocumentError',
           'CursorError', 'OutOfMemory', 'ProgramError', 'ProgramNotFound', 'NoVariable', 'find_program', 'compile', 'search',
           'match', 'fullmatch', 'findall', 'finditer', 'split', 'sub', 'expand', 'advise', 'Advice', 'Server', 'Session', 'SessionError', 'reach', 'NoReach', 'on_dask']
__version__ = VERSION

_ELSEWHERE = {**dict.fromkeys(('expand', 'findall', 'finditer', 'fullmatch', 'search', 'split', 'sub'), 'calls'),
              'advise': 'advice', 'Advice': 'advice', 'Server': 'session', 'Session': 'session', 'SessionError': 'session',
              'reach': 'pieces', 'NoReach': 'pieces', 'on_dask': 'dask'}


def compile(text: Union[str, bytes], **words: Any) -> Query:
    """`Query` under the name that ``re`` has for it; the words are the same.

    >>> compile('/!x{a}/').count(b'aba')
    2
    """
    return Query(text, **words)


def match(query: Union[str, bytes, Query], document: Any) -> Optional[Match[Any]]:  # in place of the module of this name
    """The first row that begins where the document does, as `Query.match` has it.

    >>> match('/!x{a+}/', 'aab')
    <rematch.Match x=0-1>
    """
    from .calls import query_of
    return query_of(query).match(document)


def __getattr__(name: str) -> Any:
    """What is seldom needed is read when it is asked for."""
    if name in _ELSEWHERE:
        from importlib import import_module
        value = getattr(import_module('.' + _ELSEWHERE[name], __name__), name)
        globals()[name] = value
        return value
    raise AttributeError(f'module {__name__!r} has no attribute {name!r}')


def __dir__() -> List[str]:
    return sorted({*globals(), *__all__})
