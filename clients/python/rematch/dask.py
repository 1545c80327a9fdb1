"""Pieces of documents on the workers of Dask."""
from __future__ import annotations

import os
from typing import TYPE_CHECKING, Any, Dict, Iterable, List, Sequence, Union

from .pieces import cuts, reach, table_of_piece
from .program import find_program
from .query import Query

if TYPE_CHECKING:
    from .pieces import Path

__all__ = ['on_dask']


def on_dask(client: Any, query: Query, paths: 'Union[Path, Iterable[Path]]', *, size: int = 8_000_000, frame: bool = False) -> Any:
    """The rows of documents, cut into pieces of ``size`` bytes that are searched on the workers of a Dask client.

    The answer is a ``dask.bag`` of one ``dict`` a row, or with ``frame`` a ``dask.dataframe``. Its members or columns are
    ``document``, and of each variable x ``x_start``, ``x_end`` (in bytes of the document; -1 where it is absent) and ``x``
    (a ``str``; None where it is absent). Rows stand in the order of the documents and of the program. Nothing is searched
    before the answer is computed.

    Each worker opens a document by its path and runs its own program, so both must be there; a worker without the program
    raises `ProgramNotFound` here. A query without a reach raises `NoReach`, and a document that is not there `DocumentError`.
    """
    from dask import delayed
    lines = reach(query)
    client.run(find_program)
    given: List[Path] = [paths] if isinstance(paths, (str, os.PathLike)) else list(paths)
    ask: Any = delayed(_table, pure=False)
    parts = [ask(query, os.fspath(path), *piece, lines) for path in given for piece in cuts(path, size)]
    if frame:
        import dask.dataframe
        import pandas
        kinds: Dict[str, Any] = {'document': 'object'}
        for name in query.variables:
            kinds.update({name + '_start': 'int64', name + '_end': 'int64', name: 'object'})
        meta = pandas.DataFrame({name: pandas.Series(dtype=kind) for name, kind in kinds.items()})
        return dask.dataframe.from_delayed([delayed(_framed)(part, kinds) for part in parts], meta=meta)
    import dask.bag
    return dask.bag.from_delayed([delayed(_listed)(part) for part in parts])


def _table(query: Query, path: str, start: int, end: int, lines: int) -> Dict[str, Sequence[Any]]:
    return table_of_piece(query, path, start, end, lines)


def _listed(table: Dict[str, Sequence[Any]]) -> List[Dict[str, Any]]:
    return [dict(zip(table, row)) for row in zip(*table.values())]


def _framed(table: Dict[str, Sequence[Any]], kinds: Dict[str, Any]) -> Any:
    import pandas
    return pandas.DataFrame({name: pandas.Series(column, dtype=kinds[name]) for name, column in table.items()})
