"""``series.rematch`` on each series of pandas, from the moment that this module is imported: ``import rematch.pandas``."""
from __future__ import annotations

from typing import Any, List, Tuple, Union

import pandas

from .calls import query_of
from .match import Matches
from .query import Query

__all__ = ['Accessor']


@pandas.api.extensions.register_series_accessor('rematch')
class Accessor:
    """What a series of texts is asked: ``series.rematch.table(query)`` and ``series.rematch.count(query)``.

    A query is a `Query` or its text. What is missing (None, NaN) has no rows; what is no text raises `TypeError` with its label.
    Each text is searched by itself, as `Query.map` does, and places count characters (of bytes, bytes).
    """

    def __init__(self, series: Any) -> None:
        self._series = series

    def _texts(self) -> Tuple[List[Any], List[Union[str, bytes]]]:
        """The labels and the texts of what is not missing."""
        labels: List[Any] = []
        texts: List[Union[str, bytes]] = []
        for label, value in self._series.items():
            if isinstance(value, (str, bytes)):
                labels.append(label)
                texts.append(value)
            elif not (pandas.api.types.is_scalar(value) and pandas.isna(value)):
                raise TypeError(f'the value at {label!r} is a str or bytes, not {type(value).__name__}: series.astype(str) '
                                'makes texts')
        return labels, texts

    def table(self, query: Union[str, bytes, Query]) -> Any:
        """A frame with a line a row: of each variable x the columns ``x_start``, ``x_end`` and ``x``, as `Query.table` has them.

        Its index is that of the series, with a level ``row`` behind it, which counts the rows of a text from 0:
        ``frame.text.rematch.table(query).droplevel('row').join(frame)`` puts the other columns of a frame beside it.

        >>> series = pandas.Series(['one=1 two=2', None, 'three=3'], ['a', 'b', 'c'])
        >>> series.rematch.table('/=!value{[0-9]}/').value.to_dict()
        {('a', 0): '1', ('a', 1): '2', ('c', 0): '3'}
        """
        made = query_of(query)
        labels, texts = self._texts()
        found: List[Matches[Any]] = list(made.map(texts))
        if self._series.index.nlevels == 1:
            labels = [(label,) for label in labels]
        names = [*self._series.index.names, 'row']
        keys = [(*label, row) for label, matches in zip(labels, found) for row in range(len(matches))]
        index = pandas.MultiIndex.from_arrays(list(zip(*keys)) or [[]] * len(names), names=names)
        columns = {}
        for name in made.variables:
            spans = [match.span(name) or (-1, -1) for matches in found for match in matches]
            columns[name + '_start'] = pandas.Series([start for start, _ in spans], index, dtype='int64')
            columns[name + '_end'] = pandas.Series([end for _, end in spans], index, dtype='int64')
            columns[name] = pandas.Series([match[name] for matches in found for match in matches], index, dtype='object')
        return pandas.DataFrame(columns, index=index)

    def count(self, query: Union[str, bytes, Query]) -> Any:
        """How many rows each text has, as a series with the same index; of what is missing 0.

        >>> pandas.Series(['aba', None, 'b']).rematch.count('/!x{a}/').tolist()
        [2, 0, 0]
        """
        _, texts = self._texts()
        rows = iter([len(matches) for matches in query_of(query).map(texts)])
        counts = [next(rows) if isinstance(value, (str, bytes)) else 0 for value in self._series]
        return pandas.Series(counts, self._series.index, dtype='int64', name=self._series.name)
