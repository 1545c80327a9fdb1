"""Rows as a table of Arrow: places as numbers, documents and texts as dictionaries. The package pyarrow makes the table of them."""
from __future__ import annotations

import os
from array import array
from collections.abc import Mapping
from itertools import repeat
from typing import Any, Callable, Dict, Iterable, Iterator, List, Optional, Sequence, Tuple, Union

from .documents import Document, Source, open_document
from .query import Query, flat_places

__all__ = ['Coded', 'Columns', 'parquet_of', 'table_of', 'table_of_documents']

Text = Union[str, bytes]


class Coded:
    """A column of texts as numbers of a dictionary; -1 where a row has no text.

    >>> column = Coded()
    >>> column.extend(['b', None, 'a', 'b'])
    >>> column.texts, column.codes
    (['b', 'a'], array('i', [0, -1, 1, 0]))
    """

    def __init__(self) -> None:
        self._numbers: Dict[Text, int] = {}
        self.codes = array('i')

    @property
    def texts(self) -> List[Text]:
        """The dictionary: each text once."""
        return list(self._numbers)

    def extend(self, texts: Iterable[Optional[Text]]) -> None:
        """Goes on with these texts."""
        numbers = self._numbers
        self.codes.extend([-1 if text is None else numbers.setdefault(text, len(numbers)) for text in texts])


class Columns:
    """The columns of a table: document, perhaps line, and of each variable x ``x_start``, ``x_end`` and ``x``.

    Where an absent variable has no place and no text there is -1. ``kind`` is that of the places, of 32 bits (i) or 64 (q).
    Two columns of one name raise `ValueError`.

    >>> columns = Columns(['x', 'y'])
    >>> columns.add('d', array('i', [0, 1, -1, -1, 1, 2, 2, 3]), 2, lambda start, end: 'aba'[start:end])
    >>> [(name, column.codes if isinstance(column, Coded) else column) for name, column in columns.named()]
    [('document', array('i', [0, 0])), ('x_start', array('i', [0, 1])), ('x_end', array('i', [1, 2])), ('x', array('i', [0, 1])),
     ('y_start', array('i', [-1, 2])), ('y_end', array('i', [-1, 3])), ('y', array('i', [-1, 0]))]
    """

    def __init__(self, variables: Sequence[str], *, kind: str = 'i', has_lines: bool = False) -> None:
        self.variables = variables
        self.documents = Coded()
        self.lines: Optional['array[int]'] = array(kind) if has_lines else None
        self._places: List['array[int]'] = [array(kind) for _ in range(2 * len(variables))]
        self._texts = [Coded() for _ in variables]
        names = [name for name, _ in self.named()]
        twice = next((name for name in names if names.count(name) > 1), None)
        if twice is not None:
            raise ValueError(f'two columns would be called {twice!r}: give the variable another name')

    def add(self, document: str, places: 'array[int]', rows: int, text: Callable[[int, int], Text], lines: Iterable[int] = ()) -> None:
        """Goes on with the rows of a document: all places, row by row, and what has the text from one place to another."""
        width = len(self._places)
        self.documents.extend(repeat(document, rows))
        for at in range(0, width, 2):
            starts, ends = places[at::width], places[at + 1::width]
            self._places[at].extend(starts)
            self._places[at + 1].extend(ends)
            self._texts[at // 2].extend(None if start < 0 else text(start, end) for start, end in zip(starts, ends))
        if self.lines is not None:
            self.lines.extend(lines)

    def named(self) -> Iterator[Tuple[str, Union[Coded, 'array[int]']]]:
        """The columns with their names."""
        yield 'document', self.documents
        if self.lines is not None:
            yield 'line', self.lines
        for number, name in enumerate(self.variables):
            yield name + '_start', self._places[2 * number]
            yield name + '_end', self._places[2 * number + 1]
            yield name, self._texts[number]


def bits_of(numbers: 'array[int]') -> Optional[bytes]:
    """A bit for each number, 0 for -1 and 1 for all others, the first in the lowest bit; None where no number is -1.

    >>> bits_of(array('i', [7, -1, 0, -1, 5, 5, 5, 5, -1, 2])), bits_of(array('i', [0]))
    (b'\\xf5\\x02', None)
    """
    if -1 not in numbers:
        return None
    signs = ''.join(['0' if number < 0 else '1' for number in reversed(numbers)])
    return int(signs, 2).to_bytes((len(numbers) + 7) // 8, 'little')


# -- By pyarrow

def _pyarrow() -> Any:
    try:
        import pyarrow
    except ImportError:
        raise ImportError('a table of Arrow needs the package pyarrow: pip install pyarrow') from None
    return pyarrow


def table_of(columns: Columns, *, is_text: bool = True) -> Any:
    """The table of pyarrow, over the memory of the columns; texts are strings, or where they are bytes binary."""
    arrow = _pyarrow()

    def numbers_of(numbers: 'array[int]') -> Any:
        bits = bits_of(numbers)
        kind = arrow.int32() if numbers.typecode == 'i' else arrow.int64()
        return arrow.Array.from_buffers(kind, len(numbers), [None if bits is None else arrow.py_buffer(bits), arrow.py_buffer(numbers)])

    def column_of(column: Union[Coded, 'array[int]']) -> Any:
        if not isinstance(column, Coded):
            return numbers_of(column)
        kind = arrow.string() if is_text or column is columns.documents else arrow.binary()
        return arrow.DictionaryArray.from_arrays(numbers_of(column.codes), arrow.array(column.texts, kind))

    named = list(columns.named())
    return arrow.Table.from_arrays([column_of(column) for _, column in named], names=[name for name, _ in named])


def parquet_of(columns: Columns) -> bytes:
    """The table as a file of Parquet."""
    from io import BytesIO
    table = table_of(columns)
    from pyarrow.parquet import write_table
    file = BytesIO()
    write_table(table, file)
    return file.getvalue()


def _named(documents: Any) -> Iterator[Tuple[Optional[str], Source]]:
    """The documents with the names that they are given: one, a mapping of names to documents, or several."""
    if isinstance(documents, Mapping):
        yield from documents.items()
    elif isinstance(documents, (str, bytes, bytearray, memoryview, os.PathLike, Document)) or hasattr(documents, 'read'):
        yield None, documents
    else:
        yield from ((None, document) for document in documents)


def columns_of_documents(query: Query, documents: Any, encoding: Optional[str]) -> Tuple[Columns, bool]:
    """The columns of `Query.arrow`, and whether their texts are ``str``."""
    columns = Columns(query.variables)
    kinds = set()
    for number, (name, source) in enumerate(_named(documents)):
        opened = open_document(source) if encoding is None else Document(source, encoding)
        opened.data  # read once, so that places and texts are of the same bytes
        kinds.add(isinstance(opened.text(0, 0), str))
        if len(kinds) > 1:
            raise TypeError('some documents are texts and others are bytes: encoding has all of them read as texts')
        places, rows = flat_places(query, opened)
        columns.add(name or opened.name or str(number), places, rows, opened.text)
    return columns, kinds != {False}


def table_of_documents(query: Query, documents: Any, encoding: Optional[str] = None) -> Any:
    """The table of `Query.arrow`."""
    _pyarrow()  # before anything is searched
    columns, is_text = columns_of_documents(query, documents, encoding)
    return table_of(columns, is_text=is_text)
