"""``rematch-cut`` and ``rematch-piece``: the pieces of a document, and the rows of one, as commands."""
from __future__ import annotations

import os
import sys
from argparse import ArgumentParser
from typing import List, Optional, Sequence, Tuple

from ..faults import QueryError
from ..match import Row
from ..pieces import cuts, rows_of_piece
from ..query import Query
from .command import run_told
from .expand import expanded
from .listed import Lists

__all__ = ['cut_main', 'piece_main']


def line_of(query: Query, row: Row, form: str) -> str:
    """The line of a row as the program writes it in that form: spans, table or json.

    >>> from rematch import Query
    >>> query = Query('/(!x{a})?!y{b}/')
    >>> [line_of(query, (-1, -1, 1, 2), form) for form in ('spans', 'table', 'json')]
    ['x=- y=1-2', '-\\t1-2', '{"x":null,"y":[1,2]}']
    """
    places = iter(row)
    spans: Sequence[Tuple[str, int, int]] = list(zip(query.variables, places, places))
    if form == 'json':
        return '{' + ','.join(f'"{name}":{f"[{start},{end}]" if start >= 0 else "null"}' for name, start, end in spans) + '}'
    cells = [f'{start}-{end}' if start >= 0 else '-' for _, start, end in spans]
    if form == 'table':
        return '\t'.join(cells)
    return ' '.join(f'{name}={cell}' for (name, _, _), cell in zip(spans, cells))


def cut_main(words: Optional[List[str]] = None) -> int:
    """``rematch-cut``: the pieces of a document, a line each."""
    parser = ArgumentParser(prog='rematch-cut', description='Cut a document at line ends: write START END, in bytes, of each piece.')
    parser.add_argument('document', help='a file')
    parser.add_argument('size', type=int, help='the least length of a piece, in bytes')
    given = parser.parse_args(words)

    def run() -> None:
        for piece in cuts(given.document, given.size):
            print(piece.start, piece.end)

    return run_told(run)


def expanded_query(path: str) -> Query:
    """The query of a file, whose conveniences are written out; a fault is at its place in the file."""
    with open(path, 'rb') as file:
        found = expanded(file.read(), Lists(os.path.dirname(path)))
    try:
        return Query(found.text)
    except QueryError as fault:
        raise found.fault(fault) from None


def piece_main(words: Optional[List[str]] = None) -> int:
    """``rematch-piece``: the rows of one piece, as the program writes them."""
    parser = ArgumentParser(prog='rematch-piece', description='Write the rows that begin in a piece of a document, with the places of the '
                            'whole. Pieces one after another write what one run on the whole document does.')
    parser.add_argument('query', help='a file that holds the query')
    parser.add_argument('document', help='a file')
    parser.add_argument('start', type=int, help='where the piece begins, in bytes from 0')
    parser.add_argument('end', type=int, help='where it ends')
    parser.add_argument('-f', dest='form', choices=['spans', 'table', 'json'], default='spans', help='the form of a row (spans)')
    given = parser.parse_args(words)

    def run() -> None:
        query = expanded_query(given.query)
        if given.form == 'table' and given.start == 0:
            print('\t'.join(query.variables))
        for row in rows_of_piece(query, given.document, given.start, given.end):
            sys.stdout.write(line_of(query, row, given.form) + '\n')

    return run_told(run)
