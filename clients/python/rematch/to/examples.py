r"""Examples in a query file, which ``rematch-to check`` runs: comments ``#= TEXT -> ROWS``.

TEXT is the document, in quotes where blanks stand around it; in it ``\n``, ``\t``, ``\r``, ``\xhh``, ``\"`` and ``\\`` are as the program
writes them. ROWS are ``none``, a number as ``3 rows``, or rows with ``;`` between them, in any order. A row is ``NAME=TEXT`` for each of its
variables, with the text in quotes where it has a blank or a ``;``; a variable that is absent is left out.
"""
from __future__ import annotations

import re
from collections import Counter
from typing import Dict, Iterator, List, NamedTuple, Optional, Tuple

from ..query import Query
from ..reader import read
from .tables import shown_text

__all__ = ['BadExample', 'Example', 'examples_of', 'faults_of']

_ESCAPE = re.compile(rb'\\(?:x([0-9A-Fa-f]{2})|(.))', re.S)
_SIGNS = {b'\\': b'\\', b'n': b'\n', b't': b'\t', b'r': b'\r', b'"': b'"'}  # the backslash first, since it is put before the others
_CELL = re.compile(rb'\s*([A-Za-z_]\w*)=("(?:[^"\\]|\\.)*"|[^\s";]*)\s*')
_NUMBER = re.compile(rb'(\d+) rows?')

Texts = Tuple[Tuple[str, bytes], ...]  # the variables of a row that are there, by name, with their texts


class BadExample(ValueError):
    """An example that cannot be read; the text says why, and ``line`` where it is."""

    line = 0


class Example(NamedTuple):
    """A document with the rows that a query has on it: all of them, or their number alone."""

    line: int
    document: bytes
    rows: Optional[List[Texts]]
    count: int


def _unescaped(text: bytes) -> bytes:
    """The bytes of a text as the program writes it."""
    def sign(found: 're.Match[bytes]') -> bytes:
        if found[1]:
            return bytes([int(found[1], 16)])
        if found[2] not in _SIGNS:
            raise BadExample(f'\\{shown_text(found[2])} is no escape: write \\\\ for a backslash')
        return _SIGNS[found[2]]
    return _ESCAPE.sub(sign, text)


def _unquoted(text: bytes) -> bytes:
    is_quoted = len(text) > 1 and text[:1] == text[-1:] == b'"'
    return _unescaped(text[1:-1] if is_quoted else text)


def _row(text: bytes, start: int) -> Tuple[Texts, int]:
    """The row that begins at a place, and where it ends."""
    cells: Dict[str, bytes] = {}
    at = start
    while at < len(text) and text[at:at + 1] != b';':
        found = _CELL.match(text, at)
        if found is None:
            raise BadExample(f'no row: {shown_text(text[at:]).strip()!r}: write NAME=TEXT for each variable, none, or a number as 3 rows')
        cells[found[1].decode()] = _unquoted(found[2])
        at = found.end()
    return tuple(sorted(cells.items())), at


def _rows(text: bytes) -> List[Texts]:
    found, at = [], 0
    while True:
        row, at = _row(text, at)
        if not row:
            raise BadExample('no row between two ; : write none where there is no row')
        found.append(row)
        if at >= len(text):
            return found
        at += 1


def _example(comment: bytes, line: int) -> Example:
    text, arrow, wanted = comment[2:].rpartition(b'->')
    if not arrow:
        raise BadExample('no -> in the example: write #= TEXT -> ROWS')
    document, wanted = _unquoted(text.strip()), wanted.strip()
    number = _NUMBER.fullmatch(wanted)
    if number is not None:
        return Example(line, document, None, int(number[1]))
    rows = [] if wanted == b'none' else _rows(wanted)
    return Example(line, document, rows, len(rows))


def examples_of(source: bytes) -> Iterator[Example]:
    r"""The examples of a query file; `BadExample` for one that cannot be read.

    >>> list(examples_of(b'#= "user pi " -> user=pi\n#= user -> none\n/user !user{\\w+} /'))
    [Example(line=1, document=b'user pi ', rows=[(('user', b'pi'),)], count=1), Example(line=2, document=b'user', rows=[], count=0)]
    """
    for start, end in read(source, conveniences=True).comments:
        if source.startswith(b'#=', start):
            line = source.count(b'\n', 0, start) + 1
            try:
                yield _example(source[start:end], line)
            except BadExample as fault:
                fault.line = line
                raise


def _texts_of(query: Query, document: bytes, row: Tuple[int, ...]) -> Texts:
    return tuple((name, document[row[2 * k]:row[2 * k + 1]]) for k, name in enumerate(query.variables) if row[2 * k] >= 0)


def _escaped(text: bytes) -> str:
    for sign, byte in _SIGNS.items():
        text = text.replace(byte, b'\\' + sign)
    return shown_text(text)


def _shown(row: Texts) -> str:
    """A row as an example has it."""
    cells = [(name, _escaped(text)) for name, text in row]
    return ' '.join(f'{name}={text}' if re.fullmatch(r'[^\s";]*', text) else f'{name}="{text}"' for name, text in cells)


def faults_of(query: Query, examples: List[Example]) -> Iterator[Tuple[int, str]]:
    r"""The lines of the examples that do not hold, each with what the rows are.

    >>> query = Query(r'/user !user{\w+} /')
    >>> list(faults_of(query, list(examples_of(b'#= "user pi " -> user=p\n/user !user{\\w+} /'))))
    [(1, 'lacks user=p; has user=pi')]
    """
    for example in examples:
        rows = [_texts_of(query, example.document, row) for row in query.rows(example.document)]
        if example.rows is None:
            if len(rows) != example.count:
                yield example.line, f'has {len(rows)} rows'
            continue
        lacking, others = Counter(example.rows), Counter(rows)
        told = [f'{word} {"; ".join(_shown(row) or "a row without variables" for row in more.elements())}'
                for word, more in (('lacks', lacking - others), ('has', others - lacking)) if more]
        if told:
            yield example.line, '; '.join(told)
