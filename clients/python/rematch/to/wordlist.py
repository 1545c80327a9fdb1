"""A list of words as queries: `--words FILE`. Words that begin or end alike share these parts, and a long list is cut into several queries."""
from __future__ import annotations

import os
import re
from heapq import merge
from itertools import islice
from typing import Any, Dict, Iterator, List, Optional, Sequence

from ..documents import Source, open_document
from ..faults import QueryError
from ..match import Row
from .merged import SplitQuery

__all__ = ['ListQuery', 'formula_in_bytes', 'formula_of', 'queries_of', 'weight_of', 'words_of']

_MOST_SIGNS, _MOST_BYTES = 17_000, 60_000  # of the formula of one query: its automaton has less than 20,000 states
_MOST_OPEN = 90  # groups within each other
_LONGEST = 1000  # bytes of a word
_EDGE = 4  # bytes of a character beside a word
_SIGN = re.compile(rb'\\x..|\\[pu]\{\w+\}|\\.|\[(?:[^\]\\]|\\.)*\]|[^()|?*+{}/]')  # of a query, and the letters between its formulas
_PUNCTUATION = frozenset('!"#$%&\'()*+,-./:;<=>?@[\\]^_`{|}~') - {'_'}


def words_of(data: bytes, name: str) -> List[str]:
    """The words of a file, one on each line, sorted and each once; `QueryError` where there is none, or one that cannot be a word."""
    try:
        text = data.decode('utf-8-sig')
    except UnicodeDecodeError as reason:
        raise QueryError(f'{name}: no UTF-8 at {reason.start}', 3, b'') from None
    words = sorted({line.strip() for line in text.split('\n')} - {''})
    if not words:
        raise QueryError(f'{name}: no word in it', 3, b'')
    longest = max(words, key=len)
    if len(longest.encode()) > _LONGEST:
        raise QueryError(f'{name}: a word of more than {_LONGEST} bytes: {longest[:20]}..', 3, b'')
    return words


# -- Words as a formula

def _sign(letter: str) -> str:
    return '\\' + letter if letter in _PUNCTUATION else letter


def _written(word: str) -> str:
    return ''.join(map(_sign, word))


def formula_of(words: Sequence[str], depth: int = 0) -> str:
    """A formula that fits these words alone, which are sorted; common beginnings and ends are written once.

    >>> formula_of(['abate', 'abbey', 'abbeys', 'able']), formula_of(['as', 'is'])
    ('ab(ate|bey(s)?|le)', '[ai]s')
    """
    if len(words) == 1:
        return _written(words[0])
    if depth > _MOST_OPEN:
        return '(' + '|'.join(map(_written, words)) + ')'
    common = os.path.commonprefix([words[0], words[-1]])
    if common:
        return _written(common) + formula_of([word[len(common):] for word in words], depth)
    is_optional = not words[0]
    arms = _arms(words[1:] if is_optional else words, depth + 1)
    body = '|'.join(arms)
    if is_optional:
        return f'({body})?'
    return body if len(arms) == 1 else f'({body})'


def _arms(words: Sequence[str], depth: int) -> List[str]:
    """The formulas of the words by their first letters; letters with the same rest are one class."""
    tails: Dict[str, List[str]] = {}
    at = 0
    while at < len(words):
        letter, end = words[at][0], at
        while end < len(words) and words[end][0] == letter:
            end += 1
        tails.setdefault(formula_of([word[1:] for word in words[at:end]], depth), []).append(letter)
        at = end
    return [(_sign(letters[0]) if len(letters) == 1 else '[' + ''.join(map(_sign, letters)) + ']') + tail for tail, letters in tails.items()]


def formula_in_bytes(words: Sequence[str]) -> str:
    r"""The same for a formula over bytes, where a class has single bytes alone.

    >>> formula_in_bytes(['é', 'è'])
    '\\xc3[\\xa8\\xa9]'
    """
    formula = formula_of(sorted(word.encode('utf-8').decode('latin-1') for word in words))
    return re.sub('[\x80-\xff]', lambda sign: f'\\x{ord(sign[0]):02x}', formula)


def queries_of(words: Sequence[str]) -> List[str]:
    r"""The queries of the words, whose variable is `word`; before and behind each there is no other letter.

    >>> queries_of(['as', 'is'])
    ['/[^\\w]!word{[ai]s}[^\\w]/']
    """
    is_ascii = all(word.isascii() for word in words)
    beside, flag = (r'[^\w]', '') if is_ascii else (r'[^\p{L}\p{N}_]', 'u')
    return [f'/{beside}!word{{{formula}}}{beside}/{flag}' for formula in _formulas(words)]


def _formulas(words: Sequence[str]) -> Iterator[str]:
    """The formulas of the words, as many as it takes."""
    formula = formula_of(words)
    if len(words) == 1 or weight_of(f'/{formula}/u'.encode()) <= 1:
        yield formula
        return
    middle = len(words) // 2
    yield from _formulas(words[:middle])
    yield from _formulas(words[middle:])


def weight_of(text: bytes) -> float:
    """How large a query with a list is, where 1 is the most that one should be."""
    return max(len(text) / _MOST_BYTES, _signs_of(text) / _MOST_SIGNS)


def _signs_of(text: bytes) -> int:
    """About how many signs and classes a query has; of what is past ASCII each byte counts.

    >>> _signs_of(b'/ab(ate|bey(s)?)/'), _signs_of(rb'/[ai]\\.[\\]a]/'), _signs_of('/é/u'.encode())
    (9, 3, 3)
    """
    return sum(1 if sign.isascii() else len(sign) for sign in _SIGN.findall(text))


# -- The rows of several queries

class ListQuery(SplitQuery):
    """The queries of a list of words as one: their rows together, in the order of the document.

    >>> query = ListQuery(['on', 'one', 'tone'])
    >>> list(query.rows(b'one on tone')), query.count(b'one'), query.any(b'ones')
    ([(0, 3), (4, 6), (7, 11)], 1, False)
    """

    def __init__(self, listed: Sequence[str], **words: Any) -> None:
        super().__init__([text.encode() for text in queries_of(listed)], **words)
        self._longest = max(len(word.encode()) for word in listed) + _EDGE

    def rows(self, document: Source, *, after: str = 'start', limit: Optional[int] = None) -> Iterator[Row]:
        """The rows; those at the document's edges are found with a line feed beside them."""
        if after != 'start':
            raise ValueError('a list of words has no cursors')
        opened = open_document(document)
        data: Any = opened.data
        found = merge(self._at_start(data), *(part.rows(opened) for part in self.parts), self._at_end(data))
        return islice(found, limit)

    def _at_start(self, data: Any) -> List[Row]:
        head = b'\n' + data[:self._longest] + b'\n' * (len(data) <= self._longest)
        return sorted((row[0] - 1, row[1] - 1) for part in self.parts for row in part.rows(head) if row[0] == 1)

    def _at_end(self, data: Any) -> List[Row]:
        if len(data) <= self._longest:
            start, tail = 0, b'\n' + data[:] + b'\n'
        else:
            start, tail = len(data) - self._longest, data[len(data) - self._longest:] + b'\n'
        shift = start - 1 if not start else start
        rows = ((row[0] + shift, row[1] + shift) for part in self.parts for row in part.rows(tail))
        return sorted(row for row in rows if row[1] == len(data) and row[0] > 0)

    def count(self, document: Source) -> int:
        """How many rows there are."""
        opened = open_document(document)
        data: Any = opened.data
        return sum(part.count(opened) for part in self.parts) + len(self._at_start(data)) + len(self._at_end(data))
