"""Named patterns of a file, `--pattern-file`: lines `NAME<TAB>FORMULA`, or records of FASTA, whose rows have the name."""
from __future__ import annotations

import re
from itertools import islice
from typing import Any, Callable, Iterator, List, NamedTuple, NoReturn, Optional, Sequence, Tuple

from ..documents import Source, open_document
from ..faults import QueryError, RematchError
from ..match import Row, Variables
from ..query import Query
from .merged import in_order_with_names

__all__ = ['MATCH', 'NamedRow', 'Pattern', 'PatternQuery', 'patterns_of', 'query_of_formula', 'told_of']

MATCH = 'match'  # the variable of a pattern without a capture
_AT_ONCE = 8  # patterns whose programs run side by side
_UNSLASHED = re.compile(r'\\.|/', re.S)


class Pattern(NamedTuple):
    """A line of the file: its number, and a query."""

    name: str
    query: str
    line: int


class NamedRow(Tuple[int, ...]):
    """A row with the name of its pattern."""

    pattern = ''

    @classmethod
    def of(cls, places: Sequence[int], pattern: str) -> 'NamedRow':
        """The row of these places."""
        made = cls(places)
        made.pattern = pattern
        return made

    def at(self, places: Sequence[int]) -> 'NamedRow':
        """The same row at other places."""
        return self.of(places, self.pattern)


def _refuse(path: str, line: int, reason: str) -> NoReturn:
    fault = QueryError(f'{path}: line {line}: {reason}', 3, b'')
    fault.hint = None if 'query: ' in reason else 'a line is NAME, a tab and a formula, with or without slashes; lines that begin with # are comments'
    raise fault


def told_of(fault: QueryError) -> str:
    """What is wrong with a formula, on one line."""
    return f'{fault.note}: {fault.hint}' if fault.hint else fault.note


def query_of_formula(formula: str) -> str:
    """A formula as a query; what begins with a slash is one."""
    if formula.startswith('/'):
        return formula
    return '/' + _UNSLASHED.sub(lambda sign: '\\/' if sign[0] == '/' else sign[0], formula) + '/'


def patterns_of(data: bytes, path: str, query_of: Callable[[str], str] = query_of_formula) -> List[Pattern]:
    r"""The patterns of a file; `QueryError` where there is none, or a line is none.

    >>> [tuple(pattern) for pattern in patterns_of(b'# of logs\nip\t[\\d.]+\npath\t/GET !path{[^ ]+}/i\n', 'f')]
    [('ip', '/[\\d.]+/', 2), ('path', '/GET !path{[^ ]+}/i', 3)]
    >>> [tuple(pattern) for pattern in patterns_of(b'>box of ten\nTATA\nAT\n', 'f')]
    [('box', '/TATAAT/', 1)]
    """
    try:
        lines = data.decode('utf-8-sig').split('\n')
    except UnicodeDecodeError as reason:
        raise QueryError(f'{path}: no UTF-8 at {reason.start}', 3, b'') from None
    lines = [line.rstrip('\r') for line in lines]
    texts = _records(lines, path) if lines[0].startswith('>') else _named_lines(lines, path)
    found = []
    for number, name, text in texts:
        try:
            found.append(Pattern(name, query_of(text), number))
        except QueryError as fault:
            _refuse(path, number, told_of(fault))
    if not found:
        _refuse(path, 1, 'there is no pattern')
    return found


def _named_lines(lines: Sequence[str], path: str) -> Iterator[Tuple[int, str, str]]:
    for number, line in enumerate(lines, 1):
        if not line.strip() or line.startswith('#'):
            continue
        name, tab, text = line.partition('\t')
        if not tab or not name.strip() or not text.strip():
            _refuse(path, number, 'it has no name' if tab and text.strip() else 'it has no formula' if tab else 'it has no tab')
        yield number, name.strip(), text


def _records(lines: Sequence[str], path: str) -> Iterator[Tuple[int, str, str]]:
    starts = [number for number, line in enumerate(lines) if line.startswith('>')]
    for start, end in zip(starts, [*starts[1:], len(lines)]):
        words, text = lines[start][1:].split(), ''.join(line.strip() for line in lines[start + 1:end])
        if not words or not text:
            _refuse(path, start + 1, 'it has no formula' if words else 'it has no name')
        yield start + 1, words[0], text


class PatternQuery(Query):
    """Named patterns as one query: the rows of each with its name, together in the order of rows.

    Its variables are those of all patterns, of which a row has those of its own.

    >>> query = PatternQuery([Pattern('b', '/!match{b}/', 1), Pattern('some', '/!match{[ab]}/', 2)], 'f')
    >>> [(row.pattern, row) for row in query.rows(b'ab')]
    [('some', (0, 1)), ('b', (1, 2)), ('some', (1, 2))]
    """

    def __init__(self, patterns: Sequence[Pattern], path: str, **words: Any) -> None:
        self.patterns = list(patterns)
        self.parts: List[Query] = []
        for pattern in patterns:
            try:
                self.parts.append(Query(pattern.query, **words))
            except QueryError as fault:
                _refuse(path, pattern.line, told_of(fault))
        super().__init__(patterns[0].query, **words)
        self.text = b'(' + b') union ('.join(part.text for part in self.parts) + b')'
        names = sorted({name for part in self.parts for name in part.variables})
        Variables.__init__(self, names)
        self._widths = [[names.index(name) for name in part.variables] for part in self.parts]
        self._count = len(names)

    @property
    def printed(self) -> str:
        """The patterns as the program prints them, together."""
        return '(' + ') union ('.join(part.printed for part in self.parts) + ')'

    def rows(self, document: Source, *, after: str = 'start', limit: Optional[int] = None) -> Iterator[Row]:
        """The rows, each with the name of its pattern; they have no cursors."""
        if after != 'start':
            raise ValueError('named patterns have no cursors')
        opened = open_document(document)
        opened.data  # read once, for all patterns
        parts = [self._named(k, opened) for k in range(len(self.parts))]
        return islice(in_order_with_names(parts if len(parts) <= _AT_ONCE else [list(part) for part in parts]), limit)

    def _named(self, k: int, document: Any) -> Iterator[Row]:
        """The rows of a pattern, with all variables."""
        name, width = self.patterns[k].name, self._widths[k]
        try:
            for row in self.parts[k].rows(document):
                places = [-1] * (2 * self._count)
                for at, place in enumerate(width):
                    places[2 * place:2 * place + 2] = row[2 * at:2 * at + 2]
                yield NamedRow.of(places, name)
        except RematchError as fault:
            fault.note = f'{fault.note}, of the pattern {name}'
            raise

    def count(self, document: Source) -> int:
        """How many rows there are."""
        opened = open_document(document)
        opened.data
        return sum(part.count(opened) for part in self.parts)

    def any(self, document: Source, *, after: str = 'start') -> bool:
        """Whether there is a row."""
        opened = open_document(document)
        opened.data
        return any(part.any(opened) for part in self.parts)

    def close(self) -> None:
        """Nothing is open between two documents."""
