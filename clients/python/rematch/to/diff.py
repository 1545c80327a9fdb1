"""``rematch-to diff``: the rows that a change of a query loses and gains, exactly."""
from __future__ import annotations

import argparse
import sys
from contextlib import ExitStack
from itertools import islice
from typing import Any, Iterator, List, NoReturn, Optional, Sequence, Tuple

from ..faults import OutOfMemory, QueryError, SizeError
from ..match import Row
from ..query import Query
from ..reader import read
from .command import run_told
from .convert import Command
from .jobs import Part
from .merged import SplitQuery
from .output import fault_of_output, output
from .packed import Given
from .progress import Progress
from .tables import Layout, Table
from .words import DIFF_EXAMPLES, read_words

__all__ = ['main', 'rows_without']


def _is_one_expression(text: bytes) -> bool:
    """Whether parentheses around a text make it a part of another: it has no let and no test."""
    tree = read(text)
    return not tree.lets and not tree.tests


def _kept(text: bytes, names: Sequence[str]) -> bytes:
    return b'project %s (%s)' % (','.join(names).encode() or b'none', text)


class _Side:
    """One of two queries, of which the variables that both have are compared."""

    def __init__(self, query: Query, names: Sequence[str], **words: Any) -> None:
        self.query = query
        self.words = words  # which the query was made with
        self.names = list(names)
        self._at = [2 * query.variables.index(name) for name in names]
        self._is_whole = list(names) == list(query.variables)

    def rows(self, found: Given) -> Iterator[Row]:
        """Its rows, of the variables that are compared."""
        rows = found.rows(self.query)
        return rows if self._is_whole else (tuple(row[at + side] for at in self._at for side in (0, 1)) for row in rows)


def rows_without(left: _Side, right: _Side, found: Given) -> Iterator[Row]:
    """The rows of one query that another has not, once each, in their order: by `minus`, or where that cannot be, all are compared."""
    text = None
    are_cut = isinstance(left.query, SplitQuery) or isinstance(right.query, SplitQuery)
    if not are_cut and _is_one_expression(left.query.text) and _is_one_expression(right.query.text):
        text = b'(%s) minus (%s)' % (_kept(left.query.text, left.names), _kept(right.query.text, right.names))
    if text is not None:
        try:
            rows = found.rows(Query(text, **left.words))
            first = list(islice(rows, 1))
            yield from first
            yield from rows
            return
        except (SizeError, OutOfMemory, QueryError):
            pass  # what is refused has given no row
    others = set(right.rows(found))
    for row in left.rows(found):
        if row not in others:
            others.add(row)
            yield row


class _Difference:
    """Two queries, and what each document has of one alone."""

    def __init__(self, given: argparse.Namespace, out: Any, progress: Progress) -> None:
        self.given = given
        self.names: List[str] = given.documents or ['-']
        self.out = out
        self.commands = [Command(_words_of(name, given), out, progress) for name in (given.old, given.new)]
        for command in self.commands:
            command.names = self.names
        old, new = (command.query for command in self.commands)
        shared = [name for name in old.variables if name in new.variables]
        self.tell_others(old, new, shared)
        words = {'filter': bool(given.filter), 'max_table': given.max_table}
        self.sides = _Side(old, shared, **words), _Side(new, shared, **words)
        self.counts = [0, 0]
        self.has_failed = False

    def tell_others(self, old: Query, new: Query, shared: List[str]) -> None:
        """Says which variables are not compared; where none is left the queries cannot be compared."""
        others = [f'{name} is in {path} alone' for query, other, path in ((old, new, self.given.old), (new, old, self.given.new))
                  for name in query.variables if name not in other.variables]
        if others and not shared:
            print(f'rematch-to diff: the queries have no variable in common: {", ".join(others)}', file=sys.stderr)
            raise SystemExit(2)
        if others:
            print(f'compared by {", ".join(shared)}: {", ".join(others)}', file=sys.stderr)

    def close(self) -> None:
        for command in self.commands:
            command.close()

    def run(self) -> None:
        """Writes the table of what is lost and gained."""
        table = Table(self.sides[0].query, _layout(self.sides[0].names))
        self.out.write('change,' + table.head())
        for name in self.names:
            command = self.commands[0]
            with command.guarded(name):
                found = command.opened(Part(name))
                for k, change in enumerate(('lost', 'gained')):
                    self.write(change, k, found)
        self.has_failed = self.commands[0].has_failed
        print(f'lost {self.counts[0]}, gained {self.counts[1]}', file=sys.stderr)

    def write(self, change: str, k: int, found: Given) -> None:
        """Writes the rows of one side that the other has not."""
        side = self.sides[k]
        table = Table(side.query, _layout(side.names))
        rows = rows_without(side, self.sides[1 - k], found)
        for line in table.lines(found, (_widened(row, side) for row in rows)):
            self.counts[k] += 1
            if self.given.most is None or self.counts[k] <= self.given.most:
                self.out.write(f'{change},{line}')


def _layout(names: Sequence[str]) -> Layout:
    return Layout(['document', 'line', *(name + end for name in names for end in ('_start', '_end', ''))])


def _widened(row: Row, side: _Side) -> Row:
    """The row with all variables of its query, of which those that are not compared are absent."""
    spans = {name: row[2 * k:2 * k + 2] for k, name in enumerate(side.names)}
    return tuple(place for name in side.query.variables for place in spans.get(name, (-1, -1)))


class _Parser(argparse.ArgumentParser):
    def error(self, message: str) -> NoReturn:
        sys.stderr.write(f'rematch-to diff: {message}\nhint: rematch-to diff OLD.query NEW.query DOC ..\n')
        raise SystemExit(2)


def _parser() -> _Parser:
    parser = _Parser(prog='rematch-to diff', formatter_class=argparse.RawDescriptionHelpFormatter, epilog=DIFF_EXAMPLES, add_help=False,
                     description='Write the rows that a change of a query loses and gains. The status is 0 where there are none, and 1 where there are.')
    parser.add_argument('old', metavar='OLD', help='a file that holds the query as it was')
    parser.add_argument('new', metavar='NEW', help='a file that holds the query as it is now')
    parser.add_argument('documents', nargs='*', metavar='DOC')
    parser.add_argument('-n', dest='most', type=int, metavar='N', help='at most so many lost rows and so many gained ones; all are counted')
    parser.add_argument('-o', dest='out', metavar='NAME', help='write there')
    parser.add_argument('--quiet', action='store_true', help='no advice on the queries, which is written on a terminal alone')
    parser.add_argument('--silent', action='store_true', help='no advice, and no warnings of documents and rows')
    parser.add_argument('--filter', action='store_true', help='read only where a query touches a document')
    parser.add_argument('--max-table', type=int, metavar='W', help='the most that the table of a reading may weigh')
    parser.add_argument('-h', '--help', action='help', help='how it is used')
    return parser


def _words_of(name: str, given: argparse.Namespace) -> Any:
    words = ['csv', '-q', name] + ['--quiet'] * given.quiet + ['--silent'] * given.silent + ['--filter'] * given.filter
    return read_words(words + ([] if given.max_table is None else ['--max-table', str(given.max_table)]))


def main(words: Sequence[str]) -> int:
    """Runs the command; the status is 0 where nothing is lost or gained and 1 where something is, 5 where one of several documents could not
    be read, and otherwise that of the program for its faults, or 2 for words that are refused."""
    given = _parser().parse_intermixed_args(list(words))
    fault = fault_of_output(given.out, [*(given.documents or ['-']), given.old, given.new])
    if fault is not None:
        _parser().error(fault)
    found: List[Tuple[bool, bool]] = []

    def run() -> None:
        with ExitStack() as stack:
            difference = _Difference(given, stack.enter_context(output(given.out)), stack.enter_context(Progress()))
            stack.callback(difference.close)
            difference.run()
            found.append((difference.has_failed, any(difference.counts)))

    status: Optional[int] = run_told(run)
    return status or (5 if found and found[0][0] else int(bool(found) and found[0][1]))
