"""``rematch-to sql``: the rows of one query or several as tables, and one statement of SQL over them, by Python's ``sqlite3``."""
from __future__ import annotations

import argparse
import csv
import os
import re
import sqlite3
import sys
from contextlib import ExitStack
from datetime import datetime, timezone
from functools import lru_cache
from typing import Any, Dict, Iterator, List, NamedTuple, NoReturn, Optional, Sequence, Tuple, Union

from ..faults import QueryError
from ..match import Row
from .command import run_told
from .convert import Command
from .output import fault_of_output, output
from .packed import Given
from .progress import Progress
from .sequences import other_strand
from .tables import shown_text
from .words import SQL_EXAMPLES, Words, read_words

__all__ = ['main', 'seconds_of']

_NAMED = re.compile(r'([A-Za-z_]\w*)=(.*)', re.S)
_STEPS = 10000  # of SQLite, after which Ctrl-C is looked for
_HERE = os.path.dirname(os.path.abspath(__file__))
_EXTENSIONS = (os.path.join(_HERE, '..', 'bin', 'rematch.so'), os.path.join(_HERE, *4 * ['..'], 'sqlite', 'out', 'rematch.so'))

Cell = Union[None, int, str, bytes]


class _Refused(Exception):
    """The words or the statement are refused; the text says why, and perhaps in a second line what to write instead."""


class Source(NamedTuple):
    """A query, with the name of its table: a text, or the name of a file."""

    table: str
    text: str
    is_file: bool


# -- Functions of the statement

@lru_cache(maxsize=65536)
def seconds_of(text: str, form: str) -> Optional[float]:
    """The seconds of a time since 1970, by a format of ``strptime``; None where the text is no such time.

    Without a year in the format it is a time of the year 2000, and without a zone one of UTC.

    >>> seconds_of('Mar  4 06:22:06', '%b %d %H:%M:%S') - seconds_of('Mar  4 06:22:04', '%b %d %H:%M:%S')
    2
    >>> seconds_of('1970-01-01T00:00:01.5', '%Y-%m-%dT%H:%M:%S.%f'), seconds_of('soon', '%H:%M')
    (1.5, None)
    """
    try:
        if re.search('%[YyGcxsD]', form):
            time = datetime.strptime(text, form)
        else:
            time = datetime.strptime('2000 ' + text, '%Y ' + form)
    except ValueError:
        return None
    stamp = (time if time.tzinfo else time.replace(tzinfo=timezone.utc)).timestamp()
    return int(stamp) if stamp.is_integer() else stamp


def _add_functions(db: sqlite3.Connection) -> None:
    """The functions that SQLite has not. Its own ``time`` of two texts is kept, for modifiers such as '+1 hour'."""
    other = sqlite3.connect(':memory:')

    def time(text: Any, form: Any) -> Any:
        if text is None or form is None:
            return None
        if '%' in str(form):
            return seconds_of(shown_text(text) if isinstance(text, bytes) else str(text), str(form))
        return other.execute('select time(?, ?)', (text, form)).fetchone()[0]

    def of_other_strand(text: Any) -> Any:
        return other_strand(text.upper().encode()).decode() if isinstance(text, str) else None

    db.create_function('time', 2, time)
    db.create_function('other_strand', 1, of_other_strand)


def _load_extension(db: sqlite3.Connection) -> None:
    """The functions of the extension, where it was built and this Python loads extensions."""
    path = next((path for path in _EXTENSIONS if os.path.isfile(path)), None)
    if path is not None and hasattr(db, 'enable_load_extension'):
        try:
            db.enable_load_extension(True)
            db.load_extension(os.path.splitext(os.path.normpath(path))[0])
            db.enable_load_extension(False)
        except sqlite3.Error:
            pass  # one of another system


# -- Tables

def _quoted(name: str) -> str:
    return '"' + name.replace('"', '""') + '"'


def _create(db: sqlite3.Connection, table: str, columns: Sequence[str]) -> str:
    """Makes a table; what inserts a row into it is returned."""
    twice = next((name for k, name in enumerate(columns) if name.lower() in [other.lower() for other in columns[:k]]), None)
    if twice is not None:
        raise _Refused(f'the table {table} would have two columns {twice}\nhint: rename a variable of the query')
    try:
        db.execute(f'create table {_quoted(table)} ({", ".join(map(_quoted, columns))})')
    except sqlite3.OperationalError as fault:
        raise _Refused(f'{fault}\nhint: give the table a name of its own, as -q NAME=FILE') from None
    return f'insert into {_quoted(table)} values ({", ".join("?" * len(columns))})'


def _cell(part: bytes) -> Cell:
    """A text where the bytes are one."""
    try:
        return part.decode('utf-8')
    except UnicodeDecodeError:
        return bytes(part)


def _cells(found: Given, rows: Iterator[Row]) -> Iterator[List[Cell]]:
    """The cells of each row: document, line, and of each variable its text, its start and its end."""
    data, number = found.data, found.numbers()
    for row in rows:
        first = min((start for start in row[::2] if start >= 0), default=None)
        cells: List[Cell] = [found.name, None if first is None else number(first)]
        places = iter(row)
        for start, end in zip(places, places):
            cells += (None, None, None) if start < 0 else (_cell(data[start:end]), start, end)
        yield cells


class _Opened(NamedTuple):
    """A document that several queries are asked of, and that is read once."""

    name: str
    found: Given
    piece: None = None

    def given(self, refuse_long: Any = None, *, is_read_once: bool = False) -> Given:
        return self.found


class _Tables:
    """A database for a while, with a table for each query."""

    def __init__(self, given: argparse.Namespace, progress: Progress) -> None:
        self.given = given
        self.names: List[str] = given.documents or ['-']
        self.db = sqlite3.connect('', isolation_level=None)  # in memory, and in a file for a while where that is too small
        self.db.execute('begin')
        self.db.set_progress_handler(lambda: 0, _STEPS)
        _add_functions(self.db)
        _load_extension(self.db)
        self.commands = [Command(_words_of(source, given), sys.stdout, progress) for source in given.sources]
        self.has_failed = False

    def close(self) -> None:
        for command in self.commands:
            command.close()
        self.db.close()

    def fill(self) -> None:
        """Puts in the rows of all documents, and the other tables."""
        inserts: List[str] = []
        for source, command in zip(self.given.sources, self.commands):
            variables = command.query.variables
            columns = ['document', 'line'] + [name + end for name in variables for end in ('', '_start', '_end')]
            inserts.append(_create(self.db, source.table, columns))
        if len(self.given.sources) == 1 and self.given.sources[0].table != 'rows':
            self.db.execute(f'create view rows as select * from {_quoted(self.given.sources[0].table)}')
        for name, path in self.given.tables:
            self.add_csv(name, path)
        for name in self.names:
            self.add_document(name, inserts)
        self.has_failed = any(command.has_failed for command in self.commands)

    def add_document(self, name: str, inserts: Sequence[str]) -> None:
        from .jobs import Part
        opened: Any = None
        for command, insert in zip(self.commands, inserts):
            command.names = self.names
            with command.guarded(name):
                opened = opened or _Opened(name, Part(name).given())
                found = command.opened(opened)
                self.db.executemany(insert, _cells(found, command.rows(found)))
            if opened is None:
                return

    def add_csv(self, name: str, path: str) -> None:
        """A table of a file, whose first line has the names of the columns."""
        with open(path, encoding='utf-8-sig', newline='') as file:
            lines = csv.reader(file, delimiter='\t' if path.endswith('.tsv') else ',')
            columns = next(lines, [])
            if not columns:
                raise _Refused(f'{path}: it has no line with the names of the columns')
            insert = _create(self.db, name, columns)
            width = len(columns)
            self.db.executemany(insert, ((line + width * [None])[:width] for line in lines if line))  # type: ignore[operator]

    def answer(self, statement: str, out: Any) -> None:
        """Writes what a statement gives, as a table."""
        try:
            found = self.db.execute(statement)
            if found.description is None:
                return
            table = csv.writer(out, lineterminator='\n', delimiter='\t' if self.given.tsv else ',')
            if not self.given.no_head:
                table.writerow([column[0] for column in found.description])
            table.writerows([shown_text(cell) if isinstance(cell, bytes) else cell for cell in row] for row in found)
        except (sqlite3.Error, sqlite3.Warning) as fault:
            if str(fault) == 'interrupted':
                raise KeyboardInterrupt from None
            raise _Refused(f'{fault}\nhint: {self.told_tables()}') from None

    def told_tables(self) -> str:
        """The tables with their columns."""
        found = []
        for name, in self.db.execute("select name from sqlite_master where type = 'table'").fetchall():
            columns = ', '.join(column[1] for column in self.db.execute(f'pragma table_info({_quoted(name)})'))
            found.append(f'{name} ({columns})')
        return 'there ' + ('is ' if len(found) == 1 else 'are ') + '; '.join(found)


# -- Words

class _Parser(argparse.ArgumentParser):
    def error(self, message: str) -> NoReturn:
        hint = 'rematch-to sql --help has all words'
        if 'required' in message:
            hint = "the statement comes first: rematch-to sql 'select ..' -q QUERY DOC .."
        sys.stderr.write(f'rematch-to sql: {message}\nhint: {hint}\n')
        raise SystemExit(2)


def _parser() -> _Parser:
    parser = _Parser(prog='rematch-to sql', formatter_class=argparse.RawDescriptionHelpFormatter, add_help=False,
                     description='Answer a statement of SQL over the rows of queries.', epilog=SQL_EXAMPLES)
    parser.add_argument('statement', metavar='SELECT', help='the statement, as SQLite has it')
    parser.add_argument('documents', nargs='*', metavar='DOC')
    parser.add_argument('-q', dest='files', action='append', default=[], metavar='[TABLE=]NAME',
                        help='a file that holds a query; its table has the name of the file, without its ending')
    parser.add_argument('-e', dest='texts', action='append', default=[], metavar='[TABLE=]TEXT', help='a query; its table is rows')
    parser.add_argument('--csv', dest='tables', action='append', default=[], metavar='TABLE=FILE', help='one more table, from a file of CSV (or .tsv)')
    parser.add_argument('--tsv', action='store_true', help='write tabs in place of commas')
    parser.add_argument('--no-head', action='store_true', help='no line with the names of the columns')
    parser.add_argument('-o', dest='out', metavar='NAME', help='write there')
    parser.add_argument('--quiet', action='store_true', help='no advice on the queries, which is written on a terminal alone')
    parser.add_argument('--silent', action='store_true', help='no advice, and no warnings of documents and rows')
    parser.add_argument('--filter', action='store_true', help='read only where a query touches a document')
    parser.add_argument('--max-table', type=int, metavar='W', help='the most that the table of a reading may weigh')
    parser.add_argument('-h', '--help', action='help', help='how it is used')
    return parser


def _sources(given: argparse.Namespace) -> List[Source]:
    """The queries with the names of their tables."""
    found = []
    for is_file, words in ((True, given.files), (False, given.texts)):
        for word in words:
            named = _NAMED.fullmatch(word)
            if named is not None and not (is_file and os.path.exists(word)):
                found.append(Source(named[1], named[2], is_file))
            else:
                found.append(Source(os.path.splitext(os.path.basename(word))[0] if is_file else 'rows', word, is_file))
    return found


def _words_of(source: Source, given: argparse.Namespace) -> Words:
    """The words that a query is read with, as for a table."""
    words = ['csv', ('-q=' if source.is_file else '-e=') + source.text]  # in one word, since a text may begin with a -
    words += ['--quiet'] * given.quiet + ['--silent'] * given.silent + ['--filter'] * given.filter
    words += [] if given.max_table is None else ['--max-table', str(given.max_table)]
    return read_words(words)


def _read_words(words: Sequence[str]) -> argparse.Namespace:
    parser = _parser()
    given = parser.parse_intermixed_args(list(words))
    if os.path.exists(given.statement):
        parser.error(f'{given.statement} is a file, and the statement is required first')
    given.sources = _sources(given)
    if not given.sources:
        parser.error('there is no query: -e TEXT or -q NAME gives it')
    tables: List[Tuple[str, str]] = []
    for word in given.tables:
        named = _NAMED.fullmatch(word)
        if named is None:
            parser.error(f'--csv is TABLE=FILE, not {word!r}')
        tables.append((named[1], named[2]))
    given.tables = tables
    names: Dict[str, str] = {}
    for name in [source.table for source in given.sources] + [name for name, _ in tables]:
        if name.lower() in names:
            parser.error(f'there are two tables {name}: write TABLE=NAME for one of them')
        names[name.lower()] = name
    files = [*(given.documents or ['-']), *(source.text for source in given.sources if source.is_file), *(name for _, name in tables)]
    fault = fault_of_output(given.out, files)
    if fault is not None:
        parser.error(fault)
    return given


def main(words: Sequence[str]) -> int:
    """Runs the command; the status is that of the program for its faults, 2 where the words or the statement are refused, and 1 where
    one of several documents could not be read."""
    given = _read_words(words)
    statuses: List[int] = []

    def run() -> None:
        try:
            with ExitStack() as stack:
                out = stack.enter_context(output(given.out))
                tables = _Tables(given, stack.enter_context(Progress()))
                stack.callback(tables.close)
                tables.fill()
                tables.answer(given.statement, out)
                statuses.append(int(tables.has_failed))
        except _Refused as fault:
            print(f'rematch-to sql: {fault}', file=sys.stderr)
            statuses.append(2)

    return run_told(run) or statuses[0]
