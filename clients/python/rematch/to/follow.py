"""The rows of a document that grows, each once it is complete: ``rematch-to follow``."""
from __future__ import annotations

import os
import sys
from itertools import chain, islice
from typing import TYPE_CHECKING, Iterator, List, Optional, Union

from ..documents import Document, packed_by
from ..follow import File, Followed, Step, lines_before, steps, stream
from ..query import Query
from .doubts import doubts_of, has_several_lines
from .packed import Given
from .row_doubts import MOST_SEEN

if TYPE_CHECKING:
    from .convert import Command
    from .tables import Table

__all__ = ['follow', 'lines_of']

_EVERY = 0.1  # seconds between two looks at the file
_HEAD = 1 << 20  # bytes of the file's beginning that are looked at


def _told(news: Iterator[Union[bytes, str]], name: str) -> Iterator[Union[bytes, str]]:
    """What comes; where the file begins anew, a line says why."""
    for new in news:
        if isinstance(new, str):
            print(f'{name}: {new}, and is read from its start', file=sys.stderr)
        yield new


def _doubts(file: File, query: Query) -> List[str]:
    """What may hide rows of a file, from how it begins; nothing of a pipe."""
    try:
        head = os.pread(file.file.fileno(), _HEAD, 0)
    except OSError:
        return []
    packed = packed_by(head)
    return doubts_of(head, query) if packed is None else [f'it is packed by {packed}, and its packed bytes are searched: csv unpacks it']


def follow(command: 'Command') -> None:
    """Writes the rows of a file as they come, as lines of a table."""
    from .tables import Table
    from .forms import layout_of, refuse
    from .small import SmallDocuments
    if len(command.names) != 1 and command.given.state is None:
        refuse('follow takes one file: start it once for each, or give --state FILE')
    if command.given.var is not None and command.given.context is None:
        refuse('--var is for --context here: give --context N too')
    if command.given.characters:
        refuse('follow counts bytes: drop --characters')
    try:
        table = Table(command.query, layout_of(command.given))
    except ValueError as reason:
        refuse(str(reason))
    if command.given.state is not None:
        from .state import follow_since
        follow_since(command, table)
        return
    state = Followed(command.query, command.names[0])
    if not command.given.filter and command.given.max_table is None:
        state.query = SmallDocuments(command.query.text)
    try:
        for step in _steps(command, state):
            if step is None:
                command.out.write('' if command.given.no_head else table.head())
            else:
                command.out.writelines(lines_of(command, table, step))
            command.out.flush()
    finally:
        if isinstance(state.query, SmallDocuments):
            state.query.close()


def _steps(command: 'Command', state: Followed) -> Iterator[Optional[Step]]:
    """None once it is known where the file ends, and then the steps of what comes."""
    name = command.names[0]
    if name == '-':
        yield None
        yield from steps(state, stream(sys.stdin.buffer))
        return
    file = File(name)
    try:
        for doubt in _doubts(file, state.query):
            command.tell(f'{name}: {doubt}')
        if not command.given.from_start:
            state.pass_over(file.file, file.to_end())
            state.line += lines_before(file.file, state.begins)
        yield None
        yield from steps(state, _told(file.news(_EVERY, command.given.idle), name))
    finally:
        file.close()


def lines_of(command: 'Command', table: 'Table', step: Step) -> Iterator[str]:
    """A line of the table for each row of a step; what is seldom meant is told once."""
    window, rows = step
    at = window.begins
    given = Given(str(window.name), Document(window.data))
    command.tell_of_lines(given.name, window.line > 1 or has_several_lines(window.data))
    places = (tuple([place if place < 0 else place - at for place in row]) for row in rows)
    seen = list(islice(places, MOST_SEEN))
    for doubt in command.doubts_of_rows(given, seen):
        command.tell(doubt)
    return table.lines(given, chain(seen, places), window.line, at)
