"""``--state FILE``: the rows of what has come to files since the last run, each once, also where a log was turned over or packed meanwhile."""
from __future__ import annotations

import json
import os
import sys
import time
from glob import escape, glob
from typing import IO, TYPE_CHECKING, Any, Dict, Iterator, List, NamedTuple, Optional, Tuple

from ..documents import packed_by, unreadable
from ..faults import DocumentError
from ..follow import Followed, Step, lines_before
from ..query import Query
from .packed import given_document

if TYPE_CHECKING:
    from .convert import Command
    from .tables import Table

__all__ = ['Place', 'Since', 'follow_since', 'new_lines', 'read_places']

_TAIL, _READ = 64, 1 << 20  # bytes before a place, by which its file is known; bytes that are read at once
_EVERY = 0.2  # seconds between two looks at the files


class Place(NamedTuple):
    """Up to where a file was read: its device and inode, the place, and the last bytes before it."""

    device: int
    inode: int
    place: int
    tail: str  # in hexadecimal digits

    def is_of(self, about: os.stat_result) -> bool:
        """Whether the file is that of the place."""
        return (self.device, self.inode) == (about.st_dev, about.st_ino)

    def is_in(self, file: IO[bytes]) -> bool:
        """Whether a file has these bytes before the place."""
        tail = bytes.fromhex(self.tail)
        file.seek(self.place - len(tail))
        return file.read(len(tail)) == tail


def read_places(path: str) -> Dict[str, Place]:
    """The places of the last run, by the paths of the files; `ValueError` where the file is another one."""
    try:
        with open(path, encoding='utf-8') as file:
            found = json.load(file)
        places = {name: Place(**place) for name, place in found['places'].items()}
        if all(type(number) is int and number >= 0 for place in places.values() for number in place[:3]):
            return {name: place for name, place in places.items() if len(bytes.fromhex(place.tail)) <= place.place}
    except FileNotFoundError:
        return {}
    except (UnicodeDecodeError, ValueError, TypeError, KeyError, AttributeError):
        pass
    raise ValueError(f'{path} is no state that rematch-to has written')


def _write_places(path: str, places: Dict[str, Place]) -> None:
    """Writes a new file and puts it in place of the old one."""
    new = path + '.new'
    with open(new, 'w', encoding='utf-8') as file:
        json.dump({'places': {name: place._asdict() for name, place in places.items()}}, file, indent=1)
        file.write('\n')
        file.flush()
        os.fsync(file.fileno())
    os.replace(new, path)


def _place_of(file: IO[bytes], place: int) -> Place:
    about = os.fstat(file.fileno())
    file.seek(max(0, place - _TAIL))
    return Place(about.st_dev, about.st_ino, place, file.read(min(place, _TAIL)).hex())


# -- Files that were turned over

def _opened(name: str) -> IO[bytes]:
    """A file, unpacked where it is packed: into memory, or where it is long into a file for a while."""
    try:
        file: IO[bytes] = open(name, 'rb')
        if packed_by(file.read(10)) is None:
            return file
        file.close()
    except OSError as fault:
        raise unreadable(name, fault) from fault
    return given_document(name).opened()


def _older(name: str) -> List[str]:
    """The files that a log may have been turned over into, the oldest first: those whose names are its own with `.` or `-` and more."""
    found = [path for path in glob(escape(name) + '[.-]*') if os.path.isfile(path)]
    return sorted(found, key=lambda path: (os.stat(path).st_mtime, path))


def _has(path: str, known: Place) -> bool:
    """Whether a file is the one of the last run under another name, or a copy of it."""
    try:
        with _opened(path) as file:
            is_same = known.is_of(os.stat(path))
            return known.is_in(file) and (known.place > 0 or is_same)
    except DocumentError:
        return False


def _rest(name: str, known: Place) -> Optional[List[Tuple[str, int]]]:
    """The files that have come since the last run, each with where to go on in it; None where the one of the last run is not found."""
    older = _older(name)
    k = next((k for k, path in enumerate(older) if _has(path, known)), None)
    return None if k is None else [(older[k], known.place)] + [(newer, 0) for newer in older[k + 1:]]


# -- Rows

class Since:
    """What has come to a file since a place, and the new place: behind the last line feed, since the last line may not be whole yet."""

    def __init__(self, query: Query, name: str, known: Optional[Place]) -> None:
        self.query, self.name = query, name
        self._older: List[Tuple[str, int]] = []
        self._start = 0
        try:
            self._file = open(name, 'rb')
        except OSError as fault:
            raise unreadable(name, fault) from fault
        about = os.fstat(self._file.fileno())
        if known is not None and known.is_of(about) and known.place <= about.st_size and known.is_in(self._file):
            self._start = known.place
        elif known is not None:
            rest = _rest(name, known)
            if rest is None:
                print(f'{name}: the place of the last run is not found, so it is read from its start', file=sys.stderr)
            self._older = rest or []
        self._end = max(self._start, _behind_last_line_feed(self._file))
        self.place = _place_of(self._file, self._end)

    def steps(self) -> Iterator[Step]:
        """The steps, of files that were turned over first; their last lines are whole."""
        with self._file:
            for path, start in self._older:
                with _opened(path) as file:
                    state = self._begun(file, start)
                    yield from (state.step(part) for part in _parts(file, start, None))
                    yield state.end()
            state = self._begun(self._file, self._start)
            yield from (state.step(part) for part in _parts(self._file, self._start, self._end))

    def _begun(self, file: IO[bytes], start: int) -> Followed:
        state = Followed(self.query, self.name)
        if start:
            state.go_on(file, start)
            state.line += lines_before(file, state.begins)
        return state


def _behind_last_line_feed(file: IO[bytes]) -> int:
    end = file.seek(0, os.SEEK_END)
    while end:
        size = min(end, 1 << 16)
        file.seek(end - size)
        found = file.read(size).rfind(b'\n')
        if found >= 0:
            return end - size + found + 1
        end -= size
    return 0


def _parts(file: IO[bytes], start: int, end: Optional[int]) -> Iterator[bytes]:
    """The bytes from one place to another, or to the end."""
    file.seek(start)
    while end is None or start < end:
        part = file.read(_READ if end is None else min(_READ, end - start))
        if not part:
            return
        start += len(part)
        yield part


def _places_of(command: 'Command') -> Dict[str, Place]:
    from .forms import refuse
    if '-' in command.names:
        refuse('--state is for files: name them')
    try:
        return read_places(command.given.state)
    except ValueError as fault:
        refuse(str(fault))


def _lines_since(command: 'Command', table: 'Table', places: Dict[str, Place]) -> Iterator[str]:
    """The lines of a table for what has come; the new places are put in as each file is done."""
    from .follow import lines_of
    for name in command.names:
        with command.guarded(name):
            since = Since(command.query, name, places.get(os.path.abspath(name)))
            for step in since.steps():
                yield from lines_of(command, table, step)
            places[os.path.abspath(name)] = since.place


def new_lines(command: 'Command', table: 'Table') -> None:
    """Writes the rows since the last run, with the head of the table before the first, and then the places."""
    places = _places_of(command)
    _write(command, table, places, is_first=True)
    command.afterwards.append(lambda: _write_places(command.given.state, places))


def _write(command: 'Command', table: 'Table', places: Dict[str, Place], *, is_first: bool) -> bool:
    """Whether there was a row."""
    has_row = False
    for line in _lines_since(command, table, places):
        if is_first and not has_row and not command.given.no_head:
            command.out.write(table.head())
        has_row = True
        command.out.write(line)
    if is_first and not has_row and command.given.head:
        command.out.write(table.head())
    command.out.flush()
    return has_row


def follow_since(command: 'Command', table: 'Table') -> None:
    """Writes the rows since the last run, and then those that come, and the places each time; it ends where for --idle seconds nothing came."""
    places = _places_of(command)
    if not command.given.from_start:
        _add_ends(command, places)
    heard, is_first, seen = time.monotonic(), True, None
    while True:
        sizes = [_size(name) for name in command.names]
        if sizes != seen:
            before, seen = dict(places), sizes
            is_first &= not _write(command, table, places, is_first=is_first)
            if places != before:
                heard = time.monotonic()
                _write_places(command.given.state, places)
        if command.given.idle is not None and time.monotonic() - heard >= command.given.idle:
            return
        time.sleep(_EVERY)


def _add_ends(command: 'Command', places: Dict[str, Place]) -> None:
    """The places of files that no run has read: their ends, since only what comes is asked for."""
    for name in command.names:
        if os.path.abspath(name) not in places:
            with command.guarded(name):
                places[os.path.abspath(name)] = Since(command.query, name, None).place


def _size(name: str) -> Any:
    """What changes where something comes to a file."""
    try:
        about = os.stat(name)
    except OSError:
        return None
    return about.st_dev, about.st_ino, about.st_size
