"""The documents of a command: its words, the files of folders (``-r``, ``--glob``), and the names in a file (``--files-from``)."""
from __future__ import annotations

import os
import sys
from fnmatch import fnmatchcase
from typing import Iterator, List, Optional, Sequence

__all__ = ['document_names']


def _is_asked(path: str, patterns: Sequence[str]) -> bool:
    """Whether a file has one of these patterns; one with a slash is of its whole path."""
    name = os.path.basename(path)
    return not patterns or any(fnmatchcase(path if '/' in pattern else name, pattern) for pattern in patterns)


def _files_of(folder: str, patterns: Sequence[str]) -> Iterator[str]:
    """The files below a folder, by their names."""
    for place, folders, names in os.walk(folder):
        folders.sort()
        paths = (os.path.join(place, name) for name in sorted(names))
        yield from (path for path in paths if os.path.isfile(path) and _is_asked(path, patterns))


def _listed(path: str) -> List[str]:
    """The names in a file, one on each line; with a byte 0 behind each where there is one."""
    if path == '-':
        data = sys.stdin.buffer.read()
    else:
        with open(path, 'rb') as file:
            data = file.read()
    end = b'\0' if b'\0' in data else b'\n'
    return [os.fsdecode(name) for name in data.split(end) if name]


def document_names(words: Sequence[str], *, is_deep: bool, patterns: Sequence[str], listed: Optional[str]) -> List[str]:
    """The documents that are asked for; `ValueError` where options do not fit, or name no document."""
    if patterns and not is_deep:
        raise ValueError('--glob is for the files of folders: give -r too')
    names = list(words)
    if listed is not None:
        names += _listed(listed)
    if is_deep:
        names = [path for name in names or ['.'] for path in (_files_of(name, patterns) if os.path.isdir(name) else [name])]
    if not names and (is_deep or listed is not None):
        raise ValueError('there is no document of these names')
    return names
