"""Where a command writes: standard output, or a file that has its name once all of it is there."""
from __future__ import annotations

import os
import re
import stat
import sys
from contextlib import closing, contextmanager
from tempfile import mkstemp
from typing import Any, Iterable, Iterator, Optional, Sequence, TextIO

from ..visible import BIDI

__all__ = ['Screen', 'fault_of_output', 'output', 'written']

_COLOURS = ('\x1b[1;31m', '\x1b[m')  # of what was found
_CONTROL = re.compile('|'.join(map(re.escape, _COLOURS)) + f'|[\x00-\x08\x0b-\x1f\x7f-\x9f{BIDI}\udc80-\udc9f]')


class Screen:
    r"""A stream to a terminal, on which control characters of documents and of their names are shown as ``·``.

    >>> Screen(sys.stdout).writelines(['a\x1b[2J\r', 'b\n'])
    a·[2J·b
    """

    def __init__(self, stream: TextIO) -> None:
        self.stream = stream

    def write(self, text: str) -> int:
        """Writes the text; the colours of what was found stay as they are."""
        return self.stream.write(_CONTROL.sub(lambda found: found[0] if found[0] in _COLOURS else '·', text))

    def writelines(self, texts: Iterable[str]) -> None:
        """Writes all texts."""
        for text in texts:
            self.write(text)

    def __getattr__(self, name: str) -> Any:
        return getattr(self.stream, name)


def _input_at(name: str, inputs: Sequence[Optional[str]]) -> Optional[str]:
    """The first of these names that is the same file as the output of that name, which would be lost; None where none is. ``-`` names standard input."""
    try:
        out = os.stat(name)
    except OSError:
        return None
    for given in inputs:
        try:
            found = None if given is None else os.fstat(0) if given == '-' else os.stat(given)
        except OSError:
            continue
        if found is not None and stat.S_ISREG(found.st_mode) and (found.st_dev, found.st_ino) == (out.st_dev, out.st_ino):
            return name if given == '-' else given
    return None


def fault_of_output(name: Optional[str], inputs: Sequence[Optional[str]]) -> Optional[str]:
    """Why a command cannot write to a file of that name, where it reads these; None where it can."""
    if name is None:
        return None
    if os.path.isdir(name):
        return f'-o {name} is a folder'
    read = _input_at(name, inputs)
    return None if read is None else f'{read} is read, so it cannot be the output too: give another -o'


@contextmanager
def output(name: Optional[str], *, comes_at_once: bool = False) -> Iterator[TextIO]:
    """Where a command writes: a file of that name, or standard output. Bytes that are no text are written as they are.

    A file is written beside its name, and has the name once all is written; what had the name before stays where a fault comes.
    With ``comes_at_once`` it can be read while it is written; it is opened when the first text is there.
    """
    if name is not None:
        with (closing(_Late(name)) if comes_at_once else written(name)) as file:  # type: ignore[attr-defined]
            yield file
        return
    if hasattr(sys.stdout, 'reconfigure'):
        sys.stdout.reconfigure(encoding='utf-8', errors='surrogateescape', newline='\n')
    yield Screen(sys.stdout) if sys.stdout.isatty() else sys.stdout  # type: ignore[misc]
    sys.stdout.flush()


def _opened(file: Any) -> TextIO:
    return open(file, 'w', encoding='utf-8', errors='surrogateescape', newline='\n')


class _Late:
    """A file that is opened at the first text, so that what had its name stays where there is a fault before."""

    def __init__(self, name: str) -> None:
        self.name = name
        self.file: Optional[TextIO] = None

    def writelines(self, texts: Iterable[str]) -> None:
        for text in texts:
            self.write(text)

    def write(self, text: str) -> int:
        if self.file is None:
            self.file = _opened(self.name)
        return self.file.write(text)

    def flush(self) -> None:
        if self.file is not None:
            self.file.flush()

    def isatty(self) -> bool:
        return False

    def close(self) -> None:
        if self.file is not None:
            self.file.close()


@contextmanager
def written(name: str) -> Iterator[TextIO]:
    """A file that is written beside this name, and has the name once all is written."""
    path = os.path.realpath(name)
    is_there = os.path.lexists(path)
    try:
        if is_there and not os.path.isfile(path):
            raise PermissionError('a device or a pipe is not replaced')
        number, beside = mkstemp(prefix='.' + os.path.basename(path)[:100] + '.', dir=os.path.dirname(path))
    except PermissionError:
        with _opened(name) as file:
            yield file
        return
    except OSError as fault:
        raise OSError(fault.errno, fault.strerror, name) from None  # and not the name beside it
    try:
        with _opened(number) as file:
            yield file
        os.chmod(beside, stat.S_IMODE(os.stat(path).st_mode) if is_there else 0o666 & ~_umask())
        os.replace(beside, path)
    except BaseException:
        os.unlink(beside)
        raise


def _umask() -> int:
    mask = os.umask(0o077)
    os.umask(mask)
    return mask
