"""What the commands beside the program share: faults as lines on standard error, and their exit statuses."""
from __future__ import annotations

import os
import sys
from typing import Any, Callable

from .. import library
from ..bounds import NoReach
from ..faults import RematchError
from .output import Screen

__all__ = ['MEGABYTE', 'REFUSED', 'add_memory', 'is_watched', 'line_of', 'run_told']

REFUSED = 4  # of what has no reach, which is a refusal for its size
MEGABYTE = 1_000_000


def add_memory(parser: Any) -> None:
    """Adds the option for the memory of the program that answers requests."""
    def megabytes(text: str) -> int:
        found = int(text) if text.isascii() and text.isdigit() and len(text) < 10 else 0
        if not found:
            raise ValueError
        return found
    megabytes.__name__ = 'number of megabytes'
    parser.add_argument('--memory', type=megabytes, default=2000, metavar='MB', help='the memory that the program may take, in megabytes (2000)')


def is_watched() -> bool:
    """Whether somebody sees the notes as they come."""
    return sys.stderr is not None and sys.stderr.isatty()


def line_of(fault: Exception) -> str:
    """What is told of a fault, with the name of its document before it: `NAME: REASON` of one that cannot be read."""
    name = getattr(fault, 'filename', None)
    reason = getattr(fault, 'reason', None)
    told = f'no reach: {fault}' if isinstance(fault, NoReach) else reason or str(fault)
    return f'{name}: {told}' if name and name not in told else told


def run_told(run: Callable[[], None]) -> int:
    """Runs, and gives the exit status: the program's own for its faults, 0 where the reader of the output has left."""
    before, library.allowed = library.allowed, False  # so that Ctrl-C ends what is asked
    notes: Any = sys.stderr
    if notes is not None and notes.isatty():
        sys.stderr = Screen(notes)  # type: ignore[assignment]
    try:
        run()
        sys.stdout.flush()
    except RematchError as fault:
        print(line_of(fault), file=sys.stderr)
        return fault.status if fault.status and fault.status > 0 else 1
    except NoReach as fault:
        print(line_of(fault), file=sys.stderr)
        return REFUSED
    except BrokenPipeError:
        _drop_output()
        return 0
    except KeyboardInterrupt:
        return 130
    except OSError as fault:
        print(f'{fault.filename or "write failed"}: {fault.strerror}', file=sys.stderr)
        if fault.filename:
            return 5
        _drop_output()
        return 8
    finally:
        library.allowed, sys.stderr = before, notes
    return 0


def _drop_output() -> None:
    """What is left cannot be written, and would be tried once more at the end."""
    os.dup2(os.open(os.devnull, os.O_WRONLY), sys.stdout.fileno())
