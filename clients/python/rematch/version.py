"""Which version this is, and of which program: the package's number, and the sum of the program's bytes."""
from __future__ import annotations

from typing import Optional

__all__ = ['VERSION', 'program_sum', 'version_text']

VERSION = '1.4.0'  # that of the file VERSION of the checkout


def program_sum(path: Optional[str] = None) -> str:
    """The sha256 of the program at this path, or of the one that `find_program` finds.

    >>> len(program_sum())
    64
    """
    from hashlib import sha256

    from .program import find_program
    with open(path or find_program(), 'rb') as file:
        return sha256(file.read()).hexdigest()


def version_text() -> str:
    """What ``rematch-to --version`` prints: the version, the program's path and its sum.

    >>> version_text().startswith('rematch 1.')
    True
    """
    from .faults import ProgramNotFound
    from .program import find_program
    try:
        path = find_program()
    except ProgramNotFound:
        return f'rematch {VERSION}, without a program'
    return f'rematch {VERSION}, program {path}, sha256 {program_sum(path)}'
