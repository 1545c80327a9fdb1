"""Records of FASTQ: four lines each, of which the second has the letters."""
from __future__ import annotations

from itertools import islice
from typing import Iterator, NamedTuple, NoReturn

from ..faults import DocumentError

__all__ = ['Read', 'are_reads', 'head_in_fasta', 'reads_of']

_LOOKED_AT = 100  # reads of which the letters are looked at


class Read(NamedTuple):
    """A record of FASTQ: the first word of its head, and its letters as they are."""

    name: str
    letters: bytes


def are_reads(data: bytes) -> bool:
    r"""Whether a document begins as FASTQ does.

    >>> are_reads(b'@r one\nACGT\n+\nIIII\n'), are_reads(b'>r\nACGT\n')
    (True, False)
    """
    head = bytes(data[:1 << 20])
    return head.startswith(b'@') and (head.split(b'\n', 3) + 3 * [b''])[2].startswith(b'+')


def reads_of(data: bytes) -> Iterator[Read]:
    r"""The reads of a document; `DocumentError` where one is broken.

    >>> list(reads_of(b'@r one\nACGT\n+\nIIII\n'))
    [Read(name='r', letters=b'ACGT')]
    """
    at, number = 0, 0
    while at < len(data):
        number += 1
        ends = [at - 1]
        for _ in range(4):
            end = data.find(b'\n', ends[-1] + 1)
            ends.append(end if end >= 0 else len(data))
        head, letters, plus, marks = (data[start + 1:end].rstrip(b'\r') for start, end in zip(ends, ends[1:]))
        if not head and not letters and not data[at:].strip():
            return
        if not head.startswith(b'@'):
            _refuse(number, 'it does not begin with @')
        if not plus.startswith(b'+'):
            _refuse(number, 'its third line does not begin with +')
        if len(marks) != len(letters):
            _refuse(number, f'it has {len(letters)} letters and {len(marks)} marks of quality')
        words = head[1:].split()
        yield Read(words[0].decode('utf-8', 'backslashreplace') if words else '', letters)
        at = ends[4] + 1


def _refuse(number: int, reason: str) -> NoReturn:
    fault = DocumentError(f'record {number} of FASTQ: {reason}', 5)
    fault.hint = 'a record of FASTQ has four lines: @NAME, its letters, +, and a mark of quality for each letter'
    raise fault


def head_in_fasta(data: bytes) -> bytes:
    r"""The first reads as FASTA, to look at their letters.

    >>> head_in_fasta(b'@r\nACGT\n+\n>III\n')
    b'>r\nACGT\n'
    """
    return b''.join(b'>%b\n%b\n' % (read.name.encode(), read.letters) for read in islice(reads_of(data), _LOOKED_AT))
