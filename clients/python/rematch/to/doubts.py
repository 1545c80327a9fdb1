"""What may hide rows of a document, or be the reason that some are not what they look like, from how the document begins."""
from __future__ import annotations

import re
from typing import List, Optional

from ..documents import packed_by
from ..query import Query
from ..reader import read
from ..tree import Atom, Concatenation, One, ones_of

__all__ = ['SEVERAL_LINES', 'doubts_of', 'has_anchors_alone', 'has_several_lines', 'oddity_of']

SEVERAL_LINES = 'it has several lines, and ^ and $ are the start and the end of the whole document: for lines write m after the closing slash'
_SEEN = 1 << 20  # bytes of a document that are looked at
_SEQUENCE = re.compile(rb'>[^\n]*\n[A-Za-z*.-]{20,}\r?\n[A-Za-z*.-]+')
_ESCAPES = re.compile(rb'\\u[0-9a-fA-F]{4}')
_MARKS = re.compile('[\u0300-\u036f]')
_PACKED = ((b'PK\x03\x04', 'zip'), (b'\x28\xb5\x2f\xfd', 'zstd'), (b'\x1f\x9d', 'compress'), (b'7z\xbc\xaf', '7z'),
           (b'\x04\x22\x4d\x18', 'lz4'))
_UNPACKED_BY = {'zip': 'unzip -p', 'zstd': 'zstdcat', 'compress': 'zcat', '7z': '7z x -so', 'lz4': 'lz4cat'}


def oddity_of(data: bytes) -> Optional[str]:
    r"""What may be the reason that a document has no row, from how it begins; None where it begins as others do.

    >>> oddity_of(b'\xef\xbb\xbfa')
    'it begins with a byte order mark, three bytes before its first character'
    >>> oddity_of(b'one\r\ntwo\r\n')
    'its lines end with \\r\\n, so that \\r is before each \\n'
    """
    head = data[:4096]
    if head.startswith(b'\xef\xbb\xbf'):
        return 'it begins with a byte order mark, three bytes before its first character'
    if b'\r\n' in head:
        return r'its lines end with \r\n, so that \r is before each \n'
    return None


def _is_not_text(head: bytes) -> Optional[str]:
    """What a document is whose bytes are no text to be searched."""
    if head.startswith((b'\xff\xfe', b'\xfe\xff')):
        return 'it begins as UTF-16 does: bring it to UTF-8, as by iconv'
    module = packed_by(head)
    packed = next((name for sign, name in _PACKED if head.startswith(sign)), None)
    if packed is not None:
        return f'it is packed by {packed}, and its packed bytes are searched: {_UNPACKED_BY[packed]} unpacks it'
    return f'it is packed by {module} once more, and its packed bytes are searched' if module else None


def doubts_of(data: bytes, query: Query, *, is_sequence: bool = False) -> List[str]:
    r"""What may hide rows of a document, also where it has some; of ``is_sequence`` its records are searched, and not its lines.

    >>> doubts_of(b'>r\n' + b'ACGT' * 15 + b'\nACGT\n', Query('/!x{GATC}/'))
    ['it is wrapped as FASTA is: a place over two lines is not found, nor one of the other strand; bed, gff and fasta search its records']
    >>> doubts_of(b'caf\xe9', Query('/!x{.}/u'))
    ['it is no UTF-8 at 3: the query is over characters, which are UTF-8; --encoding latin-1 reads each byte as a letter']
    >>> doubts_of('cafe\u0301'.encode(), Query('/!x{é}/'))
    ['accents are characters of their own in it: bring it and the query into one normal form, by --normal nfc']
    >>> doubts_of(b'PK\x03\x04..', Query('/!x{a}/'))
    ['it is packed by zip, and its packed bytes are searched: unzip -p unpacks it']
    """
    head = bytes(data[:_SEEN])
    found = _is_not_text(head)
    if found is not None:
        return [found]
    if is_sequence:
        return []
    told = []
    if _SEQUENCE.match(head):
        told.append('it is wrapped as FASTA is: a place over two lines is not found, nor one of the other strand; bed, gff and '
                    'fasta search '
                    'its records')
    if head.startswith((b'{"', b'[{"')) and not query.text.isascii() and _ESCAPES.search(head):
        told.append('some of its letters past ASCII are written as \\u escapes, which are other bytes: bring it into one form, as by jq -c .')
    if not query.text.isascii() or any(atom.is_over_characters for atom in read(query.text).atoms):
        told += _of_characters(head, query.text)
    return told


def _of_characters(head: bytes, query: bytes) -> List[str]:
    try:
        text = head.decode('utf-8')
    except UnicodeDecodeError as reason:
        if reason.start < len(head) - 4 or len(head) < _SEEN:
            return [f'it is no UTF-8 at {reason.start}: the query is over characters, which are UTF-8; --encoding latin-1 reads each byte as a letter']
        text = head[:reason.start].decode('utf-8')
    asked = query.decode('utf-8', 'replace')
    if _MARKS.search(text) and not _MARKS.search(asked) and r'\p{M' not in asked:
        return ['accents are characters of their own in it: bring it and the query into one normal form, by --normal nfc']
    return []


# -- Anchors

def has_several_lines(data: bytes) -> bool:
    """Whether a line feed is before the last byte of a document, or of how it begins."""
    return 0 <= bytes(data[:_SEEN]).find(b'\n') < len(data) - 1


def has_anchors_alone(source: bytes) -> bool:
    r"""Whether a query has an anchor of the document, and nothing that shows that this is meant.

    That is shown by a formula of a line feed, by `m`, and by another formula that begins, or ends, with what stands at a line's edge.

    >>> [has_anchors_alone(text) for text in (rb'/^a/', rb'/^a/m', rb'/^a\n/', rb'/^a/ union /\na/', rb'/a$/ union /a[^\w]/', rb'/!x{a}/')]
    [True, False, False, False, False, False]
    """
    atoms = [atom for atom in read(source, conveniences=True).atoms if b'm' not in atom.flags]
    firsts, lasts = ([atom for atom in atoms if is_tied(atom)] for is_tied in (lambda atom: atom.is_first, lambda atom: atom.is_last))
    others_first = any(_fits_edge(atom, 0) for atom in atoms if not atom.is_first)
    others_last = any(_fits_edge(atom, -1) for atom in atoms if not atom.is_last)
    named = [one for atom in {*firsts, *lasts} for one in ones_of(atom.formula) if one.fits_line_feed and not one.is_negated]
    return not named and (bool(firsts) and not others_first or bool(lasts) and not others_last)


def _fits_edge(atom: Atom, at: int) -> bool:
    """Whether a formula begins (0) or ends (-1) with a sign or class that fits a line feed."""
    parts = atom.formula.parts if isinstance(atom.formula, Concatenation) else ()
    return bool(parts) and isinstance(parts[at], One) and parts[at].fits_line_feed
