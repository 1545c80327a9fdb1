"""Documents in other encodings, and in one normal form, as texts in UTF-8."""
from __future__ import annotations

import unicodedata
from typing import Optional

from ..documents import Document
from ..faults import DocumentError
from .packed import Given

__all__ = ['NORMAL_FORMS', 'converted', 'in_form']

NORMAL_FORMS = ('nfc', 'nfd', 'nfkc', 'nfkd')


def in_form(text: bytes, normal: Optional[str]) -> bytes:
    """A text in UTF-8 in a normal form; as it is where it is no UTF-8 or none is asked for.

    >>> in_form('e\\u0301'.encode(), 'nfc').decode()
    'é'
    """
    if normal is None:
        return text
    try:
        return unicodedata.normalize(normal.upper(), text.decode('utf-8')).encode('utf-8')  # type: ignore[arg-type]
    except UnicodeDecodeError:
        return text


def converted(found: Given, encoding: Optional[str], normal: Optional[str]) -> Given:
    """The document in UTF-8 and in that form; places are then those of the converted text.

    >>> converted(Given('d', Document(b'caf\\xe9')), 'latin-1', None).data.decode()
    'café'
    """
    data = found.whole().data[:]
    try:
        text = data.decode(encoding or 'utf-8')
    except UnicodeDecodeError as reason:
        raise DocumentError(f'no {encoding or "UTF-8"} at {reason.start}', 5) from None
    document = Document(in_form(text.encode('utf-8', 'surrogatepass'), normal))
    document.name = found.name
    return Given(found.name, document)
