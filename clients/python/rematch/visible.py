"""Text whose control characters can be seen, in place of what they would do to a screen or to the order of a line."""
from __future__ import annotations

__all__ = ['BIDI', 'visible']

BIDI = '\u061c\u200e\u200f\u202a\u202b\u202c\u202d\u202e\u2066\u2067\u2068\u2069'  # they change the order in which a line is shown
_SHOWN = {code: '·' for code in (*map(ord, BIDI), *range(32), *range(127, 160))}


def visible(text: str) -> str:
    r"""The text with each control character, and each that changes the order of a line, as ``·``.

    >>> visible('a\x1b[2J\u202eb')
    'a·[2J·b'
    """
    return text.translate(_SHOWN)
