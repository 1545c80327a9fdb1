"""Both cases of the ASCII letters of a sign or a class."""
from __future__ import annotations

from typing import Optional

from ..advice import Advice
from ..tree import Item, One

__all__ = ['both_cases', 'class_with', 'one_case']

_UPPER, _LOWER = (65, 90), (97, 122)


def both_cases(one: One) -> bytes:
    r"""A sign or a class with both cases of its letters.

    >>> from rematch.reader import read
    >>> [both_cases(one) for one in read(r'/a\x42[a-f_][-a][0-9]/').atoms[0].formula.parts]
    [b'[Aa]', b'[Bb]', b'[A-Fa-f_]', b'[A\\-a]', b'[0-9]']
    """
    if one.kind in ('literal', 'escape'):
        letter = bytes([one.number]) if 0 <= one.number < 128 else b''
        return b'[' + letter.upper() + letter.lower() + b']' if letter.isalpha() else one.text
    return class_with(one, b''.join(map(_other_case, one.items))) if one.kind == 'class' else one.text


def class_with(one: One, more: bytes) -> bytes:
    r"""The class with more before its items, of which a first - is still itself."""
    if not more:
        return one.text
    start = 2 if one.is_negated else 1
    rest = one.text[start:]
    return one.text[:start] + more + (b'\\' if rest.startswith(b'-') else b'') + rest


def _other_case(item: Item) -> bytes:
    """The letters of the other case of an item, as a range."""
    found = b''
    for first, last, by in ((*_UPPER, 32), (*_LOWER, -32)):
        begin, end = max(item.low, first), min(item.high, last)
        if begin <= end:
            found += bytes([begin + by]) + (b'-' + bytes([end + by]) if end > begin else b'')
    return found


def one_case(one: One) -> Optional[Advice]:
    """Advice on the first letter past ASCII that has two cases, of which the sign or class has one."""
    numbers = {number for item in one.items if not item.name for number in (item.low, item.high)}
    text = one.text.decode('utf-8', 'replace')
    if not one.is_over_characters and one.kind == 'literal':
        numbers = {ord(text)} if len(text) == 1 else set()
    for item in one.items:
        number = item.low if one.is_over_characters else ord(text) if len(text) == 1 else 0
        lower, upper = (chr(number).lower(), chr(number).upper()) if number > 0x7f else ('', '')
        if item.name in (b'Lu', b'Ll', b'Lt'):
            both = r'[\p{Lu}\p{Ll}\p{Lt}]'
        elif lower == upper or {ord(sign) for sign in lower[:1] + upper[:1]} <= numbers:
            continue
        else:
            both = f'[{lower}{upper}]' if len(lower) == len(upper) == 1 else f'({lower}|{upper})'
        write = 'add the other case to the class' if one.kind == 'class' else f'for both cases write {both}, with the flag u'
        shown = item.text.decode('utf-8', 'replace') if not item.name else item.text.decode()
        return Advice(item.start, f'i is for the letters of ASCII, and {shown} stays as it is: {write}')
    return None
