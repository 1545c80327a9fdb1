"""A tree in the program's own form, as `--explain` prints it: sets as runs of bytes, characters as the bytes of their UTF-8."""
from __future__ import annotations

from functools import lru_cache
from typing import Callable, Dict, List, Optional, Tuple, Type

from . import sets
from .sets import Ranges
from .tree import (Atom, Capture, Choice, Concatenation, Expression, Formula, Group, Join, Minus, Name, One, Project, Query, Repeat,
                   Union_)

__all__ = ['printed']

_SHORT = {10: '\\n', 9: '\\t', 13: '\\r'}
_PLAIN = sets.members(sets.united([*sets.WORD, (32, 32)]))
_NO_LINE_FEED = sets.others(sets.BYTES, sets.LINE_FEED)
# of the texts of one byte to four: the bytes after the first, the first byte of number 0, the first and the last character
_LENGTHS = ((0, 0, 0, 0x7f), (1, 0xc0, 0x80, 0x7ff), (2, 0xe0, 0x800, 0xffff), (3, 0xf0, 0x10000, 0x10ffff))

Properties = Optional[Callable[[bytes], Ranges]]


def printed(query: Query, properties: Properties = None) -> str:
    r"""The text; ``properties`` gives the characters of a property, which only the program knows.

    >>> from rematch.reader import read
    >>> printed(read(r'let w = /[cab\d]é/; project x, x ((w) join /!x{a{0,}}$/)'))
    'let w = /[0-9a-c](\\xc3\\xa9)/; project x (w join /!x{a*}$/)'
    """
    printer = _Printer(properties)
    lets = ''.join(f'let {let.name.decode()} = {printer.expression(let.expression)}; ' for let in query.lets)
    tests = ', '.join(f'{test.name.decode()}({test.variable.decode()})' for test in query.tests)
    return lets + printer.expression(query.body) + (f' where {tests}' if tests else '')


class _Text:
    """What is printed of a formula, and of which kind it is."""

    def __init__(self, text: str, kind: str) -> None:
        self.text = text
        self.kind = kind  # `set`, `parts`, `arms`, `repeat`, `capture` or `empty`

    def inside(self, *kinds: str) -> str:
        """The text, in parentheses where it is of one of these kinds."""
        return f'({self.text})' if self.kind in kinds else self.text


class _Printer:
    def __init__(self, properties: Properties) -> None:
        self.properties = properties

    # Expressions

    def expression(self, found: Expression, inside: Tuple[Type[Expression], ...] = ()) -> str:
        text = self.bare(found)
        return f'({text})' if isinstance(found, inside) else text

    def bare(self, found: Expression) -> str:
        if isinstance(found, Atom):
            return '/' + '^' * found.is_first + self.formula(found.formula).text + '$' * found.is_last + '/'
        if isinstance(found, Name):
            return found.name.decode()
        if isinstance(found, Project):
            return f'project {",".join(sorted({name.decode() for name in found.names})) or "none"} ({self.expression(found.inner)})'
        if isinstance(found, Minus):
            return ' minus '.join(self.expression(side, (Union_, Minus)) for side in (found.left, found.right))
        if isinstance(found, Union_):
            return ' union '.join(self.expression(part, (Union_, Minus)) for part in found.parts)
        return ' join '.join(self.expression(part, (Union_, Minus, Join)) for part in found.parts)

    # Formulas

    def formula(self, found: Formula) -> _Text:
        if isinstance(found, One):
            return self.one(found)
        if isinstance(found, Concatenation):
            return _in_turn([self.formula(part) for part in found.parts])
        if isinstance(found, Choice):
            return _either([self.formula(arm) for arm in found.arms])
        if isinstance(found, Group):
            return self.formula(found.inner)
        if isinstance(found, Capture):
            return _Text(f'!{found.name.decode()}{{{self.formula(found.inner).text}}}', 'capture')
        if isinstance(found, Repeat):
            return _Text(self.formula(found.inner).inside('parts', 'arms', 'repeat') + _sign_of(found.least, found.most), 'repeat')
        raise TypeError(f'a {type(found).__name__} is not of the program: write it out first')

    def one(self, found: One) -> _Text:
        if found.kind == 'literal':
            return _in_turn([_Text(_byte_text(byte), 'set') for byte in found.text])
        if found.is_over_characters:
            return _characters(found.ranges(self.properties))
        return _Text(_set_text(found.ranges()), 'set')


def _in_turn(parts: List[_Text]) -> _Text:
    if len(parts) == 1:
        return parts[0]
    return _Text(''.join(part.inside('parts', 'arms') for part in parts), 'parts') if parts else _Text('()', 'empty')


def _either(arms: List[_Text]) -> _Text:
    return arms[0] if len(arms) == 1 else _Text('|'.join(arm.inside('arms') for arm in arms), 'arms')


def _sign_of(least: int, most: Optional[int]) -> str:
    usual = {(0, None): '*', (1, None): '+', (0, 1): '?'}
    if (least, most) in usual:
        return usual[least, most]
    return f'{{{least},}}' if most is None else f'{{{least}}}' if least == most else f'{{{least},{most}}}'


def _byte_text(byte: int) -> str:
    if byte in _PLAIN:
        return chr(byte)
    return _SHORT.get(byte) or ('\\' + chr(byte) if 0x21 <= byte <= 0x7e else f'\\x{byte:02x}')


def _set_text(some: Ranges) -> str:
    if len(some) == 1 and some[0][0] == some[0][1]:
        return _byte_text(some[0][0])
    if some == _NO_LINE_FEED:
        return '.'
    return '[' + ''.join(_byte_text(low) + ('-' + _byte_text(high) if low < high else '') for low, high in some) + ']'


# -- Sets of characters

@lru_cache(maxsize=256)
def _characters(some: Ranges) -> _Text:
    """The formula of a set of characters: of their texts of one byte, of two, of three and of four."""
    arms = []
    for tails, base, low, high in _LENGTHS:
        part = sets.shared(some, ((low, high),))
        if part:
            arms.append(_strings(tails, base, part))
    return _either(arms)


def _strings(tails: int, base: int, some: Ranges) -> _Text:
    """The formula of a first byte and so many more, which are digits to the base 64; first bytes with the same tails are one set."""
    if tails == 0:
        return _Text(_set_text(tuple((base + low, base + high) for low, high in some)), 'set')
    unit = 64 ** tails
    firsts: Dict[Ranges, List[int]] = {}  # in the order of the least first byte
    for first in range(some[0][0] // unit, some[-1][1] // unit + 1):
        part = sets.shared(some, ((first * unit, first * unit + unit - 1),))
        if part:
            firsts.setdefault(tuple((low - first * unit, high - first * unit) for low, high in part), []).append(base + first)
    return _either([_in_turn([_Text(_set_text(sets.ranges_of(bytes_)), 'set'), _strings(tails - 1, 0x80, follows)])
                    for follows, bytes_ in firsts.items()])
