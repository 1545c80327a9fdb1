"""Reads a formula and gives it as patterns of Python's `re` and of PCRE2, for `tests/cli/independent`.

What the signs of a formula mean is left to these engines. This reads captures, groups, arms and repeats alone, and shares no code
with the reference (rematch_oracle.py) or the program. A part without captures becomes one pattern.
"""
import re
import unicodedata
from typing import NamedTuple, Optional


class Fault(Exception):
    """The formula has what is not taken here; the text says what."""


class Leaf(NamedTuple):
    """A part without captures."""
    pattern: str  # for `re`
    units: tuple  # the patterns of its characters, or over bytes of its bytes
    most: Optional[int]  # of characters that fit; None where there is no bound


class Sequence(NamedTuple):
    parts: tuple


class Choice(NamedTuple):
    arms: tuple


class Capture(NamedTuple):
    name: str
    part: object


class Formula(NamedTuple):
    tree: object
    pcre: str  # with numbered groups
    names: tuple  # of the groups by their numbers, from 1; a name may be there more than once
    at_start: bool
    at_end: bool
    over_characters: bool
    has_re: bool  # whether `re` can take it


EMPTY = Leaf('', (), 0)
NEVER = '\U0010ffff'  # a character that is in no document


def in_sequence(parts):
    """The parts one after the other, neighbours without captures as one."""
    merged = []
    for part in parts:
        if isinstance(part, Leaf) and merged and isinstance(merged[-1], Leaf):
            last = merged.pop()
            most = None if None in (last.most, part.most) else last.most + part.most
            part = Leaf(last.pattern + part.pattern, last.units + part.units, most)
        merged.append(part)
    return merged[0] if len(merged) == 1 else Sequence(tuple(merged)) if merged else EMPTY


def as_choice(arms):
    if len(arms) == 1:
        return arms[0]
    if not all(isinstance(arm, Leaf) for arm in arms):
        return Choice(tuple(arms))
    mosts = [arm.most for arm in arms]
    return Leaf('(?:%s)' % '|'.join(arm.pattern for arm in arms), sum((arm.units for arm in arms), ()),
                None if None in mosts else max(mosts))


def repeated(part, least, most):
    if isinstance(part, Leaf):
        count = '{%d,%s}' % (least, '' if most is None else most)
        bound = None if most is None or part.most is None else most * part.most
        return Leaf('(?:%s)%s' % (part.pattern, count), part.units if most != 0 else (), bound)
    if (least, most) == (1, 1):
        return part
    if (least, most) == (0, 1):
        return Choice((part, EMPTY))
    if (least, most) == (0, 0):
        return EMPTY
    raise Fault('a capture under a repeat')


class Reader:
    """Reads the text between the slashes of an atom, from left to right."""

    def __init__(self, text, over_characters, letters):
        self.text, self.at = text, 0
        self.over_characters, self.letters = over_characters, letters
        self.names, self.has_re = [], True

    def peek(self, text):
        return self.text.startswith(text, self.at)

    def take(self, pattern):
        """The text here that fits this, taken; or None."""
        found = re.compile(pattern).match(self.text, self.at)
        if found:
            self.at = found.end()
        return found

    def choice(self):
        """The arms up to what ends them, as a part and as a pattern of PCRE2."""
        pairs = [self.sequence()]
        while self.take(r'\|'):
            pairs.append(self.sequence())
        return as_choice([part for part, _ in pairs]), '|'.join(pattern for _, pattern in pairs)

    def sequence(self):
        pairs = []
        while self.at < len(self.text) and self.text[self.at] not in '|)}':
            pairs.append(self.piece())
        return in_sequence([part for part, _ in pairs]), ''.join(pattern for _, pattern in pairs)

    def piece(self):
        part, pattern = self.part()
        found = self.take(r'[*+?]|\{(\d+)(,?)(\d*)\}')
        if not found:
            return part, pattern
        if found[0] in ('*', '+', '?'):
            least, most = {'*': (0, None), '+': (1, None), '?': (0, 1)}[found[0]]
        else:
            least = int(found[1])
            most = int(found[3]) if found[3] else None if found[2] else least
        return repeated(part, least, most), '(?:%s)%s' % (pattern, found[0])

    def part(self):
        found = self.take(r'!([A-Za-z_]\w*)\{')
        if found:
            self.names.append(found[1])
            part, pattern = self.choice()
            self.close('}')
            return Capture(found[1], part), '(%s)' % pattern
        if self.take(r'\('):
            part, pattern = self.choice()
            self.close(')')
            return part, '(?:%s)' % pattern
        ours, pcre = self.unit()
        units = tuple(re.findall(r'\\x..', ours)) if ours.startswith('(?:') else (ours,)
        return Leaf(ours, units, len(units)), pcre

    def close(self, sign):
        if not self.peek(sign):
            raise Fault('%s is missing at %d' % (sign, self.at))
        self.at += 1

    def unit(self):
        """One character or set, as patterns of `re` and of PCRE2."""
        if self.take(r'\.'):
            return r'[^\n]', r'[^\n]'
        if self.peek('['):
            return self.set_of()
        if self.peek('\\p'):
            ours, pcre = self.escape()
            return '[%s]' % ours, pcre
        if self.peek('\\'):
            return self.escape()
        self.at += 1
        return self.plain(self.text[self.at - 1])

    def plain(self, sign):
        """A character that means itself; over bytes, the bytes of its UTF-8."""
        if ord(sign) < 128:
            return (sign, sign) if sign.isalnum() or sign == '_' else (r'\x%02x' % ord(sign),) * 2
        if self.over_characters:
            return sign, r'\x{%x}' % ord(sign)
        text = '(?:%s)' % ''.join(r'\x%02x' % byte for byte in sign.encode())
        return text, text

    def escape(self):
        found = self.take(r'\\p\{(\w+)\}')
        if found:
            return self.property(found[1]), r'\p{%s}' % found[1]
        found = self.take(r'\\u\{([0-9A-Fa-f]+)\}')
        if found:
            return r'\U%08x' % int(found[1], 16), r'\x{%s}' % found[1]
        found = self.take(r'\\x([0-9A-Fa-f]{2})|\\([dwsntr])')
        if found:
            return found[0], found[0]
        found = self.take(r'\\(.)')
        return self.plain(found[1])

    def property(self, name):
        """The characters of the document that have the property, by the tables of this Python."""
        if len(name) > 2:
            self.has_re = False
            return NEVER
        return NEVER + ''.join('\\U%08x' % ord(sign) for sign in self.letters if unicodedata.category(sign).startswith(name))

    def set_of(self):
        begin = self.take(r'\[\^?')[0]
        ours, pcre = [begin], [begin]
        while not self.take(r'\]'):
            if self.take(r'-(?=\])') or self.peek('-') and len(ours) == 1 or self.peek('-') and ours[-1] == 'RANGE':
                self.take('-')
                signs = (r'\x2d', r'\x2d')
            else:
                signs = self.escape() if self.peek('\\') else self.plain(self.take(r'(?s).')[0])
                if self.take(r'-(?!\])'):
                    last = self.escape() if self.peek('\\') else self.plain(self.take(r'(?s).')[0])
                    ours += ['%s-%s' % (signs[0], last[0]), 'RANGE']
                    pcre.append('%s-%s' % (signs[1], last[1]))
                    continue
            ours.append(signs[0])
            pcre.append(signs[1])
        return ''.join(one for one in ours if one != 'RANGE') + ']', ''.join(pcre) + ']'


def read(atom, letters=()):
    """The formula of an atom `/../` or `/../u`, for a document with these characters."""
    over_characters = atom.endswith('u')
    text = atom[1:-2] if over_characters else atom[1:-1]
    at_start, at_end = text.startswith('^'), re.search(r'(?<!\\)(\\\\)*\$$', text) is not None
    reader = Reader(text[at_start:len(text) - at_end], over_characters, letters)
    tree, pcre = reader.choice()
    if reader.at < len(reader.text):
        raise Fault('unread at %d: %s' % (reader.at, atom))
    pcre = '%s(?:%s)%s' % (r'\A' * at_start, pcre, r'\z' * at_end)
    return Formula(tree, pcre, tuple(reader.names), at_start, at_end, over_characters, reader.has_re)
