r"""The one reader of query texts: tokens, and then recursive descent over the grammar of docs/LANGUAGE.md.

It reads the program's language, and where they are asked for the conveniences that rematch-to, rematch-piece and
rematch-play write out: comments, the flags `i` and `m`, parts, words with mismatches, and `\b` at the ends of a formula.
What the program refuses it refuses too, with the program's note. It has no tables of Unicode: the members of `\p{..}` are
the program's, and of a class that leaves out properties it is not seen here whether some character is left.
"""
from __future__ import annotations

import re
from typing import Container, Dict, List, Match, Optional, Pattern, Tuple, Union

from . import sets
from .faults import QueryError
from .tree import (Atom, Boundary, Capture, Choice, Concatenation, Definition, Expression, Formula, Group, Item, Join, Let, Listed, Minus, Name, One,
                   Project, Query, Repeat, Test, Union_, Use, Word, nodes_of)

__all__ = ['LONGEST_QUERY', 'query_fault', 'read']

LONGEST_QUERY = 65536
_LONGEST_NAME = 32
_MOST_OPEN = 100
_MOST_MINUSES = 100
_LARGEST_REPEAT = 1000
_NO_LIMIT = 1 << 30

_NAME = re.compile(rb'[A-Za-z_][A-Za-z0-9_]*')
_WORD = re.compile(rb'[A-Za-z0-9_]+')
_BLANKS = re.compile(rb'[ \t\n\r]*')
_BLANKS_AND_COMMENTS = re.compile(rb'(?:[ \t\n\r]|#[^\n]*)*')
_COMMENT = re.compile(rb'#[^\n]*')
_INSIDE = re.compile(rb'(?:[^/\\]|\\.)*', re.S)
_REPEAT = re.compile(rb'\{([0-9]{1,4})(?:(,)([0-9]{1,4})?)?\}')
_CHARACTER = re.compile(rb'[\x00-\x7f]|[\xc0-\xff][\x80-\xbf]*|[\x80-\xbf]')
_BYTE_ESCAPE = re.compile(rb'\\x([0-9A-Fa-f]{2})')
_CHARACTER_ESCAPE = re.compile(rb'\\u\{([0-9A-Fa-f]{1,6})\}')
_PROPERTY = re.compile(rb'\\p\{([A-Za-z0-9_]+)\}')
_USE = re.compile(rb'%\{([A-Za-z_][A-Za-z0-9_]*)\}')
_LISTED = re.compile(rb'%\{((?:[^{}/\\\x00-\x1f]|\\/)*\.(?:[^{}/\\\x00-\x1f]|\\/)*)\}')  # the name of a file, which has a point
_MISMATCHES = re.compile(rb'~([0-9])\{(?![0-9]+(?:,[0-9]*)?\})')
_CONTROLS = {ord('n'): 10, ord('t'): 9, ord('r'): 13}
_PUNCTUATION = sets.members(((0x21, 0x2f), (0x3a, 0x40), (0x5b, 0x60), (0x7b, 0x7e)))
_REPEAT_SIGNS, _CLOSERS, _BRACKETS, _ANCHORS = (frozenset(signs) for signs in (b'*+?{', b')}', b'[]', b'^$'))
_NAMED_SETS, _CONVENIENCES, _NOT_IN_WORDS = (frozenset(signs) for signs in (b'dws', b'%~\\', b'()|*+?{^$]'))
_NEVER_INSIDE = frozenset((-1, ord('/')))
_KEYWORDS = (b'let', b'union', b'join', b'project', b'none')
_REPEATS: Dict[int, Tuple[int, Optional[int]]] = {ord('*'): (0, None), ord('+'): (1, None), ord('?'): (0, 1)}

BAD_PART = 'a part is one formula and a ; after it: part NAME = /../;'
_BAD_WORD = 'a word ~1{..} contains letters, classes, parts and {n}, up to the }: write other signs outside of it'


def query_fault(what: str, text: bytes, at: Optional[int] = None, hint: Optional[str] = None) -> QueryError:
    """The fault of a text, at a place of it, as the program notes it."""
    fault = QueryError(f'query: {what}' + ('' if at is None else f' at {at}'), 3, text)
    fault.hint = hint or fault.hint
    return fault


def read(text: Union[str, bytes], *, conveniences: bool = False, is_limited: bool = True) -> Query:
    r"""The tree of a text; `QueryError` where it cannot be read. What the program prints may be longer and deeper than what it reads.

    >>> read(r'/^!x{a+}/').atoms[0].is_first
    True
    >>> read('/a(/')
    Traceback (most recent call last):
      ...
    rematch.faults.QueryError: query: not closed at 2
      /a(/
        ^
    hint: what begins here is not closed before the closing slash; for the character itself write a backslash before it
    """
    source = text if isinstance(text, bytes) else text.encode('utf-8', 'surrogateescape')
    if len(source) > LONGEST_QUERY and is_limited and not conveniences:
        raise query_fault(f'longer than {LONGEST_QUERY} bytes', source)
    return _QueryReader(source, conveniences, _MOST_OPEN if is_limited else _NO_LIMIT).read()


# -- Formulas

class _FormulaReader:
    """Reads the atom whose slash is at ``start``."""

    def __init__(self, text: bytes, start: int, definitions: Optional[Dict[bytes, Definition]], most_open: int,
                 lets: Container[bytes]) -> None:
        self.text = text
        self.start = start
        self.at = start + 1
        self.definitions = definitions  # None where conveniences are not read
        self.lets = lets  # the names of those before the atom
        self.most_open = most_open
        self.openers = [start]  # of the slash, and of the groups, captures and classes that are open
        self.deepest = 0  # the most groups and captures that were open at once
        self.is_last = False  # whether a `$` has been read as an anchor
        inside = _INSIDE.match(text, self.at)
        assert inside is not None
        self.body_end = inside.end()
        self.flags = self._flags(self.body_end + 1) if text[self.body_end:self.body_end + 1] == b'/' else b''
        self.is_over_characters = b'u' in self.flags

    def _flags(self, at: int) -> bytes:
        found = _WORD.match(self.text, at)
        if found is None:
            return b''
        known = b'u' if self.definitions is None else b'imu'
        word = found[0]
        return word if len(set(word)) == len(word) and set(word) <= set(known) else b''

    def fault(self, what: str, at: int, hint: Optional[str] = None) -> QueryError:
        return query_fault(what, self.text, at, hint)

    def byte(self, ahead: int = 0) -> int:
        """The byte that is so far ahead; -1 at the text's end."""
        at = self.at + ahead
        return self.text[at] if at < len(self.text) else -1

    def read(self) -> Atom:
        if self.is_over_characters:
            try:
                self.text[self.start + 1:self.body_end].decode()
            except UnicodeDecodeError as wrong:
                raise self.fault('not UTF-8', self.start + 1 + wrong.start) from None
        is_first = self.byte() == ord('^')
        self.at += is_first
        formula = self.alternation(ord('/'))
        return Atom(formula, is_first, self.is_last, self.flags, self.start, self.at + len(self.flags))

    def alternation(self, closing: int) -> Formula:
        """Reads up to the byte that closes the innermost opener, and past it."""
        start, arms = self.at, [self.sequence(closing)]
        while self.byte() == ord('|'):
            self.at += 1
            arms.append(self.sequence(closing))
        self.at += 1
        return arms[0] if len(arms) == 1 else Choice(tuple(arms), start, arms[-1].end)

    def sequence(self, closing: int) -> Concatenation:
        """Reads up to a bar or to the closing byte."""
        start, parts, end = self.at, [], -1
        while self.byte() not in (closing, ord('|')):
            at, byte = self.at, self.byte()
            self.refuse_end(byte, closing)
            if byte in _REPEAT_SIGNS:
                if not parts or end == at:
                    raise self.fault('repeat after repeat' if parts else 'unexpected', at)
                least, most = self.repeat(byte)
                parts[-1] = Repeat(parts[-1], least, most, parts[-1].start, self.at)
                end = self.at
            elif byte == ord('$') and closing == ord('/') == self.byte(1):
                self.at, self.is_last = at + 1, True
                return Concatenation(tuple(parts), start, at)
            else:
                parts.append(self.unit(byte))
        return Concatenation(tuple(parts), start, self.at)

    def refuse_end(self, byte: int, closing: int) -> None:
        """Refuses what ends something else than what is open."""
        if byte in _NEVER_INSIDE or (byte in _CLOSERS and closing != ord('/')):
            raise self.fault('not closed', self.openers[-1])
        if byte in _CLOSERS or byte == ord(']'):
            raise self.fault('unexpected', self.at)

    def repeat(self, sign: int) -> Tuple[int, Optional[int]]:
        if sign != ord('{'):
            self.at += 1
            return _REPEATS[sign]
        found = _REPEAT.match(self.text, self.at)
        if found is None:
            raise self.fault('bad repeat', self.at)
        least = int(found[1])
        most = least if not found[2] else int(found[3]) if found[3] else None
        if least > _LARGEST_REPEAT or (most is not None and not least <= most <= _LARGEST_REPEAT):
            raise self.fault('bad repeat', self.at)
        self.at = found.end()
        return least, most

    def unit(self, byte: int) -> Formula:
        at = self.at
        if byte in _ANCHORS:
            raise self.fault('anchor', at)
        if byte == ord('('):
            inner = self.opened(at + 1, ord(')'))
            return Group(inner, at, self.at)
        if byte == ord('!'):
            name = _NAME.match(self.text, at + 1)
            if name is not None and self.text[name.end():name.end() + 1] == b'{':
                return self.capture(name)
        if byte == ord('['):
            return self.bracket()
        if self.definitions is not None and byte in _CONVENIENCES:
            made = self.convenience()
            if made is not None:
                return made
        if byte == ord('\\'):
            item = self.escape()
            return self.one('escape', at, (item,))
        return self.literal()

    def opened(self, inner_start: int, closing: int) -> Formula:
        """What is between an opener, which is at the present place, and what closes it."""
        if len(self.openers) > self.most_open:  # the slash is not counted
            raise self.fault('too deep', self.at)
        self.openers.append(self.at)
        self.deepest = max(self.deepest, len(self.openers) - 1)
        self.at = inner_start
        inner = self.alternation(closing)
        self.openers.pop()
        return inner

    def capture(self, name: Match[bytes]) -> Formula:
        at = self.at
        if len(name[0]) > _LONGEST_NAME:
            raise self.fault('name too long', at)
        if name[0] == b'none':
            raise self.fault('reserved name', at)
        inner = self.opened(name.end() + 1, ord('}'))
        return Capture(name[0], inner, at, self.at)

    def one(self, kind: str, start: int, items: Tuple[Item, ...], *, is_negated: bool = False) -> One:
        return One(kind, self.text[start:self.at], start, items, is_negated, self.is_over_characters)

    def literal(self) -> One:
        start = self.at
        found = _CHARACTER.match(self.text, start)
        assert found is not None
        self.at = found.end()
        if found[0] == b'.':
            return self.one('dot', start, ())
        numbers = [ord(found[0].decode())] if self.is_over_characters else list(found[0])
        return self.one('literal', start, tuple(Item(found[0], start, number, number, b'') for number in numbers))

    def escape(self) -> Item:
        """The escape that begins here, as a set."""
        start, letter = self.at, self.byte(1)
        name, number, length = b'', -1, 2
        found: Optional[Match[bytes]] = None
        if letter in _NAMED_SETS:
            name = bytes([letter])
        elif letter in _CONTROLS:
            number = _CONTROLS[letter]
        elif letter in _PUNCTUATION:
            number = letter
        else:
            found = _BYTE_ESCAPE.match(self.text, start)
            number = int(found[1], 16) if found else -1
            if self.is_over_characters and (found is None or number > 0x7f):
                return self.character_escape()
            if found is None:
                raise self.fault('bad escape', start)
            length = 4
        self.at += length
        return Item(self.text[start:self.at], start, number, number, name)

    def character_escape(self) -> Item:
        """The escape that begins here, of those that only a formula over characters has."""
        start = self.at
        found = _CHARACTER_ESCAPE.match(self.text, start)
        number = int(found[1], 16) if found else -1
        if found is not None and sets.shared(sets.CHARACTERS, ((number, number),)):
            self.at = found.end()
            return Item(found[0], start, number, number, b'')
        found = _PROPERTY.match(self.text, start)
        if found is None:
            raise self.fault('bad escape', start)
        if found[1] not in sets.ALL_PROPERTIES:
            raise self.fault('unknown property', start)
        self.at = found.end()
        return Item(found[0], start, -1, -1, found[1])

    # Classes

    def bracket(self) -> One:
        start = self.at
        self.openers.append(start)
        self.at += 1
        is_negated = self.byte() == ord('^')
        self.at += is_negated
        items: List[Item] = []
        while not items or self.byte() != ord(']'):
            items.append(self.item())
        self.at += 1
        self.openers.pop()
        made = self.one('class', start, tuple(items), is_negated=is_negated)
        self.refuse_names_of_parts(made)
        if is_negated and (not made.ranges() or sets.GROUPS <= {item.name for item in items}):
            raise self.fault('bad range', start)
        return made

    def item(self) -> Item:
        low = self.element()
        if self.byte() != ord('-') or self.byte(1) == ord(']'):
            return low
        self.at += 1
        high = self.element()
        if low.name or high.name or low.low > high.low:
            raise self.fault('bad range', low.start)
        return Item(self.text[low.start:self.at], low.start, low.low, high.low, b'')

    def element(self) -> Item:
        byte = self.byte()
        if byte in _NEVER_INSIDE:
            raise self.fault('not closed', self.openers[-1])
        if byte in _BRACKETS or (byte >= 0x80 and not self.is_over_characters):
            raise self.fault('unexpected', self.at)
        if byte == ord('\\'):
            return self.escape()
        start, found = self.at, _CHARACTER.match(self.text, self.at)
        assert found is not None
        self.at = found.end()
        number = ord(found[0].decode())
        return Item(found[0], start, number, number, b'')

    # Conveniences

    def refuse_names_of_parts(self, made: One) -> None:
        for name in self.definitions or ():
            at = made.text.find(b'%{' + name + b'}')
            if at >= 0:
                raise self.fault('unexpected', made.start + at, 'a part is a formula, so no class contains one')

    def convenience(self) -> Optional[Formula]:
        start = self.at
        if self.text.startswith(rb'\b', start):
            self.at += 2
            return Boundary(start, self.at)
        used = _USE.match(self.text, start)
        if used is not None:
            self.use(used[1])
            self.at = used.end()
            return Use(used[1], start, self.at)
        listed = _LISTED.match(self.text, start)
        if listed is not None:
            self.at = listed.end()
            return Listed(listed[1].replace(rb'\/', b'/'), start, self.at)
        word = _MISMATCHES.match(self.text, start)
        if word is None:
            return None
        self.at = word.end()
        return self.word(start, int(word[1]))

    def use(self, name: bytes) -> None:
        """Refuses the use of a part that is not there, and of one that does not suit the formula."""
        assert self.definitions is not None
        part = self.definitions.get(name)
        if part is None:
            shown = name.decode()
            raise self.fault('unknown name', self.at, f'{shown} is a let, which names a query: for a part of formulas write part {shown} = /../;'
                             if name in self.lets
                             else f'there is no part {shown} before it, and %{{..}} uses one: the character itself is \\{{')
        if part.atom.is_over_characters and not self.is_over_characters:
            raise self.fault('unexpected', self.at, 'the part is over characters (u after its closing slash), and so must be the formula')
        depth = len(self.openers) + part.depth  # with the group that the use becomes
        if depth > self.most_open:
            raise self.fault('too deep', self.at)
        self.deepest = max(self.deepest, depth)

    def word(self, start: int, most: int) -> Word:
        """A word with mismatches, whose units begin here."""
        units: List[Formula] = []
        can_repeat = False
        while self.byte() != ord('}'):
            byte = self.byte()
            times = _REPEAT.match(self.text, self.at) if can_repeat else None
            if byte in _NEVER_INSIDE:
                raise self.fault('unexpected', start, 'the word that begins here is not closed: ~1{..}')
            if times is not None and not times[2]:
                self.at = times.end()
                units[-1] = Repeat(units[-1], int(times[1]), int(times[1]), units[-1].start, self.at)
                can_repeat = False
            elif byte in _NOT_IN_WORDS or self.is_capture() or self.text.startswith(rb'\b', self.at):
                raise self.fault('unexpected', self.at, _BAD_WORD)
            else:
                unit = self.unit(byte)
                self.refuse_in_word(unit)
                units.append(unit)
                can_repeat = True
        self.at += 1
        return Word(most, tuple(units), start, self.at)

    def is_capture(self) -> bool:
        name = _NAME.match(self.text, self.at + 1) if self.byte() == ord('!') else None
        return name is not None and self.text[name.end():name.end() + 1] == b'{'

    def refuse_in_word(self, unit: Formula) -> None:
        if isinstance(unit, One) and len(unit.items) > 1 and unit.kind == 'literal':
            raise self.fault('unexpected', unit.start, 'a letter past ASCII is several bytes: add u after the closing slash')
        if isinstance(unit, Word):
            raise self.fault('unexpected', unit.start, _BAD_WORD)


# -- Expressions

class _QueryReader:
    def __init__(self, text: bytes, conveniences: bool, most_open: int) -> None:
        self.text = text
        self.at = 0
        self.conveniences = conveniences
        self.open = 0  # parentheses
        self.most_open = most_open
        self.minuses = 0
        self.lets: List[Let] = []
        self.atoms: List[Atom] = []
        self.definitions: Dict[bytes, Definition] = {}
        self.comments: List[Tuple[int, int]] = []

    def fault(self, what: str, hint: Optional[str] = None) -> QueryError:
        return query_fault(what, self.text, self.at, hint)

    def read(self) -> Query:
        while True:
            word = self.word()
            if word == b'let':
                self.let()
            elif word == b'part' and self.conveniences and self.is_definition():
                self.definition()
            else:
                break
        body = self.expression()
        tests = self.tests() if self.word() == b'where' else ()
        if self.at < len(self.text):
            raise self.fault('unexpected')
        return Query(self.text, tuple(self.lets), body, tests, tuple(self.atoms), tuple(self.definitions.values()), tuple(self.comments))

    # Definitions

    def is_definition(self) -> bool:
        blank = rb'(?:[ \t\n\r]|#[^\n]*\n)'
        return re.compile(rb'part%b+[A-Za-z_]\w*%b*=' % (blank, blank)).match(self.text, self.at) is not None

    def definition(self) -> None:
        start = self.at
        self.skip(4)
        name = self.name()
        if name in self.definitions:
            raise self.fault('name twice')
        self.skip(len(name))
        self.token(b'=')
        if not self.sees(b'/'):
            raise self.fault('unexpected', BAD_PART)
        reader = self.formula_reader()
        atom = reader.read()
        self.at = atom.end
        self.space()
        if atom.is_first or atom.is_last or b'm' in atom.flags:
            place = atom.start + 1 if atom.is_first else atom.end - len(atom.flags) - 2 if atom.is_last else atom.end - 1
            raise query_fault('anchor', self.text, place, 'an anchor applies to a whole formula: write it, or the m, in the formula that uses the part')
        if not self.sees(b';'):
            raise self.fault('unexpected', BAD_PART)
        self.at += 1
        self.space()
        self.definitions[name] = Definition(name, atom, start, self.at, self.length_of(atom), reader.deepest)

    def length_of(self, atom: Atom) -> int:
        """About how many bytes a definition is when it is written out."""
        length = atom.end - atom.start
        length += sum(self.definitions[node.name].length for node in nodes_of(atom.formula) if isinstance(node, Use))
        if length > 4 * LONGEST_QUERY:
            raise query_fault(f'longer than {LONGEST_QUERY} bytes', self.text)
        return length

    # The query

    def let(self) -> None:
        self.skip(3)
        name = self.name()
        if name in {let.name for let in self.lets}:
            raise self.fault('name twice')
        at = self.at
        self.skip(len(name))
        self.token(b'=')
        expression = self.expression()
        self.token(b';')
        self.lets.append(Let(name, at, expression))

    def tests(self) -> Tuple[Test, ...]:
        self.skip(5)
        found = [self.test()]
        while self.sees(b','):
            self.skip(1)
            found.append(self.test())
        return tuple(found)

    def test(self) -> Test:
        name = self.name()
        at = self.at
        self.skip(len(name))
        self.token(b'(')
        variable = self.name()
        self.skip(len(variable))
        self.token(b')')
        return Test(name, at, variable)

    def expression(self) -> Expression:
        parts = [self.joined()]
        while self.word() in (b'union', b'minus'):
            if self.word() == b'union':
                self.skip(5)
                parts.append(self.joined())
                continue
            if self.minuses == _MOST_MINUSES:
                raise self.fault('too deep')
            self.minuses += 1
            self.skip(5)
            parts = [Minus(_united(parts), self.joined())]
        return _united(parts)

    def joined(self) -> Expression:
        parts = [self.unit()]
        while self.word() == b'join':
            self.skip(4)
            parts.append(self.unit())
        return parts[0] if len(parts) == 1 else Join(tuple(parts))

    def unit(self) -> Expression:
        self.space()
        if self.sees(b'/'):
            return self.atom()
        if self.sees(b'('):
            return self.parenthesised()
        if self.word() == b'project':
            self.skip(7)
            names = self.kept()
            return Project(names, self.parenthesised())
        name, at = self.name(), self.at
        if name not in {let.name for let in self.lets}:
            raise self.fault('unknown name')
        self.skip(len(name))
        return Name(name, at)

    def atom(self) -> Atom:
        atom = self.formula_reader().read()
        self.atoms.append(atom)
        self.at = atom.end
        self.space()
        return atom

    def formula_reader(self) -> _FormulaReader:
        return _FormulaReader(self.text, self.at, self.definitions if self.conveniences else None, self.most_open,
                              {let.name for let in self.lets})

    def parenthesised(self) -> Expression:
        if not self.sees(b'('):
            raise self.fault('unexpected')
        if self.open == self.most_open:
            raise self.fault('too deep')
        self.open += 1
        self.skip(1)
        found = self.expression()
        self.token(b')')
        self.open -= 1
        return found

    def kept(self) -> Tuple[bytes, ...]:
        if self.word() == b'none':
            self.skip(4)
            return ()
        names = [self.name()]
        self.skip(len(names[-1]))
        while self.sees(b','):
            self.skip(1)
            names.append(self.name())
            self.skip(len(names[-1]))
        return tuple(names)

    # Tokens

    def space(self) -> None:
        pattern: Pattern[bytes] = _BLANKS_AND_COMMENTS if self.conveniences else _BLANKS
        found = pattern.match(self.text, self.at)
        assert found is not None
        if self.conveniences and b'#' in found[0]:
            self.comments += [comment.span() for comment in _COMMENT.finditer(self.text, self.at, found.end())
                              if not self.comments or self.comments[-1][0] < comment.start()]
        self.at = found.end()

    def sees(self, sign: bytes) -> bool:
        return self.text.startswith(sign, self.at)

    def token(self, sign: bytes) -> None:
        self.space()
        if not self.sees(sign):
            raise self.fault('unexpected')
        self.skip(len(sign))

    def skip(self, length: int) -> None:
        self.at += length
        self.space()

    def word(self) -> bytes:
        """The word that is here; empty where there is none."""
        self.space()
        found = _NAME.match(self.text, self.at)
        return found[0] if found else b''

    def name(self) -> bytes:
        """The name that must be here."""
        word = self.word()
        if not word or word in _KEYWORDS:
            raise self.fault('unexpected')
        if len(word) > _LONGEST_NAME:
            raise self.fault('name too long')
        return word


def _united(parts: List[Expression]) -> Expression:
    return parts[0] if len(parts) == 1 else Union_(tuple(parts))
