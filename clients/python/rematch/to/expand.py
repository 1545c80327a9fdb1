r"""Query texts with conveniences, which are written out before the program sees them.

- `#` begins a comment, to the end of the line; it is between formulas.
- `i` after the closing slash takes both cases of ASCII letters: `/error/i` is `/[Ee][Rr][Rr][Oo][Rr]/`. After a formula
  it is for the parts in it too, after a part for that part alone.
- `m` after the closing slash makes `^` and `$` the start and the end of a line: the document's edge or a line feed.
- `\b` at an end of a formula is an edge of a word: the document's edge or a byte outside `\w`.
- `part ip = /[\\d.]+/;` names a part of formulas, which is used in those after it as `%{ip}`, a group.
- `~1{TATAAT}` in a formula is a word with at most so many letters other than these, 1 to 9.
- `%{words.txt}` in a formula is one of the words in that file, whose name has a point.

A text that has none of them is passed on byte for byte. The program's language is as it is: what it reads is the text
that `rematch-to check --expanded` shows.
"""
from __future__ import annotations

from bisect import bisect_right
from itertools import product
from typing import Dict, Iterator, List, NamedTuple, Optional, Sequence, Tuple, Union

from ..advice import Advice, advise
from ..faults import QueryError
from ..reader import LONGEST_QUERY, query_fault, read
from ..tree import (Atom, Boundary, Capture, Choice, Concatenation, Definition, Formula, Group, Listed, One, Query, Repeat, Union_, Use, Word,
                    expressions_of, nodes_of, ones_of)
from .cases import both_cases, one_case
from .listed import Lists
from .mismatches import MOST_UNITS, Unit, units_written, with_mismatches

__all__ = ['Expanded', 'captured', 'expanded']


class Expanded:
    """A text as the program reads it, and where each of its bytes was written."""

    def __init__(self, source: bytes) -> None:
        self.source = source
        self.advice: List[Advice] = []  # on its conveniences, at places of the source
        self.length = 0
        self.longest = 4 * LONGEST_QUERY  # bytes of the text
        self.has_document_anchors = False  # whether an anchor is of the document and not of its lines
        self._pieces: List[bytes] = []
        self._starts: List[int] = []  # of each piece, in the text
        self._origins: List[Tuple[int, bool]] = []  # where it was written, and whether byte for byte

    def add(self, piece: bytes, origin: int, *, is_same: bool = True) -> None:
        """Goes on with a piece that was written at a place of the source."""
        if piece:
            self._pieces.append(piece)
            self._starts.append(self.length)
            self._origins.append((origin, is_same))
            self.length += len(piece)
        if self.length > self.longest:
            raise query_fault(f'longer than {LONGEST_QUERY} bytes', self.source)

    @property
    def text(self) -> bytes:
        """What the program reads."""
        return b''.join(self._pieces)

    def advised(self) -> List[Advice]:
        """Advice on the query and on its conveniences, at the places where they were written."""
        return [Advice(self.origin(advice.offset), advice.message) for advice in advise(self.text)] + self.advice

    def origin(self, offset: int) -> int:
        """The place of the source that a place of the text was written at."""
        if not self._starts or offset >= self.length:
            return len(self.source)
        k = bisect_right(self._starts, offset) - 1
        origin, is_same = self._origins[k]
        return origin + (offset - self._starts[k] if is_same else 0)

    def fault(self, found: QueryError) -> QueryError:
        """The fault of the text as one of the source, at the place where it was written."""
        if found.offset is None or self.text == self.source:
            return found
        told = QueryError(f'{found.note.rpartition(" at ")[0]} at {self.origin(found.offset)}', found.status, self.source)
        told.hint = found.hint or told.hint
        return told


def expanded(text: Union[str, bytes], lists: Optional[Lists] = None) -> Expanded:
    r"""The text that the program reads for a text with conveniences; `QueryError` for a text that cannot be read.

    Files of words are read where ``lists`` says from where.

    >>> expanded('/Err[o]/i # a fault').text
    b'/[Ee][Rr][Rr][Oo]/ '
    >>> expanded(r'part ip = /\d+/; /from !a{%{ip}}/').text
    b'/from !a{(\\d+)}/'
    >>> expanded('/^a/m').text
    b'(/^a/ union /\\na/)'
    >>> expanded('/100%{2}/').text
    b'/100%{2}/'
    """
    return _Writer(read(text, conveniences=True), lists=lists).written()


def captured(text: Union[str, bytes], name: bytes, lists: Optional[Lists] = None) -> Optional[Expanded]:
    r"""As `expanded`, with all of each formula captured, of a text without a capture; None where that would mean something else.

    What `m` and `\b` write beside a formula is outside of its capture.

    >>> captured('/^a|b/m', b'x').text
    b'(/^!x{a|b}/ union /\\n!x{a|b}/)'
    >>> captured('/a/ join /b/', b'x')
    """
    query = read(text, conveniences=True)
    if query.lets or query.tests or not all(isinstance(found, (Atom, Union_)) for found in expressions_of(query.body)):
        return None
    return _Writer(query, name, lists).written()


class _Place(NamedTuple):
    """Where a formula is written out: in an atom, perhaps inside of parts that are used at a place of it."""

    is_both_cases: bool
    used_at: Optional[int]  # the place of the use, of what is written in a part
    is_over_characters: bool = False
    is_first: bool = False  # whether it begins where the formula of the atom begins
    is_last: bool = False


class _Writer:
    def __init__(self, query: Query, capture: bytes = b'', lists: Optional[Lists] = None) -> None:
        self.query = query
        self.lists = lists
        self.capture = capture  # the name by which each formula is captured; empty where none is
        self.source = query.text
        self.parts: Dict[bytes, Definition] = {part.name: part for part in query.definitions}
        self.found = Expanded(query.text)
        self.found.longest *= 1 if lists is None else 64

    def written(self) -> Expanded:
        for definition in self.query.definitions:
            self.tell(definition.atom)
        left_out = [(start, end, None) for start, end in self.query.comments]
        left_out += [(definition.start, definition.end, None) for definition in self.query.definitions]
        at = 0
        for start, end, atom in sorted([*left_out, *((atom.start, atom.end, atom) for atom in self.query.atoms)], key=lambda place: place[0]):
            if start >= at:
                self.found.add(self.source[at:start], at)
                if atom is not None:
                    self.atom(atom)
                at = end
        self.found.add(self.source[at:], at)
        self.found.advice.sort(key=lambda advice: advice.offset)
        return self.found

    def tell(self, atom: Atom) -> None:
        """Advice on what is written in a formula."""
        for node in nodes_of(atom.formula):
            if isinstance(node, Concatenation):
                self.found.advice += _plain_mismatches(node)

    # Atoms

    def atom(self, atom: Atom) -> None:
        self.tell(atom)
        is_of_lines = b'm' in atom.flags
        self.found.has_document_anchors = self.found.has_document_anchors or ((atom.is_first or atom.is_last) and not is_of_lines)
        arms = self.arms(atom)
        written = [(begin, arm, end) for arm in arms for begin, end in product(self.begins(atom, arm), self.ends(atom, arm))]
        if not self.capture and len(written) == 1 and set(atom.flags) <= {ord('u')} and not any(map(_is_convenience, nodes_of(atom.formula))):
            self.found.add(self.source[atom.start:atom.end], atom.start)
            return
        for count, (begin, arm, end) in enumerate(written):
            self.found.add(b' union ' if count else b'(' if len(written) > 1 else b'', atom.start, is_same=False)
            self.one_atom(atom, begin, arm, end)
        self.found.add(b')' if len(written) > 1 else b'', atom.end - 1, is_same=False)

    def one_atom(self, atom: Atom, begin: bytes, arm: Formula, end: bytes) -> None:
        """Writes one atom, of a formula and of what is beside it."""
        opening, closing = b'', b''
        if self.capture:
            opening, closing = b'!%s{' % self.capture, b'}'
        elif isinstance(arm, Choice) and not {begin, end} <= {b'', b'^', b'$'}:
            opening, closing = b'(', b')'
        self.found.add(b'/', atom.start)
        self.found.add(begin + opening, atom.start + 1, is_same=False)
        self.formula(arm, _Place(b'i' in atom.flags, None, atom.is_over_characters, is_first=True, is_last=True))
        last = atom.end - len(atom.flags) - 1  # of the closing slash
        self.found.add(closing + end, last - atom.is_last, is_same=False)
        self.found.add(b'/' + b'u' * atom.is_over_characters, last, is_same=False)

    def arms(self, atom: Atom) -> Sequence[Formula]:
        """The formulas that are atoms of their own: the arms, where one has an edge of a word, else the whole."""
        formula = atom.formula
        if isinstance(formula, Choice) and any(self.has_boundary(arm, at) for arm in formula.arms for at in (0, -1)):
            return formula.arms
        return (formula,)

    def begins(self, atom: Atom, formula: Formula) -> Sequence[bytes]:
        """What may be before a formula, of which one is written."""
        if atom.is_first:
            return (b'^', rb'\n') if b'm' in atom.flags else (b'^',)
        return (b'^', rb'[^\w]') if self.has_boundary(formula, 0) else (b'',)

    def ends(self, atom: Atom, formula: Formula) -> Sequence[bytes]:
        """What may be after a formula, of which one is written."""
        if atom.is_last:
            return (b'$', rb'\n') if b'm' in atom.flags else (b'$',)
        return (b'$', rb'[^\w]') if self.has_boundary(formula, -1) else (b'',)

    def has_boundary(self, formula: Formula, at: int) -> bool:
        r"""Whether a formula has a `\b` at its beginning (0) or at its end (-1), also in groups, captures and parts that are there."""
        if isinstance(formula, Concatenation):
            is_one = at == -1 and len(formula.parts) == 1 and isinstance(formula.parts[0], Boundary)  # which is at the beginning
            return bool(formula.parts) and not is_one and self.has_boundary(formula.parts[at], at)
        if isinstance(formula, (Group, Capture)):
            return self.has_boundary(formula.inner, at)
        if isinstance(formula, Use):
            return self.has_boundary(self.parts[formula.name].atom.formula, at)
        return isinstance(formula, Boundary)

    # Formulas

    def formula(self, node: Formula, place: _Place) -> None:
        if isinstance(node, One):
            self.one(node, place)
        elif isinstance(node, Concatenation):
            self.concatenation(node, place)
        elif isinstance(node, Choice):
            for count, arm in enumerate(node.arms):
                self.plain(b'|' * (count > 0), arm.start - 1)
                self.formula(arm, place._replace(is_first=False, is_last=False))
        elif isinstance(node, (Group, Capture)):
            inner = node.start + 1 + (len(node.name) + 1 if isinstance(node, Capture) else 0)
            self.plain(self.source[node.start:inner], node.start)
            self.formula(node.inner, place)
            self.plain(self.source[node.end - 1:node.end], node.end - 1)
        elif isinstance(node, Repeat):
            self.formula(node.inner, place._replace(is_first=False, is_last=False))
            self.plain(self.source[node.inner.end:node.end], node.inner.end)
        elif isinstance(node, Use):
            self.use(node, place)
        elif isinstance(node, Word):
            word = with_mismatches(self.units_of_word(node, place), node.most)
            self.found.add(word, node.start if place.used_at is None else place.used_at, is_same=False)
        elif isinstance(node, Listed):
            self.found.add(self.listed(node, place), node.start if place.used_at is None else place.used_at, is_same=False)
        else:
            self.boundary(node, place)

    def plain(self, text: bytes, start: int) -> None:
        """A text as it is written, which is at a place of the source."""
        self.found.add(text, start)

    def concatenation(self, node: Concatenation, place: _Place) -> None:
        for count, part in enumerate(node.parts):
            self.formula(part, place._replace(is_first=place.is_first and count == 0, is_last=place.is_last and count == len(node.parts) - 1))

    def one(self, node: One, place: _Place) -> None:
        if place.is_both_cases:
            self.tell_one_case(node)
            text = both_cases(node)
            self.found.add(text, node.start, is_same=text == node.text)
        else:
            self.found.add(node.text, node.start)

    def use(self, node: Use, place: _Place) -> None:
        part = self.parts[node.name]
        used_at = node.start if place.used_at is None else place.used_at
        self.found.add(b'(', node.start, is_same=False)
        self.formula(part.atom.formula, place._replace(is_both_cases=place.is_both_cases or b'i' in part.atom.flags, used_at=used_at))
        self.found.add(b')', node.start, is_same=False)

    def listed(self, node: Listed, place: _Place) -> bytes:
        """The words of a file, as a group."""
        if self.lists is None:
            raise query_fault('unexpected', self.source, node.start, 'a list of words is read from a file by rematch-to and rematch-piece, and by '
                                                                     'rematch.expand in Python where folder= says from where')
        formula = self.lists.formula(node, self.source, is_over_characters=place.is_over_characters)
        if place.is_both_cases:
            self.tell_one_case_of_list(node)
            flags = b'u' * place.is_over_characters
            ones = list(ones_of(read(b'/%b/%b' % (formula, flags), is_limited=False).atoms[0].formula))
            for one in reversed(ones):
                formula = formula[:one.start - 1] + both_cases(one) + formula[one.end - 1:]
        return b'(' + formula + b')'

    def boundary(self, node: Boundary, place: _Place) -> None:
        """Writes nothing: what is beside the formula is written at its ends."""
        if not (place.is_first or place.is_last):
            raise query_fault('bad escape', self.source, node.start if place.used_at is None else place.used_at,
                              r'\b is at the ends of a formula or of its arms: /\b!x{..}\b/; elsewhere write [^\w] before or after the capture')

    def tell_one_case(self, node: One) -> None:
        """Tells the first letter past ASCII that has two cases, where both cases are asked for."""
        if not any(advice.message.startswith('i is for') for advice in self.found.advice):
            told = one_case(node)
            self.found.advice += [told] if told else []

    def tell_one_case_of_list(self, node: Listed) -> None:
        assert self.lists is not None
        letters = ''.join(self.lists.words(node.name, self.source, node.start))
        letter = next((letter for letter in letters if not letter.isascii() and letter.lower() != letter.upper()), None)
        if letter is not None:
            self.found.advice.append(Advice(node.start, f'i is for the letters of ASCII, and {letter} in the list stays as it is: put both cases into the list'))

    # Words with mismatches

    def units_of_word(self, word: Word, place: _Place) -> List[Unit]:
        """What each place of a word fits; refuses a word of too many or too few letters."""
        units = self.units(word.units, place)
        length, most, at = len(units), word.most, word.start if place.used_at is None else place.used_at
        if not 0 < most < length:
            raise query_fault('unexpected', self.source, at, f'a word of {length} letters differs in 1 to {length - 1} of them, and in 9 at most'
                              if length > 1 else 'a word with mismatches has two letters or more')
        written = units_written(length, most)
        if written > MOST_UNITS:
            raise query_fault('unexpected', self.source, at, f'{length} letters with {most} mismatches are {written} letters written out, and '
                              f'{MOST_UNITS} is the most: take fewer mismatches, or a shorter word')
        return units

    def units(self, nodes: Sequence[Formula], place: _Place) -> List[Unit]:
        made: List[Unit] = []
        for node in nodes:
            if isinstance(node, One):
                if place.is_both_cases:
                    self.tell_one_case(node)
                made.append(Unit(both_cases(node) if place.is_both_cases else node.text, fits_line_feed=node.fits_line_feed))
            elif isinstance(node, Repeat):
                made += self.units((node.inner,), place) * node.least
            elif isinstance(node, Use):
                made += self.units_of_part(node, place)
            else:
                raise query_fault('unexpected', self.source, node.start, 'the part is no word: ~1{..} contains letters and classes')
            if len(made) > MOST_UNITS:
                raise query_fault('unexpected', self.source, node.start, f'a word has at most {MOST_UNITS} letters')
        return made

    def units_of_part(self, node: Use, place: _Place) -> List[Unit]:
        part = self.parts[node.name]
        formula = part.atom.formula
        is_word = isinstance(formula, Concatenation) and all(
            isinstance(inner, (One, Use)) or (isinstance(inner, Repeat) and inner.least == inner.most and isinstance(inner.inner, (One, Use)))
            for inner in formula.parts)
        if not is_word:
            raise query_fault('unexpected', self.source, node.start, 'the part is no word: ~1{..} contains letters and classes')
        return self.units(formula.parts, place._replace(is_both_cases=place.is_both_cases or b'i' in part.atom.flags))


def _is_convenience(node: Formula) -> bool:
    return isinstance(node, (Use, Listed, Word, Boundary))


def _plain_mismatches(node: Concatenation) -> Iterator[Advice]:
    """Advice on `~1{911}`, which is a repeat of the 1 and no word with mismatches."""
    for sign, repeat in zip(node.parts, node.parts[1:]):
        if isinstance(sign, One) and sign.text == b'~' and isinstance(repeat, Repeat) and isinstance(repeat.inner, One):
            digit, times = repeat.inner.text, repeat.least
            if digit.isdigit() and repeat.most == times and repeat.inner.end < repeat.end:
                shown = f'~{digit.decode()}{{{times}}}'
                yield Advice(sign.start, f'{shown} is a ~ and {times} times the character {digit.decode()}: begin a word of digits with a '
                                         f'class, as ~{digit.decode()}{{[{str(times)[0]}]{str(times)[1:]}}}')
