"""What is accepted and is yet seldom meant. It is told beside an answer, and never in its place."""
from __future__ import annotations

from typing import Callable, Dict, List, NamedTuple, Optional, Sequence, Set, Union

from .reader import read
from .sets import WORD
from .tree import (Atom, Capture, Choice, Concatenation, Expression, Formula, Group, Join, Minus, Name, One, Query, Repeat, captures_of,
                   expressions_of, nodes_of, ones_of)
from .variables import Variables, variables_of

__all__ = ['Advice', 'advise', 'is_of_ends', 'is_of_rows']

_NO_CAPTURE = 'there is no capture, so the answer is one row () or none: put !name{..} around what is wanted'


class Advice(NamedTuple):
    """A piece of advice: where in the query's text, in bytes from 0, and what to look at."""

    offset: int
    message: str


def advise(text: Union[str, bytes]) -> List[Advice]:
    r"""What a reader of this query may not expect of it; the text is one that the program accepts.

    It looks at the text alone, and runs nothing. An empty list says nothing of what the query means.

    >>> for advice in advise(r'/\<the\>/'):
    ...     print(advice.offset, advice.message)
    0 there is no capture, so the answer is one row () or none: put !name{..} around what is wanted
    1 \< and \> are the plain signs: a word is made whole by [^\w] before and after its capture
    >>> advise(r'/from !address{[\d.]+} port/')
    []
    """
    query = read(text, is_limited=False)
    expressions = [found for whole in (*(let.expression for let in query.lets), query.body) for found in expressions_of(whole)]
    found = [] if any(True for atom in query.atoms for _ in captures_of(atom.formula)) else [Advice(0, _NO_CAPTURE)]
    # What another atom says of a capture's surroundings is not looked at, so nothing is said of them then.
    is_alone = not any(isinstance(one, (Join, Minus)) for one in expressions)
    rules = [rule for rule in _RULES if is_alone or rule not in _OF_ONE_ATOM]
    found += _lets(query, {one.name for one in expressions if isinstance(one, Name)})
    found += _joins_apart(query)
    for atom in query.atoms:
        for rule in rules:
            told = rule(atom)
            if told is not None and told.message not in {advice.message for advice in found}:
                found.append(told)
    return found


def is_of_ends(advice: Advice) -> bool:
    """Whether it speaks of a repeat whose end is open, of which the rows themselves say more."""
    return ' is a row too: ' in advice.message


def is_of_rows(advice: Advice) -> bool:
    """Whether it speaks of how many rows there are, and not of whether there is one.

    >>> [is_of_rows(advice) for advice in advise(r'/!x{\\w+}[^ ]+ /')]
    [True, False]
    """
    return advice.message == _NO_CAPTURE or is_of_ends(advice)


def _lets(query: Query, used: Set[bytes]) -> List[Advice]:
    """Of each let that is used nowhere: whether its name is all that a capture has, where it is so many letters."""
    found: List[Advice] = []
    captures = [capture for atom in query.atoms for capture in captures_of(atom.formula)]
    for let in query.lets:
        if let.name in used:
            continue
        name = let.name.decode()
        within = next((capture for capture in captures if query.text[capture.inner.start:capture.inner.end] == let.name), None)
        if within is None:
            found.append(Advice(let.start, f'{name} is used nowhere'))
        else:
            found.append(Advice(within.inner.start, f'in a formula {name} is these letters: a let names a query, which is joined with another, and not a '
                                                    'part of a formula'))
    return found


def _joins_apart(query: Query) -> List[Advice]:
    """Of each join: the first part that has variables and is tied by none to the parts before it, not even through another part."""
    found: List[Advice] = []
    of_lets: Dict[bytes, Variables] = {}
    for let in query.lets:
        of_lets[let.name] = variables_of(let.expression, of_lets)
    for whole in (*(let.expression for let in query.lets), query.body):
        for join in expressions_of(whole):
            named = [(part, set(variables_of(part, of_lets).all)) for part in (join.parts if isinstance(join, Join) else ())]
            tied: Set[bytes] = set()
            for _, names in named:  # each turn ties at least one part more, or none
                tied = tied or names
                tied = tied.union(*(others for _, others in named if others & tied))
            apart = next(((part, names) for part, names in named if names - tied), None)
            if apart is not None:
                part, names = apart
                found.append(Advice(_start(part), f'{min(names).decode()} is joined with {min(tied).decode()}, and they share no variable: there is a '
                                    'row for each pair, and a cell for each two that are open at one place'))
    return found


def _start(expression: Expression) -> int:
    """Where the first formula or name of an expression is."""
    return next(one.start for one in expressions_of(expression) if isinstance(one, (Atom, Name)))


def _plain_words(atom: Atom) -> Optional[Advice]:
    for one in ones_of(atom.formula):
        if one.text in (rb'\<', rb'\>'):
            return Advice(one.start, r'\< and \> are the plain signs: a word is made whole by [^\w] before and after its capture')
    return None


def _round_capture(atom: Atom) -> Optional[Advice]:
    """`!user(..)`, which is the letters `!user` and a group."""
    for node in nodes_of(atom.formula):
        parts = node.parts if isinstance(node, Concatenation) else ()
        for k, part in enumerate(parts):
            end = k + 1
            while isinstance(part, One) and part.text == b'!' and end < len(parts) and _is_of_name(parts[end]):
                end += 1
            if k + 1 < end < len(parts) and isinstance(parts[end], Group):
                name = b''.join(one.text for one in parts[k + 1:end] if isinstance(one, One)).decode()
                return Advice(part.start, f'!{name}(..) is these letters and a group: write a capture with braces, !{name}{{..}}')
    return None


def _is_of_name(part: Formula) -> bool:
    return isinstance(part, One) and part.kind == 'literal' and any(low <= part.number <= high for low, high in WORD)


def _named_class(atom: Atom) -> Optional[Advice]:
    for one in ones_of(atom.formula):
        letters = [chr(item.low) if item.low == item.high >= 0 else '' for item in one.items] if one.kind == 'class' else []
        if len(letters) > 2 and letters[0] == letters[-1] == ':' and all(letter.isalpha() for letter in letters[1:-1]):
            return Advice(one.start, r'[:name:] is the set of these letters: write \d, [A-Za-z], or \p{..} with the flag u')
    return None


class _Edge(NamedTuple):
    """What is first or last in a formula, and whether a capture begins or ends there too."""

    part: Optional[Formula]
    is_captured: bool


def _edge(formula: Formula, at: int) -> _Edge:
    """What is first (0) or last (-1) in a formula, in the groups, captures and arms that are there."""
    is_captured = False
    while True:
        if isinstance(formula, Concatenation):
            if not formula.parts:
                return _Edge(None, is_captured)
            formula = formula.parts[at]
        elif isinstance(formula, Choice):
            formula = formula.arms[at]
        elif isinstance(formula, (Group, Capture)):
            is_captured = is_captured or isinstance(formula, Capture)
            formula = formula.inner
        else:
            return _Edge(formula, is_captured)


def _is_open_run(part: Optional[Formula]) -> bool:
    """Whether it is a sign or a class that may be there more than once."""
    return isinstance(part, Repeat) and isinstance(part.inner, One) and part.is_open


def _open_start(atom: Atom) -> Optional[Advice]:
    edge = _edge(atom.formula, 0)
    if atom.is_first or edge.part is None or not edge.is_captured or not _is_open_run(edge.part):
        return None
    return Advice(edge.part.start, 'a repeat is first in the formula with nothing before it, so each later beginning is a row too: say what is before it')


def _open_end(atom: Atom) -> Optional[Advice]:
    edge = _edge(atom.formula, -1)
    if atom.is_last or edge.part is None or not edge.is_captured or not _is_open_run(edge.part):
        return None
    return Advice(edge.part.start, 'a repeat is last in the formula with nothing after it, so each earlier end is a row too: say what is after it')


_BETWEEN_FIELDS = frozenset(b' ,;:=&\t|')  # a class that leaves out ends of sentences is of texts
_OF_SENTENCES = frozenset(b'.!?')


def _line_feeds(atom: Atom) -> Optional[Advice]:
    for node in nodes_of(atom.formula):
        is_open = _is_open_run(node)
        one = node.inner if isinstance(node, Repeat) else node
        if not isinstance(one, One) or not one.is_negated or not one.fits_line_feed:
            continue
        signs = {item.low for item in one.items if item.low == item.high}
        if signs and len(signs) == len(one.items) and all(65 <= sign <= 90 for sign in signs):
            return Advice(one.start, r'this class has the line feed too, so a place may go on over lines or records: add \n to it')
        is_of_texts = signs & _OF_SENTENCES or any(item.name in (b'w', b'd') for item in one.items)
        if is_open and signs & _BETWEEN_FIELDS and not is_of_texts:
            return Advice(one.start, r'this class has the line feed too, so a field may go on over lines: add \n to it')
    return None


def _quotes(atom: Atom) -> Optional[Advice]:
    for node in nodes_of(atom.formula):
        parts = node.parts if isinstance(node, Concatenation) else ()
        for first, capture, last in zip(parts, parts[1:], parts[2:]):
            if isinstance(first, One) and isinstance(capture, Capture) and isinstance(last, One) and first.text == last.text in (b'"', b"'", b'`'):
                run = _only(capture.inner)
                if isinstance(run, Repeat) and run.most is None and isinstance(run.inner, One) and run.inner.is_negated \
                        and first.number in {item.low for item in run.inner.items}:
                    return Advice(first.start, 'what is between two quoted parts is between quotes too: begin at the start of the line to tell them apart')
    return None


def _only(formula: Formula) -> Optional[Formula]:
    """The one part of a formula."""
    return formula.parts[0] if isinstance(formula, Concatenation) and len(formula.parts) == 1 else None


def _anchored_arms(atom: Atom) -> Optional[Advice]:
    """An anchor of a formula with arms is of all of them, and not of the nearest alone as in other tools."""
    if not isinstance(atom.formula, Choice) or not (atom.is_first or atom.is_last):
        return None
    shown, example = ('^', '/^a/ union /b/') if atom.is_first else ('$', '/a/ union /b$/')
    place = atom.start + 1 if atom.is_first else atom.end - len(atom.flags) - 2
    return Advice(place, f'{shown} is of the whole formula, and so of each arm: for one arm alone write a union, {example}')


_RULES: Sequence[Callable[[Atom], Optional[Advice]]] = (
    _plain_words, _round_capture, _named_class, _anchored_arms, _open_start, _open_end, _line_feeds, _quotes)
_OF_ONE_ATOM = (_open_start, _open_end, _quotes)
