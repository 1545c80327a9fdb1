"""How many line feeds, or bytes, what a row's fits cover together can have.

A document may be cut at line ends and its pieces searched apart where there is such a bound. There is none with an anchor,
with a repeat over line feeds that has no end, and with a join whose parts share no variable.
"""
from __future__ import annotations

from typing import Callable, Dict, FrozenSet, List, NamedTuple, Optional

from .reader import read
from .tree import Atom, Choice, Concatenation, Expression, Formula, Minus, Name, One, Project, Query, Repeat, Union_, captures_of, expressions_of

__all__ = ['NoReach', 'Ties', 'do_fits_touch', 'length_of_printed', 'reach_of_printed', 'ties_of_printed']

_NO_END = float('inf')
_NO_END_OF_LINES = 'a repeat over line feeds has no end, as of [^"]* or (.|\\n)*'


class NoReach(ValueError):
    """The rows of the query may reach over any number of lines; the text says why."""


class _Sized(NamedTuple):
    """The most line feeds or bytes that the fits of a row of an expression cover together, and its variables."""

    most: float
    names: FrozenSet[bytes]


def reach_of_printed(printed: bytes) -> int:
    r"""The most line feeds in what the fits of a row cover together; `NoReach` where there is no such number.

    >>> reach_of_printed(rb'/!x{a}(.*\n){0,3}b/')
    3
    >>> reach_of_printed(rb'/^!x{a}/')
    Traceback (most recent call last):
      ...
    rematch.bounds.NoReach: an anchor ties the formula /^!x{a}/ to an end of the document
    """
    return _Reach(read(printed, is_limited=False), lambda one: float(one.fits_line_feed)).of_all(_NO_END_OF_LINES)


class Ties(NamedTuple):
    """What ties the rows of a query to the text around them."""

    lines: int  # the most line feeds in what the fits of a row cover together
    is_to_start: bool  # whether a formula is tied to the start of the document
    is_to_end: bool
    has_minus: bool  # whether more text may take a row away


def ties_of_printed(printed: bytes) -> Ties:
    r"""What ties the rows of a query, of which the formulas may have anchors; `NoReach` where there is no most number of line feeds.

    >>> ties_of_printed(rb'/^!x{a}\n/ minus /!x{a}b/')
    Ties(lines=1, is_to_start=True, is_to_end=False, has_minus=True)
    """
    query = read(printed, is_limited=False)
    expressions = [part for whole in (query.body, *(let.expression for let in query.lets)) for part in expressions_of(whole)]
    return Ties(_Reach(query, lambda one: float(one.fits_line_feed), has_anchors=True).of_all(_NO_END_OF_LINES), any(atom.is_first for atom in query.atoms),
                any(atom.is_last for atom in query.atoms), any(isinstance(part, Minus) for part in expressions))


def length_of_printed(printed: bytes) -> int:
    r"""The most bytes that the fits of a row cover together; `NoReach` where there is no such number.

    >>> length_of_printed(rb'/!x{a}b{0,3}(cd|e)/ join /!x{[a-z]}?f/')
    8
    >>> length_of_printed(rb'/!x{a*}/')
    Traceback (most recent call last):
      ...
    rematch.bounds.NoReach: a repeat has no end
    """
    return _Reach(read(printed, is_limited=False), lambda one: 1.0).of_all('a repeat has no end')


def do_fits_touch(query: Query) -> bool:
    """Whether the fits of a row touch one another, since the parts of each join share variables; anchors are not looked at.

    >>> do_fits_touch(read('/^!x{a*}/ join /!x{.}!y{b}/')), do_fits_touch(read('/!x{a}/ join /!y{b}/'))
    (True, False)
    """
    try:
        _Reach(query, lambda one: 0.0, has_anchors=True).of_all('')
    except NoReach:
        return False
    return True


class _Reach:
    """The measures of a query in the program's own form, whose formulas are over bytes."""

    def __init__(self, query: Query, weight: Callable[[One], float], *, has_anchors: bool = False) -> None:
        self.query = query
        self.weight = weight  # what a sign or class counts
        self.has_anchors = has_anchors  # whether a formula may have anchors
        self.lets: Dict[bytes, _Sized] = {}

    def of_all(self, no_end: str) -> int:
        for let in self.query.lets:
            self.lets[let.name] = self.of(let.expression)
        most = self.of(self.query.body).most  # tests of spans reach nowhere
        if most == _NO_END:
            raise NoReach(no_end)
        return int(most)

    def of(self, expression: Expression) -> _Sized:
        if isinstance(expression, Atom):
            return self.of_atom(expression)
        if isinstance(expression, Name):
            return self.lets[expression.name]
        if isinstance(expression, Project):
            found = self.of(expression.inner)
            return found._replace(names=found.names & set(expression.names))
        if isinstance(expression, Minus):
            left, right = self.of(expression.left), self.of(expression.right)
            return _Sized(max(left.most, right.most), left.names)
        parts = [self.of(part) for part in expression.parts]
        if isinstance(expression, Union_):
            return _Sized(max(part.most for part in parts), frozenset().union(*(part.names for part in parts)))
        return _joined(parts)

    def of_atom(self, atom: Atom) -> _Sized:
        if (atom.is_first or atom.is_last) and not self.has_anchors:
            text = self.query.text[atom.start:atom.end]
            shown = text if len(text) < 60 else text[:56] + b'../'
            raise NoReach(f'an anchor ties the formula {shown.decode("ascii", "backslashreplace")} to an end of the document')
        return _Sized(self.of_formula(atom.formula), frozenset(capture.name for capture in captures_of(atom.formula)))

    def of_formula(self, formula: Formula) -> float:
        if isinstance(formula, One):
            return self.weight(formula)
        if isinstance(formula, Concatenation):
            return sum(self.of_formula(part) for part in formula.parts)
        if isinstance(formula, Choice):
            return max(self.of_formula(arm) for arm in formula.arms)
        if isinstance(formula, Repeat):
            most, times = self.of_formula(formula.inner), _NO_END if formula.most is None else formula.most
            return most * times if most and times else 0.0
        return self.of_formula(formula.inner)  # type: ignore[union-attr]


def _joined(parts: List[_Sized]) -> _Sized:
    """The measure of a join: a variable that two parts share is in each of their fits, so that these touch."""
    found, waiting = parts[0], parts[1:]
    while waiting:
        part: Optional[_Sized] = next((part for part in waiting if part.names & found.names), None)
        if part is None:
            raise NoReach('parts of a join share no variable, so they may be any number of lines apart')
        waiting.remove(part)
        found = _Sized(found.most + part.most, found.names | part.names)
    return found
