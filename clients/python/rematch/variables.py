"""The variables of a query that can be read, and what the program refuses for their sake."""
from __future__ import annotations

from typing import Dict, FrozenSet, Iterable, List, NamedTuple, Set

from .reader import query_fault
from .tree import (Atom, Capture, Choice, Concatenation, Expression, Formula, Group, Minus, Name, Project, Query, Repeat, Union_, captures_of,
                   expressions_of)

__all__ = ['Variables', 'captured', 'check', 'sure', 'variables_of']

_MOST = 32
_TESTS = (b'luhn', b'upper')


class Variables(NamedTuple):
    """The variables of an expression, and those that each of its rows has."""

    all: FrozenSet[bytes]
    sure: FrozenSet[bytes]


class _Refused(Exception):
    """The query is refused for this."""


def check(query: Query) -> FrozenSet[bytes]:
    """The variables of the result; `QueryError` with the program's note for a query that it refuses for its variables or tests.

    >>> from rematch.reader import read
    >>> sorted(check(read('/!x{a}!y{b}/')))
    [b'x', b'y']
    >>> check(read('/(!x{a})*/'))
    Traceback (most recent call last):
      ...
    rematch.faults.QueryError: query: variable x under a repeat
    hint: take the capture out of the repeat: each piece is a row of its own
    """
    expressions = [*(let.expression for let in query.lets), query.body]
    kept = [set(found.names) for one in expressions for found in expressions_of(one) if isinstance(found, Project)]
    named = {capture.name for atom in query.atoms for capture in captures_of(atom.formula)}
    if any(len(names) > _MOST for names in [*kept, named]):
        raise query_fault(f'more than {_MOST} variables', query.text)
    of_lets: Dict[bytes, Variables] = {}
    try:
        for let in query.lets:
            of_lets[let.name] = variables_of(let.expression, of_lets)
        found = variables_of(query.body, of_lets).all
        for test in query.tests:
            if test.variable not in found:
                raise _Refused(f'no variable {test.variable.decode()} to test')
    except _Refused as refusal:
        raise query_fault(str(refusal), query.text) from None
    for test in query.tests:
        if test.name not in _TESTS:
            raise query_fault('unknown test', query.text, test.start)
    return found


def variables_of(expression: Expression, of_lets: Dict[bytes, Variables]) -> Variables:
    """The variables of an expression, given those of the lets before it."""
    if isinstance(expression, Atom):
        return Variables(captured(expression.formula), sure(expression.formula))
    if isinstance(expression, Name):
        return of_lets[expression.name]
    if isinstance(expression, Project):
        inner, names = variables_of(expression.inner, of_lets), frozenset(expression.names)
        if names - inner.all:
            raise _Refused(f'no variable {min(names - inner.all).decode()} to keep')
        return Variables(names, inner.sure & names)
    if isinstance(expression, Minus):
        left, right = variables_of(expression.left, of_lets), variables_of(expression.right, of_lets)
        if left.all != right.all:
            raise _Refused(f'variable {min(left.all ^ right.all).decode()} not on both sides of minus')
        return left
    parts = [variables_of(part, of_lets) for part in expression.parts]
    every = _together(part.all for part in parts)
    if isinstance(expression, Union_):
        return Variables(every, parts[0].sure.intersection(*(part.sure for part in parts)))
    _refuse_unsure(parts)
    return Variables(every, _together(part.sure for part in parts))


def _refuse_unsure(parts: List[Variables]) -> None:
    for count, part in enumerate(parts):
        clashing = {name for earlier in parts[:count] for name in part.all & earlier.all
                    if name not in part.sure or name not in earlier.sure}
        if clashing:
            raise _Refused(f'variable {min(clashing).decode()} not sure on both sides of join')


def _together(parts: Iterable[FrozenSet[bytes]]) -> FrozenSet[bytes]:
    return frozenset().union(*parts)


def captured(formula: Formula) -> FrozenSet[bytes]:
    """The variables of a formula; it is refused where a way through it takes one twice, and where one is under a repeat."""
    if isinstance(formula, Capture):
        inner = captured(formula.inner)
        if formula.name in inner:
            raise _Refused(f'variable {formula.name.decode()} twice')
        return inner | {formula.name}
    if isinstance(formula, Group):
        return captured(formula.inner)
    if isinstance(formula, Repeat):
        inner = captured(formula.inner)
        if inner and formula.most != 1:
            raise _Refused(f'variable {min(inner).decode()} under a repeat')
        return inner
    if isinstance(formula, Choice):
        return _together([captured(arm) for arm in formula.arms])
    found: Set[bytes] = set()
    twice: Set[bytes] = set()
    for names in [captured(part) for part in formula.parts] if isinstance(formula, Concatenation) else ():
        twice |= found & names
        found |= names
    if twice:
        raise _Refused(f'variable {min(twice).decode()} twice')
    return frozenset(found)


def sure(formula: Formula) -> FrozenSet[bytes]:
    """The variables that are in each fit of a formula."""
    if isinstance(formula, Capture):
        return sure(formula.inner) | {formula.name}
    if isinstance(formula, Group):
        return sure(formula.inner)
    if isinstance(formula, Repeat):
        return sure(formula.inner) if (formula.least, formula.most) == (1, 1) else frozenset()
    if isinstance(formula, Concatenation):
        return _together(sure(part) for part in formula.parts)
    if isinstance(formula, Choice):
        first, *others = [sure(arm) for arm in formula.arms]
        return first.intersection(*others)
    return frozenset()
