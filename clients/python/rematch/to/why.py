"""``rematch-to why``: how far each formula of a query fits a document, step by step, and where it stops first."""
from __future__ import annotations

from time import monotonic
from typing import Any, Dict, Iterator, List, NamedTuple, Optional, Tuple

from ..faults import OutOfMemory, SizeError
from ..query import Query
from ..reader import read
from ..tree import Atom, Capture, Choice, Concatenation, Expression, Formula, Group, Join, Minus, Name, One, Project, Union_, captures_of
from ..tree import Query as Tree
from .tables import shown_text

__all__ = ['Reason', 'Step', 'Stop', 'reasons', 'told_why']

_MOST_STEPS = 20
_BEFORE, _BEHIND = 30, 12  # bytes that are shown around a stop
_FIT = 1 << 16  # bytes of a fit that are looked at


class Stop(NamedTuple):
    """Where a formula stops: how many places do not fit the step, the line of the first of them, and the text around."""

    places: int
    line: int
    before: str
    behind: str


class Step(NamedTuple):
    """A step of a formula: its text, at how many places all up to it fits, and where it stops; None where it is not known or nowhere."""

    text: str
    places: int
    stop: Optional[Stop]


class Reason(NamedTuple):
    """A formula, or an arm of one: its place in the query, whether its rows are taken away, and its steps up to the first without a place."""

    offset: int
    text: str
    is_taken_away: bool
    steps: List[Step]


# -- Steps of a formula

class _Piece(NamedTuple):
    """A part of a formula: as it is written, and without its captures."""

    shown: bytes
    text: bytes
    is_plain: bool  # one letter by itself, or both cases of one
    parts: Tuple[bytes, ...] = ()  # of pieces together, the text of each


def _without_captures(text: bytes, formula: Formula) -> bytes:
    """The text of a formula, with groups in place of its captures."""
    start, end = _place(formula)
    edits: Dict[int, Tuple[int, bytes]] = {}
    for capture in captures_of(formula):
        edits[capture.start] = (len(capture.name) + 2, b'(')
        edits[capture.end - 1] = (1, b')')
    pieces, at = [], start
    for place in sorted(edits):
        length, new = edits[place]
        pieces += [text[at:place], new]
        at = place + length
    return b''.join(pieces) + text[at:end]


def _is_letter(one: One) -> bool:
    """Whether it fits one letter, or both cases of one."""
    if one.kind != 'class' or one.is_negated:
        return one.kind in ('literal', 'escape')
    letters = [chr(item.low) for item in one.items if item.low == item.high >= 0]
    return len(letters) == len(one.items) == 2 and letters[0].lower() == letters[1].lower()


def _place(formula: Formula) -> Tuple[int, int]:
    return formula.start, formula.end


def _pieces(text: bytes, formula: Formula) -> Iterator[_Piece]:
    """The parts that follow each other; those within captures and groups too."""
    if isinstance(formula, Concatenation):
        for part in formula.parts:
            yield from _pieces(text, part)
    elif isinstance(formula, (Capture, Group)) and not isinstance(formula.inner, Choice):
        yield from _within(text, formula)
    else:
        start, end = _place(formula)
        without = _without_captures(text, formula)
        yield _Piece(text[start:end], without, isinstance(formula, One) and _is_letter(formula))


def _within(text: bytes, formula: Any) -> Iterator[_Piece]:
    """The parts within a capture or a group; what opens and closes it is shown with the first and the last."""
    found = list(_pieces(text, formula.inner))
    start, end = _place(formula.inner)
    if not found:
        yield _Piece(text[formula.start:formula.end], b'()', False)
        return
    opened, closed = text[formula.start:start], text[end:formula.end]
    if isinstance(formula, Group):
        opened = closed = b''
    found[0] = found[0]._replace(shown=opened + found[0].shown)
    found[-1] = found[-1]._replace(shown=found[-1].shown + closed)
    yield from found


def _together(pieces: List[_Piece], most: int) -> List[_Piece]:
    """The pieces as steps: plain letters beside each other are one step, and so are as many as it takes to have at most so many."""
    steps: List[_Piece] = []
    for piece in pieces:
        if steps and piece.is_plain and steps[-1].is_plain and not _ends_capture(steps[-1]) and not piece.shown.startswith(b'!'):
            steps[-1] = _joined(steps[-1], piece)
        else:
            steps.append(piece)
    while len(steps) > most:
        steps[::2] = [_joined(one, other) for one, other in zip(steps[::2], steps[1::2])] + steps[-1:] * (len(steps) % 2)
        del steps[1::2]
    return steps


def _ends_capture(piece: _Piece) -> bool:
    return len(piece.shown) > len(piece.text) and piece.shown.endswith(b'}')


def _joined(one: _Piece, other: _Piece) -> _Piece:
    parts = tuple(part for piece in (one, other) for part in piece.parts or (piece.text,))
    return _Piece(one.shown + other.shown, one.text + other.text, one.is_plain and other.is_plain, parts)


# -- What each step fits

class _Search:
    """The places of a document at which beginnings of a formula fit."""

    def __init__(self, atom: Atom, data: bytes) -> None:
        self.flags = 'u' if atom.is_over_characters else ''
        self.first = '^' if atom.is_first else ''
        self.data = data

    def query(self, text: bytes) -> str:
        return f'/{self.first}!s{{}}{text.decode("utf-8", "surrogateescape")}/{self.flags}'

    def places(self, text: bytes) -> int:
        """At how many places it fits."""
        return Query(self.query(text)).count(self.data)

    def stop(self, before: bytes, text: bytes, places: int) -> Optional[Stop]:
        """The first place at which a beginning fits and not the next step; None where that takes too much."""
        try:
            lost = next(Query(f'{self.query(before)} minus {self.query(text)}').rows(self.data, limit=1), None)
            if lost is None:
                return None
            start = lost[0]
            fit = self.data[start:start + _FIT]
            formula = before.decode('utf-8', 'surrogateescape')
            ends = Query(f'/^{formula}!e{{}}/{self.flags}').rows(fit) if not self.first or start == 0 else iter(())
            end = start + max((row[0] for row in ends), default=0)
        except (SizeError, OutOfMemory):
            return None
        line = self.data.count(b'\n', 0, start) + 1
        first = max(self.data.rfind(b'\n', 0, start) + 1, end - _BEFORE)
        return Stop(places, line, shown_text(self.data[first:end]), shown_text(self.data[end:end + _BEHIND]))


    def stop_within(self, parts: Tuple[bytes, ...]) -> Optional[Stop]:
        """Where a first step stops that fits nowhere: behind as many of its parts as fit somewhere."""
        fits, fails = 0, len(parts)
        while fails - fits > 1:
            middle = (fits + fails) // 2
            if self.places(b''.join(parts[:middle])):
                fits = middle
            else:
                fails = middle
        before = b''.join(parts[:fits])
        return self.stop(before, before + parts[fits], self.places(before)) if fits else None


class _Late(Exception):
    """The time is up."""


def _steps(atom: Atom, pieces: List[_Piece], data: bytes, latest: Optional[float]) -> List[Step]:
    search = _Search(atom, data)
    found: List[Step] = []
    text, before = b'', None
    for piece in _together(pieces, _MOST_STEPS - atom.is_last) + [_Piece(b'$', b'$', False)] * atom.is_last:
        if latest is not None and monotonic() > latest:
            raise _Late
        text += piece.text
        places = search.places(text)
        stop = None
        if before is None and not places:
            stop = search.stop_within(piece.parts or (piece.text,))
        elif before is not None and places < found[-1].places:
            stop = search.stop(before, text, found[-1].places - places)
        found.append(Step(shown_text(piece.shown), places, stop))
        before = text
        if places == 0:
            break
    return found


# -- The formulas of a query

def _atoms(tree: Tree, expression: Expression, is_taken_away: bool = False) -> Iterator[Tuple[Atom, bool]]:
    """The atoms of an expression, through the names of lets, and whether their rows are taken away."""
    if isinstance(expression, Atom):
        yield expression, is_taken_away
    elif isinstance(expression, Name):
        lets = {let.name: let.expression for let in tree.lets}
        yield from _atoms(tree, lets[expression.name], is_taken_away)
    elif isinstance(expression, Project):
        yield from _atoms(tree, expression.inner, is_taken_away)
    elif isinstance(expression, Minus):
        yield from _atoms(tree, expression.left, is_taken_away)
        yield from _atoms(tree, expression.right, not is_taken_away)
    else:
        assert isinstance(expression, (Union_, Join))
        for part in expression.parts:
            yield from _atoms(tree, part, is_taken_away)


def reasons(text: bytes, data: bytes, latest: Optional[float] = None) -> Iterator[Reason]:
    r"""For each formula of a query, and each arm of one, how far it fits a document. Nothing is begun once the clock is past ``latest``.

    >>> for reason in reasons(rb'/for !user{\w+} from/', b'for ada from\nfor o.meyer from\n'):
    ...     for step in reason.steps:
    ...         print(step)
    Step(text='for ', places=2, stop=None)
    Step(text='!user{\\w+}', places=2, stop=None)
    Step(text=' from', places=1, stop=Stop(places=1, line=2, before='for o', behind='.meyer from\n'))
    """
    tree = read(text)
    seen = set()
    for atom, is_taken_away in _atoms(tree, tree.body):
        if atom.start in seen:
            continue
        seen.add(atom.start)
        arms = atom.formula.arms if isinstance(atom.formula, Choice) else (atom.formula,)
        for arm in arms:
            start, end = (atom.start, atom.end) if len(arms) == 1 else _place(arm)
            pieces = list(_pieces(text, arm)) or [_Piece(b'', b'', False)]
            yield Reason(start, shown_text(text[start:end]), is_taken_away, _steps(atom, pieces, data, latest))


def told_why(query: Query, data: bytes, seconds: Optional[float] = None) -> Iterator[str]:
    """The lines that tell the reasons of a query, and how many rows it has; with tests also how many there are without them."""
    found: List[Reason] = []
    try:
        for reason in reasons(query.text, data, None if seconds is None else monotonic() + seconds):
            found.append(reason)
    except _Late:
        yield f'it takes more than {seconds:g} seconds: rematch-to why has all'
        return
    for reason in found:
        if len(found) > 1:
            yield f'at {reason.offset}: {_on_a_line(reason.text)}' + (', whose rows are taken away' if reason.is_taken_away else '')
        for step in reason.steps:
            line = f'{step.places:>11,}  {_on_a_line(step.text)}'
            if step.stop is not None:
                line += f'    {step.stop.places:,} stop here, the first in line {step.stop.line:,}: {step.stop.before!r}>>>{step.stop.behind!r}'
            yield line
    tests = read(query.text).tests
    if tests:
        untested = query.text[:query.text.rindex(b'where', 0, tests[0].start)]
        yield f'{Query(untested).count(data):>11,}  rows before the tests'
    yield f'{query.count(data):>11,}  rows'


def _on_a_line(text: str) -> str:
    return text.replace('\n', r'\n')
