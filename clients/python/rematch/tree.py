"""The tree of a query: what the reader reads a text into. Each part knows where it is in the text, in bytes from 0."""
from __future__ import annotations

from typing import Callable, Iterator, NamedTuple, Optional, Tuple, Union

from . import sets
from .sets import Ranges

__all__ = ['Atom', 'Boundary', 'Capture', 'Choice', 'Concatenation', 'Definition', 'Expression', 'Formula', 'Group', 'Item', 'Join', 'Let', 'Listed',
           'Minus', 'Name', 'One', 'Project', 'Query', 'Repeat', 'Test', 'Union_', 'Use', 'Word', 'captures_of', 'expressions_of', 'nodes_of', 'ones_of']


# -- Formulas

class Item(NamedTuple):
    r"""A part of a class: a byte or character, or a range of them, or a set that has a name, as `w` of `\w` or `Lu` of `\p{Lu}`."""

    text: bytes
    start: int
    low: int  # -1 where the set has a name
    high: int
    name: bytes

    @property
    def is_property(self) -> bool:
        """Whether the set is that of a property, of which only the program has the members."""
        return bool(self.name) and self.name not in sets.NAMED

    def ranges(self, properties: Optional[Callable[[bytes], Ranges]] = None) -> Ranges:
        """The members; without ``properties`` those of a property are left out."""
        if not self.name:
            return ((self.low, self.high),)
        if not self.is_property:
            return sets.NAMED[self.name]
        return properties(self.name) if properties else ()


class One(NamedTuple):
    """What fits one byte or character, or the bytes of one character: kind is `literal`, `escape`, `class` or `dot`."""

    kind: str
    text: bytes
    start: int
    items: Tuple[Item, ...]  # of a character past ASCII in a formula over bytes, an item for each of its bytes
    is_negated: bool
    is_over_characters: bool

    @property
    def end(self) -> int:
        """Where it ends."""
        return self.start + len(self.text)

    @property
    def number(self) -> int:
        """The number of the one byte or character that it fits; -1 where it is not one by its form."""
        is_single = self.kind in ('literal', 'escape') and len(self.items) == 1 and self.items[0].low == self.items[0].high
        return self.items[0].low if is_single else -1

    @property
    def fits_line_feed(self) -> bool:
        """Whether it fits a line feed."""
        has = any(item.name in (b'C', b'Cc') if item.is_property else any(low <= 10 <= high for low, high in item.ranges()) for item in self.items)
        return has != self.is_negated and self.kind != 'dot'

    def ranges(self, properties: Optional[Callable[[bytes], Ranges]] = None) -> Ranges:
        """The bytes or characters that it fits; of a character past ASCII in a formula over bytes all of its bytes."""
        whole = sets.CHARACTERS if self.is_over_characters else sets.BYTES
        has = sets.united(found for item in self.items for found in item.ranges(properties))
        return sets.others(whole, sets.LINE_FEED if self.kind == 'dot' else has) if self.is_negated or self.kind == 'dot' else sets.shared(whole, has)


class Concatenation(NamedTuple):
    """Parts that follow each other; without one it fits the empty part."""

    parts: Tuple['Formula', ...]
    start: int
    end: int


class Choice(NamedTuple):
    """Two arms or more, of which one fits."""

    arms: Tuple[Concatenation, ...]
    start: int
    end: int


class Group(NamedTuple):
    """Parentheses."""

    inner: 'Formula'
    start: int
    end: int


class Capture(NamedTuple):
    """A variable, and what its span fits."""

    name: bytes
    inner: 'Formula'
    start: int
    end: int


class Repeat(NamedTuple):
    """A part so many times; there is no most where it is None."""

    inner: 'Formula'
    least: int
    most: Optional[int]
    start: int
    end: int

    @property
    def is_open(self) -> bool:
        """Whether it may be more than once."""
        return self.most is None or self.most > 1


class Use(NamedTuple):
    """`%{NAME}`, a part that is used."""

    name: bytes
    start: int
    end: int


class Listed(NamedTuple):
    """`%{FILE}`, one of the words in a file."""

    name: bytes
    start: int
    end: int


class Word(NamedTuple):
    """`~1{..}`, a word with mismatches: its units are signs, parts that are used, and repeats of these that are exact."""

    most: int
    units: Tuple['Formula', ...]
    start: int
    end: int


class Boundary(NamedTuple):
    r"""`\\b`."""

    start: int
    end: int


Formula = Union[One, Concatenation, Choice, Group, Capture, Repeat, Use, Listed, Word, Boundary]


class Atom(NamedTuple):
    """A formula between slashes, whether it is tied to the start and to the end, and the flags behind it."""

    formula: Formula
    is_first: bool
    is_last: bool
    flags: bytes
    start: int  # of the opening slash
    end: int  # behind the flags

    @property
    def is_over_characters(self) -> bool:
        """Whether the formula is over characters."""
        return b'u' in self.flags


# -- Expressions

class Name(NamedTuple):
    """The name of a let."""

    name: bytes
    start: int


class Union_(NamedTuple):
    """The rows of either part."""

    parts: Tuple['Expression', ...]


class Minus(NamedTuple):
    """The rows of the left side that the right side has not."""

    left: 'Expression'
    right: 'Expression'


class Join(NamedTuple):
    """The rows of all parts together."""

    parts: Tuple['Expression', ...]


class Project(NamedTuple):
    """The rows, of which some variables are kept."""

    names: Tuple[bytes, ...]
    inner: 'Expression'


Expression = Union[Atom, Name, Union_, Minus, Join, Project]


class Let(NamedTuple):
    """A part of a query with a name, which begins at ``start``."""

    name: bytes
    start: int
    expression: Expression


class Definition(NamedTuple):
    """`part NAME = /../;`, up to the blanks behind it. Written out it has at most so many bytes, and so many groups in each other."""

    name: bytes
    atom: Atom
    start: int
    end: int
    length: int
    depth: int


class Test(NamedTuple):
    """A test behind `where`."""

    name: bytes
    start: int
    variable: bytes


class Query(NamedTuple):
    """A whole text, with its atoms from left to right, those of definitions left out."""

    text: bytes
    lets: Tuple[Let, ...]
    body: Expression
    tests: Tuple[Test, ...]
    atoms: Tuple[Atom, ...]
    definitions: Tuple[Definition, ...]
    comments: Tuple[Tuple[int, int], ...]


# -- Walks

def nodes_of(formula: Formula) -> Iterator[Formula]:
    """The formula and all that is in it, from left to right."""
    waiting = [formula]
    while waiting:
        node = waiting.pop()
        yield node
        if isinstance(node, Concatenation):
            waiting += reversed(node.parts)
        elif isinstance(node, Choice):
            waiting += reversed(node.arms)
        elif isinstance(node, Word):
            waiting += reversed(node.units)
        elif isinstance(node, (Group, Capture, Repeat)):
            waiting.append(node.inner)


def ones_of(formula: Formula) -> Iterator[One]:
    """The signs, classes, escapes and dots of a formula, from left to right."""
    return (node for node in nodes_of(formula) if isinstance(node, One))


def captures_of(formula: Formula) -> Iterator[Capture]:
    """The captures of a formula, from left to right."""
    return (node for node in nodes_of(formula) if isinstance(node, Capture))


def expressions_of(expression: Expression) -> Iterator[Expression]:
    """The expression and all that is in it, from left to right."""
    yield expression
    inner: Tuple[Expression, ...] = ()
    if isinstance(expression, (Union_, Join)):
        inner = expression.parts
    elif isinstance(expression, Minus):
        inner = (expression.left, expression.right)
    elif isinstance(expression, Project):
        inner = (expression.inner,)
    for part in inner:
        yield from expressions_of(part)
