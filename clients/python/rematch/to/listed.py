"""Lists of words in a formula, `%{FILE}`: the files, and a query whose list is cut since it is too long for one."""
from __future__ import annotations

import os
from typing import Callable, Dict, Iterator, List, Optional

from ..faults import QueryError
from ..reader import query_fault, read
from ..tree import Capture, Choice, Concatenation, Formula, Group, Listed, Minus, Query, Repeat, Use, expressions_of
from .encodings import in_form
from .wordlist import formula_in_bytes, formula_of, weight_of, words_of

__all__ = ['Lists', 'texts_of_parts']


class Lists:
    """The files of words that a query may name, which are looked for in a folder; ``part`` is the share of the words that is taken."""

    def __init__(self, folder: str = '', normal: Optional[str] = None) -> None:
        self._folder = folder
        self._normal = normal  # the form of Unicode that the words are brought into
        self._words: Dict[bytes, List[str]] = {}
        self.paths: List[str] = []  # of the files that were read
        self.part = slice(None)

    def words(self, name: bytes, source: bytes, at: int) -> List[str]:
        """The words of a file that is named at a place of a query; `QueryError` where it cannot be read."""
        if name not in self._words:
            path = os.path.join(self._folder, os.fsdecode(name))
            try:
                with open(path, 'rb') as file:
                    self.paths.append(path)
                    self._words[name] = words_of(in_form(file.read(), self._normal), path)
            except OSError as fault:
                raise query_fault(f'no list {path}: {fault.strerror}', source, at, 'a list of words %{FILE} is looked for in the folder of the '
                                  'query file, and for -e in the current one') from None
            except QueryError as fault:
                raise query_fault(fault.note, source, at, 'a list of words %{FILE} is UTF-8, with a word on each line') from None
        return self._words[name]

    def formula(self, node: Listed, source: bytes, *, is_over_characters: bool) -> bytes:
        """The formula of the words that are taken."""
        words = self.words(node.name, source, node.start)[self.part]
        return (formula_of if is_over_characters else formula_in_bytes)(words).encode()


class _Use:
    """A list that a formula names, and whether it is within a repeat."""

    def __init__(self, node: Listed, is_repeated: bool) -> None:
        self.node = node
        self.is_repeated = is_repeated


def _uses(formula: Formula, query: Query, is_repeated: bool = False) -> Iterator[_Use]:
    """The lists of a formula, also those of the parts that it uses."""
    if isinstance(formula, Listed):
        yield _Use(formula, is_repeated)
    elif isinstance(formula, Use):
        part = next(part for part in query.definitions if part.name == formula.name)
        yield from _uses(part.atom.formula, query, is_repeated)
    elif isinstance(formula, Repeat):
        yield from _uses(formula.inner, query, is_repeated or formula.is_open)
    elif isinstance(formula, (Group, Capture)):
        yield from _uses(formula.inner, query, is_repeated)
    elif isinstance(formula, (Concatenation, Choice)):
        for part in formula.parts if isinstance(formula, Concatenation) else formula.arms:
            yield from _uses(part, query, is_repeated)


def texts_of_parts(source: bytes, lists: Lists, text_of: Callable[[], bytes]) -> List[bytes]:
    """The queries that together mean a query: one, or several where its list is too long for one.

    ``text_of`` writes the query with the words that are taken. A row of the query is one of a query with some of its words, where
    the list is used once, outside of repeats, and the query has no `minus` and no `let`. `QueryError` where a list that is too
    long is used otherwise.
    """
    text = text_of()
    query = read(source, conveniences=True)
    uses = [use for atom in query.atoms for use in _uses(atom.formula, query)]
    weight = weight_of(text) if uses else 0
    if weight <= 1:
        return [text]
    node = uses[0].node
    size = len(lists.words(node.name, source, node.start))
    if len(uses) > 1 or uses[0].is_repeated or query.lets or any(isinstance(part, Minus) for part in expressions_of(query.body)):
        raise query_fault(f'a list of {size} words, which is too long for one query', source, node.start,
                          'it is cut into several queries where it is the only list, in no repeat, and the query has no minus and no let')
    count = min(size, int(weight * 1.1) + 1)
    cuts = [size * k // count for k in range(count + 1)]
    return [text for start, end in zip(cuts, cuts[1:]) for text in _halves(lists, text_of, start, end)]


def _halves(lists: Lists, text_of: Callable[[], bytes], start: int, end: int) -> Iterator[bytes]:
    """The query with the words from one to another, or two with half of them each where that is too large."""
    lists.part = slice(start, end)
    text = text_of()
    lists.part = slice(None)
    if end - start == 1 or weight_of(text) <= 1:
        yield text
        return
    middle = (start + end) // 2
    yield from _halves(lists, text_of, start, middle)
    yield from _halves(lists, text_of, middle, end)
