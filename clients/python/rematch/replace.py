"""Texts in which spans are replaced, as ``re.sub`` does: by a template or by a function of the row."""
from __future__ import annotations

import re
from typing import TYPE_CHECKING, Any, Callable, List, Optional, Tuple, Union

from .documents import Document
from .match import Match, check_variable

if TYPE_CHECKING:
    from .query import Query

__all__ = ['pieces_between', 'replaced']

Replacement = Union[str, bytes, Callable[[Match[Any]], Union[str, bytes]]]

_GROUP = re.compile(r'\\g<([A-Za-z_]\w*)>|\\(\\)')


def _template(text: str, names: Tuple[str, ...]) -> Callable[[Match[Any]], Any]:
    r"""The function that a template is: ``\g<x>`` stands for what x takes, and ``\\`` for a backslash.

    >>> _template('[\\1]', ('x',))
    Traceback (most recent call last):
      ...
    ValueError: a backslash is only in \g<NAME> and in \\, and not as \1; variables have names, and no numbers
    """
    rest = _GROUP.sub('', text)
    if '\\' in rest:
        at = rest.index('\\')
        raise ValueError(rf'a backslash is only in \g<NAME> and in \\, and not as {rest[at:at + 2]}; '
                         'variables have names, and no numbers')
    for found in _GROUP.finditer(text):
        if found[1] is not None and found[1] not in names:
            raise ValueError(f'the replacement has {found[0]}, and the query the variables {", ".join(names) or "none"}')
    pieces = _GROUP.split(text)  # text, name or None, backslash or None, text, ..

    def filled(match: Match[Any]) -> Any:
        parts = [pieces[0]]
        for name, sign, after in zip(pieces[1::3], pieces[2::3], pieces[3::3]):
            part = sign if name is None else match[name]
            parts += [part.decode('utf-8', 'surrogateescape') if isinstance(part, bytes) else part or '', after]
        return ''.join(parts)
    return filled


def _variable(query: 'Query', name: Optional[str]) -> str:
    if name is not None:
        check_variable(query, name)
        return name
    if len(query.variables) != 1:
        names = ', '.join(query.variables) or 'none'
        raise ValueError(f'of the variables {names} one has to be named, whose spans are replaced: name=')
    return query.variables[0]


def _taken(query: 'Query', document: Document, name: str, count: int, *, has_empty: bool = True) -> List[Match[Any]]:
    """The rows whose spans are replaced: from the left, the longest of a place, and none that overlaps one before."""
    if count < 0:
        raise ValueError(f'a count is 0 or more, not {count}')
    spans = {}
    for match in query.finditer(document):
        span = match.span(name)
        if span is not None and (has_empty or span[0] < span[1]):
            spans.setdefault((span[0], -span[1]), match)
    taken: List[Match[Any]] = []
    free = 0
    for (start, end), match in sorted(spans.items(), key=lambda item: item[0]):
        if start >= free and (not count or len(taken) < count):
            taken.append(match)
            free = max(-end, start)
    return taken


def pieces_between(query: 'Query', document: Document, name: Optional[str], count: int) -> List[Union[str, bytes]]:
    """What is between the spans of a variable; `Query.split` says which."""
    chosen = _variable(query, name)
    pieces: List[Union[str, bytes]] = []
    at = 0
    for match in _taken(query, document, chosen, count, has_empty=False):
        start, end = match.span(chosen) or (at, at)
        pieces.append(document.text(at, start))
        at = end
    return [*pieces, document.text(at, len(document))]


def replaced(query: 'Query', replacement: Replacement, document: Document, name: Optional[str], count: int) -> Union[str, bytes]:
    """The text of a document in which the spans of a variable are replaced; `Query.sub` says which."""
    chosen = _variable(query, name)
    is_text = isinstance(document.text(0, 0), str)
    kind = str if is_text else bytes
    if callable(replacement):
        make: Callable[[Match[Any]], Any] = replacement
    else:
        if not isinstance(replacement, kind):
            raise TypeError(f'the document is {kind.__name__}, so the replacement is {kind.__name__} too, not '
                            f'{type(replacement).__name__}')
        text = replacement if isinstance(replacement, str) else replacement.decode('utf-8', 'surrogateescape')
        filled = _template(text, query.variables)
        make = filled if is_text else lambda match: filled(match).encode('utf-8', 'surrogateescape')
    parts: List[Any] = []
    at = 0
    for match in _taken(query, document, chosen, count):
        start, end = match.span(chosen) or (at, at)
        put = make(match)
        if not isinstance(put, kind):
            raise TypeError(f'the document is {kind.__name__}, so the function gives {kind.__name__} too, not '
                            f'{type(put).__name__}')
        parts += [document.text(at, start), put]
        at = end
    parts.append(document.text(at, len(document)))
    return kind().join(parts)  # type: ignore[no-any-return]
