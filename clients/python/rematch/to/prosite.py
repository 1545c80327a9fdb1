"""Patterns as PROSITE writes them, `N-{P}-[ST]-{P}`, as queries."""
from __future__ import annotations

import re
from typing import List

from ..faults import QueryError

__all__ = ['is_prosite', 'query_of_prosite']

_LETTERS = 'ABCDEFGHIJKLMNOPQRSTUVWXYZ'
_ELEMENT = re.compile(r'(?:(?P<any>x)|(?P<one>[A-Z])|\[(?P<some>[A-Z]+>?)\]|\{(?P<none>[A-Z]+)\})(?:\((?P<least>\d+)(?:,(?P<most>\d+))?\))?')
_HINT = ('a pattern of PROSITE is elements with - between them: a letter, x for any, [AC] for one of these, {P} for all others, each perhaps with '
         '(3) or (2,4); < begins and > ends one at an end of the sequence')


def _fault(what: str, text: str, at: int) -> QueryError:
    fault = QueryError(f'query: {what} at {at}', 3, text.encode())
    fault.hint = _HINT
    return fault


def _class_without(letters: str) -> str:
    """The class of all capitals but these.

    >>> _class_without('P'), _class_without('AZ')
    ('[A-OQ-Z]', '[B-Y]')
    """
    runs: List[str] = []
    for letter in _LETTERS:
        if letter in letters:
            continue
        if runs and ord(runs[-1][-1]) == ord(letter) - 1:
            runs[-1] = runs[-1][0] + letter
        else:
            runs.append(letter)
    return '[' + ''.join(run if len(run) == 1 or run[0] == run[1] else f'{run[0]}-{run[1]}' for run in runs) + ']'


def query_of_prosite(text: str, name: str = 'site') -> str:
    r"""The query of a pattern of PROSITE, whose one variable is the whole site; `QueryError` where it is none.

    >>> query_of_prosite('[AC]-x-V-x(4)-{ED}.')
    '/!site{[AC][A-Z]V[A-Z]{4}[A-CF-Z]}/'
    >>> query_of_prosite('<M-x(2,3)-[DE]>'), query_of_prosite('F-[GSTV>]')
    ('/\\n!site{M[A-Z]{2,3}[DE]}\\n/', '/!site{F[GSTV]}|!site{F}\\n/')
    """
    shown = text.strip()
    body = shown[:-1] if shown.endswith('.') else shown
    start = '\\n' if body.startswith('<') else ''
    end = '\\n' if body.endswith('>') else ''
    at = len(start) // 2
    inner = body[at:len(body) - len(end) // 2]
    formula, last = '', ''
    elements = inner.split('-')
    for number, element in enumerate(elements):
        found = _ELEMENT.fullmatch(element)
        if found is None:
            raise _fault('unexpected', text, text.index(shown) + at)
        some = found['some'] or ''
        if some.endswith('>') and (number < len(elements) - 1 or found['least'] or end):
            raise _fault('a > that is not at the end', text, text.index(shown) + at)
        last = formula if some.endswith('>') else ''
        formula += _formula_of(found, text, text.index(shown) + at)
        at += len(element) + 1
        is_open = some.endswith('>')
    if is_open:
        return f'/{start}!{name}{{{formula}}}|{start}!{name}{{{last}}}\\n/'
    return f'/{start}!{name}{{{formula}}}{end}/'


def _formula_of(found: 're.Match[str]', text: str, at: int) -> str:
    """The formula of an element."""
    some = (found['some'] or '').rstrip('>')
    one = ('[A-Z]' if found['any'] else found['one'] or (f'[{some}]' if some else _class_without(found['none'])))
    if one == '[]':
        raise _fault('a class without a letter', text, at)
    least, most = found['least'], found['most']
    if most is not None and int(most) < int(least):
        raise _fault('a repeat whose least is above its most', text, at)
    return one + ('' if least is None else f'{{{least}}}' if most is None else f'{{{least},{most}}}')


def is_prosite(text: bytes) -> bool:
    """Whether a text is a pattern of PROSITE of several elements.

    >>> is_prosite(b'N-{P}-[ST]-{P}'), is_prosite(b'/a-b/')
    (True, False)
    """
    try:
        query_of_prosite(text.decode('utf-8', 'replace'))
        return b'-' in text
    except QueryError:
        return False
