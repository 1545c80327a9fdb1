"""The sentence round a place of a text: what stands in it before the place and behind it."""
from __future__ import annotations

import re
from typing import Iterator, Tuple

__all__ = ['MOST_CHARACTERS', 'ends_of', 'sentence_round']

MOST_CHARACTERS = 1000
"""The most characters of a sentence that are given on either side of a place."""

_CLOSING = '"\'”’»)\\]'
_END = re.compile(r'(?P<mark>[.!?…]+)[%s]*(?=\s)\s*|[。！？]+[”』」）]*\s*|\n[ \t\r]*\n\s*' % _CLOSING)
_WORD = re.compile(r'[^\W\d_]+(?:\.[^\W\d_]+)*\Z')
_SHORT = frozenset('Mr Mrs Ms Dr Prof St Sr Jr Capt Col Gen Lt Sgt Rev Hon Mt Fig No Nos Nr Vol vol pp ed eds cf vs ca vgl bzw M Mme Mlle e.g i.e z.B d.h'
                   .split())
_OPENING = '"\'“‘„«‚([¿¡—–-'


def ends_of(text: str) -> Iterator[int]:
    """The places where a sentence of a text ends and the next begins, behind the blanks.

    A sentence ends with . ! ? or … before blanks, or with an empty line. It does not where a small letter comes next, nor at the
    point of a single letter or of a usual short word, as in "Dr. Gray".

    >>> list(ends_of('He met Dr. Gray. "Yes!" she said. Then J. Venn left... so'))
    [17, 34]
    """
    for found in _END.finditer(text):
        if found['mark'] is None or not (_is_short(text, found) or text[found.end():found.end() + 8].lstrip(_OPENING)[:1].islower()):
            yield found.end()


def _is_short(text: str, found: 're.Match[str]') -> bool:
    """Whether a point belongs to a short word, and ends no sentence."""
    word = _WORD.search(text, max(0, found.start() - 20), found.start()) if found['mark'] == '.' else None
    return word is not None and (len(word[0]) == 1 or word[0] in _SHORT)


def sentence_round(data: bytes, start: int, end: int) -> Tuple[str, str]:
    """What stands before and behind a place of a document in its sentence, or in its sentences where the place reaches over several.

    On either side it is at most `MOST_CHARACTERS` long, so that a text without ends of sentences costs little.

    >>> sentence_round(b'Yes. One tide, low. Two', 9, 13)
    ('One ', ', low.')
    """
    left = data[max(0, start - 4 * MOST_CHARACTERS):start].decode('utf-8', 'ignore')[-MOST_CHARACTERS:]
    right = data[end:end + 4 * MOST_CHARACTERS + 64].decode('utf-8', 'ignore')
    middle = data[start:end].decode('utf-8', 'replace')
    text = left + middle + right
    first, last = 0, len(text)
    for place in ends_of(text):
        if place <= len(left):
            first = place
        elif place >= len(left) + len(middle):
            last = place
            break
    return text[first:len(left)], text[len(left) + len(middle):last].rstrip()[:MOST_CHARACTERS]
