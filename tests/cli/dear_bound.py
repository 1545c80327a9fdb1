"""The bound for dear queries (dear_queries.py): 10 seconds of the processor and 1 GB of memory.

Each ends within it, by rows or by a refusal that says its cause, on the empty document and on its own. The page docs/LIMITS.md lists
those that do not, and is tested: one that passes the bound and is not there fails, and one that is there and meets it. Of those
that nobody has judged yet it is told what they do.
"""
import os
import re
import tempfile
from typing import NamedTuple, Optional

from limited import Limits, lay_out, run

PAGE = os.path.join(os.path.dirname(os.path.dirname(os.path.dirname(os.path.abspath(__file__)))), 'docs', 'LIMITS.md')
PASSING = ['Known to pass the bound', 'Inherent']
NOT_JUDGED = ['Not judged yet']
SECONDS = 10  # of the processor
MEMORY = 10 ** 9  # bytes, of address space and in memory
BOUND = Limits(clock=900, stack=8 << 20, memory=MEMORY, processor=SECONDS, tick=0.05)
ROOM = BOUND._replace(memory=3 * MEMORY, processor=2 * SECONDS)
NOTES = {0: r'end|more c2:\d+(;\w+:(\d+-\d+|-))*',
         4: r'size: more than (20000 states|2000000 ways)|size: (table|filter) past 8000000',
         9: r'out of memory'}


class Outcome(NamedTuple):
    is_right: bool  # it ended by rows or by a refusal that says its cause, or a limit ended it
    passes: Optional[str]  # what passes the bound, or None
    ended: object


def listed(headings):
    """The names in the page's tables under these headings."""
    with open(PAGE, encoding='utf-8') as file:
        text = file.read()
    found = []
    for heading in headings:
        section = text.partition('\n### %s\n' % heading)[2].partition('\n##')[0]
        cells = [line.split('|')[1].strip() for line in section.splitlines() if line.startswith('|')]
        found += cells[2:]  # without the head and the line below it
    return found


def words_of(one):
    return one.words if '--serve' in one.words else ['-q', 'Q', *one.words, 'D']


def wants_memory(one, ended):
    return ended.status == 9 or '--serve' in one.words and b'"error":"memory"' in ended.out


def is_right(one, ended):
    if ended.status not in NOTES or not re.fullmatch(NOTES[ended.status], ended.note.decode('utf-8', 'replace').rstrip('\n')):
        return False
    return '--serve' not in one.words or ended.out.count(b'\n') == one.query.count(b'\n') + 1


def outcome(program, one, document):
    """How it ends. Memory is refused by a guard or by the limit: where more room changes nothing, it was a guard."""
    with tempfile.TemporaryDirectory() as folder:
        lay_out(folder, one.query, document)
        ended = run(program, words_of(one), folder, BOUND)
        if ended.is_late or ended.seconds > SECONDS or ended.status in (-9, -24):  # SIGKILL and SIGXCPU
            return Outcome(not ended.is_late, 'more than %d s' % SECONDS, ended)
        if wants_memory(one, ended):
            ended = run(program, words_of(one), folder, ROOM)
            if not wants_memory(one, ended):
                return Outcome(True, 'more than %d MB' % (MEMORY // 10 ** 6), ended)
    passes = '%d MB' % (ended.resident // 10 ** 6) if ended.resident > MEMORY else None
    return Outcome(is_right(one, ended), passes, ended)


def worse(program, one, is_fast):
    """The outcome on the empty document, where that passes the bound, and else on its own; --fast tries its own alone."""
    if not is_fast and one.document:
        found = outcome(program, one, b'')
        if found.passes or not found.is_right:
            return found
    return outcome(program, one, one.document)


def told(found):
    """What an outcome is, in words."""
    if found.passes:
        return 'passes the bound: %s' % found.passes
    return 'meets the bound: %.1f s, %d MB' % (found.ended.seconds, found.ended.resident // 10 ** 6)


def wrong_with(one, found, passing, not_judged):
    """What is wrong with an outcome, or None."""
    if not found.is_right:
        return 'ended by %d, %r' % (found.ended.status, found.ended.note[:80])
    if one.name in not_judged:
        print('not judged in docs/LIMITS.md: %s %s' % (one.name, told(found)))
        return None
    if found.passes and one.name not in passing:
        return told(found)
    if not found.passes and one.name in passing:
        return told(found) + ': take its line out of docs/LIMITS.md'
    return None
