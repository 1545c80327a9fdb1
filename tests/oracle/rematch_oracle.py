#!/usr/bin/env python3
"""A small reference of rematch, by brute force and from the meaning alone.

It takes the words that the program takes and gives what the program must give: the rows on standard
output, one line of notes on standard error, and the exit status.

    rematch_oracle.py (-e TEXT | -q NAME) [-n K] [-a CURSOR] [-f spans|table|json] [-t] [--filter]
                      [--max-table W] [--explain] [--trial N] [DOC]
    rematch_oracle.py --serve

Nothing here is clever. A formula is tried at every place of the document, every way in which it fits
is listed, the rows are put into a set and sorted. So it is slow, and easy to compare with the rules:
each section states its rules in words and then says them once more in Python. It shares no code with
the program. query_text.py beside it reads the query, by characters.py where that speaks of characters;
named_tests.py has the tests of spans, modes.py `--explain` and `--trial`, and session_oracle.py `--serve`. Tests import
`run`, which reads no file by itself. It makes no automata: it answers where the program may refuse for the
size of a union, a difference or a join or for a weight, and it reads all positions with `--filter` too, which changes
no row. `permitted` has these refusals too, by weights.py, which counts them.

Python 3.8, standard library.
"""
import json
import os
import re
import sys
from typing import NamedTuple

from modes import counts_of, explained, query_atoms, summed, trial_document
from named_tests import TESTS
from query_text import (LONGEST_QUERY, Alt, Atom, Cat, Empty, Minus, Named, One, Project, Refusal, Rep, Union,
                        captures, fault, read_query)
from weights import TooMuch, sizes_of, weights_of

LONGEST_DOCUMENT = 1 << 28
LARGEST_PLACE = (1 << 32) - 1
WORDS, SIZE, READ, LONG, CURSOR, WRITE = 2, 4, 5, 6, 7, 8  # exit statuses
MOST_STATES, MOST_WAYS = 20000, 2000000


# --- The meaning ---------------------------------------------------------------------------------
#
# A formula fits a part i-j of the document with a mapping from variables to spans. A mapping is
# written here as a set of pairs (name, (start, end)); a variable without a pair is absent.

NO_SPANS = frozenset()


class Meaning:
    def __init__(self, document):
        self.document = document
        self.known = {}  # what fits where
        self.of_lets = {}  # the answers of lets
        self.names_of_lets = {}

    def fits(self, formula, i):
        """All pairs of an end and a mapping with which the formula fits from i on."""
        key = id(formula), i
        if key not in self.known:
            self.known[key] = self.fits_anew(formula, i)
        return self.known[key]

    def fits_anew(self, formula, i):
        if isinstance(formula, Empty):
            return {(i, NO_SPANS)}
        if isinstance(formula, One):
            here = i < len(self.document) and self.document[i] in formula.bytes
            return {(i + 1, NO_SPANS)} if here else set()
        if isinstance(formula, Cat):
            ways = {(i, NO_SPANS)}
            for part in formula.parts:
                ways = self.followed(ways, part)
            return ways
        if isinstance(formula, Alt):
            return set().union(*(self.fits(arm, i) for arm in formula.parts))
        if isinstance(formula, Rep):
            return self.repeated(formula, i)
        return {(j, spans | {(formula.name, (i, j))}) for j, spans in self.fits(formula.part, i)}

    def followed(self, ways, part):
        """Each way, followed by each way in which the part fits where it ends."""
        return {(k, spans | more) for j, spans in ways for k, more in self.fits(part, j)}

    def repeated(self, formula, i):
        """What some permitted number of pieces gives."""
        found = set()
        ways = {(i, NO_SPANS)}
        seen = set()  # the ways of each number of pieces, which go round in the end
        count = 0
        while formula.most is None or count <= formula.most:
            if count >= formula.least:
                found |= ways
                if frozenset(ways) in seen:
                    break
                seen.add(frozenset(ways))
            if not ways:
                break
            ways = self.followed(ways, formula.part)
            count += 1
        return found

    def atom(self, atom):
        starts = [0] if atom.from_start else range(len(self.document) + 1)
        return {spans for i in starts for j, spans in self.fits(atom.formula, i)
                if not atom.to_end or j == len(self.document)}

    def answers(self, expr, lets):
        """All mappings that the expression has as answers."""
        if isinstance(expr, Atom):
            return self.atom(expr)
        if isinstance(expr, Named):
            if expr not in self.of_lets:
                self.of_lets[expr] = self.answers(lets[expr.place][1], lets)
            return self.of_lets[expr]
        if isinstance(expr, Project):
            return {frozenset(pair for pair in spans if pair[0] in expr.keep)
                    for spans in self.answers(expr.part, lets)}
        if isinstance(expr, Minus):
            return self.answers(expr.left, lets) - self.answers(expr.right, lets)
        parts = [self.answers(part, lets) for part in expr.parts]
        if isinstance(expr, Union):
            return set().union(*parts)
        joined, names = parts[0], self.names(expr.parts[0], lets)
        for part, answers in zip(expr.parts[1:], parts[1:]):
            more = self.names(part, lets)
            joined, names = natural_join(joined, answers, names & more), names | more
        return joined

    def names(self, expr, lets):
        """The variables of an expression."""
        if isinstance(expr, Atom):
            return captures(expr.formula)
        if isinstance(expr, Named):
            if expr not in self.names_of_lets:
                self.names_of_lets[expr] = self.names(lets[expr.place][1], lets)
            return self.names_of_lets[expr]
        if isinstance(expr, Project):
            return set(expr.keep)
        if isinstance(expr, Minus):
            return self.names(expr.left, lets)
        return set().union(*[self.names(part, lets) for part in expr.parts])


def natural_join(left, right, shared):
    """The mappings over the variables of both whose restrictions stand on either side."""
    by_shared = {}
    for spans in right:
        by_shared.setdefault(frozenset(p for p in spans if p[0] in shared), []).append(spans)
    return {spans | other for spans in left
            for other in by_shared.get(frozenset(p for p in spans if p[0] in shared), [])}


# --- The order of rows ---------------------------------------------------------------------------
#
# The variables are sorted by name; variable k of v has the opening bit 2(v-k)-1 and the closing bit
# 2(v-k)-2. The block of a row at a position is the sum of the bits of what opens or closes there; an
# absent variable, which is None in a row, adds none. A row stands before another where, at the first
# position at which their blocks differ, its block is the greater.

PAST_ALL = float('inf')  # behind every position


def order(row):
    """A key by which Python's tuples compare as the rows do."""
    blocks = {}
    for k, span in enumerate(row):
        if span is not None:
            opening = 2 * (len(row) - k) - 1
            blocks[span[0]] = blocks.get(span[0], 0) + 2 ** opening
            blocks[span[1]] = blocks.get(span[1], 0) + 2 ** (opening - 1)
    # Where one row has a block and the other has none, the one with the block is first: so the
    # smaller position is first, and at one position the greater block. What has no more blocks is last.
    return [(at, -block) for at, block in sorted(blocks.items())] + [(PAST_ALL, 0)]


def passes(spans, tests, document):
    """Whether each test's variable has a span, of whose bytes the test holds."""
    return all(test.variable in spans and TESTS[test.name](document[slice(*spans[test.variable])]) for test in tests)


def all_rows(query, names, document):
    """The answers of the query that pass its tests, in order; a row lists the spans by ascending names."""
    answers = map(dict, Meaning(document).answers(query.body, query.lets))
    found = [spans for spans in answers if passes(spans, query.tests, document)]
    return sorted((tuple(map(spans.get, names)) for spans in found), key=order)


def page(rows, after, limit):
    """The first rows after the row `after`, and whether more remain."""
    rest = [row for row in rows if after is None or order(after) < order(row)]
    limit = len(rest) if limit is None else limit
    return rest[:limit], len(rest) > limit


# --- Texts ---------------------------------------------------------------------------------------

# A cursor has the document's length and its row; `-` stands for an absent variable. An older text, without
# the length, is also read; in it no variable is absent.

CURSOR_HEAD = re.compile(r'c1|c2:(0|[1-9][0-9]*)')
CURSOR_PART = re.compile(r';([A-Za-z_][A-Za-z0-9_]{0,31}):(?:(0|[1-9][0-9]*)-(0|[1-9][0-9]*)|-)')


class Cursor(NamedTuple):
    row: tuple
    length: object  # of the document, or None where the text has none


def span_text(span):
    return '-' if span is None else '%d-%d' % span


def place(digits):
    """The number of these digits; one too large where they are very many."""
    return int(digits[:11])


def cursor_text(names, row, length):
    return 'c2:%d' % length + ''.join(';%s:%s' % (name, span_text(span)) for name, span in zip(names, row))


def read_cursor(text, names):
    """The cursor of a text over exactly these names."""
    no_cursor = Refusal(CURSOR, 'cursor: not a cursor')
    head = CURSOR_HEAD.match(text)
    length = place(head.group(1)) if head and head.group(1) else None
    most = LARGEST_PLACE if length is None else length
    if head is None or most > LARGEST_PLACE:
        raise no_cursor
    found = []
    at = head.end()
    while at < len(text):
        part = CURSOR_PART.match(text, at)
        if part is None:
            raise no_cursor
        span = None if part.group(2) is None else (place(part.group(2)), place(part.group(3)))
        if span is None and length is None or span and not span[0] <= span[1] <= most:
            raise no_cursor
        found.append((part.group(1), span))
        at = part.end()
    if [name for name, _ in found] != names:
        raise Refusal(CURSOR, 'cursor: other variables')
    return Cursor(tuple(span for _, span in found), length)


def text_form(data):
    """The bytes of a span in visible ASCII."""
    short = {0x5c: '\\\\', 0x22: '\\"', 0x0a: '\\n', 0x09: '\\t', 0x0d: '\\r'}
    return ''.join(short.get(b) or (chr(b) if 0x20 <= b <= 0x7e else '\\x%02x' % b) for b in data)


def lines_of(names, rows, document, form, texts):
    """The page as text."""
    def text(span):
        return text_form(document[span[0]:span[1]])

    def cell(span):
        return span_text(span) + ('"%s"' % text(span) if texts and span is not None else '')

    def value(span):
        return span and list(span) + ([text(span)] if texts else [])

    lines = []
    if form == 'table':
        lines.append('\t'.join(names) or '()')
    for row in rows:
        if form == 'json':
            members = {name: value(span) for name, span in zip(names, row)}
            lines.append(json.dumps(members, separators=(',', ':')))
        elif form == 'table':
            lines.append('\t'.join(map(cell, row)) or '()')
        else:
            lines.append(' '.join(n + '=' + cell(s) for n, s in zip(names, row)) or '()')
    return ''.join(line + '\n' for line in lines).encode()


# --- The command line ----------------------------------------------------------------------------
#
# Five options of one letter and two long ones that take one text each, one flag of one letter and two
# long ones, and at most one document. After the word `--` all words are documents.

OPTIONS = 'eqnaf'
FLAGS = 't'
LONG_OPTIONS = ('max-table', 'trial')
LONG_FLAGS = ('filter', 'explain')
NUMBER = re.compile(r'\+?[0-9]+')
LARGEST_TABLE = 100000000
USUAL_TABLE = 8000000
MOST_LINES = 4000000


class Request(NamedTuple):
    query: object  # the text, or None
    query_name: object
    limit: object
    after: object
    form: str
    texts: bool
    document: str
    explain: bool
    trial: object  # the number of lines, or None
    filtered: bool
    most_weight: int


def found_words(words):
    """What the words give for each option, each flag and `DOC`; None where they are refused."""
    found = {}
    waiting = None  # an option whose value is the next word
    only_documents = False
    for word in words:
        if not only_documents and word == '--':
            only_documents = True
        elif not only_documents and word.startswith('--'):
            name, equals, value = word[2:].partition('=')
            is_flag = name in LONG_FLAGS and not equals
            if waiting or name in found or not (is_flag or name in LONG_OPTIONS):
                return None
            if is_flag:
                found[name] = True
            elif equals:
                found[name] = value
            else:
                waiting = name
        elif not only_documents and word.startswith('-') and word != '-':
            if waiting:
                return None
            letters = word[1:]
            while letters and letters[0] in FLAGS:
                if letters[0] in found:
                    return None
                found[letters[0]] = True
                letters = letters[1:]
            if letters:
                option, value = letters[0], letters[1:]
                if option not in OPTIONS or option in found:
                    return None
                if value:  # one `=` after the letter is dropped
                    found[option] = value[1:] if value.startswith('=') else value
                else:
                    waiting = option
        elif waiting and not only_documents:
            found[waiting] = word
            waiting = None
        elif 'DOC' in found or waiting:
            return None
        else:
            found['DOC'] = word
    return None if waiting else found


def number(text, least, most):
    """The number that an option gives, or None where it is not given."""
    if text is None:
        return None
    if not NUMBER.fullmatch(text) or not least <= int(text) <= most:
        raise Refusal(WORDS, 'bad command line')
    return int(text)


def read_words(words):
    found = found_words(words)
    if found is None or ('e' in found) == ('q' in found):
        raise Refusal(WORDS, 'bad command line')
    limit = number(found.get('n'), 0, (1 << 64) - 1)
    most_weight = number(found.get('max-table'), 1, LARGEST_TABLE)
    trial = number(found.get('trial'), 0, MOST_LINES)
    form = found.get('f', 'spans')
    document = found.get('DOC', '-')
    explain = 'explain' in found
    has_mode = explain or trial is not None
    if has_mode and any(key in found for key in ('n', 'a', 'f', 't', 'DOC')):
        raise Refusal(WORDS, 'bad command line')
    if form not in ('spans', 'table', 'json') or explain and trial is not None:
        raise Refusal(WORDS, 'bad command line')
    if found.get('q') == document == '-' and not has_mode:
        raise Refusal(WORDS, 'bad command line')
    return Request(found.get('e'), found.get('q'), limit, found.get('a'), form, 't' in found, document,
                   explain, trial, 'filter' in found, most_weight or USUAL_TABLE)


# --- A run ---------------------------------------------------------------------------------------
#
# The first that applies is answered: the words; the reading of the query; its text and its checks, and
# then, where it is asked for, what the query is; the sizes of its atoms; the cursor's text; the reading of
# the document, or its making; the cursor's place; the rows.

class TooLong(Exception):
    """More bytes were found than may be read."""


def refuse_sizes(query):
    """The first atom that is too large is told."""
    for states, ways in map(counts_of, query_atoms(query)):
        if states > MOST_STATES:
            raise Refusal(SIZE, 'size: more than %d states' % MOST_STATES)
        if ways > MOST_WAYS:
            raise Refusal(SIZE, 'size: more than %d ways' % MOST_WAYS)


class Asked(NamedTuple):
    """Words that are accepted, and a sound query no atom of which is too large, unless it is explained."""
    request: Request
    query: object
    names: list


class Ready(NamedTuple):
    """What is to be answered, once nothing but a weight or the size of a part that is no atom can refuse it."""
    asked: Asked
    document: object  # None where none is read
    after: object


def asked_by(words, fetch):
    """`fetch(name, limit)` reads, or raises OSError or TooLong."""
    request = read_words(words)
    if request.query is not None:
        text = request.query.encode()
    else:
        try:
            text = fetch(request.query_name, LONGEST_QUERY)
        except OSError:
            raise Refusal(READ, 'read failed: query')
        except TooLong:
            raise fault('longer than %d bytes' % LONGEST_QUERY)
    query, names = read_query(text)
    if not request.explain:
        refuse_sizes(query)
    return Asked(request, query, names)


def refuse_place(cursor, length):
    """A cursor that has a length is of a document of that length alone."""
    if cursor.length is None:
        if any(end > length for _, end in cursor.row):
            raise Refusal(CURSOR, 'cursor: past the document')
    elif cursor.length != length:
        raise Refusal(CURSOR, 'cursor: document of %d bytes, not %d' % (cursor.length, length))


def ready_for(asked, fetch):
    request = asked.request
    if request.explain:
        return Ready(asked, None, None)
    if request.trial is not None:
        return Ready(asked, trial_document(request.trial), None)
    after = None
    if request.after not in (None, 'start'):
        after = read_cursor(request.after, asked.names)
    try:
        document = fetch(request.document, LONGEST_DOCUMENT)
    except OSError:
        raise Refusal(READ, 'read failed: document')
    except TooLong:
        raise Refusal(LONG, 'document longer than %d bytes' % LONGEST_DOCUMENT)
    if after is not None:
        refuse_place(after, len(document))
    return Ready(asked, document, after and after.row)


def written(ready):
    """What is written and noted."""
    (request, query, names), document, after = ready
    if request.explain:
        return explained(query, names), 'end'
    if request.trial is not None:
        shown = lines_of(names, all_rows(query, names, document), document, 'spans', False)
        return summed(request.trial, document, shown.decode().splitlines()), 'end'
    rows, more = page(all_rows(query, names, document), after, request.limit)
    note = 'end'
    if more:
        note = 'more ' + (cursor_text(names, rows[-1], len(document)) if rows else request.after or 'start')
    return lines_of(names, rows, document, request.form, request.texts), note


def refused(refusal):
    return refusal.status, b'', refusal.note.encode() + b'\n'


def run(words, fetch):
    """The exit status, the bytes of standard output and the note's line of a run."""
    sys.setrecursionlimit(20000)
    try:
        out, note = written(ready_for(asked_by(words, fetch), fetch))
        return 0, out, note.encode() + b'\n'
    except Refusal as refusal:
        return refused(refusal)


# --- All that is permitted -----------------------------------------------------------------------
#
# A size refusal may come only where the counted size of some part of the query, the weight of some atom's
# filter or the weight of the table passes its limit; the program may also have found a way to do with less.
# So an answer and a refusal can both be right.

def weights_in(ready):
    return weights_of(ready.asked.query, Meaning(ready.document), ready.asked.request.filtered)


def weighed(words, fetch):
    """What a run weighs; None where it reads nothing, is refused before that, or is too large to be counted."""
    try:
        ready = ready_for(asked_by(words, fetch), fetch)
        return None if ready.asked.request.explain else weights_in(ready)
    except (Refusal, TooMuch):
        return None


def size_refusals(asked, ready):
    """The notes that are permitted, since something passes its limit or is too large to be counted here.
    `ready` is None where another refusal comes before the weights."""
    parts = sizes_of(asked.query)
    notes = ['size: more than %d states' % MOST_STATES] * any(states > MOST_STATES for states, _ in parts)
    notes += ['size: more than %d ways' % MOST_WAYS] * any(ways > MOST_WAYS for _, ways in parts)
    most = asked.request.most_weight
    if ready and most < USUAL_TABLE:  # which nothing passes that this reference could answer
        try:
            weights = weights_in(ready)
            is_past, is_filter_past = weights.table > most, any(weight > most for weight in weights.filters)
        except TooMuch:
            is_past, is_filter_past = True, asked.request.filtered
        notes += ['size: table past %d' % most] * is_past + ['size: filter past %d' % most] * is_filter_past
    return notes


def permitted(words, fetch):
    """All answers that are right, each as `run` gives one; the first is that of `run`. Want of memory aside."""
    sys.setrecursionlimit(20000)
    try:
        asked = asked_by(words, fetch)
    except Refusal as refusal:
        return [refused(refusal)]
    ready = None
    try:
        ready = ready_for(asked, fetch)
        out, note = written(ready)
        answers = [(0, out, note.encode() + b'\n')]
    except Refusal as refusal:
        answers = [refused(refusal)]
    notes = [] if asked.request.explain else size_refusals(asked, ready)
    return answers + [refused(Refusal(SIZE, note)) for note in notes]


def fetch_file(name, limit):
    stream = sys.stdin.buffer if name == '-' else open(name, 'rb')
    with stream:
        data = stream.read(limit + 1)
    if len(data) > limit:
        raise TooLong
    return data


def put(number, data):
    """Whether all bytes could be written; what is empty is not written at all."""
    try:
        while data:
            data = data[os.write(number, data):]
        return True
    except OSError:
        return False


def main():
    try:
        words = [word.encode('utf-8', 'surrogateescape').decode('utf-8') for word in sys.argv[1:]]
    except UnicodeDecodeError:
        return 10
    if words == ['--serve']:
        import session_oracle  # which stands on this file
        return session_oracle.main()
    status, out, notes = run(words, fetch_file)
    if not put(1, out):
        status, notes = WRITE, b'write failed\n'
    if not put(2, notes) and status == 0:
        status = WRITE
    return status


if __name__ == '__main__':
    os._exit(main())  # without Python's own flush of streams that may be closed
