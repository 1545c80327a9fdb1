#!/usr/bin/env python3
"""What `rematch --serve` must reply, from the meaning alone.

    session_oracle.py < REQUESTS

A request is a line, and has one line as its reply. Sessions are a map from numbers to a query, a document and how
many of its rows were given; rows are found by rematch_oracle.py anew for each document. So a document that grows is
read as a new one. It answers where the program may refuse for the size of a union, a difference or a join, for a
weight, or for want of memory. Tests import `Sessions` and `run`. Python 3.8, standard library.
"""
import io
import json
import os
import re
import sys

from query_text import Refusal, read_query
from rematch_oracle import LONG, READ, WRITE, all_rows, put, refuse_sizes

LONGEST_LINE = 1 << 20
LONGEST_DOCUMENT = 1 << 24  # of a session that grows
MOST_SESSIONS = 64
LARGEST_NUMBER = (1 << 32) - 1  # of a session
MOST_ROWS = 1000  # that a request may ask for


# --- Requests ------------------------------------------------------------------------------------
#
# A request is UTF-8 and a JSON object with exactly the members of its kind: `op` with its name, `id`, and those
# that stand here. Of members with one name the last counts. A number is written in digits alone and is in its range.

class Number(str):
    """A JSON number without a fraction or an exponent, as it is written."""


MEMBERS = {'open': {'query': str, 'doc': str}, 'next': {'n': Number}, 'close': {}, 'grow': {'text': str}}
RANGES = {'id': (0, LARGEST_NUMBER), 'n': (1, MOST_ROWS)}


def members_of(pairs):
    json.dumps(pairs, ensure_ascii=False).encode()  # no half of a pair of surrogates
    return dict(pairs)


def no_number(text):
    raise ValueError(text + ' is no JSON')


def request_of(line):
    """The members of a request, its numbers as numbers; None where the line is no request."""
    try:
        found = json.loads(line.decode(), object_pairs_hook=members_of, parse_int=Number, parse_constant=no_number)
    except (ValueError, RecursionError):
        return None
    op = found.get('op') if isinstance(found, dict) else None
    if type(op) is not str or op not in MEMBERS:
        return None
    if {name: type(value) for name, value in found.items()} != dict(MEMBERS[op], op=str, id=Number):
        return None
    for name, (least, most) in RANGES.items():
        if name in found:
            if not re.fullmatch('[0-9]+', found[name]) or not least <= int(found[name]) <= most:
                return None
            found[name] = int(found[name])
    return found


# --- Sessions ------------------------------------------------------------------------------------
#
# The first that applies is answered. To open: the number is taken; all sessions are open; the query is refused.
# For the others: no session of this number is open. To grow: the document would be too long. A session gives its rows
# in their order, each once, and after it has grown from the first one on.

class Session:
    def __init__(self, query, names, document):
        self.query = query
        self.names = names
        self.grow(document)

    def grow(self, document):
        self.document = document
        self.rows = None  # not found yet
        self.given = 0

    def give(self, most):
        """The next rows, so many at most, and whether more remain."""
        if self.rows is None:
            self.rows = all_rows(self.query, self.names, self.document)
        page = self.rows[self.given:self.given + most]
        self.given += len(page)
        return page, self.given < len(self.rows)


class Sessions:
    def __init__(self):
        self.open = {}

    def reply(self, line):
        """The reply to a line, without its line feed."""
        request = request_of(line)
        if request is None:
            return text_of({'error': 'request'})
        number = request['id']
        kinds = {'open': self.opened, 'next': self.given, 'close': self.closed, 'grow': self.grown}
        return text_of(dict(kinds[request['op']](number, request), id=number))

    def wants_memory(self, line):
        """The other reply that a request may have, which closes its session; None where the line is no request."""
        request = request_of(line)
        if request is None:
            return None
        self.open.pop(request['id'], None)
        return text_of({'error': 'memory', 'id': request['id']})

    def opened(self, number, request):
        if number in self.open:
            return {'error': 'taken'}
        if len(self.open) == MOST_SESSIONS:
            return {'error': 'full'}
        try:
            query, names = read_query(request['query'].encode())
            refuse_sizes(query)
        except Refusal as refusal:
            return {'error': refusal.note}
        self.open[number] = Session(query, names, request['doc'].encode())
        return {'variables': names}

    def given(self, number, request):
        if number not in self.open:
            return {'error': 'not open'}
        session = self.open[number]
        rows, more = session.give(request['n'])
        return {'more': more, 'rows': [dict(zip(session.names, row)) for row in rows]}

    def closed(self, number, _):
        if number not in self.open:
            return {'error': 'not open'}
        del self.open[number]
        return {'closed': True}

    def grown(self, number, request):
        if number not in self.open:
            return {'error': 'not open'}
        session = self.open[number]
        document = session.document + request['text'].encode()
        if len(document) > LONGEST_DOCUMENT:
            return {'error': 'long'}
        session.grow(document)
        return {'bytes': len(document)}


def text_of(reply):
    """The object, its members by their names."""
    return json.dumps(reply, separators=(',', ':'), sort_keys=True).encode()


# --- A run ---------------------------------------------------------------------------------------

def serve(requests, write):
    """The status and the note; `requests` is a stream, and `write` writes bytes and tells whether it could."""
    sessions = Sessions()
    while True:
        try:
            line = requests.readline(LONGEST_LINE + 1)
        except OSError:
            return READ, 'read failed: requests'
        if not line:
            return 0, 'end'
        if line.endswith(b'\n'):
            line = line[:-1]
        elif len(line) > LONGEST_LINE:
            return LONG, 'request longer than %d bytes' % LONGEST_LINE
        if not write(sessions.reply(line) + b'\n'):
            return WRITE, 'write failed'


def run(requests):
    """The exit status, the bytes of standard output and the note's line of a run on these bytes."""
    sys.setrecursionlimit(20000)
    replies = []
    status, note = serve(io.BytesIO(requests), lambda reply: replies.append(reply) or True)
    return status, b''.join(replies), note.encode() + b'\n'


class Input:
    """The lines of standard input, as they come."""

    def __init__(self):
        self.kept = b''

    def readline(self, limit):
        """The next line with its line feed, or so many bytes of it; nothing at the end."""
        while b'\n' not in self.kept and len(self.kept) < limit:
            piece = os.read(0, 1 << 16)
            if not piece:
                break
            self.kept += piece
        end = min(self.kept.find(b'\n') + 1 or limit, limit)
        line, self.kept = self.kept[:end], self.kept[end:]
        return line


def main():
    sys.setrecursionlimit(20000)
    status, note = serve(Input(), lambda reply: put(1, reply))
    if not put(2, note.encode() + b'\n') and status == 0:
        status = WRITE
    return status


if __name__ == '__main__':
    os._exit(main())
