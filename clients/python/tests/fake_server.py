#!/usr/bin/env python3
"""Sessions as `rematch --serve` has them, slowly, by the reference of tests/oracle: what the tests of sessions stand on where
the program has none. Under other words it is the reference. FAKE names a fault that it makes."""
import json
import os
import re
import sys

sys.dont_write_bytecode = True
ROOT = os.path.dirname(os.path.dirname(os.path.dirname(os.path.dirname(os.path.abspath(__file__)))))
sys.path.insert(0, os.path.join(ROOT, 'tests', 'oracle'))
import rematch_oracle as oracle  # noqa: E402

LONGEST, LARGEST = 1048576, 16777216
MEMBERS = {'open': {'id': int, 'query': str, 'doc': str}, 'next': {'id': int, 'n': int}, 'close': {'id': int}, 'grow': {'id': int, 'text': str}}
FAKE = os.environ.get('FAKE', '')


class Session:
    def __init__(self, query, document):
        self.document = document
        self.query, self.names = oracle.read_query(query.encode())
        oracle.refuse_sizes(self.query)
        self.given = 0

    def rows(self):
        return oracle.all_rows(self.query, self.names, self.document.encode())


def is_request(asked):
    if not isinstance(asked, dict) or asked.get('op') not in MEMBERS:
        return False
    kinds = MEMBERS[asked['op']]
    return (set(asked) == {'op', *kinds} and all(type(asked[name]) is kind for name, kind in kinds.items())
            and 0 <= asked['id'] < 1 << 32 and 1 <= asked.get('n', 1) <= 1000)


class Server:
    def __init__(self):
        self.sessions = {}

    def open(self, number, asked):
        if number in self.sessions:
            raise oracle.Refusal(0, 'taken')
        if len(self.sessions) == 64:
            raise oracle.Refusal(0, 'full')
        session = self.sessions[number] = Session(asked['query'], asked['doc'])
        return {'id': number, 'variables': session.names}

    def next(self, number, asked):
        session = self.sessions[number]
        rows = session.rows()
        part = rows[session.given:session.given + asked['n']]
        session.given += len(part)
        return {'id': number, 'more': session.given < len(rows), 'rows': [dict(zip(session.names, row)) for row in part]}

    def close(self, number, asked):
        del self.sessions[number]
        return {'closed': True, 'id': number}

    def grow(self, number, asked):
        session = self.sessions[number]
        length = len((session.document + asked['text']).encode())
        if length > LARGEST:
            raise oracle.Refusal(0, 'long')
        session.document += asked['text']
        session.given = 0
        return {'bytes': length, 'id': number}

    def reply(self, line):
        try:
            asked = json.loads(line)
        except ValueError:
            asked = None
        if not is_request(asked):
            return {'error': 'request'}
        number = asked['id']
        if asked['op'] != 'open' and number not in self.sessions:
            return {'error': 'not open', 'id': number}
        if FAKE in ('memory', 'size: table past 1000000') and asked['op'] == 'next':
            del self.sessions[number]
            return {'error': FAKE, 'id': number}
        try:
            return getattr(self, asked['op'])(number, asked)
        except oracle.Refusal as refusal:
            if refusal.note not in ('taken', 'full', 'long'):
                self.sessions.pop(number, None)
            return {'error': refusal.note, 'id': number}


def end(status, note):
    sys.stdout.flush()
    sys.stderr.write(note + '\n')
    sys.exit(status)


def main():
    if sys.argv[1:] != ['--serve']:
        os.execv(os.path.join(ROOT, 'tests', 'oracle', 'rematch_oracle.py'), ['rematch_oracle.py', *sys.argv[1:]])
    server = Server()
    for line in sys.stdin.buffer:
        line = line.rstrip(b'\n')
        if len(line) > LONGEST:
            end(6, 'request longer than %d bytes' % LONGEST)
        if FAKE == 'die':
            os.kill(os.getpid(), 9)
        if FAKE == 'end':
            end(0, 'end')
        text = json.dumps(server.reply(line), separators=(',', ':'))
        if FAKE == 'garbage':
            text = 'garbage'
        if FAKE == 'other':
            text = re.sub('"id":[0-9]+', '"id":99', text)
        sys.stdout.write(text + '\n')
        sys.stdout.flush()
    end(0, 'end')


if __name__ == '__main__':
    main()
