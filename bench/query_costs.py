#!/usr/bin/env python3
"""Measures what queries of some shapes cost: to be made, and for each byte of a document.

    bench/query_costs.py [--program PATH] [--keep]

For each query it prints the states and ways of its atoms, as --explain counts them, and the processor seconds and the most
memory of a run on the empty document and of one on 2,000 bytes. Then come queries that meet a guard, each beside one that just
does not, and a test that never passes, by the length of the document. With --keep it writes query_costs.tsv, guards.tsv and
failing_tests.tsv of bench/measured, from which docs/make makes tables of docs/LIMITS.md. Linux, Python 3.8, standard library.
"""
import argparse
import os
import re
import sys
import tempfile

sys.dont_write_bytecode = True
ROOT = os.path.dirname(os.path.dirname(os.path.abspath(__file__)))
sys.path[:0] = [os.path.join(ROOT, 'bench'), os.path.join(ROOT, 'tests', 'cli')]
import measured  # noqa: E402
from limited import Limits, lay_out, run  # noqa: E402

LIMITS = Limits(clock=300, stack=8 << 20, memory=4 << 30, tick=0.002)
LETTERS = b'a' * 2000
WORDS = (b'the quick brown fox jumps over the lazy dog again and ' * 40)[:2000]
LARGE = '/^(a?){1000}(a?){999}$/'


def optional(count, name='v'):
    return ''.join('(!%s%d{})?' % (name, number) for number in range(count))


def lets(count):
    return ''.join('let x%d = %s; ' % (number, LARGE) for number in range(count)) + '/!x{a}/'


def two(count):
    return '/^%s$/ join /^%s$/' % (optional(count), optional(count, 'w'))


def unchanged(count):
    return '/^(a?){%d}(a?){%d}$/' % (count, count)


QUERIES = [
    ('`/Failed password for (invalid user |)!user{\\w+} from !address{[\\d.]+} port /`', None, WORDS),
    ('`/!x{\\w{1,100}}/`', None, WORDS),
    ('`/^(a?){n}(a?){n}$/`, n = 10', unchanged(10), LETTERS),
    ('n = 100', unchanged(100), LETTERS),
    ('n = 300', unchanged(300), LETTERS),
    ('n = 1,000 and 990, near the limit', '/^(a?){1000}(a?){990}$/', LETTERS),
    ('`/[^\\p{L}]!x{\\p{L}{1,5}}[^\\p{L}]/u`', None, WORDS),
    ('the same with `{1,50}`', '/[^\\p{L}]!x{\\p{L}{1,50}}[^\\p{L}]/u', WORDS),
    ('16 optional captures of the empty part', '/^%s$/' % optional(16), b''),
    ('32 captures of `.*` beside each other', '/%s/' % ''.join('!v%d{.*}' % number for number in range(32)), LETTERS),
    ('`/^[ab]*$/ minus /^[ab]*a[ab]{12}$/`', None, LETTERS),
    ('`\\p{L}` 700 times', '/%s/u' % ('\\p{L}' * 700), WORDS),
    ('`\\p{L}` 13,000 times', '/%s/u' % ('\\p{L}' * 13000), WORDS),
]


GUARDS = [  # a guard, a text, and the query; T15 and U15 are fifteen optional captures of the empty part
    ('`MOST_HELD`', '3 lets of `%s`, then `/!x{a}/`' % LARGE, lets(3)),
    ('`MOST_HELD`', '4 of them', lets(4)),
    ('`MOST_STEPS`', '`/^T15a$/ join /^U15b$/`', '/^%sa$/ join /^%sb$/' % (optional(15), optional(15, 'w'))),
    ('`MOST_STEPS`', '`/^T16a$/ join /^U16b$/`', '/^%sa$/ join /^%sb$/' % (optional(16), optional(16, 'w'))),
    ('`MOST_STEPS`', '`/!x{[ab]*}/ minus /!x{([ab]?){500}([ab]?){400}}/`', '/!x{[ab]*}/ minus /!x{([ab]?){500}([ab]?){400}}/'),
    ('`MOST_STEPS`', 'the same with `{1000}` and `{900}`', '/!x{[ab]*}/ minus /!x{([ab]?){1000}([ab]?){900}}/'),
    ('`MOST_STEPS`', '`/^a/ minus /^(.{450,}){22}/`', '/^a/ minus /^(.{450,}){22}/'),
    ('ends of an atom', '`/^(a?){200}T15$/`', '/^(a?){200}%s$/' % optional(15)),
    ('ends of an atom', '`/^(a?){250}T15$/`', '/^(a?){250}%s$/' % optional(15)),
    ('ends of a join', '`/^T11$/ join /^U11$/`', two(11)),
    ('ends of a join', '`/^T12$/ join /^U12$/`', two(12)),
]


class Costs:
    def __init__(self, program):
        self.program = program

    def run(self, query, document, *words):
        with tempfile.TemporaryDirectory() as folder:
            lay_out(folder, query.encode(), document)
            return run(self.program, ['-q', 'Q', *words], folder, LIMITS)

    def row(self, name, query, document):
        """What a query costs: bytes, states, ways, making, reading, and how it ends."""
        query = query or re.search('`(.*)`', name)[1]
        counted = re.findall(r'states (\d+) ways (\d+)', self.run(query, b'', '--explain').out.decode())
        numbers = [format(sum(int(pair[kind]) for pair in counted), ',') if counted else '' for kind in (0, 1)]
        made = self.run(query, b'', '-n', '1', 'D')
        read = self.run(query, document, '-n', '1', 'D')
        note = made.note.decode().strip()
        ending = 'end' if note.startswith(('end', 'more')) else note
        return [name, format(len(query), ',')] + numbers + [took(made), took(read) if ending == 'end' and document else '', ending]


    def guarded(self, guard, text, query):
        ended = self.run(query, b'', '-n', '1', 'D')
        note = ended.note.decode().strip()
        return [guard, text, format(len(query), ','), took(ended), 'answered' if note.startswith(('end', 'more')) else note]


def took(ended):
    return '%.2f, %.0f' % (ended.seconds, ended.held) if ended.held >= 1 else '%.2f' % ended.seconds


def main():
    parser = argparse.ArgumentParser(description='Measures what queries of some shapes cost.')
    parser.add_argument('--program', default=os.path.join(ROOT, 'crates', 'rematch', 'out', 'rematch'))
    parser.add_argument('--keep', action='store_true')
    given = parser.parse_args()
    costs = Costs(os.path.realpath(given.program))
    columns = ['Query', 'Bytes of text', 'States', 'Ways', 'Making: seconds, MB', 'With 2,000 bytes: seconds, MB', 'Ends by']
    rows = []
    for query in QUERIES:
        rows.append(costs.row(*query))
        print('\t'.join(rows[-1]), flush=True)
    guards = []
    for guard in GUARDS:
        guards.append(costs.guarded(*guard))
        print('\t'.join(guards[-1]), flush=True)
    failing = []
    for length in (2000, 6000, 20000):
        ended = costs.run('/!x{a*}/ where upper(x)', b'a' * length, 'D')
        answers = (length + 1) * (length + 2) // 2
        failing.append([format(length, ','), format(answers, ','), '%.2f' % ended.seconds, '%.0f' % (ended.seconds / answers * 1e9)])
        print('\t'.join(failing[-1]), flush=True)
    if given.keep:
        measured.keep('query_costs', columns, rows, costs.program, what='what queries cost', how='bench/query_costs.py --keep',
                      note='Processor seconds and the most memory of one run each; states and ways are those of all atoms.')
        measured.keep('guards', ['Guard', 'Query', 'Bytes of text', 'Seconds, MB', 'Ends by'], guards, costs.program,
                      what='queries that meet a guard', how='bench/query_costs.py --keep',
                      note='T15 and U15 are fifteen optional captures of the empty part, as `(!a{})?(!b{})?` is two.')
        measured.keep('failing_tests', ['Bytes', 'Answers', 'Seconds', 'ns an answer'], failing, costs.program, what='a test that never passes',
                      how='bench/query_costs.py --keep')
    return 0


if __name__ == '__main__':
    sys.exit(main())
