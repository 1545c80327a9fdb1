#!/usr/bin/env python3
"""Measures how long queries take to be compiled to automata, and how much memory, where they are large.

    bench/compile.py [--program PATH] [--only NAME ..] [--seconds S] [--times N] [--keep]

PROGRAM is `check_automata`, which tells the size of the one query that it is given
(`rt run` in its folder builds it). With --keep the table is written to bench/measured too, from which docs/make
makes that of bench/README.md. Python 3.8, standard library; Linux, for the memory.
"""
import argparse
import os
import subprocess
import sys
import threading
from typing import NamedTuple

import measured

ROOT = os.path.dirname(os.path.dirname(os.path.abspath(__file__)))

MOST_WAYS = '/^(a?){1000}(a?){999}$/'  # 2,000 states, 1,999,000 ways: an atom at the limit

STARS = '/^' + '(' * 98 + '(a?){140}' + ')*' * 98 + '$/'  # 141 states, 1,930,670 ways, most of them several times
LETTERS = '/^(%s){5}$/' % ''.join('(%s?)' % letter for letter in 'abcdefghijklmnopqrstuvwxyz')


def lets(number, body, text):
    """So many lets x0, x1, .. of the same formula, and then the body."""
    return ''.join('let x%d=%s;' % (i, text) for i in range(number)) + body


QUERIES = {
    'an atom of 20,000 states': '/^(a{1000}){19}a{999}$/',
    'an atom of 1,999,000 ways': MOST_WAYS,
    'an atom refused by its count': '/((((a{1000}){1000}){1000}){1000}){1000}/',
    'two such atoms, joined, no byte in common': MOST_WAYS + ' join ' + MOST_WAYS.replace('a', 'b'),
    'a let of it, joined with itself': 'let x=' + MOST_WAYS + '; x join x',
    'a let of it, a thousand times joined with /^$/': 'let x=' + MOST_WAYS + '; /^$/' + ' join x' * 1000,
    'a union of it and 2,000 small atoms': MOST_WAYS + ' union /^$/' * 2000,
    'a union of half of it and 1,000 small atoms': '/^(a?){1000}(a?){400}$/' + ' union /^$/' * 1000,
    'a hundred lets of it that nothing uses': lets(100, '/a/', MOST_WAYS),
    '1,700 lets of it that nothing uses': lets(1700, '/a/', MOST_WAYS),
    'four lets of it that the body joins': lets(4, '/^$/ join x0 join x1 join x2 join x3', MOST_WAYS),
    'four lets of it that the body unites': lets(4, 'x0 union x1 union x2 union x3', MOST_WAYS),
    'ten lets of it, each joined with /^$/, in a union':
        lets(10, ' union '.join('(/^$/ join x%d)' % k for k in range(10)), MOST_WAYS),
    '1,700 atoms of it, joined': ' join '.join([MOST_WAYS] * 1700),
    'a let of a smaller one, joined with itself in pairs 2,000 times':
        'let x=%s;' % LETTERS + ' join '.join(['(x join x)'] * 2000),
    'a chain of 2,500 projections of it': 'let x0=/^(!y{}a?)(a?){1000}(a?){998}$/;'
        + ''.join('let x%d=project y(x%d);' % (k, k - 1) for k in range(1, 2500)) + '/^$/ join x2499',
    '19,000 copies of 32,000 parts without a place': '/^((a%s){1000}){19}$/' % ('()' * 32000),
    'stars, 98 deep, of 140 places': STARS,
    'two of such stars that share a byte in few places, joined':
        ' join '.join('/^%s%s%s$/' % ('(' * 97, '(%s?){45}(z?){4}(%s?){45}(%s?){44}' % tuple(letters), ')*' * 97)
                      for letters in ('abc', 'def')),
    'two stars of which each pair of places goes on with few of many ways':
        ' join '.join('/^%s(w%s)(y?){13}%s$/' % ('(' * 98, ('|' + letter) * 120, ')*' * 98) for letter in 'ab'),
    'two of such stars, in a let that nothing uses':
        'let x=' + ' join '.join('/^%s%s%s$/' % ('(' * 97, '(%s?){45}(z?){4}(%s?){45}(%s?){44}' % tuple(letters), ')*' * 97)
                                 for letters in ('abc', 'def')) + '; /a/',
    'two stars of two places, joined with two long alternations':
        ' join '.join(['/^%sc?b?%s$/' % ('(' * 98, ')*' * 98)] * 2 + ['/^(%s)(%s)$/' % ('|'.join('c' * 1400), '|'.join('b' * 1400))]),
    'a large let beside a union of two large atoms':
        'let h=(/^(a?){1000}(a?){990}$/ union /^$/); (h join /^$/) union ((%s union %s) join /^$/) union (h join /^$/)'
        % (MOST_WAYS, MOST_WAYS.replace('a', 'b')),
    'a hundred and forty of these, each joined with /^$/, in a union': ' union '.join(['(/^$/ join %s)' % STARS] * 140),
    'nine lets of a union, each joined with /^$/, in a union':
        lets(9, ' union '.join('(/^$/ join x%d)' % k for k in range(9)), '/^(a?){1000}(a?){990}$/ union /^$/'),
    'a thousand names for one let of it': 'let x0=' + MOST_WAYS + ';'
        + ''.join('let x%d=x%d;' % (i, i - 1) for i in range(1, 1000)) + '/^$/ join x999',
    'pairs that go on with few of many ways': '/^(%s(A?){300}){5}$/ join /^(%s(B?){300}){5}$/'
        % (('a?b?c?d?e?f?g?h?i?j?k?l?m?n?o?p?q?r?s?t?u?v?w?x?y?z?',) * 2),
    'the longest query of small atoms': 'join'.join(['/a/'] * 9000),
}


class Run(NamedTuple):
    told: str
    seconds: float
    peak: int  # KiB


def run(program, query, seconds):
    started = subprocess.Popen([program, query], stdout=subprocess.PIPE, stderr=subprocess.DEVNULL, text=True)
    timer = threading.Timer(seconds, started.kill)
    timer.start()
    told = started.stdout.read().strip()
    _, status, used = os.wait4(started.pid, 0)
    timer.cancel()
    started.returncode = status  # it has been waited for
    if os.WIFSIGNALED(status):
        told = 'ended by signal %d' % os.WTERMSIG(status)
    return Run(told, used.ru_utime + used.ru_stime, used.ru_maxrss)


def main():
    parser = argparse.ArgumentParser(description='Measures how long large queries take to be compiled.')
    parser.add_argument('--program', default=os.path.join(ROOT, 'crates', 'check_automata', 'out', 'check_automata'))
    parser.add_argument('--only', nargs='+', metavar='NAME')
    parser.add_argument('--seconds', type=float, default=120)
    parser.add_argument('--times', type=int, default=1)
    parser.add_argument('--keep', action='store_true')
    given = parser.parse_args()
    if given.keep and given.only:
        sys.exit('--keep is for all queries')
    if not os.access(given.program, os.X_OK):
        sys.exit('check_automata is not built: %s' % given.program)
    print('load %.2f of %d processors' % (os.getloadavg()[0], os.cpu_count()))
    print('%-48s %8s %8s %8s  %s' % ('query', 'bytes', 'seconds', 'peak MB', 'told'))
    table = []
    for name, query in QUERIES.items():
        if given.only and not any(word in name for word in given.only):
            continue
        best = min((run(given.program, query, given.seconds) for _ in range(given.times)), key=lambda one: one.seconds)
        print('%-48s %8d %8.2f %8.1f  %s' % (name, len(query), best.seconds, best.peak / 1024, best.told[:60]))
        sys.stdout.flush()
        table.append([name, '%.2f' % best.seconds, '%.0f MB' % (best.peak / 1024), best.told[:60]])
    if given.keep:
        measured.keep('automata', ['Query', 'Seconds', 'Most memory', 'What comes of it'], table, what='compiling one query',
                      how='bench/compile.py --keep', note='Processor seconds and the most memory, the least of %d runs.' % given.times)


if __name__ == '__main__':
    main()
