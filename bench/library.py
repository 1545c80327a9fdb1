#!/usr/bin/env python3
"""Measures queries of the Python package by the library in this process, beside `re` and the program.

    bench/library.py --library PATH [--program PATH] [--keep]

What it takes to import the package; many rows of a large document, as one array and as a count; a column of 30,000 one-line texts.
Each figure is the best of three, in wall seconds. With --keep the table is written to bench/measured too, from which docs/make
makes that of library/README.md. Python 3.9; numpy where it is installed.
"""
import argparse
import os
import re
import subprocess
import sys
import time

import measured

HERE = os.path.dirname(os.path.abspath(__file__))
ROOT = os.path.dirname(HERE)
PYTHON = os.path.join(ROOT, 'clients', 'python')
TEXTS = 30_000
TABLE = []  # what was told, as rows of a table


def best(call, times=3):
    seconds = []
    for _ in range(times):
        begun = time.perf_counter()
        call()
        seconds.append(time.perf_counter() - begun)
    return min(seconds)


def tell(what, seconds, rows=None):
    TABLE.append([what, '%.3f s' % seconds])
    print('%-52s %8.3f s%s' % (what, seconds, '' if rows is None else '  %6.2f million rows a second' % (rows / seconds / 1e6)))


def import_time(environment):
    def start(code):
        return lambda: subprocess.run([sys.executable, '-c', code], env=environment, check=True)
    return best(start('import rematch; rematch.Query("/a/")'), 7) - best(start('pass'), 7)


def rows_of_a_document(rematch):
    document = b'ab' * 1000
    query = rematch.Query('/!x{(a|b)+}/')
    rows = query.count(document)
    tell('%d rows as one array' % rows, best(lambda: query.spans(document)), rows)
    tell('their count', best(lambda: query.count(document)), rows)
    tell('as tuples', best(lambda: sum(1 for _ in query.rows(document)), 1), rows)


def column(rematch):
    with open(os.path.join(ROOT, 'examples', 'auth.log')) as file:
        lines = file.read().splitlines()
    texts = [lines[at % len(lines)] for at in range(TEXTS)]
    with open(os.path.join(ROOT, 'examples', 'failed.query')) as file:
        query = rematch.Query(file.read())
    pattern = re.compile(r'Failed password for (invalid user |)(?P<user>\w+) from (?P<address>[\d.]+) port ')
    tell('%d texts, Query.map' % TEXTS, best(lambda: sum(map(len, query.map(texts)))))
    tell('%d texts, re.finditer' % TEXTS, best(lambda: sum(1 for text in texts for _ in pattern.finditer(text))))
    data = [text.encode() for text in texts]
    if query._inside is not None:
        rows = query._inside.empty()
        tell('%d texts, the library alone' % TEXTS, best(lambda: [query._inside.read(text, rows) for text in data]))


def main():
    parser = argparse.ArgumentParser(description='Measures queries by the library in this process.')
    parser.add_argument('--library', required=True, metavar='PATH')
    parser.add_argument('--program', metavar='PATH')
    parser.add_argument('--keep', action='store_true')
    given = parser.parse_args()
    os.environ['REMATCH_LIBRARY'] = os.path.abspath(given.library)
    os.environ['PYTHONPATH'] = PYTHON
    if given.program:
        os.environ['REMATCH'] = os.path.abspath(given.program)
    sys.path.insert(0, PYTHON)
    import rematch
    tell('import and a first query', import_time(dict(os.environ)))
    rows_of_a_document(rematch)
    column(rematch)
    if given.keep:
        measured.keep('library', ['What', 'Wall time'], TABLE, given.program, what='queries of the Python package by the library',
                      how='bench/library.py --keep', note='The least of three, with Python %d.%d.' % sys.version_info[:2])


if __name__ == '__main__':
    main()
