#!/usr/bin/env python3
"""What the package costs: rows a second of each way to take them, the first row of a large document, importing.

    clients/python/measure.py [--program PATH]

Processor seconds of this process and of the program are told apart, of the best of three runs; clients/README.md has what
they were. It takes a minute and 500 MB.
"""
import argparse
import os
import resource
import subprocess
import sys
import tempfile
import time
from pathlib import Path

HERE = os.path.dirname(os.path.abspath(__file__))
sys.path.insert(0, HERE)

PAIRS = r'/ user!a{\d+} opened\n([^\n]*\n)*[^\n]* user!b{\d+} closed\n/'  # each opening with each closing behind it
LINE = 'Mar  4 06:22:04 gate sshd[4105]: nothing of interest happens on this line of the log, which is a long one\n'
FOUND = 'Mar  4 06:22:06 gate sshd[4105]: Failed password for test from 203.0.113.7 port 39548 ssh2\n'


def processor():
    own, below = resource.getrusage(resource.RUSAGE_SELF), resource.getrusage(resource.RUSAGE_CHILDREN)
    return own.ru_utime + own.ru_stime, below.ru_utime + below.ru_stime


def measure(name, run):
    best = None
    for _ in range(3):
        before, begun = processor(), time.perf_counter()
        rows = run()
        wall, after = time.perf_counter() - begun, processor()
        took = (after[0] - before[0], after[1] - before[1], wall, rows)
        best = min(best or took, took)
    client, program, wall, rows = best
    print('%-34s %8d rows  client %6.2f s  program %5.2f s  wall %6.2f s  %6.2f million rows a second of the client'
          % (name, rows, client, program, wall, rows / max(client, 1e-9) / 1e6), flush=True)


def first_row(query, document, name):
    best = []
    for _ in range(3):
        begun = time.perf_counter()
        rows = query.finditer(document)
        next(rows)
        best.append(time.perf_counter() - begun)
        rows.close()
    print('%-34s first row after %.2f s (wall)' % (name, min(best)), flush=True)


def main():
    parser = argparse.ArgumentParser()
    parser.add_argument('--program')
    given = parser.parse_args()
    if given.program:
        os.environ['REMATCH'] = os.path.abspath(given.program)
    import rematch
    document = ''.join('t%d user%d opened\nt%d user%d closed\n' % (k, k % 90, k, k % 70) for k in range(1760))
    data, query = document.encode(), rematch.Query(PAIRS)
    measure('rows()', lambda: sum(1 for _ in query.rows(data)))
    measure('finditer()', lambda: sum(1 for _ in query.finditer(data)))
    measure('finditer(), span()', lambda: sum(1 for match in query.finditer(data) if match.span('a')))
    measure('finditer(), group()', lambda: sum(1 for match in query.finditer(data) if match['a']))
    measure('finditer(), groupdict()', lambda: sum(1 for match in query.finditer(data) if match.groupdict()))
    measure('finditer() of a str, span()', lambda: sum(1 for match in query.finditer(document + 'é') if match.span('a')))
    measure('columns()', lambda: len(query.columns(data)['a'][0]))
    measure('count()', lambda: query.count(data))
    with tempfile.TemporaryDirectory() as folder:
        path = Path(folder, 'log')
        path.write_text((LINE * 99 + FOUND) * 10500)
        query = rematch.Query(r'/Failed password for !user{\w+} from !address{[\d.]+} port/')
        size = path.stat().st_size / 1e6
        first_row(query, path, '%.0f MB, a path' % size)
        first_row(query, path.read_bytes(), '%.0f MB, bytes' % size)
        first_row(query, path.read_text(), '%.0f MB, a str' % size)
        first_row(rematch.Query(r'/!x{[^\n]*}\n[^\n]*Failed/'), path, '%.0f MB, many rows' % size)
    small = rematch.Query(r'/from !address{[\d.]+} port/')
    begun = time.perf_counter()
    for _ in range(200):
        small.findall(FOUND)
    print('%-34s %.0f a second (wall)' % ('small documents, a run each', 200 / (time.perf_counter() - begun)))
    took = []
    for _ in range(20):
        before = processor()[1]
        subprocess.run([sys.executable, '-S', '-c', 'import sys; sys.path.insert(0, %r); import rematch' % HERE], check=True)
        one = processor()[1]
        subprocess.run([sys.executable, '-S', '-c', 'pass'], check=True)
        took.append((one - before) - (processor()[1] - one))
    print('%-34s %.0f ms (processor, over Python itself)' % ('import', 1000 * min(took)))


if __name__ == '__main__':
    main()
