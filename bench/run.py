#!/usr/bin/env python3
"""Measures rematch beside other tools on documents that documents.py makes.

    bench/run.py [--program PATH] [--log LINES] [--sparse LINES] [--text BYTES] [--dna BYTES]
                 [--seed S] [--times N] [--seconds S] [--only KIND ..] [--keep]

For each document and each tool: the seconds of processor time (the least of N runs), the rows, the
share of all rows that they are, and the most memory. All rows are those of rematch, or else those of
Perl. A tool that is not installed is left out with a line, and so is one that does not end in time.

    rematch     all rows, in order
    perl        all rows, by a pattern that always fails after noting what it captured, without order
    pcre2grep   the matches that it gives: leftmost, greedy, not overlapping
    rg          likewise

With --keep the table is written to bench/measured too, from which docs/make makes that of bench/README.md.

Python 3.8, standard library; Linux, for the memory.
"""
import argparse
import os
import shutil
import subprocess
import sys
import tempfile
import threading
from typing import NamedTuple

import documents
import measured

ROOT = os.path.dirname(os.path.dirname(os.path.abspath(__file__)))


class Task(NamedTuple):
    kind: str  # of the document
    size: int  # where none is given
    query: str
    pattern: str  # the same for the other tools, its groups numbered by their places
    row: str  # the row in Perl, by the groups' numbers


LOGIN = Task('log', 30000,
             r'/!user{\w+} logged in from !ip{\d+\.\d+\.\d+\.\d+}/',
             r'(\w+) logged in from (\d+\.\d+\.\d+\.\d+)',
             'ip=$-[2]-$+[2] user=$-[1]-$+[1]')
TASKS = [
    LOGIN,
    LOGIN._replace(kind='sparse'),
    Task('text', 10000,
         r'/!first{\w+} !second{\w+}/',
         r'(\w+) (\w+)',
         'first=$-[1]-$+[1] second=$-[2]-$+[2]'),
    Task('dna', 300000,
         r'/!left{GATC}[ACGT]{0,50}!right{GATC}/',
         r'(GATC)[ACGT]{0,50}(GATC)',
         'left=$-[1]-$+[1] right=$-[2]-$+[2]'),
]

PERL = r'''
local $/; open my $file, "<:raw", $ARGV[0] or die; my $document = <$file>; my %%rows;
$document =~ m~%s(?{ $rows{"%s"} = 1 })(*FAIL)~a;
print "$_\n" for keys %%rows;
'''


NO_FAULT = {'pcre2grep': (0, 1), 'rg': (0, 1)}  # 1: no match


class Run(NamedTuple):
    seconds: float
    peak: int  # KiB


def commands(task, program, document):
    """The command of each tool; its output has a row a line."""
    return [
        ('rematch', [program, '-e', task.query, document]),
        ('perl', ['perl', '-e', PERL % (task.pattern, task.row), document]),
        ('pcre2grep', ['pcre2grep', '--file-offsets', '-e', task.pattern, document]),
        ('rg', ['rg', '-oaN', '--no-filename', '-e', '(?-u)' + task.pattern, document]),
    ]


def run(command, out, seconds):
    """One run, or None where it does not end in time or does not go well."""
    started = subprocess.Popen(command, stdin=subprocess.DEVNULL, stdout=out, stderr=subprocess.DEVNULL)
    timer = threading.Timer(seconds, started.kill)
    timer.start()
    _, status, used = os.wait4(started.pid, 0)
    timer.cancel()
    started.returncode = status  # it has been waited for
    ended = os.WIFEXITED(status) and os.WEXITSTATUS(status) in NO_FAULT.get(command[0], (0,))
    return Run(used.ru_utime + used.ru_stime, used.ru_maxrss) if ended else None


def measure(command, times, seconds, path):
    """The least of several runs; the last one's rows stand in the file."""
    best = None
    for _ in range(times):
        with open(path, 'wb') as out:
            one = run(command, out, seconds)
        if one is None:
            return None
        best = one if best is None or one.seconds < best.seconds else best
    return best


def lines_of(path):
    with open(path, 'rb') as file:
        return sum(chunk.count(b'\n') for chunk in iter(lambda: file.read(1 << 20), b''))


def same_rows(one, other):
    with open(one, 'rb') as a, open(other, 'rb') as b:
        return set(a) == set(b)


def show(task, given, folder):
    document = os.path.join(folder, 'document')
    with open(document, 'wb') as out:
        length = documents.write(task.kind, given.sizes[task.kind], given.seed, out)
    print('\n%s %d, seed %d: %d bytes, %s' % (task.kind, given.sizes[task.kind], given.seed, length, task.query))
    print('    %-10s %9s %10s %8s %8s' % ('tool', 'seconds', 'rows', 'share', 'peak MB'))
    total = None
    exhaustive = None
    table = []
    for tool, command in commands(task, given.program, document):
        if not shutil.which(command[0]):
            print('    %-10s not installed, left out' % tool)
            continue
        path = os.path.join(folder, tool)
        best = measure(command, given.times, given.seconds, path)
        if best is None:
            print('    %-10s did not end well within %g seconds, left out' % (tool, given.seconds))
            continue
        rows = lines_of(path)
        total = rows if total is None else total
        share = '%.1f%%' % (100 * rows / total) if total else '-'
        table.append(['' if table else '%s, %s bytes' % (task.kind, format(length, ',')), tool, '%.3f' % best.seconds, format(rows, ','), share])
        print('    %-10s %9.3f %10d %8s %8.1f' % (tool, best.seconds, rows, share, best.peak / 1024))
        if tool in ('rematch', 'perl'):
            if exhaustive and not same_rows(exhaustive, path):
                print('    %-10s has other rows than rematch' % tool)
            exhaustive = path
        sys.stdout.flush()
    return table


def main():
    parser = argparse.ArgumentParser(description='Measures rematch beside other tools.')
    parser.add_argument('--program', default=os.path.join(ROOT, 'crates', 'rematch', 'out', 'rematch'))
    for task in TASKS:
        parser.add_argument('--' + task.kind, type=int, default=task.size, metavar='SIZE')
    parser.add_argument('--seed', type=int, default=1)
    parser.add_argument('--times', type=int, default=3)
    parser.add_argument('--seconds', type=float, default=60)
    parser.add_argument('--only', nargs='+', choices=[task.kind for task in TASKS])
    parser.add_argument('--keep', action='store_true')
    given = parser.parse_args()
    given.program = os.path.abspath(given.program)
    given.sizes = {task.kind: getattr(given, task.kind) for task in TASKS}
    if not os.access(given.program, os.X_OK):
        print('rematch is not built: %s' % given.program)
    print('load %.2f of %d processors' % (os.getloadavg()[0], os.cpu_count()))
    if given.keep and given.only:
        sys.exit('--keep is for all documents')
    table = []
    with tempfile.TemporaryDirectory() as folder:
        for task in TASKS:
            if not given.only or task.kind in given.only:
                table += show(task, given, folder)
    if given.keep:
        measured.keep('first_comparison', ['Document', 'Tool', 'Seconds', 'Rows', 'Share of all rows'], table, given.program,
                      what='a first comparison', how='bench/run.py ' + ' '.join(sys.argv[1:]), note='The least of %d runs.' % given.times)


if __name__ == '__main__':
    main()
