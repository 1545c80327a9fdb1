#!/usr/bin/env python3
"""What a server, a followed log and a short run cost.

    bench/sessions.py [--program PATH] [--times N] [--keep] [requests] [memory] [growing] [following] [short]

requests    sessions opened, asked and closed: requests a second and microseconds of processor time for each
memory      MB of a server with no session, with one and with 64
growing     4,000 pieces of 4,000 bytes appended to one document, with and without a row asked behind each
following   a log that is followed: a line a piece, a row asked behind each
short       runs on a document of 100 bytes, beside an empty program, `rg` and `grep`

Without names all five are measured; each prints a table. With --keep each is written to bench/measured too, from which docs/make
makes the tables of bench/README.md. Python 3.8, standard library; Linux.
"""
import argparse
import json
import os
import resource
import shutil
import statistics
import subprocess
import sys
import tempfile
import threading
import time

sys.dont_write_bytecode = True
ROOT = os.path.dirname(os.path.dirname(os.path.abspath(__file__)))
sys.path.insert(0, os.path.join(ROOT, 'bench'))
import measured  # noqa: E402

LOGIN = r'/!user{\w+} logged in from !ip{\d+\.\d+\.\d+\.\d+}/'
LINE = 'u7 logged in from 10.2.3.4\n'
OTHER = 'tick 1234567\n'


class Server:
    """A program that serves sessions over two pipes."""

    def __init__(self, program):
        self.process = subprocess.Popen([program, '--serve'], stdin=subprocess.PIPE, stdout=subprocess.PIPE)

    def __enter__(self):
        return self

    def __exit__(self, *_):
        self.process.stdin.close()
        self.process.stdout.close()
        self.process.wait()

    def ask(self, **request):
        """One request and its reply."""
        return self.ask_all([line_of(**request)])

    def ask_all(self, lines):
        """All requests, written while the replies are read."""
        def write():
            self.process.stdin.write(b''.join(lines))
            self.process.stdin.flush()

        writer = threading.Thread(target=write)
        writer.start()
        for line in lines:
            reply = self.process.stdout.readline()
            if b'"error"' in reply or not reply:
                raise SystemExit('refused: %r answers %r' % (line, reply))
        writer.join()

    def seconds(self):
        """Processor seconds so far."""
        with open('/proc/%d/stat' % self.process.pid) as file:
            fields = file.read().rsplit(')', 1)[1].split()
        return (int(fields[11]) + int(fields[12])) / os.sysconf('SC_CLK_TCK')

    def megabytes(self):
        with open('/proc/%d/status' % self.process.pid) as file:
            return next(int(line.split()[1]) for line in file if line.startswith('VmRSS')) / 1024

    def cost(self, lines):
        """The wall time and the processor time of these requests."""
        begun, used = time.time(), self.seconds()
        self.ask_all(lines)
        return time.time() - begun, self.seconds() - used


def line_of(**request):
    return json.dumps(request).encode() + b'\n'


def requests(given):
    for name, query, text in (('open, next, close: a log query', LOGIN, LINE + OTHER), ('the same: `/!x{a+}b/`', '/!x{a+}b/', 'aab')):
        with Server(given.program) as server:
            lines = [line for k in range(1, 2001) for line in (
                line_of(op='open', id=k, query=query, doc=text), line_of(op='next', id=k, n=10), line_of(op='close', id=k))]
            wall, used = server.cost(lines)
        yield name, '%.0f' % (len(lines) / wall), '%.1f' % (used / len(lines) * 1e6)
    with Server(given.program) as server:
        server.ask(op='open', id=1, query=LOGIN, doc=LINE)
        for name, line in (('next alone', line_of(op='next', id=1, n=10)), ('grow by 13 bytes', line_of(op='grow', id=1, text=OTHER))):
            wall, used = server.cost([line] * 20000)
            yield name, '%.0f' % (20000 / wall), '%.1f' % (used / 20000 * 1e6)


def memory(given):
    with Server(given.program) as server:
        server.ask_all([line_of(op='open', id=1, query=LOGIN, doc=LINE), line_of(op='close', id=1)])
        yield '0', '%.1f' % server.megabytes()
        for k in range(1, 65):
            server.ask(op='open', id=k, query=LOGIN, doc=LINE)
            if k in (1, 64):
                yield str(k), '%.1f' % server.megabytes()


def growing(given):
    for name, query, text in (('letters, `/!x{a}c/`', '/!x{a}c/', 'a' * 4000), ('a log without a login', LOGIN, (OTHER * 400)[:4000]),
                              ('a log with one login a piece', LOGIN, (LINE + OTHER * 400)[:4000])):
        grow, ask = line_of(op='grow', id=1, text=text), line_of(op='next', id=1, n=1)
        for more, lines in (('', [grow] * 4000), (', a row asked behind each', [grow, ask] * 4000)):
            with Server(given.program) as server:
                server.ask(op='open', id=1, query=query, doc='')
                wall, used = server.cost(lines)
                yield name + more, '%.2f' % wall, '%.2f' % used, '%.0f' % (used / 16e6 * 1e9), '%.0f' % server.megabytes()


def following(given):
    for count in (1000, 2000, 4000, 8000):
        with Server(given.program) as server:
            server.ask(op='open', id=1, query=LOGIN, doc='')
            _, used = server.cost([line_of(op='grow', id=1, text=LINE), line_of(op='next', id=1, n=1)] * count)
        yield format(count, ','), '%.2f' % used, '%.2f' % (used / count * 1e3)


def each_run(words, count):
    """Milliseconds of wall and of processor time of one run."""
    begun, before = time.time(), resource.getrusage(resource.RUSAGE_CHILDREN)
    for _ in range(count):
        subprocess.run(words, stdin=subprocess.DEVNULL, stdout=subprocess.DEVNULL, stderr=subprocess.DEVNULL, check=False)
    after = resource.getrusage(resource.RUSAGE_CHILDREN)
    used = after.ru_utime + after.ru_stime - before.ru_utime - before.ru_stime
    return (time.time() - begun) / count * 1e3, used / count * 1e3


def short(given):
    with tempfile.TemporaryDirectory() as folder:
        document = os.path.join(folder, 'document')
        with open(document, 'w') as out:
            out.write((LINE + OTHER) * 2)
        for name, words in (('an empty program', ['true']), ('rematch, a log query', [given.program, '-e', LOGIN, document]),
                            (r'rematch, `/!x{\p{L}+}/u`', [given.program, '-e', r'/!x{\p{L}+}/u', document]),
                            ('rg', ['rg', '-oaN', '--no-config', '-e', r'(?-u)(\w+) logged in', document]),
                            ('grep -oP', ['grep', '-oP', r'\w+ logged in', document])):
            if shutil.which(words[0]):
                wall, used = zip(*(each_run(words, 60) for _ in range(given.times)))
                yield name, '%.2f' % statistics.median(wall), '%.2f' % statistics.median(used)


TABLES = {  # its columns, what gives its rows, and the name of its file
    'requests': (['Requests, all written at once', 'a second', 'microseconds of processor time each'], requests, 'requests'),
    'memory': (['Sessions open', 'MB'], memory, 'server_memory'),
    'growing': (['4,000 pieces of 4,000 bytes', 'Wall seconds', 'Processor seconds', 'ns a byte', 'MB'], growing, 'pieces'),
    'following': (['Lines followed, a row asked behind each', 'Processor seconds', 'Milliseconds a line'], following, 'followed'),
    'short': (['Run on 100 bytes', 'Wall milliseconds', 'Processor milliseconds'], short, 'short_runs'),
}


def show(name, given):
    """Prints a table row by row, and keeps it where that is asked for."""
    columns, rows_of, file = TABLES[name]
    print('\n| %s |\n|%s' % (' | '.join(columns), '---|' * len(columns)))
    rows = []
    for row in rows_of(given):
        rows.append(row)
        print('| %s |' % ' | '.join(row), flush=True)
    if given.keep:
        measured.keep(file, columns, rows, given.program, what=columns[0], how='bench/sessions.py --keep')


def main():
    parser = argparse.ArgumentParser(description='What a server, a followed log and a short run cost.')
    parser.add_argument('--program', default=os.path.join(ROOT, 'crates', 'rematch', 'out', 'rematch'))
    parser.add_argument('--times', type=int, default=5)
    parser.add_argument('--keep', action='store_true')
    parser.add_argument('tables', nargs='*', choices=[[], *TABLES])
    given = parser.parse_args()
    given.program = os.path.abspath(given.program)
    print('load %.2f of %d processors' % (os.getloadavg()[0], os.cpu_count()))
    for name in given.tables or TABLES:
        show(name, given)


if __name__ == '__main__':
    main()
