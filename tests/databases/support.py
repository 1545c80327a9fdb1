"""What the tests of the databases share: counts, the library, drawn queries with the program's answers, and sessions of pages."""
import importlib.machinery
import importlib.util
import json
import os
import random
import re
import subprocess
import sys

sys.dont_write_bytecode = True
HERE = os.path.dirname(os.path.abspath(__file__))
ROOT = os.path.dirname(os.path.dirname(HERE))
EXAMPLES = os.path.join(ROOT, 'examples')
sys.path[:0] = [os.path.join(ROOT, 'tests', 'cli'), os.path.join(ROOT, 'release')]
from drawing import Maker  # noqa: E402


class Tests:
    """How many checks passed and failed."""

    def __init__(self):
        self.passed = self.failed = 0

    def check(self, name, holds, said=''):
        self.passed += bool(holds)
        self.failed += not holds
        if not holds:
            print('failed: %s\n%s' % (name, '\n'.join('    ' + line for line in str(said).splitlines()[-20:])))
        return bool(holds)

    def equal(self, name, got, wanted):
        return self.check(name, got == wanted, 'got    %r\nwanted %r' % (got, wanted))

    def skip(self, what, reason):
        print('skipped: %s, %s' % (what, reason))

    def ran(self, name, *words, **more):
        """What a command writes, where it ends with status 0; otherwise that is a failure."""
        done = subprocess.run(words, stdin=subprocess.DEVNULL, stdout=subprocess.PIPE, stderr=subprocess.STDOUT, timeout=900,
                              universal_newlines=True, errors='backslashreplace', **more)
        return done.stdout if self.check(name, done.returncode == 0, done.stdout) else None

    def over(self):
        print('%d passed, %d failed' % (self.passed, self.failed))
        return 1 if self.failed else 0


def script(*names):
    """A script of the repository as a module."""
    name = names[-1] + '_script'
    loader = importlib.machinery.SourceFileLoader(name, os.path.join(ROOT, *names))
    module = importlib.util.module_from_spec(importlib.util.spec_from_loader(name, loader))
    loader.exec_module(module)
    return module


def unpack_library(folder, names=('rematch.h', 'librematch.a', 'librematch_c.a')):
    """Writes released files of the library into a folder."""
    import libraries
    files = libraries.files_here()
    for name in names:
        with open(os.path.join(folder, name), 'wb') as file:
            file.write(files[name])


# ---- drawn pairs of query and document

class Answer:
    """What the program gives: its rows as objects of JSON, its note and its status."""

    def __init__(self, program, query, document, *words):
        run = subprocess.run([program, '-f', 'json', '-e=' + query, *words], input=document, stdout=subprocess.PIPE, stderr=subprocess.PIPE)
        self.status = run.returncode
        self.note = run.stderr.decode('utf-8', 'backslashreplace').rstrip('\n')
        self.rows = [json.loads(line) for line in run.stdout.splitlines()]


def text_of(document, span):
    """The bytes of a span; None where it is absent."""
    return None if span is None else document[span[0]:span[1]]


def drawn_pairs(seed, count, odd_bytes):
    """Queries with documents; every fourth document has some of the odd bytes."""
    for number in range(count):
        maker = Maker('%s/%d' % (seed, number))
        query, document = maker.query().decode(), bytearray(maker.document())
        pick = random.Random(number)
        if number % 4 == 0 and document and odd_bytes:
            document[pick.randrange(len(document))] = pick.choice(odd_bytes)
        yield query, bytes(document)


# ---- sessions of pages

def sessions_of(page):
    """The commands of a page, each with its line and with what stands under it."""
    found = []
    with open(page, encoding='utf-8') as lines:
        for number, line in enumerate(lines, 1):
            if line.startswith('    $ '):
                found.append([number, line[6:], ''])
            elif found and found[-1][0] + found[-1][1].count('\n') + found[-1][2].count('\n') == number and line.startswith('    '):
                is_more = line.startswith('    > ') and not found[-1][2]
                found[-1][1 if is_more else 2] += line[6:] if is_more else line[4:]
    return found


def run_sessions(tests, page, folder, environment):
    """Runs the commands of a page in a folder that has the examples; what they write has to be what the page shows."""
    for number, command, wanted in sessions_of(page):
        run = subprocess.run(['bash', '-c', command], cwd=folder, env=environment, stdin=subprocess.DEVNULL, stdout=subprocess.PIPE,
                             stderr=subprocess.STDOUT, timeout=300)
        tests.equal('%s:%d: %s' % (os.path.relpath(page, ROOT), number, command.strip()), run.stdout.decode(), wanted)


def quoted(text):
    """A text of SQL."""
    return "'%s'" % text.replace("'", "''")


def is_name(text):
    return re.fullmatch(r'\w+', text) is not None
