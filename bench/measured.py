"""Tables of what was measured, as files of bench/measured: what is in them says itself of which tree it is.

A table `NAME.tsv` begins with lines `# KEY: VALUE` (what, how, tree, date, machine, load, note), then a line of column names
and one line per row, separated by tabs. Scripts that measure write them by `keep`, and docs/make writes them into the pages.
Python 3.8, standard library.
"""
import hashlib
import os
import re
import subprocess
import time

ROOT = os.path.dirname(os.path.dirname(os.path.abspath(__file__)))
FOLDER = os.path.join(ROOT, 'bench', 'measured')
FACTS = ['what', 'how', 'tree', 'date', 'machine', 'load', 'note']


class Table:
    """A table: its facts, the names of its columns, and its rows as texts."""

    def __init__(self, facts, columns, rows):
        self.facts = facts
        self.columns = columns
        self.rows = rows

    def caption(self):
        """One sentence on where the figures come from."""
        parts = [self.facts[key] for key in ('how', 'tree', 'date', 'machine') if self.facts.get(key)]
        if self.facts.get('load'):
            parts.append('load ' + self.facts['load'])
        return '; '.join(parts) + '.'


def path_of(name):
    return os.path.join(FOLDER, name + '.tsv')


def read(name):
    facts, lines = {}, []
    with open(path_of(name), encoding='utf-8') as file:
        for line in file.read().split('\n'):
            fact = re.match(r'# (\w+): (.*)', line)
            if fact and not lines:
                facts[fact[1]] = fact[2]
            elif line:
                lines.append(line.split('\t'))
    return Table(facts, lines[0], lines[1:])


def keep(name, columns, rows, program=None, **facts):
    """Writes a table with the tree that was measured, the day, the processor and the load of now."""
    facts = dict({'tree': tree(program), 'date': time.strftime('%-d %B %Y'), 'machine': machine(), 'load': '%.0f' % os.getloadavg()[0]},
                 **facts)
    os.makedirs(FOLDER, exist_ok=True)
    with open(path_of(name), 'w', encoding='utf-8') as file:
        for key in FACTS:
            if facts.get(key):
                print('# %s: %s' % (key, facts[key]), file=file)
        for row in [columns] + [[str(cell) for cell in row] for row in rows]:
            print('\t'.join(row), file=file)


def tree(program=None):
    """The version, and git's id of the crates that a program was built from: the released one, or what is here."""
    with open(os.path.join(ROOT, 'VERSION'), encoding='utf-8') as file:
        version = file.read().strip()
    released = released_crates(program)
    if released:
        return 'the release of version %s, crates %s' % (version, released[:10])
    found = git('rev-parse', '--short=10', 'HEAD:crates')
    changed = ', changed since' if git('status', '--porcelain', '--', 'crates') else ''
    return 'version %s, crates %s%s' % (version, found or 'unknown', changed)


def released_crates(program):
    """Git's id of the crates of the release, if this is its program."""
    if program is None:
        return None
    with open(os.path.join(ROOT, 'release', 'SOURCES'), encoding='utf-8') as file:
        sources = dict(line.split(' ', 1) for line in file.read().split('\n') if ' ' in line)
    with open(program, 'rb') as file:
        return sources.get('crates') if hashlib.sha256(file.read()).hexdigest() == sources.get('program') else None


def git(*words):
    try:
        return subprocess.run(['git', '-C', ROOT, *words], stdout=subprocess.PIPE, stderr=subprocess.DEVNULL,
                              universal_newlines=True).stdout.strip()
    except OSError:
        return ''


def machine():
    """The processor by its name, and how many there are."""
    try:
        with open('/proc/cpuinfo', encoding='utf-8', errors='replace') as file:
            found = re.search(r'^model name\s*: (.*)$', file.read(), re.M)
    except OSError:
        found = None
    return '%s, %d processors' % (found[1] if found else 'a processor', os.cpu_count() or 1)
