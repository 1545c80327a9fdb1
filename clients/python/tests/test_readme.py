"""The sessions of clients/README.md and of docs/hours, run as they are printed: in a copy of examples, with the commands on the
path.

An indented line `$ COMMAND`, perhaps lines `> ` that go on with it, and the indented lines under them, which are what it
writes: standard output, and then standard error. Blocks that begin with `>>>` are Python.
"""
import doctest
import glob
import os
import shutil
import subprocess
import unittest
from importlib.util import find_spec

from support import CLIENTS, EXAMPLES, PROGRAM, Folder

README = os.path.join(CLIENTS, 'README.md')
HOURS = sorted(glob.glob(os.path.join(os.path.dirname(CLIENTS), 'docs', 'hours', '*.md')))


def blocks(page=README):
    """The indented blocks, each with the number of its first line."""
    found, block = [], []
    with open(page, encoding='utf-8') as lines:
        for number, line in enumerate(lines, 1):
            if line.startswith('    '):
                block.append(line[4:].rstrip('\n'))
            elif block:
                found.append((number - len(block), block))
                block = []
    return found + ([(0, block)] if block else [])


def shell_sessions(block):
    """Commands with what they write."""
    found = []
    for line in block:
        if line.startswith('$ '):
            found.append([line[2:], ''])
        elif line.startswith('> ') and not found[-1][1]:
            found[-1][0] += '\n' + line[2:]
        else:
            found[-1][1] += line + '\n'
    return found


class Sessions(Folder):
    def setUp(self):
        super().setUp()
        self.place = os.path.join(self.folder, 'examples')
        shutil.copytree(EXAMPLES, self.place)
        commands = os.path.join(self.folder, 'commands')
        os.mkdir(commands)
        os.symlink(PROGRAM, os.path.join(commands, 'rematch'))
        self.environment = dict(os.environ, PATH=os.pathsep.join([CLIENTS, commands, os.environ['PATH']]))
        before = os.getcwd()
        self.addCleanup(os.chdir, before)
        os.chdir(self.place)

    def run_shell(self, page):
        """Runs the sessions of a page, and returns how many they are."""
        asked = 0
        for number, block in blocks(page):
            if block[0].startswith('$ '):
                for command, wanted in shell_sessions(block):
                    run = subprocess.run(['bash', '-c', command], stdout=subprocess.PIPE, stderr=subprocess.PIPE, env=self.environment, cwd=self.place)
                    place = '%s:%d: %s' % (os.path.basename(page), number, command)
                    self.assertEqual((run.stdout + run.stderr).decode(), wanted, place)
                    asked += 1
        return asked

    def test_shell(self):
        self.assertGreater(self.run_shell(README), 10)

    def test_hours(self):
        self.assertEqual(len(HOURS), 3)
        for page in HOURS:
            with self.subTest(page=os.path.basename(page)):
                self.assertGreater(self.run_shell(page), 10)

    def test_python(self):
        runner = doctest.DocTestRunner(verbose=False)
        told = []
        for number, block in blocks():
            if block[0].startswith('>>> '):
                with self.subTest(line=number):
                    for package in ('pandas', 'pyarrow'):
                        if package in block[0] and find_spec(package) is None:
                            self.skipTest('%s is not installed' % package)
                    test = doctest.DocTestParser().get_doctest('\n'.join(block) + '\n', {}, 'README.md', README, number - 1)
                    runner.run(test, out=told.append)
                    self.assertEqual(''.join(told), '')
        self.assertEqual(runner.summarize(verbose=False).failed, 0)


if __name__ == '__main__':
    unittest.main()
