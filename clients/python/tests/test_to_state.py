"""--state FILE: rows since the last run, over files that grow, are turned over, packed, cut and replaced."""
import bz2
import gzip
import json
import os
import random
import threading
import time
import unittest

import rematch
from rematch.to.state import read_places
from support import Folder
from commands import asked

QUERY = r'/for !u{\w+} from\n/'


class Log(Folder):
    """A log, and the rows that runs have written of it."""

    def setUp(self):
        super().setUp()
        self.log, self.state = os.path.join(self.folder, 'log'), os.path.join(self.folder, 'state')
        self.files = 0

    def append(self, text):
        with open(self.log, 'a') as file:
            file.write(text)

    def turn(self, way):
        """The log is turned over: renamed, packed, or copied and cut."""
        self.files += 1
        old = '%s.%d' % (self.log, self.files)
        if way == 'copied':
            with open(self.log, 'rb') as file, open(old, 'wb') as copy:
                copy.write(file.read())
            os.truncate(self.log, 0)
        else:
            os.rename(self.log, old)
            open(self.log, 'w').close()
            packer = {'gzip': gzip, 'bzip2': bz2}.get(way)
            if packer:
                with open(old, 'rb') as file, packer.open(old + '.packed', 'wb') as packed:
                    packed.write(file.read())
                os.unlink(old)
        for path in os.listdir(self.folder):  # in the order of their making, however quick that is
            if path.startswith('log.') and path.split('.')[1] == str(self.files):
                os.utime(os.path.join(self.folder, path), (1_000_000 + self.files, 1_000_000 + self.files))

    def run_csv(self, query=QUERY, *words):
        status, out, told = asked('csv', '--silent', '--texts', '--state', self.state, '-e', query, *words, self.log)
        return status, [line.rpartition(',')[2] for line in out.splitlines()[1:]], told


class Runs(Log):
    def test_each_row_once(self):
        self.append('for a from\nfor b')
        self.assertEqual(self.run_csv(), (0, ['a'], ''))
        self.append(' from\n')  # the line that was not whole is none: its capture is past the word
        self.append('for c from\n')
        self.assertEqual(self.run_csv(), (0, ['b', 'c'], ''))
        self.assertEqual(asked('csv', '--state', self.state, '-e', QUERY, self.log)[:2], (0, ''))
        for way in ('renamed', 'gzip', 'bzip2', 'copied'):
            self.append('for %s_old from\n' % way)
            self.turn(way)
            self.append('for %s_new from\n' % way)
            self.assertEqual(self.run_csv(), (0, [way + '_old', way + '_new'], ''), way)
        self.turn('gzip')
        self.append('for between from\n')
        self.turn('renamed')
        self.append('for last from\n')
        self.assertEqual(self.run_csv(), (0, ['between', 'last'], ''))

    def test_head_and_lines(self):
        self.append('x\nfor a from\n')
        self.assertEqual(asked('csv', '--silent', '--state', self.state, '-e', QUERY, self.log)[1].replace(self.log, 'log'),
                         'document,line,u_start,u_end,u\nlog,2,6,7,a\n')
        self.append('x\nfor b from\n')
        self.assertEqual(asked('tsv', '--silent', '--state', self.state, '-e', QUERY, self.log)[1].replace(self.log, 'log'),
                         'document\tline\tu_start\tu_end\tu\nlog\t4\t19\t20\tb\n')

    def test_a_place_that_is_not_found(self):
        self.append('for a from\n')
        self.run_csv()
        os.unlink(self.log)
        self.append('for b from\nfor c from\n')
        status, rows, told = self.run_csv()
        self.assertEqual((status, rows), (0, ['b', 'c']))
        self.assertIn('the place of the last run is not found, so it is read from its start', told)

    def test_output_in_a_file(self):
        self.append('for a from\n')
        out = os.path.join(self.folder, 'out')
        self.assertEqual(asked('csv', '--texts', '--silent', '--state', self.state, '-e', QUERY, '-o', out, self.log), (0, '', ''))
        with open(out) as file:
            self.assertEqual(file.read(), 'document,line,u\n%s,1,a\n' % self.log)
        self.append('for b from\n')
        status, _, told = asked('csv', '--state', self.state, '-e', QUERY, '-o', os.path.join(self.folder, 'none', 'out'), self.log)
        self.assertNotEqual(status, 0)
        self.assertEqual(self.run_csv()[1], ['b'])  # which nothing has written yet

    def test_refused(self):
        self.append('for a from\n')
        for words, status, part in ((('csv', '--state', self.state, '-e', QUERY), 2, '--state is for files'),
                                    (('csv', '--state', self.state, '-n', '3', '-e', QUERY, self.log), 2, 'drop -n'),
                                    (('freq', '--state', self.state, '-e', QUERY, self.log), 2, '--state is of csv, tsv, follow'),
                                    (('csv', '--state', self.log, '-e', QUERY, self.log), 2, 'is no state that rematch-to has written'),
                                    (('csv', '--state', self.state, '-e', QUERY, self.log + 'none'), 5, 'No such file')):
            found, out, told = asked(*words)
            self.assertEqual((found, out, part in told), (status, '', True), (words, told))
        for text in ('{}', '[]', '{"places": {"a": {}}}', '{"places": {"a": {"device": 1, "inode": 1, "place": "1", "tail": ""}}}',
                     '{"places": {"a": {"device": 1, "inode": 1, "place": 1, "tail": "x"}}}', '{"places": {"a": {"device": 1, "inode": 1, "place": -1, "tail": ""}}}'):
            with self.assertRaises(ValueError):
                read_places(self.file('bad', text))

    def test_drawn(self):
        """The rows of all runs together are those of all that was written, each once."""
        for number in range(12):
            with self.subTest(number=number):
                self.setUp()
                pick = random.Random(number)
                query = (r'/!u{\w+}\n/ minus /!u{a\w*}\n/', r'/\n!u{\w+}\n/ minus /\n!u{\w+}\nb/', r'/!u{\w+} !v{x}?\n/')[number % 3].replace('{x}?', '{x?}')
                written, runs = [''], []
                for _ in range(30):
                    kind = pick.random()
                    if kind < 0.6:
                        text = ''.join(pick.choice(['a', 'b', 'ab', ' x', ' ', '\n', '\n']) for _ in range(pick.randrange(6)))
                        self.append(text)
                        written[-1] += text
                    elif kind < 0.8 and written[-1].endswith('\n'):
                        self.turn(pick.choice(['renamed', 'gzip', 'copied']))
                        written.append('')
                    else:
                        runs += self.rows_of_run(query)
                self.append('\nend\n\n')
                written[-1] += '\nend\n\n'
                self.turn('renamed')  # so that rows that wait are given
                self.append('\n')
                runs += self.rows_of_run(query)
                wanted = [row for text in written for row in rematch.Query(query).rows(text.encode())]
                self.assertEqual(sorted(runs), sorted(wanted))

    def rows_of_run(self, query):
        if not os.path.exists(self.log):
            return []
        status, out, told = asked('csv', '--silent', '--state', self.state, '-e', query, self.log)
        self.assertEqual((status, told), (0, ''))
        cells = [line.split(',') for line in out.splitlines()[1:]]
        return [tuple(int(place) for k in range(2, len(line), 3) for place in line[k:k + 2]) for line in cells]


class Following(Log):
    def test_it_goes_on(self):
        self.append('for before from\n')
        words = ['follow', '--silent', '--texts', '--state', self.state, '--idle', '1.5', '-e', QUERY, self.log]
        timer = threading.Timer(0.7, self.append, ['for first from\n'])
        timer.start()
        status, out, told = asked(*words)
        timer.join()
        self.assertEqual((status, out.splitlines()[1:], told), (0, [self.log + ',2,first'], ''))
        self.append('for second from\n')
        self.turn('gzip')
        self.append('for third from\nfor')
        status, out, told = asked(*words)
        self.assertEqual((status, [line.rpartition(',')[2] for line in out.splitlines()[1:]], told), (0, ['second', 'third'], ''))
        with open(self.state) as file:
            self.assertEqual(json.load(file)['places'][self.log]['place'], len('for third from\n'))


if __name__ == '__main__':
    unittest.main()
