"""rematch-to follow: files that grow, are cut, replaced or away, as a table."""
import gzip
import os
import subprocess
import sys
import threading
import time
import unittest

from support import PYTHON, Folder, needs_speed
from commands import asked


class Followed(Folder):
    def follow(self, path, *words, query='/!x{a.}/'):
        """A process that follows, and what it has written, line by line."""
        code = 'import sys; sys.argv[0] = "rematch-to"; from rematch.__main__ import run; sys.exit(run())'
        run = subprocess.Popen([sys.executable, '-c', code, 'follow', '--columns', 'line,x_start,x', '-e', query, '--silent',
                                *words, path], stdout=subprocess.PIPE,
                               stderr=subprocess.PIPE, env=dict(os.environ, PYTHONPATH=PYTHON))
        self.addCleanup(self.ended, run)
        self.assertEqual(run.stdout.readline(), b'line,x_start,x\n')
        return run

    def ended(self, run):
        if run.poll() is None:
            run.kill()
        run.wait()
        run.stdout.close()
        run.stderr.close()

    def grow(self, path, data, mode='ab'):
        with open(path, mode) as file:
            file.write(data)

    @needs_speed
    def test_rows_as_they_come(self):
        path = self.file('d', b'a0\n')
        run = self.follow(path)
        self.grow(path, b'a1\nxx\na')
        self.assertEqual(run.stdout.readline(), b'2,3,a1\n')
        self.grow(path, b'2\n')
        self.assertEqual(run.stdout.readline(), b'4,9,a2\n')
        self.grow(path, b'a3\n', 'wb')
        self.assertEqual(run.stdout.readline(), b'1,0,a3\n')
        self.assertRegex(run.stderr.readline().decode(), 'it was cut, and is read from its start')
        os.rename(path, path + '.1')
        self.grow(path, b'\na4\n')
        self.assertEqual(run.stdout.readline(), b'2,1,a4\n')
        self.assertRegex(run.stderr.readline().decode(), 'it was replaced')
        run.send_signal(2)
        self.assertEqual((run.wait(100), run.stderr.read()), (130, b''))

    def test_from_the_start_until_nothing_comes(self):
        path = self.file('d', b'a0\nb\na1')
        self.assertEqual(asked('follow', '--from-start', '--idle', '0', '-e', '/!x{a.}/', '--texts', path),
                         (0, 'document,line,x\n{0},1,a0\n{0},3,a1\n'.format(path), ''))
        self.assertEqual(asked('follow', '--idle', '0', '-e', '/!x{a.}/', '--texts', path)[:2], (0, 'document,line,x\n'))

    def test_what_stands_before_is_known(self):
        """From the end of a file, also of one that ends within a line."""
        for query, before, after, wanted in (('/!x{b}/ minus /a\\n!x{b}/', b'a\n', b'b\n', []), ('/!y{a}\\n!x{b}/', b'a\n', b'b\n', ['1,2,b']),
                                             ('/!x{ab}/', b'z\nab\na', b'b\n', ['3,5,ab'])):
            path = self.file('d', before)
            run = self.follow(path, '--idle', '2', query=query)
            time.sleep(0.3)
            self.grow(path, after)
            self.assertEqual(run.stdout.read().decode().splitlines(), wanted, query)
            run.wait()

    def test_a_file_that_grows_here(self):
        path = self.file('d', b'')
        thread = threading.Thread(target=lambda: [time.sleep(0.3), self.grow(path, b'a1\n'), time.sleep(0.3),
                                                  self.grow(path, 'aé\n'.encode())])
        thread.start()
        status, out, _ = asked('follow', '--from-start', '--idle', '3', '-e', '/!x{a.}/u', '--texts', path)  # it may begin late
        thread.join()
        self.assertEqual((status, out.splitlines()[1:]), (0, [path + ',1,a1', path + ',2,aé']))

    def test_standard_input(self):
        self.assertEqual(asked('follow', '-e', '/!x{a.}/', '--columns', 'x', '-', stdin=b'a1\nba2')[1], 'x\na1\na2\n')
        self.assertEqual(asked('follow', '-e', '/!x{a.}/', '--columns', 'x', stdin=b'a\xff\n')[1], 'x\na\\xff\n')

    def test_what_may_hide_rows(self):
        for data, part in ((gzip.compress(b'a1\n'), 'packed by gzip, and'), (b'\xff\xfea\0', 'UTF-16'), (b'>r\n' + b'ACGT' * 9 + b'\nACGT\n', 'FASTA')):
            words = ('follow', '--idle', '0', '-e', '/!x{a1}/', self.file('d', data))
            self.assertIn(part, asked(*words)[2])
            self.assertEqual(asked(*words, '--silent')[2], '')

    def test_what_is_seldom_meant(self):
        """Anchors of the document and open ends are told once, with --state too."""
        path, several, apart = self.file('d', b'a1\na2\nb 12 c\nb 34 c\n'), 'it has several lines', 'end apart, as'
        for query, part in (('/^!x{a.}/', several), ('/!x{a.}$/', several), ('/^!x{a.}/m', None), ('/ !x{[0-9]+}.*/', apart), ('/ !x{[0-9]+} /', None)):
            for words in (('follow', '--from-start', '--idle', '0'), ('csv', '--state', os.path.join(self.folder, 'state'))):
                told = asked(*words, '-e', query, path, is_watched=False)[2]
                self.assertEqual([line for line in told.splitlines() if part is None or part not in line], [], (words, query))
                self.assertEqual(len(told.splitlines()), int(part is not None), (words, query))
                self.assertEqual(asked(*words, '-e', query, '--silent', path, is_watched=False)[2], '')
                if words[0] == 'csv':
                    os.unlink(words[2])

    def test_refusals(self):
        path = self.file('d', b'')
        for words, status, part in (((path, path), 2, 'one file'), ((path, '--characters'), 2, 'bytes'),
                                    ((path, '--columns', 'y'), 2, 'no column'),
                                    ((os.path.join(self.folder, 'gone'),), 5, 'No such file'), ((self.folder,), 5, 'directory')):
            found, _, told = asked('follow', '--idle', '0', '-e', '/!x{a}/', *words)
            self.assertEqual((found, part in told), (status, True), told)
        for query, part in (('/!x{a[^b]*}/', 'no end'), ('/a/', 'no variables')):
            status, out, told = asked('follow', '--idle', '0', '-e', query, path)
            self.assertEqual((status, out, 'no reach' in told and part in told), (4, '', True), told)


if __name__ == '__main__':
    unittest.main()
