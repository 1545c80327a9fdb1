"""rematch-to: each form, packed documents, faults, and the line on a terminal."""
import bz2
import csv
import gzip
import io
import lzma
import os
import pty
import re
import subprocess
import sys
import unittest
from unittest import mock

import rematch
from rematch.to import convert, packed, progress
from support import EXAMPLES, PYTHON, Folder, needs, needs_speed
from commands import asked

LOG = 'Failed password for pi from 203.0.113.7 port 1\nx\nFailed password for "é,q" from 192.0.2.1 port 2\n'
QUERY = r'/for !user{[^ \n]+} from !address{[\d.]+} port/'
TABLE = ('document,line,address_start,address_end,address,user_start,user_end,user\n'
         'NAME,1,28,39,203.0.113.7,20,22,pi\nNAME,3,81,90,192.0.2.1,69,75,"""é,q"""\n')


def in_a_process(*words, stdin=b'', name='rematch-to'):
    """The same of a command in a process of its own."""
    code = 'import sys; sys.argv[0] = %r; from rematch.__main__ import run; sys.exit(run())' % name
    run = subprocess.run([sys.executable, '-c', code, *words], input=stdin, stdout=subprocess.PIPE, stderr=subprocess.PIPE)
    return run.returncode, run.stdout.decode(), run.stderr.decode()


class Convert(Folder):
    def to(self, *words):
        """The output of a form, in this process, without the folder's name."""
        out = os.path.join(self.folder, 'out')
        self.assertEqual(convert.main([*words, '-o', out]), 0)
        with open(out, encoding='utf-8', newline='') as file:
            return file.read().replace(self.folder + os.sep, '')


class Tables(Convert):
    def test_an_empty_cell_alone(self):
        """A reader of CSV passes over an empty line."""
        path = self.file('d', 'aab')
        for form in ('csv', 'tsv'):
            out = asked(form, '--columns', 'x', '-e', '/!x{a*}/', path)[1]
            self.assertEqual([row['x'] for row in csv.DictReader(io.StringIO(out))], ['', 'a', 'aa', '', 'a', '', ''])

    def test_columns_of_one_name(self):
        path = self.file('d', 'ab')
        for query, name in (('/!line{a}/', 'line'), ('/!document{a}/', 'document'), ('/!x{a}!x_end{b}/', 'x_end')):
            for form in ('csv', 'tsv', 'follow'):
                status, out, told = asked(form, *(('--idle', '0') if form == 'follow' else ()), '-e', query, path)
                self.assertEqual((status, out, 'two columns would be called %r' % name in told), (2, '', True), (query, told))
        self.assertEqual(asked('csv', '--columns', 'x,line', '-e', '/!x{a}!document{b}/', path)[1], 'x,line\na,1\n')

    def test_freq_counts_places(self):
        path, other = self.file('d', 'x y y'), self.file('e', 'x y')
        for jobs in ((), ('--jobs', '2')):
            self.assertEqual(asked('freq', '--var', 'a', '-e', '/!a{x}.*!b{y}/', *jobs, path, other)[1], 'count,a\n2,x\n')
            self.assertEqual(asked('freq', '--var', 'a', '--rows', '-e', '/!a{x}.*!b{y}/', *jobs, path, other)[1], 'count,a\n3,x\n')
            self.assertEqual(asked('freq', '-e', '/!a{x}.*!b{y}/', *jobs, path, other)[1], 'count,a,b\n3,x,y\n')
        self.assertEqual(asked('freq', '--var', 'a', '-e', '/(!a{x})? !b{y}/', path)[1], 'count,a\n2,\n1,x\n')

    def test_advice_is_for_a_terminal(self):
        """--quiet turns it off, and --silent the warnings too."""
        path = self.file('d', b'\xff\xfea\0')
        words = ('csv', '-e', r'/ !x{[^ ]+} /', path)
        for more, watched, has_advice, has_warnings in (((), True, True, True), ((), False, False, True), (('--quiet',), True, False, True),
                                                        (('--silent',), True, False, False), (('--silent', '--quiet'), False, False, False)):
            told = asked(*words, *more, is_watched=watched)[2]
            self.assertEqual(('advice at' in told, 'UTF-16' in told), (has_advice, has_warnings), (more, watched, told))

    def test_csv(self):
        path = self.file('a.log', LOG)
        self.assertEqual(self.to('csv', '-e', QUERY, path), TABLE.replace('NAME', 'a.log'))
        self.assertEqual(list(csv.DictReader(io.StringIO(self.to('csv', '-e', QUERY, path))))[1]['user'], '"é,q"')

    def test_packed_by_content(self):
        """Twelve rotated logs, packed and not, under names that do not tell it."""
        names, wanted = [], TABLE.split('\n')[0] + '\n'
        for k in range(12):
            pack = (lambda data: data, gzip.compress, bz2.compress, lzma.compress)[k % 4]
            names.append(self.file('auth.log.%d' % k, pack(LOG.encode())))
            wanted += TABLE.split('\n', 1)[1].replace('NAME', 'auth.log.%d' % k)
        self.assertEqual(self.to('csv', '-e', QUERY, *names), wanted)

    def test_two_packed_parts_are_one_document(self):
        path = self.file('d', gzip.compress(b'a') + gzip.compress(b'b'))
        self.assertEqual(self.to('csv', '-e', '/!x{ab}/', path), 'document,line,x_start,x_end,x\nd,1,0,2,ab\n')

    def test_broken_packages(self):
        for data in (gzip.compress(LOG.encode())[:30], bz2.compress(LOG.encode())[:30], lzma.compress(LOG.encode())[:30],
                     gzip.compress(LOG.encode())[:-8] + b'12345678'):
            path = self.file('broken', data)
            with self.assertRaises(rematch.DocumentError) as caught:
                packed.given_document(path)
            self.assertEqual((caught.exception.filename, caught.exception.status), (path, 5))

    def test_tsv_and_cells(self):
        path = self.file('d', b'a\tb"\nc\rd\xff')
        self.assertEqual(self.to('tsv', '-e', r'/^!x{(.|\n)*}$/', path), 'document\tline\tx_start\tx_end\tx\nd\t1\t0\t9\t"a\tb""\nc\rd\\xff"\n')

    def test_absent_and_no_variables(self):
        path = self.file('d', b'\nab')
        self.assertEqual(self.to('csv', '-e', '/(!x{a})?!y{b}/', path).split('\n')[1:], ['d,2,1,2,a,2,3,b', 'd,2,,,,2,3,b', ''])
        self.assertEqual(self.to('csv', '-e', '/a/', path), 'document,line\nd,\n')

    def test_count(self):
        paths = [self.file('a', b'aba'), self.file('b', b'')]
        self.assertEqual(self.to('count', '-e', '/!x{a}/', *paths), '2 a\n0 b\n2 total\n')
        self.assertEqual(self.to('count', '-e', '/!x{a}/', paths[0]), '2 a\n')

    def test_too_long_for_one_run(self):
        path = self.file('d', b'ab\nab\nab\n' * 3)
        with mock.patch('rematch.to.packed.MOST_BYTES', 10), mock.patch('rematch.pieces._USUAL', 4):
            self.assertEqual(self.to('count', '-e', r'/!x{a}b\n!y{a}/', path), '8 d\n')
            self.assertEqual(self.to('csv', '-e', r'/!x{b}\n!y{a}/', path).split('\n')[2], 'd,2,4,5,b,6,7,a')
            self.assertEqual(asked('count', '-e', '/a/', '-', stdin=b'ba')[:2], (0, '1 -\n'))
            packed_path = self.file('p', gzip.compress(b'ab\n' * 9))
            self.assertEqual(self.to('count', '-e', '/!x{a}/', packed_path), '9 p\n')
            with mock.patch('sys.stderr', io.StringIO()) as told:
                self.assertEqual(convert.main(['csv', '-e', '/!x{[^b]*}/', path, '-o', os.devnull]), 4)
            self.assertIn('d: no reach: it is too long for one run, and cannot be cut: a repeat over line feeds', told.getvalue())
            with mock.patch('sys.stderr', io.StringIO()) as told:
                self.assertEqual(convert.main(['html', '-e', '/!x{a}/', path, '-o', os.devnull]), 6)
            self.assertIn('document longer than', told.getvalue())


class Concordances(Convert):
    def test_as_they_stand(self):
        path = self.file('t', 'The light of the lamp,\nand the light\u0301 of the sea.')
        self.assertEqual(self.to('kwic', '-e', r'/[^\w]!w{light|lamp}[^\w]/', '--columns', '12', path),
                         '     t:1' '  ' '        The ' '  light  ' ' of the lamp\n'
                         '     t:1' '  ' 'ight of the ' '  lamp  ' ', and the li\n'
                         '     t:2' '  ' 'mp, and the ' '  light  ' '\u0301 of the sea.\n')

    def test_sorted(self):
        path = self.file('t', 'b x d. a x c. c x b. ')
        for order, wanted in ((['--sort', 'right'], ['c b', 'a c', 'b d']), (['--sort', 'left'], ['a c', 'b d', 'c b']), ([], ['b d', 'a c', 'c b'])):
            lines = self.to('kwic', '-e', '/ !w{x} /', '--columns', '2', *order, path).splitlines()
            self.assertEqual([line.split()[1] + ' ' + line.split()[3] for line in lines], wanted)

    def test_columns_of_a_screen(self):
        path = self.file('t', '漢字漢字 x 漢字漢字 е́x')
        line = self.to('kwic', '-e', '/ !w{x} /', '--columns', '5', path).rstrip('\n')
        self.assertEqual(line, '     t:1' '  ' '漢字 ' '  x  ' ' 漢字')

    def test_no_such_variable(self):
        self.assertEqual(asked('kwic', '-e', '/!x{a}/', '--var', 'y')[::2], (2, 'rematch-to: the query has no variable y\n'))
        self.assertEqual(asked('kwic', '-e', '/a/', '--silent')[::2], (2, 'rematch-to: the query has no variables\n'))


class Annotations(Convert):
    def test_one(self):
        path = self.file('t', 'é a\nb é a\nb')
        self.assertEqual(self.to('ann', '-e', r'/!x{é} (!y{a\nb})/u', path),
                         'T1\tx 0 1\té\nT2\ty 2 5\ta b\nR1\tRow Arg1:T1 Arg2:T2\nT3\tx 6 7\té\nT4\ty 8 11\ta b\nR2\tRow Arg1:T3 Arg2:T4\n')

    def test_several(self):
        paths = [self.file('a.txt', b'a'), self.file('b.txt', b'ba')]
        out = os.path.join(self.folder, 'notes')
        self.assertEqual(asked('ann', '-e', '/!x{a}/', *paths)[0], 2)
        os.mkdir(out)
        self.assertEqual(convert.main(['ann', '-e', '/!x{a}/', '-o', out, *paths]), 0)
        with open(os.path.join(out, 'b.txt.ann')) as file:
            self.assertEqual(file.read(), 'T1\tx 1 2\ta\n')

    def test_no_text(self):
        status, _, told = asked('ann', '-e', '/!x{a}/', self.file('t', b'a\xff'))
        self.assertEqual((status, 'no UTF-8 at 1' in told), (5, True))


class Commands(Folder):
    def test_check(self):
        status, out, _ = asked('check', '-e', r'/\n!x{a+}/')
        self.assertEqual((status, out.split('\n')[:4]), (0, [r'query /\n!x{a+}/', 'variables x', 'atom 1 states 4 ways 6', 'reach 1 line feeds']))
        self.assertEqual([line.split(': ')[0] for line in out.splitlines()[4:]], ['advice at 6'])
        self.assertEqual(asked('check', '-e', r'/\n!x{a+}/')[2], '')
        self.assertIn('no reach: an anchor', asked('check', '-e', '/^!x{a}/')[1])
        status, out, told = asked('check', '-e', '/a*?/')
        self.assertEqual((status, out, told.split('\n')[:3]), (3, '', ['query: repeat after repeat at 3', '  /a*?/', '     ^']))
        self.assertIn('hint: ', told)
        for query, part in (('/(a{1000}){20}/', '20000 states'), ('/((a?){1000}){3}/', '2000000 ways')):
            status, out, told = asked('check', '-e', query)
            self.assertEqual((status, out.split('\n')[0], part in told, 'hint: ' in told), (4, 'query ' + query, True, True), query)

    def test_standard_input_and_query_files(self):
        name = self.file('q', b'/!x{a}/')
        self.assertEqual(in_a_process('count', '-q', name, stdin=b'aa'), (0, '2 -\n', ''))
        self.assertEqual(asked('count', '-q', name, '-', stdin=gzip.compress(b'aaa')), (0, '3 -\n', ''))
        self.assertEqual(asked('count', '-q', '-', name, stdin=b'/!x{a}/'), (0, '1 %s\n' % name, ''))

    def test_missing_files(self):
        gone = os.path.join(self.folder, 'gone')
        self.assertEqual(asked('csv', '-q', gone)[::2], (5, gone + ': No such file or directory\n'))
        status, out, told = asked('csv', '-e', '/!x{a}/', gone)
        self.assertEqual((status, out, told), (5, '', gone + ': No such file or directory\n'))

    def test_what_cannot_be_read_is_told_in_one_form(self):
        """Nothing but NAME: REASON, alone and among others, and nothing is written of a document that is not there."""
        gone, broken = os.path.join(self.folder, 'gone'), self.file('c', gzip.compress(b'a' * 99)[:-9])
        reasons = {gone: 'No such file or directory', self.folder: 'Is a directory',
                   broken: 'Compressed file ended before the end-of-stream marker was reached'}
        for form in ('csv', 'tsv', 'kwic', 'lines', 'freq', 'count', 'any', 'gff', 'html', 'ann', 'follow'):
            for path, reason in reasons.items():
                words = (form, '--silent', '-e', '/!x{A}/', path)
                if form != 'follow' or path != broken:
                    self.assertEqual(asked(*words), (5, '', '%s: %s\n' % (path, reason)), words)
                if form not in ('ann', 'follow'):
                    status, out, told = asked(*words, path)
                    self.assertEqual((status, out, told), (5 if form == 'any' else 1, '', 2 * ('%s: %s\n' % (path, reason))), words)
        for jobs in ('1', '2'):
            self.assertEqual(asked('csv', '--jobs', jobs, '--texts', '-e', '/!x{a}/', gone, self.file('d', b'a'))[1].split('\n')[0], 'document,line,x')
        self.assertEqual(asked('csv', '--jobs', '2', '-e', '/!x{a}/', gone, gone)[:2], (1, ''))

    @needs_speed
    def test_a_document_that_the_program_refuses_is_named(self):
        path = self.file('d', b'a' * 13 + b'c')
        status, _, told = asked('csv', '--max-table', '100', '-e', '/(a|b)*a(a|b){12}!x{c}/', path)
        self.assertEqual((status, told.split('\n')[0]), (4, path + ': size: table past 100'))

    def test_a_broken_pipe(self):
        path = self.file('d', b'a\n' * 3000)
        code = 'import sys; sys.argv[0] = "rematch-to"; from rematch.__main__ import run; sys.exit(run())'
        run = subprocess.Popen([sys.executable, '-c', code, 'csv', '-e', '/!x{a}/', path], stdout=subprocess.PIPE, stderr=subprocess.PIPE)
        run.stdout.readline()
        run.stdout.close()
        self.assertEqual((run.stderr.read(), run.wait()), (b'', 0))
        run.stderr.close()

    def test_a_full_device(self):
        with open('/dev/full', 'w') as full:
            code = 'import sys; sys.argv[0] = "rematch-to"; from rematch.__main__ import run; sys.exit(run())'
            run = subprocess.run([sys.executable, '-c', code, 'count', '-e', '/!x{a}/', self.file('d', b'a')], stdout=full,
                                 stderr=subprocess.PIPE, universal_newlines=True)
        self.assertEqual(run.returncode, 8)
        self.assertIn('No space left', run.stderr)

    @needs('cat')
    def test_no_progress_in_a_pipe(self):
        with mock.patch.object(progress, '_FIRST', 0):
            self.assertEqual(asked('count', '-e', '/!x{a}/', stdin=b'a')[2], '')

    def test_progress_on_a_terminal(self):
        code = ('from rematch.to import progress; progress._FIRST = progress._EVERY = 0.01; import sys, time; import rematch.program as p;'
                'real = p.Run._finish; p.Run._finish = lambda run, rest: (time.sleep(0.3), real(run, rest));'
                'from rematch.to.convert import main; sys.exit(main(sys.argv[1:]))')
        master, slave = pty.openpty()
        run = subprocess.run([sys.executable, '-c', code, 'csv', '-e', '/!x{a}/', self.file('d', b'a' * 90)], stdout=subprocess.PIPE,
                             stderr=slave, env=dict(os.environ, PYTHONPATH=PYTHON))
        os.close(slave)
        shown = ''
        try:
            while True:
                shown += os.read(master, 65536).decode()
        except OSError:  # all of it was read
            os.close(master)
        self.assertEqual(run.stdout.count(b'\n'), 91)
        self.assertIn('0.0 MB read', shown)
        self.assertTrue(shown.endswith('\r\x1b[K'))
        self.assertIn(', 90 rows', shown)

    def test_bytes_that_were_read(self):
        document = rematch.Document(b'a' * 5000)
        told = progress.Progress()
        document.watch()
        told._document, told._name, told.rows = document, 'd', 12345
        rematch.Query('/b/').count(document)
        self.assertEqual((document.bytes_read, told.line()), (5000, 'd: 0.0 MB read, 12,345 rows'))

    @needs_speed
    def test_examples(self):
        status, out, _ = asked('csv', '-q', os.path.join(EXAMPLES, 'failed.query'), os.path.join(EXAMPLES, 'auth.log'))
        self.assertEqual((status, out.count('\n')), (0, 1 + rematch.Query.from_file(
            os.path.join(EXAMPLES, 'failed.query')).count(open(os.path.join(EXAMPLES, 'auth.log')).read())))

    def test_pandas(self):
        try:
            import pandas
        except ImportError:
            self.skipTest('pandas is not installed')
        frame = pandas.read_csv(io.StringIO(TABLE))
        self.assertEqual(list(frame.user), ['pi', '"é,q"'])
        frame = pandas.DataFrame(rematch.Query(QUERY).table(LOG))
        self.assertEqual(list(frame.address), ['203.0.113.7', '192.0.2.1'])


if __name__ == '__main__':
    unittest.main()
