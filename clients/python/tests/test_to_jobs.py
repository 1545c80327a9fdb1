"""Documents and pieces side by side, and small documents that one program answers: the same output, byte for byte."""
import gzip
import os
import unittest
from unittest import mock

import rematch
from rematch.to import convert, jobs as to_jobs, small as to_small
from support import Folder, children, needs_speed
from commands import asked

DNA = b'>r\nACGATC\nGATCAC\n>s\nGATCGATC\n'


class Jobs(Folder):
    def setUp(self):
        super().setUp()
        runs_alone = mock.patch.object(convert, '_MANY', 99)
        runs_alone.start()
        self.addCleanup(runs_alone.stop)
        self.names = [self.file('d%d' % k, ''.join('%d a%d b\n' % (j, (j * k) % 7) for j in range(40 * k))) for k in range(5)]
        self.names += [self.file('p', gzip.compress(b'a1 b\na2 b')), self.file('u', b'a1 b\xff a\xe9')]

    def same(self, form, *words, query=r'/!x{a\d} !y{b}/', names=None, sizes=(60, 1 << 40)):
        """What two processes write is what one writes."""
        names = names or self.names
        alone = asked(form, *words, '-e', query, '--silent', *names)
        for size in sizes:
            with mock.patch.object(to_jobs, '_LEAST', size):
                self.assertEqual(asked(form, *words, '--jobs', '2', '-e', query, '--silent', *names), alone, (form, size))
        return alone

    def test_each_form(self):
        for form, words in (('csv', ()), ('tsv', ('--characters',)), ('count', ()), ('count', ('--lines',)), ('freq', ()),
                            ('kwic', ()), ('lines', ('-C', '1'))):
            self.assertEqual(self.same(form, *words)[0], 0)

    def test_pieces_of_one_document(self):
        one = [self.file('one', b'1 a1 b\n2 a2 b\n' * 6)]
        for form, words in (('csv', ()), ('count', ()), ('freq', ()), ('kwic', ('--sort', 'left')),
                            ('kwic', ('--sample', '3', '-n', '5'))):
            self.same(form, *words, query=r'/!x{a\d} [^\n]*\n[^\n]*!y{b}/', names=one, sizes=(20,))
        for query in (r'/!x{b\n?}/', r'/!x{b}\n$/',
                      r'/!x{a\d [^c]*b}\n$/'):  # the second and third have no reach, and are done whole
            self.same('count', query=query, names=one, sizes=(20,))
        self.assertEqual(asked('csv', '-n', '3', '--jobs', '2', '-e', '/!x{a}/', self.names[3])[1].count('\n'), 4)

    def test_sequences(self):
        names = [self.file('f%d' % k, DNA * k) for k in range(1, 4)]
        for form in ('bed', 'gff', 'fasta'):
            self.assertEqual(self.same(form, query='/!x{GATC}/', names=names)[0], 0)

    def test_faults(self):
        gone = os.path.join(self.folder, 'gone')
        status, out, told = self.same('count', names=[self.names[1], gone, self.folder, self.names[2]], sizes=(60,))
        self.assertEqual((status, out.count('\n'), told.count('\n'), out.splitlines()[-1].endswith(' total')), (1, 3, 2, True))
        self.assertEqual(asked('csv', '--jobs', '2', '-e', '/!x{a}/', gone)[0], 5)
        self.assertEqual(self.same('count', query='/!x{(a{1000}){20}}/', sizes=(1 << 40,))[0], 4)

    def test_notes_come_in_order(self):
        names = [self.file('n%d' % k, b'\xef\xbb\xbfx') for k in range(6)]
        told = asked('count', '--jobs', '3', '-e', '/!x{a}/', *names)[2].splitlines()
        self.assertEqual([line.split(':')[0] for line in told], names)

    def test_standard_input_among_others(self):
        for jobs in ('1', '2'):
            self.assertEqual(asked('count', '--jobs', jobs, '-e', '/!x{a}/', self.names[1], '-', self.names[1],
                                   stdin=b'aaa')[1].splitlines()[1], '3 -')

    def test_a_process_that_is_ended_from_outside(self):
        def work(part):
            os.kill(os.getpid(), 9)
        with self.assertRaisesRegex(rematch.ProgramError, 'ended from outside'):
            list(to_jobs.done_in_order(iter([to_jobs.Part('a'), to_jobs.Part('b')]), 2, work))

    def test_nothing_is_left(self):
        with mock.patch.dict(os.environ, TMPDIR=self.folder), mock.patch('tempfile.tempdir', self.folder):
            before = sorted(os.listdir(self.folder))
            asked('csv', '--jobs', '2', '-e', '/!x{a}/', *self.names)
            self.assertEqual(sorted(os.listdir(self.folder)), before)

    def test_forms_that_take_no_jobs(self):
        for form in ('html', 'ann', 'any', 'follow'):
            status, _, told = asked(form, '--jobs', '2', '-e', '/!x{a}/', self.names[0])
            self.assertEqual((status, '--jobs is of csv' in told), (2, True), form)


class Small(Folder):
    DATA = (b'', b'a', b'aab\n', 'éa'.encode(), b'a\xff', b'b' * 99 + b'a', b'a\0a"\\\x1f', b'\xe2\x80\xa8a')

    @mock.patch.object(to_small, '_SMALL', 90)
    def test_rows_are_those_of_runs(self):
        for text in ('/!x{a+}/', '/!x{a}|b/', r'/^!x{.}/u'):
            plain, small = rematch.Query(text), to_small.SmallDocuments(text)
            try:
                for data in self.DATA:
                    self.assertEqual(list(small.rows(rematch.Document(data))), list(plain.rows(data)), (text, data[:9]))
                    self.assertEqual((small.count(data), small.any(data)), (plain.count(data), plain.any(data)), (text, data[:9]))
                self.assertEqual(list(small.rows('éa')), list(plain.rows('éa')))
                self.assertEqual(list(small.rows(b'aa', limit=1)), list(plain.rows(b'aa', limit=1)))
            finally:
                small.close()

    def test_a_program_without_sessions(self):
        program = self.script('rematch', '#!/bin/sh\n[ "$1" != --serve ] || exit 2\nexec %s "$@"\n' % rematch.find_program())
        small = to_small.SmallDocuments('/!x{a}/', program=program)
        self.assertEqual((list(small.rows(b'a')), small.count(b'aa')), ([(0, 1)], 2))
        small.close()

    @needs_speed
    def test_what_the_server_refuses_is_a_run(self):
        text, data = '/(a|b)*a(a|b){13}!x{c}/', b'ab' * 3000 + b'c'
        small = to_small.SmallDocuments(text)
        with mock.patch.object(to_small.Served, 'finditer', side_effect=rematch.SizeError('size: table past 9', 4)):
            self.assertEqual(list(small.rows(data)), [(6000, 6001)])
        small.close()

    def test_one_program_for_all(self):
        names = [self.file('d%d' % k, b'a' * k) for k in range(9)]
        with mock.patch.object(rematch.program.Run, '_start', side_effect=rematch.program.Run._start) as runs:
            self.assertEqual(asked('count', '-e', '/!x{a}/', *names)[1].splitlines()[-1], '36 total')
        self.assertEqual(runs.call_count, 1, 'the run that reads the query')
        self.assertEqual(children(), [])
        with mock.patch.object(rematch.program.Run, '_start', side_effect=rematch.program.Run._start) as runs:
            asked('count', '--max-table', '1000', '-e', '/!x{a}/', *names)
        self.assertEqual(runs.call_count, 11, 'the run that reads the query, and one for what the first rows say')


if __name__ == '__main__':
    unittest.main()
