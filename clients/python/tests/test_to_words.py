"""rematch-to: its words, their help, and what to write in place of wrong ones."""
import re
import unittest

import rematch
from rematch import version
from rematch.to import words as to_words
from support import Folder
from commands import asked


class Wrong(Folder):
    def test_what_is_told(self):
        for words, part in (
                ((), 'all forms'), (('/error/', 'd.log'), "rematch-to csv -e '/error/' d.log"),
                (('cvs', '-e', '/a/'), 'is csv meant?'),
                (('csv', '/a/', 'd'), "-e '/a/'"), (('csv', 'd'), '-e TEXT or -q NAME'),
                (('csv', '-e', '/a/', '-q', 'q'), 'not by both'),
                (('-f', 'csv', '-e', '/a/'), 'the form is the first word'),
                (('csv', '-e', '/a/', '-f', 'csv'), 'the form is the first word: rematch-to csv'),
                (('csv', '-c', '-e', '/a/'), 'rematch-to count'), (('csv', '-i', '-e', '/a/'), '/../i'),
                (('csv', '--glob', 'x', '-e', '/a/', '.'), 'give -r too'), (('csv', '-r', '--glob', 'nothing of this name', '-e', '/a/', '.'), 'no document'),
                (('csv', '--files-from', '/none', '-e', '/a/', '.'), 'No such file'),
                (('count', '-t', '-e', '/a/'), '--texts'),
                (('csv', '-e', '/a/', '--sort', 'left'), '--sort is of kwic, and not of csv'),
                (('csv', '-e', '/a/', '-n', '-1'), '-n is 0 or more'), (('csv', '-e', '/a/', '-n', 'x'), 'invalid int'),
                (('csv', '-e', '/a/', '--jobs', '0'), '--jobs is 1 or more'),
                (('csv', '-e', '/a/', '--max-table', '0'), '1 to 100000000'),
                (('kwic', '-e', '/a/', '--columns', 'x'), 'a number'),
                (('kwic', '-e', '/!x{a}/', '--sample', '3'), 'give -n N too'),
                (('csv', '-e', '/!x{a}/', '--texts', '--columns', 'x'), 'give one of them'),
                (('csv', '--what', '-e', '/a/'), '--what'),
                (('csv', '-e'), 'expected one argument')):
            status, out, told = asked(*words)
            self.assertEqual((status, out), (2, ''), words)
            self.assertIn(part, told, words)
            self.assertTrue(told.startswith('rematch-to: '), words)
            self.assertIn(told.count('\n'), (1, 2), words)

    def test_each_option_under_a_form_that_has_it_not(self):
        """It is refused with the forms that have it, and not passed over."""
        tried = 0
        for option in to_words._OPTIONS:
            for form in to_words.FORMS if option.forms else ():
                if form in option.forms or (form == 'check' and option.name in ('-n', '-v', '-C', '--lines')):
                    continue  # check takes the words of the program, and tells of its own
                if option.words.get('action') == 'store_true':
                    value = []
                else:
                    value = [option.words['choices'][0]] if 'choices' in option.words else ['1']
                status, out, told = asked(form, '-e', '/!x{a}/', option.name, *value)
                self.assertEqual((status, out), (2, ''), (form, option.name))
                self.assertTrue('%s is of %s' % (option.name, ', '.join(option.forms)) in told or form == 'check', (form, told))
                tried += 1
        self.assertGreater(tried, 200)

    def test_values_that_no_option_takes(self):
        for form, name, values in (('lines', '-C', ['-1', 'x']), ('lines', '--color', ['blue']), ('kwic', '--sort', ['up']), ('kwic', '--sample', ['x']),
                                   ('csv', '--context', ['x', '-3']), ('html', '--most-rows', ['0', 'x']), ('follow', '--idle', ['-1', 'x']),
                                   ('csv', '--jobs', ['-2', '1.5']), ('kwic', '--columns', ['0', '-4']), ('csv', '--max-table', ['x', '100000001'])):
            for value in values:
                status, out, told = asked(form, '-e', '/!x{a}/', '-n', '3', name, value) if form in ('csv', 'kwic', 'lines') else asked(
                    form, '-e', '/!x{a}/', name, value)
                self.assertEqual((status, out, name in told), (2, '', True), (form, name, value, told))

    def test_words_of_the_program(self):
        for words, part in (
                (('--help',), 'rematch-to --help'), (('-h',), 'rematch-to --help'), (('--version',), 'rematch-to --version'),
                (('-e', '/a/', 'one', 'two'), 'one document'), (('-f', 'csv', '-e', '/a/', 'd'), 'rematch-to csv'),
                (('-f=kwic', '-e=/a/'), 'rematch-to kwic'),
                (('-c', '/a/', 'd'), 'rematch-to count'), (('-i', '/a/', 'd'), '[Aa]'), (('-o', 'out', '-e', '/a/'), '> NAME'),
                (('/a/', 'd'), "-e '/a/'"),
                (('a.log',), "-e 'a.log'"), (('-n', '-1', '-e', '/a/'), '-n=VALUE'), (('-n=-1', '-e', '/a/'), "not '-1'"),
                (('-nx', '-e', '/a/'), "not 'x'"),
                (('-e', '/a/', '-e', '/b/'), 'given once'), (('-e', '/a/', '-q', 'q'), 'not by both'),
                (('--serve', 'd'), 'alone'),
                (('--explain', '-e', '/a/', 'd'), 'nothing is searched'), (('-q', '-'), 'standard input'),
                (('--color', '-e', '/a/'), 'no option --color'), ((), '-q NAME')):
            self.assertIn(part, str(to_words.hint_of_program_words(words)), words)

    def test_words_that_the_program_takes(self):
        for words in (('-e', '/a/'), ('-e=/a/', '-n2', 'd'), ('-q', 'q', '-f', 'json', '-t', '-a', 'start', '-'), ('--serve',),
                      ('-e', '/a/', '--explain'),
                      ('-e', '/a/', '--trial', '7'), ('-q', '-', 'd'), ('--filter', '--max-table=5', '-e', '/a/', '--', '-d')):
            self.assertIsNone(to_words.hint_of_program_words(words), words)

    def test_check_is_the_mirror_of_the_program(self):
        """What the program refuses check refuses, and it writes into no file."""
        path = self.file('out', b'kept')
        status, out, told = asked('check', '-o', path, '-e', '/!x{a}/')
        self.assertEqual((status, out, 'standard output' in told), (2, '', True))
        with open(path, 'rb') as file:
            self.assertEqual(file.read(), b'kept')
        for words, wanted in ((('-a', 'c2:5'), 7), (('-a', 'nothing'), 7), (('-a', 'start'), 0), (('-a', 'c2:5;x:0-1'), 0),
                              (('-a', 'c2:5;x:0-1', path), 7), (('-a', 'c2:4;x:0-1', path), 0), ((path + '_',), 5)):
            self.assertEqual(asked('check', '-e', '/!x{a}/', *words)[0], wanted, words)
        for query, is_told in (('/!x{a}/i', True), ('/!x{a}/ # one', True), ('part p = /a/; /!x{%{p}}/', True), ('/^!x{a}/m', True), ('/!x{a}/', False)):
            self.assertEqual('the program reads no' in asked('check', '-e', query)[1], is_told, query)
        self.assertIn('-q words.txt', asked('csv', '-f', 'words.txt')[2])

    def test_check_takes_the_words_of_the_program(self):
        plain = asked('check', '-e', '/!x{a}/')
        self.assertEqual(asked('check', '-f', 'json', '-n', '2', '-t', '-e', '/!x{a}/', self.file('d', 'a')), plain)
        self.assertEqual(asked('check', '-n2', '--trial=7', '-e', '/!x{a}/')[0], 2)
        self.assertEqual(asked('check', '-e', '/a/', 'one', 'two')[::2],
                         (2, 'rematch-to: a run takes one document: rematch-to csv takes several\n'))
        self.assertEqual(asked('check', '-f', 'csv', '-e', '/!x{a}/')[0], 2)
        self.assertEqual(asked('check', '-c', '/a/', 'd')[0], 2)


class Help(unittest.TestCase):
    def test_of_all(self):
        status, out, _ = asked('--help')
        self.assertEqual(status, 0)
        for form in to_words.FORMS:
            self.assertRegex(out, r'(?m)^  %s +\w' % form)
        self.assertEqual(asked('-h')[1], out)

    def test_of_a_form(self):
        """Each form has its own options alone, and an example that is taken."""
        for form in to_words.FORMS:
            status, out, _ = asked(form, '--help')
            self.assertEqual((status, out.split()[:3]), (0, ['usage:', 'rematch-to', form]))
            self.assertEqual('--sample' in out, form == 'kwic', form)
            examples = re.findall(r'(rematch-to %s .*)' % form, out)
            self.assertTrue(examples, form)

    def test_version(self):
        program = rematch.find_program()
        told = 'rematch %s, program %s, sha256 %s\n' % (rematch.__version__, program, version.program_sum(program))
        self.assertEqual(asked('--version'), (0, told, ''))


class Advice(Folder):
    def test_with_every_form(self):
        """Advice is told with rows too, a line each, and --quiet turns it off."""
        path = self.file('d', b'ab\n')
        for form in ('csv', 'tsv', 'kwic', 'freq', 'count', 'ann', 'html'):
            query = '/a!x{b[:digit:]?}/'
            status, out, told = asked(form, '-e', query, path)
            self.assertEqual((status, told.split(': ')[0], told.count('\n')), (0, 'advice at 6', 1), form)
            self.assertEqual(asked(form, '-e', query, path, '--silent'), (0, out, ''), form)

    def test_open_ends_are_told_of_the_rows(self):
        """Where rows are read to their end they say it themselves; else the text of the query does."""
        path = self.file('d', b's=200 s=37 \n')
        for words in (('csv',), ('freq',), ('count',), ('kwic',)):
            told = asked(*words, '-e', r'/s=!s{\d+}.*/', path)[2]
            self.assertRegex(told, r'^.*/d: of s, 2 of 2 places have rows that begin alike and end apart, as 2, 20, 200: say what comes after it\n$', words)
        self.assertIn('a repeat is last', asked('csv', '-n', '1', '-e', r'/s=!s{\d+}/', path)[2])
        for query in (r'/s=!s{\d+} /', r'/!s{s=[^\n]*}\n/'):
            self.assertEqual(asked('csv', '-e', query, path)[2], '', query)

    def test_what_is_of_rows_alone(self):
        """Where lines are asked for, or whether there is a row, it is no matter how many rows there are."""
        path = self.file('d', b'ab\n')
        for words in (('lines',), ('any',), ('count', '--lines')):
            self.assertEqual(asked(*words, '-e', '/!x{b*}/', path)[::2], (0, ''), words)
            self.assertEqual(asked(*words, '-e', '/b/', path)[::2], (0, ''), words)

    def test_count_without_a_capture(self):
        path = self.file('d', b'b\nb\n')
        status, out, told = asked('count', '-e', '/b/', path)
        self.assertEqual((status, out), (0, '1 %s\n' % path))
        self.assertEqual(told, 'advice at 0: the query has no capture, so the count is 1 or 0: put !name{..} around what is counted, or count lines by '
                         '--lines\n')
        self.assertEqual(asked('count', '--lines', '-e', '/b/', path), (0, '2 %s\n' % path, ''))

    def test_the_place_is_that_of_the_text_as_it_was_written(self):
        told = asked('any', '-e', '# a comment\n/A !x{b[:digit:]}/', self.file('d', b''))[2]
        self.assertEqual(told.split(':')[0], 'advice at 19')


if __name__ == '__main__':
    unittest.main()
