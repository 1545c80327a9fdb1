"""rematch-to lines, any, freq, count --lines: against grep and plain Python, and what each refuses."""
import os
import random
import subprocess
import unittest

import rematch
from rematch.to import expand, lines as to_lines
from rematch.documents import Document
from rematch.to.packed import Given
from support import Folder, needs
from commands import asked, lines

TEXT = b'alpha one\nbeta two\n\ngamma one one\ndelta\nepsilon\nzeta one\n'


class Lines(Folder):
    def test_as_they_are(self):
        path = self.file('d', TEXT)
        for query in ('/!x{one}/', '/one/', '/one/ union /o!x{n}e/', '/ONE/i'):
            self.assertEqual(lines('lines', '-e', query, path)[0], ['alpha one', 'gamma one one', 'zeta one'], query)
        self.assertEqual(lines('lines', '--line-numbers', '-e', '/one/', path)[0],
                         ['1:alpha one', '4:gamma one one', '7:zeta one'])
        self.assertEqual(lines('lines', '-n', '2', '-e', '/one/', path)[0], ['alpha one', 'gamma one one'])
        self.assertEqual(lines('lines', '-n', '0', '-e', '/one/', path)[0], [])
        self.assertEqual(lines('lines', '-v', '-e', '/one/', path)[0], ['beta two', '', 'delta', 'epsilon'])
        self.assertEqual(lines('lines', '-e', r'/two\n\n!x{g}/', path)[0], ['gamma one one'])
        self.assertEqual(lines('lines', '-e', r'/two\n\ng/', path)[0], ['beta two', '', 'gamma one one'])

    def test_bytes_that_are_no_text(self):
        path, out = self.file('d', b'a\xff\xc3\r\nb\n'), os.path.join(self.folder, 'out')
        self.assertEqual(asked('lines', '-e', '/a/', path, '-o', out)[0], 0)
        with open(out, 'rb') as file:
            self.assertEqual(file.read(), b'a\xff\xc3\r\n')

    def test_edges(self):
        for data, query, wanted in ((b'', '/a*/', []), (b'\n', '/!x{}\\n/', ['']), (b'a', '/a/', ['a']),
                                    (b'a\n', '/\\n!x{}/', []), (b'a\nb', '/\\n!x{}/', ['b']),
                                    (b'a\n\nb\n', '/!x{\\n}\\n/', ['a']), (b'ab\nab\n', '/!x{a}b\\n!y{a}/', ['ab', 'ab'])):
            self.assertEqual(lines('lines', '--silent', '-e', query, self.file('d', data))[0], wanted, (data, query))

    @needs('grep')
    def test_as_grep_has_them(self):
        """Lines, their numbers, those around them and all others, of drawn texts, are those of grep."""
        pick = random.Random(5)
        for turn in range(12):
            text = ''.join(pick.choice('ab\n\n') for _ in range(pick.randrange(40))) + pick.choice(['', 'a', 'b\n'])
            path = self.file('d', text)
            for words, same in (((), ()), (('-v',), ('-v',)), (('-C', '1'), ('-C', '1')), (('-C', '2'), ('-C', '2'))):
                wanted = subprocess.run(['grep', '-n', *same, 'ab*a', path], stdout=subprocess.PIPE,
                                        universal_newlines=True).stdout.splitlines()
                self.assertEqual(lines('lines', '--line-numbers', *words, '-e', '/!x{ab*a}/', path)[0], wanted, (text, words))

    @needs('grep')
    def test_several_documents(self):
        names = [self.file('one', TEXT), self.file('two', b'no\nxx one\nno\n')]
        self.assertEqual(lines('lines', '-C', '1', '-e', '/one/', *names)[0],
                         subprocess.run(['grep', '-C', '1', 'one', *names], stdout=subprocess.PIPE,
                                        universal_newlines=True).stdout.splitlines())

    @needs('grep')
    def test_the_first_lines_with_those_around(self):
        """As grep -m N -C K has them."""
        pick = random.Random(3)
        for number in range(30):
            data = ''.join(pick.choice(['w', 'x', 'y', '']) + '\n' for _ in range(pick.randrange(9)))
            path = self.file('d%d' % number, data)
            for most, around in ((1, 1), (2, 1), (1, 2), (3, 2)):
                wanted = subprocess.run(['grep', '-m%d' % most, '-C%d' % around, 'w', path], stdout=subprocess.PIPE).stdout.decode()
                found = asked('lines', '-n', str(most), '-C', str(around), '-e', '/!x{w}/', path)[1]
                self.assertEqual(found, wanted, (data, most, around))

    def test_gaps_of_several_processes(self):
        paths = [self.file('d%03d' % number, 'a\n' * (number % 3) + ('b\n' if number % 5 else 'w\n') + 'c\n') for number in range(40)]
        one = asked('lines', '-C', '1', '--line-numbers', '-e', '/!x{w}/', *paths)[1]
        self.assertEqual(one.count('--\n'), 7)
        for jobs in ('2', '4'):
            self.assertEqual(asked('lines', '-C', '1', '--line-numbers', '--jobs', jobs, '-e', '/!x{w}/', *paths)[1], one)

    def test_refusals(self):
        for words, part in ((('-e', '/a/ join /b/'), 'put !name{..}'), (('-e', 'let x = /a/; x'), 'put !name{..}'),
                            (('-v', '-C', '1', '-e', '/a/'), 'drop -C'),
                            (('-C', '-1', '-e', '/a/'), '-C is 0 or more')):
            status, out, told = asked('lines', *words, self.file('d', TEXT))
            self.assertEqual((status, out, part in told), (2, '', True), told)

    def test_colour(self):
        path = self.file('d', b'aab one\n')
        self.assertEqual(lines('lines', '--color', 'always', '-e', '/!x{a+}b one/', '--silent', path)[0],
                         ['\x1b[1;31maa\x1b[mb one'])
        self.assertEqual(lines('lines', '--color', 'always', '-e', '/aa!x{b} !y{o}ne/', path)[0],
                         ['aa\x1b[1;31mb\x1b[m \x1b[1;31mo\x1b[mne'])
        self.assertEqual(lines('lines', '-e', '/!x{b}/', path)[0], ['aab one'])
        self.assertIn('\x1b[1;31mb\x1b[m', lines('kwic', '--color', 'always', '-e', '/!x{b}/', path)[0][0])

    def test_captured(self):
        for text, wanted in ((rb'/a/', rb'/!match{a}/'), (rb'/^a$/', rb'/^!match{a}$/'), (rb'/a\$/', rb'/!match{a\$}/'),
                             (rb'/\^a/u', rb'/!match{\^a}/u'), (rb'/^/', rb'/^!match{}/'),
                             (rb'/$/', rb'/!match{}$/'), (rb'/a|b/ union /\/c/', rb'/!match{a|b}/ union /!match{\/c}/'),
                             (rb'/^a|b$/m', rb'(/^!match{a|b}$/ union /^!match{a|b}\n/ union /\n!match{a|b}$/ union /\n!match{a|b}\n/)'),
                             (rb'/a\b/', rb'(/!match{a}$/ union /!match{a}[^\w]/)'), (rb'/a/ minus /b/', None),
                             (rb'project none (/!x{a}/)', None), (b'/a\\\\$/', b'/!match{a\\\\}$/')):
            found = expand.captured(text, b'match')
            self.assertEqual(found and found.text, wanted)
            if wanted is not None:
                self.assertEqual(rematch.Query(wanted).variables, ('match',))

    def test_lines_of_drawn_rows(self):
        """Which lines rows touch is what a plain reading has."""
        pick = random.Random(6)
        for turn in range(300):
            data = bytes(pick.choice(b'ab\n') for _ in range(pick.randrange(14)))
            rows = sorted({tuple(sorted((pick.randrange(len(data) + 1), pick.randrange(len(data) + 1))))
                           for _ in range(pick.randrange(5))})
            starts = [0] + [at + 1 for at, byte in enumerate(data) if byte == 10]
            whole = [(start, (data + b'\n').index(b'\n', start)) for start in starts if start < len(data)]
            wanted = [k for k, (start, end) in enumerate(whole, 1)
                      if any(low <= end and high > start or (low == high and start <= low <= end) for low, high in rows)]
            found = [line.number for line in to_lines.shown_lines(Given('d', Document(data)), rows)]
            self.assertEqual(found, wanted, (data, rows))
            self.assertEqual(to_lines.count_lines(Given('d', Document(data)), rows), len(wanted))


class Any(Folder):
    def test_status(self):
        yes, no, gone = self.file('yes', b'xa'), self.file('no', b'x'), os.path.join(self.folder, 'gone')
        for query in ('/!x{a}/', '/a/'):
            for names, status in (((yes,), 0), ((no,), 1), ((no, yes), 0), ((no, no, no), 1), ((gone, yes), 0), ((no, gone), 5),
                                  ((gone,), 5), ((no, no, gone, yes), 0)):
                self.assertEqual(asked('any', '-e', query, *names)[:2], (status, ''), (query, names))
        self.assertEqual(asked('any', '-e', '/a(/', yes)[0], 3)
        self.assertEqual(asked('any', '-e', '/a/', stdin=b'ba')[0], 0)


class Counts(Folder):
    def test_lines(self):
        path = self.file('d', TEXT)
        self.assertEqual(asked('count', '--lines', '-e', '/one/', path), (0, '3 %s\n' % path, ''))
        self.assertEqual(asked('count', '-e', '/!x{one}/', path), (0, '4 %s\n' % path, ''))
        self.assertEqual(asked('count', '--lines', '-e', '/!x{one}/', path, path)[1], '3 {0}\n3 {0}\n6 total\n'.format(path))

    def test_freq(self):
        one, two = self.file('one', b'a=1;b=2;a=1;\xff=1;'), self.file('two', b'a=2;",=2;')
        query = r'/!k{[^=;\n]}=!v{\d};/'
        self.assertEqual(lines('freq', '-e', query, '--var', 'k', one, two)[0], ['count,k', '3,a', '1,","', '1,b', '1,\\xff'])
        self.assertEqual(lines('freq', '-e', query, '--var', 'v,k', one)[0], ['count,v,k', '2,1,a', '1,1,\\xff', '1,2,b'])
        self.assertEqual(lines('freq', '-e', query, one)[0][0], 'count,k,v')
        self.assertEqual(lines('freq', '-n', '1', '-e', query, '--var', 'v', one, two)[0], ['count,v', '3,1'])
        self.assertEqual(lines('freq', '-e', '/(!x{a})?=/', '--silent', one)[0], ['count,x', '2,a', '1,'])

    def test_freq_refuses(self):
        for words, part in ((('-e', '/!x{a}/', '--var', 'y'), 'no variable y: it has x'),
                            (('-e', '/a/', '--silent'), 'no variables')):
            status, out, told = asked('freq', *words, self.file('d', b'a'))
            self.assertEqual((status, out, part in told), (2, '', True), told)


if __name__ == '__main__':
    unittest.main()
