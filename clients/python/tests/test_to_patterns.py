"""--pattern-file: named patterns, in tables and in sequences."""
import json
import os
import random
import unittest

import rematch
from rematch.to.merged import order_of
from rematch.to.patterns import Pattern, PatternQuery, patterns_of
from support import Folder
from commands import asked, lines


class Files(unittest.TestCase):
    def test_refused(self):
        for data, part in ((b'', 'line 1: there is no pattern'), (b'# a\n\n', 'line 1: there is no pattern'), (b'a b', 'line 1: it has no tab'), (b'x\ta\n\tb', 'line 2: it has no name'),
                           (b'a\t \n', 'line 1: it has no formula'), (b'a\t\xff', 'no UTF-8 at 2'), (b'>a\n>b\nG', 'line 1: it has no formula'),
                           (b'> \nG', 'line 1: it has no name')):
            with self.assertRaises(rematch.QueryError) as fault:
                patterns_of(data, 'f')
            self.assertEqual(str(fault.exception).split('\n')[0], 'f: ' + part)

    def test_read(self):
        found = patterns_of('\ufeffa b \t x/y\\/z \r\n\nc\t/d|e/u\n'.encode(), 'f')
        self.assertEqual([tuple(pattern) for pattern in found], [('a b', '/ x\\/y\\/z /', 1), ('c', '/d|e/u', 3)])
        self.assertEqual([pattern.query for pattern in patterns_of(b'>a\nGA\n TC\n>b\n[AC]', 'f')], ['/GATC/', '/[AC]/'])


class Rows(Folder):
    def test_drawn(self):
        """The rows of drawn patterns together, beside those of each by itself."""
        pick, compared = random.Random(3), 0
        for _ in range(8):
            patterns = [Pattern('p%d' % k, '/%s/' % pick.choice(['!match{a+}', '!x{b}', '(!x{a})?!y{b}', '!match{.}', 'a!match{}b']), k) for k in range(pick.randrange(1, 5))]
            text = ''.join(pick.choice('ab\n') for _ in range(12)).encode()
            query = PatternQuery(patterns, 'f')
            found = [(row.pattern, {name: row[2 * k:2 * k + 2] for k, name in enumerate(query.variables) if row[2 * k] >= 0}) for row in query.rows(text)]
            wanted = [(pattern.name, {name: span for name, span in match.spandict().items() if span}) for pattern in patterns
                      for match in rematch.Query(pattern.query).finditer(text)]
            self.assertEqual(sorted(found, key=repr), sorted(wanted, key=repr))
            rows = list(query.rows(text))
            self.assertEqual(rows, sorted(rows, key=order_of))
            self.assertEqual((query.count(text), query.any(text)), (len(wanted), bool(wanted)))
            compared += len(rows)
        self.assertGreater(compared, 20)

    def test_forms(self):
        self.file('words.txt', 'tide\nebb\n')
        patterns = self.file('p', '# rules\nip\t\\d+\\.\\d+\nuser\t/for !user{\\w+} from/\nsea\t/%{words.txt}/i\n')
        log = self.file('log', 'for bob from\nTIDE 1.2\n')
        self.assertEqual(lines('csv', '--pattern-file', patterns, log)[0],
                         ['document,line,pattern,match_start,match_end,match,user_start,user_end,user', log + ',1,user,,,,4,7,bob',
                          log + ',2,sea,13,17,TIDE,,,', log + ',2,ip,18,21,1.2,,,'])
        self.assertEqual(lines('tsv', '--columns', 'pattern,match', '--pattern-file', patterns, log)[0], ['pattern\tmatch', 'user\t', 'sea\tTIDE', 'ip\t1.2'])
        self.assertEqual([json.loads(line)['pattern'] for line in lines('json', '--pattern-file', patterns, log)[0]], ['user', 'sea', 'ip'])
        self.assertEqual(lines('freq', '--var', 'pattern', '--pattern-file', patterns, log, log)[0], ['count,pattern', '2,ip', '2,sea', '2,user'])
        self.assertEqual(lines('freq', '--no-head', '--pattern-file', patterns, log)[0], ['1,ip,1.2,', '1,sea,TIDE,', '1,user,,bob'])
        self.assertEqual(lines('count', '--pattern-file', patterns, log)[0], ['3 ' + log])
        self.assertEqual(lines('lines', '--line-numbers', '--pattern-file', patterns, log)[0], ['1:for bob from', '2:TIDE 1.2'])
        long = self.file('long', 'for bob from\nTIDE 1.2\n' + '.' * 100 + '\n' * 9_000_000)
        self.assertEqual(lines('csv', '--silent', '--no-head', '--columns', 'line,pattern', '--jobs', '2', '--pattern-file', patterns, long)[0], ['1,user', '2,sea', '2,ip'])

    def test_anchors_are_told(self):
        self.assertIn('it has several lines', asked('csv', '--pattern-file', self.file('p', 'a\t/^a/\n'), self.file('d', 'a\na\n'))[2])

    def test_refused(self):
        patterns = self.file('p', 'a\tb(\n')
        for given, status, part in ((('csv', '--pattern-file', patterns), 3, 'p: line 1: query: not closed at 2: what begins here'),
                                    (('csv', '--pattern-file', patterns, '-e', '/a/'), 2, 'by --pattern-file or by -e or -q'),
                                    (('csv', '--pattern-file', patterns, '--words', patterns), 2, 'by --words or by --pattern-file'),
                                    (('csv', '--pattern-file', patterns, '--state', 's'), 2, '--state takes one query'),
                                    (('kwic', '--pattern-file', patterns), 2, '--pattern-file is of csv'),
                                    (('csv', '--pattern-file', self.file('q', 'a\t/!pattern{b}/\n')), 2, "two columns would be called 'pattern'"),
                                    (('json', '--pattern-file', self.file('q', 'a\t/!pattern{b}/\n')), 2, 'each row has a member pattern'),
                                    (('csv', '--pattern-file', self.file('r', 'big\t(a{1000}){30}\n')), 4, 'of the pattern big'),
                                    (('csv', '--pattern-file', os.path.join(self.folder, 'none')), 5, 'No such file')):
            found, out, told = asked(*given, stdin=b'a')
            self.assertEqual((found, out, part in told), (status, '' if status != 4 else out, True), (given, found, told))


class Heads(Folder):
    def test_the_line_with_the_names(self):
        document, state = self.file('d', 'a\n'), os.path.join(self.folder, 'state')
        words = ('csv', '-t', '-e', '/!x{a}/')
        self.assertEqual(lines(*words, document)[0], ['document,line,x', document + ',1,a'])
        self.assertEqual(lines(*words, '--no-head', document)[0], [document + ',1,a'])
        self.assertEqual(lines(*words, '--state', state, document)[0], ['document,line,x', document + ',1,a'])
        self.assertEqual([lines(*words, *more, '--state', state, document)[0] for more in ((), ('--head',))], [[], ['document,line,x']])

    def test_refused(self):
        for more, part in ((('--head',), '--head is for --state'), (('--head', '--no-head', '--state', 's'), '--head and --no-head both')):
            status, out, told = asked('csv', '-e', '/!x{a}/', *more, stdin=b'')
            self.assertEqual((status, out, part in told), (2, '', True), told)


if __name__ == '__main__':
    unittest.main()
