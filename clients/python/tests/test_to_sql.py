"""rematch-to sql: rows as tables, what a statement gives, and what is refused."""
import csv
import gzip
import io
import os
import random
import subprocess
import time
import unittest

from rematch.to.sql import seconds_of
from support import EXAMPLES, PROGRAM, Folder, needs_speed
from commands import asked
from drawing import Maker

PAIRS = int(os.environ.get('REMATCH_PAIRS', '60'))
FAILED = r'f=/ !t{\d\d:\d\d:\d\d} [^\n]*: Failed \w+ for (invalid user )?!name{[^ \n]+} from !address{[^ \n]+} /'
ACCEPTED = r'a=/ !t{\d\d:\d\d:\d\d} [^\n]*: Accepted \w+ for !name{[^ \n]+} from /'


def table(*words, **more):
    """The lines that a statement gives, without their head."""
    status, out, told = asked('sql', *words, **more)
    if status:
        raise AssertionError('status %r: %s' % (status, told))
    return [tuple(line) for line in csv.reader(io.StringIO(out))][1:]


class Rows(Folder):
    def test_columns(self):
        path = self.file('d', 'ab\nb é')
        status, out, told = asked('sql', 'select * from rows', '-e', '/(!x{a})?!y{b}/ union /!y{é}/', path)
        self.assertEqual((status, told), (0, ''))
        self.assertEqual(out.replace(path, 'd'), 'document,line,x,x_start,x_end,y,y_start,y_end\n'
                         'd,1,a,0,1,b,1,2\nd,1,,,,b,1,2\nd,2,,,,b,3,4\nd,2,,,,é,5,7\n')
        self.assertEqual(table('select typeof(x), x from rows', '-e', '/!x{[^a]}/', stdin=b'a\xff\0'), [('blob', '\\xff'), ('text', '\0')])
        self.assertEqual(table('select count(*) from rows', '-e', '/a/', stdin=b'aa'), [('1',)])
        self.assertEqual(asked('sql', "select 'a,b', null", '--tsv', '-e', '/!x{a}/', stdin=b'')[1], "'a,b'\tnull\na,b\t\n")
        self.assertEqual(asked('sql', "select 1", '--no-head', '-e', '/!x{a}/', stdin=b'')[1], '1\n')
        self.assertEqual(asked('sql', 'select null', '-e', '/a/', stdin=b'')[1], 'null\n""\n')

    def test_several_queries(self):
        log = os.path.join(EXAMPLES, 'auth.log')
        text = "time({0}.t, '%H:%M:%S')"
        within = "%s - %s between 0 and 60" % (text.format('a'), text.format('f'))
        self.assertEqual(table('select f.name, f.t, a.t from f join a using (name) where ' + within, '-e', FAILED, '-e', ACCEPTED, log),
                         [('grace', '11:45:32', '11:45:37'), ('ada', '13:11:26', '13:11:33'), ('ada', '13:21:23', '13:21:27'),
                          ('ada', '16:29:22', '16:29:28')])
        query = os.path.join(EXAMPLES, 'failed.query')
        self.assertEqual(table('select count(*), (select count(*) from rows) from failed', '-q', query, log), [('55', '55')])
        self.assertEqual(table('select count(*), (select count(*) from b) from failed', '-q', query, '-q', 'b=' + query, log), [('55', '55')])
        packed = self.file('packed', gzip.compress(b'a b'))
        self.assertEqual(table('select a.x, b.x from a, b', '-e', 'a=/!x{a}/', '-e', 'b=/!x{b}/', packed), [('a', 'b')])
        self.assertEqual(table('select a.x, b.x from a, b', '-e', 'a=/!x{a}/', '-e', 'b=/!x{b}/', '-', stdin=b'a b'), [('a', 'b')])

    def test_another_table(self):
        staff = self.file('staff.csv', 'name,team\ngrace,red\n"a, b",blue\n\nada\n')
        found = table('select distinct name, team from f join staff using (name)', '-e', FAILED, '--csv', 'staff=' + staff,
                      os.path.join(EXAMPLES, 'auth.log'))
        self.assertEqual(sorted(found), [('ada', ''), ('grace', 'red')])
        self.assertEqual(table('select * from t', '-e', '/a/', '--csv', 't=' + self.file('t.tsv', 'a\tb\n1,2\t3\n'), stdin=b''), [('1,2', '3')])

    def test_conveniences_and_documents(self):
        self.assertEqual(table('select x from rows', '-e', 'part ab = /ab/; /!x{%{ab}}/i', stdin=b'aB'), [('aB',)])
        good = self.file('good', 'a')
        status, out, told = asked('sql', 'select count(*) from rows', '-e', '/!x{a}/', os.path.join(self.folder, 'none'), good, '-o', os.path.join(self.folder, 'out'))
        self.assertEqual((status, out), (1, ''))
        self.assertIn('none: No such file', told)
        with open(os.path.join(self.folder, 'out')) as file:
            self.assertEqual(file.read(), 'count(*)\n1\n')

    def test_times(self):
        self.assertEqual(seconds_of('2026-11-08T10:00:01Z', '%Y-%m-%dT%H:%M:%SZ') - seconds_of('2026-11-08T10:00:00Z', '%Y-%m-%dT%H:%M:%SZ'), 1)
        self.assertEqual(seconds_of('08/Nov/2026:10:00:00 +0100', '%d/%b/%Y:%H:%M:%S %z'), seconds_of('2026-11-08 09:00', '%Y-%m-%d %H:%M'))
        self.assertEqual(seconds_of('Feb 29 00:00:00', '%b %d %H:%M:%S') - seconds_of('Feb 28 00:00:00', '%b %d %H:%M:%S'), 86400)
        self.assertIsNone(seconds_of('25:00', '%H:%M'))
        self.assertEqual(table("select time('12:00', '+1 hour'), time(null, '%H'), time('x', '%H'), time(null, null)", '-e', '/a/', stdin=b''),
                         [('13:00:00', '', '', '')])

    def test_stems_of_hairpins(self):
        """Drawn records, beside all pairs of their words of three letters."""
        pick, pairs = random.Random(9), {'A': 'T', 'C': 'G', 'G': 'C', 'T': 'A'}
        letters = ''.join(pick.choice('ACGT') for _ in range(60))
        words = [letters[at:at + 3] for at in range(58)]
        wanted = sum(words[k] == ''.join(map(pairs.get, reversed(words[j]))) for k in range(58) for j in range(k + 3, min(58, k + 8)))
        self.assertGreater(wanted, 0)
        self.assertEqual(table('select count(*) from rows where b = other_strand(a)', '-e', '/!a{[ACGT]{3}}[ACGT]{0,4}!b{[ACGT]{3}}/', stdin=letters.encode()),
                         [(str(wanted),)])
        self.assertEqual(table("select other_strand('gauC'), other_strand(null)", '-e', '/a/', stdin=b''), [('GAUC', '')])

    @needs_speed
    def test_the_time_that_it_takes(self):
        """Two captures compared, times compared, and counts by groups, on some 2,700 rows."""
        pick = random.Random(4)
        log = self.file('log', ''.join('\nNov %2d %02d:%02d:%02d gate sshd: Failed password for u%d from 192.0.2.%d port 22' % (
            1 + k // 1000, k // 120 % 24, k // 2 % 60, k % 60, pick.randrange(40), pick.randrange(90)) for k in range(2674)))
        query = r'failed=/\n!at{\w+ +\d+ [\d:]+} gate sshd: Failed password for !user{\w+} from !address{[\d.]+} port/'
        pairs = r'pair=/for !u1{\w+} from[^\n]*\n[^\n]*for !u2{\w+} from/'
        at = "time({}, '%b %d %H:%M:%S')"
        begun = time.monotonic()
        self.assertEqual(len(table('select user, count(*), count(distinct address) from failed group by 1', '-e', query, log)), 40)
        self.assertGreater(int(table('select count(*) from pair where u1 = u2', '-e', pairs, log)[0][0]), 20)
        self.assertGreater(int(table('select count(*) from failed a join failed b using (user) where %s - %s between 1 and 60' % (
            at.format('b.at'), at.format('a.at')), '-e', query, log)[0][0]), 20)
        self.assertLess(time.monotonic() - begun, 300)  # 1 s where the machine has nothing else to do


class Refused(Folder):
    def test_words(self):
        query = self.file('a.query', '/!x{a}/')
        for words, part in (
                ((), "hint: the statement comes first: rematch-to sql 'select ..'"), (('select 1', query), 'there is no query'),
                ((query, '-q', query), 'is a file, and the statement is required first'),
                (('select 1', '-q', query, '-q', query), 'there are two tables a: write TABLE=NAME'),
                (('select 1', '-q', query, '-e', 'A=/a/'), 'there are two tables A'),
                (('select 1', '-q', query, '--csv', 'b'), "--csv is TABLE=FILE, not 'b'"),
                (('select 1', '-q', query, '-o', self.folder), 'is a folder'), (('select 1', '-q', query, '--var', 'x'), 'unrecognized arguments')):
            status, out, told = asked('sql', *words)
            self.assertEqual((status, out), (2, ''), words)
            self.assertIn(part, told, words)
            self.assertTrue(told.startswith('rematch-to sql: '), told)

    def test_statements(self):
        query = self.file('a.query', '/!x{a}/')
        for words, part in (
                (('select y from a', '-q', query), 'no such column: y\nhint: there is a (document, line, x, x_start, x_end)\n'),
                (('select y from', '-q', query), 'incomplete input'), (('select 1; select 2', '-q', query), 'one statement at a time'),
                (('select 1', '-e', '/!line{a}/'), 'the table rows would have two columns line\nhint: rename'),
                (('select 1', '-e', '/!X{a}!x{b}/'), 'two columns x'), (('select 1', '-e', 'sqlite_a=/!x{a}/'), 'hint: give the table a name'),
                (('select 1', '-q', query, '--csv', 'b=' + self.file('b', '')), 'no line with the names of the columns')):
            status, out, told = asked('sql', *words, stdin=b'a')
            self.assertEqual((status, out), (2, ''), words)
            self.assertIn(part, told, words)

    def test_faults_are_those_of_the_program(self):
        for words, status, part in ((('-e', '/!x{a/'), 3, 'query: not closed at 1'), (('-e', 'a=-/!x{a}/'), 3, 'query: unexpected at 0'), (('-e', '/!x{(a|b)*a(a|b){12}}/', '--max-table', '1'), 4, 'size: table past 1'),
                                    (('-q', os.path.join(self.folder, 'none')), 5, 'No such file'), (('-e', '/a/', self.folder), 5, 'Is a directory'),
                                    (('-e', '/a/', '--csv', 't=' + self.folder), 5, 'Is a directory')):
            found, out, told = asked('sql', 'select 1', *words, stdin=b'ababababab')
            self.assertEqual((found, out), (status, ''), (words, told))
            self.assertIn(part, told)


class Drawn(Folder):
    """The tables have the rows that the program gives."""

    def test_rows(self):
        compared = 0
        for number in range(PAIRS):
            maker = Maker('sql/%d' % number)
            query, document = maker.query().decode(), bytearray(maker.document())
            if number % 4 == 0 and document:
                document[number % len(document)] = b'\0\xff\xc3'[number % 3]
            run = subprocess.run([PROGRAM, '-e=' + query], input=bytes(document), stdout=subprocess.PIPE, stderr=subprocess.PIPE)
            status, out, told = asked('sql', 'select * from rows', '--silent', '-e', 'rows=' + query, stdin=bytes(document))
            self.assertEqual(status, run.returncode, (query, told))
            if status:
                self.assertTrue(told.startswith(run.stderr.decode().rstrip('\n')), (query, told))
                continue
            head, *rows = csv.reader(io.StringIO(out, newline=''))
            wanted = [line.split() for line in run.stdout.decode().splitlines()]
            self.assertEqual([self.spans(head, row) for row in rows], [[] if line == ['()'] else line for line in wanted], (query, bytes(document)))
            self.assertEqual([self.texts(head, row) for row in rows], [self.texts_at(line, bytes(document)) for line in wanted], query)
            compared += len(rows)
        self.assertGreater(compared, PAIRS // 4)

    @staticmethod
    def spans(head, row):
        """A row as the program writes it, by its starts and ends."""
        cells = dict(zip(head, row))
        return ['%s=%s' % (name, cells[name + '_start'] + '-' + cells[name + '_end'] if cells[name + '_start'] else '-') for name in head[2::3]]

    @staticmethod
    def texts(head, row):
        return row[2::3]

    @staticmethod
    def texts_at(line, document):
        found = []
        for field in line if line != ['()'] else ():
            start, _, end = field.partition('=')[2].partition('-')
            found.append(document[int(start):int(end)].decode('utf-8', 'backslashreplace') if start else '')
        return found


if __name__ == '__main__':
    unittest.main()
