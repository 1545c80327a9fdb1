"""Faults: the kinds, the place under the query, the hints and their table, programs that are no rematch."""
import os
import pickle
import re
import unittest
from unittest import mock

import rematch
from rematch import faults, hints
from support import DOCS, PROGRAM, Folder, knows

# What beginners write and the program refuses, and a part of the hint.
BEGINNERS = [
    (r'/a*?b/', 'lazy'), (r'/a+?/', 'lazy'), (r'/a++/', 'group'), (r'/a{2}{3}/', 'group'), (r'/\bthe\b/', r'read \b'), (r'/\Ba/', r'\w'),
    (r'/\D/', r'[^\d]'), (r'/\W+/', r'[^\w]'), (r'/\S+/', r'[^\s]'), (r'/\Aab/', '^'), (r'/ab\Z/', '$'), (r'/ab\z/', '$'),
    (r'/\p{L}/', 'flag u'), (r'/\P{L}/u', r'[^\p{..}]'), (r'/\u{e9}/', 'flag u'), (r'/\x9/', 'two digits'), (r'/\f/', r'\x0c'),
    (r'/\v/', r'\x0b'), (r'/\0/', r'\x00'), (r'/(a)\1/', 'back-references'), (r'/\k<x>/', 'back-references'), ('/a{,3}/', '{0,k}'),
    ('/!1st{a}/', 'begins with a letter'), ('/x{a}/', '!name{..}'), ('/!x {a}/', 'without a space'), ('/a{3,2}/', 'ascending'), ('/a{5000}/', '1,000'),
    ('/(?:a)/', '(..)'), ('/(?=a)/', 'look-around'), ('/(?<!a)b/', 'look-around'), ('/(?P<x>a)/', '!name{..}'), ('/(?<x>a)/', '!name{..}'),
    ('/(?i)a/', '[Ff]'), ('/*a/', 'nothing before it'), ('/a/i', '[Aa]'), ('/a/gi', '[Aa]'), ('/usr/bin/', r'\/'), ('/[[:alpha:]]/', r'\['),
    ('/[é]/', 'add u after'), ('/a/ AND /b/', 'and is join'), ('/a/ or /b/', 'or is union'), ('/a/ not /b/', 'not is minus'), ('/a/ Join /b/', 'small letters'), ('/a/ | /b/', 'union'), ('a', 'between slashes'),
    ('"a"', 'between slashes'), ('^a$', 'between slashes'), (r'/\p{Greek}/u', 'range'), ('/a$|b/', '$/ union'), ('/a$b/', 'straight before'), ('/(^|,)!x{a}/', '/^!x{..}/ union'), ('/!x{a}(,|$)/', '$/ union'), ('/(,|^)a/', '/^!x{..}/ union'), ('/!x{^a}/', 'before the capture'), ('/!x{a$}/', 'after the capture'), (r'/a\n^b/', 'straight after'),
    ('/a', 'closing slash'), ('/a[/]/', r'\/'), ('/(a/', 'not closed'), ('/!x{a/', 'not closed'), ('/(!x{a})*/', 'row of its own'),
    ('/!x{a}!x{b}/', 'rename'), ('/!x{a}|b/ join /!x{.}/', 'every way'), ('project y (/!x{a}/)', 'no such variable'), ('/[z-a]/', 'lower'),
    (r'/[\w-z]/', 'last in the class'), ('/a/;', 'let ends with'), ('let w = /a/;', 'too early'), ('/a/ /b/', 'union, join'), ('/a]/', r'\]'),
    ('/[]/', 'never empty'), ('/!none{a}/', 'another name'), ('union /a/', 'a query is let'), ('', 'too early'),
    ('/y(/', 'not closed'), ('/y[/', 'not closed'), ('/x/g', 'drop it'), ('# comment\n/a/', 'no comments'), ('/!x{a}/ where x > 5', 'only tests'),
    ('/!x{a}/ where len(x) > 5', 'only tests'), ('/!x{a}/ where luhn(x) and x > 5', 'commas'), ('/!x{a}/ where', 'only tests'), ('/a/ OR /b/', 'union'),
    ('part ip = /a/; /%{ip}/', 'rematch-to and rematch-piece read parts'), ('/from where (?:a)/', '(..)'),
    ('\ufeff/!x{a}/', 'byte order mark'), (r'/a\R/', r'(\r?\n)'), ('/!größe{a}/', 'letters of ASCII'), ('[pos="JJ"]', 'between slashes'),
    (r'/$user{\w+}/', 'as !name{..}'), (r'/!{\w+}/', 'a capture has a name'), ('/^a/m', 'read m'), ('/a%{ip}/', 'read parts'), ('/[a-z]/ & /b/', 'and is join')]


class Places(unittest.TestCase):
    def fault(self, query):
        with self.assertRaises(rematch.QueryError) as caught:
            rematch.Query(query)
        return caught.exception

    def test_line_and_column(self):
        fault = self.fault('/a/ join\n/é*?/u')
        self.assertEqual((fault.offset, fault.line, fault.column, fault.kind, fault.variable, fault.status),
                         (13, 2, 4, 'repeat after repeat', None, 3))
        self.assertEqual(str(fault).split('\n')[:4], ['query: repeat after repeat at 13', 'line 2, column 4:', '  /é*?/u', '     ^'])

    def test_the_caret_stands_under_wide_signs_and_tabs(self):
        for query, caret in (('/漢é**/', '  ' + ' ' * 5 + '^'), ('/\t**/', '   \t ^'), ('/e\u0301**/', '     ^')):
            self.assertEqual(str(self.fault(query)).split('\n')[2], caret)

    def test_long_lines_are_cut(self):
        for before, after in ((300, 0), (0, 300), (300, 300)):
            lines = str(self.fault('/' + 'a' * before + '**' + 'a' * after + '/')).split('\n')
            self.assertLess(max(map(len, lines[:3])), 90)
            self.assertEqual(lines[1][len(lines[2]) - 1], '*')

    def test_a_variable(self):
        fault = self.fault('/!abc{a}!abc{b}/')
        self.assertEqual((fault.variable, fault.kind, fault.offset, fault.line), ('abc', 'variable twice', None, None))
        self.assertEqual(self.fault('project y (/!x{a}/)').kind, 'no variable to keep')

    def test_each_is_also_of_a_built_in_kind(self):
        for kind, built_in in ((rematch.QueryError, ValueError), (rematch.SizeError, ValueError), (rematch.DocumentError, OSError),
                               (rematch.CursorError, ValueError), (rematch.OutOfMemory, MemoryError), (rematch.ProgramError, RuntimeError),
                               (rematch.ProgramNotFound, FileNotFoundError)):
            self.assertTrue(issubclass(kind, built_in) and issubclass(kind, rematch.RematchError))
            fault = kind('out of memory', 9, b'/a/')
            again = pickle.loads(pickle.dumps(fault))
            self.assertEqual((type(again), str(again), again.status, again.query), (kind, str(fault), 9, b'/a/'))

    def test_each_status(self):
        for status, note, kind in ((3, 'query: too deep at 5', rematch.QueryError), (4, 'size: table past 9', rematch.SizeError),
                                   (5, 'read failed: document', rematch.DocumentError), (7, 'cursor: not a cursor', rematch.CursorError),
                                   (6, 'document longer than 268435456 bytes', rematch.DocumentError), (9, 'out of memory', rematch.OutOfMemory),
                                   (2, 'bad command line', rematch.ProgramError), (8, 'write failed', rematch.ProgramError),
                                   (10, '', rematch.ProgramError), (-9, '', rematch.ProgramError), (3, '', rematch.ProgramError)):
            fault = faults.error_of(status, note)
            self.assertIs(type(fault), kind)
            self.assertIn(note, str(fault))

    def test_size(self):
        with self.assertRaisesRegex(rematch.SizeError, '20000 states\nhint: each copy'):
            rematch.Query('/!x{(a{1000}){20}}/').count(b'')
        self.assertEqual(rematch.Query('/!x{(a{1000}){20}}/').variables, ('x',))


class Hints(unittest.TestCase):
    def test_each_line_is_met_by_its_example(self):
        for hint in hints.HINTS:
            if hint.example and hint.note.startswith('query: ') and self.is_known(hint):
                with self.assertRaises(rematch.QueryError, msg=hint.example) as caught:
                    rematch.Query(hint.example)
                self.assertEqual(hints.general_note(caught.exception.note), hint.note, hint.example)
                self.assertEqual(caught.exception.hint, hint.text, hint.example)

    def is_known(self, hint):
        """Whether the program has what the hint speaks of: notes of minus and of tests are younger than others."""
        newer = {'minus': '/a/ minus /b/', 'test': '/!x{a}/ where upper(x)'}
        return all(knows(query) for word, query in newer.items() if word in hint.note.split())

    def test_what_beginners_write(self):
        for query, part in BEGINNERS:
            with self.assertRaises(rematch.QueryError, msg=query) as caught:
                rematch.Query(query)
            self.assertIn(part, str(caught.exception.hint), query)

    def test_each_note_of_the_program_has_a_hint(self):
        with open(os.path.join(DOCS, 'FORMATS.md'), encoding='utf-8') as file:
            section = re.search(r'\n## Notes\n(.*?)\n## ', file.read(), re.S)[1]
        noted = [note for line in section.split('\n') if line.startswith('| `') for note in re.findall('`([^`]*)`', line.split(' | ')[0])]
        self.assertGreater(len(noted), 30)
        for note in noted:
            if note not in ('end', 'more CURSOR', 'bad command line') and 'request' not in note:
                self.assertIn(note, hints.NOTES)
                last = [hint for hint in hints.HINTS if hint.note == note][-1]
                self.assertFalse(last.here or last.before, 'the last line of a note is for all places')

    def test_formats_prints_the_table(self):
        with open(os.path.join(DOCS, 'FORMATS.md'), encoding='utf-8') as file:
            self.assertIn('\n' + hints.markdown(), file.read(), 'print it by python3 -m rematch.hints')

    def test_a_note_of_another_program(self):
        self.assertIsNone(hints.hint_of('query: strange at 3', b'/a/', 3))
        self.assertEqual(str(rematch.QueryError('query: strange at 1', 3, b'/a/')), 'query: strange at 1\n  /a/\n   ^')


class Programs(Folder):
    """Programs that die, that are another, and that are not there."""

    def ask(self, text, ways=('count', 'findall')):
        program = self.script('rematch', '#!/bin/sh\ncase "$*" in *--explain*) echo "query /!x{a}/"; echo "variables x"; echo end >&2; exit;; esac\n' + text)
        query = rematch.Query('/!x{a}/', program=program)
        for way in ways:
            yield query, way

    def check(self, text, note, kind=rematch.ProgramError):
        for query, way in self.ask(text):
            with self.assertRaisesRegex(kind, note):
                getattr(query, way)(b'aa')

    def test_killed(self):
        self.check("printf 'x\\n0-1\\n'; kill -9 $$", 'signal 9')

    def test_rows_before_it_dies_are_given(self):
        for query, _ in self.ask("printf 'x\\n0-1\\n'; exit 9", ['finditer']):
            rows = query.finditer(b'aa')
            self.assertEqual(next(rows).span('x'), (0, 1))
            with self.assertRaisesRegex(rematch.ProgramError, 'status 9'):
                next(rows)

    def test_memory(self):
        self.check("printf 'x\\n0-1\\n'; echo out of memory >&2; exit 9", 'out of memory', rematch.OutOfMemory)

    def test_no_note(self):
        self.check("printf 'x\\n0-1\\n'", 'without its note')

    def test_half_a_line(self):
        self.check("printf 'x\\n0-1\\n1-'; echo end >&2", 'without its note')

    def test_lines_that_are_no_rows(self):
        for line in ('a-b', '0-1\\t1-2', '0-', '', '-1-2', '0-1-'):
            for query, _ in self.ask("printf 'x\\n%s\\n'; echo end >&2" % line, ['findall']):
                with self.assertRaisesRegex(rematch.ProgramError, 'no rows'):
                    query.findall(b'aa')

    def test_another_head(self):
        self.check("printf 'y\\n0-1\\n'; echo end >&2", 'another head')

    def test_no_rematch(self):
        with self.assertRaisesRegex(rematch.ProgramError, 'is it rematch'):
            rematch.Query('/a/', program='/bin/true')
        with self.assertRaisesRegex(rematch.ProgramError, 'status 1'):
            rematch.Query('/a/', program='/bin/false')
        with self.assertRaisesRegex(rematch.ProgramError, 'variables of the query'):
            rematch.Query('/a/', program=self.script('p', '#!/bin/sh\necho end >&2\n'))
        with self.assertRaisesRegex(rematch.ProgramNotFound, 'cannot be run: No such file'):
            rematch.Query('/a/', program=os.path.join(self.folder, 'none'))
        with self.assertRaisesRegex(rematch.ProgramNotFound, 'cannot be run: Permission'):
            rematch.Query('/a/', program=self.file('plain'))

    @mock.patch('rematch.program._of_checkout', side_effect=rematch.ProgramNotFound('not in a checkout'))
    def test_where_it_is_looked_for(self, _):
        here, there = self.script('rematch', '#!/bin/sh\n'), self.file('plain')
        with mock.patch.dict(os.environ, REMATCH=here):
            self.assertEqual(rematch.find_program(), here)
        for bad in (there, os.path.join(self.folder, 'none'), self.folder, 'no_such_name'):
            with mock.patch.dict(os.environ, REMATCH=bad):
                with self.assertRaisesRegex(rematch.ProgramNotFound, 'REMATCH names no program'):
                    rematch.find_program()
        with mock.patch.dict(os.environ, PATH=self.folder), mock.patch('rematch.program._beside', lambda: iter([there])):
            del os.environ['REMATCH']
            self.assertEqual(rematch.find_program(), here)
            os.environ['PATH'] = '/nowhere'
            with self.assertRaisesRegex(rematch.ProgramNotFound, 'no program rematch'):
                rematch.find_program()
        with mock.patch.dict(os.environ, PATH='/nowhere'), mock.patch('rematch.program._beside', lambda: iter([here])):
            del os.environ['REMATCH']
            self.assertEqual(rematch.find_program(), here)

    def test_the_program_of_these_tests(self):
        self.assertEqual(rematch.find_program(), PROGRAM)


if __name__ == '__main__':
    unittest.main()
