"""The calls that `re` has: search, match, findall, finditer, split, sub, and what a row answers to."""
import array
import mmap
import os
import pathlib
import random
import re
import unittest

import rematch
from support import Folder
from drawing import Maker


class Calls(Folder):
    def test_those_of_re(self):
        text = r'/from !ip{[\d.]+} port !port{\d+}\n/'
        document = 'from 192.0.2.7 port 22\nfrom 192.0.2.8 port 23\n'
        query = rematch.compile(text)
        for given in (text, query):
            self.assertEqual(rematch.search(given, document).groups(), ('192.0.2.7', '22'))
            self.assertEqual(rematch.findall(given, document), query.findall(document))
            self.assertEqual(list(rematch.finditer(given, document, limit=1)), query.findall(document)[:1])
            first = rematch.search(given, document)
            self.assertEqual(rematch.search(given, document, after=first.cursor)['ip'], '192.0.2.8')
        self.assertIsNone(rematch.search('/!x{q}/', document))
        self.assertEqual(rematch.findall('/!x{q}/', b''), [])

    def test_match_and_fullmatch(self):
        """By the list of all rows, of drawn queries."""
        found = 0
        for number in range(60):
            maker = Maker('match/%d' % number)
            query = rematch.Query(maker.expr(set(maker.pick.sample('xyz', maker.pick.randrange(3))), 1))
            document = maker.document()
            try:
                rows = query.findall(document)
            except rematch.RematchError:
                continue
            first = [row for row in rows if row.extent and row.extent[0] == 0]
            whole = [row for row in first if row.extent[1] == len(document)]
            for got, wanted in ((query.match(document), first), (query.fullmatch(document), whole)):
                self.assertEqual(got and got.row, wanted[0].row if wanted else None, (query, document))
                found += got is not None
        self.assertGreater(found, 10)
        self.assertEqual(rematch.match('/!x{é}!y{.}/u', 'éa').span('y'), (1, 2))
        self.assertEqual(rematch.fullmatch('/!x{é+}/u', 'éé').span('x'), (0, 2))
        self.assertIsNone(rematch.fullmatch('/a/', 'a'))  # a row without spans is nowhere

    def test_split(self):
        self.assertEqual(rematch.split('/!x{, *}/', 'é, b,,c'), ['é', 'b', '', 'c'])
        self.assertEqual(rematch.split('/!x{,}!y{b}/', b'a,b,c', name='y'), [b'a,', b',c'])
        self.assertEqual(rematch.split('/!x{,*}/', ',a,,b'), ['', 'a', 'b'])  # the empty spans split nothing
        self.assertEqual(rematch.split('/!x{,}/', ''), [''])
        for number in range(40):
            pick = random.Random(number)
            document = ''.join(pick.choice('ab,é') for _ in range(pick.randrange(12)))
            self.assertEqual('|'.join(rematch.split('/!x{,+}/', document)), rematch.sub('/!x{,+}/', '|', document))
        for words, kind in (({'name': 'z'}, KeyError), ({'count': -1}, ValueError)):
            with self.assertRaises(kind):
                rematch.split('/!x{,}/', 'a', **words)
        with self.assertRaises(ValueError):
            rematch.split('/!x{,}!y{b}/', 'a')

    def test_expand(self):
        self.assertEqual(rematch.expand('part a = /x/; /!y{%{a}}/i'), '/!y{([Xx])}/')
        self.assertEqual(rematch.expand(b'/!y{\xc3\xa9}/'), b'/!y{\xc3\xa9}/')
        with self.assertRaises(rematch.QueryError):
            rematch.expand('/%{a}/')

    def test_what_has_a_buffer(self):
        query = rematch.Query('/!x{a}/')
        with open(self.file('d', b'aba'), 'r+b') as file, mmap.mmap(file.fileno(), 0) as found:
            self.assertEqual([match.span('x') for match in query.finditer(found)], [(0, 1), (2, 3)])
        self.assertEqual(query.count(array.array('B', b'aab')), 2)
        with self.assertRaisesRegex(TypeError, 'a document is bytes, str, a path or an open file, not int'):
            query.count(3)

    def test_queries_that_are_none(self):
        for ask in (rematch.search, rematch.findall, rematch.finditer):
            with self.assertRaisesRegex(rematch.QueryError, 'write a formula between slashes'):
                ask('a+', 'a')
        with self.assertRaises(rematch.QueryError):
            rematch.sub('a+', '', 'a')

    @unittest.skipIf(os.environ.get('REMATCH_LIBRARY', 'none') != 'none', 'the library runs no program')
    def test_another_program_is_seen(self):
        """Queries that are kept ready are those of the program that is asked for now."""
        rematch.search('/!x{a}/', 'a')
        before = os.environ['REMATCH'] if 'REMATCH' in os.environ else None
        os.environ['REMATCH'] = '/no/such/program'
        try:
            with self.assertRaises(rematch.ProgramNotFound):
                rematch.search('/!x{a}/', 'a')
        finally:
            os.environ.pop('REMATCH')
            if before is not None:
                os.environ['REMATCH'] = before


class Groups(unittest.TestCase):
    def test_no_group_0(self):
        match = rematch.search('/!x{a}(!y{c})?/', 'ab')
        for ask in (match.group, match.start, match.end, match.span, match.byte_span, lambda: match[0], lambda: match.group(0), lambda: list(match)):
            with self.assertRaisesRegex(KeyError, '^there is no group 0: .* name one of x, y, or use extent$') as caught:
                ask()
            self.assertIsInstance(caught.exception, rematch.NoVariable)
        with self.assertRaisesRegex(rematch.NoVariable, '^there is no group 2: variables have names, and no numbers; name one of x, y$'):
            match.group(2)
        with self.assertRaisesRegex(rematch.NoVariable, "^'z' is no variable of the query, which has x, y$"):
            match.group('x', 'z')
        with self.assertRaisesRegex(rematch.NoVariable, 'has no variable; write !name'):
            rematch.search('/a/', 'a').group()

    def test_groups_and_dict(self):
        match = rematch.search('/!x{a}(!y{c})?/', b'ab')
        self.assertEqual((match.groups(), match.groups(b'-'), dict(match)), ((b'a', None), (b'a', b'-'), {'x': b'a', 'y': None}))


class Replaced(unittest.TestCase):
    def test_as_re_does(self):
        """Where re takes the longest from the left, so does this."""
        pick = random.Random(5)
        for text, pattern in (('/!x{a+}/', 'a+'), ('/!x{x*}/', 'x*'), ('/!x{ab?}/', 'ab?'), ('/!x{é|b+}/u', 'é|b+')):
            query = rematch.Query(text)
            for count in (0, 0, 2):
                document = ''.join(pick.choice('abxé') for _ in range(8))
                wanted = re.sub(pattern, r'<\g<0>>', document, count=count)
                self.assertEqual(query.sub(r'<\g<x>>', document, count=count), wanted, (text, document))
                self.assertEqual(query.sub(lambda match: '<%s>' % match['x'], document, count=count), wanted)
            self.assertEqual(query.sub(rb'<\g<x>>', b'ab bxa'), re.sub(pattern.encode(), rb'<\g<0>>', b'ab bxa'))

    def test_several_variables(self):
        query = rematch.Query('/!key{[a-z]}=(!value{[0-9]})?/')
        self.assertEqual(query.sub(r'\g<value>\\', 'a=1 b= c=3', name='key'), '1\\=1 \\= 3\\=3')
        self.assertEqual(query.sub('', 'a=1 b= c=3', name='value'), 'a= b= c=')
        with self.assertRaisesRegex(ValueError, 'of the variables key, value one has to be named'):
            query.sub('', 'a=1')
        with self.assertRaisesRegex(rematch.NoVariable, "'k' is no variable"):
            query.sub('', 'a=1', name='k')

    def test_refused(self):
        query = rematch.Query('/!x{a}/')
        for put, kind, note in ((r'\1', ValueError, r'not as \\1; variables have names'), (r'\n', ValueError, r'not as \\n'), ('\\', ValueError, 'backslash'),
                                (r'\g<y>', ValueError, r'the replacement has \\g<y>, and the query the variables x'),
                                (b'', TypeError, 'the document is str, so the replacement is str too, not bytes'),
                                (lambda match: None, TypeError, 'the function gives str too, not NoneType')):
            with self.assertRaisesRegex(kind, note):
                query.sub(put, 'a')
        with self.assertRaisesRegex(ValueError, 'a count is 0 or more'):
            query.sub('', 'a', count=-1)
        with self.assertRaisesRegex(ValueError, 'variables none'):
            rematch.sub('/a/', '', 'a')


class Encodings(Folder):
    def test_of_a_table(self):
        path = pathlib.Path(self.file('d', 'né é\n'.encode('latin-1')))
        query = rematch.Query('/!x{é}/u')
        wanted = query.table('né é\n')
        self.assertEqual(query.table(path, encoding='latin-1'), wanted)
        with open(path, 'rb') as file:
            self.assertEqual(query.table(file, encoding='latin-1'), wanted)
        self.assertEqual(query.table('né é\n'.encode(), encoding='utf-8'), wanted)
        self.assertEqual(query.table('né é\n', encoding='latin-1'), wanted)  # a str is text already
        self.assertEqual(query.table(path)['x'], [])

    def test_no_text(self):
        path = pathlib.Path(self.file('d', b'ab\xff'))
        with self.assertRaisesRegex(rematch.DocumentError, 'no utf-8 at 2(.|\n)*hint: .*latin-1') as caught:
            rematch.Query('/!x{a}/').table(path, encoding='utf-8')
        self.assertEqual((caught.exception.filename, caught.exception.status), (str(path), 5))
        with self.assertRaises(LookupError):
            rematch.Document(b'a', 'no such encoding')
        with self.assertRaises(rematch.DocumentError):
            rematch.Document(pathlib.Path('/no/such/file'), 'utf-8')


if __name__ == '__main__':
    unittest.main()
