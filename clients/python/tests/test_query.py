"""Queries: rows, texts, places, pages, and what is left of a run."""
import gzip
import io
import os
import pickle
import random
import threading
import unittest
from pathlib import Path

import rematch
from support import EXAMPLES, IS_REFERENCE, Folder, children, needs_speed
from drawing import Maker
import rematch_oracle as oracle


class Rows(unittest.TestCase):
    def test_spans_and_texts(self):
        query = rematch.Query(r'/!x{a+}!y{b+}/')
        self.assertEqual(query.variables, ('x', 'y'))
        match = query.findall(b'aabb')[1]
        self.assertEqual(match.spandict(), {'x': (0, 2), 'y': (2, 4)})
        self.assertEqual(match.groupdict(), {'x': b'aa', 'y': b'bb'})
        self.assertEqual(match.group('x', 'y'), (b'aa', b'bb'))
        self.assertEqual((match['x'], match.group('y'), match.start('x'), match.end('y')), (b'aa', b'bb', 0, 4))
        self.assertEqual(match.extent, (0, 4))

    def test_text_counts_characters(self):
        query = rematch.Query('/!x{é+}/u')
        match = query.findall('né̱é')[0]
        self.assertEqual((match.span('x'), match.byte_span('x'), match['x']), ((1, 2), (1, 3), 'é'))
        text = 'aé\U0001f600b'
        query = rematch.Query('/!x{.}/u')
        self.assertEqual([match['x'] for match in query.finditer(text)], list(text))
        self.assertEqual(list(query.rows(text)), [(k, k + 1) for k in range(4)])
        self.assertEqual(query.columns(text)['x'][0].tolist(), [0, 1, 2, 3])

    def test_text_is_what_stands_at_the_span(self):
        text = 'é\udcffà\n'
        for query in ('/!x{.}/', '/!x{(.|\\n)*}/u', '/!x{[^a]+}/'):
            for match in rematch.Query(query).finditer(text):
                self.assertEqual(match['x'], text[match.start('x'):match.end('x')])

    def test_absent(self):
        query = rematch.Query('/(!x{a})?!y{b}/ union /!z{b}/')
        rows = query.findall(b'ab')
        self.assertEqual([match['x'] for match in rows], [b'a', None, None])
        self.assertEqual([match.span('z') for match in rows], [None, None, (1, 2)])
        self.assertEqual((rows[1].start('x'), rows[1].end('x'), rows[1].byte_span('x')), (None, None, None))
        self.assertEqual(list(query.rows(b'ab')), [(0, 1, 1, 2, -1, -1), (-1, -1, 1, 2, -1, -1), (-1, -1, -1, -1, 1, 2)])
        self.assertEqual(query.columns(b'ab')['x'][0].tolist(), [0, -1, -1])
        self.assertEqual(query.columns('éab')['x'][0].tolist(), [1, -1, -1])

    def test_without_variables(self):
        query = rematch.Query('/ab/')
        self.assertEqual((query.variables, query.count(b'xab'), query.findall(b'xx'), query.any(b'ab')), ((), 1, [], True))
        self.assertEqual(([match.groupdict() for match in query.finditer(b'ab')], query.columns(b'ab')), ([{}], {}))
        self.assertEqual((list(query.rows(b'ab')), query.findall(b'ab')[0].extent), ([()], None))

    def test_no_such_variable(self):
        match = rematch.Query('/!x{a}/').findall(b'a')[0]
        for ask in (match.span, match.group, match.start, match.byte_span, match.__getitem__):
            with self.assertRaisesRegex(KeyError, "'z' is no variable of the query, which has x"):
                ask('z')

    def test_equal_rows(self):
        query = rematch.Query('/!x{a}/')
        self.assertEqual(query.findall(b'aba'), query.findall(b'aba'))
        self.assertNotEqual(query.findall(b'aba'), query.findall(b'ab'))
        self.assertEqual(len({*query.findall(b'aa'), *query.findall(b'aa')}), 2)

    def test_filter_and_table(self):
        query = rematch.Query('/(a|b)*a(a|b){12}!x{c}/', max_table=166)
        self.assertEqual(query.count(b'a' * 13 + b'c'), 1)
        self.assertEqual(rematch.Query('/!x{aab}/', filter=True).findall(b'xxxxaabxxxx')[0].span('x'), (4, 7))
        with self.assertRaises(ValueError):
            rematch.Query('/a/', max_table=0)

    def test_what_a_word_cannot_hold(self):
        self.assertEqual(rematch.Query(b'/!x{a\0}/' if IS_REFERENCE else '/!x{a}/').count(b'a\0'), 1)
        long = '/[%s]/' % ('a' * 65532)
        self.assertEqual(rematch.Query(long).count(b'a'), 1)
        with self.assertRaises(rematch.QueryError):
            rematch.Query('/[%s]/' % ('a' * 200000))
        with self.assertRaisesRegex(rematch.QueryError, 'not UTF-8'):
            rematch.Query(b'/caf\xe9/u')

    def test_pickled(self):
        query = pickle.loads(pickle.dumps(rematch.Query('/!x{a}/', filter=True)))
        self.assertEqual((query.text, query.count(b'aa'), query._words), (b'/!x{a}/', 2, ['--filter']))

    def test_from_file_and_compile(self):
        query = rematch.Query.from_file(os.path.join(EXAMPLES, 'failed.query'))
        self.assertEqual(query.variables, ('address', 'user'))
        self.assertEqual(rematch.compile('/!x{a}/').printed, '/!x{a}/')

    def test_table(self):
        table = rematch.Query('/(!x{a})?!y{é}/u').table('aé')
        self.assertEqual({name: list(column) for name, column in table.items()},
                         {'x_start': [0, -1], 'x_end': [1, -1], 'x': ['a', None], 'y_start': [1, 1], 'y_end': [2, 2], 'y': ['é', 'é']})

    def test_lists_show_themselves(self):
        query = rematch.Query('/!x{a}/')
        self.assertIn('rm-text', query.findall(b'aba')._repr_html_())
        self.assertIn('rm-text', query.findall(b'aba')[0]._repr_html_())
        self.assertIsNone(query.findall(b'b')._repr_html_())
        self.assertIsNone(rematch.Query('/a/').findall(b'a')._repr_html_())


class Pages(unittest.TestCase):
    def test_pages_join(self):
        query = rematch.Query('/!x{a*}(!y{b})?/')
        whole = query.findall(b'aabaa')
        for size in (1, 3, 1000):
            rows, cursor = [], 'start'
            while cursor is not None:
                page = query.page(b'aabaa', size, after=cursor)
                self.assertLessEqual(len(page), size)
                rows, cursor = rows + page, page.cursor
            self.assertEqual(rows, whole)

    def test_cursor_of_a_row(self):
        query = rematch.Query('/(!x{é})?!y{.}/u')
        whole = query.findall('aéb')
        for k, match in enumerate(whole):
            self.assertEqual(query.findall('aéb', after=match.cursor), whole[k + 1:])
        self.assertEqual(query.page('aéb', 1).cursor, whole[0].cursor)

    def test_limit(self):
        query = rematch.Query('/!x{a*}/')
        self.assertEqual(len(query.findall(b'aaaa', limit=3)), 3)
        self.assertEqual(list(query.rows(b'aa', limit=1, after='c2:2;x:0-1')), [(0, 2)])
        self.assertTrue(query.any(b'aa', after='c2:2;x:0-1'))
        self.assertFalse(query.any(b'aa', after='c2:2;x:2-2'))
        with self.assertRaises(ValueError):
            query.findall(b'a', limit=-1)

    def test_foreign_cursors(self):
        query = rematch.Query('/!x{a}/')
        for cursor, note in (('c2:3;x:0-1', 'document of 3 bytes, not 2'), ('x:0-1', 'not a cursor'), ('c1;y:0-0', 'other variables'),
                             ('c1;x:0-3', 'past the document')):
            with self.assertRaisesRegex(rematch.CursorError, note):
                query.findall(b'aa', after=cursor)


class Documents(Folder):
    query = '/!x{ab+}/'

    def test_each_kind(self):
        path = self.file('-odd name', b'xaby')
        query = rematch.Query(self.query)
        with open(path, 'rb') as file, open(path) as text:
            for source, found in ((b'xaby', b'ab'), (bytearray(b'xaby'), b'ab'), (memoryview(b'xaby'), b'ab'), ('xaby', 'ab'),
                                  (Path(path), b'ab'), (file, b'ab'), (text, 'ab'), (io.BytesIO(b'xaby'), b'ab'),
                                  (io.StringIO('xaby'), 'ab'), (rematch.Document(b'xaby'), b'ab'), (rematch.Document(Path(path)), b'ab')):
                for _ in range(2):
                    self.assertEqual([match['x'] for match in query.finditer(source)], [found])
                    self.assertEqual((query.count(source), query.any(source), list(query.rows(source))), (1, True, [(1, 3)]))

    def test_a_pipe(self):
        reader, writer = os.pipe()
        os.write(writer, b'xaby')
        os.close(writer)
        with os.fdopen(reader, 'rb') as file:
            self.assertEqual([match['x'] for match in rematch.Query(self.query).finditer(file)], [b'ab'])

    def test_an_empty_file(self):
        self.assertEqual(rematch.Query('/!x{a*}/').findall(Path(self.file('e')))[0].span('x'), (0, 0))
        self.assertEqual(rematch.Query('/!x{a*}/').findall('')[0]['x'], '')

    def test_no_such_file(self):
        path = Path(self.folder, 'none')
        for ask in (rematch.Query(self.query).count, rematch.Query(self.query).findall):
            with self.assertRaises(rematch.DocumentError) as caught:
                ask(path)
            self.assertEqual((caught.exception.filename, caught.exception.errno), (str(path), 2))
            self.assertIn('No such file', str(caught.exception))
            self.assertIsInstance(caught.exception, OSError)
        with self.assertRaises(rematch.DocumentError):
            rematch.Query(self.query).count(Path(self.folder))

    def test_what_is_seldom_meant_is_told(self):
        path = self.file('d.gz', gzip.compress(b'xaby'))
        query = rematch.Query(self.query)
        with self.assertWarnsRegex(UserWarning, 'gzip.open') as caught:
            self.assertEqual(query.count(Path(path)), 0)
        self.assertEqual(os.path.basename(caught.filename), 'test_query.py')
        with self.assertWarnsRegex(UserWarning, 'pathlib.Path') as caught:
            self.assertEqual(query.count(path), query.count(path.encode()))  # of which the name of the folder may have rows
        self.assertEqual(os.path.basename(caught.filename), 'test_query.py')
        with gzip.open(path) as file:
            self.assertEqual((query.count(file), query.count(file)), (1, 1))

    def test_no_document(self):
        for source in (None, 3, ['a']):
            with self.assertRaises(TypeError):
                rematch.Query(self.query).count(source)

    def test_a_document_that_vanishes_or_changes(self):
        path = self.file('d', b'xab' * 20000)
        rows = rematch.Query(self.query).finditer(Path(path))
        first = next(rows)
        with open(path, 'wb') as file:
            file.write(b'c')
        os.remove(path)
        second = next(rows)
        self.assertEqual((first['x'], second['x'], first.cursor), (b'ab', b'ab', 'c2:60000;x:1-3'))
        rows.close()

    def test_one_document_for_several_queries(self):
        document = rematch.Document(Path(self.file('d', b'abab')))
        first = rematch.Query('/!x{a}/').finditer(document)
        second = rematch.Query('/!x{b}/').finditer(document)
        self.assertEqual([(a.span('x'), b.span('x')) for a, b in zip(first, second)], [((0, 1), (1, 2)), ((2, 3), (3, 4))])


class Large(unittest.TestCase):
    """Texts whose places are counted where they are asked for."""

    def test_places(self):
        pick = random.Random(8)
        for size in (4000, 5000, 20000):
            text = ''.join(pick.choice('aé漢\U0001f600\n') for _ in range(size))
            data, document = text.encode(), rematch.Document(text)
            wanted, at = {-1: -1, 0: 0}, 0
            for number, sign in enumerate(text):
                for _ in sign.encode():
                    at += 1
                    wanted[at] = number + 1
            asked = [pick.choice(list(wanted)) for _ in range(100)] + list(wanted)
            self.assertEqual([document.places[at] for at in asked], [wanted[at] for at in asked])
            self.assertEqual(document.told(list(wanted)), list(wanted.values()))
            self.assertEqual((len(document), document.length), (size, len(data)))

    def test_all_are_worked_out_at_last(self):
        document = rematch.Document('é' * 3000)
        first = document.places
        for at in range(0, 3000, 2):
            self.assertEqual((document.places[at], document.places[at + 1]), (at // 2, at // 2 + 1))
        self.assertIsNot(document.places, first)
        self.assertEqual(first[5999], document.places[5999])

    @needs_speed
    def test_rows(self):
        text = 'né ab\n' * 3000
        query = rematch.Query('/!x{a}b/')
        self.assertEqual(list(query.rows(text)), [(6 * k + 3, 6 * k + 4) for k in range(3000)])
        self.assertEqual([match.span('x') for match in query.finditer(text)], [(6 * k + 3, 6 * k + 4) for k in range(3000)])


class Leaving(unittest.TestCase):
    """An iterator that is left leaves no process behind."""

    def setUp(self):
        self.before = children()
        self.document = b'a' * (60 if IS_REFERENCE else 20000)
        self.query = rematch.Query('/!x{a*}/')

    def tearDown(self):
        self.assertEqual(children(), self.before)

    def test_closed(self):
        for rows in (self.query.finditer(self.document), self.query.rows(self.document)):
            next(rows)
            rows.close()
            self.assertEqual(children(), self.before)

    def test_dropped(self):
        rows = self.query.finditer(self.document)
        next(rows)
        del rows
        self.assertEqual(children(), self.before)

    def test_left_by_break_and_by_a_fault(self):
        for _ in self.query.finditer(self.document):
            break
        with self.assertRaises(ZeroDivisionError):
            for _ in self.query.rows(self.document):
                1 / 0

    def test_never_begun(self):
        self.query.finditer(self.document)

    def test_no_files_stay_open(self):
        before = len(os.listdir('/proc/self/fd'))
        for _ in range(3):
            self.query.count(b'aa')
            self.query.findall('éa')
            next(self.query.finditer(self.document))
        self.assertEqual(len(os.listdir('/proc/self/fd')), before)

    def test_threads(self):
        found = []
        query = rematch.Query('/!x{a+}/')

        def ask(k):
            found.append((k, query.count(b'a' * k), query.page(b'a' * k, 1).cursor))
        threads = [threading.Thread(target=ask, args=(k,)) for k in range(2, 8)]
        for thread in threads:
            thread.start()
        for thread in threads:
            thread.join()
        self.assertEqual(sorted(found), [(k, k * (k + 1) // 2, 'c2:%d;x:0-1' % k) for k in range(2, 8)])

    @needs_speed
    def test_rows_come_as_they_are_found(self):
        rows = self.query.finditer(b'a' * 1000000)  # 5 * 10 ^ 11 rows
        self.assertEqual(next(rows).span('x'), (0, 0))
        rows.close()


class Drawn(unittest.TestCase):
    """Drawn queries on drawn documents: rows, pages and columns against the reference."""

    def test_against_the_reference(self):
        pick = random.Random(45)
        asked = number = 0
        while asked < (25 if IS_REFERENCE else 120):
            maker = Maker('clients/%d' % number)
            number += 1
            text, document = maker.query(), maker.document()
            status, out, note = oracle.run(['-q', 'Q', '-f', 'table', 'D'], lambda name, limit: {'Q': text, 'D': document}[name])
            if status == 3:
                with self.assertRaises(rematch.QueryError) as caught:
                    rematch.Query(text)
                self.assertEqual(caught.exception.note, note.decode().strip())
                continue
            if status or pick.random() < 0.3:
                continue
            asked += 1
            self.compare(text, document, out)

    def compare(self, text, document, out):
        lines = out.decode().split('\n')
        wanted = [tuple(place for cell in line.split('\t') if cell != '()' for place in
                        ((-1, -1) if cell == '-' else map(int, cell.split('-')))) for line in lines[1:-1]]
        query = rematch.Query(text)
        self.assertEqual('\t'.join(query.variables) or '()', lines[0], text)
        self.assertEqual(list(query.rows(document)), wanted, (text, document))
        self.assertEqual([match.row for match in query.finditer(document)], wanted, (text, document))
        self.assertEqual(query.count(document), len(wanted), (text, document))
        for k, (starts, ends) in enumerate(query.columns(document).values()):
            self.assertEqual(list(zip(starts, ends)), [row[2 * k:2 * k + 2] for row in wanted], (text, document))


if __name__ == '__main__':
    unittest.main()
