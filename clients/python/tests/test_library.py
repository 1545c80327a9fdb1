"""Queries in this process, by the library: the same rows and faults as by the program, and what is let go."""
import gc
import mmap
import os
import pickle
import sys
import threading
import unittest
from pathlib import Path
from unittest import mock

import rematch
import rematch.library
from support import EXAMPLES, PROGRAM, Folder
from drawing import Maker

LIBRARY = os.environ.get('REMATCH_LIBRARY', 'none')
with_library = unittest.skipIf(LIBRARY == 'none', 'no library is named')


class Spans(unittest.TestCase):
    """`Query.spans`, in this process or by the program."""

    def test_rows_as_one_array(self):
        query = rematch.Query('/(!x{a})?!y{b}/')
        spans = query.spans(b'ab')
        self.assertEqual(spans.tolist(), [[0, 1, 1, 2], [-1, -1, 1, 2]])
        self.assertEqual((spans.itemsize, tuple(spans.shape)), (4, (2, 4)))
        self.assertEqual(query.spans(b'').tolist(), [])
        self.assertEqual(rematch.Query('/a/').spans(b'aa').tolist(), [])
        self.assertEqual(query.spans('éab').tolist(), [[1, 2, 2, 3], [-1, -1, 2, 3]])

    def test_many_rows(self):
        query = rematch.Query('/!x{a+}/')
        spans = query.spans(b'a' * 500)
        self.assertEqual(tuple(spans.shape), (500 * 501 // 2, 2))
        self.assertEqual(spans.tolist(), [list(row) for row in query.rows(b'a' * 500)])

    def test_behind_a_cursor(self):
        query = rematch.Query('/(!x{a})?!y{b}/')
        self.assertEqual(query.spans(b'ab', after='c2:2;x:0-1;y:1-2').tolist(), [[-1, -1, 1, 2]])
        self.assertEqual(query.spans(b'ab', after='c2:2;x:-;y:1-2').tolist(), [])
        self.assertEqual(query.spans('éab', after='c2:4;x:2-3;y:3-4').tolist(), [[-1, -1, 2, 3]])
        for cursor in ('', 'nowhere', 'c2:2;y:1-2', 'c2:3;x:0-1;y:1-2'):
            with self.assertRaises(rematch.CursorError):
                query.spans(b'ab', after=cursor)

    def test_without_numpy(self):
        with mock.patch.dict(sys.modules, numpy=None):
            spans = rematch.Query('/!x{a}/').spans(b'aba')
            self.assertIsInstance(spans, memoryview)
            self.assertEqual((spans.format, spans.shape, spans.tolist()), ('i', (2, 2), [[0, 1], [2, 3]]))


@with_library
class UsualTable(unittest.TestCase):
    """The usual limit of the table is the library's."""

    def test_it_is_taken_from_the_library(self):
        library = rematch.library._library(LIBRARY)
        with mock.patch.object(library, 'rematch_usual_table', lambda: 1), self.assertRaisesRegex(rematch.SizeError, 'table past 1'):
            list(rematch.Query('/!x{(a|b)*}/').rows(b'abab'))
        self.assertGreater(library.rematch_usual_table(), 1)

    def test_without_it_the_program_is_run(self):
        with mock.patch.object(rematch.library, '_library', return_value=object()):
            self.assertIsNone(rematch.Query('/!x{a}/')._inside)


@with_library
class Memory(unittest.TestCase):
    """What a call reads stays where it is until the call is over."""

    def test_a_buffer_is_held_while_a_call_runs(self):
        compiled = rematch.Query('/!x{a}/')._inside
        opened = compiled._opened
        for data, change in ((bytearray(b'aba'), lambda data: data.append(0)), (mmap.mmap(-1, 3), lambda data: data.close())):
            data[:3] = b'aba'
            refused = []

            def trying(at, length, after, rows, data=data, change=change):
                with self.assertRaises(BufferError):
                    change(data)
                refused.append(length)
                return opened(at, length, after, rows)

            with mock.patch.object(compiled, '_opened', trying):
                rows = compiled.open(data)
            self.assertEqual((rows.count(), refused), (2, [3]))
            change(data)

    def test_the_bytes_of_a_view_are_counted(self):
        compiled = rematch.Query('/!x{.}/')._inside
        self.assertEqual(compiled.open(memoryview(b'abcdefgh').cast('I')).count(), 8)


@with_library
class Same(unittest.TestCase):
    """The library beside the program."""

    def ask(self, text, document, **words):
        """What each says of a query and a document."""
        said = []
        for program in (None, PROGRAM):
            try:
                query = rematch.Query(text, program=program, **words)
                self.assertEqual(query._inside is None, program is not None)
                page = query.page(document, 3)
                said.append((query.variables, list(query.rows(document)), query.findall(document), query.count(document),
                             query.any(document), query.spans(document).tolist(), query.columns(document), page, page.cursor))
                if page:
                    last = page[-1].cursor
                    said[-1] += (query.findall(document, after=last), query.any(document, after=last), query.page(document, 2, after=last),
                                 query.spans(document, after=last).tolist(), list(query.rows(document, after=last, limit=2)))
            except rematch.RematchError as fault:
                said.append((type(fault), fault.note, fault.status, str(fault)))
        self.assertEqual(*said)
        return said[0]

    def test_documents(self):
        text = Path(EXAMPLES, 'failed.query').read_bytes()
        self.assertEqual(self.ask(text, Path(EXAMPLES, 'auth.log'))[3], 55)
        for document in (b'', b'\0a\xff', 'été aé', bytearray(b'ab'), memoryview(b'ab')):
            for query in ('/!x{.}/u', '/!x{a}(!y{b})?/', '/^a|b$/', '/!x{\\w+}/ where upper(x)'):
                self.ask(query, document)
        self.ask('/!x{a}/', b'aaa', filter=True, max_table=1000)

    def test_drawn_queries(self):
        maker = Maker(7)
        for _ in range(60):
            self.ask(maker.query(), maker.document())

    def test_faults(self):
        for text in ('/(/', '/!x{a}!x{b}/', 'a', b'/\xff/u', '/!x{a}/ where iban(x)', '/a{1000}{1000}/', '/!x{a}/ minus /!y{a}/'):
            self.ask(text, b'a')
        self.assertEqual(self.ask('/!x{(a|b)*}/', b'abab', max_table=1)[1], 'size: table past 1')

    def test_a_query_that_is_too_large(self):
        query = rematch.Query('/(' + 'a{100}' * 40 + '){100}/')
        self.assertIsNone(query._inside)
        with self.assertRaisesRegex(rematch.SizeError, 'size: more than 20000 states'):
            query.count(b'a')

    def test_documents_that_are_too_long(self):
        with self.assertRaises(rematch.DocumentError) as caught:
            rematch.Query('/a/').count(bytes(268_435_457))
        self.assertEqual((caught.exception.status, caught.exception.note), (6, 'document longer than 268435456 bytes'))

    def test_cursors(self):
        query = rematch.Query('/!x{a}/')
        page = query.page(b'aaa', 2)
        self.assertEqual((page.cursor, [match.row for match in query.finditer(b'aaa', after=page.cursor)]), ('c2:3;x:1-2', [(2, 3)]))
        self.assertEqual(query.page(b'aaa', 0).cursor, rematch.Query('/!x{a}/', program=PROGRAM).page(b'aaa', 0).cursor)

    def test_cursors_that_are_refused(self):
        for cursor in ('', 'nowhere', 'c2:3;y:0-1', 'c2:4;x:0-1', 'c1;x:2-4', 'c2:3;x:0-4', 'c2:3;x:1-0'):
            said = []
            for program in (None, PROGRAM):
                with self.assertRaises(rematch.CursorError) as caught:
                    rematch.Query('/!x{a}/', program=program).findall(b'aaa', after=cursor)
                said.append((caught.exception.note, caught.exception.status, str(caught.exception)))
            self.assertEqual(*said)

    def test_a_library_without_cursors(self):
        query = rematch.Query('/!x{a}/')
        with mock.patch.object(rematch.library.Compiled, 'goes_on', False):
            self.assertEqual([match.row for match in query.finditer(b'aaa', after='c2:3;x:1-2')], [(2, 3)])
            self.assertEqual(query.spans(b'aaa', after='c2:3;x:1-2').tolist(), [[2, 3]])

    def test_explanations(self):
        self.assertEqual(rematch.Query('/!x{[cab]}/').printed, '/!x{[a-c]}/')
        for text in ('/!x{[cab]}/', '/é/u', b'/\\xff/', '/a/ where upper(x)', b'/!x{a}\0/', '/!x{\\p{L}}/u', '/a/ union /!x{b}/ minus /c/'):
            said = []
            for program in (None, PROGRAM):
                try:
                    said.append(rematch.Query(text, program=program).explanation)
                except rematch.RematchError as fault:
                    said.append((type(fault), str(fault)))
            self.assertEqual(*said)

    def test_an_explanation_without_a_program(self):
        query = rematch.Query('/!x{[cab]}/')
        if hasattr(query._inside._library, 'rematch_run'):
            with mock.patch.object(query, '_program', '/nowhere/rematch'):
                self.assertEqual(query.printed, '/!x{[a-c]}/')


@with_library
class Handles(unittest.TestCase):
    def test_rows_of_a_query_that_is_gone(self):
        rows = rematch.Query('/!x{a+}/').rows(b'aaaa')
        gc.collect()
        self.assertEqual(len(list(rows)), 10)

    def test_rows_that_are_left(self):
        query = rematch.Query('/!x{a+}/')
        for _ in range(50):
            next(query.finditer(b'a' * 100))
        self.assertEqual(query.count(b'aa'), 3)

    def test_queries_in_threads(self):
        query = rematch.Query('/!x{a+}!y{b+}/')
        found = []

        def ask():
            for _ in range(100):
                found.append(query.count(b'aabbab'))
        threads = [threading.Thread(target=ask) for _ in range(4)]
        for thread in threads:
            thread.start()
        for thread in threads:
            thread.join()
        self.assertEqual((len(found), len(set(found))), (400, 1))

    def test_pickled(self):
        query = pickle.loads(pickle.dumps(rematch.Query('/!x{a}/')))
        self.assertEqual((query.count(b'aa'), query._inside is None), (2, False))


class Chosen(Folder):
    """Which of both is taken."""

    def find(self, is_named=False, **environment):
        kept = {name: value for name, value in os.environ.items() if name not in ('REMATCH', 'REMATCH_LIBRARY')}
        with mock.patch.dict(os.environ, {**kept, **environment}, clear=True):
            return rematch.library.find_library(is_named)

    def test_what_is_named(self):
        self.assertEqual(self.find(REMATCH_LIBRARY='/x/librematch.so.1', REMATCH='/x/rematch'), '/x/librematch.so.1')
        self.assertIsNone(self.find(REMATCH_LIBRARY='none'))
        self.assertIsNone(self.find(REMATCH='/x/rematch'))
        self.assertIsNone(self.find(is_named=True, REMATCH_LIBRARY='/x/librematch.so.1'))

    def test_what_is_beside(self):
        path = self.file(rematch.library.NAME)
        with mock.patch.object(rematch.library, '_beside', lambda: iter([self.folder + '/nothing', path])):
            self.assertEqual((self.find(), self.find(is_named=True)), (path, None))
            with mock.patch.object(rematch.library, 'allowed', False):
                self.assertIsNone(self.find())

    def test_program_in_its_place(self):
        query = rematch.Query('/!x{a}/', program=PROGRAM)
        self.assertIsNone(query._inside)
        self.assertEqual(query.spans(b'aa').tolist(), [[0, 1], [1, 2]])


if __name__ == '__main__':
    unittest.main()
