"""Tables of Arrow: the columns are read back bit by bit; the table itself where pyarrow is installed."""
import io
import os
import pathlib
import random
import unittest
from unittest import mock

import rematch
from rematch.arrow import Coded, bits_of, columns_of_documents
from support import EXAMPLES, Folder
from commands import asked
from drawing import Maker
try:
    import pyarrow
except ImportError:
    pyarrow = None
try:
    import polars
except ImportError:
    polars = None

QUERY = rematch.Query('/(!x{a})?!y{é|b}/u')
ABSENT = {'pyarrow': None}  # what is so in sys.modules cannot be imported


def cells(columns):
    """The columns as lists, read as Arrow reads them: by the bits, and by the numbers of the dictionaries."""
    made = {}
    for name, column in columns.named():
        numbers = column.codes if isinstance(column, Coded) else column
        bits = bits_of(numbers)
        is_there = [bits is None or bits[at // 8] >> at % 8 & 1 == 1 for at in range(len(numbers))]
        texts = column.texts if isinstance(column, Coded) else None
        made[name] = [None if not there else number if texts is None else texts[number] for number, there in zip(numbers, is_there)]
    return made


def wanted_cells(query, named):
    """The same by the matches of each document."""
    made = {name: [] for name in ['document'] + [x + end for x in query.variables for end in ('_start', '_end', '')]}
    for name, document in named:
        for match in query.finditer(document):
            made['document'].append(name)
            for x in query.variables:
                span = match.span(x)
                made[x + '_start'].append(span and span[0])
                made[x + '_end'].append(span and span[1])
                made[x].append(match[x])
    return made


class Columns(Folder):
    def test_documents(self):
        path = self.file('d', 'b ab'.encode())
        for given, named in (('aé b', [('0', 'aé b')]), ([], []), (['ab', '', 'é'], [('0', 'ab'), ('1', ''), ('2', 'é')]),
                             ({'one': b'ab', 'two': b'\xff'}, [('one', b'ab'), ('two', b'\xff')]), ((b'b', io.BytesIO(b'ab')), [('0', b'b'), ('1', b'ab')]),
                             (pathlib.Path(path), [(path, pathlib.Path(path))]), ([pathlib.Path(path)] * 2, [(path, pathlib.Path(path))] * 2)):
            columns, is_text = columns_of_documents(QUERY, given, None)
            self.assertEqual(cells(columns), wanted_cells(QUERY, named), given)
            self.assertEqual(is_text, all(isinstance(document, str) for _, document in named))
        columns, is_text = columns_of_documents(QUERY, [b'\xc3\xa9', 'é'], 'utf-8')
        self.assertEqual((cells(columns)['y_end'], is_text), ([1, 1], True))

    def test_drawn(self):
        rows = 0
        for number in range(60):
            maker = Maker('arrow/%d' % number)
            query, documents = maker.query().decode(), [bytes(maker.document()) for _ in range(3)]
            try:
                made = rematch.Query(query)
                columns, _ = columns_of_documents(made, documents, None)
            except (rematch.QueryError, rematch.SizeError):
                continue
            found = cells(columns)
            self.assertEqual(found, wanted_cells(made, [(str(at), document) for at, document in enumerate(documents)]), query)
            rows += len(found['document'])
        self.assertGreater(rows, 60)

    def test_bits(self):
        pick = random.Random(5)
        from array import array
        for size in range(70):
            numbers = array('q', [pick.choice([-1, 0, 1 << 40]) for _ in range(size)])
            bits = bits_of(numbers)
            if -1 in numbers:
                self.assertEqual([bits[at // 8] >> at % 8 & 1 for at in range(size)], [int(number >= 0) for number in numbers])
                self.assertEqual(len(bits), (size + 7) // 8)
            else:
                self.assertIsNone(bits)

    def test_refused(self):
        for query, documents, kind, part in (('/!x{a}/', ['a', b'a'], TypeError, 'some documents are texts'), ('/!document{a}/', 'a', ValueError, "'document'"),
                                             ('/!x{a}!x_end{a}/', 'a', ValueError, "'x_end'"), ('/!x{a}/', [7], TypeError, 'not int'),
                                             ('/!x{a}/', pathlib.Path(self.folder, 'none'), rematch.DocumentError, 'read failed')):
            with self.assertRaisesRegex(kind, part):
                columns_of_documents(rematch.Query(query), documents, None)

    def test_the_columns_of_the_command(self):
        """All but the last step: what is given to pyarrow has the cells of csv, and bytes are written as they are."""
        odd, taken = bytes(range(256)) + 'é'.encode(), []
        log, query = os.path.join(EXAMPLES, 'auth.log'), os.path.join(EXAMPLES, 'failed.query')
        out = os.path.join(self.folder, 'out')
        with mock.patch('importlib.util.find_spec', lambda name: name), mock.patch('rematch.arrow.parquet_of', lambda columns: taken.append(columns) or odd):
            self.assertEqual(asked('parquet', '--silent', '-q', query, log, log, '-o', out), (0, '', ''))
            self.assertEqual(asked('parquet', '--silent', '-e', '/!x{.}(!y{b})?/', stdin=b'a\xff\n')[1].encode('utf-8', 'surrogateescape'), odd)
            self.assertEqual(asked('parquet', '-e', '/!line{a}/', stdin=b'a'),
                             (2, '', "rematch-to: two columns would be called 'line': give the variable another name\n"))
        with open(out, 'rb') as file:
            self.assertEqual(file.read(), odd)
        found = cells(taken[0])
        csv = asked('csv', '--silent', '-q', query, log, log)[1].splitlines()
        self.assertEqual([','.join(found), *(','.join(map(str, row)) for row in zip(*found.values()))], csv)
        self.assertEqual(cells(taken[1]), {'document': ['-', '-'], 'line': [1, 1], 'x_start': [0, 1], 'x_end': [1, 2], 'x': ['a', '\\xff'],
                                           'y_start': [None, None], 'y_end': [None, None], 'y': [None, None]})

    def test_without_the_package(self):
        with mock.patch.dict('sys.modules', ABSENT):
            with self.assertRaisesRegex(ImportError, '^a table of Arrow needs the package pyarrow: pip install pyarrow$'):
                QUERY.arrow(pathlib.Path(self.folder, 'none'))
        with mock.patch('importlib.util.find_spec', lambda name: None):
            self.assertEqual(asked('parquet', '-e', '/!x{a}/', os.path.join(self.folder, 'none')),
                             (2, '', 'rematch-to: parquet needs the package pyarrow: pip install pyarrow; csv needs none\n'))


@unittest.skipIf(pyarrow is None, 'pyarrow is not installed')
class Tables(Folder):
    def test_table(self):
        table = QUERY.arrow({'one': 'aé', 'two': 'b'})
        self.assertEqual(table.to_pydict(), wanted_cells(QUERY, [('one', 'aé'), ('two', 'b')]))
        kinds = {'document': 'dictionary<values=string, indices=int32, ordered=0>', 'x_start': 'int32', 'x_end': 'int32',
                 'x': 'dictionary<values=string, indices=int32, ordered=0>'}
        self.assertEqual({name: str(table.schema.field(name).type) for name in kinds}, kinds)
        table.validate(full=True)
        self.assertEqual(QUERY.arrow(b'\xc3\xa9').to_pydict()['y'], ['é'.encode()])
        empty = QUERY.arrow([])
        empty.validate(full=True)
        self.assertEqual((empty.num_rows, empty.column_names), (0, ['document', 'x_start', 'x_end', 'x', 'y_start', 'y_end', 'y']))

    def test_nothing_is_copied(self):
        columns, _ = columns_of_documents(QUERY, 'ab', None)
        from rematch.arrow import table_of
        starts = dict(columns.named())['y_start']
        self.assertEqual(table_of(columns)['y_start'].chunk(0).buffers()[1].address, starts.buffer_info()[0])

    def test_drawn(self):
        for number in range(40):
            maker = Maker('arrow/%d' % number)
            query, document = maker.query().decode(), bytes(maker.document())
            try:
                made = rematch.Query(query)
                table = made.arrow(document)
            except (rematch.QueryError, rematch.SizeError):
                continue
            table.validate(full=True)
            self.assertEqual(table.to_pydict(), wanted_cells(made, [('0', document)]), query)

    @unittest.skipIf(polars is None, 'polars is not installed')
    def test_polars(self):
        frame = polars.from_arrow(QUERY.arrow(['aé', 'b']))
        self.assertEqual(frame['y'].to_list(), ['é', 'é', 'b'])
        self.assertEqual(frame['x_start'].to_list(), [0, None, None])

    def test_parquet(self):
        from pyarrow import parquet
        log, query = os.path.join(EXAMPLES, 'auth.log'), os.path.join(EXAMPLES, 'failed.query')
        out = os.path.join(self.folder, 'out')
        self.assertEqual(asked('parquet', '--silent', '-q', query, log, log, '-o', out), (0, '', ''))
        table = parquet.read_table(out).to_pydict()
        status, csv, _ = asked('csv', '-q', query, log, log)
        self.assertEqual((status, [','.join(map(str, row)) for row in zip(*table.values())]), (0, csv.splitlines()[1:]))
        self.assertEqual(','.join(table), csv.splitlines()[0])
        piped = asked('parquet', '--silent', '-q', query, log, log)[1].encode('utf-8', 'surrogateescape')
        self.assertEqual(parquet.read_table(io.BytesIO(piped)).to_pydict(), table)


if __name__ == '__main__':
    unittest.main()
