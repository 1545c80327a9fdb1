"""Series of pandas; skipped where pandas is not installed."""
import unittest

import rematch
try:
    import pandas
except ImportError:
    pandas = None


@unittest.skipIf(pandas is None, 'pandas is not installed')
class Series(unittest.TestCase):
    def setUp(self):
        import rematch.pandas  # noqa: F401
        self.query = rematch.Query('/!key{[a-zé]+}=(!value{[0-9])?}/u'.replace(')?}', '})?'))

    def test_table(self):
        series = pandas.Series(['é=1 b=', None, '', float('nan'), 'c=3'], list('vwxyz'), name='text')
        for query in (self.query, self.query.text):
            frame = series.rematch.table(query)
            self.assertEqual(list(frame.columns), ['key_start', 'key_end', 'key', 'value_start', 'value_end', 'value'])
            self.assertEqual(frame.index.names, [None, 'row'])
            rows = [(label, row, *line) for (label, row), line in zip(frame.index, frame.values.tolist())]
            wanted = []
            for label, value in zip('vz', ('é=1 b=', 'c=3')):
                for number, match in enumerate(self.query.findall(value)):
                    wanted.append((label, number, *(part for name in ('key', 'value') for part in ((*(match.span(name) or (-1, -1)), match[name])))))
            self.assertEqual(rows, wanted)
            self.assertEqual(str(frame.key_start.dtype), 'int64')

    def test_indices(self):
        frame = pandas.DataFrame({'text': ['a=1', 'b=2'], 'day': [3, 4], 'host': ['m', 'n']})
        found = frame.text.rematch.table(self.query).droplevel('row').join(frame[['day']])
        self.assertEqual(sorted(set(found.day)), [3, 4])
        found = frame.set_index(['day', 'host']).text.rematch.table(self.query)
        self.assertEqual((found.index.names, found.index[0]), (['day', 'host', 'row'], (3, 'm', 0)))

    def test_none(self):
        for series in (pandas.Series([], dtype=object), pandas.Series(['x', None])):
            frame = series.rematch.table(self.query)
            self.assertEqual((len(frame), list(frame.columns)[:3], frame.index.names), (0, ['key_start', 'key_end', 'key'], [None, 'row']))
        self.assertEqual(pandas.Series([b'a=1', None]).rematch.count(self.query).tolist(), [2, 0])

    def test_refused(self):
        with self.assertRaisesRegex(TypeError, "^the value at 'q' is a str or bytes, not int: series.astype"):
            pandas.Series(['a', 7], ['p', 'q']).rematch.table(self.query)
        with self.assertRaisesRegex(TypeError, 'not list'):
            pandas.Series([['a']]).rematch.count(self.query)
        with self.assertRaises(rematch.QueryError):
            pandas.Series(['a']).rematch.table('/a**/')


if __name__ == '__main__':
    unittest.main()
