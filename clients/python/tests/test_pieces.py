"""Documents in pieces: their rows are those of the whole, here, by GNU parallel and by Dask."""
import gzip
import os
import random
import subprocess
import sys
import tracemalloc
import unittest
from concurrent.futures import ThreadPoolExecutor
from unittest import mock

import rematch
from rematch import pieces
from support import CLIENTS, EXAMPLES, IS_REFERENCE, PROGRAM, PYTHON, Folder, knows, needs

DRAWN = 60 if IS_REFERENCE else 3000


class Reach(unittest.TestCase):
    def test_lines(self):
        for text, lines in ((r'/!x{.*}/', 0), (r'/\n!x{[^\n]*}\n/', 2), (r'/!x{a(\n.*){0,3}b}/', 3), (r'/!x{a}(\n|b\n\n)c/', 2), (r'/!x{a}\s{2,5}/', 5),
                            ('/!x{a}/ union /!x{b}\\n/', 1), (r'/!x{a}\n/ join /!x{.}!y{\n}/', 2), (r'project x (/!x{a}!y{\n\n}/)', 2),
                            (r'let w = /!x{a}\n/; w join w union w', 2), (r'/!x{[\x00-\x0a]}/u', 1), (r'/!x{[é\n]}/u', 1),
                            (r'/!x{[^\n]}/', 0), (r'/!x{\]\[\/\\\|\^\$}/', 0), (r'/!x{a}(\n{3}){2}/', 6), (r'/!x{a}(\n*){0}/', 0)):
            self.assertEqual(rematch.reach(rematch.Query(text)), lines, text)

    def test_no_reach(self):
        for text, reason in ((r'/!x{[^a]*}/', 'has no end'), ('/^!x{a}/', 'an anchor'), ('/!x{a}$/', 'an anchor'), ('/!x{a}\\n{2,}/', 'has no end'),
                             ('/!x{a}/ join /!y{b}/', 'share no variable'), ('/!x{a}/ join /b/', 'share no variable'), ('/a/', 'no variables'),
                             ('project x (/!x{a}/ join /!y{b}/)', 'share no variable')):
            with self.assertRaisesRegex(rematch.NoReach, reason):
                rematch.reach(rematch.Query(text))

    @unittest.skipUnless(knows('/!x{a}/ minus /!x{a}b/'), 'the program has no minus')
    def test_minus(self):
        self.assertEqual(rematch.reach(rematch.Query('/!x{a}/ minus /!x{a}\\nb/')), 1)
        with self.assertRaises(rematch.NoReach):
            rematch.reach(rematch.Query('/!x{a}/ minus /!x{a}[^b]*/'))

    @unittest.skipUnless(knows('/!x{a}/ where upper(x)'), 'the program has no tests of spans')
    def test_tests(self):
        self.assertEqual(rematch.reach(rematch.Query('/!x{a}\\n/ where upper(x), luhn(x)')), 1)


class Cuts(Folder):
    def test_lines_are_whole(self):
        pick = random.Random(1)
        for _ in range(200):
            data = bytes(pick.choice(b'ab\n') for _ in range(pick.randrange(40)))
            path, size = self.file('d', data), pick.randrange(1, 9)
            found = list(pieces.cuts(path, size))
            self.assertEqual((found[0].start, found[-1].end), (0, len(data)))
            self.assertEqual([piece.end for piece in found[:-1]], [piece.start for piece in found[1:]])
            for piece in found[:-1]:
                self.assertEqual(data[piece.end - 1:piece.end], b'\n')
                self.assertGreaterEqual(piece.end - piece.start, size)
        with self.assertRaises(ValueError):
            list(pieces.cuts(path, 0))
        with self.assertRaises(rematch.DocumentError):
            list(pieces.cuts(os.path.join(self.folder, 'none'), 1))
        with self.assertRaisesRegex(rematch.DocumentError, 'unpack it first'):
            list(pieces.cuts(self.file('d', gzip.compress(b'a')), 1))

    def test_lines_around_a_place(self):
        pick = random.Random(2)
        kept, pieces._BLOCK = pieces._BLOCK, 3
        self.addCleanup(setattr, pieces, '_BLOCK', kept)
        for _ in range(300):
            data = bytes(pick.choice(b'ab\n') for _ in range(pick.randrange(1, 40)))
            at, lines = pick.randrange(len(data) + 1), pick.randrange(4)
            with open(self.file('d', data), 'rb') as file:
                back, on = pieces.lines_back(file, at, lines), pieces._lines_on(file, at, lines)
            self.assertTrue(back == 0 or data[back - 1] == 10 and data.count(b'\n', back, at) in (lines, lines + 1), (data, at, lines, back))
            self.assertTrue(on == len(data) or data[on - 1] == 10 and data.count(b'\n', at, on) == lines + 1)

    def test_any_cuts(self):
        """Pieces that are cut within lines have the same rows."""
        data, query = b'ab\nab\n\nab' * 3, rematch.Query(r'/!x{a}b\n!y{(a|\n)}/')
        path = self.file('d', data)
        whole = list(query.rows(data))
        for places in ([0, 1, 4, 5, 20, len(data)], [0, len(data)], [0, 13, 14, len(data)]):
            self.assertEqual([row for cut in zip(places, places[1:]) for row in pieces.rows_of_piece(query, path, *cut)], whole)

    def test_a_long_line_is_not_held(self):
        """A line that is too long for one run is refused before it is read into memory."""
        path = self.file('long', b'a\n')
        os.truncate(path, pieces.MOST_BYTES + 1_000_000)
        tracemalloc.start()
        with self.assertRaises(rematch.DocumentError) as fault:
            list(pieces.rows_in_pieces(rematch.Query('/!x{b}/'), path, 1))
        most = tracemalloc.get_traced_memory()[1]
        tracemalloc.stop()
        self.assertEqual((fault.exception.status, most < 10_000_000), (6, True), most)

    def test_a_file_that_shrinks(self):
        path = self.file('d', b'ab\n' * 10)
        found = list(pieces.cuts(path, 6))
        self.file('d', b'ab\n')
        with self.assertRaisesRegex(rematch.DocumentError, 'read failed'):
            for piece in found:
                os.truncate(path, 3)
                with mock.patch('rematch.pieces._lines_on', lambda file, at, lines: 30):
                    list(pieces.rows_of_piece(rematch.Query('/!x{a}/'), path, *piece))

    def test_in_pieces(self):
        path = self.file('d', b'ab\n' * 30)
        query = rematch.Query(r'/!x{b}\n!y{a}/')
        self.assertEqual(list(pieces.rows_in_pieces(query, path, 40)), list(query.rows(b'ab\n' * 30)))


class Drawer:
    """Random queries, many of them of a bounded reach."""

    def __init__(self, seed):
        self.pick = random.Random(seed)
        self.has_minus = knows('/!x{a}/ minus /!x{a}b/')
        self.has_tests = knows('/!x{a}/ where upper(x)')

    def leaf(self):
        return self.pick.choice(['a', 'b', r'\n', '.', '[^a]', '[ab]', r'[^\n]', '(a|b)', r'\n'])

    def formula(self, depth, names):
        kind = self.pick.random()
        if depth == 0 or kind < .2:
            return self.leaf()
        if kind < .5:
            return self.formula(depth - 1, names) + self.formula(depth - 1, names)
        if kind < .6:
            return '(' + self.formula(depth - 1, []) + '|' + self.formula(depth - 1, []) + ')'
        if kind < .75:
            return '(' + self.formula(depth - 1, []) + ')' + self.pick.choice(['*', '+', '?', '{2}', '{0,2}', '{1,3}'])
        if kind < .8:
            return '(' + self.formula(depth - 1, names) + ')?'
        if names:
            name = names.pop()
            return '!%s{%s}' % (name, self.formula(depth - 1, [])) + self.formula(depth - 1, names)
        return self.leaf()

    def atom(self, names=('x', 'y', 'z')):
        return '/' + self.formula(3, self.pick.sample(names, self.pick.randrange(1, len(names)))) + '/'

    def query(self):
        kind = self.pick.random()
        if kind < .5:
            return self.atom()
        if kind < .6 and self.has_minus:
            return self.atom(('x', 'y')) + ' minus ' + self.atom(('x', 'y'))
        if kind < .65 and self.has_tests:
            return '/!x{[ab]}%s/ where upper(x)' % self.formula(2, [])
        if kind < .9:
            return self.atom() + (' union ' if kind < .8 else ' join ') + self.atom()
        return 'let w = ' + self.atom() + '; project x (w) union ' + self.atom()

    def document(self):
        return bytes(self.pick.choice(b'ab\n\n') for _ in range(self.pick.randrange(60)))

    def places(self, path, length):
        """Where the document is cut: at line ends, or anywhere."""
        if self.pick.random() < 0.5:
            return [0] + [piece.end for piece in pieces.cuts(path, max(1, length // self.pick.randrange(1, 5)))]
        return [0, *sorted(self.pick.randrange(length + 1) for _ in range(self.pick.randrange(3))), length]


class Drawn(Folder):
    def compare(self, number):
        """What a drawn query gives in pieces: None where it has no reach, else the number of its rows, -1 where one has no spans."""
        drawer = Drawer('pieces/%d' % number)
        try:
            query = rematch.Query(drawer.query())
            rematch.reach(query)
        except (rematch.QueryError, rematch.NoReach):
            return None
        document = drawer.document()
        path = self.file('d%d' % number, document)
        whole, found, places = list(query.rows(document)), [], drawer.places(path, len(document))
        try:
            for piece in zip(places, places[1:]):
                found += pieces.rows_of_piece(query, path, *piece)
        except rematch.NoReach:
            return -1
        self.assertEqual(found, whole, (query.text, document, places))
        return len(whole)

    def test_pieces_are_the_whole(self):
        with ThreadPoolExecutor(4) as threads:
            found = [rows for rows in threads.map(self.compare, range(DRAWN)) if rows is not None]
        self.assertGreater(len(found), DRAWN // 10)
        self.assertGreater(sum(rows for rows in found if rows > 0), DRAWN // 3)


class Machines(Folder):
    """Pieces by other processes write what one run writes, byte for byte."""

    def setUp(self):
        super().setUp()
        line = 'x a b c\n' if IS_REFERENCE else 'from 203.0.113.%d port 22\nnothing here\n'
        self.path = self.file('big log', ''.join(line % (k % 200) if '%' in line else line for k in range(12 if IS_REFERENCE else 4000)))
        query = r'/!x{a} !y{b} c\n(x !z{a})?/' if IS_REFERENCE else r'/from !first{[\d.]+} port[^\n]*\n[^\n]*\n(from !second{[\d.]+} )?/'
        self.query = self.file('pairs.query', query)
        self.size = '30' if IS_REFERENCE else '20000'

    def whole(self, form):
        return subprocess.run([PROGRAM, '-q', self.query, '-f', form, self.path], stdout=subprocess.PIPE, stderr=subprocess.DEVNULL).stdout

    def run_shell(self, text):
        environment = dict(os.environ, PATH=CLIENTS + os.pathsep + os.environ['PATH'], Q=self.query, D=self.path, SIZE=self.size)
        run = subprocess.run(['sh', '-c', text], stdout=subprocess.PIPE, stderr=subprocess.PIPE, env=environment, cwd=self.folder)
        return run.returncode, run.stdout, run.stderr.decode()

    def test_one_after_another(self):
        for form in ('spans', 'table', 'json'):
            status, out, told = self.run_shell('rematch-cut "$D" $SIZE | while read -r a b; do rematch-piece -f %s "$Q" "$D" $a $b; done' % form)
            self.assertEqual((status, told), (0, ''))
            self.assertEqual(out, self.whole(form))
            self.assertGreater(out.count(b'\n'), 5)

    @needs('parallel')
    def test_parallel(self):
        status, out, told = self.run_shell('mkdir -p .parallel; PARALLEL_HOME=$PWD/.parallel; export PARALLEL_HOME; : > .parallel/will-cite;'
                                           'rematch-cut "$D" $SIZE | parallel -k --colsep " " rematch-piece "$Q" "\'$D\'" {1} {2}')
        self.assertEqual(status, 0, told)
        self.assertEqual(out, self.whole('spans'))

    def test_refusals(self):
        anchor = self.file('a.query', b'/^!x{a}/')
        status, out, told = self.run_shell('rematch-piece "%s" "$D" 0 10' % anchor)
        self.assertEqual((status, out, told), (4, b'', 'no reach: an anchor ties the formula /^!x{a}/ to an end of the document\n'))
        bare = self.file('b.query', b'/(!x{q})?[xf]/')
        status, _, told = self.run_shell('rematch-piece "%s" "$D" 0 100' % bare)
        self.assertEqual((status, 'begins nowhere' in told), (4, True))
        status, _, told = self.run_shell('rematch-cut gone 10')
        self.assertEqual((status, 'gone: No such file' in told), (5, True))
        status, _, told = self.run_shell('rematch-piece "$Q" gone 0 10')
        self.assertEqual((status, 'gone: No such file' in told), (5, True))

    def test_dask(self):
        try:
            import dask.bag  # noqa: F401
            from distributed import Client, LocalCluster
        except ImportError:
            self.skipTest('dask and distributed are not installed')
        query = rematch.Query.from_file(self.query)
        with open(self.path, 'rb') as file:
            document = file.read()
        wanted = [(match['x' if IS_REFERENCE else 'first'].decode(), match.start(query.variables[-1])) for match in query.finditer(document)]
        with LocalCluster(n_workers=2, threads_per_worker=1, dashboard_address=None, host='127.0.0.1') as cluster, Client(cluster) as client:
            bag = rematch.on_dask(client, query, [self.path, self.path], size=int(self.size))
            found = [(row[query.variables[0]], None if row[query.variables[-1] + '_start'] < 0 else row[query.variables[-1] + '_start'])
                     for row in bag.compute()]
            self.assertEqual(found, wanted + wanted)
            with self.assertRaises(rematch.NoReach):
                rematch.on_dask(client, rematch.Query('/^!x{a}/'), self.path)
            try:
                import dask.dataframe  # noqa: F401
            except ImportError:
                return
            frame = rematch.on_dask(client, query, self.path, size=int(self.size), frame=True).compute()
            self.assertEqual(list(frame[query.variables[0]]), [first for first, _ in wanted])
            self.assertEqual(set(frame.document), {self.path})


if __name__ == '__main__':
    unittest.main()
