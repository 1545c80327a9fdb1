"""A file that is followed gives the rows of the whole, each once, as its lines come."""
import io
import os
import pathlib
import random
import threading
import time
import unittest

import rematch
from rematch.follow import File, Followed, steps
from rematch.pieces import ties
from rematch.to.small import SmallDocuments
from support import Folder, needs_speed

TEXTS = [r'/!x{a}[^\n]*!y{b}/', r'/!x{a}\n([^\n]*\n){0,2}!y{b}/', r'/\n!x{a*}/', r'/!x{a}/ minus /!x{a}[^\n]*\n[^\n]*b/', r'/!x{}\n/ union /!x{b}/']


SEED, CASES = int(os.environ.get('REMATCH_SEED', '7')), int(os.environ.get('REMATCH_CASES', '150'))


class Drawn:
    """Queries with a reach, and documents, by chance."""

    def __init__(self, seed):
        self.pick = random.Random(seed)
        self.has_lines = True

    def step(self):
        one = self.pick.choice(['a', 'b', '.', '[ab]', r'\w', '(ab|b)'] + [r'\n', r'[^\n]', '[^a]', r'(a|\n)', r'[^\n]*\n'] * self.has_lines)
        times = self.pick.choice(['', '', '', '?', '{0,2}'] + ['*', '+'] * (one in ('a', 'b', '.', '[ab]', r'[^\n]', r'\w')))
        return one + times

    def steps(self):
        return ''.join(self.step() for _ in range(self.pick.randrange(3)))

    def formula(self, names):
        """A formula in which these variables are captured."""
        first, last = self.pick.choice(['^', '', '', '']), self.pick.choice(['$', '', '', ''])
        return '/' + first + self.steps() + ''.join('!%s{%s}%s' % (name, self.steps(), self.steps()) for name in names) + last + '/'

    def query(self):
        self.has_lines = self.pick.randrange(3) > 0  # whether a formula may reach over lines
        names = self.pick.choice(['x', 'x', 'xy'])
        first = text = self.formula(names)
        for _ in range(self.pick.choice([0, 1, 1, 2])):
            longer = '/%s%s%s/' % (self.steps(), first[1:-1].strip('^$'), self.steps())  # it often takes rows away
            text += ' %s %s' % (self.pick.choice(['minus', 'minus', 'union']), self.pick.choice([longer, self.formula(names)]))
        if self.pick.randrange(5) == 0:
            text = '(%s) join %s' % (text, self.formula(names))
        return text

    def document(self):
        return bytes(self.pick.choice(b'aab\n\n') for _ in range(self.pick.randrange(11)))

    def case(self):
        """A query, its text, and a document."""
        while True:
            text = self.query()
            query = SmallDocuments(text)
            try:
                ties(query)
            except rematch.NoReach:
                continue
            return query, text, self.document()


def rows_of(query, parts, before=b''):
    """The rows of what follows a text, as they come in these parts."""
    state = Followed(query)
    if before is not None:
        state.pass_over(io.BytesIO(before), len(before))
    found = [row for part in parts for row in state.step(part).rows]
    return found + list(state.end().rows)


class Streams(unittest.TestCase):
    def check(self, query, text, document, cuts):
        """The rows of the parts are those of the whole, each once; from the end of a part those that the document has more than the part."""
        wanted = sorted(query.rows(document))
        for cut in cuts:
            self.assertEqual(sorted(rows_of(query, [document[:cut], document[cut:]], None)), wanted, (text, document, cut))
            known = set(query.rows(document[:cut]))
            self.assertEqual(sorted(rows_of(query, [document[cut:]], document[:cut])), [row for row in wanted if row not in known],
                             (text, document, cut, 'from the end'))
        parts = [document[start:end] for start, end in zip([0, *cuts], [*cuts, len(document)])]
        self.assertEqual(sorted(rows_of(query, parts, None)), wanted, (text, parts))

    @needs_speed
    def test_drawn_queries_cut_at_every_place(self):
        drawn = Drawn(SEED)
        for _ in range(CASES):
            query, text, document = drawn.case()
            self.check(query, text, document, range(len(document) + 1))
            query.close()

    def test_queries_that_failed_once(self):
        for text, document in ((r'/!w{\w*}/ minus /!w{\w*}\w/ minus /\w!w{\w*}/', b'ab\ncd\n'), (r'/!x{[^\n]*}/ minus /!x{\w*}b/', b'a\nab\nb'),
                               (r'/!x{b}/ minus /a\n!x{b}/', b'a\nb\n'), (r'/!y{a}\n!x{b}/', b'a\nb\n'), ('/!x{}/', b''), ('/!x{a*}/', b''),
                               (r'/!y{a}\n!x{b}/ minus /!y{a}\n!x{b}b/', b'a\nb\na\nbb\n'), ('/^!x{a}/', b'a\na\na'), ('/!x{a}$/', b'a\na\na'),
                               ('/!x{a}/ minus /^!x{a}/', b'a\na\na'), (r'/!x{a}/ minus /!x{a}\n?$/', b'a\na\na\n'),
                               (r'/^!x{a}/ union /\n!x{a}/', b'a\na\na'), (r'/!x{a}\n/ union /!x{a}$/', b'a\na\na')):
            self.check(rematch.Query(text), text, document, range(len(document) + 1))

    def test_rows_come_with_their_lines(self):
        """Each row that whole lines have is there with them, where nothing can take it away."""
        pick = random.Random(6)
        for text in TEXTS:
            query = rematch.Query(text)
            document = ''.join(pick.choice('aab\n\n') for _ in range(40)).encode()
            state, found, at = Followed(query), [], 0
            while at < len(document):
                part = document[at:at + pick.randrange(1, 14)]
                at += len(part)
                found += state.step(part).rows
                lines = document[:document[:at].rfind(b'\n') + 1]
                if 'minus' not in text and lines:
                    self.assertEqual(sorted(found), sorted(query.rows(lines)), (text, lines))
            found += state.end().rows
            self.assertEqual(sorted(found), sorted(query.rows(document)))

    def test_a_row_that_may_be_taken_away_waits(self):
        state = Followed(rematch.Query(r'/!x{a}/ minus /!x{a}\nb/'))
        self.assertEqual([list(state.step(part).rows) for part in (b'a\n', b'b\n', b'a\n', b'a\n')], [[], [], [], [(4, 5)]])
        self.assertEqual(list(state.end().rows), [(6, 7)])

    def test_little_is_kept(self):
        state = Followed(rematch.Query(r'/!x{a}\n[^\n]*!y{b}/'))
        for _ in range(30):
            list(state.step(b'a\nxb\n' * 3).rows)
            self.assertLess(len(state.kept), 20)
        step = state.step(b'a\nb\n')
        self.assertEqual((list(step.rows), step.window.line, step.window.begins), ([(450, 451, 452, 453)], 180, 447))

    def test_lines_and_texts(self):
        """The texts of a row are those of its places, and a window knows its first line."""
        query = rematch.Query(r'/!x{\d}[^\n]*\n[^\n]*!y{\d}/')
        document = b'1\n2\nx\n3 4\n5\n6'
        state = Followed(query)
        for step in steps(state, iter([document[k:k + 3] for k in range(0, len(document), 3)])):
            for row in step.rows:
                self.assertEqual(step.window.text(*row[:2]), document[row[0]:row[1]])
                self.assertEqual(step.window.line, document.count(b'\n', 0, step.window.begins) + 1)

    def test_texts_of_old_rows_stay(self):
        found = list(rematch.Query(r'/!x{\d}/').follow(io.BytesIO(b'1\n2\n3')))
        self.assertEqual([match['x'] for match in found], [b'1', b'2', b'3'])
        self.assertEqual(found[2].span('x'), (4, 5))

    def test_an_empty_text(self):
        self.assertEqual([match.row for match in rematch.Query('/!x{}/').follow(io.BytesIO(b''))], [(0, 0)])

    def test_refused(self):
        for text, note in (('/!x{[^,]*}/', 'has no end'), ('/a/', 'has no variables')):
            with self.assertRaisesRegex(rematch.NoReach, note):
                rematch.Query(text).follow(io.BytesIO(b'a'))
        with self.assertRaisesRegex(rematch.NoReach, 'begins nowhere'):
            list(rematch.Query('/(!x{a})?b/').follow(io.BytesIO(b'b\n')))
        query = rematch.Query('/!x{a}/')
        with self.assertRaises(rematch.DocumentError) as caught:
            query.follow('/no/such/file')
        self.assertEqual(caught.exception.filename, '/no/such/file')
        with self.assertRaisesRegex(TypeError, 'open as bytes'):
            list(query.follow(io.StringIO('a')))
        with self.assertRaisesRegex(TypeError, 'a path or an open binary file, not bytes'):
            query.follow(b'a')
        with self.assertRaisesRegex(ValueError, 'above 0'):
            query.follow('/dev/null', wait=0)


class Files(Folder):
    def write(self, path, *parts):
        for part in parts:
            with open(path, 'ab') as file:
                file.write(part)

    def test_rows_come_with_their_lines(self):
        path = self.file('log', b'a1\na2')
        rows = rematch.Query(r'/a!x{\d}/').follow(pathlib.Path(path), wait=0.01, quiet=60)
        self.assertEqual(next(rows)['x'], b'1')
        threading.Timer(0.3, self.write, (path, b'3\n')).start()
        self.assertEqual([next(rows).span('x')], [(4, 5)])
        self.write(path, b'a4\n')
        self.assertEqual(next(rows)['x'], b'4')
        rows.close()

    def test_quiet_and_until(self):
        path = self.file('log', b'a1\na2')
        query = rematch.Query(r'/a!x{\d}/')
        self.assertEqual([match['x'] for match in query.follow(path, wait=0.01, quiet=0.05)], [b'1', b'2'])
        self.assertEqual([match['x'] for match in query.follow(path, wait=0.01, until=lambda: True)], [b'1', b'2'])

    def test_from_the_end(self):
        path = self.file('log', b'a1\na')
        query = rematch.Query(r'/a!x{\d}/ union /a\d\n!x{a}/')
        done = threading.Event()
        rows = query.follow(path, from_end=True, wait=0.01, until=done.is_set)
        self.write(path, b'2\na3\n')
        threading.Timer(0.3, done.set).start()
        self.assertEqual(sorted(match.span('x') for match in rows), [(4, 5), (6, 7), (7, 8)])  # 3-4 was there

    def test_a_log_that_is_turned_over(self):
        path = self.file('log', b'a1\n')
        rows = rematch.Query(r'/a!x{\d}/').follow(path, wait=0.01, quiet=60)
        self.assertEqual(next(rows)['x'], b'1')
        self.write(path, b'a2')
        os.rename(path, path + '.1')
        self.file('log', b'a3\n')
        self.assertEqual([next(rows)['x'], next(rows)['x']], [b'2', b'3'])
        with open(path, 'wb'):
            pass
        time.sleep(0.1)
        threading.Timer(0.3, self.write, (path, b'a4\n')).start()
        self.assertEqual(next(rows).span('x'), (1, 2))

    def test_cut_and_filled_again(self):
        """A file that is cut and filled past its old length between two looks is read from its start."""
        query = rematch.Query(r'/!x{\w+};/ minus /\w!x{\w+}/')
        for old, new in ((b'a1;\n', b'new1;\nnew2;\n'), (b'a1;\n' * 50, b'b;\n' * 75), (b'a1;\n' * 50, b'b;\n' * 5000), (b'a1;\n', b'b1;\n')):
            path = self.file('log', old)
            rows = query.follow(path, wait=0.01, quiet=5)
            self.assertEqual([next(rows)['x'] for _ in range(old.count(b'\n'))], [b'a1'] * old.count(b'\n'))
            with open(path, 'r+b') as file:
                file.truncate(0)
                file.write(new)
            self.assertEqual([next(rows)['x'] for _ in range(new.count(b'\n'))], new.replace(b';', b'').split(), (old, new))
            rows.close()

    def test_replaced_after_its_last_lines(self):
        path = self.file('log', b'')
        file = File(path)
        self.addCleanup(file.close)
        self.assertEqual(file.read(), b'')
        self.write(path, b'old\n')
        os.rename(path, path + '.1')
        self.file('log', b'new\n')
        self.assertEqual([file.read() for _ in range(4)], [b'old\n', 'it was replaced', b'new\n', b''])


if __name__ == '__main__':
    unittest.main()
