"""Many texts: what each gives is what it gives alone, in one run, in sessions, and by itself."""
import random
import unittest
from unittest import mock

import rematch
from rematch import many
from support import children, needs_speed


def answers(query, texts):
    return [[(match.row, match.spandict(), match.groupdict(), match.cursor) for match in found] for found in query.map(texts)]


def alone(query, texts):
    return [[(match.row, match.spandict(), match.groupdict(), match.cursor) for match in query.findall(text)] for text in texts]


JOINED = [r'/!x{a+}!y{b*}/', r'/^!x{a*}|!x{b}$/', r'/^!x{a*}$/', r'/!x{[^ ]}/', r'/(!x{a})?!y{é}/u', r'/!x{a} / join / !y{b}!x{a}/ union /!x{a}b!y{}$/',
          r'let p = /!x{a}/; p minus /!x{a}b/', r'/!x{\w} !y{\w}/ where upper(x)', r'/!x{}/', r'/!x{\p{L}}[^é]/u']
APART = [r'/a/', r'/(!x{a})?b/', r'/!x{(.|\n)}/', r'/!x{a}/ join /!y{b}/', r'project x (/!x{a}/ union /!y{b}/) minus /!x{ab}/']


class Rows(unittest.TestCase):
    def setUp(self):
        self.before = children()

    def tearDown(self):
        self.assertEqual(children(), self.before)

    def texts(self, pick):
        signs = 'aaabb é\n\x00'
        texts = [''.join(pick.choice(signs) for _ in range(pick.randrange(6))) for _ in range(3)]
        return ['', *texts, texts[0].encode() + b'\xff', 'ab']

    def test_each_is_as_alone(self):
        pick = random.Random(8)
        for text in JOINED + APART:
            query = rematch.Query(text)
            texts = self.texts(pick)
            self.assertEqual(answers(query, texts), alone(query, texts), (text, texts))

    def test_one_run(self):
        """What can be joined needs no session and no run of its own."""
        for text in JOINED:
            query = rematch.Query(text)
            with mock.patch.object(many.Mapped, '_apart', side_effect=AssertionError(text)):
                self.assertEqual(len(list(query.map(['ab', 'a', ''] * 5))), 15)

    def test_apart(self):
        for text in APART:
            mapped = many.Mapped(rematch.Query(text))
            with mock.patch.object(mapped, '_apart', side_effect=lambda text, is_only: [text]):
                self.assertEqual(list(mapped.rows(['b', 'ab'])), [['b'], ['ab']], text)

    def test_batches(self):
        query = rematch.Query('/!x{a}/')
        with mock.patch.object(many, '_LEAST', 2), mock.patch.object(many, '_MOST_BYTES', 9):
            self.assertEqual([len(found) for found in query.map('a' * (k % 4) for k in range(12))], [0, 1, 2, 3] * 3)
        self.assertEqual(list(query.map([])), [])
        taken = []
        found = query.map(taken.append(k) or 'a' for k in range(1000))
        self.assertEqual(taken, [])
        next(found)
        self.assertLess(len(taken), 100)  # so that a stream of texts is answered as it comes
        found.close()

    def test_too_large_together(self):
        """A batch that is refused for its size is taken in halves."""
        query = rematch.Query('/!x{a}/')
        run = many.Mapped._by_text

        def refused(mapped, joined, separator, batch):
            found = run(mapped, joined, separator, batch)
            if len(batch) > 2:
                yield next(found)
                raise rematch.OutOfMemory('out of memory', 9)
            yield from found
        with mock.patch.object(many.Mapped, '_by_text', refused):
            self.assertEqual([len(found) for found in query.map(['', 'a', 'aa', 'aaa', 'aaaa', '', 'a'])], [0, 1, 2, 3, 4, 0, 1])

    def test_rows_do_not_wait(self):
        """A text is given when its rows are there, and many rows that would wait are taken in smaller batches."""
        mapped = many.Mapped(rematch.Query('/!x{a}/'))
        seen = []
        with mock.patch.object(mapped.query, 'rows', return_value=iter(map(lambda k: seen.append(k) or (2 * k + 1, 2 * k + 2), range(9)))):
            found = mapped.rows(['a'] * 9)
            self.assertEqual([len(next(found)), len(seen)], [1, 2])
            self.assertEqual([len(rows) for rows in found], [1] * 8)
        query = rematch.Query('project x (/!x{a}!y{a*}/)')
        self.assertFalse(many.Mapped(query).is_sure)
        with mock.patch.object(many, '_MOST_WAITING', 3):
            self.assertEqual([len(found) for found in query.map(['aa', 'a', 'aaa', 'a'])], [2, 1, 3, 1])

    def test_faults_in_their_places(self):
        query = rematch.Query('/!x{a}/')
        found = query.map(['a', b'aa', None, 'a'])
        self.assertEqual([len(next(found)), len(next(found))], [1, 2])
        with self.assertRaisesRegex(TypeError, '^text 2 is a str or bytes, not NoneType$'):
            next(found)
        query = rematch.Query('/!x{a+}!y{b*}(.|\\n)/', max_table=10)
        found = query.map(['a', 'a' * 50])
        self.assertEqual(len(next(found)), 0)
        with self.assertRaisesRegex(rematch.SizeError, 'hint: it is text 1, counted from 0; ') as caught:
            next(found)
        self.assertEqual(caught.exception.status, 4)

    def test_texts_are_no_names_of_files(self):
        self.assertEqual([len(found) for found in rematch.Query('/!x{a}/').map(['/etc/passwd', 'a'])], [1, 1])

    @needs_speed
    def test_is_quick(self):
        """Thousands of texts are a few runs, and not thousands."""
        query = rematch.Query(r'/^!x{\w+} /')
        with mock.patch('rematch.query.Run', side_effect=rematch.program.Run) as runs:
            self.assertEqual(sum(map(len, query.map('ab %d' % k for k in range(3000)))), 3000)
        self.assertLess(runs.call_count, 12)


if __name__ == '__main__':
    unittest.main()
