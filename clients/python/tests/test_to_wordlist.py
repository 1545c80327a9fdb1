"""--words FILE: a list of words in place of a query."""
import os
import random
import re
import time
import unittest

from rematch.faults import QueryError
from rematch.to.wordlist import ListQuery, formula_of, queries_of, words_of
from support import Folder, needs_speed
from commands import asked, lines


def is_letter(sign, is_ascii):
    return sign == '_' or (sign.isalnum() and (sign.isascii() or not is_ascii))


def places(words, text):
    """Where the words stand by themselves, in bytes, by looking at each place."""
    is_ascii = all(word.isascii() for word in words)
    found = set()
    for word in words:
        for at in range(len(text) - len(word) + 1):
            end = at + len(word)
            if text.startswith(word, at) and not (at and is_letter(text[at - 1], is_ascii)) and not (end < len(text) and is_letter(text[end], is_ascii)):
                found.add((len(text[:at].encode()), len(text[:end].encode())))
    return sorted(found)


class Formulas(unittest.TestCase):
    def test_they_fit_the_words_alone(self):
        """By Python's re, which reads these formulas as the program does."""
        pick = random.Random(1)
        for _ in range(300):
            words = sorted({''.join(pick.choice('abc-].^\\') for _ in range(pick.randrange(1, 6))) for _ in range(pick.randrange(1, 12))})
            expression = re.compile(formula_of(words))
            others = {''.join(pick.choice('abc-].^\\') for _ in range(pick.randrange(6))) for _ in range(30)}
            self.assertEqual([word for word in sorted(others | set(words)) if expression.fullmatch(word)], words)

    def test_sizes(self):
        pick = random.Random(2)
        words = sorted({''.join(pick.choice(['ba', 'ko', 'ter', 'in', 'al', 're', 'ing', 'ed', 's', 'ne']) for _ in range(pick.randrange(2, 6)))
                        for _ in range(20000)})
        formula = formula_of(words)
        self.assertLess(len(formula), sum(map(len, words)) // 2)
        texts = queries_of(words)
        self.assertGreater(len(texts), 1)
        self.assertLess(max(map(len, texts)), 65536)
        deep = ['a' * k for k in range(1, 300)]
        self.assertEqual(list(ListQuery(deep).rows(b'aaa ' + b'a' * 301)), [(0, 3)])

    def test_words_of_a_file(self):
        self.assertEqual(words_of('\ufeffb \r\n\na\nb\n x y '.encode(), 'f'), ['a', 'b', 'x y'])
        for data, part in ((b'', 'f: no word in it'), (b' \n', 'f: no word in it'), (b'a\xff', 'f: no UTF-8 at 1'), (b'a' * 1001, 'a word of more than 1000 bytes')):
            with self.assertRaises(QueryError) as fault:
                words_of(data, 'f')
            self.assertIn(part, str(fault.exception))


class Rows(Folder):
    def test_drawn(self):
        pick = random.Random(3)
        rows = 0
        for number in range(60):
            letters = 'abé.-' if number % 3 == 0 else 'ab.-_'
            words = sorted({''.join(pick.choice(letters) for _ in range(pick.randrange(1, 5))) for _ in range(pick.randrange(1, 9))})
            text = ''.join(pick.choice(letters + '  \n') for _ in range(pick.randrange(0, 40)))
            query, wanted = ListQuery(words), places(words, text)
            self.assertEqual(list(query.rows(text.encode())), wanted, (words, text))
            self.assertEqual((query.count(text.encode()), query.any(text.encode())), (len(wanted), bool(wanted)), (words, text))
            rows += len(wanted)
        self.assertGreater(rows, 60)

    @needs_speed
    def test_many_words(self):
        """20,000 words in 1 MB of text, in several queries."""
        pick = random.Random(4)
        parts = ['ba', 'ko', 'ter', 'in', 'mos', 'al', 're', 'un', 'ing', 'ed', 's', 'qua', 'li', 'ne', 'ch', 'ou', 'st', 'tra', 'ver', 'dom']
        words = set()
        while len(words) < 20000:
            words.add(''.join(pick.choice(parts) for _ in range(pick.randrange(2, 6))))
        text = ' '.join(''.join(pick.choice(parts) for _ in range(pick.randrange(1, 5))) for _ in range(140000))
        begun = time.monotonic()
        path, document = self.file('words', '\n'.join(words)), self.file('text', text)
        out, told = lines('count', '--words', path, document)
        self.assertEqual((out, told), (['%d %s' % (sum(word in words for word in text.split(' ')), document)], []))
        self.assertLess(time.monotonic() - begun, 300)  # 3 s where the machine has nothing else to do
        halves = self.file('long', (text + '\n') * 8)
        self.assertEqual(lines('count', '--words', path, '--jobs', '2', halves)[0], ['%d %s' % (8 * int(out[0].split()[0]), halves)])

    def test_forms(self):
        words, text = self.file('words', 'a\nbc\n'), self.file('text', 'a bc\nabc\nbc')
        self.assertEqual(lines('csv', '--texts', '--words', words, text)[0], ['document,line,word', text + ',1,a', text + ',1,bc', text + ',3,bc'])
        self.assertEqual(lines('freq', '--words', words, text, text, text)[0], ['count,word', '6,bc', '3,a'])
        self.assertEqual(lines('lines', '--line-numbers', '--words', words, text)[0], ['1:a bc', '3:bc'])
        self.assertEqual(lines('kwic', '--columns', '4', '-n', '1', '--words', words, text)[0][0].split(), [text + ':1', 'a', 'bc'])
        self.assertEqual([asked('any', '--words', words, text)[0], asked('any', '--words', words, self.file('none', 'x'))[0]], [0, 1])

    def test_refused(self):
        words = self.file('words', '')
        for given, status, part in ((('csv', '--words', words, '-e', '/a/'), 2, 'by --words or by -e or -q'), (('bed', '--words', words), 2, '--words is of csv'),
                                    (('csv', '--words', words), 3, 'no word in it'), (('csv', '--words', os.path.join(self.folder, 'none')), 5, 'No such file')):
            found, out, told = asked(*given)
            self.assertEqual((found, out, part in told), (status, '', True), (given, told))


if __name__ == '__main__':
    unittest.main()
