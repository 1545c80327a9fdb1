"""%{FILE}: lists of words in a formula, also those that are too long for one query."""
import os
import random
import re
import subprocess
import unittest
from unittest import mock

import rematch
from rematch.to import wordlist
from rematch.to.expand import expanded
from rematch.to.listed import Lists, texts_of_parts
from rematch.to.merged import in_order, order_of
from support import CLIENTS, PROGRAM, Folder
from commands import asked, lines
from drawing import Maker


class Order(unittest.TestCase):
    def test_it_is_the_order_of_rows(self):
        """The rows of drawn queries, dealt out and put together again."""
        pick, compared = random.Random(1), 0
        for number in range(120):
            maker = Maker('order/%d' % number)
            try:
                rows = list(rematch.Query(maker.query()).rows(maker.document()))
            except rematch.RematchError:
                continue
            parts = [[row for row in rows if pick.random() < 0.6] for _ in range(3)]
            parts.append([row for row in rows if not any(row in part for part in parts)])
            self.assertEqual(list(in_order(parts)), rows)
            self.assertEqual(sorted(rows, key=order_of), rows)
            compared += len(rows)
        self.assertGreater(compared, 60)


class InFormulas(Folder):
    def words(self, *words, name='words.txt'):
        self.file(name, '\n'.join(words))

    def written(self, text):
        return expanded(text, Lists(self.folder)).text.decode()

    def test_written_out(self):
        self.words('abate', 'abbey', 'abbeys', '', ' able ')
        self.words('é', 'è', 'ab', name='accents.txt')
        self.words('a/b', 'a.b', name='signs.txt')
        for text, wanted in ((r'/!w{%{words.txt}}/', r'/!w{(ab(ate|bey(s)?|le))}/'),
                             (r'part w = /%{words.txt}/; /<!w{%{w}}>/', r'/<!w{((ab(ate|bey(s)?|le)))}>/'),
                             (r'/%{words.txt}+/i', r'/([Aa][Bb]([Aa][Tt][Ee]|[Bb][Ee][Yy]([Ss])?|[Ll][Ee]))+/'),
                             (r'/%{accents.txt}/', r'/((ab|\xc3[\xa8\xa9]))/'), (r'/%{accents.txt}/u', r'/((ab|[èé]))/u'),
                             (r'/^%{accents.txt}$/m', r'(/^((ab|\xc3[\xa8\xa9]))$/ union /^((ab|\xc3[\xa8\xa9]))\n/ union '
                                                      r'/\n((ab|\xc3[\xa8\xa9]))$/ union /\n((ab|\xc3[\xa8\xa9]))\n/)'),
                             (r'/%{signs.txt}/', r'/(a[\.\/]b)/'), (r'/a%{2}b{1,2}/', r'/a%{2}b{1,2}/')):
            self.assertEqual(self.written(text), wanted)
        os.mkdir(os.path.join(self.folder, 'lists'))
        self.words('x', name='lists/x.txt')
        self.assertEqual(self.written(r'/%{lists\/x.txt}/'), '/(x)/')
        self.assertEqual([(advice.offset, 'é in the list' in advice.message or 'è in the list' in advice.message)
                          for advice in expanded('/a%{accents.txt}/ui', Lists(self.folder)).advice], [(2, True)])

    def test_rows_are_those_of_the_words(self):
        """Drawn lists, cut at every size, beside each word by itself."""
        pick, rows = random.Random(2), 0
        for number in range(25):
            words = sorted({''.join(pick.choice('abé') for _ in range(pick.randrange(1, 4))) for _ in range(pick.randrange(1, 9))})
            self.words(*words)
            text = ''.join(pick.choice('abé ') for _ in range(pick.randrange(30))).encode()
            alone = [r'/!y{ ?}!w{%s}(!x{a})?/' % word for word in words]
            wanted = list(in_order([list(rematch.Query(one).rows(text)) for one in alone]))
            query = self.file('q', r'/!y{ ?}!w{%{words.txt}}(!x{a})?/')
            with mock.patch.object(wordlist, '_MOST_SIGNS', pick.choice([15, 18, 30, 17000])):
                found, told = lines('csv', '--silent', '--columns', 'w_start,w_end,x_start,x_end,y_start,y_end', '-q', query, '-', stdin=text)
                counted = lines('count', '--silent', '-q', query, '-', stdin=text)[0]
            self.assertEqual(found[1:], [','.join('' if place < 0 else str(place) for place in row) for row in wanted], (words, text))
            self.assertEqual((told, counted), ([], ['%d -' % len(wanted)]))
            rows += len(wanted)
        self.assertGreater(rows, 30)

    def test_the_folder_of_the_query(self):
        self.words('ab')
        query, document = self.file('a.query', '/!w{%{words.txt}}/'), self.file('d', 'ab')
        self.assertEqual(lines('csv', '--texts', '-q', query, document)[0][1:], [document + ',1,ab'])
        self.assertEqual(rematch.expand('/%{words.txt}/', folder=self.folder), '/(ab)/')
        run = subprocess.run([os.path.join(CLIENTS, 'rematch-piece'), query, document, '0', '2'], stdout=subprocess.PIPE,
                             env=dict(os.environ, REMATCH=PROGRAM), check=True)
        self.assertEqual(run.stdout, b'w=0-2\n')
        self.file('accents.txt', 'e\u0301')
        self.assertEqual(lines('count', '--silent', '--normal', 'nfc', '-q', self.file('b.query', '/!w{%{accents.txt}}/'), '-', stdin='é'.encode())[0], ['1 -'])

    def test_refused(self):
        self.words()
        self.file('bad.txt', b'\xff')
        self.words('ab', 'cd', 'ef', name='some.txt')
        for text, part in (('/%{none.txt}/', 'none.txt: No such file'), ('/a%{words.txt}/', 'words.txt: no word in it at 2'), ('/%{bad.txt}/', 'no UTF-8 at 0 at 1')):
            with self.assertRaises(rematch.QueryError) as fault:
                self.written(text)
            self.assertIn(part, str(fault.exception))
            self.assertIn('%{FILE}', fault.exception.hint)
        with self.assertRaises(rematch.QueryError) as fault:
            rematch.expand('/%{some.txt}/')
        self.assertIn('folder=', fault.exception.hint)
        with mock.patch.object(wordlist, '_MOST_SIGNS', 3):
            for text in ('/(%{some.txt} )+/', '/%{some.txt}%{some.txt}/', '/a/ minus /%{some.txt}/', 'let a = /%{some.txt}/; a'):
                lists = Lists(self.folder)
                with self.assertRaises(rematch.QueryError) as fault:
                    texts_of_parts(text.encode(), lists, lambda: expanded(text, lists).text)
                self.assertRegex(str(fault.exception), 'a list of 3 words, which is too long for one query')
            query = self.file('q', '/!w{%{some.txt}}/')
            status, out, told = asked('bed', '-q', query, '-')
            self.assertEqual((status, out), (2, ''))
            self.assertIn('the list is too long for one query, and bed takes one', told)
            self.assertIn('the list is too long for one query: of 3 queries this is the first\n', asked('check', '-q', query)[1])
            self.assertEqual(len(lines('check', '--expanded', '-q', query)[0]), 3)
            self.assertEqual(re.findall('lost.*', asked('diff', query, self.file('p', '/!w{ab}/'), '-', stdin=b'ab cd')[2]), ['lost 1, gained 0'])


if __name__ == '__main__':
    unittest.main()
