"""Tables: columns that are chosen, contexts, places in characters; concordances that are drawn by chance."""
import csv
import io
import random
import unittest

from rematch.to import tables
from rematch.to.forms import Drawn
from support import Folder
from commands import asked, lines, without

TEXT = 'né from 10.0 to é\nx from 7 to b,"c\n'
QUERY = r'/from !n{[\d.]+} to !who{[^\n]+}\n/'


class Columns(Folder):
    def table(self, *words, text=TEXT, query=QUERY):
        status, out, told = asked('csv', '-e', query, *words, self.file('d', text))
        self.assertEqual((status, told), (0, ''))
        return list(csv.reader(io.StringIO(without(self.folder, out))))

    def test_chosen(self):
        self.assertEqual(self.table('--columns', 'who,n'), [['who', 'n'], ['é', '10.0'], ['b,"c', '7']])
        self.assertEqual(self.table('--columns', 'line, n_start ,document'),
                         [['line', 'n_start', 'document'], ['1', '9', 'd'], ['2', '27', 'd']])
        self.assertEqual(self.table('--texts'), [['document', 'line', 'n', 'who'], ['d', '1', '10.0', 'é'],
                                                 ['d', '2', '7', 'b,"c']])
        self.assertEqual(self.table('-n', '1', '--texts')[1:], [['d', '1', '10.0', 'é']])
        self.assertEqual(self.table('-n', '0')[1:], [])

    def test_all_columns_named_are_the_usual_table(self):
        usual = self.table()
        self.assertEqual(self.table('--columns', ','.join(usual[0])), usual)

    def test_characters(self):
        data = TEXT.encode()
        for row, wide in zip(self.table()[1:], self.table('--characters')[1:]):
            for at in (2, 3, 5, 6):
                self.assertEqual(int(wide[at]), len(data[:int(row[at])].decode()))
        self.assertEqual([row[5:] for row in self.table('--columns', 'n_start,n,who,document,line,who_end', '--characters')],
                         [['who_end'], ['17'], ['34']])

    def test_characters_of_what_is_no_text(self):
        """A byte that begins no character belongs to the one before it, and nothing is lost."""
        rows = self.table('--characters', '--columns', 'x_start,x_end,x', text=b'\xffa\x80a\xc3\xa9a', query='/!x{a}/')
        self.assertEqual(rows[1:], [['1', '2', 'a'], ['2', '3', 'a'], ['4', '5', 'a']])

    def test_characters_of_long_texts(self):
        pick = random.Random(3)
        text = ''.join(pick.choice('aé漢😀\n') for _ in range(9000))
        data = text.encode()
        places = tables.Characters(data).before
        for at in [0, len(data)] + [pick.randrange(len(data)) for _ in range(200)]:
            self.assertEqual(places(at), len([byte for byte in data[:at] if byte & 0xC0 != 0x80]))

    def test_context(self):
        self.assertEqual(self.table('--context', '3', '--columns', 'left,n,right', '--var', 'n'),
                         [['left', 'n', 'right'], ['om ', '10.0', ' to'], ['om ', '7', ' to']])
        self.assertEqual(self.table('--context', '3')[1][-2:], ['om ', ' x '])
        self.assertEqual(self.table('--context', '0', '--texts')[1][-2:], ['', ''])
        # Characters, and not bytes, are counted, and a character that is cut is none.
        self.assertEqual(self.table('--context', '2', '--columns', 'left', text='ééé from 1 to b\n',
                                    query='/é é?!x{f}/u union /é !x{f}/u'), [['left'], ['é ']])

    def test_absent(self):
        rows = self.table('--context', '1', '--var', 'x', text='ab', query='/(!x{a})?!y{b}/')
        self.assertEqual([row[2:] for row in rows[1:]], [['0', '1', 'a', '1', '2', 'b', '', 'b'],
                                                         ['', '', '', '1', '2', 'b', '', '']])

    def test_refusals(self):
        for words, part in ((('--columns', 'n,whom'), "no column 'whom': there are document, line, n_start"),
                            (('--columns', ''), "no column ''"), (('--columns', 'left'), 'with --context'),
                            (('--context', '-1'), '0 or more'), (('--context', '3', '--var', 'q'), 'no variable q'),
                            (('--var', 'n'), 'give one of them too')):
            status, out, told = asked('csv', '-e', QUERY, *words, self.file('d', TEXT))
            self.assertEqual((status, out, part in told), (2, '', True), told)


class Samples(Folder):
    def setUp(self):
        super().setUp()
        self.names = [self.file('a', ''.join('%d x %d\n' % (k, 9 - k) for k in range(10))), self.file('b', '77 x 77\n' * 3)]

    def kwic(self, *words):
        return lines('kwic', '-e', '/ !w{x} /', *words, *self.names)[0]

    def test_drawn(self):
        every = self.kwic()
        self.assertEqual(len(every), 13)
        drawn = self.kwic('-n', '4', '--sample', '1')
        self.assertEqual(drawn, self.kwic('-n', '4', '--sample', '1'), 'the same number draws the same lines')
        self.assertEqual((len(drawn), drawn), (4, [line for line in every if line in drawn]), 'in the order of the documents')
        self.assertGreater(len({tuple(self.kwic('-n', '4', '--sample', str(seed))) for seed in range(5)}), 2)
        self.assertEqual(self.kwic('-n', '99', '--sample', '1'), every)
        self.assertEqual(self.kwic('-n', '0', '--sample', '1'), [])
        self.assertEqual(self.kwic('-n', '3'), every[:3])

    def test_each_line_has_the_same_chance(self):
        counts = [0] * 13
        for seed in range(2600):
            drawn = Drawn(2, seed)
            drawn.add(range(5))
            drawn.add(range(5, 13))
            for line in drawn.in_order():
                counts[line] += 1
        self.assertEqual(sum(counts), 5200)
        self.assertTrue(all(330 < count < 470 for count in counts), counts)

    def test_sorted(self):
        drawn = self.kwic('-n', '3', '--sample', '4', '--sort', 'right')
        self.assertEqual(drawn, sorted(drawn, key=lambda line: line.split()[-1]))
        self.assertEqual(self.kwic('--sort', 'right', '-n', '2'), self.kwic('--sort', 'right')[:2])
        path = self.file('w', 'b a C ')
        self.assertEqual([line.split()[1] for line in lines('kwic', '-e', '/!w{[A-Za-z]}/', '--columns', '1', '--sort', 'word',
                                                            path)[0]], ['a', 'b', 'C'])


if __name__ == '__main__':
    unittest.main()
