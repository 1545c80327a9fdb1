"""The sentence round a hit: kwic --sentence, and the columns left and right of a table."""
import unittest

from rematch.to import sentences
from support import Folder
from commands import asked, lines

TEXT = ('Dr. J. Gray saw the low tide. "Is it\nlow?" asked Ann. It was... so, e.g. the tide rose!\n\nA title with a tide\n\nThe end (of the tide.) '
        'Then more. 潮が引く。tide 潮。')


class Ends(unittest.TestCase):
    def test_each(self):
        for text, parts in (('One. Two! Three? Four', ['One.', 'Two!', 'Three?', 'Four']), ('Mr. Gray and J. R. Venn left. So', ['Mr. Gray and J. R. Venn left.', 'So']),
                            ('i.e. the tide, z.B. die', ['i.e. the tide, z.B. die']), ('3.5 m. No. 7 is', ['3.5 m. No. 7 is']),
                            ('"Go." He went. «Oui.» Il', ['"Go."', 'He went.', '«Oui.»', 'Il']), ('It was ... so. Yes', ['It was ... so.', 'Yes']),
                            ('one\n\ntwo\n \nthree', ['one', 'two', 'three']), ('潮。「低い。」水', ['潮。', '「低い。」', '水']), ('', ['']), ('...', ['...'])):
            places = [0, *sentences.ends_of(text), len(text)]
            self.assertEqual([text[start:end].strip() for start, end in zip(places, places[1:])], parts, text)


class Forms(Folder):
    def test_kwic(self):
        path = self.file('d', TEXT)
        out, told = lines('kwic', '--sentence', '--silent', '-e', '/[^a-z]!w{tide}[^a-z]/', path)
        wanted = ['Dr. J. Gray saw the low [tide].', 'It was... so, e.g. the [tide] rose!', 'A title with a [tide]', 'The end (of the [tide].)', '[tide] 潮。']
        self.assertEqual(([line.split('  ', 1)[1] for line in out], told), (wanted, []))
        self.assertTrue(out[1].startswith(path + ':2  '))
        self.assertIn('\x1b[1;31mtide\x1b[m]', lines('kwic', '--sentence', '--silent', '--color', 'always', '-e', '/ !w{tide} /', path)[0][0])

    def test_tables(self):
        path = self.file('d', TEXT)
        out, _ = lines('csv', '--sentence', '--silent', '--columns', 'left,w,right', '-e', '/ !w{low|Ann[.] It} /', path)
        self.assertEqual(out, ['left,w,right', '"Dr. J. Gray saw the ",low," tide."', '"""Is it low?"" asked ",Ann. It," was... so, e.g. the tide rose!"'])
        out, _ = lines('tsv', '--sentence', '--silent', '--texts', '--var', 'b', '-e', '/!a{saw} the (!b{low})? ?/', path)
        self.assertEqual(out[1].split('\t')[-2:], ['"Dr. J. Gray saw the "', '" tide."'])

    def test_a_text_without_ends_costs_little(self):
        path = self.file('d', b'a' * 5000 + b' tide ' + b'b' * 5000)
        out, _ = lines('csv', '--sentence', '--silent', '--columns', 'left,right', '-e', '/ !w{tide} /', path)
        self.assertEqual([len(cell) for cell in out[1].split('","')], [1001, 1001] if '"' in out[1] else [999])

    def test_bytes_that_are_no_text(self):
        path = self.file('d', b'One. \xff\xfe tide \xff. Two')
        self.assertEqual(lines('kwic', '--sentence', '--silent', '-e', '/ !w{tide} /', path)[0][0].split('  ', 1)[1].count('tide'), 1)

    def test_refused(self):
        path = self.file('d', TEXT)
        for words, part in ((('kwic', '--columns', '9'), '--sentence and --columns'), (('csv', '--context', '9'), '--sentence and --context'),
                            (('count',), 'of csv, tsv, kwic, and not of count'), (('follow',), 'and not of follow'),
                            (('csv', '--var', 'y'), 'no variable y'), (('kwic', '--var', 'y'), 'no variable y')):
            status, out, told = asked(*words, '--sentence', '-e', '/!x{a}/', path)
            self.assertEqual((status, out, part in told), (2, '', True), told)


if __name__ == '__main__':
    unittest.main()
