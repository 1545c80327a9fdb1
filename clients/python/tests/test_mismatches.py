"""Words with mismatches, `~1{..}`: the same places as by counting letters, and what is refused, at its place."""
import os
import random
import unittest

import rematch
from rematch.to import expand, mismatches
from support import EXAMPLES, Folder, needs_speed
from commands import asked, lines

SETS = {'R': 'AG', 'N': 'ACGT', 'A': 'A', 'C': 'C', 'G': 'G', 'T': 'T'}


def places(word, text, most):
    """Where a word lies with at most so many other letters; a set of letters for each place."""
    return [at for at in range(len(text) - len(word) + 1)
            if sum(text[at + k] not in of for k, of in enumerate(word)) <= most and '\n' not in text[at:at + len(word)]]


def found(query, text):
    return sorted({match.start('x') for match in rematch.Query(expand.expanded(query).text).finditer(text)})


class Rows(unittest.TestCase):
    def test_drawn_words(self):
        """As by counting the letters that differ, in words of each length, with each number of mismatches."""
        pick = random.Random(62)
        for _ in range(60):
            length = pick.randrange(2, 8)
            most = pick.randrange(1, min(length, 4))
            word = [pick.choice('ACGTRN') for _ in range(length)]
            text = ''.join(pick.choice('ACGT\n' if pick.randrange(4) else 'ACGTx') for _ in range(60))
            written = ''.join('[%s]' % SETS[letter] if letter in 'RN' else letter for letter in word)
            self.assertEqual(found('/!x{~%d{%s}}/' % (most, written), text), places([SETS[letter] for letter in word], text, most), (written, most, text))

    def test_in_a_formula(self):
        for query, text, wanted in (('/!x{~1{abc}}d/', 'abcd xbcd axxd abxd', [0, 5, 15]), ('/!x{~1{ab}{2}}/', 'axyb abab xxab', [0, 5]),
                                    ('/!x{~1{abc}}/i', 'ABC xbC xxc', [0, 4]), ('part w = /ab/; /!x{~1{%{w}c}}-/', 'abx- xbx- xbc-', [0, 10]),
                                    ('part w = /ab/i; /!x{~1{c%{w}}}-/', 'CAB- xAB- cxB-', [0, 5, 10]), ('/!x{~1{né}}/u', 'né nx xé xx', [0, 3, 6]),
                                    (r'/!x{~1{a\n}}b/', 'a\nb \n\nb axb xxb', [0, 8]), (r'/!x{~1{\}\{}}/', '}{ }x xx', [0, 3]),
                                    ('/!x{~2{a{3}b}}-/', 'aaab- axxb- xxxb-', [0, 6]), ('/!x{a~3}/', 'a~3', [0]), ('/!x{~3{2}}/', '~33', [0]),
                                    ('/!x{~1{a[^\\n]c}}/', 'abc axx xxx', [0, 4])):
            self.assertEqual(found(query, text), wanted, query)

    @needs_speed
    def test_reads(self):
        """Both strands of a real file: as many sites as are counted by hand."""
        path = os.path.join(EXAMPLES, 'reads.fasta')
        with open(path) as file:
            records = [''.join(record.split('\n')[1:]).upper() for record in file.read().split('>')[1:]]
        strands = [text for record in records for text in (record, record.translate(str.maketrans('ACGT', 'TGCA'))[::-1])]
        for word, most in (('TATAAT', 1), ('TTGACA', 2), ('GANTC', 1)):
            wanted = sum(len(places([SETS[letter] for letter in word], text, most)) for text in strands)
            self.assertGreater(wanted, 10)
            out, told = lines('bed', '--iupac', '-e', '/!x{~%d{%s}}/' % (most, word), path)
            self.assertEqual((len(out), told), (wanted, []), word)

    @needs_speed
    def test_the_longest(self):
        """The most that is taken is a query that the program takes."""
        pick = random.Random(1)
        word = ''.join(pick.choice('ACGT') for _ in range(40))
        self.assertEqual(mismatches.units_written(40, 5), 6784)
        self.assertEqual(found('/!x{~5{%s}}/' % word, 'TT' + word[:7] + 'NNNNN' + word[12:] + word[:10] + 'N' * 6 + word[16:]), [2])


class Refused(Folder):
    def test_each(self):
        for query, at, part in (('/~1{a(b)}/', 5, 'contains letters'), ('/~1{a|b}/', 5, 'contains letters'), ('/~1{ab*}/', 6, 'contains letters'),
                                ('/~1{a{1,2}}/', 5, 'contains letters'), ('/~1{!x{ab}}/', 4, 'contains letters'), ('/~1{{3}ab}/', 4, 'contains letters'),
                                ('/~1{^ab}/', 4, 'contains letters'), ('/~1{ba{2}{2}}/', 9, 'contains letters'), ('/b~1{ab/', 2, 'not closed'), ('/~3{abc}/', 1, '1 to 2 of them'),
                                ('/~0{abc}/', 1, '1 to 2 of them'), ('/~1{a}/', 1, 'two letters'), ('/~1{}/', 1, 'two letters'),
                                ('/~1{né}/', 5, 'add u'), ('/~9{[ACGT]{40}}/', 1, '10000 is the most'), ('/~1{a{1000}b{1000}c{1000}}/', 1, '10000 is the most'),
                                ('/~1{%{p}a}/', 4, 'no part p'), ('part p = /a|b/; /~1{%{p}a}/', 20, 'no word'),
                                ('part p = /a/u; /~1{%{p}a}/', 19, 'over characters'), ('# what\n/~1{a.$}/', 13, 'contains letters')):
            status, out, told = asked('csv', '-e', query, self.file('d', b''))
            self.assertEqual((status, out, told.split('\n')[0].rpartition(' at ')[2]), (3, '', str(at)), query)
            self.assertIn(part, told, query)

    def test_the_program_alone(self):
        with self.assertRaises(rematch.QueryError) as caught:
            rematch.Query('/!x{~1{TATAAT}}/')
        self.assertEqual((caught.exception.offset, 'rematch-to' in caught.exception.hint), (6, True))

    def test_texts_without_are_passed_on(self):
        for query in ('/~1{3}/', '/~1{3,}/', '/~1{2,4}/', '/[~1{ab}]/', '/a~/', '/~{1}/', '/~a{2}/'):
            self.assertEqual(expand.expanded(query).text.decode(), query)


if __name__ == '__main__':
    unittest.main()
