"""Long records in windows: the sites are those of the whole, in the same order; what cannot be searched so is told."""
import random
import unittest
from unittest import mock

import rematch
from rematch.to import sequences
from rematch.bounds import NoReach, length_of_printed
from support import Folder
from commands import asked

QUERIES = ('/!x{GATC}/', '/!x{A[CG]?}[ACGT]{0,3}!y{T}/', r'/\n!x{[ACGT]}/', r'/!x{[ACGU]}\n/', '/!x{A}/ minus /!x{A}C/',
           '/!x{A}/ minus /C!x{A}/', '/!x{A.}/ join /G!x{A.}T?/',
           '/!x{A}|!y{CG}/', '/!x{}A/', r'/!x{\n?A}/', '/(!x{A})?!y{C}/', '/!x{A(C|GT)}!y{}/')


class Windows(Folder):
    def found(self, query, data, window, **words):
        lost = []
        with mock.patch.object(sequences, '_WINDOW', window), mock.patch.object(sequences, '_BATCH', 1):
            return list(sequences.sites(query, data, left_out=lost.append, **words)), lost

    def test_sites_are_those_of_the_whole(self):
        pick = random.Random(11)
        for text in QUERIES:
            query = rematch.Query(text)
            for _ in range(3):
                letters = ''.join(pick.choice(pick.choice(['ACGT', 'ACGU', 'GATC'])) for _ in range(pick.randrange(1, 40)))
                data = ('>r\n' + letters + '\n>s\nAC\n').encode()
                whole = self.found(query, data, 1 << 30)
                for window in (8, 13):
                    self.assertEqual(self.found(query, data, window), whole, (text, letters, window))

    def test_windows_are_used_and_no_longer_than_asked(self):
        query = rematch.Query('/!x{GA}T/')
        with mock.patch.object(rematch.Query, 'rows', autospec=True, side_effect=rematch.Query.rows) as runs:
            found, _ = self.found(query, b'>r\n' + b'GATTC' * 20 + b'\n', 30, both=False)
        self.assertEqual(len(found), 20)
        self.assertEqual(max(len(call[0][1]) for call in runs.call_args_list), 36)
        self.assertEqual(runs.call_count, 4)

    def test_a_query_without_a_bound_is_one_run(self):
        query, data = rematch.Query('/!x{GA+}/'), b'>r\n' + b'GAATC' * 9 + b'\n'
        self.assertEqual(self.found(query, data, 10), self.found(query, data, 1 << 30))
        with mock.patch.object(sequences, 'MOST_BYTES', 40):
            with self.assertRaises(rematch.DocumentError) as caught:
                self.found(query, data, 10)
            self.assertEqual((caught.exception.status, 'the record r has 45 letters' in caught.exception.hint,
                              'a repeat has no end' in caught.exception.hint), (6, True, True))
            self.assertEqual(len(self.found(rematch.Query('/!x{GA{1,9}}/'), data, 10, both=False)[0]), 18)

    def test_the_command(self):
        path = self.file('f', b'>r\n' + b'ggatcc\n' * 9)
        whole = asked('bed', '-e', '/!x{GATC}/', path)
        self.assertEqual(whole[1].count('\n'), 18)
        with mock.patch.object(sequences, '_WINDOW', 10), mock.patch.object(sequences, '_BATCH', 1):
            self.assertEqual(asked('bed', '-e', '/!x{GATC}/', path), whole)
            with mock.patch.object(sequences, 'MOST_BYTES', 40):
                status, _, told = asked('bed', '--silent', '-e', '/!x{GA+}/', path)
                self.assertEqual((status, 'hint: the record r' in told), (6, True))

    def test_length(self):
        for text, wanted in (('/!x{a}/', 1), ('/!x{é|b}/u', 2), ('/(a|bcd){2,5}!x{}/', 15), ('/!x{a}/ join /!x{a}b/', 3),
                             ('/!x{abc}/ minus /!x{abc}de/', 5),
                             ('/!x{[^\\n]}\\n?/', 2), ('let w = /!x{ab}/; w join w', 4)):
            self.assertEqual(length_of_printed(rematch.Query(text).printed.encode()), wanted, text)
        for text in ('/!x{a*}/', '/!x{a{2,}}/', '/^!x{a}/', '/!x{a}/ join /!y{b}/'):
            with self.assertRaises(NoReach):
                length_of_printed(rematch.Query(text).printed.encode())


class Records(unittest.TestCase):
    def test_long_records_are_read_in_blocks(self):
        pick = random.Random(12)
        for _ in range(200):
            data = b''.join(pick.choice([b'>r 1\n', b'ac', b'GT\r\n', b'\n', b' ', b'\n;n;\n']) for _ in range(pick.randrange(20)))
            data = b'>q\n' + data
            whole = [(record.name, bytes(record.letters)) for record in sequences.records_of(data)]
            for block in (1, 3, 8):
                with mock.patch.object(sequences, '_BLOCK', block):
                    self.assertEqual([(record.name, bytes(record.letters)) for record in sequences.records_of(data)], whole)

    def test_sites_of_records_in_blocks(self):
        data = b'>r\n' + b'GATcaG\n' * 9
        for form in ('bed', 'fasta', 'gff'):
            wanted = asked(form, '-e', '/!x{CAGGA}|!y{TCC}/', stdin=data)
            with mock.patch.object(sequences, '_BLOCK', 5), mock.patch.object(sequences, '_WINDOW', 10):
                self.assertEqual(asked(form, '-e', '/!x{CAGGA}|!y{TCC}/', stdin=data), wanted)
            self.assertGreater(wanted[1].count('\n'), 8)


class Once(Folder):
    def test_palindromes_once(self):
        path = self.file('f', b'>r\nGATCAAGATT\n>s\nGATC\n')
        status, out, _ = asked('bed', '--strand-once', '-e', '/!x{GAT[CT]}/', path)
        self.assertEqual([tuple(line.split('\t')[k] for k in (0, 1, 5)) for line in out.splitlines()],
                         [('r', '0', '+'), ('r', '6', '+'), ('s', '0', '+')])
        self.assertEqual(asked('bed', '-e', '/!x{GAT[CT]}/', path)[1].count('\n'), 5)
        # Two variables that change places are one palindrome, too.
        self.assertEqual(asked('gff', '--strand-once', '-e', '/!a{GA}!b{TC}/', path)[1].count('\n'), 1 + 2 * 2)

    def test_sorted_and_once(self):
        path = self.file('f', b'>r\nAATTGG\nCC\n')
        status, out, _ = asked('bed', '--sorted', '--strand-once', '-e', '/!x{GG(CC)?|TT}/', path)
        self.assertEqual([line.split('\t')[1:3] + line.split('\t')[5:6] for line in out.splitlines()],
                         [['0', '2', '-'], ['2', '4', '+'], ['4', '6', '+'], ['4', '8', '+'], ['6', '8', '-']])

    def test_letters_of_both_strands(self):
        path = self.file('f', b'>r one\nggat\ncu\n;note\n>s\nAUG\n')
        self.assertEqual(asked('fasta', '-e', '/!x{GAT}/', path), (0, '>r:1-4(+) x\nGAT\n>r:2-5(-) x\nGAT\n', ''))
        self.assertEqual(asked('fasta', '-e', '/!x{CAU}/', path)[1], '>s:0-3(-) x\nCAU\n')


if __name__ == '__main__':
    unittest.main()
