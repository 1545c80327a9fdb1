"""What may hide rows of a document is told, with rows and without; documents that cannot be read are told, and the others read."""
import gzip
import os
import re
import unittest
from shutil import which
from unittest import mock

from rematch import pieces
from rematch.to import packed
from support import EXAMPLES, Folder, needs_speed
from commands import asked, without

FASTA = b'>one\n' + b'ACGT' * 15 + b'\nGATC\n'
PROTEIN = b'>p\n' + b'MKELPQGATC' * 6 + b'\nMKEL\n'


class Doubts(Folder):
    def told(self, data, *words, form='csv'):
        path = self.file('d', data)
        status, _, told = asked(form, *words, path)
        self.assertEqual(status, 0, told)
        self.assertEqual(asked(form, *words, path, '--silent')[2], '', 'what --silent leaves')
        return without(self.folder, told)

    def test_fasta_under_the_forms_of_texts(self):
        for form in ('csv', 'tsv', 'count', 'kwic', 'html', 'lines', 'freq'):
            told = self.told(FASTA, '-e', '/!x{GAT}C/', form=form)
            self.assertRegex(told, r'^d: it is wrapped as FASTA is: .* bed, gff and fasta search its records\n$', form)
            self.assertEqual(self.told(b'>a quoted line\nmore of it\n>another\n', '-e', '/!x{more} /', form=form), '')
        for form in ('bed', 'gff', 'fasta'):
            self.assertEqual(self.told(FASTA, '-e', '/!x{GAT}C/', form=form), '')

    def test_text_that_is_not_utf8(self):
        for query, part in (('/ !x{.} /u', 'd: it is no UTF-8 at 3'), ('/ !x{é} /', 'no UTF-8'), ('/ !x{a} /', '')):
            told = self.told(b'caf\xe9 a b', '-e', query)
            self.assertEqual(part in told if part else told, True if part else '', query)

    def test_accents_as_signs_of_their_own(self):
        text = 'Bu\u0308rger b\n'.encode()
        self.assertRegex(self.told(text, '-e', r'/r!x{\p{L}+} /u'),
                         r'^d: accents are characters of their own in it: .*--normal nfc\n$')
        for query, data in (('/ !x{b}\\n/', text), ('/!x{u\u0308}/', text), (r'/!x{u\p{Mn}}/u', text),
                            ('/!x{ü}/', 'Bürger'.encode())):
            self.assertEqual(self.told(data, '-e', query), '', query)

    def test_anchors_of_the_document(self):
        """They are told once where a document has several lines, unless the query shows that this is meant."""
        for query, is_told in (('/^!x{a}/', True), ('/!x{b}$/', True), ('/^!x{a}/m', False), (r'/^!x{a}\n/', False), ('/^!x{a}/ union /[^a]!x{a}/', False),
                               ('/!x{a}/', False), (r'/^(.|\n)*!x{b}/', False), ('let w = /^!x{a}/; w', True)):
            self.assertEqual('^ and $ are the start and the end' in self.told(b'a\nb\n', '-e', query), is_told, query)
            self.assertNotIn('^ and $', self.told(b'a b\n', '-e', query), query)

    def test_texts_that_end_wrongly(self):
        for query, data, part in ((r'/p=!x{[^ \n]+}\n/', b'p=2\r\np=3\r\n', r'd: 2 texts of x end with a carriage return'),
                                  (r'/p=!x{[^ \r\n]+}\r\n/', b'p=2\r\np=3\r\n', ''), (r'/"m": "!x{[^"]*}"/', rb'{"m": "a \" b"}', r'd: 1 text of x ends before an escaped quote'),
                                  (r'/"m": "!x{([^"\\]|\\.)*}"/', rb'{"m": "a \" b"}', '')):
            told = self.told(data, '-e', query)
            self.assertEqual(part in told if part else told, True if part else '', (query, told))

    def test_escapes_of_json(self):
        for data, is_told in ((b'{"u": "bj\\u00f6rn"}\n', True), ('{"u": "björn"}\n'.encode(), False), (b'bj\\u00f6rn\n', False)):
            self.assertEqual('as \\u escapes' in self.told(data, '-e', '/"u": "!x{björn}"/'), is_told, data)
        self.assertEqual(self.told(b'{"u": "bj\\u00f6rn"}\n', '-e', '/"!x{u}"/'), '')

    def test_rna(self):
        rna = b'>r\nGGUAUAAUGG\n'
        self.assertIn('U and no T', self.told(rna, '-e', '/!x{TATAAT}/', form='bed'))
        self.assertEqual(self.told(rna, '-e', '/!x{UAUAAU}/', form='bed'), '')
        self.assertEqual(self.told(b'>r\nTATAAT\n', '-e', '/!x{TATAAT}/', form='bed'), '')

    def test_encodings(self):
        """A text in another encoding or in another normal form, as the text in UTF-8 and in that form."""
        latin = self.file('l', 'ein café\n'.encode('latin-1'))
        self.assertEqual(asked('csv', '--texts', '--encoding', 'latin-1', '-e', '/!x{caf.}\\n/u', latin)[1], 'document,line,x\n%s,1,café\n' % latin)
        self.assertEqual(asked('count', '--encoding', 'ascii', '-e', '/!x{c}/', latin)[::2], (5, '%s: no ascii at 7\n' % latin))
        self.assertEqual(asked('count', '--encoding', 'nothing', '-e', '/!x{c}/', latin)[0], 2)
        parted = self.file('n', 'cafe\u0301\n'.encode())
        for query in ('/!x{café}/', '/!x{cafe\u0301}/'):
            self.assertEqual(asked('count', '--normal', 'nfc', '-e', query, parted), (0, '1 %s\n' % parted, ''), query)
        self.assertEqual(asked('count', '--silent', '-e', '/!x{café}/', parted)[1], '0 %s\n' % parted)

    def test_packed_and_utf16_are_told_with_rows(self):
        zstd = [] if which('zstd') else [(b'\x28\xb5\x2f\xfda', 'packed by zstd.*zstdcat')]  # where it is installed it unpacks
        for data, part in (*zstd, (b'PK\x03\x04a', 'packed by zip.*unzip -p'), (b'\xff\xfea\0', 'UTF-16'),
                           (b'\xfe\xff\0a', 'UTF-16'), (gzip.compress(gzip.compress(b'a', mtime=0), mtime=0),
                                                        'packed by gzip once more')):
            self.assertRegex(self.told(data, '-e', '/!x{a}/'), '^d: it .*%s.*\n$' % part)
            self.assertRegex(self.told(data, '-e', '/!x{zz}/', form='count'), '^d: it .*%s.*\n$' % part)

    def test_what_a_document_without_rows_is(self):
        for data, part in ((b'\xef\xbb\xbfb', 'byte order mark'), (b'b\r\nb\r\n', r'\r\n'), (b'b\n', None), (b'', None)):
            for form in ('count', 'csv'):
                told = self.told(data, '-e', '/!x{aa}/', form=form)
                if part is None:
                    self.assertEqual(told, '')
                else:
                    self.assertRegex(told, '^d: no row, and .*%s' % re.escape(part))
        self.assertEqual(self.told(b'a\r\n', '-e', '/!x{a}/'), '')


class Sequences(Folder):
    def test_proteins_on_both_strands(self):
        path = self.file('p', PROTEIN)
        for form in ('bed', 'gff', 'fasta'):
            self.assertIn('letters of proteins', asked(form, '-e', '/!x{MK}/', path)[2])
            self.assertEqual(asked(form, '-e', '/!x{MK}/', '--forward', path)[2], '')
            self.assertEqual(asked(form, '-e', '/!x{MK}/', '--silent', path)[2], '')

    def test_open_letters_of_a_query(self):
        path = self.file('d', FASTA)
        self.assertRegex(asked('bed', '-e', '/!x{GRNTC}/', path)[2], r'd: the query has N R as plain letters: --iupac')
        for words in (('-e', '/!N{GATC}/'), ('-e', '/!x{GRN}/', '--iupac'), ('-e', '/!x{GRN}/', '--silent')):
            self.assertEqual(asked('bed', *words, path)[2], '', words)
        self.assertNotIn('iupac', asked('bed', '-e', '/!x{N[^P]T}/', self.file('p', PROTEIN))[2])

    def test_iupac(self):
        path = self.file('d', b'>r\nTTGACCTTGGRCCTT\n')
        self.assertEqual(asked('fasta', '--forward', '--iupac', '-e', '/!x{GNCC}/', path),
                         (0, '>r:2-6(+) x\nGACC\n>r:9-13(+) x\nGRCC\n', ''))
        self.assertEqual(asked('fasta', '--forward', '--silent', '-e', '/!x{GNCC}/', path)[1], '')
        # A letter fits those that mean no more than it does: W is A or T, so R, which may be G, does not fit it.
        self.assertEqual(asked('count', '--iupac', '-e', '/!x{a}/', path)[0], 2)
        self.assertEqual(asked('fasta', '--forward', '--iupac', '-e', '/!x{GWCC}/', path)[1], '>r:2-6(+) x\nGACC\n')

    def test_iupac_in_classes(self):
        """A class has what its open letters mean, and one that is negated nothing that may be one of them: counts of each letter."""
        letters = 'ACGTURYSWKMBDHVN'
        path = self.file('d', ('>r\n' + ''.join(letter + 'XX' for letter in letters) + '\n').encode())
        for written, fits in (('R', 'AGR'), ('[R]', 'AGR'), ('[RC]', 'ACGRSMV'), ('[RY]', letters), ('[N]', letters), ('[^R]', 'CTUY'),
                              ('[^RC]', 'TU'), ('[^N]', ''), ('[AG]', 'AG'), ('[^AG]', 'CTURYSWKMBDHVN'), ('[A-Z]', letters), ('[ACGTN]', 'ACGTN'),
                              (r'[\x52]', 'R'), (r'[\wR]', letters)):
            status, out, told = asked('fasta', '--forward', '--silent', '--iupac', '-e', '/!x{%s}XX/' % written, path)
            self.assertEqual((status, out.split('\n')[1::2]), (0, [letter for letter in letters if letter in fits]), written)

    @needs_speed
    def test_iupac_in_classes_on_reads(self):
        """As the query with the letters listed has it, on both strands of a real file."""
        reads = os.path.join(EXAMPLES, 'reads.fasta')
        for written, listed, rows in (('[R]GATC', '[AG]GATC', 31), ('[^R]GATC', '[CT]GATC', 20), ('[^Y]GATC', '[AG]GATC', 31), ('[RY]GATC', '[ACGT]GATC', 51),
                                      ('G[N]{2}[^S]C', 'G[ACGT]{2}[AT]C', 121)):
            found = asked('bed', '--iupac', '--silent', '-e', '/!x{%s}/' % written, reads)[1]
            self.assertEqual(found, asked('bed', '--silent', '-e', '/!x{%s}/' % listed, reads)[1], written)
            self.assertEqual(found.count('\n'), rows, written)

    def test_iupac_refuses_a_range_of_some_letters(self):
        path = self.file('d', FASTA)
        for query, at in (('/!x{[A-F]C}/', 5), ('# R\n/!x{[^N-R]}/', 10), ('part p = /[K-M]/; /!x{%{p}}/', 11)):
            status, out, told = asked('bed', '--iupac', '-e', query, path)
            self.assertEqual((status, out, told.split('\n')[0]), (3, '', 'query: unexpected at %d' % at), query)
            self.assertIn('list those of', told)
        self.assertEqual(asked('bed', '--iupac', '-e', '/!x{R**}/', path)[2].split('\n')[:2], ['query: repeat after repeat at 6', '  /!x{R**}/'])
        self.assertEqual(asked('check', '--iupac', '--expanded', '-e', '/!RY{[R]GATC}/')[:2], (0, '/!RY{[AGR]GATC}/\n'))
        for query, wanted in (('[-R]', r'[AG\-R]'), ('[^-R]', r'[^ABDGHKMNSVW\-R]'), ('[ST]', '[BCGKUYST]'), ('[RAT]', '[DGKUWRAT]'), ('[AST]', None), ('[ACGT]', '[ACGT]'),
                              ('[AT]', '[AT]')):
            found = asked('check', '--iupac', '--expanded', '-e', '/!x{%s}/' % query)[1]
            self.assertEqual(found, '/!x{%s}/\n' % (wanted or found[4:-3]))
        records = self.file('k.fa', b'>r\nACKWY-GN\n')
        for query, wanted in (('[-R]', [0, 5, 6]), ('[ST]', [1, 2, 4, 6]), ('[RAT]', [0, 2, 3, 6])):
            self.assertEqual([int(line.split('\t')[1]) for line in asked('bed', '--forward', '--quiet', '--iupac', '-e', '/!x{%s}/' % query, records)[1].splitlines()], wanted, query)
        self.assertIn('--iupac reads those of the query as nucleotides', asked('bed', '--iupac', '--forward', '-e', '/!x{M}/', self.file('p', PROTEIN))[2])

    def test_open_letters_in_classes(self):
        path = self.file('d', FASTA)
        for query, shown in (('/!x{[R]GATC}/', 'R'), ('/!x{[ACGTK]GA[YT]C}/', 'Y'), ('/!x{[ACGTN]C[AGR]}/', ''), ('/!x{[^N]C}/', 'N')):
            told = asked('bed', '-e', query, path)[2]
            self.assertEqual('the query has %s as plain letter' % shown in told, bool(shown), query)

    def test_small_letters(self):
        """Letters of records are raised, so that small ones of a query fit none."""
        path = self.file('d', FASTA)
        for query, at, meant in (('/!x{gatc}/', 4, 'GATC'), ('/!x{GAtc}[A]/', 6, 'TC'), ('/!x{G[acgt]}/', 6, 'A'), ('/!x{[a-z]}/', 5, 'A-Z'),
                                 (r'# x\n'.encode().decode('unicode_escape') + r'/!x{\x67}/', 8, 'G')):
            for form in ('bed', 'gff', 'fasta'):
                told = asked(form, '-e', query, path)[2]
                self.assertIn('advice at %d: a small letter fits no record' % at, told)
                self.assertIn('write %s\n' % meant, told)
        for words in (('/!gatc{GATC}/',), ('/!x{[Gg][a-zA-Z]\\w\\n[^a]}/',), ('/!x{gatc}/', '--silent'), ('/!x{ga}/i',)):
            self.assertNotIn('small letter', asked('bed', '-e', *words, path)[2], words)
        self.assertNotIn('small letter', asked('csv', '-e', '/!x{gatc}/', path)[2])

    def test_no_fasta_is_told_alone(self):
        path = self.file('d', b'a line of letters\n')
        for form in ('bed', 'gff', 'fasta'):
            self.assertEqual(asked(form, '-e', '/!x{N}/', path), (5, '', path + ': no record of FASTA, which begins with > at the start of a line, or of FASTQ, which begins with @\n'))


class Several(Folder):
    """Where one of several documents cannot be read the others are, and the status is 1."""

    def setUp(self):
        super().setUp()
        self.gone = os.path.join(self.folder, 'gone')
        self.names = [self.file('a', b'>r\na\n'), self.gone, self.folder, self.file('b', b'>r\naa\n'),
                      self.file('c', gzip.compress(b'>r\na' * 99)[:-9])]

    def test_each_form(self):
        for form, found in (('csv', ['a,', 'b,', 'b,']), ('count', ['1 a', '2 b', '3 total']), ('freq', ['3,a']),
                            ('lines', ['a:a', 'b:aa']), ('kwic', ['a:2', 'b:2', 'b:2']),
                            ('html', ['a', 'b'])):
            status, out, told = asked(form, '-e', '/!x{a}/', *self.names)
            self.assertEqual(status, 1, form)
            self.assertEqual(without(self.folder, told).split('\n')[0], 'gone: No such file or directory')
            self.assertIn(self.folder + ': Is a directory', told)
            self.assertIn(os.path.join(self.folder, 'c') + ': ', told)
            for part in found:
                self.assertIn(part, without(self.folder, out), form)
        for form in ('bed', 'gff', 'fasta'):
            status, out, _ = asked(form, '-e', '/!x{A}/', '--forward', *self.names)
            self.assertEqual((status, len([line for line in out.split('\n') if line.startswith(('r\t', '>r'))])), (1, 3), form)

    def test_kwic_that_is_sorted_and_notes_in_a_folder(self):
        self.assertEqual(asked('kwic', '--sort', 'right', '-e', '/!x{a}/', *self.names)[0], 1)
        out = os.path.join(self.folder, 'out')
        os.mkdir(out)
        self.assertEqual(asked('ann', '-o', out, '-e', '/!x{a}/', *self.names)[0], 1)
        self.assertEqual(sorted(os.listdir(out)), ['a.ann', 'b.ann'])
        bad = [self.file('x', b'a\xff'), self.file('y', b'a')]
        status, _, told = asked('ann', '-o', out, '-e', '/!x{a}/', *bad)
        self.assertEqual((status, 'no UTF-8 at 1' in told, os.path.exists(os.path.join(out, 'y.ann'))), (1, True, True))

    def test_a_missing_document_alone(self):
        self.assertEqual(asked('count', '-e', '/!x{a}/', self.gone)[0], 5)
        self.assertEqual(asked('count', '-e', '/!x{a}/', self.gone, self.gone)[0], 1)

    def test_too_long_documents_among_others(self):
        long = self.file('long', b'ab\n' * 5)
        with mock.patch.object(packed, 'MOST_BYTES', 10), mock.patch.object(pieces, '_USUAL', 4):
            status, out, told = asked('count', '-e', '/!x{a[^c]*}b/', '--silent', self.names[0], long, self.names[3])
            self.assertEqual((status, without(self.folder, out)), (1, '0 a\n0 b\n0 total\n'))
            self.assertIn('long: no reach: it is too long for one run', told)
            self.assertEqual(asked('count', '-e', '/!x{a}b/', self.names[0], long)[1].split('\n')[1], '5 ' + long)

    def test_a_query_that_is_too_large_is_told_once(self):
        status, _, told = asked('count', '-e', '/!x{(a{1000}){20}}/', self.names[0], self.names[3])
        self.assertEqual((status, told.count('20000 states')), (4, 1))


if __name__ == '__main__':
    unittest.main()
