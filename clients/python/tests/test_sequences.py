"""FASTA: records, both strands and frames against brute force; BED and GFF."""
import io
import random
import re
import subprocess
import unittest

import rematch
from rematch.to import sequences
from commands import asked
from support import IS_REFERENCE, Folder, needs

PAIRS = {'A': 'T', 'C': 'G', 'G': 'C', 'T': 'A', 'N': 'N', 'R': 'Y', 'Y': 'R'}


def drawn(pick, count):
    """A file of sequences whose lines are wrapped anywhere, small letters among them, and its records."""
    records, lines = [], []
    for k in range(count):
        letters = ''.join(pick.choice('ACGTACGTACGTNRY') for _ in range(pick.randrange(60)))
        records.append(('r%d' % k, letters))
        lines.append('>r%d a head with > and ;' % k)
        shown = ''.join(letter.lower() if pick.random() < 0.3 else letter for letter in letters)
        while shown:
            size = pick.randrange(1, 20)
            lines.append(shown[:size])
            shown = shown[size:]
    return (pick.choice(['\n', '\r\n']).join(lines) + '\n').encode(), records


def brute(records, first, second, most):
    """Every place of two motifs with at most so many letters between them, on both strands."""
    found = set()
    for name, letters in records:
        turned = ''.join(PAIRS[letter] for letter in reversed(letters))
        for strand, text in (('+', letters), ('-', turned)):
            for a in range(len(text)):
                for b in range(a + len(first), a + len(first) + most + 1):
                    if text.startswith(first, a) and text.startswith(second, b) and b + len(second) <= len(text):
                        spans = [(a, a + len(first)), (b, b + len(second))]
                        if strand == '-':
                            spans = [(len(text) - end, len(text) - start) for start, end in spans]
                        found.add((name, strand, spans[0] + spans[1]))
    return found


class Sequences(unittest.TestCase):
    def test_against_brute_force(self):
        pick = random.Random(5)
        query = rematch.Query('/!a{AC}[ACGTNRY]{0,9}!b{GT}/')
        total = 0
        for _ in range(6 if IS_REFERENCE else 60):
            data, records = drawn(pick, pick.randrange(1, 6))
            found = [(site.record.name, site.strand, site.row) for site in sequences.sites(query, data)]
            self.assertEqual(len(found), len(set(found)))
            self.assertEqual(set(found), brute(records, 'AC', 'GT', 9))
            forward = [(site.record.name, site.strand, site.row) for site in sequences.sites(query, data, both=False)]
            self.assertEqual(forward, [site for site in found if site[1] == '+'])
            total += len(found)
        self.assertGreater(total, 5)

    def test_frames_against_brute_force(self):
        pick = random.Random(6)
        query = rematch.Query('/!frame{ATG([ACG][ACGT]{2}|T[CT][ACGT]|TA[CT]|TG[CGT]){0,6}(TAA|TAG|TGA)}/')
        for _ in range(3 if IS_REFERENCE else 30):
            letters = ''.join(pick.choice('ATG') for _ in range(60))
            wanted = set()
            for strand, text in (('+', letters), ('-', ''.join(PAIRS[letter] for letter in reversed(letters)))):
                for frame in range(3):
                    codons = [text[at:at + 3] for at in range(frame, len(text) - 2, 3)]
                    for a, codon in enumerate(codons):
                        stop = next((b for b in range(a + 1, len(codons)) if codons[b] in ('TAA', 'TAG', 'TGA')), None)
                        if codon == 'ATG' and stop is not None and stop - a <= 7:
                            start, end = frame + 3 * a, frame + 3 * stop + 3
                            place = (start, end) if strand == '+' else (len(text) - end, len(text) - start)
                            wanted.add((*place, '%s%d' % (strand, frame + 1)))
            found = {(*site.row, sequences.frame_of(site, *site.row)) for site in sequences.sites(query, b'>r\n' + letters.encode())}
            self.assertEqual(found, wanted)

    def test_the_ends_of_a_record(self):
        data = b'>a\nAC\n>b\n>c\nCA\n'
        query = rematch.Query(r'/\n!x{A}/')
        self.assertEqual([(site.record.name, site.strand, site.row) for site in sequences.sites(query, data)], [('a', '+', (0, 1))])
        query = rematch.Query(r'/\n!x{[ACGT]*}\n/')
        self.assertEqual([(site.record.name, site.row) for site in sequences.sites(query, data, both=False)], [('a', (0, 2)), ('b', (0, 0)), ('c', (0, 2))])
        with self.assertRaises(rematch.NoReach):
            list(sequences.sites(rematch.Query('/^!x{A}/'), data))

    def test_rows_over_records_are_told(self):
        told = []
        rows = list(sequences.sites(rematch.Query(r'/!x{C\nC|A}/'), b'>a\nAC\n>b\nCA\n', both=False, left_out=told.append))
        self.assertEqual(([(site.record.name, site.row) for site in rows], told), ([('a', (0, 1)), ('b', (1, 2))], [1]))

    def test_batches(self):
        data = b''.join(b'>r%d\nACGT\n' % k for k in range(9))
        query = rematch.Query('/!x{CG}/')
        whole = list(sequences.sites(query, data))
        kept, sequences._BATCH = sequences._BATCH, 10
        try:
            self.assertEqual(sorted(map(repr, sequences.sites(query, data))), sorted(map(repr, whole)))
        finally:
            sequences._BATCH = kept

    def test_no_records(self):
        for data in (b'', b'ACGT\n', b' >r\n'):
            with self.assertRaisesRegex(rematch.DocumentError, 'no record of FASTA'):
                sequences.records_of(data)
        self.assertEqual([tuple(record) for record in sequences.records_of(b'>\nac\n;note\n g\n>x y\n')], [('', b'ACG', 0), ('x', b'', 1)])


def written(write, query, data, **words):
    out = io.StringIO()
    query = rematch.Query(query)
    write(sequences.sites(query, data), query.variables, out, **words)
    return out.getvalue().splitlines()


class Records(Folder):
    """Two records of one name are two records."""

    def test_records_of_one_name(self):
        path = self.file('d', '>Homo a\nGAACC\n>Homo b\nTTCCC\n')
        words = ('-e', '/!x{GAA}/')

        def places(*more):
            return [tuple(line.split('\t')[k] for k in (0, 1, 2, 5)) for line in asked('bed', *words, *more, path)[1].splitlines()]
        both = [('Homo', '0', '3', '+'), ('Homo', '0', '3', '-')]
        self.assertEqual(places(), both)
        self.assertEqual(places('--strand-once'), both)
        self.assertIn("two records are called 'Homo'", asked('bed', *words, path)[2])
        self.assertEqual(asked('bed', *words, '--silent', path)[2], '')
        self.assertNotIn('two records', asked('bed', *words, self.file('e', '>Homo\nGAA\n>other\nGAA\n'))[2])

    def test_records_of_one_name_in_order(self):
        path = self.file('d', '>a\nCGAA\n>b\nGAA\n>a\nGAA\n')
        found = [line.split('\t')[:2] for line in asked('bed', '-e', '/!x{GAA}/', '--forward', '--sorted', path)[1].splitlines()]
        self.assertEqual(found, [['a', '1'], ['b', '0'], ['a', '0']])


class Written(Folder):
    data = b'>r 1\nGATCaaGATC\n'

    def test_bed(self):
        self.assertEqual(written(sequences.write_bed, '/!l{GATC}A*!m{GA}T/', self.data),
                         ['r\t0\t8\tl+m\t0\t+\t0\t8\t0\t2\t4,2\t0,6'])
        self.assertEqual(written(sequences.write_bed, '/!l{GAT}C/', self.data, frames=True),
                         ['r\t0\t3\tl(+1)\t0\t+\t0\t3\t0\t1\t3\t0', 'r\t6\t9\tl(+1)\t0\t+\t6\t9\t0\t1\t3\t0',
                          'r\t7\t10\tl(-1)\t0\t-\t7\t10\t0\t1\t3\t0', 'r\t1\t4\tl(-1)\t0\t-\t1\t4\t0\t1\t3\t0'])

    def test_bed_of_spans_that_overlap_or_are_empty(self):
        self.assertEqual(written(sequences.write_bed, '/!a{A!b{AG}}/', self.data),
                         ['r\t4\t7\ta.1\t0\t+\t4\t7\t0\t1\t3\t0', 'r\t5\t7\tb.1\t0\t+\t5\t7\t0\t1\t2\t0'])
        self.assertEqual(written(sequences.write_bed, '/A!a{}AG!b{A}/', self.data)[0], 'r\t5\t5\ta.1\t0\t+\t5\t5\t0\t1\t0\t0')

    def test_gff(self):
        self.assertEqual(written(sequences.write_gff, '/!l{GATC}A*!m{GA}T/', b'>r;1\nGATCaaGATC\n'),
                         ['##gff-version 3', 'r%3B1\trematch\tsequence_feature\t1\t4\t.\t+\t.\tName=l;row=1;frame=+1',
                          'r%3B1\trematch\tsequence_feature\t7\t8\t.\t+\t.\tName=m;row=1;frame=+1'])

    @needs('bedtools')
    def test_bedtools_takes_them(self):
        pick = random.Random(7)
        data, records = drawn(pick, 5)
        query = rematch.Query('/!a{A[CGT]}[ACGT]{0,3}!b{G}/')
        lines = written(sequences.write_bed, '/!a{A[CGT]}[ACGT]{0,3}!b{G}/', data)
        fasta = self.file('f.fa', ''.join('>%s\n%s\n' % record for record in records))
        bed = self.file('f.bed', '\n'.join(lines) + '\n')
        run = subprocess.run(['bedtools', 'getfasta', '-s', '-split', '-fi', fasta, '-bed', bed, '-tab'], stdout=subprocess.PIPE, stderr=subprocess.PIPE,
                             check=True, universal_newlines=True)
        found = [line.split('\t')[1] for line in run.stdout.splitlines()]
        self.assertEqual((len(found), query.variables), (len(lines), ('a', 'b')))
        for letters in found:
            self.assertRegex(letters, '^A[CGT]G$')
        gff = self.file('f.gff', '\n'.join(written(sequences.write_gff, '/!a{A[CGT]}[ACGT]{0,3}!b{G}/', data)) + '\n')
        run = subprocess.run(['bedtools', 'sort', '-i', gff], stdout=subprocess.PIPE, check=True, universal_newlines=True)
        self.assertEqual(len([line for line in run.stdout.splitlines() if not line.startswith('#')]), 2 * len(lines))


if __name__ == '__main__':
    unittest.main()
