"""FASTQ, records that are circles, and patterns of PROSITE."""
import random
import re
import unittest

import rematch
from rematch.to import fastq, prosite, sequences
from support import Folder
from commands import asked, lines
from test_sequences import PAIRS


class Fastq(Folder):
    DATA = b'@q1 x\nGATCgatc\n+\n>@@IIIII\n@q2\r\nGA\r\n+q2\r\nII\r\n\n'

    def test_places(self):
        path = self.file('r.fq', self.DATA)
        found = [line.split('\t')[:4] for line in lines('bed', '--forward', '-e', '/!x{GA}/', path)[0]]
        self.assertEqual(found, [['q1', '0', '2', 'x'], ['q1', '4', '6', 'x'], ['q2', '0', '2', 'x']])
        self.assertEqual(lines('fasta', '-e', '/!x{ATC}/', '--forward', path)[0], ['>q1:1-4(+) x', 'ATC', '>q1:5-8(+) x', 'ATC'])
        self.assertIn("two records are called 'q'", asked('bed', '-e', '/!x{GA}/', stdin=2 * b'@q\nGA\n+\nII\n')[2])
        self.assertIn('its records have U and no T', asked('bed', '-e', '/!x{TA}/', stdin=b'@q\nGU\n+\nTT\n')[2])

    def test_refused(self):
        for data, part in ((b'@a\nAC\n+\nI\n', 'record 1 of FASTQ: it has 2 letters and 1 marks of quality'), (b'@a\nA\n+\nI\nb\nA\n+\nI\n', 'record 2 of FASTQ: it does not begin with @'),
                           (b'@a\nA\n+\nI\n@b\nA\nI\n', 'record 2 of FASTQ: its third line does not begin with +'), (b'@a\nA\n', 'no record of FASTA')):
            status, out, told = asked('bed', '-e', '/!x{A}/', '--forward', '-', stdin=data)
            self.assertEqual((status, out, part in told), (5, '', True), told)
        self.assertFalse(fastq.are_reads(b''))


class Circles(Folder):
    def test_against_brute_force(self):
        """Each place of a circle, on both strands, by Python's re on the letters from there on."""
        pick = random.Random(8)
        query = rematch.Query('/!a{AC}[ACGT]{0,3}!b{G[GT]?}/')
        expressions = [re.compile('(AC)[ACGT]{%d}(G%s)' % (gap, more)) for gap in range(4) for more in ('', '[GT]')]
        records = [('r%d' % k, ''.join(pick.choice('ACGT') for _ in range(pick.randrange(0, 14)))) for k in range(60)]
        wanted = set()
        for name, letters in records:
            turned = ''.join(PAIRS[letter] for letter in reversed(letters))
            for strand, text in (('+', letters), ('-', turned)):
                for at in range(len(text)):
                    for expression in expressions:
                        found = expression.match((text[at:] + text[:at]))
                        if found:
                            spans = [(found.start(k) + at, found.end(k) + at) for k in (1, 2)]
                            size = len(text)
                            spans = [(start % size, end - start) if strand == '+' else ((size - end) % size, end - start) for start, end in spans]
                            wanted.add((name, strand, *[place for start, more in spans for place in (start, start + more)]))
        data = ''.join('>%s\n%s\n' % record for record in records).encode()
        found = [(site.record.name, site.strand, *site.row) for site in sequences.sites(query, data, is_circular=True)]
        self.assertEqual(sorted(found), sorted(wanted))
        self.assertGreater(len([row for row in found if max(row[2:]) > len(dict(records)[row[0]])]), 5)
        kept, sequences._WINDOW = sequences._WINDOW, 8
        try:
            self.assertEqual(sorted((site.record.name, site.strand, *site.row) for name, letters in records[:12] if letters
                                    for site in sequences.sites(query, ('>%s\n%s\n' % (name, letters)).encode(), is_circular=True)),
                             sorted(row for row in wanted if row[0] in dict(records[:12])))
        finally:
            sequences._WINDOW = kept

    def test_written(self):
        path = self.file('r.fa', '>r\nTCccgtagGA\n')
        self.assertEqual(lines('bed', '--circular', '--strand-once', '-e', '/!x{GATC}/', path)[0], ['r\t0\t10\tx\t0\t+\t0\t10\t0\t2\t2,2\t0,8'])
        self.assertEqual(lines('gff', '--circular', '--forward', '-e', '/!x{GATC}/', path)[0][1:],
                         ['r\trematch\tsequence_feature\t9\t12\t.\t+\t.\tName=x;row=1;frame=+3'])
        self.assertEqual(lines('fasta', '--circular', '-e', '/!x{GATC}/', path)[0], ['>r:8-12(+) x', 'GATC', '>r:8-12(-) x', 'GATC'])
        self.assertEqual(lines('bed', '-e', '/!x{GATC}/', path)[0], [])
        motifs = self.file('m', 'a;b\tGATC\nc\t/!l{C}!r{G}/\n')
        self.assertEqual([line.split('\t')[8] for line in lines('gff', '--circular', '--forward', '--pattern-file', motifs, path)[0][1:]],
                         ['Name=c.l;row=1;frame=+1', 'Name=c.r;row=1;frame=+2', 'Name=a%3Bb;row=2;frame=+3'])

    def test_refused(self):
        status, out, told = asked('bed', '--circular', '-e', '/!x{A+}/', stdin=b'>r\nA\n')
        self.assertEqual((status, out), (4, ''))
        self.assertIn('a repeat has no end, and --circular needs the length of a fit\nhint: give each repeat an end', told)
        self.assertIn('--circular is of bed', asked('csv', '--circular', '-e', '/!x{A}/')[2])


class Prosite(Folder):
    def test_against_expressions(self):
        """Drawn patterns beside the same as expressions of Python's re, at each place and of each length."""
        pick, compared = random.Random(9), 0
        for _ in range(10):
            elements = [(pick.choice([('x', '.'), ('A', 'A'), ('[CD]', '[CD]'), ('{A}', '[^A]')]), pick.choice(['', '(2)', '(0,2)'])) for _ in range(pick.randrange(1, 4))]
            start, end = pick.choice(['', '', '<']), pick.choice(['', '', '>'])
            written = start + '-'.join(one[0] + times for one, times in elements) + end + pick.choice(['', '.'])
            expression = re.compile(''.join(one[1] + times.replace('(', '{').replace(')', '}') for one, times in elements))
            protein = ''.join(pick.choice('ACD') for _ in range(9))
            places = {(a, b) for a in range(10) for b in range(a, 10) if expression.fullmatch(protein[a:b]) and (not start or a == 0) and (not end or b == 9)}
            found = {site.row for site in sequences.sites(rematch.Query(prosite.query_of_prosite(written)), b'>p\n' + protein.encode(), both=False)}
            self.assertEqual(found, places, (written, protein))
            compared += len(found)
        self.assertGreater(compared, 20)

    def test_commands(self):
        path = self.file('p.fa', '>p\nMNASNPSTNGF\n')
        self.assertEqual([line.split('\t')[:4] for line in lines('bed', '--prosite', '-e', 'N-{P}-[ST]-{P}.', path)[0]], [['p', '1', '5', 'site']])
        self.assertEqual([line.split('\t')[:4] for line in lines('bed', '--prosite', '-e', 'N-[G>]', path)[0]], [['p', '8', '10', 'site']])
        self.assertEqual(lines('check', '--expanded', '--prosite', '-e', 'F-[GS>].')[0], [r'/!site{F[GS]}|!site{F}\n/'])
        motifs = self.file('m', 'PS00001\tN-{P}-[ST]-{P}.\nend\tG-F>\n')
        self.assertEqual([line.split('\t')[:4] for line in lines('bed', '--prosite', '--pattern-file', motifs, path)[0]],
                         [['p', '1', '5', 'PS00001'], ['p', '9', '11', 'end']])

    def test_refused(self):
        for text, part in (('N-{P}-[st]', 'unexpected at 6'), ('', 'unexpected at 0'), ('A--B', 'unexpected at 2'), ('A(3', 'unexpected at 0'), ('[>]', 'unexpected at 0'),
                           ('[A>]-C', 'a > that is not at the end at 0'), ('x(4,2)', 'a repeat whose least is above its most at 0'),
                           ('{ABCDEFGHIJKLMNOPQRSTUVWXYZ}', 'a class without a letter at 0')):
            with self.assertRaises(rematch.QueryError) as fault:
                prosite.query_of_prosite(text)
            self.assertIn(part, str(fault.exception))
            self.assertIn('a pattern of PROSITE is', fault.exception.hint)
        self.assertIn('hint: a pattern of PROSITE is given with --prosite', asked('bed', '-e', 'N-{P}-[ST]', stdin=b'>p\nN\n')[2])
        self.assertEqual(asked('bed', '--prosite', '-e', 'N-(', stdin=b'>p\nN\n')[0], 3)
        self.assertIn('p: line 1: query: unexpected at 0', asked('bed', '--prosite', '--pattern-file', self.file('p', 'a\t/N/'), stdin=b'>p\nN\n')[2])
        self.assertIn('--prosite is of proteins', asked('bed', '--prosite', '--iupac', '-e', 'N', stdin=b'>p\nN\n')[2])


if __name__ == '__main__':
    unittest.main()
