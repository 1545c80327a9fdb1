"""Query texts with comments, both cases of letters and named parts: what the program reads, and faults at their places."""
import glob
import itertools
import os
import random
import re
import unittest

import rematch
from rematch.to import expand
from support import DOCS, EXAMPLES, Folder
from commands import asked
from test_convert import in_a_process


def text(query):
    return expand.expanded(query).text.decode()


class Passed(unittest.TestCase):
    def test_byte_for_byte(self):
        """A text without conveniences is what it was."""
        found = []
        for path in glob.glob(os.path.join(EXAMPLES, '*.query')):
            with open(path, 'rb') as file:
                found.append(file.read())
        with open(os.path.join(DOCS, 'LANGUAGE.md'), encoding='utf-8') as file:
            found += [query.encode() for query in re.findall(r"rematch -e '([^']*)'", file.read())]
        self.assertGreater(len(found), 60)
        for query in found + [b'/\xff/', b'let part = /a/; part', b'let part=/a/;part join /#/', b'/100%{2}/', b'/[%{ip}]/', b'project part (/!part{#}/)',
                              b'let i = /a/; i', b'/a/ union/b/', b'/[#]/u ', b'let m = /a/;m']:
            self.assertEqual(expand.expanded(query).text, query)

    def test_what_is_no_query_is_refused(self):
        """With the program's note, and at the same place."""
        for query in (b'', b'/', b'\xff/\xff/', b'/a/g', b'/a/ii ', b'/a', b'a/i/b', b'/a\\/i', b'part', b'part = /a/', rb'/\~1{ab}/'):
            notes = []
            for read in (expand.expanded, rematch.Query):
                with self.assertRaises(rematch.QueryError) as caught:
                    read(query)
                notes.append(caught.exception.note)
            self.assertEqual(notes[0], notes[1], query)

    def test_places_of_drawn_texts(self):
        """A text is passed on byte for byte, each byte at its place, or it is refused."""
        pick, passed = random.Random(4), 0
        for _ in range(4000):
            query = ''.join(pick.choice(['/', '/', 'a', '\\', '[', ']', '{2}', '[%{x}]', ' ', ' union ', 'u', '\n', '!x{', '}', 'é'])
                            for _ in range(pick.randrange(8))).encode()
            try:
                found = expand.expanded(query)
            except rematch.QueryError:
                continue
            passed += 1
            self.assertEqual((found.text, [found.origin(at) for at in range(len(query))]), (query, list(range(len(query)))))
        self.assertGreater(passed, 20)


class Written(unittest.TestCase):
    def test_comments(self):
        self.assertEqual(text('# one\n/a#/ # two /b/\nunion /b/#'), '\n/a#/ \nunion /b/')
        self.assertEqual(text('let x = /a/; # which\n# not\nx'), 'let x = /a/; \n\nx')

    def test_both_cases(self):
        for query, wanted in (('/aZ1_é/i', '/[Aa][Zz]1_é/'), ('/!name{a{2}|b?}/i', '/!name{[Aa]{2}|[Bb]?}/'),
                              ('/[a-c]/i', '/[A-Ca-c]/'), ('/[^A-Cx-]/iu', '/[^a-cXA-Cx-]/u'),
                              ('/[0-9]\\d\\w\\n/i', '/[0-9]\\d\\w\\n/'), ('/\\x41\\./ui', '/[Aa]\\./u'),
                              ('/[\\x41-\\x43]/i', '/[a-c\\x41-\\x43]/'), ('/^a$/i', '/^[Aa]$/'),
                              ('/[X-c]/i', '/[x-zA-CX-c]/'), ('/\\p{Lu}a/ui', '/\\p{Lu}[Aa]/u'), ('//i', '//'),
                              ('/[-a]/i', '/[A\\-a]/'), ('/[^-Z]/i', '/[^z\\-Z]/'), ('/[--a]/i', '/[a-zA\\--a]/'), ('/~1{[-a]b}/i', '/([A\\-a].|.[Bb])/'),
                              (r'/\u{61}[\u{61}-\u{63}]/ui', r'/[Aa][A-C\u{61}-\u{63}]/u'), (r'/[a-\u{e9}]/ui', r'/[A-Za-\u{e9}]/u')):
            self.assertEqual(text(query), wanted)

    def test_both_cases_find_what_python_finds(self):
        words = [''.join(letters) for letters in itertools.product('aAbB-', repeat=2)]
        data = (' ' + '  '.join(words) + ' ')
        for formula in ('ab', 'a[b-]', '[^b]B', 'a|b-', 'a?-', '[A-a]b'):
            found = {match['x'] for match in rematch.Query(text('/ !x{%s} /i' % formula)).finditer(data)}
            self.assertEqual(found, {word for word in re.findall(r'(?<= )(?:%s)(?= )' % formula, data, re.I)}, formula)

    def test_lines_and_words(self):
        for query, wanted in (('/^a$/m', r'(/^a$/ union /^a\n/ union /\na$/ union /\na\n/)'), ('/a$/mi', r'(/[Aa]$/ union /[Aa]\n/)'),
                              ('/^a|b/um', r'(/^a|b/u union /\n(a|b)/u)'), ('/a/m', '/a/'), (r'/\ba/', r'(/^a/ union /[^\w]a/)'),
                              (r'/!x{\w+\b}/', r'(/!x{\w+}$/ union /!x{\w+}[^\w]/)'), (r'/^\ba/', '/^a/'), (r'/a\b$/m', r'(/a$/ union /a\n/)'),
                              (r'/\ba|b/', r'(/^a/ union /[^\w]a/ union /b/)'), (r'part w = /\b\w+\b/; /!x{%{w}}/', r'(/^!x{(\w+)}$/ union /^!x{(\w+)}[^\w]/ union '
                              r'/[^\w]!x{(\w+)}$/ union /[^\w]!x{(\w+)}[^\w]/)'), (r'let w = /\b!x{a}/; w join /!x{.}/', r'let w = (/^!x{a}/ union /[^\w]!x{a}/); w join /!x{.}/')):
            self.assertEqual(text(query), wanted)
            rematch.Query(wanted)
        for query, at in ((r'/a\bb/', 2), (r'/(\ba|b)c/', 2), (r'/\b*a/', 1), (r'part w = /\ba/; /x%{w}/', 18), ('part w = /^a/; /%{w}/', 10), ('part w = /a/m; /%{w}/', 12),
                          (r'/[\b]/', 2), (r'/~1{a\bc}/', 5)):
            with self.assertRaises(rematch.QueryError) as caught:
                expand.expanded(query)
            self.assertEqual(caught.exception.offset, at, query)

    def test_a_repeat_that_looks_like_a_word(self):
        for query, at, part in (('/!x{~1{911}}/', 4, '~1{[9]11}'), ('/a~2{3}/', 2, '~2{[3]}'), ('/~1{2,3}/', None, ''), ('/~1{[9]11}/', None, ''), ('/~{3}/', None, '')):
            found = expand.expanded(query).advice
            self.assertEqual([(advice.offset, part in advice.message) for advice in found], [] if at is None else [(at, True)], query)
        self.assertIn('911 times', asked('csv', '-e', '/!x{~1{911}}/', self.file('d', b'912') if hasattr(self, 'file') else os.devnull)[2])

    def test_parts(self):
        for query, wanted in ((r'part ip = /[\d.]+/; /from !a{%{ip}} to !b{%{ip}}/', r'/from !a{([\d.]+)} to !b{([\d.]+)}/'),
                              ('part x = /a|b/;\npart y = /%{x}c/;\nlet z = /%{y}{2}/; z', 'let z = /((a|b)c){2}/; z'),
                              ('part x = /ab/; /%{x}c/i', '/([Aa][Bb])[Cc]/'), ('part x = /a/i; /%{x}c/', '/([Aa])c/'),
                              ('part x = /é/u; /%{x}/u', '/(é)/u'),
                              ('part x = /!n{a}/; /%{x}/', '/(!n{a})/'), (r'part x = /a/; /%\{x\}\%%{x}/', r'/%\{x\}\%(a)/'),
                              ('part x = /a/; /b/', '/b/'),
                              ('part x=/a/;let part = /%{x}/; part', 'let part = /(a)/; part')):
            self.assertEqual(text(query), wanted)
            rematch.Query(wanted)

    def test_refused(self):
        for query, at, part in (('part x = /a/; /%{y}/', 15, 'no part y'), ('/%{x}/ union /a/; part x = /a/;', 1, 'no part x'),
                                ('/a%{ip}/', 2, 'no part ip'), ('let ip = /a/; /%{ip}/', 15, 'ip is a let'), ('part x = /a/; part x = /b/; /a/', 19, 'rename'),
                                ('part x = /a/ /b/; /a/', 13, 'one formula'), ('part x = /a/', 12, 'one formula'),
                                ('part x = /a/ union /b/; /c/', 13, 'one formula'),
                                ('part x = /a/u; /%{x}/', 16, 'over characters'), ('part x = /a/; /[%{x}]/', 16, 'no class contains'),
                                ('/ let x = %{x}/', 10, 'no part x'), ('part x = /%{x}/; /a/', 10, 'no part x')):
            with self.assertRaises(rematch.QueryError) as caught:
                expand.expanded(query)
            self.assertEqual((caught.exception.offset, part in str(caught.exception.hint)), (at, True), query)

    def test_parts_that_double(self):
        query = 'part a0 = /x/; ' + ''.join('part a%d = /%%{a%d}%%{a%d}/; ' % (k, k - 1, k - 1)
                                            for k in range(1, 40)) + '/%{a39}/'
        with self.assertRaisesRegex(rematch.QueryError, 'longer than 65536 bytes'):
            expand.expanded(query)

    def test_letters_past_ascii_are_told(self):
        """`i` is for the letters of ASCII alone, which is said of the first other letter that has two cases."""
        for query, at, part in (('/aé/i', 2, 'é stays as it is: for both cases write [éÉ]'), ('/x!n{straße}/iu', 9, '(ß|SS)'),
                                (r'/\u{e9}/iu', 1, '[éÉ]'), ('/a[b-dä]/iu', 6, 'add the other case to the class'), (r'/\p{Lu}/iu', 1, r'[\p{Lu}\p{Ll}\p{Lt}]'),
                                ('part e = /é/; # é\n/%{e}a/i', 10, '[éÉ]')):
            found = expand.expanded(query).advice
            self.assertEqual([(advice.offset, part in advice.message) for advice in found], [(len(query[:at].encode()), True)], query)
        for query in ('/é/', '/a/i', '/中/iu', '/[éÉ]/iu', r'/\p{L}\p{Nd}\d/iu', '/é/ union /a/i'):
            self.assertEqual(expand.expanded(query).advice, [], query)

    def test_parts_in_one_another(self):
        """A long chain is no fault of Python."""
        for use in ('%%{a%d}', '~1{%%{a%d}b}'):
            query = 'part a0 = /x/; ' + ''.join('part a%d = /%%{a%d}/; ' % (k, k - 1) for k in range(1, 2500)) + '/' + use % 2499 + '/'
            with self.assertRaisesRegex(rematch.QueryError, 'too deep'):
                expand.expanded(query)


class Places(Folder):
    def fault(self, query):
        return asked('csv', '-e', query)[2].split('\n')

    def test_faults_are_where_they_were_written(self):
        for query, caret in (('# what\n/abc/i join\n/a**/', '   ^'), ('/abc*?/i', '     ^'),
                             ('part p = /a**/;\n/b%{p}/', '            ^'), ('/ab/i join', '          ^')):
            told = self.fault(query)
            at = next(k for k, line in enumerate(told) if set(line) <= set(' ^') and '^' in line)
            self.assertEqual(told[at], '  ' + caret, query)
            self.assertTrue(told[at - 1][2:] in query, query)

    def test_advice_is_told_with_every_form(self):
        path = self.file('d', 'É'.encode())
        for form in ('csv', 'count', 'lines', 'kwic'):
            self.assertIn('advice at 4: i is for the letters of ASCII', asked(form, '-e', '/!x{é}/i', path)[2])
            self.assertEqual(asked(form, '-e', '/!x{é}/i', '--silent', path)[2], '')
        self.assertIn('advice at 4: i is for', asked('check', '-e', '/!x{é}/i')[1])

    def test_check_shows_what_the_program_reads(self):
        for query, wanted in (('/a/i # x', '/[Aa]/ \n'), ('/!x{a}/\n', '/!x{a}/\n'), ('part p = /b/; /%{p}/', '/(b)/\n')):
            self.assertEqual(asked('check', '--expanded', '-e', query), (0, wanted, ''))
        self.assertEqual(asked('check', '--expanded', '-q', self.file('q', b'/!x{\xc3\xa9}/'))[1], '/!x{é}/\n')
        self.assertEqual(asked('check', '--expanded', '-e', 'part p = /b/; /%{q}/')[0], 3)
        self.assertEqual(asked('csv', '--expanded', '-e', '/a/')[0], 2)
        self.assertTrue(asked('check', '-e', '/!x{a}b/i # both')[1].startswith('query /!x{[Aa]}[Bb]/ \n'.rstrip() ))

    def test_pieces_take_them(self):
        document, query = self.file('d', b'Error\nok\nERROR\n'), self.file('q', b'part e = /error/i; # both\n/!x{%{e}}/')
        self.assertEqual(in_a_process(query, document, '0', '15', name='rematch-piece')[:2], (0, 'x=0-5\nx=9-14\n'))
        status, _, told = in_a_process(self.file('q', b'part e = /a**/;\n/%{e}/'), document, '0', '15', name='rematch-piece')
        self.assertEqual((status, told.split('\n')[2]), (3, '  part e = /a**/;'))


if __name__ == '__main__':
    unittest.main()
