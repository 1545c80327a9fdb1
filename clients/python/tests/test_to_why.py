"""rematch-to why, diff, and the examples of a query file."""
import csv
import io
import os
import re
import unittest

import rematch
from rematch.to.diff import rows_without
from rematch.to.examples import BadExample, examples_of, faults_of
from rematch.to.why import reasons
from support import EXAMPLES, Folder, needs_speed
from commands import asked, lines
from drawing import Maker

DRAWN = int(os.environ.get('REMATCH_PAIRS', '60'))
LOG = b'for ada from 1\nfor o.meyer from 2\nfor bj\xc3\xb6rn from 3\nfor eve to 4\n'


def steps_of(query, document):
    """The steps of a query's formulas: text, places, and of a stop its count, line and texts."""
    return [[(step.text, step.places, step.stop and tuple(step.stop)) for step in reason.steps] for reason in reasons(query.encode(), document)]


class Why(Folder):
    def test_steps(self):
        self.assertEqual(steps_of(r'/for !user{\w+} from (!n{\d})?/', LOG), [[
            ('for ', 4, None), (r'!user{\w+}', 4, None), (' from ', 1, (3, 2, 'for o', '.meyer from ')), (r'(!n{\d})?', 1, None)]])
        self.assertEqual(steps_of(r'/^!x{ab}(c|d)$/', b'abe'), [[('!x{ab}', 1, None), ('(c|d)', 0, (1, 1, 'ab', 'e'))]])
        self.assertEqual(steps_of(r'/!x{a}$/', b'ab'), [[('!x{a}', 1, None), ('$', 0, (1, 1, 'a', 'b'))]])
        self.assertEqual(steps_of(r'/éa/u', 'éb'.encode()), [[('éa', 0, (1, 1, 'é', 'b'))]])
        self.assertEqual(steps_of(r'/for z/', LOG), [[('for z', 0, (4, 1, 'for ', 'ada from 1\nf'))]])
        self.assertEqual(steps_of(r'//', b'ab'), [[('', 3, None)]])

    def test_every_formula(self):
        found = list(reasons(br'let w = /!a{for} \w/; project a (w join /!a{for}!b{ }/) union /!a{x}|!a{eve}/ minus /!a{eve}/', LOG))
        self.assertEqual([(reason.offset, reason.text, reason.is_taken_away) for reason in found],
                         [(8, r'/!a{for} \w/', False), (40, '/!a{for}!b{ }/', False), (63, '!a{x}', False), (69, '!a{eve}', False),
                          (84, '/!a{eve}/', True)])
        self.assertEqual([reason.steps[-1].places for reason in found], [4, 4, 0, 1, 1])

    def test_many_steps(self):
        formula = ''.join('[a-%s]' % chr(98 + k) for k in range(25)) + '$'
        for count in (25, 7):
            steps = steps_of('/%s/' % formula[5 * (25 - count):], b'a' * 30)[0]
            self.assertEqual((len(steps) <= 20, ''.join(text for text, _, _ in steps)), (True, formula[5 * (25 - count):]))

    def test_command(self):
        path = self.file('log', LOG)
        out, told = lines('why', '--silent', '-e', r'/for !user{\w+} from/ where upper(user)', path)
        self.assertEqual(out, ['          4  for ', r'          4  !user{\w+}',
                               r"          1   from    3 stop here, the first in line 2: 'for o'>>>'.meyer from '",
                               '          1  rows before the tests', '          0  rows'])
        out, _ = lines('why', '--silent', '-e', '/!a{eve}/i union /!b{\nx}/', path, path)
        self.assertEqual(out[:2] + out[2].split()[:2], [path, 'at 0: /!a{[Ee][Vv][Ee]}/', '1', '!a{[Ee][Vv][Ee]}'])
        self.assertIn(r'at 25: /!b{\nx}/', out)
        out, _ = lines('check', '--silent', '-e', r'/for !x{z}/', path)
        self.assertEqual(out[-4:], ['no row on ' + path, '          4  for ', '          0  !x{z}    4 stop here, the first in line 1: '
                                    r"'for '>>>'ada from 1\nf'", '          0  rows'])
        self.assertNotIn('no row', '\n'.join(lines('check', '-e', r'/for !x{a}/', path)[0]))
        status, out, told = asked('why', '-e', '/a/', os.path.join(self.folder, 'none'))
        self.assertEqual((status, out), (5, ''))
        self.assertEqual(asked('why', '-e', '/!x{a/', path)[0], 3)
        self.assertEqual(asked('why', '-e', '/a/', '--var', 'x')[0], 2)

    def test_drawn(self):
        """A step's places are those where Python's re fits all up to it; the steps together are the formula."""
        seen = 0
        for number in range(2 * DRAWN):
            maker = Maker('why/%d' % number)
            names = set(maker.pick.sample('xyz', maker.pick.randrange(3)))
            formula = maker.formula(names, 3)
            document = maker.document().replace('é'.encode(), b'a') * 2
            if 'é' in formula or '!' in re.sub(r'![xyz]\{', '', formula):
                continue
            for reason in reasons(b'/%s/' % formula.encode(), document):
                written = ''
                for step in reason.steps:
                    written += step.text
                    expression = re.compile(regular(written).encode())
                    places = sum(1 for at in range(len(document) + 1) if expression.match(document, at))
                    self.assertEqual(places, step.places, (formula, document, written))
                    seen += 1
                whole = reason.text[1:-1] if reason.text.startswith('/') else reason.text
                if reason.steps[-1].places:
                    self.assertEqual(ungrouped(written), ungrouped(whole), formula)
        self.assertGreater(seen, DRAWN)


def regular(text):
    """A beginning of a formula as Python's re has it: captures are groups, and those that are open are closed."""
    made, open_ones, at = '', [], 0
    while at < len(text):
        capture = re.compile(r'![xyz]\{').match(text, at)
        token = capture[0] if capture else re.compile(r'\\.|\[[^]]*\]|\{\d+(,\d*)?\}|.', re.S).match(text, at)[0]
        at += len(token)
        open_ones += ['}'] if capture else []
        closes = token == '}' and open_ones
        made += '(?:' if capture or token == '(' else ')' if closes else token
        open_ones = open_ones[:-1] if closes else open_ones
    return made + ')' * len(open_ones)


def ungrouped(text):
    return re.sub('[()]', '', text)


class Diff(Folder):
    def diff(self, old, new, document, *words):
        paths = self.file('old', old), self.file('new', new), self.file('d', document)
        status, out, told = asked('diff', *paths, *words)
        return status, out.replace(paths[2], 'd').splitlines(), told.replace(self.folder + os.sep, '')

    def test_rows(self):
        self.assertEqual(self.diff(r'/for !user{\w+} /', r'/for !user{[^ ]+} /', LOG, '--silent'),
                         (1, ['change,document,line,user_start,user_end,user', 'gained,d,2,19,26,o.meyer', 'gained,d,3,38,44,björn'], 'lost 0, gained 2\n'))
        self.assertEqual(self.diff(r'/for !u{\w+} /', r'let w = /for !u{\w+} /; w', LOG), (0, ['change,document,line,u_start,u_end,u'], 'lost 0, gained 0\n'))
        status, out, told = self.diff(r'/for !u{\w+} from !n{\d}/', r'/for !u{[^ ]+} /', LOG, '--silent', '-n', '1')
        self.assertEqual((status, out[1:]), (1, ['gained,d,2,19,26,o.meyer']))
        self.assertEqual(told, 'compared by u: n is in old alone\nlost 0, gained 3\n')
        self.assertEqual(self.diff('/!x{a}/ where luhn(x)', '/!x{a}/', b'a')[:2], (1, ['change,document,line,x_start,x_end,x', 'gained,d,1,0,1,a']))

    def test_refused(self):
        status, out, told = self.diff('/!a{x}/', '/!b{x}/', b'')
        self.assertEqual((status, out, told), (2, [], 'rematch-to diff: the queries have no variable in common: a is in old alone, b is in new alone\n'))
        for words, part in ((('a',), 'required: NEW'), (('a', 'b', '-o', self.folder), 'is a folder'), (('a', 'b', '--var', 'x'), 'unrecognized')):
            status, out, told = asked('diff', *words)
            self.assertEqual((status, out, part in told, 'hint: ' in told), (2, '', True, True), told)
        self.assertEqual(asked('diff', self.file('a', '/a'), self.file('b', '/b/'))[0], 3)
        self.assertEqual(asked('diff', self.file('a', '/!a{x}/'), os.path.join(self.folder, 'none'))[0], 5)
        self.assertEqual(asked('diff', self.file('a', '/!a{x}/'), self.file('b', '/!a{y}/'), os.path.join(self.folder, 'none'))[0], 5)
        self.assertEqual(asked('diff', self.file('a', '/!a{x}/'), self.file('b', '/!a{y}/'), os.path.join(self.folder, 'none'), self.file('c'))[0], 5)

    def test_drawn(self):
        """What is lost and gained are the differences of the two sets of rows."""
        compared = 0
        for number in range(DRAWN):
            maker = Maker('diff/%d' % number)
            names = set(maker.pick.sample('xyz', 1 + maker.pick.randrange(2)))
            texts = [maker.expr(names, 1), maker.expr(names, 1)]
            if maker.pick.random() < 0.5:
                texts[1] = maker.changed(texts[0])
            document = maker.document()
            try:
                rows = [set(rematch.Query(text).rows(document)) for text in texts]
            except rematch.RematchError:
                continue
            status, out, _ = self.diff(texts[0], texts[1], document, '--silent')
            self.assertEqual(status, int(rows[0] != rows[1]), texts)
            found = list(csv.DictReader(io.StringIO('\n'.join(out))))
            for change, wanted in (('lost', rows[0] - rows[1]), ('gained', rows[1] - rows[0])):
                got = [tuple(int(row[name + side] or -1) for name in sorted(names) for side in ('_start', '_end')) for row in found if row['change'] == change]
                self.assertEqual((len(got), set(got)), (len(wanted), wanted), (texts, document))
                compared += len(got)
        self.assertGreater(compared, DRAWN // 2)


class Examples(Folder):
    QUERY = r'/user !user{[^ ]+}( from !from{\d+})?\n/'

    def found(self, text):
        return list(faults_of(rematch.Query(self.QUERY), list(examples_of((text + '\n' + self.QUERY).encode()))))

    def test_those_that_hold(self):
        self.assertEqual(self.found(r'''
# user a -> a comment
#= user ada\n -> user=ada
#= "user a\" from 7\n" -> user="a\"" from=7
  #= nobody -> none
#= user ö\nuser \xff\n -> user=\xff; user=ö
#= user a\nuser b\n -> 2 rows
#= "  user a->b\n" -> 1 row
#= "user a;b\n" -> user="a;b"'''), [])

    def test_those_that_fail(self):
        self.assertEqual(self.found(r'#= user a\n -> user=b'), [(1, 'lacks user=b; has user=a')])
        self.assertEqual(self.found('\n' + r'#= user a\n -> none'), [(2, 'has user=a')])
        self.assertEqual(self.found(r'#= user a\n -> user=a; user=a'), [(1, 'lacks user=a')])
        self.assertEqual(self.found(r'#= user a;\\ from 7\n -> 3 rows'), [(1, 'has 1 rows')])
        self.assertEqual(self.found(r'#= user a;\\\n -> none'), [(1, r'has user="a;\\"')])
        self.assertEqual(self.found(r'#= user a\n -> user=a from=7'), [(1, 'lacks from=7 user=a; has user=a')])

    def test_those_that_cannot_be_read(self):
        for text, part in (('#= a b', 'no -> in the example'), ('#= a -> b', "no row: 'b'"), ('#= a ->', 'no row between two'), ('#= a -> user=b;', 'no row between'),
                           (r'#= \q -> none', r'\q is no escape'), ('#= a -> user="b', 'no row: ')):
            with self.assertRaises(BadExample) as fault:
                self.found('\n' + text)
            self.assertIn(part, str(fault.exception))
            self.assertEqual(fault.exception.line, 2)

    def test_check(self):
        path = self.file('q', '#= user a\\n -> user=a\n#= user b\\n -> user=a\n' + self.QUERY)
        status, out, told = asked('check', '-q', path)
        self.assertEqual((status, out.splitlines()[-2:]), (1, ['example in line 2: lacks user=a; has user=b', 'examples 2, of which 1 fail']))
        status, out, told = asked('check', '-q', self.file('q', '#= user a\\n -> user=a\n' + self.QUERY))
        self.assertEqual((status, out.splitlines()[-1]), (0, 'examples 1, of which 0 fail'))
        status, out, told = asked('check', '-q', self.file('q', '#= user a\\n\n' + self.QUERY))
        self.assertEqual((status, out.splitlines()[-1]), (2, 'example in line 1: no -> in the example: write #= TEXT -> ROWS'))
        self.assertNotIn('example', asked('check', '-e', self.QUERY)[1])


if __name__ == '__main__':
    unittest.main()
