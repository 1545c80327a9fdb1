"""Queries that cost much for their length, always the same ones: those that were found, and drawn ones of the same shapes.

Each is within all limits of a text, and has a document of 2,000 bytes on which it does its worst. Whether it has rows or is
refused for its size is not known here: `hostile` asks that it ends within a bound. The drawn ones are named by their shape and
a number. Each has a seed of its own, so that no other changes where one is added.
"""
import json
import random
from typing import NamedTuple

LENGTH = 2000  # of a document
DRAWN = 15  # of each shape
SESSIONS = 8  # of 64


class Dear(NamedTuple):
    name: str
    query: bytes  # with --serve: all requests
    document: bytes
    words: list  # besides those that name the query and the document
    is_worst: bool  # it is among those that --fast leaves in


def drawn_bytes(letters, length=LENGTH):
    return ''.join(random.Random(1).choices(letters, k=length)).encode()


def left_out(prefix, count, piece=''):
    """So many captures beside each other, each of which may be left out."""
    return ''.join('(!%s%d{%s})?' % (prefix, k, piece) for k in range(count))


def free(prefix, count, piece='.*'):
    return ''.join('!%s%d{%s}' % (prefix, k, piece) for k in range(count))


# --- Those that were found -------------------------------------------------------------------------

FOUND = []


def dear(name, query, document=None, words=('-n', '1'), is_worst=True):
    FOUND.append(Dear(name, query.encode(), drawn_bytes('ab') if document is None else document, list(words), is_worst))


def of_one_atom():
    high = '|'.join(r'\x%02x' % byte for byte in range(0x80, 0x80 + 60))
    dear('sets whose ways are scanned', '/%s(%s)|(a|b)*a(a|b){14}z/' % (left_out('v', 15), high))
    dear('thirty-two free captures', '/%s/' % free('v', 32))
    dear('two million ways', '/^(a?){1000}(a?){990}$/', b'a' * LENGTH)
    for name, text in (('captures before one arm', '%s|a'), ('captures behind one arm', 'a|%s')):
        dear(name, '/%s/' % text % left_out('v', 16))
    dear('the same sixteen captures in two arms', '/%s|%s/' % (2 * (left_out('v', 16),)))
    dear('letters of any script, 13,106 times', '/%s/u' % (r'\p{L}' * 13106))
    dear('all but letters, 8,191 times', '/%s/u' % (r'[^\p{L}]' * 8191))


def of_joins():
    for arms in (2, 8, 60):
        sides = ['/^(%s)$/' % '|'.join(arms * ['a%s%s' % (left_out(prefix, 15), end)]) for prefix, end in ('vb', 'wc')]
        dear('a join of %d arms and as many' % arms, ' join '.join(sides))
    dear('a join of the ends of 28 captures', '/^a%s$/ join /^a%s$/' % (left_out('v', 14), left_out('w', 14)))


def of_differences():
    for count in (11, 15):
        names = left_out('v', count)
        dear('a difference of %d captures and many ways' % count,
             '/^a%sb$/ minus (/^([a-z]?){1000}([a-z]?){950}$/ union /^0%s$/)' % (names, names))
    names = left_out('v', 9)
    dear('a difference of thirty arms and many ways', '/^(%s)$/ minus (/^([a-z]?){1000}([a-z]?){950}$/ union /^0%s$/)'
         % ('|'.join('a' * k + names + 'b' for k in range(30)), names))
    for count, far in ((13, 7), (14, 9), (15, 10)):
        names = left_out('v', count)
        dear('ends of a difference with %d captures' % count, '/^[ab]*a[ab]{%d}%s$/ minus /^[ab]*b[ab]{6}(c%s)?$/' % (far, names, names))
    dear('sixteen captures less the same', '/%s/ minus /%s/' % (2 * (left_out('v', 16),)))
    dear('a difference that keeps many sets', '/!x{[ab]*}/ minus /!x{[ab]*a[ab]{14}|([ab]?){1000}([ab]?){400}}/')
    dear('a difference that keeps fewer sets', '/!x{[ab]*}/ minus /!x{[ab]*a[ab]{14}|([ab]?){600}([ab]?){600}}/')
    dear('spans that are no thousand letters', r'/!x{(.|\n)*}/ minus /!x{([ab]?){1000}}/')
    dear('spans longer than a thousand', r'/!x{(.|\n)*}/ minus /!x{(.|\n){0,1000}}/')


def letters_behind(letters, ends):
    """Arms of `.*` for each letter, so that a set has which of them came last and before the last."""
    return '|'.join(letter + ends for letter in letters)


def of_lists_of_differences():
    """Right sides whose sets go to sets that are known already, by many letters, and are large all the same."""
    printable = '0123456789ABCDEFGHIJKLMNOPQRSTUVWXYabcdefghijklmnopqrstuvwxy"#%&\',:;<=>@_`~'
    dear('a difference with sets of 1,000 and 75 letters',
         '/^z{1000}[%s]*$/ minus /^(.*.{1000}|.*(%s))$/' % (printable, letters_behind(printable, '.')))
    high = [r'\x%02x' % byte for byte in range(0x80, 0x80 + 120)]
    dear('a difference with sets of 800 and 120 letters',
         '/^z{800}[%s]*$/ minus /^(.*.{800}|.*(%s))$/' % (''.join(high), letters_behind(high, '.')))


def of_searches_of_differences():
    """Right sides of which much is looked up: ways of large sets, and ends with the markers of many ends of the left side."""
    names = left_out('v', 7)
    dear('a difference that tries 1,000 ends at 4,096 sets',
         '/^c{1000}[ab]*%s$/ minus /^(.*.{1000}z|.*a.{12}z|y(a?){1000}%s)$/' % (names, names))
    dear('a difference with sets of 16,120', '/^[^ab]/ minus /^((.|\\n){403,}){20}/')
    dear('a difference with sets of 10,000', '/^a/ minus /^(.{500,}){20}/')
    dear('a difference with sets of 8,000', '/^a/ minus /^(.{400,}){20}/')


def of_lets_and_tests():
    for count in (40, 250):
        names = '/%s|%s/' % (left_out('v', 13), left_out('w', 13))
        dear('%d lets of 26 captures' % count, ''.join('let l%d = project none(%s);' % (k, names) for k in range(count)) + ' /a/')
    dear('one test 7,000 times', r'/^!x{\d*}$/ where ' + ','.join(7000 * ['luhn(x)']), b'18' * (LENGTH // 2))
    dear('a test that never passes', '/!x{a*}/ where upper(x)', b'a' * LENGTH)


def of_sessions():
    """An eighth of the sessions that may be open, which are to hold an eighth of 8 GB."""
    lines = [{'op': 'open', 'id': k, 'query': '/^(a?){1000}(a?){990}$/', 'doc': 'aa'} for k in range(SESSIONS)]
    dear('eight sessions of two million ways', '\n'.join(map(json.dumps, lines)), b'', ['--serve'])


def of_long_documents():
    """What no engine of this kind can do faster, as docs/LIMITS.md says."""
    dear('spans longer than a thousand, 400,000 bytes', r'/!x{(.|\n)*}/ minus /!x{(.|\n){0,1000}}/',
         drawn_bytes('ab \n', 400000), is_worst=False)
    dear('a test that never passes, 60,000 bytes', '/!x{a*}/ where upper(x)', b'a' * 60000, is_worst=False)


for family in (of_one_atom, of_joins, of_differences, of_lists_of_differences, of_searches_of_differences, of_lets_and_tests, of_sessions,
               of_long_documents):
    family()


# --- Drawn ones ------------------------------------------------------------------------------------

class Drawer:
    """Draws one query of a shape, from its own seed."""

    def __init__(self, seed):
        self.pick = random.Random(seed)
        self.letters = 'ab'
        self.words = ['-n', '1']

    def about(self, least, most):
        """A number whose digits are drawn before its size, so that small ones are as likely as great ones."""
        return min(most, int(least * (most / least) ** self.pick.random() * 1.01))

    def run(self):
        """A formula without captures over a and b that has many states or ways, or is read by many sets."""
        far, many = self.about(3, 16), self.about(20, 1000)
        return self.pick.choice([
            '[ab]*a[ab]{%d}' % far, '(a|b)*b(a|b){%d}' % far, '([ab]?){%d}' % many, '(a?){%d}(b?){%d}' % (many, many), '[ab]{0,%d}' % many,
            '(a|ab|b){%d}' % many, '(a{0,%d}b?){%d}' % (far, self.about(2, 60)), '((a|b){%d}){%d}' % (far, self.about(2, 60)), '[ab]*',
            r'(.|\n)*', r'(.|\n){0,%d}' % many, '(a*b?){%d}' % many, '([ab]?){%d}([ab]?){%d}' % (many, self.about(20, 900)),
            '([ab]*a[ab]{%d}|([ab]?){%d})' % (far, many)])

    def names(self, prefix, most=32):
        """Captures beside each other, free ones and ones that may be left out."""
        count = self.about(4, most)
        return self.pick.choice([
            left_out(prefix, min(count, 16)), left_out(prefix, min(count, 16)), left_out(prefix, count, '[ab]'), free(prefix, count, '[ab]*'),
            free(prefix, count), left_out(prefix, count, 'a*') if count < 14 else free(prefix, count, 'a?')])

    def atom(self, prefix, most=32):
        """An atom with captures before, behind, between or beside what is read by many sets."""
        names = self.names(prefix, most)
        inner = self.pick.choice(['%s%s' % (names, self.run()), '%s%s' % (self.run(), names), '%s|%s' % (names, self.run()),
                                  '(%s|%s)%s' % (self.run(), self.run(), names), 'a%sb' % names, '(%s)?%s' % (names, self.run()),
                                  '|'.join(self.about(2, 12) * [names])])
        return ('/^%s$/' if self.pick.random() < 0.4 else '/%s/') % inner

    def arms(self, prefix, count):
        """An atom whose arms have the same captures and differ in what comes before them."""
        names = left_out(prefix, count)
        return '/^(%s)$/' % '|'.join(self.pick.choice('ab') * k + names + self.run() for k in range(self.about(1, 20)))

    # Each shape is a function of this name.

    def minus(self):
        count = self.about(4, 15)
        names = left_out('v', count)
        sides = [self.pick.choice(['/^%s%s$/' % (self.run(), names), '/^(%s|%s)$/' % (self.run(), names), '/^%s(c%s)?$/' % (self.run(), names),
                                   self.arms('v', count), '/%s/' % names]) for _ in range(2)]
        return ' minus '.join(sides)

    def minus_of_spans(self):
        sides = ['/%s!x{%s}%s/' % (self.pick.choice(['', 'a', '[ab]*']), self.run(), self.pick.choice(['', 'b', ''])) for _ in range(self.about(2, 4))]
        return ' minus '.join(sides)

    def join(self):
        return self.pick.choice(['%s join %s', '%s join (%s union /a/)', 'project none (%s join %s)']) % (self.atom('v', 16), self.atom('w', 16))

    def join_of_spans(self):
        names = ['xy', 'yz', 'zx', 'xw'][:self.about(2, 4)]
        return ' join '.join('/%s!%s{%s}%s!%s{%s}/' % (self.run(), one, self.run(), self.pick.choice(['', 'a*', '.*']), two, self.run())
                             for one, two in names)

    def union(self):
        parts = ['project none (%s)' % self.atom('v') if self.pick.random() < 0.4 else self.atom('v') for _ in range(self.about(2, 60))]
        return ' union '.join(parts)

    def project(self):
        names = ', '.join('v%d' % k for k in range(self.about(1, 4)))
        lets = ''.join('let l%d = project %s (%s); ' % (k, self.pick.choice([names, 'none']), self.atom('v')) for k in range(self.about(1, 40)))
        return lets + self.pick.choice(['l0', 'project none (l0)', 'l0 union l0', 'l0 minus l0'])

    def optional(self):
        return self.pick.choice([self.atom('v'), self.arms('v', self.about(4, 16)), '/%s%s%s/' % (self.names('v', 8), self.run(), self.names('w', 8))])

    def tests(self):
        self.letters = self.pick.choice(['ab', 'aB', '18', 'A'])
        kinds = ['[%s]*' % self.letters, '[%s]+' % self.letters, r'\w{0,%d}' % self.about(5, 1000), self.run()]
        names = ['v%d' % k for k in range(self.about(1, 4))]
        asked = ['%s(%s)' % (self.pick.choice(['luhn', 'upper']), self.pick.choice(names)) for _ in range(self.about(1, 3000))]
        return '/%s%s%s/ where %s' % (self.pick.choice(['', '^']), ''.join('!%s{%s}' % (name, self.pick.choice(kinds)) for name in names),
                                      self.pick.choice(['', '$']), ', '.join(asked))

    def filter(self):
        self.words = ['--filter', '-n', '1']
        return self.pick.choice([self.union, self.optional, self.join, self.captures, self.counted])()

    def counted(self):
        inner = self.pick.choice([self.run(), '(%s|%s)' % (self.run(), self.run()), '(%s){0,%d}' % (self.run(), self.about(2, 30))])
        return '/%s%s%s/' % (self.pick.choice(['', '^']), inner, self.pick.choice(['', '$', 'z', '!x{c}']))

    def unicode(self):
        self.letters = self.pick.choice(['aéя', 'αβ ', '語文a'])
        sets = [r'\p{L}', r'[^\p{L}]', r'\p{Lu}', r'[\p{L}\p{M}]', r'\p{Alphabetic}', '[а-я]', '.', r'[^\p{Ll}é]']
        unit = self.pick.choice(sets)
        name = left_out('v', self.about(4, 14), unit)
        return self.pick.choice([
            '/%s/u' % (unit * self.about(10, 65000 // len(unit.encode()))), '/(%s){%d}!x{%s}/u' % (unit, self.about(2, 300), unit),
            '/%s%s/u' % (unit, name), '/!x{%s*}/u minus /!x{%s*%s{0,%d}}/u' % (unit, unit, self.pick.choice(sets), self.about(1, 30)),
            '/(%s?){%d}%s/u' % (unit, self.about(2, 100), left_out('v', self.about(4, 15))),
            ' join '.join('/!x{%s+}/u' % one for one in sets[:self.about(2, 8)])])

    def captures(self):
        count = self.about(4, 32)
        return '/%s%s%s/' % (self.pick.choice(['', '^']), free('v', count, self.pick.choice(['.*', 'a*', '[ab]*', '[ab]?', r'(.|\n)*'])),
                             self.pick.choice(['', '$', 'z', 'ab']))


SHAPES = ['minus', 'minus_of_spans', 'join', 'join_of_spans', 'union', 'project', 'optional', 'tests', 'filter', 'counted', 'unicode', 'captures']
LONGEST = 65536

# The drawn ones that took most of what the bound allows when they were drawn; `hostile --fast` runs these too.
WORST = frozenset([
    'union 2', 'union 4', 'union 7', 'union 9', 'union 12', 'join 1', 'join 3', 'join 8', 'join 13', 'join of spans 4', 'join of spans 9',
    'filter 1', 'filter 6', 'filter 14', 'minus of spans 6', 'minus of spans 11', 'minus of spans 14', 'project 7', 'unicode 9', 'tests 0',
    'captures 0', 'optional 0', 'counted 0', 'minus 1', 'union 5', 'filter 8', 'tests 7', 'minus 6', 'counted 8'])


def drawn(shape, number):
    name = '%s %d' % (shape.replace('_', ' '), number)
    drawer = Drawer(name)
    query = getattr(drawer, shape)()
    while len(query.encode()) > LONGEST:
        query = getattr(drawer, shape)()
    return Dear(name, query.encode(), drawn_bytes(drawer.letters)[:LENGTH], drawer.words, name in WORST)


ALL = FOUND + [drawn(shape, number) for shape in SHAPES for number in range(DRAWN)]
