"""Draws random small queries, documents and words, for `fuzz` and for the group `drawn` of `run`.

Most queries are sound: they are made from variables downwards, so that each formula is sequential; in one query
of two each variable is sure, in the others captures are left out and arms and parts of unions have different
variables. Parts of a join then mostly share only what is sure. Both sides of a difference have the same variables, and
in one of two the right side is the left one with a byte changed. In one of five the rows are tested, and formulas and
documents have digits and capital letters. Now and then there are seventeen to thirty-two variables.
The others are such texts with some bytes or names changed, and mostly refused. `fuzz` also takes queries
whose sizes are near their limits, and texts that are nearly cursors.
"""
import random

LEAVES = ['a', 'b', 'ab', '.', '[ab]', '[^a]', '', r'\w', r'\x62', 'é', '!', '[a-c]', r'\n', '()']
# Of a formula over characters. These properties have had the same characters for many versions of Unicode, so that
# the reference, by Python's tables, prints and counts them as the program does.
WIDE_LEAVES = [r'\u{e9}', '[à-ü]', '[^é]', '[aé]', r'[\p{Zs}a]', r'\p{Zl}', 'é', '.', '.']
# Of a query with tests, by the test that is asked most: what formulas have besides, and of what documents are made.
TESTED_LEAVES = {'luhn': [r'\d', '[0-9]', r'\d\d', '0', '18', '.'], 'upper': ['[A-Z]', 'A', 'B', 'AB', r'\w', '.']}
TESTED_BYTES = {'luhn': [b'0', b'0', b'18', b'59', b'42', b'1', b'a', b'\n'],
                'upper': [b'A', b'A', b'B', b'AB', b'a', b'0', 'É'.encode()]}
REPEATS = ['*', '+', '?', '{2}', '{1,2}', '{2,}', '{0}', '{0,2}']
CURSOR_SIGNS = list('c12:;-09xyz _') + ['', '', ';x:-', ':-', '00', '4294967295', '4294967296', 'c1', 'c2:', '-;']
MAYBE = ['?', '?', '{0,1}']
MANY = ['%s%d' % (letter, k) for letter in 'pqr' for k in range(10)] + ['x', 'y']
SIGNS = list('/()[]{}|*+?.\\^$!-,;=abx_19 \n') + ['!x{', '{1,', 'union', 'join', 'let ', 'none', 'minus', ' minus ', 'é', '/u',
                                                   r'\u{', ' where ', 'upper', '(x)', ', luhn(x)']
BYTES = [b'a', b'a', b'b', b'c', b'\n', 'é'.encode(), b'!']


class Maker:
    def __init__(self, seed):
        self.pick = random.Random(seed)
        self.names = []  # the result's variables, if the query is not changed
        self.test = self.pick.choice(['luhn', 'upper']) if self.pick.random() < 0.2 else None
        self.leaves = LEAVES
        self.is_optional = self.pick.random() < 0.5
        self.sure = frozenset()  # the variables that must be sure in what is made now

    def split(self, names):
        """Two disjoint sets that make the whole."""
        left = {name for name in sorted(names) if self.pick.random() < 0.5}
        return left, names - left

    def some(self, names):
        """Each of the names with a chance; and all that must be sure."""
        return {name for name in sorted(names) if name in self.sure or self.pick.random() < 0.6}

    def arms(self, names):
        """The variables of two arms, or of two parts of a union: together they have all."""
        if not self.is_optional or self.pick.random() < 0.3:
            return names, names
        left = self.some(names)
        return left, (names - left) | self.some(names)

    def formula(self, names, depth):
        """A sequential formula with just these variables."""
        pick = self.pick
        if self.is_optional and names and not names & self.sure and pick.random() < 0.25:
            return '(%s)%s' % (self.formula(names, max(0, depth - 1)), pick.choice(MAYBE))
        if not names and (depth == 0 or pick.random() < 0.5):
            leaf = pick.choice(self.leaves)
            plain = len(leaf) == 1 or leaf[:1] in ('[', '\\', '(')
            return leaf + (pick.choice(REPEATS) if plain and pick.random() < 0.4 else '')
        kind = pick.random()
        if names and (depth == 0 or kind < 0.4):
            name = pick.choice(sorted(names))
            return '!%s{%s}' % (name, self.formula(names - {name}, max(0, depth - 1)))
        if kind < 0.75:
            left, right = self.split(names)
            return self.formula(left, depth - 1) + self.formula(right, depth - 1)
        if kind < 0.9 or names:
            left, right = self.arms(names)
            return '(%s|%s)' % (self.formula(left, depth - 1), self.formula(right, depth - 1))
        return '(%s)%s' % (self.formula(names, depth - 1), pick.choice(REPEATS))

    def atom(self, names):
        start, end = ('^' if self.pick.random() < 0.15 else '', '$' if self.pick.random() < 0.15 else '')
        sign = 'u' if self.pick.random() < 0.2 else ''
        self.leaves = LEAVES + WIDE_LEAVES * (sign != '') + 8 * TESTED_LEAVES.get(self.test, [])
        return '/%s%s%s/%s' % (start, self.formula(names, self.pick.randrange(4)), end, sign)

    def expr(self, names, depth):
        """An expression with just these variables."""
        pick = self.pick
        kind = pick.random() if depth else 0
        if kind < 0.5:
            return self.atom(names)
        if kind < 0.6:
            left, right = self.arms(names)
            return '(%s union %s)' % (self.expr(left, depth - 1), self.expr(right, depth - 1))
        if kind < 0.75:
            return self.difference(names, depth - 1)
        if kind < 0.9:
            left = {name for name in sorted(names) if pick.random() < 0.6}
            right = (names - left) | {name for name in sorted(names) if pick.random() < 0.3}
            return '%s join %s' % self.sharing(left, right, depth - 1)
        more = names | set(pick.sample('xyz', pick.randrange(2)))
        return 'project %s (%s)' % (','.join(sorted(names)) or 'none', self.expr(more, depth - 1))

    def sharing(self, left, right, depth):
        """Two expressions of which, nine times of ten, each shared variable is sure in both."""
        kept = self.sure
        if self.pick.random() < 0.9:
            self.sure = kept | left & right
        parts = self.expr(left, depth), self.expr(right, depth)
        self.sure = kept
        return parts

    def difference(self, names, depth):
        left = self.expr(names, depth)
        right = self.changed(left) if self.pick.random() < 0.5 else self.expr(names, depth)
        return self.pick.choice(['(%s minus %s)', '(%s minus (%s))', '((%s) minus %s)']) % (left, right)

    def changed(self, text):
        """The text with one of its bytes `a`, `b` and `.` changed for another, which changes no variable."""
        places = [at for at, sign in enumerate(text) if sign in 'ab.']
        if not places:
            return text
        at = self.pick.choice(places)
        return text[:at] + self.pick.choice('ab.') + text[at + 1:]

    def query(self):
        count = self.pick.randrange(4)
        if self.pick.random() < 0.04:
            return self.many()
        names = set(self.pick.sample(['x', 'y', 'z'], count))
        self.names = sorted(names)
        if self.pick.random() < 0.2:
            text = 'let w = %s; w join %s' % self.sharing(names, names, 1)
        elif self.pick.random() < 0.15:
            text = self.pick.choice(['let w = %s; w minus %s', 'let w = %s; %s minus w', 'let w = %s; w union %s minus w',
                                     'let minus = %s; minus minus minus union %s']) % (self.expr(names, 1), self.expr(names, 1))
        else:
            text = self.expr(names, self.pick.randrange(3))
        if self.test and names:
            text += self.tests()
        if self.pick.random() < 0.1:
            text = text.replace('!x', '!y', 1).replace('project x', 'project z')
        if self.pick.random() < 0.3:
            for _ in range(self.pick.randrange(1, 4)):
                at = self.pick.randrange(len(text) + 1)
                text = text[:at] + self.pick.choice(SIGNS) + text[at + self.pick.randrange(3):]
        return text.encode()

    def tests(self):
        """Tests of the result's variables; now and then of one more, or one that is not known."""
        pick = self.pick
        found = ['%s(%s)' % (pick.choice(10 * [self.test] + ['luhn', 'upper', 'odd']), pick.choice(8 * self.names + ['z']))
                 for _ in range(pick.choice([1, 1, 1, 1, 2, 3]))]
        return pick.choice([' where ', '\nwhere ']) + pick.choice([', ', ',', ' ,']).join(found)

    def many(self):
        """A query of seventeen to thirty-two variables, and now and then of one more."""
        pick = self.pick
        names = sorted(pick.sample(MANY, pick.randrange(17, 33)))
        captures = ['!%s{%s}' % (name, pick.choice(['a', 'b', '', '.', 'a*'])) for name in names]
        if pick.random() < 0.1:
            captures += ['!z%d{a}' % k for k in range(33 - len(names))]
        kind = pick.randrange(5)
        if kind == 0:
            text = '/%s/' % '|'.join(captures)
        elif kind == 1:
            text = ' union '.join('/%s/' % capture for capture in captures)
        elif kind == 2:
            text = '/^%s$/' % ''.join(captures)
        elif kind == 3:
            text = '/^%s%s$/' % (''.join('(' + capture for capture in captures), ')?' * len(captures))
        else:
            optional = pick.randrange(1, 4)
            text = '/^%s%s$/' % (''.join('(%s)?' % capture for capture in captures[:optional]),
                                 '(%s|b)' % '|'.join(captures[optional:]))
        if pick.random() < 0.2:
            others = ' union '.join('/!%s{a}/' % name for name in names)
            text = '%s minus (%s)' % (text, self.changed(text) if pick.random() < 0.8 else others)
        self.names = names
        return text.encode()

    def large(self):
        """A query some part of which has about as many states or ways as there may be."""
        pick = self.pick
        many, few, times = pick.randrange(990, 1001), pick.randrange(100, 200), pick.randrange(1, 4)
        text = pick.choice([
            '/^(a{1000}){19}a{%d}$/' % many, '/(a{1000}){19}a{%d}/' % many, '/^(a?){1000}(a?){%d}$/' % many,
            '/((a?){%d}){%d}/' % (many, times), '/(a{%d}b?){%d}/' % (many, 9 + times), '/[ab]{%d}(a{0,%d}|b)/' % (many, many),
            '/!x{a{%d}}/ join /!y{[ab]{%d}}/' % (few, few), '/a{%d}b/ join /^b{%d}/ join /a|b/' % (few // 4, few // 4),
            '/(a{%d}){10}/ union /(b{%d}){10}/' % (many, many),
            '/^%s(a{%d}|b)$/' % (''.join('(!p%d{})?' % k for k in range(8)), few), self.left_out(pick.randrange(14, 19)),
            '/!x{[ab]*}/ minus /!x{[ab]*a[ab]{%d}}/' % pick.randrange(10, 16),
            '/^([ab]{1000}){9}[ab]{%d}c?$/ minus /^[ab]*a$/' % many, '/^([ab]?){%d}$/ minus /^[ab]*a$/' % many,
            '/[ab]{%d}/ minus (/a{%d}/ minus /a{3}/)' % (few, times)])
        self.names = ['x', 'y'] if '!' in text else []
        around = pick.choice(['%s', '%s', '(%s)', 'let w = %s; /a*/', '/b/ join (%s)', 'let w = %s; w join w', 'let w = %s; w minus w',
                              'project none (%s)', 'project none (/!z{a}/) union project none (%s)'])
        if '%s' != around != '(%s)':
            self.names = []
        return (around % text).encode()

    def left_out(self, count):
        """So many captures of the empty string that may be left out, so that it fits in twice as many ways with each."""
        around = self.pick.choice(['/^%s$/', '/%s/', '/^(%s|a)$/', '/^(%s)?$/', '/^%sa$/'])
        return around % ''.join('(!p%d{})?' % k for k in range(count))

    def document(self):
        return b''.join(self.pick.choice(TESTED_BYTES.get(self.test, BYTES)) for _ in range(self.pick.randrange(8)))

    def cursor(self, length):
        """A cursor of a document of this length, mostly; in one of five, a text that is nearly one."""
        pick = self.pick
        names = self.names
        if pick.random() < 0.2:
            names = sorted(pick.sample(['x', 'y', 'z'], pick.randrange(4)))
        is_old = pick.random() < 0.3
        most = 8 if is_old else length
        text = 'c1' if is_old else 'c2:%d' % length
        for name in names:
            start, end = sorted(pick.randrange(most + 1) for _ in range(2))
            text += ';%s:-' % name if not is_old and pick.random() < 0.3 else ';%s:%d-%d' % (name, start, end)
        if not is_old and pick.random() < 0.1:
            text = text.replace('c2:%d' % length, 'c2:%d' % pick.choice([0, length + 1, 9, 4294967295, 4294967296]), 1)
        return self.forged(text) if pick.random() < 0.2 else text

    def forged(self, text):
        """The text with some bytes left out, put in or changed for others."""
        for _ in range(self.pick.randrange(1, 4)):
            at = self.pick.randrange(len(text) + 1)
            text = text[:at] + self.pick.choice(CURSOR_SIGNS) + text[at + self.pick.randrange(3):]
        return text

    def resumed(self):
        """A query of some variables, each of which may be absent, and words with a cursor, mostly of another one or forged."""
        pick = self.pick
        self.names = sorted(pick.sample(['x', 'y', 'z', '_1', 'none_', 'Longer' + 26 * 'n'], pick.randrange(4)))
        document = self.document()
        text = self.cursor(len(document))
        if pick.random() < 0.3:
            text = self.forged(text)
        query = '/%s/' % ''.join('(!%s{.*})?' % name for name in self.names)
        return query.encode(), document, ['-q', 'Q', '-n', '2', '-a', text, 'D']

    def words(self, query, length):
        pick = self.pick
        words = ['-q', 'Q'] if pick.random() < 0.5 else ['-e=' + query.decode()]
        if pick.random() < 0.3:
            words += ['-n', str(pick.randrange(5))]
        if pick.random() < 0.3:
            words += ['-a', pick.choice(['start', self.cursor(length), self.cursor(length)])]
        if pick.random() < 0.4:
            words += ['-f', pick.choice(['spans', 'table', 'json'])]
        if pick.random() < 0.3:
            words.append('-t')
        words.append('D')
        return self.more_words(words)

    def more_words(self, words):
        """With the filter or without, and now and then in one of the modes."""
        pick = self.pick
        kind = pick.random()
        if kind < 0.1:
            words = words[:1 + (words[0] == '-q')] + ['--explain']
        elif kind < 0.15:
            words = words[:1 + (words[0] == '-q')] + ['--trial', str(pick.randrange(3))]
        if pick.random() < 0.4:
            words.append('--filter')
        if pick.random() < 0.2:
            words.append('--max-table=%d' % pick.randrange(1000000, 100000001))
        return words
