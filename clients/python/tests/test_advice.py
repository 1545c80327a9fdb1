"""Advice on what is accepted."""
import glob
import os
import unittest

import rematch
from support import EXAMPLES


class Advice(unittest.TestCase):
    def offsets(self, query):
        rematch.Query(query)  # it is accepted
        return [advice.offset for advice in rematch.advise(query)]

    def test_each(self):
        for query, offset, part in (
                (r'/[^\w]ab[^\w]/', 0, 'no capture'), (r'/\<!x{a}b\>/', 1, 'plain signs'), (r'/a!user(\w+) b/', 2, '!user{..}'), ('/!x{[:digit:]}/', 4, 'set of these letters'),
                (r'/!x{\w+} /', 4, 'is first in the formula'), (r'/ !x{\w+}/', 5, 'is last in the formula'), (r'/ (!x{(a|b*)})/', 9, 'is last in the formula'),
                (r'/ !x{[^ ]+} /', 5, 'line feed'),
                ('let w = /!y{a}/; / !w{w} /', 22, 'these letters'), ('let w = /!y{a}/; / !x{b} /', 4, 'nowhere'),
                ('/^!x{a}|!x{b}/', 1, '/^a/ union'), ('/a|b(c|d)$/', 9, 'union /b$/'), ('/^(a)|(b)$/', 1, 'each arm'),
                ('/!x{a}b/ join /!y{c}d/', 14, 'share no variable'),
                ('let w = /!x{a}b/; w join (/!y{c}d/ union /!y{e}f/)', 26, 'share no variable'),
                (r'/"!q{[^"]*}"/', 1, 'quotes'), (r"/a'!q{[^']+}'/", 2, 'quotes')):
            rematch.Query(query)
            found = [advice for advice in rematch.advise(query) if part in advice.message]
            self.assertEqual([advice.offset for advice in found], [offset], query)

    def test_offsets_are_of_the_whole_text(self):
        self.assertEqual(self.offsets('/é!x{a}/u union\n/!x{b+}c/'), [21])

    def test_silent(self):
        for query in (r'/from !address{[\d.]+} port/', '/^!x{a*}$/', '/^!x{[^\\n]*}\\n/', 'project none (/!x{a}/)', '/!x{a}(b+)/', '/a!x{b?}/',
                      '/ !x{a} /', 'let w = /!x{a}/; w', '/!x{a}b/ join /!x{a}!y{b}/', '/!x{a}!y{b}/ join /!y{b}!z{c}/ join /!z{c}d/', '/!x{a}b/ join /c/',
                      '/!x{a}b/ join /!y{b}c/ join /!x{a}!y{b}/', '/^(!x{a}|!x{b})/', '/^!x{a|b}$/', '/^!x{[|]}c/', '/!x{a}|!x{b}/', r'/\n!x{a}/',
                      r'/[^\w]!x{a}[^\w]/'):
            self.assertEqual(self.offsets(query), [], query)

    def test_what_other_atoms_say(self):
        for query in (r'/!x{\w+}/ join /[^\w]!x{\w+}[^\w]/', r'/^!x{a}\n/ union /\n!x{a}\n/', r'/^!x{a}[^\w]/ union /[^\w]!x{a}[^\w]/'):
            self.assertEqual(self.offsets(query), [], query)

    def test_each_message_once(self):
        self.assertEqual(len(self.offsets('/!x{a+}b/ union /!x{c+}d/')), 1)

    def test_shipped_queries(self):
        spoken = [os.path.basename(path) for path in sorted(glob.glob(os.path.join(EXAMPLES, '*.query')))
                  if rematch.advise(rematch.Query.from_file(path).text)]
        self.assertEqual(spoken, [])


if __name__ == '__main__':
    unittest.main()
