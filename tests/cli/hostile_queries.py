"""Queries that are made to be hard, always the same ones, each with the answers that are right.

A text is as long, deep or ambiguous as the limits let it be, or one more. Each answer stands here by the rules;
where a part of the query that is no atom passes a limit of size, or the weight of the table does, the program
may refuse or may have found a way to do with less, and both answers stand. Want of memory may be answered of
what needs very much, and stands there too.
"""
import itertools
import json
import random
from typing import NamedTuple

from deep_queries import deep_queries

LONGEST = 65536
LARGEST_NUMBER = (1 << 64) - 1  # the greatest number of states and ways that is shown


class Hostile(NamedTuple):
    family: str
    name: str
    query: bytes
    document: bytes
    words: list  # besides those that name the query and the document
    answers: list  # of (status, out, note), each without its last line feed; where out is None its text is not looked at
    slow: bool


def page(out='', note='end'):
    return 0, out, note


def refused(status, note):
    return status, '', note


NO_ROW, ONE = page(), page('()')
STATES, WAYS = refused(4, 'size: more than 20000 states'), refused(4, 'size: more than 2000000 ways')
TABLE, FILTER = refused(4, 'size: table past 8000000'), refused(4, 'size: filter past 8000000')
MEMORY = refused(9, 'out of memory')


def fault(what, at=None):
    return refused(3, 'query: ' + what + ('' if at is None else ' at %d' % at))


def row(*spans):
    """A spans line of pairs of a name and its two places."""
    return ' '.join('%s=%d-%d' % span for span in spans)


def filled(piece, head='/', tail='/', length=LONGEST):
    """As many pieces as go into so many bytes, with spaces behind, and their number."""
    count = (length - len(head.encode()) - len(tail.encode())) // len(piece.encode())
    text = head + piece * count + tail
    return text + ' ' * (length - len(text.encode())), count


ALL = []


def hard(family, name, query, *answers, document=b'a', words=(), slow=False):
    text = query if isinstance(query, bytes) else query.encode()
    ALL.append(Hostile(family, name, text, document, list(words), list(answers), slow))


NAMES = 'abcdefghijklmnop'  # of sixteen variables
MOST = list('abcdefghijklmnopqrstuvwxyz') + ['z%d' % k for k in range(6)]  # as many as there may be


def resume(length, *spans):
    """The note of a page whose last row has these spans, on a document of this length."""
    return 'more c2:%d' % length + ''.join(';%s:%d-%d' % span for span in spans)


def first(count, length):
    """The first row alone of so many variables, which are all empty there."""
    spans = [(name, 0, 0) for name in MOST[:count]]
    return page(row(*spans), resume(length, *spans))


# --- Deep nesting --------------------------------------------------------------------------------

def nested(times, sign, inner='a'):
    return '/' + '(' * times + inner + (')' + sign) * times + '/'


def nesting():
    for sign, document in (('*', b'aaa'), ('+', b'aaa'), ('?', b''), ('{1}', b'a'), ('{0,1}', b'')):
        hard('nesting', 'a hundred groups, each with ' + sign, nested(100, sign), ONE, document=document)
    hard('nesting', 'a hundred and one', nested(101, '*'), fault('too deep', 101))
    hard('nesting', 'a hundred stars over a choice', nested(99, '*', 'a|b|()'), ONE, document=200 * b'ab')
    hard('nesting', 'a hundred stars over the empty string', nested(100, '*', ''), ONE)
    hard('nesting', 'ninety-eight stars over 140 places', nested(98, '*', '|'.join(140 * 'a')), ONE, document=300 * b'a')
    doubled = '^' + '(' * 13 + 'a{2}' + '){2}' * 13 + '$'
    hard('nesting', 'fourteen doublings', '/%s/' % doubled, ONE, document=(1 << 14) * b'a')
    hard('nesting', 'fourteen doublings, not tied', '/%s/' % doubled[1:-1], ONE, TABLE, document=(1 << 14) * b'a')
    hard('nesting', 'fifteen doublings', '/(%s){2}/' % doubled[1:-1], STATES)
    thousands = '(' * 99 + 'a{1000}' + '){1000}' * 99
    hard('nesting', 'a hundred thousandfold repeats', '/%s/' % thousands, STATES)
    hard('nesting', 'a hundred thousandfold repeats, explained', '/%s/' % thousands,
         page('query /%s/\nvariables none\natom 1 states %d ways %d' % (thousands, LARGEST_NUMBER, LARGEST_NUMBER)),
         words=['--explain'])
    hard('nesting', 'the same, taken no times', '/(%s){0}a/' % thousands, ONE)
    hard('nesting', 'a hundred joins in one another', '(/a/ join ' * 100 + '/a/' + ')' * 100, ONE, STATES, WAYS)
    hard('nesting', 'a hundred unions in one another', '(/a/ union ' * 100 + '/a/' + ')' * 100, ONE)
    hard('nesting', 'unions and joins in turn', '(/a/ join (/a/ union ' * 50 + '/a/' + '))' * 50, ONE, STATES, WAYS)
    hard('nesting', 'a hundred projections in one another', 'project x (' * 100 + '/!x{a}/' + ')' * 100,
         page(row(('x', 0, 1))))
    hard('nesting', 'a hundred joins of one variable', '(/!x{.}/ join ' * 100 + '/!x{a}/' + ')' * 100,
         page(row(('x', 0, 1))), STATES, WAYS)
    inner = ''.join('!%s{z*' % name for name in NAMES)
    hard('nesting', 'sixteen captures in one another', '/%s%s/' % (inner, '}' * 16), first(16, 200), document=200 * b'z',
         words=['-n', '1'])


# --- Both limits of nesting at once ---------------------------------------------------------------

def depths():
    opened = []
    for deep in deep_queries():
        spans = [] if deep.var == 'none' else [(deep.var, 0, 1)]
        answer = page(row(*spans) or '()') if deep.has_row else NO_ROW
        hard('depths', deep.name, deep.text, answer)
        hard('depths', deep.name + ', explained', deep.text, page(None), words=['--explain'])
        if deep.is_sample:
            hard('depths', deep.name + ', with the filter', deep.text, answer, words=['--filter'])
            hard('depths', deep.name + ', and no end', deep.text + ' )', fault('unexpected', len(deep.text.encode()) + 1))
        opened.append((deep, {name: [start, end] for name, start, end in spans}))
    lines = []
    replies = []
    for deep, spans in opened:
        for asked in ({'op': 'open', 'query': deep.text, 'doc': 'a'}, {'op': 'next', 'n': 9}, {'op': 'close'}):
            lines.append(json.dumps({'id': 1, **asked}))
        for reply in ({'variables': list(spans)}, {'more': False, 'rows': [spans] * deep.has_row}, {'closed': True}):
            replies.append(json.dumps({'id': 1, **reply}, sort_keys=True, separators=(',', ':')))
    hard('depths', 'all of them in one session after another', '\n'.join(lines), page('\n'.join(replies)), words=['--serve'])


# --- Names ---------------------------------------------------------------------------------------

def names():
    most = ['n' * 31 + name for name in NAMES]
    text = '/%s/' % ''.join('!%s{z}' % name for name in most)
    whole = row(*((name, at, at + 1) for at, name in enumerate(most)))
    hard('names', 'sixteen of 32 bytes', text, page(whole), document=16 * b'z')
    hard('names', 'sixteen of 32 bytes, resumed', text, page(), document=16 * b'z',
         words=['-a', 'c1' + ''.join(';%s:%d-%d' % (name, at, at + 1) for at, name in enumerate(most))])
    hard('names', 'the last has 33', text.replace('!' + most[15], '!n' + most[15]), fault('name too long', 1 + 15 * 36),
         document=16 * b'z')
    short = '/%s/' % ''.join('!%s{z}' % name for name in NAMES)
    hard('names', 'seven hundred atoms of sixteen', ' union '.join(700 * [short]),
         page(row(*((name, at, at + 1) for at, name in enumerate(NAMES)))), document=16 * b'z')
    most = ['n' * (32 - len(name)) + name for name in MOST]
    spans = [(name, at, at + 1) for at, name in enumerate(most)]
    text = '/%s/' % ''.join('!%s{z}' % name for name in most)
    hard('names', 'thirty-two of 32 bytes', text, page(row(*sorted(spans))), document=32 * b'z')
    hard('names', 'thirty-two of 32 bytes, resumed', text, page(), document=32 * b'z',
         words=['-a', resume(32, *sorted(spans))[len('more '):]])
    whole = '/%s/' % ''.join('!%s{z}' % name for name in MOST)
    hard('names', 'three hundred atoms of thirty-two', ' union '.join(300 * [whole]),
         page(row(*((name, at, at + 1) for at, name in enumerate(MOST)))), document=32 * b'z')
    hard('names', 'thirty-two, and far behind a thirty-third', whole + 65000 * ' ' + 'join /!A{a}/',
         fault('more than 32 variables'))
    hard('names', 'a cursor of 15,000 names', '/!x{a}/', refused(7, 'cursor: other variables'),
         words=['-a', 'c1' + 15000 * ';x:0-0'])
    hard('names', 'a cursor of 25,000 absent names', '/!x{a}/', refused(7, 'cursor: other variables'),
         words=['-a', 'c2:1' + 25000 * ';x:-'])
    hard('names', 'a cursor of the greatest length', '/!x{a}/', refused(7, 'cursor: document of 4294967295 bytes, not 1'),
         words=['-a', 'c2:4294967295;x:0-4294967295'])
    hard('names', 'a cursor of a length of 100,000 digits', '/!x{a}/', refused(7, 'cursor: not a cursor'),
         words=['-a', 'c2:' + 100000 * '1' + ';x:0-1'])


# --- Sets of characters, each a formula of its own -----------------------------------------------

def characters():
    letters, count = filled(r'\p{L}', tail='/u')
    hard('characters', 'only letters, %d times' % count, letters, STATES, MEMORY, slow=True)
    hard('characters', 'only letters, explained', letters, page(None), MEMORY, words=['--explain'], slow=True)
    text, count = filled(r'\p{L}{0}', tail='/u')
    hard('characters', 'letters that do not stand, %d times' % count, text, ONE, MEMORY, slow=True)
    hard('characters', 'all but letters', filled(r'[^\p{L}]', tail='/u')[0], STATES, MEMORY, slow=True)
    hard('characters', 'letters in a hundred groups', '/' + 100 * '(' + r'!x{\p{L}}' + 100 * ')' + '/u', fault('too deep', 101))
    hard('characters', 'letters in ninety-nine groups', '/' + 99 * '(' + r'!x{\p{L}}' + 99 * ')' + '/u', page('x=0-1\nx=1-3'),
         document='aé'.encode())
    hard('characters', 'one class of thirteen thousand times the letters', filled(r'\p{L}', '/[', ']/u')[0], ONE, slow=True)
    hard('characters', 'one class of ten thousand characters', '/[%s]/u' % ''.join(chr(c) for c in range(0x4e00, 0x4e00 + 10000)), ONE,
         document='丁'.encode())
    hard('characters', 'one class of every second character', '/[%s]/u' % ''.join(chr(c) for c in range(0x4e00, 0x9fff, 2)), NO_ROW,
         document='丁'.encode())
    for number, answer in ((0x7f, NO_ROW), (0xe9, STATES), (0xffff, STATES), (0x10ffff, STATES)):
        hard('characters', 'only the number %x' % number, filled(r'\u{%x}' % number, tail='/u')[0], answer)
    hard('characters', 'dots', filled('.', tail='/u')[0], STATES)
    hard('characters', 'what is no UTF-8 at the end', b'/' + 65531 * b'a' + b'\xff/u', fault('not UTF-8', 65532))
    hard('characters', 'a name of a property that is long', r'/\p{%s}/u' % (65000 * 'L'), fault('unknown property', 1))
    hard('characters', 'names of properties that are none', filled(r'\p{}', tail='/u')[0], fault('bad escape', 1))
    hard('characters', 'a letter that repeats a thousand times', r'/\p{L}{1000}/u', STATES)
    hard('characters', 'words', r'/[^\p{L}]!x{\p{L}+}[^\p{L}]/u', page('x=3-7'), document='é жи !'.encode())


# --- One construct, as often as it goes into the longest text -----------------------------------

def long_texts():
    size = {'.': STATES, 'é': STATES, '!': STATES, r'\.': STATES, r'\d': STATES, '[a]': STATES, '(a)': STATES,
            '(a|b)': STATES, 'a?': STATES, 'a{1000}': STATES, 'a{0,1000}': STATES, 'a{999,}': STATES, '\x00': STATES,
            '\x7f': STATES, '€': STATES, 'aé{1}': STATES, '(a|)': WAYS, '(a*|)': WAYS}
    for piece, answer in size.items():
        hard('long', 'only %r' % piece, filled(piece)[0], answer)
    for piece in (r'\x61', '[^a]', '[a-z]', 'a{1}', r'[\n]', '(a{1})'):
        hard('long', 'only %r' % piece, filled(piece)[0], NO_ROW)
    for piece in ('()', '|', '()*', '(|)*', '((()))', 'a{0}', '(){1000}', '(a{1000}){0}', '()|', '(()*)+'):
        hard('long', 'only %r' % piece, filled(piece)[0], ONE)
    for byte in (0x80, 0xbf, 0xc0, 0xff):
        hard('long', 'only the byte %02x' % byte, b'/' + bytes([byte]) * (LONGEST - 2) + b'/', STATES)
    unit = b'\xc3' + 19000 * b'\x80'
    hard('long', 'one character of 19,001 bytes', b'/' + unit + b'/', ONE, document=unit)
    hard('long', 'the same, repeated', b'/^' + unit + b'*$/', ONE, document=3 * unit)
    for piece in ('a-z', r'\x00', r'\w', r'\]', '^', r'\x00-a'):
        text = filled(piece, '/[a', ']/')[0]
        hard('long', 'a class of only %r' % piece, text, ONE)
    hard('long', 'a class of only hyphens', filled('-', '/[', ']/')[0], ONE, document=b'-')
    hard('long', 'a class of a letter and hyphens', filled('-', '/[a', ']/')[0], fault('bad range', 2))
    hard('long', 'a class of ranges that fall', filled('z-a', '/[', ']/')[0], fault('bad range', 2))
    falls = filled('a-z', '/[', 'b-a]/')[0].rstrip()
    hard('long', 'a range that falls at the end', falls, fault('bad range', len(falls) - 5))
    for end, note in (('(', 'not closed'), ('[', 'not closed'), ('\\', 'bad escape'), ('*', None), ('!n{', 'not closed')):
        text = '/' + 'a' * (LONGEST - 1 - len(end)) + end
        hard('long', 'ends in %r' % end, text, fault(note, LONGEST - len(end)) if note else fault('not closed', 0))
    hard('long', 'a slash that is not closed', '/' + 'a' * (LONGEST - 1), fault('not closed', 0))
    hard('long', 'only a backslash and a slash', '/' + 32767 * '\\/' + '\\', fault('bad escape', LONGEST - 1))
    for space in ' \n':
        hard('long', 'only %r' % space, space * LONGEST, fault('unexpected', LONGEST))
    hard('long', 'one byte more', ' ' * (LONGEST + 1), fault('longer than 65536 bytes'))
    hard('long', 'unions without an end', filled('/a/ union ', '', '')[0], fault('unexpected', LONGEST))
    hard('long', 'joins without an end', filled('/a/ join ', '', '')[0], fault('unexpected', LONGEST))
    hard('long', 'lets without an end', filled('let a=/a/;', '', '')[0], fault('name twice', 14))
    hard('long', 'only unions', filled('/a/union', '', '/a/')[0], ONE, STATES)
    hard('long', 'only unions of one variable', filled('/!x{a}/union', '', '/!x{a}/')[0], page(row(('x', 0, 1))), STATES)
    hard('long', 'only joins', filled('/a/join', '', '/a/')[0], ONE, STATES, WAYS)
    hard('long', 'only joins of a tied atom', filled('/^a$/join', '', '/^a$/')[0], ONE, STATES, WAYS)
    hard('long', 'only joins of one variable', filled('/!x{.}/join', '', '/!x{a}/')[0], page(row(('x', 0, 1))),
         STATES, WAYS)
    hard('long', 'only joins that have no answer', filled('/^a$/join', '', '/^b$/')[0], NO_ROW, STATES, WAYS)


# --- Repeats of repeats --------------------------------------------------------------------------

def repeats():
    hard('repeats', 'a hundred times a hundred, tied', '/^(a{100}){100}$/', ONE, document=10000 * b'a')
    hard('repeats', 'a hundred times a hundred and one byte less', '/^(a{100}){100}$/', NO_ROW, document=9999 * b'a')
    hard('repeats', 'a hundred times a hundred, each left out', '/((a?){100}){100}/', WAYS)
    hard('repeats', 'up to a hundred times up to a hundred', '/(a{0,100}){0,100}/', ONE)
    hard('repeats', 'ten times up to ten times up to ten', '/^((a{0,10}){0,10}){0,10}$/', ONE, document=999 * b'a')
    for name, text in (('a star of a star', '(a*)*b'), ('a plus of a plus', '(a+)+b'),
                       ('both arms alike', '(a|a)*b'), ('one or two', '(a|aa)*b'),
                       ('four stars beside each other', 'a*a*a*a*b'), ('any bytes, four times', '.*.*.*.*b'),
                       ('a star of three stars', '((a*)*(a*)*(a*)*)*b')):
        hard('repeats', name, '/^%s$/' % text, NO_ROW, document=20000 * b'a')
        hard('repeats', name + ', not tied', '/%s/' % text, NO_ROW, document=20000 * b'a')
    hard('repeats', 'five hundred left out and five hundred not', '/^(a?){500}a{500}$/', ONE, document=500 * b'a')
    hard('repeats', 'a thousand alike in both arms', '/^(a|a){1000}$/', ONE, document=1000 * b'a')
    hard('repeats', 'a row for each way to cut, told once', '/^!x{(a|aa|aaa)*}!y{(a|aa|aaa)*}$/',
         page(row(('x', 0, 0), ('y', 0, 3000)), 'more c2:3000;x:0-0;y:0-3000'), document=3000 * b'a', words=['-n', '1'])
    hard('repeats', 'a star of each of many bytes', '/^(%s)*$/' % '|'.join(500 * ['a', 'b']), ONE, document=2000 * b'ab')


# --- Every byte ----------------------------------------------------------------------------------

def bytes_of_all():
    every = bytes(range(256))
    each = page('\n'.join(row(('x', at, at + 1)) for at in range(256)))
    hex_of = [r'\x%02x' % byte for byte in range(256)]
    hard('bytes', 'a class for each byte', '/!x{%s}/' % '|'.join('[%s]' % text for text in hex_of), each, document=every)
    hard('bytes', 'an atom for each byte', ' union '.join('/!x{%s}/' % text for text in hex_of), each, document=every)
    hard('bytes', 'a range of all', r'/!x{[\x00-\xff]}/', each, document=every)
    but_each = '/!x{%s}/' % ''.join('[^%s]' % text for text in hex_of)
    hard('bytes', 'all but one, 256 times', but_each, NO_ROW, document=every)
    hard('bytes', 'the same, on the bytes from the last to the first', but_each, page(row(('x', 0, 256))),
         document=every[::-1])
    hard('bytes', 'all but each, joined', ' join '.join('/!x{[^%s]}/' % text for text in hex_of), NO_ROW, STATES, WAYS,
         document=every)
    hard('bytes', 'no byte', r'/[^\x00-\xff]/', fault('bad range', 1), document=every)
    hard('bytes', 'all bytes but 255', r'/!x{[^\x00-\xfe]}/', page(row(('x', 255, 256))), document=every)
    texts = ''.join({9: '\\\\t', 10: '\\\\n', 13: '\\\\r', 34: '\\\\\\"', 92: '\\\\\\\\'}.get(b) or
                    (chr(b) if 0x20 <= b <= 0x7e else '\\\\x%02x' % b) for b in every)
    hard('bytes', 'the text of all', r'/^!x{[\x00-\xff]*}$/', page('{"x":[0,256,"%s"]}' % texts), document=every,
         words=['-f', 'json', '-t'])
    around = ''.join('!%s{' % name for name in NAMES)
    hard('bytes', 'sixteen times the text of 100,000 bytes 00', '/^%s[\\x00-\\xff]*%s$/' % (around, '}' * 16),
         page('{%s}' % ','.join('"%s":[0,100000,"%s"]' % (name, 100000 * '\\\\x00') for name in NAMES)),
         document=bytes(100000), words=['-f', 'json', '-t'])
    hard('bytes', 'all but one, 16,383 times, explained', '/%s/' % (16383 * '[^a]'),
         page('query /%s/\nvariables none\natom 1 states 16385 ways 16386' % (16383 * r'[\x00-\`b-\xff]')),
         words=['--explain'])


# --- Lets ----------------------------------------------------------------------------------------

def lets():
    thousands = ''.join('let a%d=/!x{a}/;' % k for k in range(3000))
    hard('lets', 'three thousand atoms', thousands + 'a2999', page(row(('x', 0, 1))))
    thousand = ''.join('let a%d=/!x{a}/;' % k for k in range(1000))
    calls = ['a%d' % k for k in range(1000)]
    hard('lets', 'a thousand, in a union', thousand + ' union '.join(calls), page(row(('x', 0, 1))), STATES)
    hard('lets', 'a thousand, joined', thousand + ' join '.join(calls), page(row(('x', 0, 1))), STATES, WAYS)
    for word, answers in (('union', [STATES]), ('join', [STATES, WAYS])):
        doubled = 'let a0=/!x{a}/;' + ''.join('let a%d=a%d %s a%d;' % (k + 1, k, word, k) for k in range(1500))
        hard('lets', 'doubled by %s 1,500 times' % word, doubled + 'a1500', page(row(('x', 0, 1))), *answers)
    large = '/^(a?){1000}(a?){999}$/'
    for name, count in (('three', 3), ('a thousand', 1000)):
        hard('lets', name + ' of two million ways, that nothing names',
             ''.join('let a%d=%s;' % (k, large) for k in range(count)) + '/a/', ONE, MEMORY, slow=True)
    hard('lets', 'a thousand joins that nothing names',
         ''.join('let a%d=/!x{a}/ join /!y{a}/;' % k for k in range(1000)) + '/a/', ONE)
    half = thousands[:thousands.index('let a1500')]
    hard('lets', 'the 1,501st names what is not there', half + 'let b=c;/a/', fault('unknown name', len(half) + 6))


# --- Joins of everything with everything ---------------------------------------------------------

def stars(count):
    return ' join '.join('/!%s{z*}/' % name for name in NAMES[:count])


def joins():
    hard('joins', 'five free spans', stars(5), first(5, 2), document=b'zz', words=['-n', '1'])
    hard('joins', 'seven free spans', stars(7), first(7, 2), MEMORY, document=b'zz', words=['-n', '1'], slow=True)
    for length in (1, 10, 20):
        hard('joins', 'eight free spans, %d bytes' % length, stars(8), first(8, length), MEMORY, document=length * b'z',
             words=['-n', '1'], slow=True)
    for name, count in (('nine', 9), ('sixteen', 16)):
        hard('joins', name + ' free spans', stars(count), first(count, 1), STATES, WAYS, MEMORY, document=b'z',
             words=['-n', '1'], slow=True)
    hard('joins', 'sixteen at one place', ' join '.join('/^!%s{z}$/' % name for name in NAMES),
         page(row(*((name, 0, 1) for name in NAMES))), STATES, WAYS, document=b'z')
    ring = ' join '.join('/!%s{z}!%s{z}/' % pair for pair in zip(NAMES, NAMES[1:] + NAMES[0]))
    hard('joins', 'a ring that cannot close', ring, NO_ROW, STATES, WAYS, document=40 * b'z')
    chain = ' join '.join('/!%s{z}!%s{z}/' % pair for pair in zip(NAMES, NAMES[1:]))
    hard('joins', 'a chain', chain, page(row(*((name, at, at + 1) for at, name in enumerate(NAMES)))), STATES, WAYS,
         document=16 * b'z')
    ordered = ' join '.join('/!%s{z+}.*!%s{z+}/' % pair for pair in (('a', 'b'), ('b', 'c'), ('a', 'c')))
    hard('joins', 'three that share two by two', ordered, page(row(('a', 0, 1), ('b', 1, 2), ('c', 2, 3)),
                                                            'more c2:60;a:0-1;b:1-2;c:2-3'), STATES, WAYS,
         document=60 * b'z', words=['-n', '1'])
    some = ['let a%d=/!x%d{a}/;' % (k, k) for k in range(16)]
    pairs = ' union '.join('project none (a%d join a%d)' % (i, j) for i in range(16) for j in range(16))
    hard('joins', 'each of sixteen with each', ''.join(some) + pairs, ONE, STATES, WAYS)
    large = '/^(a?){1000}(a?){999}$/'
    hard('joins', 'a large atom with itself', '%s join %s' % (large, large), ONE, STATES, WAYS, MEMORY, document=b'aa',
         slow=True)
    hard('joins', '1,500 large atoms, each joined with the empty string, in a union',
         ' union '.join(1500 * ['%s join /^$/' % large]), ONE, STATES, WAYS, MEMORY, document=b'', slow=True)
    hard('joins', '99 large atoms, joined from within', '(%s join ' % large * 99 + large + ')' * 99,
         ONE, STATES, WAYS, MEMORY, document=b'aa', slow=True)
    longs = ['/%s{0,150}!%s{[ab]*}%s{0,130}/' % (x, n, y) for x, n, y in ('axb', 'byc')]
    hard('joins', 'two atoms of many ways', ' join '.join(longs),
         page(row(('x', 0, 0), ('y', 0, 0)), 'more c2:60;x:0-0;y:0-0'), STATES, WAYS, document=20 * b'abc', words=['-n', '1'])


# --- Differences ---------------------------------------------------------------------------------

def words_of(count, length=10):
    return [''.join('ab'[number * 7 >> bit & 1] for bit in range(length)) for number in range(count)]


def differences():
    hard('differences', 'a hundred in a row', '/!x{.}/' + 100 * ' minus /!x{a}/', page(row(('x', 1, 2))), document=b'ab')
    hard('differences', 'a hundred and one', '/!x{.}/' + 101 * ' minus /!x{a}/', fault('too deep', 7 + 100 * 14 + 1))
    hard('differences', 'a hundred, and one more far behind', '/a/' + 100 * ' minus /b/' + 60000 * ' ' + 'minus',
         fault('too deep', 3 + 100 * 10 + 60000))
    hard('differences', 'a hundred in one another', '/a/ minus (' * 100 + '/a/' + ')' * 100, ONE)
    hard('differences', 'ninety-nine in one another', '/a/ minus (' * 99 + '/a/' + ')' * 99, NO_ROW)
    hard('differences', 'a hundred in one another, of one variable', '/!x{.}/ minus (' * 100 + '/!x{a}/' + ')' * 100,
         page(row(('x', 0, 1))), document=b'ab')
    lets = ''.join(' let w%d = /!x{.}/ minus w%d;' % (k + 1, k) for k in range(100))
    hard('differences', 'a hundred lets, each less the one before', 'let w0 = /!x{a}/;' + lets + ' w100', page(row(('x', 0, 1))),
         document=b'ab')
    lets = ''.join(' let w%d = w%d minus w%d;' % (k + 1, k, k) for k in range(100))
    hard('differences', 'a hundred lets, each the one before less itself', 'let w0 = /!x{a*}/;' + lets + ' w100', NO_ROW)
    lets = ''.join(' let w%d = (w%d minus /!x{%s}/) join w%d;' % (k + 1, k, 'ab'[k % 2], k) for k in range(100))
    hard('differences', 'a hundred lets, each joined with itself', 'let w0 = /!x{.}/;' + lets + ' w100', page(row(('x', 2, 3))),
         STATES, WAYS, MEMORY, document=b'abc')
    back = '/!x{[ab]*}/ minus /!x{[ab]*a[ab]{%d}}/'
    for count, name, answers in ((13, 'fourteen', []), (14, 'fifteen', [STATES]), (1000, 'a thousand', [STATES])):
        hard('differences', '%s bytes back' % name, back % count, page(row(('x', 0, 0)), resume(15, ('x', 0, 0))), *answers,
             document=14 * b'a' + b'b', words=['-n', '1'])
    hard('differences', 'twenty bytes back in a table, less twenty others', '/(a|b)*a(a|b){20}!x{c}/ minus /(a|b)*b(a|b){21}!x{c}/',
         page(row(('x', 25, 26))), STATES, document=3 * b'b' + 22 * b'a' + b'c')
    pairs = '/^([ab]{1000}){9}[ab]{999}%s$/ minus /^[ab]*a$/'
    hard('differences', '20,000 pairs', pairs % 'c?', ONE, document=9999 * b'b')
    hard('differences', '20,001 pairs', pairs % '(c|d)?', ONE, STATES, document=9999 * b'b')
    hard('differences', '2,000,000 ways', '/^([ab]?){1000}$/ minus /^[ab]*a$/', ONE, document=b'ab')
    optional = '/!x{[ab]*}/ minus /!x{([ab]?){1000}([ab]?){900}}/'
    hard('differences', 'less 1,900 optional letters, on as many', optional, NO_ROW, document=950 * b'ab')
    hard('differences', 'less 1,900 optional letters, on one more', optional, page(row(('x', 0, 1901))), document=950 * b'ab' + b'a')
    hard('differences', '2,000,000 ways, and some more', '/^([ab]?){1000}c?$/ minus /^[ab]*a$/', ONE, WAYS, document=b'ab')
    bits = '|'.join('[%s]' % ''.join('\\x%02x' % b for b in range(256) if b >> bit & 1) for bit in range(8))
    for count, answers in ((31, []), (32, [WAYS]), (1000, [STATES, WAYS])):
        hard('differences', 'a set for each byte, %d times' % count, '/^[\\x00-\\xff]{%d}$/ minus /^(%s){%d}$/' % (count, bits, count),
             ONE, *answers, document=count * b'\x00')
    rows = ['/!x{%s}/ ' % '|'.join(words) for words in (words_of(200), words_of(200)[::2])]
    hard('differences', 'two hundred words less each second one', 'minus '.join(rows), page(row(('x', 0, 10))),
         document=words_of(200)[3].encode())
    atoms = [' union '.join('/!x{%s}/' % word for word in words) for words in (words_of(500), words_of(500)[::2])]
    hard('differences', 'five hundred atoms less each second one', '(%s) minus (%s)' % tuple(atoms), page(row(('x', 0, 10))),
         document=words_of(500)[3].encode())
    hard('differences', 'a million ways on the right', '/^[ab]*$/ minus /^([ab]?){1000}([ab]?){400}$/', NO_ROW, MEMORY, document=b'ab',
         slow=True)
    large = '/^(a?){1000}(a?){999}$/'
    hard('differences', 'a large atom less itself', large + ' minus ' + large, NO_ROW, STATES, WAYS, MEMORY, document=b'aa',
         slow=True)
    hard('differences', 'sixteen left out in all ways, less the same', '/^%s$/ minus /^%s$/' % (left_out(16), left_out(16)), NO_ROW, MEMORY,
         document=b'', slow=True)
    hard('differences', 'ten left out in all ways at each place, less the same', '/%s/ minus /%s/' % (left_out(10), left_out(10)), NO_ROW,
         document=20 * b'z')
    hard('differences', 'sixteen free captures, less the same that are not empty',
         '/%s/ minus /%s/' % tuple(''.join('!%s{z%s}' % (name, sign) for name in NAMES) for sign in '*+'), first(16, 200),
         document=200 * b'z', words=['-n', '1'])
    hard('differences', 'five free spans, less themselves', '%s minus %s' % (stars(5), stars(5)), NO_ROW, document=b'zz')
    hard('differences', 'thirty-two captures, less as many', '/^%s$/ minus /^%s$/' % (left_out(32, 'z'), left_out(32, 'y')),
         page(row(*((n, k, k + 1) for k, n in enumerate(MOST)))), document=32 * b'z')
    hard('differences', '1,900 atoms, no filter of which is counted', 1899 * '/a/ union ' + '/a/ minus /b/', NO_ROW,
         document=100000 * b'b', words=['--filter'])
    hard('differences', 'a trial', r'/!user{u\d+}/ minus /!user{u\d+}\d/',
         page('lines 3000\nbytes 50204\nrows 1000\nfirst user=0-2\nlast user=50152-50155'), words=['--trial', '3000'])


# --- Tests of spans ------------------------------------------------------------------------------

def tests_on_spans():
    each = 7000 * ['upper(x)']
    hard('tests', 'seven thousand of one variable', '/!x{A}/where ' + ','.join(each),
         page('\n'.join(row(('x', i, i + 1)) for i in range(200))), document=200 * b'A')
    hard('tests', 'the last of seven thousand is not known', '/!x{A}/where ' + ','.join(each[1:] + ['odd(x)']),
         fault('unknown test', 13 + 6999 * 9))
    hard('tests', 'the last of seven thousand is of no variable', '/!x{A}/where ' + ','.join(each[1:] + ['upper(y)']),
         fault('no variable y to test'))
    hard('tests', 'the last of seven thousand cannot be read', '/!x{A}/where ' + ','.join(each + ['']), fault('unexpected', 13 + 7000 * 9))
    spans = [(name, at, at + 1) for at, name in enumerate(MOST)]
    hard('tests', 'of each of thirty-two variables', '/^%s$/ where %s' % (''.join('(!%s{Z})?' % name for name in MOST),
                                                                         ', '.join('upper(%s)' % name for name in MOST)),
         page(row(*sorted(spans))), document=32 * b'Z')
    hard('tests', 'none of two million answers passes', '/!x{A+a+}/ where upper(x)', NO_ROW, document=1500 * b'A' + 1500 * b'a', slow=True)
    hard('tests', 'the last of 562,501 answers passes', '/!x{A+a+}|!x{B}/ where upper(x)', page('x=1500-1501'),
         document=750 * b'A' + 750 * b'a' + b'B')
    hard('tests', 'a number of a million digits', r'/^!x{\d+}$/ where luhn(x)', page('x=0-1000000'), document=500000 * b'18')
    hard('tests', 'a page of one behind 999,999 that do not pass', r'/!x{\w}/ where upper(x)', page('x=999999-1000000'),
         document=999999 * b'a' + b'A', words=['-n', '1'])


# --- Unions and projections by the thousand ------------------------------------------------------

def unions():
    part = 'project x (/!x{a}!y{b*}/)'
    hard('unions', '1,900 projections', ' union '.join(1900 * [part]), page(row(('x', 0, 1))), STATES, document=b'abb')
    hard('unions', '1,500 projections onto nothing', ' union '.join(1500 * ['project none (/!x{.}!y{.}/)']), ONE,
         document=20 * b'a')
    forms = ['/!x{%s}/' % ''.join('ab'[k >> bit & 1] for bit in range(10)) for k in range(1 << 10)]
    hard('unions', 'each word of ten bytes', ' union '.join(forms), page(row(('x', 0, 10), )), document=b'abababbbab')
    hard('unions', 'a projection of each', ' union '.join('project none (%s)' % form for form in forms), ONE,
         document=b'abababbbab')
    many = filled('/a/ union ', '', '/a/')[0]
    hard('unions', '6,553 atoms, each with its filter', many, NO_ROW, document=2000 * b'b', words=['--filter'])
    hard('unions', '6,553 atoms, each with its filter, a longer document', many, NO_ROW, document=100000 * b'b',
         words=['--filter'], slow=True)
    hard('unions', 'of different variables, at the end', '/!x{a}/' + 1000 * ' union /!x{a}/' + ' union /!y{a}/',
         page('x=0-1 y=-\nx=- y=0-1'))
    hard('unions', 'a projection to what is not there, at the end',
         ' union '.join(1000 * ['project none (/a/)'] + ['project z (/!x{a}/)']), fault('no variable z to keep'))


# --- Sixteen captures in each arm ----------------------------------------------------------------

def arms():
    def arm(turn):
        return ''.join('!%s{z}' % name for name in NAMES[turn:] + NAMES[:turn])

    def turned(turn):
        return row(*((name, (at - turn) % 16, (at - turn) % 16 + 1) for at, name in enumerate(NAMES)))

    hard('arms', '750 arms alike', '/%s/' % '|'.join(750 * [arm(0)]), page(turned(0)), document=16 * b'z')
    hard('arms', 'sixteen orders, forty-five times', '/%s/' % '|'.join(45 * [arm(turn) for turn in range(16)]),
         page('\n'.join(turned(turn) for turn in range(16))), document=16 * b'z')
    hard('arms', 'one capture is not in the last arm', '/%s|%s/' % ('|'.join(700 * [arm(0)]), arm(0)[:-5]),
         page('\n'.join([turned(0)] + [row(*((n, at + k, at + k + 1) for at, n in enumerate(NAMES[:15]))) + ' p=-'
                                       for k in (0, 1)])), document=16 * b'z')
    beside = ''.join('!%s{z*}' % name for name in NAMES)
    hard('arms', 'sixteen free captures beside each other', '/%s/' % beside, first(16, 3000), document=3000 * b'z',
         words=['-n', '1'])
    hard('arms', 'sixteen free captures beside each other, a longer document', '/%s/' % beside, first(16, 100000), MEMORY,
         document=100000 * b'z', words=['-n', '1'], slow=True)
    hard('arms', 'sixteen free captures beside each other, 300,000 bytes', '/%s/' % beside, first(16, 300000), MEMORY,
         document=300000 * b'z', words=['-n', '1'], slow=True)
    hard('arms', 'the same in a hundred arms', '/%s/' % '|'.join(100 * [beside]), first(16, 20), document=20 * b'z',
         words=['-n', '1'])


# --- The worst for reading by sets ---------------------------------------------------------------

def tables():
    def drawn(length, seed):
        return bytes(random.Random(seed).choices(b'ab', k=length))

    looking = '/(a|b)*a(a|b){%d}!x{c}/'
    hard('tables', 'twenty bytes back', looking % 20, NO_ROW, document=drawn(100000, 1))
    hard('tables', 'twenty bytes back, a long document', looking % 20, NO_ROW, TABLE, document=drawn(2000000, 2),
         slow=True)
    hard('tables', 'twenty bytes back, the largest table', looking % 20, NO_ROW, MEMORY,
         document=drawn(5000000, 3), words=['--max-table', '100000000'], slow=True)
    hard('tables', 'twenty bytes back, with the filter', looking % 20, NO_ROW, TABLE, FILTER, document=drawn(2000000, 2),
         words=['--filter'], slow=True)
    hard('tables', 'a thousand bytes back', looking % 1000, NO_ROW, document=drawn(5000, 4))
    hard('tables', 'a thousand bytes back, a long document', looking % 1000, NO_ROW, TABLE, document=drawn(200000, 5),
         slow=True)
    hard('tables', 'nine thousand bytes back', '/(a|b)*a((a|b){900}){10}!x{c}/', NO_ROW, document=drawn(2000, 6))
    dense = '/((a|b)*a(a|b){20}|([ab]?){1000}([ab]?){400})!x{c}/'
    hard('tables', 'a million ways from each set, 40 bytes', dense, NO_ROW, document=drawn(40, 7))
    hard('tables', 'a million ways from each set, 1,000 bytes', dense, NO_ROW, document=drawn(1000, 7), slow=True)
    hard('tables', 'the least table', looking % 20, refused(4, 'size: table past 1'), document=b'ab', words=['--max-table', '1'])
    hard('tables', 'every second byte opens', '/!x{a}.*!y{b}/', page(row(('x', 0, 1), ('y', 1, 2)), 'more c2:100000;x:0-1;y:1-2'),
         document=50000 * b'ab', words=['-n', '1'])
    hard('tables', 'three free captures', '/!x{a*}!y{a*}!z{a*}/',
         page(row(('x', 0, 0), ('y', 0, 0), ('z', 0, 0)), 'more c2:20000;x:0-0;y:0-0;z:0-0'), document=20000 * b'a', words=['-n', '1'])
    hard('tables', 'three free captures, a long document', '/!x{a*}!y{a*}!z{a*}/',
         page(row(('x', 0, 0), ('y', 0, 0), ('z', 0, 0)), 'more c2:1000000;x:0-0;y:0-0;z:0-0'), MEMORY, document=1000000 * b'a',
         words=['-n', '1'], slow=True)
    hard('tables', 'nothing comes of what opens everywhere', '/!x{a+}!y{a+}b/', NO_ROW, MEMORY, document=2000000 * b'a',
         slow=True)
    hard('tables', 'the same with the filter', '/!x{a+}!y{a+}b/', NO_ROW, MEMORY, document=2000000 * b'a', words=['--filter'],
         slow=True)


# --- Captures that may be left out ---------------------------------------------------------------

def left_out(count, piece='()', names=MOST):
    return ''.join('(!%s{%s})?' % (name, piece) for name in names[:count])


def all_ways(count, place):
    """The rows of so many captures of the empty string at a place, each of which may be left out."""
    here = '%d-%d' % (place, place)
    return '\n'.join(' '.join('%s=%s' % pair for pair in zip(MOST, cells)) for cells in itertools.product([here, '-'], repeat=count))


def optional():
    for name, count in (('ten', 10), ('sixteen', 16)):
        hard('optional', name + ' left out in all ways', '/^%s$/' % left_out(count), page(all_ways(count, 0)), document=b'')
    hard('optional', 'sixteen, the first row', '/^%s$/' % left_out(16), first(16, 0), document=b'', words=['-n', '1'])
    hard('optional', 'sixteen, at the end of a document', '/%s$/' % left_out(16), page(all_ways(16, 3000)),
         document=3000 * b'z')
    for length, slow in ((20, False), (2000, True)):
        hard('optional', 'sixteen, at each place of %d bytes' % length, '/%s/' % left_out(16), first(16, length), MEMORY,
             document=length * b'z', words=['-n', '1'], slow=slow)
    for name, text in (('seventeen', '^%s$' % left_out(17)), ('thirty-two', left_out(32)),
                       ('seventeen, and a byte', '^%sa$' % left_out(17)), ('a byte, and thirty-two', 'a' + left_out(32)),
                       ('a byte, and seventeen in a group', 'a(%s)' % left_out(17)),
                       ('seventeen in a repeat of once', '^(%s){1}$' % left_out(17)),
                       ('seventeen in one of 300 arms', '%s%s' % (300 * 'a|', left_out(17))),
                       ('seventeen in a capture', '!z5{%s}' % left_out(17)),
                       ('seventeen that may be left out at once', '(%s)?' % left_out(17)),
                       ('thirty-two of many bytes', left_out(32, 'z*'))):
        hard('optional', name, '/%s/' % text, WAYS)
    spans = [(name, 1, 1) for name in MOST[:17]]
    hard('optional', 'a byte, and seventeen', '/a%s/' % left_out(17), page(row(*spans), resume(1, *spans)), words=['-n', '1'])
    pairs = ''.join('(!%s{}|!%s{})' % pair for pair in zip(MOST[:16], MOST[16:]))
    last = resume(0, *((name, 0, 0) for name in MOST[:16])) + ''.join(';%s:-' % name for name in MOST[16:])
    hard('optional', 'one of two, sixteen times', '/^%s$/' % pairs,
         page(' '.join('%s=%s' % (name, '0-0' if name in MOST[:16] else '-') for name in MOST), last),
         document=b'', words=['-n', '1'])
    hard('optional', 'one of two, sixteen times, and all left out', '/^(%s)?$/' % pairs, WAYS)
    arms = '|'.join(17 * [left_out(12)])
    hard('optional', 'the same twelve in each of seventeen arms', '/^(%s)$/' % arms, first(12, 0), MEMORY, document=b'', words=['-n', '1'])
    hard('optional', 'seventeen, and more states than there may be', '/%s(a{1000}){20}/' % left_out(17), STATES)
    hard('optional', 'the same, explained', '/%s(a{1000}){20}/' % left_out(17),
         page('query /%s(a{1000}){20}/\nvariables %s\natom 1 states 20002 ways 2000001'
              % (left_out(17).replace('(!', '!').replace('})?', '}?'), ' '.join(MOST[:17]))), words=['--explain'])
    inner = ''.join('(!%s{' % name for name in MOST)
    hard('optional', 'thirty-two in one another', '/%s%s/' % (inner, '})?' * 32), first(32, 200), document=200 * b'z',
         words=['-n', '1'])
    spans = [(name, at, at + 1) for at, name in enumerate(MOST[:31])] + [(MOST[31], 31, 200)]
    hard('optional', 'thirty-two of some bytes', '/^%s$/' % left_out(32, 'z+'), page(row(*spans), resume(200, *spans)),
         document=200 * b'z', words=['-n', '1'])
    hard('optional', 'thirty-two of one byte', '/^%s$/' % left_out(32, 'z'), page(row(*((n, k, k + 1) for k, n in enumerate(MOST)))),
         document=32 * b'z')
    for count, slow in ((10, False), (100, True), (1000, True)):
        arms = '|'.join(count * 'a')
        hard('optional', 'sixteen behind %d arms: an end for each way' % count, '/^(%s)%s$/' % (arms, left_out(16)),
             page(row(*((name, 1, 1) for name in NAMES)), resume(1, *((name, 1, 1) for name in NAMES))), MEMORY,
             document=b'a', words=['-n', '1'], slow=slow)
    for name, count, answers, slow in (('ten', 10, [first(20, 0)], False), ('sixteen', 16, [TABLE, first(32, 0)], True)):
        hard('optional', '%s joined with %s others' % (name, name),
             '/^%s$/ join /^%s$/' % (left_out(count), left_out(count, names=MOST[count:])), MEMORY, *answers, document=b'',
             words=['-n', '1'], slow=slow)
    each = ['/!%s{a}/' % name for name in MOST]
    alone = page('\n'.join(' '.join('%s=%s' % (name, '0-1' if name == here else '-') for name in MOST) for here in MOST))
    hard('optional', 'thirty-two variables, each in its own arm', '/%s/' % '|'.join(part[1:-1] for part in each), alone)
    hard('optional', 'thirty-two variables, each in its own atom', ' union '.join(each), alone)
    hard('optional', 'three thousand atoms of thirty-two variables', ' union '.join(93 * each), alone)
    hard('optional', 'a hundred unions of different variables in one another',
         ''.join('(%s union ' % each[k % 32] for k in range(100)) + '/b/' + ')' * 100, alone)
    hard('optional', 'a thousand projections of what may be absent',
         ' union '.join(1000 * ['project y (/!x{a}(!y{b})?/)']), page('y=1-2\ny=-'), document=b'ab')
    hard('optional', 'a thousand joins, and what is not sure at the end', '/!x{a}/ join ' * 1000 + '/!x{a}|b/',
         fault('variable x not sure on both sides of join'))
    hard('optional', 'five that share what is sure, each with one that is not',
         ' join '.join('/!x{a}(!y%d{b})?/' % k for k in range(5)),
         page(row(*([('x', 0, 1)] + [('y%d' % k, 1, 2) for k in range(5)])),
              resume(2, *([('x', 0, 1)] + [('y%d' % k, 1, 2) for k in range(5)]))), document=b'ab', words=['-n', '1'])


for family in (nesting, depths, names, characters, long_texts, repeats, bytes_of_all, lets, joins, differences, tests_on_spans, unions, arms,
               optional, tables):
    family()
