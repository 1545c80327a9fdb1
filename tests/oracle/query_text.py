"""What the text of a query says: its tree, or the one fault that is told.

The first half of the reference: trees, the reader of formulas, the reader of queries, and the rules
that a tree must keep. Each section states its rules in words and then says them once more in Python.
"""
import re
from typing import NamedTuple

from characters import BYTES, CHARACTERS, numbers, others, property_set, ranges_of, shared, united
from named_tests import TESTS

MOST_VARIABLES = 32
MOST_OPEN = 100  # groups and captures of a formula, parentheses of a query
MOST_MINUSES = 100  # of a query text
LONGEST_NAME = 32
LARGEST_REPEAT = 1000
LONGEST_QUERY = 65536
QUERY = 3  # the exit status of a query that is refused


class Refusal(Exception):
    """The run ends with this status and this note, and no row is written."""

    def __init__(self, status, note):
        super().__init__(note)
        self.status = status
        self.note = note


def fault(what, at=None):
    """The query is refused, mostly at a byte offset of the whole text."""
    return Refusal(QUERY, 'query: ' + what + ('' if at is None else ' at %d' % at))


# --- Trees ---------------------------------------------------------------------------------------
#
# A formula is the empty string, one byte of a set, a concatenation, an alternation, a repeat with a
# least and perhaps a greatest number of times, or a capture. An expression is an atom, the name of
# a `let`, a union, a difference, a join or a projection.

class Empty(NamedTuple):
    pass


class One(NamedTuple):
    bytes: frozenset


class Cat(NamedTuple):
    parts: tuple


class Alt(NamedTuple):
    parts: tuple


class Rep(NamedTuple):
    part: object
    least: int
    most: object  # None: without end


class Cap(NamedTuple):
    name: str
    part: object


class Atom(NamedTuple):
    from_start: bool
    to_end: bool
    formula: object


class Named(NamedTuple):
    place: int


class Union(NamedTuple):
    parts: tuple


class Minus(NamedTuple):
    left: object
    right: object


class Join(NamedTuple):
    parts: tuple


class Project(NamedTuple):
    keep: frozenset
    part: object


class Test(NamedTuple):
    name: str
    at: int  # the offset of the name
    variable: str


class Query(NamedTuple):
    lets: tuple  # pairs of a name and an expression
    body: object
    tests: tuple


# --- Reading an atom -----------------------------------------------------------------------------
#
#   atom   = "/" ["^"] alt ["$"] "/" [ "u" ]
#   alt    = seq { "|" seq }
#   seq    = { piece }
#   piece  = unit [ repeat ]
#   unit   = "(" alt ")" | "!" name "{" alt "}" | "." | class | escape | literal
#   repeat = "*" | "+" | "?" | "{" num "}" | "{" num "," "}" | "{" num "," num "}"
#   class  = "[" ["^"] item { item } "]"
#   item   = elem [ "-" elem ]
#
# The text is read from left to right, and the first place that allows no reading decides the fault.
# What is not closed is told at its opener: the slash, the parenthesis, the `!` or the bracket.
#
# The closing slash is the first that is not the second byte of a pair; a backslash and the byte after it are a
# pair. A `u` straight behind it is the sign where no letter, digit or `_` follows. Then the formula is over
# characters:
#
# - What stands between the slashes is UTF-8. The first byte that begins no character is told before all else.
# - Sets are of characters, also that of the dot and of `[^`. Any character past 7F is an elem.
# - `\u{H}`, of one to six hexadecimal digits, is a character; `\x` stands for 00 to 7F alone.
# - `\p{NAME}` is a property. A run of letters, digits and `_` that names none is told as that, at the backslash;
#   anything else is a bad escape. It is no end of a range.
# - A set is the formula of its UTF-8 texts, by `characters_tree`.

DIGITS = frozenset(b'0123456789')
WORD_BYTES = DIGITS | frozenset(b'ABCDEFGHIJKLMNOPQRSTUVWXYZ_abcdefghijklmnopqrstuvwxyz')
SPACES = frozenset(b'\t\n\x0b\x0c\r ')
ESCAPED = {ord('d'): DIGITS, ord('w'): WORD_BYTES, ord('s'): SPACES,
           ord('n'): frozenset(b'\n'), ord('t'): frozenset(b'\t'), ord('r'): frozenset(b'\r')}
PUNCTUATION = frozenset(range(0x21, 0x30)) | frozenset(range(0x3a, 0x41)) \
    | frozenset(range(0x5b, 0x61)) | frozenset(range(0x7b, 0x7f))
HEX = frozenset(b'0123456789ABCDEFabcdef')
LINE_FEED = ((0x0a, 0x0a),)
INSIDE = re.compile(rb'(?:[^/\\]|\\.)*', re.DOTALL)
SIGN = re.compile(rb'/u(?![A-Za-z0-9_])')
NUMBER_ESCAPE = re.compile(rb'\\u\{([0-9A-Fa-f]{1,6})\}')
PROPERTY_ESCAPE = re.compile(rb'\\p\{([A-Za-z0-9_]+)\}')
REPEAT = re.compile(rb'\{([0-9]{1,4})(?:(,)([0-9]{1,4})?)?\}')
NAME = re.compile(rb'[A-Za-z_][A-Za-z0-9_]*')
KEYWORDS = ('let', 'union', 'join', 'project', 'none')


# of the texts of one to four bytes: the bytes after the first, the first byte of number 0, the characters
LENGTHS = ((0, 0, 0, 0x7f), (1, 0xc0, 0x80, 0x7ff), (2, 0xe0, 0x800, 0xffff), (3, 0xf0, 0x10000, 0x10ffff))


def cat_of(parts):
    return Empty() if not parts else parts[0] if len(parts) == 1 else Cat(tuple(parts))


def alt_of(parts):
    return parts[0] if len(parts) == 1 else Alt(tuple(parts))


def inside_signed(text, start):
    """The bytes between the slash at `start` and its closing slash, where the sign follows; else None."""
    inside = INSIDE.match(text, start + 1)
    return inside.group() if SIGN.match(text, inside.end()) else None


def characters_tree(ranges):
    """The formula of a set of characters that is not empty: of their texts of one byte, of two, three and four."""
    arms = []
    for tails, base, low, high in LENGTHS:
        part = shared(ranges, ((low, high),))
        if part:
            arms.append(strings_tree(tails, base, part))
    return alt_of(arms)


def strings_tree(tails, base, ranges):
    """The formula of strings of a first byte and so many more, given as numbers of digits to the base 64.

    The first bytes are grouped by equal sets of what follows; each group, by ascending least byte, is its bytes
    and then the formula of what follows.
    """
    if tails == 0:
        return One(frozenset(base + n for n in numbers(ranges)))
    unit = 64 ** tails
    groups = {}  # in the order of the least first byte
    for first in range(ranges[0][0] // unit, ranges[-1][1] // unit + 1):
        part = shared(ranges, ((first * unit, first * unit + unit - 1),))
        if part:
            follows = tuple((low - first * unit, high - first * unit) for low, high in part)
            groups.setdefault(follows, []).append(base + first)
    return alt_of([Cat((One(frozenset(firsts)), strings_tree(tails - 1, 0x80, follows)))
                   for follows, firsts in groups.items()])


class AtomReader:
    """Reads the atom whose slash stands at `start`."""

    def __init__(self, text, start):
        self.text = text
        self.signed = inside_signed(text, start)
        self.whole = BYTES if self.signed is None else CHARACTERS
        self.start = start
        self.at = start + 1
        self.openers = [start]  # of the slash, and of the groups and captures that are open
        self.tied = False  # a `$` has been read as an anchor

    def byte(self, ahead=0):
        """The byte that is so far ahead, or None at the text's end."""
        at = self.at + ahead
        return self.text[at] if at < len(self.text) else None

    def read(self):
        if self.signed is not None:
            try:
                self.signed.decode()
            except UnicodeDecodeError as wrong:
                raise fault('not UTF-8', self.start + 1 + wrong.start)
        from_start = self.byte() == ord('^')
        if from_start:
            self.at += 1
        formula = self.alt(ord('/'))
        end = self.at + (self.signed is not None)
        return Atom(from_start, self.tied, formula), end

    def tree(self, members):
        """The formula of a set, of bytes or of characters."""
        return One(numbers(members)) if self.signed is None else characters_tree(members)

    def alt(self, closing):
        """Reads up to the byte that closes the innermost opener, and past it."""
        arms = []
        parts = []
        last = 'start'  # what was read last in this seq: its start, a unit, a repeat
        while True:
            at = self.at
            byte = self.byte()
            if byte is None:
                raise fault('not closed', self.openers[-1])
            if byte == closing:
                self.at += 1
                arms.append(cat_of(parts))
                return alt_of(arms)
            if byte == ord('/'):
                raise fault('not closed', self.openers[-1])
            if byte in b')}':
                if closing == ord('/'):
                    raise fault('unexpected', at)
                raise fault('not closed', self.openers[-1])
            if byte == ord('|'):
                self.at += 1
                arms.append(cat_of(parts))
                parts, last = [], 'start'
            elif byte in b'*+?{':
                if last == 'start':
                    raise fault('unexpected', at)
                if last == 'repeat':
                    raise fault('repeat after repeat', at)
                parts[-1] = Rep(parts[-1], *self.repeat())
                last = 'repeat'
            elif byte == ord('$') and closing == ord('/') and self.byte(1) == closing:
                self.at += 1
                self.tied = True
            else:
                parts.append(self.unit(byte))
                last = 'unit'

    def repeat(self):
        sign = self.byte()
        if sign != ord('{'):
            self.at += 1
            return {'*': (0, None), '+': (1, None), '?': (0, 1)}[chr(sign)]
        found = REPEAT.match(self.text, self.at)
        if not found:
            raise fault('bad repeat', self.at)
        least = int(found.group(1))
        most = least if not found.group(2) else int(found.group(3)) if found.group(3) else None
        if least > LARGEST_REPEAT or (most is not None and not least <= most <= LARGEST_REPEAT):
            raise fault('bad repeat', self.at)
        self.at = found.end()
        return least, most

    def unit(self, byte):
        at = self.at
        if byte in b'^$':
            raise fault('anchor', at)
        if byte == ord(']'):
            raise fault('unexpected', at)
        if byte == ord('('):
            self.open(at)
            self.at += 1
            inner = self.alt(ord(')'))
            self.openers.pop()
            return inner
        if byte == ord('!'):
            name = self.capture_name()
            if name is not None:
                if len(name) > LONGEST_NAME:
                    raise fault('name too long', at)
                if name == 'none':
                    raise fault('reserved name', at)
                self.open(at)
                self.at += 1 + len(name) + 1
                inner = self.alt(ord('}'))
                self.openers.pop()
                return Cap(name, inner)
        if byte == ord('['):
            return self.bracket()
        if byte == ord('\\'):
            members, _ = self.escape()
            if not members:  # a property that no character has
                raise fault('bad range', at)
            return self.tree(members)
        self.at += 1
        if byte == ord('.'):
            return self.tree(others(self.whole, LINE_FEED))
        if byte >= 0xc0:  # a character of UTF-8 is one unit: its first byte and all that go with it
            while self.byte() is not None and 0x80 <= self.byte() <= 0xbf:
                self.at += 1
        return cat_of([One(frozenset([b])) for b in self.text[at:self.at]])

    def open(self, at):
        if len(self.openers) > MOST_OPEN:  # the slash is not counted
            raise fault('too deep', at)
        self.openers.append(at)

    def capture_name(self):
        """The name of the capture that begins here; None where the `!` is a plain byte."""
        found = NAME.match(self.text, self.at + 1)
        if found and self.text[found.end():found.end() + 1] == b'{':
            return found.group().decode()
        return None

    def escape(self):
        """The set of the escape that begins here, and whether it is one byte or character by its form."""
        letter = self.byte(1)
        if letter in ESCAPED:
            self.at += 2
            return ranges_of(ESCAPED[letter]), len(ESCAPED[letter]) == 1
        if letter == ord('x') and self.byte(2) in HEX and self.byte(3) in HEX:
            number = int(self.text[self.at + 2:self.at + 4], 16)
            if self.signed is None or number < 0x80:
                self.at += 4
                return ((number, number),), True
        if letter in PUNCTUATION:
            self.at += 2
            return ((letter, letter),), True
        if self.signed is not None:
            return self.character_escape()
        raise fault('bad escape', self.at)

    def character_escape(self):
        """As `escape`, of those that only a formula over characters has."""
        found = NUMBER_ESCAPE.match(self.text, self.at)
        if found:
            number = int(found.group(1), 16)
            single = ((number, number),)
            if shared(CHARACTERS, single):
                self.at = found.end()
                return single, True
        found = PROPERTY_ESCAPE.match(self.text, self.at)
        if found:
            members = property_set(found.group(1).decode())
            if members is None:
                raise fault('unknown property', self.at)
            self.at = found.end()
            return members, False
        raise fault('bad escape', self.at)

    def bracket(self):
        start = self.at
        self.openers.append(start)
        self.at += 1
        negated = self.byte() == ord('^')
        if negated:
            self.at += 1
        members = None
        while self.byte() != ord(']') or members is None:
            at = self.at
            low, is_single = self.elem()
            if self.byte() == ord('-') and self.byte(1) != ord(']'):
                self.at += 1
                high, ends_single = self.elem()
                if not is_single or not ends_single or low > high:
                    raise fault('bad range', at)
                low = ((low[0][0], high[0][0]),)
            members = united((members or ()) + low)
        self.at += 1
        self.openers.pop()
        members = others(self.whole, members) if negated else shared(self.whole, members)
        if not members:
            raise fault('bad range', start)
        return self.tree(members)

    def elem(self):
        """The set of the elem that begins here, and whether it is one byte or character by its form."""
        byte = self.byte()
        if byte is None or byte == ord('/'):
            raise fault('not closed', self.openers[-1])
        if byte in b'][' or (byte >= 0x80 and self.signed is None):
            raise fault('unexpected', self.at)
        if byte == ord('\\'):
            return self.escape()
        length = 1
        while byte >= 0x80 and self.byte(length) is not None and 0x80 <= self.byte(length) <= 0xbf:
            length += 1
        number = ord(self.text[self.at:self.at + length].decode())
        self.at += length
        return ((number, number),), True


# --- Reading a query -----------------------------------------------------------------------------
#
#   tested = query [ "where" test { "," test } ]
#   test  = name "(" name ")"
#   query = { "let" name "=" expr ";" } expr
#   expr  = conj { ( "union" | "minus" ) conj }
#   conj  = unit { "join" unit }
#   unit  = atom | name | "(" expr ")" | "project" keep "(" expr ")"
#   keep  = "none" | name { "," name }
#
# Space, tab, line feed and carriage return may stand between tokens. A word is a longest run of name
# bytes. `let`, `union`, `join`, `project` and `none` are no names. `minus` is one, but behind a whole conj, and `where`,
# but behind a whole body: no name may stand there. From the left, conjs with `union` between are one union; a `minus`
# takes the conj behind it away from all that stands before it, and a `union` behind that begins a union whose first
# part is the difference.

def union_of(parts):
    return parts[0] if len(parts) == 1 else Union(tuple(parts))


class QueryReader:
    def __init__(self, text):
        self.text = text
        self.at = 0
        self.open = 0  # parentheses
        self.lets = []
        self.atoms = []
        self.minuses = 0
        self.kept = []  # the names of each projection

    def read(self):
        while self.word() == 'let':
            self.skip('let')
            self.lets.append(self.let())
        body = self.expr()
        tests = self.tests() if self.word() == 'where' else []
        if self.at < len(self.text):
            raise self.unexpected()
        return Query(tuple(self.lets), body, tuple(tests))

    def tests(self):
        self.skip('where')
        found = [self.test()]
        while self.sees(','):
            self.token(',')
            found.append(self.test())
        return found

    def test(self):
        name = self.name()
        at = self.at
        self.skip(name)
        self.token('(')
        variable = self.name()
        self.skip(variable)
        self.token(')')
        return Test(name, at, variable)

    def let(self):
        name = self.name()
        if name in dict(self.lets):
            raise fault('name twice', self.at)
        self.skip(name)
        self.token('=')
        expr = self.expr()
        self.token(';')
        return name, expr

    def expr(self):
        parts = [self.conj()]
        while self.word() in ('union', 'minus'):
            if self.word() == 'union':
                self.skip('union')
                parts.append(self.conj())
            else:
                self.minus()
                parts = [Minus(union_of(parts), self.conj())]
        return union_of(parts)

    def minus(self):
        if self.minuses == MOST_MINUSES:
            raise fault('too deep', self.at)
        self.minuses += 1
        self.skip('minus')

    def conj(self):
        parts = [self.unit()]
        while self.word() == 'join':
            self.skip('join')
            parts.append(self.unit())
        return parts[0] if len(parts) == 1 else Join(tuple(parts))

    def unit(self):
        self.space()
        if self.sees('/'):
            atom, self.at = AtomReader(self.text, self.at).read()
            self.atoms.append(atom)
            self.space()
            return atom
        if self.sees('('):
            return self.parenthesised()
        if self.word() == 'project':
            self.skip('project')
            keep = self.keep()
            return Project(keep, self.parenthesised())
        name = self.name()
        for place, (known, _) in enumerate(self.lets):
            if known == name:
                self.skip(name)
                return Named(place)
        raise fault('unknown name', self.at)

    def parenthesised(self):
        self.space()
        if not self.sees('('):
            raise self.unexpected()
        if self.open == MOST_OPEN:
            raise fault('too deep', self.at)
        self.open += 1
        self.token('(')
        expr = self.expr()
        self.token(')')
        self.open -= 1
        return expr

    def keep(self):
        if self.word() == 'none':
            self.skip('none')
            return frozenset()
        names = []
        while True:
            names.append(self.name())
            self.skip(names[-1])
            if not self.sees(','):
                break
            self.token(',')
        self.kept.append(frozenset(names))
        return frozenset(names)

    # Tokens.

    def space(self):
        while self.at < len(self.text) and self.text[self.at] in b' \t\n\r':
            self.at += 1

    def sees(self, sign):
        return self.text[self.at:self.at + 1] == sign.encode()

    def token(self, sign):
        self.space()
        if not self.sees(sign):
            raise self.unexpected()
        self.skip(sign)

    def skip(self, token):
        self.at += len(token)
        self.space()

    def word(self):
        """The word that stands here, or None."""
        self.space()
        found = NAME.match(self.text, self.at)
        return found.group().decode() if found else None

    def name(self):
        """The name that must stand here."""
        word = self.word()
        if word is None or word in KEYWORDS:
            raise self.unexpected()
        if len(word) > LONGEST_NAME:
            raise fault('name too long', self.at)
        return word

    def unexpected(self):
        return fault('unexpected', self.at)


# --- What a readable query may be refused for ----------------------------------------------------
#
# A formula is sequential where the parts of each concatenation have no variable in common, nothing under a
# repeat has one unless the repeat is of once at most, and no capture stands in one of its own name. The
# first fault counts: parts from left to right, then the formula itself.
#
# A variable is sure where every answer gives it a span: in a concatenation and in a join where it is sure in
# some part, in an alternation and in a union where it is in all of them; under a repeat that is of exactly
# once; in its capture. In a join a variable clashes at a part where an earlier part has it too and it is not
# sure in both; the first part at which one clashes is told, by the least name that clashes there.
#
# The sides of a difference have the same variables; else the least that is in one alone is told. Those that are
# sure on the left side are sure.
#
# Behind all that come the tests: each is of a variable of the result, and then each has a known name.

def captures(formula):
    """All names of the formula's captures."""
    if isinstance(formula, Cap):
        return {formula.name} | captures(formula.part)
    if isinstance(formula, Rep):
        return captures(formula.part)
    if isinstance(formula, (Cat, Alt)):
        return set().union(*map(captures, formula.parts))
    return set()


def check(formula):
    """The variables of a sequential formula."""
    if isinstance(formula, Cap):
        inner = check(formula.part)
        if formula.name in inner:
            raise fault('variable %s twice' % formula.name)
        return inner | {formula.name}
    if isinstance(formula, Rep):
        inner = check(formula.part)
        if inner and formula.most != 1:
            raise fault('variable %s under a repeat' % min(inner))
        return inner
    if isinstance(formula, Cat):
        parts = [check(part) for part in formula.parts]
        names = sorted(name for part in parts for name in part)
        for name, following in zip(names, names[1:]):
            if name == following:
                raise fault('variable %s twice' % name)
        return set(names)
    if isinstance(formula, Alt):
        return set().union(*[check(arm) for arm in formula.parts])
    return set()


def sure(formula):
    """The sure variables of a sequential formula."""
    if isinstance(formula, Cap):
        return {formula.name} | sure(formula.part)
    if isinstance(formula, Rep):
        return sure(formula.part) if (formula.least, formula.most) == (1, 1) else set()
    if isinstance(formula, Cat):
        return set().union(*map(sure, formula.parts))
    if isinstance(formula, Alt):
        return set.intersection(*map(sure, formula.parts))
    return set()


class Variables(NamedTuple):
    all: set
    sure: set


def variables(expr, of_lets):
    """The variables of a sound expression, given those of the lets before it."""
    if isinstance(expr, Atom):
        return Variables(check(expr.formula), sure(expr.formula))
    if isinstance(expr, Named):
        return of_lets[expr.place]
    if isinstance(expr, Project):
        inner = variables(expr.part, of_lets)
        if expr.keep - inner.all:
            raise fault('no variable %s to keep' % min(expr.keep - inner.all))
        return Variables(set(expr.keep), inner.sure & expr.keep)
    if isinstance(expr, Minus):
        left, right = variables(expr.left, of_lets), variables(expr.right, of_lets)
        if left.all != right.all:
            raise fault('variable %s not on both sides of minus' % min(left.all ^ right.all))
        return left
    parts = [variables(part, of_lets) for part in expr.parts]
    every = set().union(*[part.all for part in parts])
    if isinstance(expr, Union):
        return Variables(every, set.intersection(*[part.sure for part in parts]))
    for count, part in enumerate(parts):
        clashing = {name for earlier in parts[:count] for name in part.all & earlier.all
                    if not (name in part.sure and name in earlier.sure)}
        if clashing:
            raise fault('variable %s not sure on both sides of join' % min(clashing))
    return Variables(every, set().union(*[part.sure for part in parts]))


def read_query(text):
    """The tree of the text and the result's variables, or the one fault that is told."""
    if len(text) > LONGEST_QUERY:
        raise fault('longer than %d bytes' % LONGEST_QUERY)
    reader = QueryReader(text)
    query = reader.read()
    names = set().union(*(captures(atom.formula) for atom in reader.atoms))
    if any(len(names) > MOST_VARIABLES for names in reader.kept + [names]):
        raise fault('more than %d variables' % MOST_VARIABLES)
    of_lets = []
    for _, expr in query.lets:
        of_lets.append(variables(expr, of_lets))
    of_result = variables(query.body, of_lets).all
    refuse_tests(query.tests, of_result)
    return query, sorted(of_result)


def refuse_tests(tests, of_result):
    for test in tests:
        if test.variable not in of_result:
            raise fault('no variable %s to test' % test.variable)
    for test in tests:
        if test.name not in TESTS:
            raise fault('unknown test', test.at)
