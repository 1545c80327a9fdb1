"""Reads a query and works out its rows from those of its atoms, for `tests/cli/independent`.

A row is a frozenset of names with their spans, and an absent variable is not in it. So union and difference are those of sets, a join
is the union of two rows that agree on what both sides have, and a projection leaves pairs out.
"""
import re
from typing import NamedTuple

TOKEN = re.compile(r'\s*(/(?:\\.|[^/\\])*/(?:u(?!\w))?|[A-Za-z_]\w*|[(),;=])', re.S)


class Expression(NamedTuple):
    kind: str  # atom, union, minus, join or project
    names: frozenset  # its variables
    parts: tuple = ()  # expressions
    atom: str = ''


class Query(NamedTuple):
    body: Expression
    tests: tuple  # pairs of a test and a name


def variables_of(atom):
    return frozenset(re.findall(r'(?<!\\)(?:\\\\)*!([A-Za-z_]\w*)\{', atom))


class Reader:
    def __init__(self, text):
        self.tokens, at = [], 0
        while text[at:].strip():
            found = TOKEN.match(text, at)
            if not found:
                raise ValueError('no token at %d: %s' % (at, text))
            self.tokens.append(found[1])
            at = found.end()
        self.tokens.append('')
        self.at = 0
        self.named = {}

    def next(self, *wanted):
        """The next token, taken; or None where these are wanted and it is none of them."""
        token = self.tokens[self.at]
        if wanted and token not in wanted:
            return None
        self.at += 1
        return token

    def must(self, token):
        if self.next(token) is None:
            raise ValueError('no %s before token %d: %s' % (token, self.at, self.tokens))

    def query(self):
        while self.tokens[self.at] == 'let' and self.tokens[self.at + 2] == '=':
            self.next()
            name = self.next()
            self.must('=')
            self.named[name] = self.expression()
            self.must(';')
        body, tests = self.expression(), []
        if self.next('where'):
            while not tests or self.next(','):
                test = self.next()
                self.must('(')
                tests.append((test, self.next()))
                self.must(')')
        self.must('')
        return Query(body, tuple(tests))

    def expression(self):
        left = self.conjunction()
        while self.tokens[self.at] in ('union', 'minus'):
            kind = self.next()
            right = self.conjunction()
            left = Expression(kind, left.names | right.names, (left, right))
        return left

    def conjunction(self):
        left = self.unit()
        while self.next('join'):
            right = self.unit()
            left = Expression('join', left.names | right.names, (left, right))
        return left

    def unit(self):
        token = self.next()
        if token.startswith('/'):
            return Expression('atom', variables_of(token), atom=token)
        if token == '(':
            inner = self.expression()
            self.must(')')
            return inner
        if token == 'project':
            kept = [self.next()]
            while self.next(','):
                kept.append(self.next())
            self.must('(')
            inner = self.expression()
            self.must(')')
            return Expression('project', frozenset(kept) - {'none'}, (inner,))
        return self.named[token]


def read(text):
    return Reader(text).query()


def atoms_of(expression):
    if expression.kind == 'atom':
        return [expression]
    return [atom for part in expression.parts for atom in atoms_of(part)]


def rows_of(expression, rows_of_atom):
    """The rows, where this gives those of an atom."""
    if expression.kind == 'atom':
        return rows_of_atom(expression.atom)
    sides = [rows_of(part, rows_of_atom) for part in expression.parts]
    if expression.kind == 'union':
        return sides[0] | sides[1]
    if expression.kind == 'minus':
        return sides[0] - sides[1]
    if expression.kind == 'project':
        return {frozenset(pair for pair in row if pair[0] in expression.names) for row in sides[0]}
    shared = expression.parts[0].names & expression.parts[1].names
    by_shared = {}
    for row in sides[1]:
        by_shared.setdefault(frozenset(pair for pair in row if pair[0] in shared), []).append(row)
    return {row | other for row in sides[0] for other in by_shared.get(frozenset(pair for pair in row if pair[0] in shared), ())}


def is_luhn(text):
    if not re.fullmatch(rb'[0-9]+', text):
        return False
    digits = [byte - 48 for byte in reversed(text)]
    return sum(digit if k % 2 == 0 else sum(divmod(2 * digit, 10)) for k, digit in enumerate(digits)) % 10 == 0


TESTS = {'luhn': is_luhn, 'upper': lambda text: re.fullmatch(rb'[A-Z]+', text) is not None}


def passes(row, tests, data):
    spans = dict(row)
    return all(name in spans and TESTS[test](data[slice(*spans[name])]) for test, name in tests)


def in_order(rows, names):
    """The rows in the order in which they are written: by what begins and ends at each place, where more is first."""
    weights = {}
    for k, name in enumerate(sorted(names, reverse=True)):
        weights[name] = 2 << 2 * k, 1 << 2 * k

    def key(row):
        blocks = {}
        for name, (begin, end) in row:
            blocks[begin] = blocks.get(begin, 0) + weights[name][0]
            blocks[end] = blocks.get(end, 0) + weights[name][1]
        return [(place, -block) for place, block in sorted(blocks.items())] + [(float('inf'), 0)]

    return sorted(rows, key=key)
