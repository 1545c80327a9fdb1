"""What `--explain` and `--trial` write, by the rules of docs/FORMATS.md.

The third part of the reference: the printed form of a query, the numbers of an atom's automaton, and
the document of a trial. Each section states its rules in words and then says them once more in Python.
"""
from typing import NamedTuple

from query_text import (Alt, Atom, Cap, Cat, Empty, Join, Minus, Named, One, Project, Rep, Union, WORD_BYTES,
                        captures)

NOT_LINE_FEED = frozenset(range(256)) - {0x0a}
MOST_TOLD = (1 << 64) - 1  # the greatest number that is shown


# --- The printed form ----------------------------------------------------------------------------
#
# A letter, digit, low line or space is itself; line feed, tab and carriage return are \n, \t, \r; any
# other visible byte has a backslash before it; the rest are \x and two digits. A set of one byte is
# that byte, all bytes but the line feed are a dot, and any other set is its runs in brackets.

def byte_text(b):
    short = {0x0a: '\\n', 0x09: '\\t', 0x0d: '\\r'}
    if b in WORD_BYTES or b == 0x20:
        return chr(b)
    return short.get(b) or ('\\' + chr(b) if 0x21 <= b <= 0x7e else '\\x%02x' % b)


def runs_of(numbers):
    """The maximal runs of a set of numbers, ascending."""
    runs = []
    for b in sorted(numbers):
        if runs and runs[-1][1] == b - 1:
            runs[-1][1] = b
        else:
            runs.append([b, b])
    return runs


def set_text(numbers):
    if len(numbers) == 1:
        return byte_text(min(numbers))
    if numbers == NOT_LINE_FEED:
        return '.'
    return '[%s]' % ''.join(byte_text(first) + ('-' + byte_text(last) if first < last else '')
                            for first, last in runs_of(numbers))


def sign_of(least, most):
    usual = {(0, None): '*', (1, None): '+', (0, 1): '?'}
    if (least, most) in usual:
        return usual[least, most]
    if most is None:
        return '{%d,}' % least
    return '{%d}' % least if least == most else '{%d,%d}' % (least, most)


def formula_text(formula, inside=()):
    """The printed form, in parentheses where the formula is one of the kinds `inside`."""
    if isinstance(formula, inside):
        return '(%s)' % formula_text(formula)
    if isinstance(formula, Empty):
        return '()'
    if isinstance(formula, One):
        return set_text(formula.bytes)
    if isinstance(formula, Cat):
        return ''.join(formula_text(part, (Cat, Alt)) for part in formula.parts)
    if isinstance(formula, Alt):
        return '|'.join(formula_text(part, Alt) for part in formula.parts)
    if isinstance(formula, Rep):
        return formula_text(formula.part, (Cat, Alt, Rep)) + sign_of(formula.least, formula.most)
    return '!%s{%s}' % (formula.name, formula_text(formula.part))


def expr_text(expr, lets, inside=()):
    if isinstance(expr, inside):
        return '(%s)' % expr_text(expr, lets)
    if isinstance(expr, Atom):
        return '/%s%s%s/' % ('^' * expr.from_start, formula_text(expr.formula), '$' * expr.to_end)
    if isinstance(expr, Named):
        return lets[expr.place][0]
    if isinstance(expr, Project):
        return 'project %s (%s)' % (','.join(sorted(expr.keep)) or 'none', expr_text(expr.part, lets))
    if isinstance(expr, Minus):
        return ' minus '.join(expr_text(side, lets, (Union, Minus)) for side in (expr.left, expr.right))
    if isinstance(expr, Union):
        return ' union '.join(expr_text(part, lets, (Union, Minus)) for part in expr.parts)
    return ' join '.join(expr_text(part, lets, (Union, Minus, Join)) for part in expr.parts)


def query_text(query):
    lets = ''.join('let %s = %s; ' % (name, expr_text(expr, query.lets)) for name, expr in query.lets)
    tests = ', '.join('%s(%s)' % (test.name, test.variable) for test in query.tests)
    return lets + expr_text(query.body, query.lets) + (' where ' + tests if tests else '')


# --- The numbers of an atom ----------------------------------------------------------------------
#
# Each byte set is a place once repetitions are written out: f{m,} is m copies of which the last may be
# repeated, f{m,k} has k-m copies more, nested so that each may stand only where the one before it does.
# First, last and follow are counted as lists, by Glushkov's rules. Null is a set: of the sets of variables
# with which the empty string fits. Where the null set of a part, or that of the first parts of a concatenation,
# has more than 65,536 members, the number of ways is told as 2,000,001.

LARGEST_NULL = 65536
TOO_MANY_WAYS = 2000001
NO_VARIABLES = frozenset([0])


class Numbers(NamedTuple):
    null: frozenset  # a set of variables is a number, a bit for each
    places: int
    first: int
    last: int
    follow: int
    is_large: bool = False  # some null set was, and null is not the right one


NOTHING = Numbers(NO_VARIABLES, 0, 0, 0, 0)


def numbers_of(formula, bits):
    if isinstance(formula, Empty):
        return NOTHING
    if isinstance(formula, One):
        return Numbers(frozenset(), 1, 1, 1, 0)
    if isinstance(formula, Cap):
        inner = numbers_of(formula.part, bits)
        return inner._replace(null=frozenset(names | bits[formula.name] for names in inner.null))
    if isinstance(formula, Rep):
        return repeated(numbers_of(formula.part, bits), formula.least, formula.most)
    joined = beside if isinstance(formula, Cat) else either
    whole = numbers_of(formula.parts[0], bits)
    for part in formula.parts[1:]:
        whole = joined(whole, numbers_of(part, bits))
    return whole


def limited(numbers):
    """The same; of a large null set no member is kept."""
    return numbers._replace(null=frozenset(), is_large=True) if len(numbers.null) > LARGEST_NULL else numbers


def beside(f, g):
    is_large = f.is_large or g.is_large or len(f.null) * len(g.null) > LARGEST_NULL  # no variable is in both
    null = frozenset() if is_large else frozenset(e | k for e in f.null for k in g.null)
    return Numbers(null, f.places + g.places, f.first + len(f.null) * g.first, g.last + f.last * len(g.null),
                   f.follow + g.follow + f.last * g.first, is_large)


def either(f, g):
    return limited(Numbers(f.null | g.null, f.places + g.places, f.first + g.first, f.last + g.last,
                           f.follow + g.follow, f.is_large or g.is_large))


def or_nothing(f):
    return limited(f._replace(null=f.null | NO_VARIABLES))


def repeated(f, least, most):
    if most is None:
        looped = f._replace(follow=f.follow + f.last * f.first)
        copies = [f] * (least - 1) + [looped if least else or_nothing(looped)]
    else:
        tail = NOTHING
        for _ in range(most - least):
            tail = or_nothing(beside(f, tail))
        copies = [f] * least + [tail] * (most > least)
    whole = copies[0] if copies else NOTHING
    for copy in copies[1:]:
        whole = beside(whole, copy)
    return whole


def atom_numbers(atom):
    bits = {name: 1 << k for k, name in enumerate(sorted(captures(atom.formula)))}
    return numbers_of(atom.formula, bits)


def counts_of(atom):
    found = atom_numbers(atom)
    to_after = 0 if atom.to_end else found.last + 1 + len(found.null)
    states = 1 + found.places + (not atom.to_end)
    ways = found.first + found.follow + (not atom.from_start) + to_after
    if found.is_large:
        ways = TOO_MANY_WAYS
    return min(states, MOST_TOLD), min(ways, MOST_TOLD)


# --- The parts of a query ------------------------------------------------------------------------

def parts_of(expr):
    """The expressions that one is made of, from left to right."""
    if isinstance(expr, (Atom, Named)):
        return ()
    if isinstance(expr, Project):
        return (expr.part,)
    return (expr.left, expr.right) if isinstance(expr, Minus) else expr.parts


def atoms_of(expr):
    """The atoms of an expression, from left to right."""
    return [expr] if isinstance(expr, Atom) else [atom for part in parts_of(expr) for atom in atoms_of(part)]


def query_exprs(query):
    """Those of all lets in their order, and then the body."""
    return [expr for _, expr in query.lets] + [query.body]


def query_atoms(query):
    return [atom for expr in query_exprs(query) for atom in atoms_of(expr)]


# --- Both modes ----------------------------------------------------------------------------------

def explained(query, names):
    lines = ['query ' + query_text(query), 'variables ' + (' '.join(names) or 'none')]
    for number, atom in enumerate(query_atoms(query), 1):
        lines.append('atom %d states %d ways %d' % ((number,) + counts_of(atom)))
    return ''.join(line + '\n' for line in lines).encode()


def trial_document(lines):
    """Each third line, from the first on, tells of a login."""
    def line(i):
        if i % 3:
            return 'tick %d\n' % i
        return 'u%d logged in from 10.%d.%d.%d\n' % (i % 97, i % 256, i // 7 % 256, i % 10)

    return ''.join(map(line, range(lines))).encode()


def summed(lines, document, shown):
    """The summary of a trial, whose rows are shown as these lines."""
    first, last = (shown[0], shown[-1]) if shown else ('none', 'none')
    return ('lines %d\nbytes %d\nrows %d\nfirst %s\nlast %s\n'
            % (lines, len(document), len(shown), first, last)).encode()
