"""Queries at both limits of nesting: a hundred parentheses round an atom of a hundred groups.

Each is told with whether it has its one row on the document `a`: there each atom fits the whole of the document or
nothing, so that each expression has the one row or none, and a parenthesis keeps that or turns it round.
"""
from typing import NamedTuple

MOST_OPEN = 100
NAMES = list('abcdefghijklmnopqrstuvwxyz') + ['z%d' % k for k in range(6)]  # as many as there may be


class Deep(NamedTuple):
    name: str
    text: str
    var: str  # the variable of the result, or none
    has_row: bool
    is_sample: bool  # the formula is one of a few


# What stands in one parenthesis round F, in a formula.
GROUPS = ['(F)', '(F)*', '(F)+', '(F)?', '(F){1}', '(b?F)', '(Fb?)', '(F|b)', '(b|F)', '(b?F|b)?', '(b|Fb?){1}']
OPTIONAL = ['(F)?', '(b?F|b){0,1}']
UNITS = ['[a-c]', '.', r'\w']

# What stands in one parenthesis round X, in an expression, where L has the row, N has none and V is the variable; and
# whether that has the row where X has none.
PARENTHESES = [('(X union N)', False), ('(N union X)', False), ('(X join L)', False), ('(L join X)', False), ('(X minus N)', False),
               ('(L minus X)', True), ('project V (X)', False), ('project V (X join every)', False),
               ('project V (N union L minus L join X)', True), ('project V (N minus N union L join X union N)', False),
               ('project V (X join L union N minus N union N)', False)]
DEEPEST = 3  # so many of the last ones are put round each formula, and the others round each eighth


def formula(shape, times, unit):
    """A unit in so many groups of this shape."""
    text = unit
    for _ in range(times):
        text = shape.replace('F', text, 1)
    return text


def captured(shape, inner):
    """The formula in a capture of each name, the first one outermost; in the shape `F` stands for what is inside, and V for the name."""
    for name in reversed(NAMES):
        inner = shape.replace('V', name, 1).replace('F', inner, 1)
    return inner


def formulas():
    """The formulas, each with a name and with the variable of which it is kept, if it has any variables."""
    for shape in GROUPS:
        yield 'of ' + shape, formula(shape, MOST_OPEN, 'a'), None
    for unit in UNITS:
        yield 'of (F) round ' + unit, formula('(F)', MOST_OPEN, unit), None
    left = MOST_OPEN - len(NAMES)
    for shape in GROUPS:
        yield 'of captures and %s' % shape, captured('!V{F}', formula(shape, left, 'a')), 'a'
    for shape in OPTIONAL:
        yield 'of %s and captures' % shape, formula(shape, left, captured('!V{F}', 'a')), 'none'
    yield 'of captures of arms', captured('!V{b?F|b}', formula('(b?F|b)?', left, 'a')), 'a'
    yield 'of captures left out', captured('(!V{F})?', formula('(F)?', left - len(NAMES), 'a')), 'none'
    yield 'of repeated captures', captured('!V{b?F|b}{1}', formula('(b?F|b)?', left, 'a')), 'a'


def nested(shape, turns, times, inner, var):
    """An expression, and whether it has the row, in so many parentheses of this shape."""
    text, has_row = inner
    least = ('/^a$/', '/^b$/') if var == 'none' else ('/^!a{a}$/', '/^!a{b}$/')
    for key, value in zip('VLN', (var,) + least):
        shape = shape.replace(key, value)
    for _ in range(times):
        text = shape.replace('X', text, 1)
        has_row = has_row != turns
    return text, has_row


def deep_queries():
    every = 'let every=/^%s$/;' % captured('!V{F}', 'a')
    atoms = [(name, '/^%s$/' % text, sure) for name, text, sure in formulas()]
    atoms.append(('of (F) round the letters', '/^%s$/u' % formula('(F)', MOST_OPEN, r'\p{L}'), None))
    atoms.append(('of captures and letters', '/^%s$/u' % captured('!V{F}', formula('(b?F|b)?', MOST_OPEN - len(NAMES), r'\p{L}')), 'a'))
    for number, (name, atom, kept) in enumerate(atoms):
        shapes = PARENTHESES if number % 8 == 0 else PARENTHESES[-DEEPEST:]
        inner, left = ((atom, True), MOST_OPEN) if kept is None else (('project %s (%s)' % (kept, atom), True), MOST_OPEN - 1)
        var = kept or 'none'
        for shape, turns in shapes:
            text, has_row = nested(shape, turns, left, inner, var)
            yield Deep('%s %s' % (shape, name), every * ('every' in shape) + text, var, has_row, number % 8 == 0)
