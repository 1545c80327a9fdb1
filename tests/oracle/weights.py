"""How large the automata of a query are, and what reading a document by them weighs.

The fourth part of the reference: the automaton of each part of a query, made as it is counted and with
nothing left out, the sets of states by which a document is read, and the two readings of a filter. The
program may hold less, so these are bounds: it never refuses what is within the limit here. Each section
states its rules in words and then says them once more in Python.
"""
from typing import NamedTuple

from modes import atom_numbers, counts_of, parts_of, query_atoms, query_exprs
from query_text import Atom, Cap, Cat, Empty, Minus, Named, One, Project, Rep, Union, variables

MOST_WAYS = 5000  # of an atom, with its ends; past it no automaton is made
MOST_PAIRS = 200000  # of ways, of a join or a difference
MOST_MADE = 20000  # states, of a difference
MOST_TRIED = 3000000  # ways of the right side of a difference, each on each set of bytes that it may cut
UNKNOWN = 1 << 100  # how many there are of what is too much to be counted


class TooMuch(Exception):
    """The automaton would be too large to be made here."""


# --- Automata ------------------------------------------------------------------------------------
#
# A way goes from a state to a state, takes a block of marks and one byte of a set. An end is a state
# with the block that it takes at the document's end. Blocks are numbers, two bits for each name of the
# query text: one where it opens, one where it closes. Sets of bytes are numbers of 256 bits.

class Automaton(NamedTuple):
    states: int
    starts: frozenset
    ways: list  # of (from, marks, bytes, to)
    ends: list  # of (state, marks)
    idle: frozenset


ALL_BYTES = (1 << 256) - 1


def bits_of(numbers):
    return sum(1 << b for b in numbers)


class Bits:
    """The bits of each name, in the order of first sight."""

    def __init__(self):
        self.places = {}

    def opening(self, name):
        return 1 << 2 * self.places.setdefault(name, len(self.places))

    def of(self, names):
        return sum(3 * self.opening(name) for name in names)


# --- The automaton of an atom --------------------------------------------------------------------
#
# Each byte set is a place once repetitions are written out: f{m,} is m copies of which the last may be
# repeated, for m = 0 one that may be repeated or left out; f{m,k} has k-m copies more, nested so that
# each may stand only where the one before it does. Between two places lie the marks of what opens and
# closes there.

class Part(NamedTuple):
    empty: frozenset  # of the marks with which the empty string fits; none where it does not
    first: list  # of (place, marks before it)
    last: list  # of (place, marks behind it)
    follow: list  # of (place, place, marks between)


NO_MARKS = frozenset([0])
NOTHING = Part(NO_MARKS, [], [], [])


def beside(f, g):
    return Part(frozenset(e | k for e in f.empty for k in g.empty),
                f.first + [(p, e | m) for e in f.empty for p, m in g.first],
                g.last + [(p, m | e) for p, m in f.last for e in g.empty],
                f.follow + g.follow + [(p, q, m | k) for p, m in f.last for q, k in g.first])


def either(f, g):
    return Part(f.empty | g.empty, f.first + g.first, f.last + g.last, f.follow + g.follow)


def or_nothing(f):
    return f._replace(empty=f.empty | NO_MARKS)


def again(f):
    return f._replace(follow=f.follow + [(p, q, m | k) for p, m in f.last for q, k in f.first])


class Places:
    """The places of one atom, as they are met: a set of bytes each."""

    def __init__(self, bits):
        self.bits = bits
        self.bytes = []

    def part(self, formula):
        if isinstance(formula, Empty):
            return NOTHING
        if isinstance(formula, One):
            self.bytes.append(bits_of(formula.bytes))
            here = [(len(self.bytes), 0)]
            return Part(frozenset(), here, here, [])
        if isinstance(formula, Cap):
            return self.captured(formula)
        if isinstance(formula, Rep):
            return self.repeated(formula)
        joined = beside if isinstance(formula, Cat) else either
        whole = self.part(formula.parts[0])
        for part in formula.parts[1:]:
            whole = joined(whole, self.part(part))
        return whole

    def captured(self, formula):
        opening = self.bits.opening(formula.name)
        inner = self.part(formula.part)
        return Part(frozenset(marks | 3 * opening for marks in inner.empty),
                    [(p, m | opening) for p, m in inner.first],
                    [(p, m | 2 * opening) for p, m in inner.last], inner.follow)

    def repeated(self, formula):
        least, most = formula.least, formula.most
        if most is None:
            copies = [self.part(formula.part) for _ in range(max(1, least))]
            copies[-1] = again(copies[-1])
            if not least:
                copies[-1] = or_nothing(copies[-1])
        else:
            copies = [self.part(formula.part) for _ in range(least)]
            tail = NOTHING
            for copy in [self.part(formula.part) for _ in range(most - least)]:
                tail = or_nothing(beside(copy, tail))
            copies.append(tail)
        whole = copies[0]
        for copy in copies[1:]:
            whole = beside(whole, copy)
        return whole


def of_atom(atom, bits):
    """State 0 is Before, then come the places, and last After where the atom is not tied to the end."""
    numbers = atom_numbers(atom)
    ways = numbers.first + numbers.follow + numbers.last + len(numbers.null)
    if numbers.is_large or ways > MOST_WAYS:
        raise TooMuch
    places = Places(bits)
    whole = places.part(atom.formula)
    count = len(places.bytes)
    after = count + 1
    ways = [(0, m, places.bytes[p - 1], p) for p, m in whole.first]
    ways += [(p, m, places.bytes[q - 1], q) for p, q, m in whole.follow]
    ends = whole.last + [(0, marks) for marks in whole.empty]
    idle = set()
    if not atom.from_start:
        ways.append((0, 0, ALL_BYTES, 0))
        idle.add(0)
    if not atom.to_end:
        ways += [(p, m, ALL_BYTES, after) for p, m in ends] + [(after, 0, ALL_BYTES, after)]
        ends.append((after, 0))
        idle.add(after)
    return Automaton(count + 1 + (not atom.to_end), frozenset([0]), ways, ends, frozenset(idle))


# --- The automata of expressions -----------------------------------------------------------------
#
# A union has both automata beside each other. A projection has that of its inner expression, its other
# marks left out. A join has all pairs of states, the pairs of ways whose marks agree on the shared
# variables and whose byte sets meet, and the pairs of ends whose marks agree on them; a pair is idle
# where both are. Unions and joins of more parts are taken from left to right, and each step is a part of
# the query.
#
# A difference has the pairs of a state of the left side and a set of states of the right side that are reached
# together, from a left start and the set of all right starts. A way of the left gives from such a pair one way
# for each set to which the right's set goes on its marks and some of its bytes, over just these bytes. A left end
# is an end of the pair unless a member of the set has an end with the same marks. No state is idle.

def union(a, b):
    up = a.states
    return Automaton(up + b.states, a.starts | {up + p for p in b.starts},
                     a.ways + [(up + p, m, s, up + q) for p, m, s, q in b.ways],
                     a.ends + [(up + p, m) for p, m in b.ends],
                     a.idle | {up + p for p in b.idle})


def project(a, kept):
    return a._replace(ways=[(p, m & kept, s, q) for p, m, s, q in a.ways],
                      ends=[(p, m & kept) for p, m in a.ends])


def join(a, b, shared):
    if len(a.ways) * len(b.ways) > MOST_PAIRS:
        raise TooMuch
    n = b.states
    ways = [(p * n + v, m | k, s & t, q * n + w) for p, m, s, q in a.ways for v, k, t, w in b.ways
            if m & shared == k & shared and s & t]
    ends = [(p * n + v, m | k) for p, m in a.ends for v, k in b.ends if m & shared == k & shared]
    return Automaton(a.states * n, frozenset(p * n + v for p in a.starts for v in b.starts), ways, ends,
                     frozenset(p * n + v for p in a.idle for v in b.idle))


def by_state(items):
    """The rest of each item, in a list for each state that stands first in one."""
    found = {}
    for item in items:
        found.setdefault(item[0], []).append(item[1:])
    return found


class Difference:
    """The making of the automaton of a difference."""

    def __init__(self, a, b):
        self.a, self.b = a, b
        self.ways_of_a, self.ways_of_b = by_state(a.ways), by_state(b.ways)
        self.ends_of_a, self.ends_of_b = by_state(a.ends), by_state(b.ends)
        self.pairs = []  # in the order in which they are reached
        self.numbers = {}  # their places in that list
        self.known = {}  # where sets go on marks
        self.tried = 0

    def made(self):
        starts = frozenset(self.number(p, self.b.starts) for p in self.a.starts)
        ways, ends = [], []
        for here, (p, members) in enumerate(self.pairs):  # which grows
            ways += [(here, m, s & t, self.number(q, reached)) for m, s, q in self.ways_of_a.get(p, ())
                     for t, reached in self.parts(members, m) if s & t]
            less = {end for q in members for end in self.ends_of_b.get(q, ())}
            ends += [(here,) + end for end in self.ends_of_a.get(p, ()) if end not in less]
            if len(ways) > MOST_PAIRS:
                raise TooMuch
        return Automaton(len(self.pairs), starts, ways, ends, frozenset())

    def number(self, p, members):
        pair = p, members
        if pair not in self.numbers:
            if len(self.pairs) == MOST_MADE:
                raise TooMuch
            self.numbers[pair] = len(self.pairs)
            self.pairs.append(pair)
        return self.numbers[pair]

    def parts(self, members, marks):
        """Where the set goes on these marks: sets of bytes, each with the set that is reached on them."""
        if (members, marks) not in self.known:
            parts = {frozenset(): ALL_BYTES}
            for q in members:
                for m, s, state in self.ways_of_b.get(q, ()):
                    if m == marks:
                        parts = self.cut(parts, s, state)
            self.known[members, marks] = [(t, reached) for reached, t in parts.items()]
        return self.known[members, marks]

    def cut(self, parts, s, state):
        """The same, where on the bytes of s the state is reached too."""
        self.tried += len(parts)
        if self.tried > MOST_TRIED:
            raise TooMuch
        found = {}
        for reached, t in parts.items():
            for inside, to in ((t & s, reached | {state}), (t & ~s, reached)):
                if inside:
                    found[to] = found.get(to, 0) | inside
        return found


class Made:
    """The automata of the parts of a query, made where they are asked for."""

    def __init__(self, query):
        self.query = query
        self.bits = Bits()
        self.lets = {}  # their automata
        self.names = []  # their variables, and which are sure
        for _, expr in query.lets:
            self.names.append(variables(expr, self.names))

    def of(self, expr):
        if isinstance(expr, Named):
            if expr.place not in self.lets:
                self.lets[expr.place] = self.of(self.query.lets[expr.place][1])
            return self.lets[expr.place]
        if isinstance(expr, Minus):
            return Difference(self.of(expr.left), self.of(expr.right)).made()
        if isinstance(expr, Atom):
            return of_atom(expr, self.bits)
        if isinstance(expr, Project):
            return project(self.of(expr.part), self.bits.of(expr.keep))
        whole, names = self.of(expr.parts[0]), variables(expr.parts[0], self.names).all
        for part in expr.parts[1:]:
            other, more = self.of(part), variables(part, self.names).all
            whole = (union(whole, other) if isinstance(expr, Union)
                     else join(whole, other, self.bits.of(names & more)))
            names = names | more
        return whole


def sizes_of(query):
    """The numbers of states and of ways of each part of a query. Of a join's ways this is a bound from above."""
    parts, of_lets, made = [], [], Made(query)

    def told(size):
        parts.append(size)
        return size

    def size_of(expr):
        if isinstance(expr, Named):
            return of_lets[expr.place]
        if isinstance(expr, Atom):
            return told(counts_of(expr))
        if isinstance(expr, Project):
            return told(size_of(expr.part))
        if isinstance(expr, Minus):
            size_of(expr.left)
            size_of(expr.right)
            return told(size_of_minus(expr))
        states, ways = size_of(expr.parts[0])
        for part in expr.parts[1:]:
            more_states, more_ways = size_of(part)
            if isinstance(expr, Union):
                states, ways = told((states + more_states, ways + more_ways))
            else:
                states, ways = told((states * more_states, ways * more_ways))
        return states, ways

    def size_of_minus(expr):
        try:
            whole = made.of(expr)
        except TooMuch:
            return UNKNOWN, UNKNOWN
        return whole.states, len(whole.ways)

    for _, expr in query.lets:
        of_lets.append(size_of(expr))
    size_of(query.body)
    return parts


# --- Reading by sets of states -------------------------------------------------------------------
#
# Reading goes from the set of start states. At a position of K a set has for each block that its members
# take on the byte there one edge, to the set of all states so reached. At the first position of a gap,
# which is a longest run of positions that are not in K, it has one edge without marks to the set of its
# idle members, if there are any; the other positions of the gap change nothing. At the end it has one edge
# for each block of its members' ends. A look-up is a set with the byte that was read from it, with the idle
# step that was taken from it, or with the end. The weight is 1 and its members for each set that is
# reached, and 1 and its edges for each look-up.

class Reading:
    def __init__(self, automaton):
        self.idle = automaton.idle
        self.ways, self.ends = by_state(automaton.ways), by_state(automaton.ends)
        self.layer = [automaton.starts]  # the sets that are reached here
        self.sets = {automaton.starts}
        self.look_ups = {}  # the edges of each look-up, as the sets that they lead to

    def edges(self, members, asked):
        if asked == 'end':
            return [None] * len(set().union(*(self.ends.get(p, ()) for p in members)))
        if asked == 'rest':
            return [members & self.idle] if members & self.idle else []
        reached = {}
        for p in members:
            for m, s, q in self.ways.get(p, ()):
                if s >> asked & 1:
                    reached.setdefault(m, set()).add(q)
        return [frozenset(states) for states in reached.values()]

    def step(self, asked):
        following = []
        for members in self.layer:
            if (members, asked) not in self.look_ups:
                self.look_ups[members, asked] = self.edges(members, asked)
            following += self.look_ups[members, asked]
        self.layer = list(dict.fromkeys(following))
        if asked != 'end':
            self.sets.update(self.layer)

    def weight(self):
        return sum(1 + len(members) for members in self.sets) + sum(1 + len(edges) for edges in self.look_ups.values())


def table_weight(automaton, document, positions):
    reading = Reading(automaton)
    in_gap = False
    for i in range(len(document) + 1):
        if i in positions:
            if i < len(document):
                reading.step(document[i])
            in_gap = False
        elif not in_gap:
            reading.step('rest')
            in_gap = True
    reading.step('end')
    return reading.weight()


# --- The filter ----------------------------------------------------------------------------------
#
# A position is touched by an atom where some part a-b fits with a <= i <= b. The filter of an atom reads its
# automaton without marks forwards, and backwards the same without Before's way to itself, turned round and
# begun in the states that have an end. It weighs what both readings do, and 1 for each pair of a set
# forwards and a set backwards that stand at one position.

def touched(atom, meaning):
    document = meaning.document
    found = set()
    for i in [0] if atom.from_start else range(len(document) + 1):
        for j, _ in meaning.fits(atom.formula, i):
            if not atom.to_end or j == len(document):
                found.update(range(i, j + 1))
    return found


def filter_weight(atom, document):
    automaton = project(of_atom(atom, Bits()), 0)
    turned = [(q, m, s, p) for p, m, s, q in automaton.ways if not p == q == 0]
    begun = frozenset(p for p, _ in automaton.ends)
    ahead, behind = Reading(automaton), Reading(automaton._replace(starts=begun, ways=turned))
    layers = [ahead.layer]
    for b in document:
        ahead.step(b)
        layers.append(ahead.layer)
    pairs = {(f, b) for f in layers[-1] for b in behind.layer}
    for i in range(len(document) - 1, -1, -1):
        behind.step(document[i])
        pairs |= {(f, b) for f in layers[i] for b in behind.layer}
    return ahead.weight() + behind.weight() + len(pairs)


# --- A query on a document -----------------------------------------------------------------------

class Weights(NamedTuple):
    table: int
    filters: list  # of each atom of the query text; empty where none is filtered


def has_minus(expr):
    return isinstance(expr, Minus) or any(map(has_minus, parts_of(expr)))


def weights_of(query, meaning, filtered):
    """TooMuch comes where an automaton is too large to be made here. With a difference in the text of the query all
    positions are read, and nothing is filtered."""
    document = meaning.document
    positions = set(range(len(document) + 1))
    filters = []
    if filtered and not any(map(has_minus, query_exprs(query))):
        atoms = query_atoms(query)
        positions = set().union(*(touched(atom, meaning) for atom in atoms))
        filters = [filter_weight(atom, document) for atom in atoms]
    return Weights(table_weight(Made(query).of(query.body), document, positions), filters)
