"""The rows of a formula on a document, by Python's `re` and by PCRE2 where it is installed.

By `re`: a part without captures is one pattern, and each place where it may end is tried (`fullmatch`). What is around it, captures,
arms and parts that follow each other, is put together here. By PCRE2: the whole formula is one pattern with `(*FAIL)` at its end,
so that every way is tried, and each is told before it fails.

A row is a frozenset of names with their spans, counted in bytes; an absent variable is not in it.
"""
import ctypes
import ctypes.util
import re

from patterns import Capture, Choice, Leaf, read

BEYOND = 100_000_000  # ways that PCRE2 tries at most


class Document:
    """The bytes of a document, and its characters with their places."""

    def __init__(self, data):
        self.data = data
        self.text = data.decode('utf-8')
        self.letters = sorted(set(self.text))
        self.places = [0]
        for sign in self.text:
            self.places.append(self.places[-1] + len(sign.encode()))


class ByRe:
    """All ways in which a formula fits, found part by part."""

    def __init__(self, formula, document):
        self.formula = formula
        self.subject = document.text if formula.over_characters else document.data
        self.places = document.places if formula.over_characters else range(len(document.data) + 1)
        self.compiled = {}
        self.known = {}

    def pattern(self, text):
        if text not in self.compiled:
            self.compiled[text] = re.compile(text if self.formula.over_characters else text.encode('latin-1'), re.ASCII)
        return self.compiled[text]

    def ends(self, leaf, at):
        """Where a part without captures may end that begins here."""
        if not self.pattern(leaf.pattern).match(self.subject, at):
            return []
        last = self.pattern('(?:%s)*' % '|'.join(leaf.units)).match(self.subject, at).end() if leaf.units else at
        if leaf.most is not None:
            last = min(last, at + leaf.most)
        whole = self.pattern(leaf.pattern)
        return [end for end in range(at, last + 1) if whole.fullmatch(self.subject, at, end)]

    def ways(self, part, at):
        """Where the part may end that begins here, each with what it captures."""
        key = id(part), at
        if key not in self.known:
            self.known[key] = frozenset(self.found(part, at))
        return self.known[key]

    def found(self, part, at):
        if isinstance(part, Leaf):
            return ((end, frozenset()) for end in self.ends(part, at))
        if isinstance(part, Capture):
            return ((end, taken | {(part.name, (self.places[at], self.places[end]))}) for end, taken in self.ways(part.part, at))
        if isinstance(part, Choice):
            return (way for arm in part.arms for way in self.ways(arm, at))
        ways = {(at, frozenset())}
        for one in part.parts:
            ways = {(end, taken | more) for begin, taken in ways for end, more in self.ways(one, begin)}
        return ways

    def begins(self, part):
        """The places where the first pattern of the part fits."""
        if isinstance(part, Leaf):
            return {found.start() for found in self.pattern('(?=%s)' % part.pattern).finditer(self.subject)}
        if isinstance(part, Capture):
            return self.begins(part.part)
        if isinstance(part, Choice):
            return set().union(*map(self.begins, part.arms))
        return self.begins(part.parts[0])

    def rows(self):
        starts = self.begins(self.formula.tree) & {0} if self.formula.at_start else self.begins(self.formula.tree)
        return {taken for at in starts for end, taken in self.ways(self.formula.tree, at)
                if end == len(self.subject) or not self.formula.at_end}


def rows_by_re(atom, document):
    """The rows, or None where `re` has not what the atom has."""
    formula = read(atom, document.letters)
    return ByRe(formula, document).rows() if formula.has_re else None


# --- PCRE2 ---------------------------------------------------------------------------------------

SIZE = ctypes.c_size_t
UNSET = SIZE(-1).value
UTF, NO_AUTO_POSSESS, NO_DOTSTAR_ANCHOR, NO_START_OPTIMIZE = 0x00080000, 0x00004000, 0x00008000, 0x00010000
NO_MATCH = -1


class Block(ctypes.Structure):
    """What a callout is told (pcre2_callout_block, version 0 and on)."""
    _fields_ = [('version', ctypes.c_uint32), ('number', ctypes.c_uint32), ('capture_top', ctypes.c_uint32),
                ('capture_last', ctypes.c_uint32), ('offsets', ctypes.POINTER(SIZE))]


CALLOUT = ctypes.CFUNCTYPE(ctypes.c_int, ctypes.POINTER(Block), ctypes.c_void_p)


class Pcre2:
    """The library, found by the system; `found` is False where there is none."""

    def __init__(self):
        name = ctypes.util.find_library('pcre2-8')
        self.found = name is not None
        if not self.found:
            return
        self.library = ctypes.CDLL(name)
        for call in ('compile', 'match_context_create', 'match_data_create_from_pattern'):
            self.call(call).restype = ctypes.c_void_p

    def call(self, name):
        return getattr(self.library, 'pcre2_%s_8' % name)

    def compiled(self, formula):
        error, offset = ctypes.c_int(), SIZE()
        text = ('(?:%s)(?C1)(*FAIL)' % formula.pcre).encode()
        options = NO_AUTO_POSSESS | NO_DOTSTAR_ANCHOR | NO_START_OPTIMIZE | (UTF if formula.over_characters else 0)
        code = self.call('compile')(text, SIZE(len(text)), ctypes.c_uint32(options), ctypes.byref(error), ctypes.byref(offset), None)
        if not code:
            raise ValueError('PCRE2 does not take %r: error %d at %d' % (text, error.value, offset.value))
        return ctypes.c_void_p(code)

    def rows(self, atom, document):
        """The rows, or None where PCRE2 gives up."""
        formula = read(atom, document.letters)
        found = set()

        def note(block, _):
            told = block.contents
            spans = [(name, (told.offsets[2 * k], told.offsets[2 * k + 1])) for k, name in enumerate(formula.names, 1) if k < told.capture_top]
            found.add(frozenset(one for one in spans if UNSET not in one[1]))
            return 0

        code, context = self.compiled(formula), ctypes.c_void_p(self.call('match_context_create')(None))
        matches = ctypes.c_void_p(self.call('match_data_create_from_pattern')(code, None))
        callout = CALLOUT(note)
        self.call('set_callout')(context, callout, None)
        self.call('set_match_limit')(context, ctypes.c_uint32(BEYOND))
        data = document.data
        ended = self.call('match')(code, data, SIZE(len(data)), SIZE(0), ctypes.c_uint32(0), matches, context)
        self.call('match_data_free')(matches)
        self.call('match_context_free')(context)
        self.call('code_free')(code)
        return found if ended == NO_MATCH else None
