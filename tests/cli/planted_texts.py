"""Formulas with texts between boundaries, as users write them, and documents in which matches of them are planted.

`planted` compares the program with an evaluator on them. A boundary is a formula of one byte, as `[^\\w]` or a line feed. The runs
beside it are of a class that has none of its bytes. Python 3.8, standard library.
"""
import re
from typing import NamedTuple, Optional

EDGES = [  # a boundary, the bytes that it has, the class of the runs beside it, and bytes of that class
    ('[^\\w]', ' .,\n', '\\w', 'cd_0'), ('\n', '\n', '[^\n]', 'cd ,'), ('"', '"', '[^"]', 'cd /'), (',', ',', '[^,]', 'cd .'),
    ('[,;]', ',;', '[^,;]', 'cd.'), (' ', ' ', '[^ ]', 'cd.9')]
SIGNS = '\n",; '  # boundaries of one byte
NEEDLES = ['abab', 'aab', 'aaab', 'ab', 'aa', 'b', 'z', ' of ', 'timeout', ' from ', 'ing', 'a0']
COMMON = ['took ', 'id=', ' rc=', 'GET']  # texts that a document has again and again, beside one that is rare
MOTIFS = ['GGTACC', 'CAAT', 'CCGG', 'TATA', 'GG', 'A']
BASES = ['ACGT', 'CGT', 'CT', 'ACG']  # of a document without boundaries
SHORT, LONG = [40, 130, 400, 1200], [20000, 30000, 50000, 65000]  # a search behind a boundary begins at some 15,000 bytes
BORDERS = [64, 128, 1024, 4096, 16384, 32768, 65536]


class Part(NamedTuple):
    """A part of a formula: its text, the same for `re`, the most bytes that it takes and a text that fits it."""
    text: str
    pattern: str
    most: int
    sample: str
    name: Optional[str] = None
    optional: bool = False
    runs: bool = False  # whether it takes a run of bytes, however long
    inside: tuple = ()  # the parts that it consists of
    is_text: bool = False  # whether it is a text, or one of some


def literal(word):
    return Part(word.replace('.', r'\.'), re.escape(word), len(word), word, is_text=True)


def one_of(words, sample):
    return Part('(%s)' % '|'.join(words), '(?:%s)' % '|'.join(map(re.escape, words)), max(map(len, words)), sample, is_text=True)


def sign_of(sign):
    """A boundary of one byte."""
    return Part(sign, sign, 1, sign)


def overlapped(word):
    """A text twice, the second as early in the first as it fits: `ababab` of `abab`."""
    return next(word[:k] + word for k in range(1, len(word) + 1) if word.startswith(word[k:]))


def group(name, parts):
    """Some parts under one capture."""
    return Part(''.join(part.text for part in parts), ''.join(part.pattern for part in parts), sum(part.most for part in parts),
                ''.join(part.sample for part in parts), name, inside=tuple(parts))


class Bounded:
    """Draws formulas of one kind of boundary, whose captures have the given names."""

    def __init__(self, pick, names):
        self.pick, self.names = pick, list(names)
        self.edge, self.edge_bytes, self.letters, self.fill = pick.choice(EDGES)
        self.form = pick.choice(self.FORMS)
        self.common = []  # texts of the formula that the document has in each line
        self.bases = ''  # those of the document, if it is of bases

    def name(self):
        """The next name, if one is left."""
        return self.names.pop(0) if self.names else None

    def boundary(self):
        return Part(self.edge, self.edge, 1, self.pick.choice(self.edge_bytes))

    def some(self, letters=None, fill=None):
        """A run of the class beside the boundary, or of another."""
        letters, sign = letters or self.letters, self.pick.choice('+*')
        sample = ''.join(self.pick.choice(fill or self.fill) for _ in range(self.pick.randint(1, 4)))
        return Part(letters + sign, letters + sign, 40, sample, runs=True)

    def needle(self):
        return literal(self.pick.choice(NEEDLES + [self.edge * 2] * (len(self.edge) == 1)))

    def needles(self):
        words = sorted({self.pick.choice(NEEDLES) for _ in range(self.pick.randint(2, 4))})
        return one_of(words, self.pick.choice(words))

    def perhaps(self, part):
        return [part] if self.pick.random() < 0.6 else []

    # The forms, each as its parts.

    def around(self):
        """Runs before and behind a text: `[^\\w]!x{\\w+} of !y{\\w+}[^\\w]`."""
        behind = self.perhaps(self.some()._replace(name=self.names[1] if len(self.names) > 1 else None))
        parts = [self.boundary(), self.some()._replace(name=self.name()), self.needle()] + behind
        self.names = self.names[1:] if behind else self.names
        return parts + self.perhaps(self.boundary())

    def holding(self):
        """A line, a word or a field that has a text: `\\n!x{[^\\n]*timeout[^\\n]*}\\n`."""
        return [self.boundary(), group(self.name(), self.perhaps(self.some()) + [self.needle()] + self.perhaps(self.some())), self.boundary()]

    def ending(self):
        """A text at the end, with no boundary in front: `!x{\\w+}ing `."""
        return [self.some()._replace(name=self.name()), self.needle(), self.boundary()]

    def closing(self):
        """The same as a text with its boundary: `!x{\\w+}ing `."""
        word, sign = self.pick.choice(NEEDLES), self.pick.choice(self.edge_bytes)
        return self.perhaps(self.boundary()) + [self.some()._replace(name=self.name()), literal(word + sign)]

    def choosing(self):
        """Alternatives of a text: `[^\\w]!x{\\w+(tion|ment)}[^\\w]`, `[^\\w]!x{\\w+}(ab|abab)!y{\\w+}[^\\w]`."""
        if self.pick.random() < 0.5:
            return [self.boundary(), group(self.name(), self.perhaps(self.some()) + [self.needles()]), self.boundary()]
        return [self.boundary(), self.some()._replace(name=self.name()), self.needles(), self.some()._replace(name=self.name()), self.boundary()]

    def apart(self):
        """Other boundaries behind than in front, and perhaps one between: `\\n!x{[^\\n",]*},!y{[^\\n",]*ing[^\\n",]*}"`."""
        front, between, behind = self.pick.sample(SIGNS, 3)
        letters = '[^%s%s%s]' % (front, between, behind)
        first = self.perhaps(self.some(letters, 'cd0'))
        if first:
            first = [first[0]._replace(name=self.name()), sign_of(between)]
        text = self.perhaps(self.some(letters, 'cd0')) + [self.needle()] + self.perhaps(self.some(letters, 'cd0'))
        return [sign_of(front)] + first + [group(self.name(), text), sign_of(behind)]

    def opening(self):
        """A capture that begins, ends or stands on the byte of a boundary: `!x{[^\\w]\\w+ing}[^\\w]`."""
        text = self.perhaps(self.some()) + [self.needle()] + self.perhaps(self.some())
        front, behind = self.boundary(), self.boundary()
        form = self.pick.randrange(5)
        if form == 0:
            return [group(self.name(), [front] + text), behind]
        if form == 1:
            return [front, group(self.name(), text + [behind])]
        if form == 2:
            return [group(self.name(), [front] + text + [behind])]
        if form == 3:
            return [front._replace(name=self.name())] + text + [behind._replace(name=self.name())]
        return [Part('', '', 0, '', self.name()), front] + text + [Part('', '', 0, '', self.name()), behind]

    def rare(self):
        """Several texts, of which the document has all but one in each line: ` id=!x{\\w+} took !y{\\w+}ing`."""
        self.common = self.pick.sample(COMMON, self.pick.randint(1, 2))
        texts = [literal(word) for word in self.common]
        texts.insert(self.pick.randint(0, len(texts)), self.needle())
        parts = self.perhaps(self.boundary())
        for text in texts:
            parts += [text, self.some()._replace(name=self.name())]
        return parts + self.perhaps(self.boundary())

    def paired(self):
        """Motifs with a bounded gap in bases, among which are no boundaries: `!x{CC[AT]GG}[ACGT]{0,20}!y{GGTACC}`."""
        self.bases = self.pick.choice(BASES)
        least, most = self.pick.choice([(0, 20), (3, 9), (10, 40), (20, 20)])
        gap = '[ACGT]{%d,%d}' % (least, most)
        behind = self.perhaps(literal(self.pick.choice(MOTIFS)))
        first = group(self.name(), [literal(self.pick.choice(MOTIFS)), Part('[AT]', '[AT]', 1, self.pick.choice('AT'))] + behind)
        sample = ''.join(self.pick.choice('ACGT') for _ in range(self.pick.randint(least, most)))
        return [first, Part(gap, gap, most, sample), literal(self.pick.choice(MOTIFS))._replace(name=self.name())]

    def spaced(self):
        """A gap that is bounded, between two texts: `!x{CC[AT]GG}[ACGT]{0,20}!y{GGTACC}`."""
        least, most = self.pick.choice([(0, 20), (3, 9), (10, 40), (50, 90)])
        gap = '%s{%d,%d}' % (self.letters, least, most)
        first = group(self.name(), [self.needle(), Part('[ab]', '[ab]', 1, self.pick.choice('ab'))] + self.perhaps(self.needle()))
        return [first, Part(gap, gap, most, self.fill[0] * self.pick.randint(least, most)), self.needle()._replace(name=self.name())]

    def fielded(self):
        """Quoted fields with several texts: `"!x{GET|POST} [^ "]* HTTP" !y{5\\d\\d} `."""
        status = Part('5\\d\\d', '5\\d\\d', 3, '5%02d' % self.pick.randrange(100), self.name())
        return [literal('"'), self.needles()._replace(name=self.name()), literal(' '), self.some('[^ "]', 'cd/'), self.needle(),
                literal('" '), status, literal(' ')]

    def lined(self):
        """Texts some lines apart: `Failed[^\\n]*\\n[^\\n]*!x{Accepted}`."""
        line = self.some('[^\n]', 'cd,')
        return [self.needle(), line, literal('\n')] + self.perhaps(line) + [self.needle()._replace(name=self.name())]

    FORMS = ('around', 'holding', 'ending', 'closing', 'choosing', 'apart', 'opening', 'spaced', 'paired', 'fielded', 'rare', 'lined')

    def formula(self):
        """The parts of one form; a name that is left is that of its last part, or of a text behind it."""
        parts = getattr(self, self.form)()
        for name in filter(None, self.names):
            if parts[-1].name:
                parts.append(self.needle())
            parts[-1] = parts[-1]._replace(name=name)
        return parts


class Planting:
    """Draws a document with matches of formulas: many in a short one, few in a long one."""

    def __init__(self, pick, formulas, drawn):
        self.pick = pick
        self.formulas = [[one for part in parts for one in part.inside or (part,)] for parts in formulas]
        self.edges = [part.sample for parts in self.formulas for part in parts if not part.runs and len(part.sample) == 1]
        self.edges += [one.edge_bytes[0] for one in drawn]  # so that no run takes the whole document
        self.common = [text for one in drawn for text in one.common]
        self.bases = ''.join(one.bases for one in drawn) if all(one.bases for one in drawn) else ''
        self.places = []  # where a match or a near miss begins or a text of one, and how long it is

    def match(self):
        """A match, in which a text may overlap itself, and the places of its texts."""
        text, places = '', []
        for part in self.pick.choice(self.formulas):
            sample = overlapped(part.sample) if part.is_text and self.pick.random() < 0.2 else part.sample
            if part.is_text:
                places.append((len(text), len(sample)))
            text += sample
        return text, places

    def near(self):
        """A match, or one that has a fault at one place."""
        text, places = self.match()
        if self.pick.random() < 0.4:
            k = self.pick.randrange(len(text))
            text = text[:k] + self.pick.choice(['', 'c', '\n', text[k] * 2] + self.edges) + text[k + 1:]
        return text, places

    def note(self, at, size, places):
        self.places += [(at, size)] + [(at + start, length) for start, length in places]

    def dense(self):
        words = self.edges * 2 + ['a', 'b', 'ab', 'aab', ' ', '\n', 'x', 'of'] + self.common + list(self.bases) * 3
        length, text = self.pick.choice(SHORT), ''
        while len(text) < length:
            if self.pick.random() < 0.96:
                text += self.pick.choice(words)
            else:
                one, places = self.near()
                self.note(len(text), len(one), places)
                text += one
        return bytearray(text.encode('latin-1'))

    def words(self):
        """Words none of which is a text that is searched for, but some begin like one, with common texts between them."""
        letters = self.pick.choice(['cde', 'cde09', 'cdea', 'cdet '])
        between = self.edges * 2 + [' ', '\n', ', ']
        for _ in range(150):
            yield ''.join(self.pick.choice(letters) for _ in range(self.pick.randint(1, 9)))
            if self.common and self.pick.random() < 0.3:
                yield self.pick.choice(self.common)
            else:
                yield self.pick.choice(between)

    def sparse(self):
        """The same words, or bases, again and again."""
        words = (self.pick.choice(self.bases) for _ in range(2000)) if self.bases else self.words()
        block = ''.join(words).encode('latin-1')
        length = self.pick.choice(LONG) + self.pick.randrange(3000)
        return bytearray((block * (length // len(block) + 1))[:length])

    def plant(self, document, at):
        text, places = self.near()
        at = max(0, min(at, len(document) - len(text)))
        document[at:at + len(text)] = text.encode('latin-1')
        self.note(at, len(text), places)

    def cut_at_the_ends(self, document):
        """The document begins with a text of a match, and ends with one, or within one."""
        text, places = self.match()
        first = text[self.pick.choice([start for start, _ in places] + [self.pick.randrange(len(text))]):]
        document[:len(first)] = first.encode('latin-1')
        text, places = self.match()
        last = text[:self.pick.choice([start + length for start, length in places] + [self.pick.randrange(len(text))])]
        document[max(0, len(document) - len(last)):] = last.encode('latin-1')

    def document(self, may_be_dense):
        document = (self.dense if may_be_dense and self.pick.random() < 0.4 else self.sparse)()
        for border in [0, len(document)] + BORDERS:
            if border <= len(document) and self.pick.random() < 0.3:
                self.plant(document, border - self.pick.choice([0, 1, self.pick.randrange(20)]))
        for _ in range(self.pick.choice([0, 1, 2, 6])):
            self.plant(document, self.pick.randrange(len(document)))
        if self.pick.random() < 0.3:
            self.cut_at_the_ends(document)
        return bytes(document)

    def borders(self, length):
        """Where pieces end: in a match or a text, before it and behind it, and at some places more."""
        found = {at + self.pick.choice([0, 1, size - 1, size, self.pick.randint(0, size)]) for at, size in self.places}
        found |= {self.pick.randrange(length + 1) for _ in range(self.pick.choice([0, 1, 4]))}
        return sorted({max(0, min(at, length)) for at in found} | {length})
