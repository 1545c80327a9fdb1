"""Makes docs/look.html: a page that shows rows over their texts, and how they are found.

The rows are those of the reference (tests/oracle), on texts of examples/ and two others. The steps are made here, for
`/!x{a*}/` on `aa`, as docs/ARCHITECTURE.md has them: sets of states, edges, cells, and lists of rows. They end with the rows
of the reference, or nothing is made. The page needs no network. Python 3.9, standard library.
"""
import json
import os
import re
import sys

sys.dont_write_bytecode = True
ROOT = os.path.dirname(os.path.dirname(os.path.abspath(__file__)))
sys.path.insert(0, os.path.join(ROOT, 'tests', 'oracle'))
import rematch_oracle  # noqa: E402

TEMPLATE = os.path.join('docs', 'look_template.html')
PAGE = os.path.join('docs', 'look.html')
QUERY, DOCUMENT = '/!x{a*}/', 'aa'


def read(*parts):
    with open(os.path.join(ROOT, *parts), encoding='utf-8') as file:
        return file.read()


# --- Texts with their rows -----------------------------------------------------------------------

def rows_of(query, text):
    """The rows of a query on a text, by the reference: for each its variables with start and end."""
    status, out, note = rematch_oracle.run(['-e', query, '-f', 'json', 'D'], lambda name, limit: text.encode())
    if status:
        raise ValueError('%s: %s' % (query, note.decode()))
    return [json.loads(line) for line in out.decode().splitlines()]


def leftmost(pattern, text):
    """What `grep -o` finds: the leftmost match, and on from its end."""
    return [list(found.span()) for found in re.finditer(pattern, text) if found.group()]


def line_of(text, needle):
    return next(line for line in text.split('\n') if needle in line)


def examples():
    """The texts that the page shows: a title, a text, a query with its rows, and a pattern for grep with its matches."""
    harbour = read('examples', 'harbour.txt')
    reads = read('examples', 'reads.fasta').split('\n')
    record = reads[next(k for k, line in enumerate(reads) if line.startswith('>read13')) + 1]
    site = record[record.index('GATC') - 3:record.rindex('GATC') + 7]
    log = '09:12 ann failed, 09:13 bob failed, 09:15 ann accepted'
    found = [
        ('A log line', 'Each failure before a login. One match of grep covers both.', log,
         r'/ !failed{\w+} failed.* !accepted{\w+} accepted/', r'[a-z]+ failed.* [a-z]+ accepted'),
        ('Overlaps', 'Each place where the text fits, also where two share a letter.', 'ababa', '/!x{aba}/', 'aba'),
        ('Readings', 'Both ways to read "the A of the B" are rows.', line_of(harbour, 'charts of the bay')[:44],
         r'/the !what{\w+} of (the |)!whom{\w+} /', r'the [a-z]+ of (the )?[a-z]+'),
        ('Sites', 'A site is the right one of one pair and the left one of the next.', site, '/!left{GATC}[ACGT]{2,40}!right{GATC}/',
         'GATC[ACGT]{2,40}GATC'),
        ('Every part', 'A star fits each number of letters, also none.', DOCUMENT, QUERY, 'a*'),
    ]
    return [{'title': title, 'why': why, 'text': text, 'query': query, 'rows': rows_of(query, text), 'grep': pattern,
             'matches': leftmost(pattern, text)} for title, why, text, query, pattern in found]


# --- The steps of one small query ----------------------------------------------------------------
#
# A way is (from, letter or None for any, marks, to). Marks: 2 where x begins, 1 where it ends, 3 both.

WAYS = [(0, 'a', 2, 1), (1, 'a', 0, 1), (0, None, 3, 2), (1, None, 1, 2), (0, None, 0, 0), (2, None, 0, 2)]
ENDS = {0: 3, 1: 1, 2: 0}


class Reading:
    """The table and the graph while the document is read; each step is kept with what is known then."""

    def __init__(self):
        self.sets = [(0,)]
        self.edges = {}  # by set and letter, or '' for the end: pairs of marks and the set reached
        self.cells = []  # each: position, marks, from, also; -1 is the root
        self.layer = [(0, -1)]
        self.steps = []
        self.is_ending = False

    def keep(self, text, at, **more):
        self.steps.append(dict({'text': text, 'at': at, 'sets': [list(one) for one in self.sets],
                                'edges': [[k, letter, edges] for (k, letter), edges in self.edges.items()],
                                'cells': [list(cell) for cell in self.cells], 'layer': [list(one) for one in self.layer]}, **more))

    def look_up(self, k, letter):
        """The edges of a set on a letter, the greatest marks first; and whether they are new."""
        if (k, letter) in self.edges:
            return self.edges[k, letter], False
        reached = {}
        for one in self.sets[k]:
            if letter:
                for source, on, marks, to in WAYS:
                    if source == one and on in (letter, None):
                        reached.setdefault(marks, set()).add(to)
            else:
                reached.setdefault(ENDS[one], set())
        edges = []
        for marks in sorted(reached, reverse=True):
            members = tuple(sorted(reached[marks]))
            if letter and members not in self.sets:
                self.sets.append(members)
            edges.append((marks, self.sets.index(members) if letter else 0))
        self.edges[k, letter] = edges
        return edges, True

    def step(self, at, letter):
        """All sets of the layer go on by a letter, or to the end."""
        following = {}
        waiting = list(self.layer)
        for k, cell in waiting:
            edges, is_new = self.look_up(k, letter)
            said = []
            for marks, to in edges:
                said.append(self.follow(following, at, marks, to, cell))
            where = 'at the end' if not letter else 'on the letter %s at %d' % (letter, at)
            self.keep('Set %d %s: %s%s' % (k, where, 'new in the table. ' if is_new else 'known from the table. ', ' '.join(said)),
                      at, source=k, next=[[to, one] for to, one in following.items()])
        self.layer = list(following.items())

    def follow(self, following, at, marks, to, cell):
        """One edge: it makes a cell, or passes the source's own on. Returns what it did, in words."""
        target = 'the end' if self.is_ending else 'set %d' % to
        if not marks and to not in following:
            following[to] = cell
            return 'Without marks, %s gets %s as it is.' % (target, name(cell))
        also = following.get(to, -2)
        self.cells.append((at, marks, cell, also))
        following[to] = len(self.cells) - 1
        more = ', and all words of %s too' % name(also) if also != -2 else ''
        return 'Marks %d lead to %s: cell c%d continues %s%s.' % (marks, target, len(self.cells), name(cell), more)

    def read(self):
        self.keep('Before the first letter there is one set, that of the start state 0, and the root r: the empty word.', 0)
        for at, letter in enumerate(DOCUMENT):
            self.step(at, letter)
            self.keep('Position %d is read. The layer now has %s.' % (at, listed(
                'set %d with %s' % (k, name(cell)) for k, cell in self.layer)), at + 1)
        self.is_ending = True
        self.step(len(DOCUMENT), '')
        self.keep('All is read. Each path down to r is one row, from its end to its beginning.', len(DOCUMENT), ended=True)

    def turn(self):
        """Cells become lists of rows, the newest first."""
        lists = {self.layer[0][1]: [()]}
        for k in range(len(self.cells) - 1, -1, -1):
            at, marks, source, also = self.cells[k]
            rows = lists.pop(k)
            lists[source] = [((at, marks),) + row for row in rows] + lists.get(source, [])
            if also != -2:
                lists[also] = rows + lists.get(also, [])
            self.keep('Turning c%d: %s gets its rows with (%d,%d) in front%s.' % (
                k + 1, name(source), at, marks, '; %s gets them as they are' % name(also) if also != -2 else ''),
                len(DOCUMENT), ended=True, turned=k, words=[list(map(list, word)) for word in lists.get(-1, [])])
        return lists[-1]


def listed(parts):
    *first, last = parts
    return ', '.join(first) + (' and ' if first else '') + last


def name(cell):
    return 'r' if cell == -1 else 'c%d' % (cell + 1)


def span_of(word):
    begins = next(at for at, marks in word if marks & 2)
    return [begins, next(at for at, marks in word if marks & 1)]


def steps():
    reading = Reading()
    reading.read()
    words = reading.turn()
    rows = [span_of(word) for word in words]
    if rows != [row['x'] for row in rows_of(QUERY, DOCUMENT)]:
        raise ValueError('the steps end with other rows than the reference: %s' % rows)
    reading.keep('The rows of r, in order: %s. Nothing was sorted.' % ', '.join('%d-%d' % tuple(row) for row in rows),
                 len(DOCUMENT), ended=True, words=[list(map(list, word)) for word in words], rows=rows)
    return reading.steps


def page():
    """The text of docs/look.html."""
    data = {'examples': examples(), 'query': QUERY, 'document': DOCUMENT, 'ways': WAYS, 'ends': ENDS, 'steps': steps()}
    text = json.dumps(data, separators=(',', ':')).replace('<', '\\u003c')
    return read(TEMPLATE).replace('/* DATA */', text)
