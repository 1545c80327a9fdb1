"""The made blocks of the pages: what a script counts in the tree, or reads from the tables of bench/measured.

A block begins with a line `<!-- made: NAME WORDS -->` and ends with `<!-- end -->`. What is between them is the text that the
function NAME of BLOCKS returns for these words. `docs/make` writes it, and `tests/pages made` fails where it is another.
Counts of lines and definitions are rounded, so a small change leaves a page as it is. Python 3.9, standard library.
"""
import importlib.machinery
import importlib.util
import os
import re
import statistics
import sys
import textwrap

sys.dont_write_bytecode = True
ROOT = os.path.dirname(os.path.dirname(os.path.abspath(__file__)))
sys.path.insert(0, os.path.join(ROOT, 'bench'))
import measured  # noqa: E402

BLOCK = re.compile(r'(^<!-- made: (.*?) -->\n)(.*?)(^<!-- end -->$)', re.M | re.S)
EVERYWHERE = ('span_core', 'spanner_model', 'span_tests')  # left out of the drawing
PROGRAMS = ('check_texts', 'check_automata', 'check_readings', 'check_growing', 'engine_bench')


def read(*parts):
    with open(os.path.join(ROOT, *parts), encoding='utf-8') as file:
        return file.read()


def wrapped(text, width=124):
    return '\n'.join(textwrap.wrap(text, width, break_long_words=False, break_on_hyphens=False))


def table(columns, rows):
    def line(cells):
        return '| %s |' % ' | '.join(cells) if any(cells) else ''

    rule = '|%s' % ('---|' * len(columns))
    return '\n'.join([line(columns), rule] + [line(['%s' % cell for cell in row]).replace('|  |', '| |') for row in rows])


def number(value):
    return format(value, ',')


def rounded(value):
    """To two digits, or to three of a number from 100,000 on."""
    size = 10 ** max(len(str(value)) - (3 if value >= 100000 else 2), 0)
    return number((value + size // 2) // size * size)


# --- The crates of crates.txt --------------------------------------------------------------------

class Crates:
    """What crates.txt says: the rooms with their crates, and the crates that each stands on."""

    def __init__(self):
        self.rooms, self.on = [], {}
        for line in read('crates.txt').split('\n'):
            named = re.match(r'([a-z]\w*)[^:\n]*:(.*)', line)
            if named:
                self.rooms[-1][1].append(named[1])
                self.on[named[1]] = named[2].split()
            elif re.fullmatch(r'# [a-z ]+', line):
                self.rooms.append((line[2:], []))
        self.on = {name: [one for one in on if one in self.on] for name, on in self.on.items()}

    def libraries(self):
        """What crates.txt names that is no crate of it: libraries of the toolchain."""
        named = re.findall(r'[a-z]\w*', ' '.join(re.findall(r'^[a-z]\w*[^:\n]*:(.*)', read('crates.txt'), re.M)))
        return sorted(set(named) - set(self.on))

    def below(self, name):
        """The crates that this one stands on, and those that these stand on."""
        found, todo = set(), list(self.on[name])
        while todo:
            one = todo.pop()
            if one not in found:
                found.add(one)
                todo += self.on[one]
        return found

    def again(self, changed):
        """The crates that are proved again where these change, in their order."""
        return [name for name in self.on if name in changed or self.below(name) & set(changed)]

    def program(self):
        """The crates of the program."""
        return self.below('rematch') | {'rematch'}

    def direct(self, name):
        """What a crate stands on, without what another of these stands on already."""
        on = [one for one in self.on[name] if one not in EVERYWHERE]
        return [one for one in on if not any(one in self.below(other) for other in on)]


class Times:
    """The minutes of bench/measured/gate.tsv by crate, those of proof, tests and edits."""

    def __init__(self):
        self.table = measured.read('gate')
        self.by = {row[0]: [float(cell) if cell != '-' else 0.0 for cell in row[1:]] for row in self.table.rows}

    def proof(self, names):
        return sum(self.by[name][0] for name in names if name in self.by)

    def chain(self, crates):
        """The crates that wait for each other for the longest time, the lowest first, and their minutes."""
        best = {}
        for name in sorted(crates.on, key=lambda name: len(crates.below(name))):
            before = max((best[one] for one in crates.on[name]), key=lambda it: it[0], default=(0.0, []))
            best[name] = (before[0] + self.proof([name]), before[1] + [name])
        return max(best.values(), key=lambda it: it[0])


def again(crates_text):
    """What a change of these crates proves again."""
    crates, times = Crates(), Times()
    names = crates.again(crates_text.split())
    text = 'Proved again: %d of %d crates, some %.0f of %.0f minutes of proof.' % (
        len(names), len(crates.on), times.proof(names), times.proof(crates.on))
    new = [name for name in names if name not in times.by]
    if new:
        text = text[:-1] + ' (%s not measured yet).' % listed(new)
    others = [name for name in crates.on if name not in names]
    if len(others) < len(names):
        return wrapped(text + (' All but %s.' % listed(others) if others else ' All of them.'))
    return wrapped(text + ' They are %s.' % listed(names))


def listed(names):
    names = ['`%s`' % name for name in names]
    return names[0] if len(names) == 1 else '%s and %s' % (', '.join(names[:-1]), names[-1])


def drawing(_):
    """Which crate stands on which, by rooms."""
    crates = Crates()
    lines = []
    for room, names in crates.rooms:
        for place, name in enumerate(names):
            on = textwrap.wrap(', '.join(crates.direct(name)), 84)
            lines.append('    %-11s %-18s %s' % (room if place == 0 else '', name, on[0] if on else ''))
            lines += ['    %-30s %s' % ('', more) for more in on[1:]]
    return '\n'.join(line.rstrip() for line in lines)


def libraries(_):
    return wrapped('Libraries of the toolchain whose statements are trusted: %s.' % listed(Crates().libraries()))


def edges(_):
    crates = Crates()
    edges_of_all = sum(len(on) for on in crates.on.values())
    outside = [name for name in crates.on if name not in crates.program()]
    return wrapped('There are %d crates, with %d lines from one to another. %d are in the program; the others are %s.' % (
        len(crates.on), edges_of_all, len(crates.program()), listed(outside)))


# --- Counts --------------------------------------------------------------------------------------

def files_of(ending, part):
    """The files below crates/*/PART with this ending."""
    for crate in Crates().on:
        for folder, _, names in os.walk(os.path.join(ROOT, 'crates', crate, part)):
            yield from (os.path.join(folder, name) for name in names if name.endswith(ending))


def lines_of(ending, part):
    total = 0
    for path in files_of(ending, part):
        with open(path, 'rb') as file:
            total += file.read().count(b'\n')
    return total


def counts(_):
    """The size of the tree."""
    crates = Crates()
    edits = sum(1 for _ in files_of('.edit', 'must-fail'))
    tests = sum(open(path, encoding='utf-8').read().count('#[test]') for path in files_of('.rt', 'src'))
    rows = [('crates; of the program', '%d; %d' % (len(crates.on), len(crates.program()))),
            ('lines of code with its contracts, `src/`', 'some ' + rounded(lines_of('.rt', 'src'))),
            ('lines of definitions, `specs/`', 'some ' + rounded(lines_of('.antt', 'specs'))),
            ('lines of proofs, `proofs/`, which nobody has to believe', 'some ' + rounded(lines_of('.antt', 'proofs'))),
            ('wrong edits that have to fail, `must-fail/`', number(edits)),
            ('tests in `src/`', number(tests))]
    return table(['What', 'How many'], rows)


def believe(_):
    """What a reader has to believe, as docs/what_to_believe counts it."""
    loader = importlib.machinery.SourceFileLoader('what_to_believe', os.path.join(ROOT, 'docs', 'what_to_believe'))
    script = importlib.util.module_from_spec(importlib.util.spec_from_loader('what_to_believe', loader))
    loader.exec_module(script)
    page = 'spanner_model.specs.Passing.IsPassingPage'
    rows = []
    for what, tops in (('the clauses of the program, with all refusals, sizes, notes and command line words', script.TOP),
                       ('a page alone: `docs/what_to_believe %s`' % page, [page])):
        lines, definitions, files = script.sums_of(tops)
        rows.append((what, 'some ' + rounded(lines), rounded(definitions), rounded(files)))
    return table(['From', 'Lines', 'Definitions', 'Files'], rows)


# --- What was measured ---------------------------------------------------------------------------

def figures(name):
    """A table of bench/measured with its caption below it."""
    found = measured.read(name)
    rows = [[cell.replace('|', '\\|') for cell in row] for row in found.rows]
    note = found.facts.get('note')
    return table(found.columns, rows) + '\n\n' + wrapped('*%s*%s' % (found.caption(), ' ' + note if note else ''))


def gate_sums(_):
    """What a gate takes in all, and its longest chain."""
    crates, times = Crates(), Times()
    sums = [sum(cells[kind] for name, cells in times.by.items() if name in crates.on) for kind in range(3)]
    chain, names = times.chain(crates)
    rows = [('proofs, tests, edits', '%.0f, %.0f, %.0f' % tuple(sums)), ('in all', '%.0f' % sum(sums)),
            ('proofs of the program\'s crates', '%.0f' % times.proof(crates.program())),
            ('the longest chain of crates that wait for each other', '%.0f' % chain)]
    missing = [name for name in crates.on if name not in times.by]
    text = 'The longest chain: %s.' % ', '.join('`%s`' % name for name in names)
    if missing:
        text += ' Not measured yet: %s.' % listed(missing)
    return '%s\n\n%s' % (table(['What', 'Minutes of one processor'], rows),
                         wrapped('*%s* %s %s' % (times.table.caption(), text, sentence(times.table.facts.get('note', '')))).rstrip())


def sentence(text):
    return text[:1].upper() + text[1:] + '.' if text else ''


def gate(_):
    """What each crate takes of a gate, and what a change of it proves again."""
    crates, times = Crates(), Times()
    rows = []
    for name in crates.on:
        edits = len([1 for one in os.listdir(os.path.join(ROOT, 'crates', name, 'must-fail'))
                     if one.endswith('.edit')]) if os.path.isdir(os.path.join(ROOT, 'crates', name, 'must-fail')) else 0
        cells = ['%.1f' % one if one else '-' for one in times.by.get(name, [0.0] * 3)]
        names = crates.again([name])
        rows.append(['`%s`' % name, cells[0], cells[1], str(edits or '-'), cells[2], str(len(names)), '%.0f' % times.proof(names)])
    return table(['Crate', 'Proof', 'Tests', 'Edits', 'Time of edits', 'Proved again', 'Minutes of that'], rows)


def seconds(cell):
    """The seconds of a cell such as `0.046, 34.5%`, or None where it has none."""
    found = re.match(r'[\d.]+(?=,|$)', cell)
    return float(found[0]) if found else None


def speed(_):
    """Four workloads of the tables `workloads` and `other_tools`, beside two tools."""
    ours, others = measured.read('workloads'), measured.read('other_tools')
    by = {row[0]: dict(zip(others.columns, row)) for row in others.rows}
    rows = []
    for row in ours.rows:
        letter, _, what = row[0].partition(': ')
        if letter in tuple('ABEF'):
            other = by[letter]
            rows.append([what, row[1], other['rematch'], other['`pcre2`, all rows'], other['`rg`']])
    return table(['Document', 'Rows', 'rematch', 'PCRE2, made to return all rows', 'ripgrep'], rows) + '\n\n' + wrapped(
        '*%s* %s [All workloads](bench/README.md#the-program).' % (ours.caption(), sentence(faster_by_pcre2(rows))), 120)


def faster_by_pcre2(rows):
    """Which of these documents PCRE2 reads faster than rematch, by the beginnings of their names."""
    names = ['*%s*' % what.split(',')[0] for what, _, ours, theirs, _ in rows if (seconds(theirs) or 1e9) < (seconds(ours) or 0)]
    return 'PCRE2 is faster than rematch on ' + (', '.join(names[:-1]) + ' and ' + names[-1] if names[1:] else names[0] if names else 'none')


# --- Queries that users write --------------------------------------------------------------------

def users(_):
    """The queries of users beside other tools, with their instructions for each byte."""
    found, counted = measured.read('users_queries'), measured.read('users_instructions')
    by = dict(counted.rows)
    at = len(found.columns) - 1
    rows = [[cell.replace('|', '\\|') for cell in row[1:at] + [by.get(row[0], '-')] + row[at:]] for row in found.rows]
    return table(found.columns[1:at] + ['Instructions a byte'] + found.columns[at:], rows) + '\n\n' + '\n'.join(
        wrapped('*%s* %s' % (one.caption(), one.facts.get('note', ''))) for one in (found, counted))


def beside(_):
    """How often ripgrep and PCRE2 are faster than rematch on the queries of users, and how often ripgrep has all rows."""
    found = measured.read('users_queries')
    rows = [dict(zip(found.columns, row)) for row in found.rows]
    ripgrep = [row for row in rows if is_faster(row, '`rg`')]
    complete = [row for row in rows if seconds(row['`rg`']) and '`rg`' not in row['What fails or loses rows']]
    pcre2 = [row for row in rows if is_faster(row, '`pcre2`, all rows')]
    return wrapped('Of the %d queries that users write, ripgrep is faster on %d (%.1f times at the median), and returns all rows on %d. '
                   'PCRE2, made to return all rows, is faster on %d (%.1f times at the median): [the table](bench/README.md#queries-that-users-write).' % (
                       len(rows), len(ripgrep), median_gain(ripgrep, '`rg`'), len(complete), len(pcre2), median_gain(pcre2, '`pcre2`, all rows')), 120)


def is_faster(row, tool):
    return (seconds(row[tool]) or 1e9) < seconds(row['rematch'])


def median_gain(rows, tool):
    return statistics.median(seconds(row['rematch']) / seconds(row[tool]) for row in rows) if rows else 1


# --- Hard queries, and the checked file ----------------------------------------------------------


def hostile(_):
    """The hard queries by families, and the worst of them."""
    found = measured.read('hostile')
    families = {}
    for row in found.rows:
        families.setdefault(row[0], []).append(row)
    rows = [[family, len(of), worst(of, 2, '%.2f'), worst(of, 3, '%.0f')] for family, of in families.items()]
    return table(['Family', 'Queries', 'Most seconds', 'Most MB'], rows) + '\n\n' + wrapped(
        '*%s* %s' % (found.caption(), sentence(found.facts.get('note', ''))))


def worst(rows, column, form):
    row = max(rows, key=lambda row: float(row[column] or 0))
    return (form + ': %s') % (float(row[column] or 0), row[1].replace('|', '\\|'))


def headline(_):
    """The steps of the checked file from the formulas up to the page, each with the law that it is and the file of its proof."""
    text = read('crates', 'whole_program', 'proofs', 'Headline.antt')
    home = {}
    for crate, module, names in re.findall(r'^use Rattle\.(\w+)\.proofs\.(\w+)\.\{([^}]*)\}', text, re.M):
        home.update((name.strip(), '%s/proofs/%s.antt' % (crate, module)) for name in names.split(','))
    lines = []
    for place, what, proof in re.findall(r'^ *-- (\d+)\. (.*)\n((?: *\S.*\n)+)', text, re.M):
        laws = ['`%s` (`%s`)' % (name, home[name]) for name in dict.fromkeys(re.findall(r'\w+', proof)) if name in home]
        line = '%s. %s%s%s.' % (place, what[0].upper(), what[1:], ': ' + ', '.join(laws) if laws else '')
        lines += textwrap.wrap(line, 124, subsequent_indent='   ', break_long_words=False, break_on_hyphens=False)
    return '\n'.join(lines)


BLOCKS = {'again': again, 'beside': beside, 'drawing': drawing, 'edges': edges, 'libraries': libraries, 'counts': counts, 'believe': believe, 'figures': figures,
          'gate': gate, 'gate_sums': gate_sums, 'headline': headline, 'hostile': hostile, 'speed': speed, 'users': users}


# --- Pages ---------------------------------------------------------------------------------------

def made(words):
    """The text of a block."""
    name, _, rest = words.partition(' ')
    if name not in BLOCKS:
        raise KeyError('no made block is called %s' % name)
    return BLOCKS[name](rest) + '\n'


def blocks_of(page):
    """The blocks of a page: their words, what stands in them, and what should."""
    return [(words, text, made(words)) for _, words, text, _ in BLOCK.findall(read(page))]


def written(page):
    """The page with its blocks written anew."""
    return BLOCK.sub(lambda found: found[1] + made(found[2]) + found[4], read(page))


def pages():
    """The pages that have blocks."""
    found = []
    for folder, folders, names in os.walk(ROOT):
        folders[:] = [name for name in folders if name not in ('.git', 'out', 'node_modules', '__pycache__')]
        found += [os.path.relpath(os.path.join(folder, name), ROOT) for name in names if name.endswith('.md')]
    return sorted(page for page in found if '<!-- made: ' in read(page))
