#!/usr/bin/env python3
"""Eight workloads, and queries that users write, on rematch and on other tools, as tables.

    bench/workloads.py [--only ABCDEFGU] [--times N] [--seconds S] [--program PATH]
                       [--engine PATH --bodies stay,layer] [--growth] [--instructions] [--texts] [--keep]
    bench/workloads.py --users [--queries NAME,..] [--bytes N] [--instructions] [--times N] [--seconds S] [--program PATH] [--keep]

Each tool gets the same document; what it prints goes to /dev/null, and its rows are counted in a run of
their own. The tools run in turn, N rounds of all of them, so that a busy hour meets each alike. A figure is the
seconds of processor time, the median of the N runs, and the least of them, with the most memory.

    rematch     all rows, in order
    bodies      all rows, in order: another program with rematch's command line and an option --engine BODY;
                its text is compared with that of rematch to the byte
    pcre2       all rows: PCRE2's JIT, a callout that notes the groups, (*FAIL), then sorted (others.cpp)
    perl        all rows, by the same idiom and a hash, without order
    hyperscan   each end of a match with its leftmost beginning, without captures (others.cpp)
    re2, rg, pcre2grep    the matches that they give: leftmost, not overlapping

measure.c and others.cpp are built on the way (cc, g++; libpcre2-dev, libhyperscan-dev, libre2-dev of Debian), the latter for
each of its three engines; one that cannot be built is left out. --growth measures rematch on A and C at 1, 2, 4 and 8
times the document, --instructions counts what rematch does for a byte and for a row by valgrind's callgrind,
--texts measures queries with a text that is searched for. With --keep the tables are written to bench/measured too, from
which docs/make makes those of bench/README.md. Python 3.8, standard library; Linux, a C compiler.

--users measures the queries of bench/users_queries.tsv, on documents of so many bytes (16,000,000; 4,000,000 with
--instructions). There the rows of rematch and of PCRE2 are compared byte for byte, in one order, and PCRE2 and Hyperscan write
rows too. ripgrep reads by lines, but for a pattern with a line feed, with which it takes the whole document (-U).
"""
import argparse
import hashlib
import os
import re
import shutil
import statistics
import subprocess
import sys
import tempfile
from typing import NamedTuple

import documents
import measured

HERE = os.path.dirname(os.path.abspath(__file__))
ROOT = os.path.dirname(HERE)
OTHERS = {'pcre2': '-lpcre2-8', 'hyperscan': '-lhs', 're2': '-lre2'}  # the engines of others.cpp, with their libraries


class Workload(NamedTuple):
    name: str
    what: str
    kind: str
    size: int
    seed: int
    query: str
    pattern: str  # the same for tools without names
    row: str  # the row in Perl
    more: tuple = ()  # words of rematch
    characters: bool = False  # a pattern over characters, which not all tools are asked for


WORKLOADS = [
    Workload('A', 'log, 5.3 MB, user and address', 'log', 291000, 1,
             r'/!user{\w+} logged in from !ip{\d+\.\d+\.\d+\.\d+}/',
             r'(\w+) logged in from (\d+\.\d+\.\d+\.\d+)', 'ip=$-[2]-$+[2] user=$-[1]-$+[1]'),
    Workload('B', 'sparse, 64 MB, `/!x{ERROR [A-Z]+}/`', 'errors', 64000000, 11, '/!x{ERROR [A-Z]+}/', '(ERROR [A-Z]+)', 'x=$-[1]-$+[1]'),
    Workload('C', 'dense, 14 kB, `/!x{[ab]+}/`', 'runs', 20, 5, '/!x{[ab]+}/', '([ab]+)', 'x=$-[1]-$+[1]'),
    Workload('D', '500,000 `a`, two rows of 10^11, `/!x{a*}/ -n 2`', 'same', 500000, 1, '/!x{a*}/', '(a*)', 'x=$-[1]-$+[1]', ('-n', '2')),
    Workload('E', 'word pairs, 100 kB', 'sentences', 100000, 7, r'/!x{\w+} (\w+ )*!y{\w+}/',
             r'(\w+) (?:\w+ )*(\w+)', 'x=$-[1]-$+[1] y=$-[2]-$+[2]'),
    Workload('F', 'motif with a gap, 8 MB', 'bases', 8000000, 13, '/!x{TATA[AT]A}[ACGT]{10,40}!y{CAAT}/',
             '(TATA[AT]A)[ACGT]{10,40}(CAAT)', 'x=$-[1]-$+[1] y=$-[2]-$+[2]'),
    Workload('G', '`/(a|b)*a(a|b){12}!x{c}/`, 2 MB', 'letters', 2000000, 17, '/(a|b)*a(a|b){12}!x{c}/',
             '(?:a|b)*a(?:a|b){12}(c)', 'x=$-[1]-$+[1]'),
    Workload('U', 'letters of five scripts, 10 MB', 'scripts', 10000000, 1, r'/!x{\p{L}+}/u', r'(\p{L}+)', '', (), True),
]

ERRORS, LOG = ('errors', 64000000, 11), ('sparse', 1000000, 1)

TEXTS = [
    Workload('T1', 'a text', *ERRORS, '/!x{ERROR [A-Z]+}/', '(ERROR [A-Z]+)', 'x=$-[1]-$+[1]'),
    Workload('T2', 'alternatives', *ERRORS, '/!x{(ERROR|FATAL|PANIC) [A-Z]+}/', '((?:ERROR|FATAL|PANIC) [A-Z]+)', 'x=$-[1]-$+[1]'),
    Workload('T3', 'letters of either case', *ERRORS, '/[Ee][Rr][Rr][Oo][Rr] !x{[A-Z]+}/', '[Ee][Rr][Rr][Oo][Rr] ([A-Z]+)', 'x=$-[1]-$+[1]'),
    Workload('T4', 'a text behind digits', *ERRORS, r'/!x{\d\d:\d\d:\d\d} ERROR/', r'(\d\d:\d\d:\d\d) ERROR', 'x=$-[1]-$+[1]'),
    Workload('T5', 'a text in front', *LOG, r'/user!u{\d+} logged in from !a{[\d.]+}/', r'user(\d+) logged in from ([\d.]+)',
             'a=$-[2]-$+[2] u=$-[1]-$+[1]'),
    Workload('T6', 'a text inside', *LOG, r'/!user{\w+} logged in from !ip{\d+\.\d+\.\d+\.\d+}/',
             r'(\w+) logged in from (\d+\.\d+\.\d+\.\d+)', 'ip=$-[2]-$+[2] user=$-[1]-$+[1]'),
    Workload('T7', 'a text that is nowhere', 'letters', 60000000, 17, '/!x{zqq+}/', '(zqq+)', 'x=$-[1]-$+[1]'),
    Workload('T8', 'a byte that is nowhere', *ERRORS, r'/!x{\x00}/', r'(\x00)', 'x=$-[1]-$+[1]'),
]

PERL = r'''
local $/; open my $file, "<:raw", $ARGV[0] or die; my $document = <$file>; my %%rows;
$document =~ m~%s(?{ $rows{"%s"} = 1 })(*FAIL)~a;
print "$_\n" for keys %%rows;
'''

NO_FAULT = {'pcre2grep': (0, 1), 'rg': (0, 1)}  # 1: no match


class Run(NamedTuple):
    seconds: float
    peak: float  # MB


def commands(work, given, document):
    """The command of each tool. Those of `others` print the number of rows, the rest a row a line."""
    rows = ['-e', work.query, *work.more, document]
    yield 'rematch', [given.program] + rows
    for body in given.bodies.split(',') if given.engine and not work.characters else []:
        yield body, [given.engine, '--engine', body] + rows
    if work.characters:
        yield 'pcre2', [given.others['pcre2'], '(*UTF)' + work.pattern, document]
        yield 'rg', ['rg', '-oaN', '--no-filename', '-e', work.pattern, document]
        yield 'pcre2grep', ['pcre2grep', '-u', '--file-offsets', '-e', work.pattern, document]
        return
    for engine, program in given.others.items():
        yield engine, [program, work.pattern, document]
    yield 'perl', ['perl', '-e', PERL % (work.pattern, work.row), document]
    yield 'rg', ['rg', '-oaN', '--no-filename', '-e', '(?-u)' + work.pattern, document]
    yield 'pcre2grep', ['pcre2grep', '--file-offsets', '-e', work.pattern, document]


def build(folder):
    """Builds `measure` and the engines of others.cpp into the folder, and gives the paths of these; some may not be there."""
    subprocess.run(['cc', '-O2', '-o', os.path.join(folder, 'measure'), os.path.join(HERE, 'measure.c')], check=True)
    others = {engine: os.path.join(folder, engine) for engine in OTHERS}
    for engine, library in OTHERS.items():
        subprocess.run(['g++', '-O3', '-std=c++20', '-D' + engine.upper(), '-o', others[engine], os.path.join(HERE, 'others.cpp'), library],
                       stderr=subprocess.DEVNULL, check=False)
    return others


def run(command, given):
    """One run, or None where it does not end in time or does not go well."""
    result = os.path.join(given.folder, 'result')
    subprocess.run([os.path.join(given.folder, 'measure'), '%d' % given.seconds, result] + command,
                   stdin=subprocess.DEVNULL, stdout=subprocess.DEVNULL, stderr=subprocess.DEVNULL, check=True)
    with open(result) as file:
        seconds, peak, status = file.read().split()
    ended = os.WIFEXITED(int(status)) and os.WEXITSTATUS(int(status)) in NO_FAULT.get(os.path.basename(command[0]), (0,))
    return Run(float(seconds), int(peak) / 1024) if ended else None


def in_turn(tools, given):
    """The runs of each tool that ends in time: a first run, then as many rounds of all as were asked for."""
    runs = {tool: run(command, given) for tool, command in tools.items()}
    found = {tool: [] for tool, first in runs.items() if first}
    for _ in range(given.times):
        for tool in found:
            one = run(tools[tool], given)
            if one:
                found[tool].append(one)
    given.loads.append(os.getloadavg()[0])
    return found


def load_of(given):
    """The loads of the machine while it was measured."""
    least, most = '%.0f' % min(given.loads), '%.0f' % max(given.loads)
    return least if least == most else '%s to %s' % (least, most)


def figure(runs):
    """The median and the least of the seconds, and the most memory."""
    return statistics.median(r.seconds for r in runs), min(r.seconds for r in runs), max(r.peak for r in runs)


def output(tool, command):
    """A digest of what the tool prints, and its rows."""
    digest, lines, last = hashlib.sha256(), 0, b''
    with subprocess.Popen(command, stdin=subprocess.DEVNULL, stdout=subprocess.PIPE, stderr=subprocess.DEVNULL) as started:
        for piece in iter(lambda: started.stdout.read(1 << 20), b''):
            digest.update(piece)
            lines += piece.count(b'\n')
            last = piece
    return digest.digest(), int(last) if tool in OTHERS and last.strip().isdigit() else lines  # a count, or rows


def show(work, given):
    document = os.path.join(given.folder, work.name)
    with open(document, 'wb') as out:
        length = documents.write(work.kind, work.size, work.seed, out)
    print('\n%s: %s, %d bytes, `%s`\n' % (work.name, work.what, length, ' '.join((work.query,) + work.more)))
    print('| Tool | Seconds | Least | MB | Rows | Share |\n|---|---|---|---|---|---|')
    tools = {tool: command for tool, command in commands(work, given, document) if shutil.which(command[0])}
    runs = in_turn(tools, given)
    total = text = None
    kept = {}
    for tool, command in commands(work, given, document):
        if not runs.get(tool):
            kept[tool] = 'more than %g' % given.seconds if tool in tools else '-'
            print('| %s | %s | | | | |' % (tool, 'more than %g' % given.seconds if tool in tools else 'not installed'))
            continue
        told, rows = output(tool, command)
        if tool == 'rematch':
            total, text = rows, told
        apart = tool in given.bodies.split(',') and text is not None and told != text
        share = '%.4g%%' % (100 * rows / total) if total and not work.more else '-'
        print('| %s | %.3f | %.3f | %.0f | %d | %s |%s' % (tool, *figure(runs[tool]), rows, share, ' OTHER TEXT' if apart else ''))
        sys.stdout.flush()
        _, least, peak = figure(runs[tool])
        kept[tool] = '%.3f' % least + (', ' + share if share not in ('-', '100%') else '')
        if tool == 'rematch':
            kept.update({'rows': format(rows, ','), 'MB': '%.0f' % peak})
    return kept


def keep(found, given):
    """Writes the two tables of the workloads: beside the bodies, and beside other tools."""
    facts = {'how': 'bench/workloads.py%s --keep' % (' --bodies ' + given.bodies if given.engine else ''), 'load': load_of(given),
             'note': 'The least processor seconds of %d rounds in turn, and the share of all rows where it is not all.' % given.times}
    names = ['%s: %s' % (work.name, work.what) for work in WORKLOADS]
    bodies = given.bodies.split(',')
    rows = [[name] + [kept.get(key, '-') for key in ['rows', 'rematch', *bodies, 'MB']] for name, kept in zip(names, found)]
    measured.keep('workloads', ['Workload', 'Rows', 'rematch'] + ['`%s`' % body for body in bodies] + ['MB'], rows, given.program,
                  what='eight workloads', **facts)
    others = {'pcre2': '`pcre2`, all rows', 'perl': 'Perl, all rows', 'hyperscan': '`hyperscan`', 're2': '`re2`', 'rg': '`rg`',
              'pcre2grep': '`pcre2grep`'}
    rows = [[work.name] + [kept.get(key, '-') for key in ['rematch', *others]] for work, kept in zip(WORKLOADS, found)]
    measured.keep('other_tools', ['Workload', 'rematch', *others.values()], rows, given.program,
                  what='eight workloads by other tools', **facts)


def keep_texts(found, given):
    """Writes the table of queries with a text."""
    rows = [['`%s`, %s' % (work.query, work.what)] + [kept.get(key, '-') for key in ['rematch', 'rg', 'pcre2', 'rows']]
            for work, kept in zip(TEXTS, found)]
    measured.keep('texts', ['Query', 'rematch', '`rg`', '`pcre2`, all rows', 'Rows'], rows, given.program, what='queries with a text',
                  how='bench/workloads.py --texts --keep', load=load_of(given), note='The least processor seconds of %d rounds in turn.' % given.times)


def show_growth(given):
    columns = ['Document', 'Times', 'Bytes', 'Rows', 'Seconds', 'ns a byte', 'ns a row', 'MB']
    print('\n| %s |\n|---|---|---|---|---|---|---|---|' % ' | '.join(columns))
    table = []
    for work in (WORKLOADS[0], WORKLOADS[2]):
        for times in (1, 2, 4, 8):
            document = os.path.join(given.folder, 'growth')
            with open(document, 'wb') as out:
                length = documents.write(work.kind, work.size * times, work.seed, out)
            command = [given.program, '-e', work.query, document]
            seconds, _, peak = figure(in_turn({'rematch': command}, given)['rematch'])
            rows = output('rematch', command)[1]
            table.append([work.name, '%d' % times, format(length, ','), format(rows, ','), '%.3f' % seconds,
                          '%.0f' % (seconds / length * 1e9), '%.0f' % (seconds / rows * 1e9), '%.0f' % peak])
            print('| %s |' % ' | '.join(table[-1]))
            sys.stdout.flush()
    if given.keep:
        measured.keep('growth', columns, table, given.program, what='growth', how='bench/workloads.py --growth --keep', load=load_of(given),
                      note='Median processor seconds of %d rounds.' % given.times)


# --- Queries of users ----------------------------------------------------------------------------

class Query(NamedTuple):
    name: str
    kind: str  # of its document
    seed: str
    query: str
    pattern: str  # the same for tools without names
    by_lines: str  # the same for ripgrep, or -


def users(given):
    """The queries of bench/users_queries.tsv that are asked for."""
    with open(os.path.join(HERE, 'users_queries.tsv'), encoding='utf-8') as file:
        lines = [line.rstrip('\n').split('\t') for line in file if not line.startswith('#')]
    return [one for one in (Query(*line) for line in lines[1:]) if not given.queries or one.name in given.queries.split(',')]


def document_of(query, size, given):
    """The path of a query's document, which is made where it is not there."""
    path = os.path.join(given.folder, '%s.%d' % (query.kind, size))
    if not os.path.exists(path):
        with open(path, 'wb') as out:
            documents.write(query.kind, size, int(query.seed), out)
    return path


def tools_of(query, document, given):
    """The command of each tool that is installed; all but ripgrep's output can be rows."""
    lines = query.pattern if query.by_lines == '-' else query.by_lines
    whole = ['-U'] if '\\n' in lines.replace('[^\\n]', '') else []
    commands_of = {'rematch': [given.program, '-e', query.query, document],
                   'pcre2': [given.others['pcre2'], query.pattern, document] + re.findall(r'!(\w+)\{', query.query),
                   'rg': ['rg', '-oaN', '--no-filename', *whole, '-e', '(?-u)' + lines, document],
                   'hyperscan': [given.others['hyperscan'], query.pattern, document, 'match']}
    return {tool: command for tool, command in commands_of.items() if shutil.which(command[0])}


def sorted_rows(command):
    """A digest of the lines that a tool prints, sorted."""
    with subprocess.Popen(command, stdin=subprocess.DEVNULL, stdout=subprocess.PIPE, stderr=subprocess.DEVNULL) as started:
        done = subprocess.run('sort | sha256sum', shell=True, env=dict(os.environ, LC_ALL='C'), stdin=started.stdout, stdout=subprocess.PIPE, check=True)
    return done.stdout


def matches_of_ripgrep(command):
    """No digest, and how many matches ripgrep finds; one may have several lines."""
    counted = [word if word != '-oaN' else '-a' for word in command[:1] + ['--count-matches'] + command[1:]]
    done = subprocess.run(counted, stdin=subprocess.DEVNULL, stdout=subprocess.PIPE, check=False)
    return None, int(done.stdout or 0)


def fault_of(command, given):
    """Why a tool has no figure, in a few words."""
    try:
        done = subprocess.run(command, stdin=subprocess.DEVNULL, stdout=subprocess.DEVNULL, stderr=subprocess.PIPE, timeout=given.seconds, check=False)
    except subprocess.TimeoutExpired:
        return 'more than %g s' % given.seconds
    return done.stderr.decode(errors='replace').strip().split('\n')[-1].rstrip('.') or 'fails'


def remarks(tools, runs, given):
    """The number of rows, and what fails, has other rows or loses some."""
    text, total = output('rematch', tools['rematch'])
    found = []
    for tool in [tool for tool in tools if tool != 'rematch']:
        if not runs.get(tool):
            found.append('`%s`: %s' % (tool, fault_of(tools[tool], given)))
            continue
        told, rows = matches_of_ripgrep(tools[tool]) if tool == 'rg' else output(tool, tools[tool])
        if tool == 'pcre2' and told != text and sorted_rows(tools[tool]) != sorted_rows(tools['rematch']):
            found.append('`pcre2`: OTHER ROWS')
        if rows != total:
            share = '%.3g%%' % (100 * rows / max(total, 1))
            found.append('`%s` %s' % (tool, '%+d' % (rows - total) if share == '100%' else share))
    return total, ', '.join(found) or '-'


def show_users(given):
    tools = ['rematch', 'pcre2', 'rg', 'hyperscan']
    columns = ['Name', 'Document', 'Query', 'Rows', 'rematch', '`pcre2`, all rows', '`rg`', '`hyperscan`', 'What fails or loses rows']
    print('| %s |\n|%s' % (' | '.join(columns), '---|' * len(columns)))
    table = []
    for query in users(given):
        commands_of = tools_of(query, document_of(query, given.bytes or 16000000, given), given)
        runs = in_turn(commands_of, given)
        total, remark = remarks(commands_of, runs, given)
        times = ['%.3f' % figure(runs[tool])[1] if runs.get(tool) else '-' for tool in tools]
        missing = ['`%s` not installed' % tool for tool in tools if tool not in commands_of]
        table.append([query.name, '`%s`' % query.kind, '`%s`' % query.query, format(total, ','), *times, ', '.join(missing + [remark])])
        print('| %s |' % ' | '.join(cell.replace('|', '\\|') for cell in table[-1]), flush=True)
    if given.keep:
        measured.keep('users_queries', columns, table, given.program, what='queries that users write', how='bench/workloads.py --users --keep',
                      load=load_of(given),
                      note='The least processor seconds of %d rounds in turn, on documents of %s bytes.' % (
                          given.times, format(given.bytes or 16000000, ',')))


def show_users_instructions(given):
    print('| Name | Query | Instructions a byte |\n|---|---|---|')
    table = []
    for query in users(given):
        document = document_of(query, given.bytes or 4000000, given)
        count = instructions([given.program, '-e', query.query, document])
        table.append([query.name, '%.3g' % (count / os.path.getsize(document))])
        print('| %s | `%s` | %s |' % (query.name, query.query.replace('|', '\\|'), table[-1][1]), flush=True)
    if given.keep:
        measured.keep('users_instructions', ['Name', 'Instructions a byte'], table, given.program, what='instructions of the queries of users',
                      how='bench/workloads.py --users --instructions --keep', machine='callgrind, which the load does not change', load='',
                      note='On documents of %s bytes, with the start of the program.' % format(given.bytes or 4000000, ','))


# --- Instructions and the command line -----------------------------------------------------------

def instructions(command):
    told = subprocess.run(['valgrind', '--tool=callgrind', '--callgrind-out-file=/dev/null'] + command,
                          stdin=subprocess.DEVNULL, stdout=subprocess.DEVNULL, stderr=subprocess.PIPE, check=True).stderr
    return int(re.search(rb'Collected : (\d+)', told).group(1))


def show_instructions(given):
    print('\n| Workload | Instructions | a byte | a row |\n|---|---|---|---|')
    found = {}
    for work in WORKLOADS:
        if work.name not in given.only:
            continue
        document = os.path.join(given.folder, 'counted')
        with open(document, 'wb') as out:
            length = documents.write(work.kind, work.size, work.seed, out)
        command = [given.program, '-e', work.query, *work.more, document]
        made, rows = instructions(command), output('rematch', command)[1]
        print('| %s | %d | %.1f | %.1f |' % (work.name, made, made / length, made / rows))
        sys.stdout.flush()
        found[work.name] = '%.4g' % (made / (rows if work.name in 'CEU' else length))
    if given.keep:
        measured.keep('instructions', list(found), [list(found.values())], given.program, what='instructions of the workloads',
                      how='bench/workloads.py --instructions --keep', machine='callgrind, which the load does not change', load='',
                      note='A, B, D, F and G are for each byte, C and E, and U over characters, for each row.')


def main():
    parser = argparse.ArgumentParser(description='Eight workloads, and queries of users, on rematch and on other tools.')
    parser.add_argument('--program', default=os.path.join(ROOT, 'crates', 'rematch', 'out', 'rematch'))
    parser.add_argument('--engine', help="another program with rematch's command line and an option --engine")
    parser.add_argument('--bodies', default='stay,layer', help='the bodies of --engine')
    parser.add_argument('--only', default='ABCDEFGU')
    parser.add_argument('--times', type=int, default=5)
    parser.add_argument('--seconds', type=float, default=25)
    parser.add_argument('--growth', action='store_true')
    parser.add_argument('--instructions', action='store_true')
    parser.add_argument('--keep', action='store_true', help='write the tables to bench/measured')
    parser.add_argument('--texts', action='store_true')
    parser.add_argument('--users', action='store_true', help='the queries of bench/users_queries.tsv')
    parser.add_argument('--queries', metavar='NAME,..', help='these of them alone')
    parser.add_argument('--bytes', type=int, help='the size of their documents')
    given = parser.parse_args()
    given.program = os.path.abspath(given.program)
    if given.keep and (given.only != 'ABCDEFGU' or given.queries):
        parser.error('--keep is for all workloads')
    given.loads = [os.getloadavg()[0]]
    print('load %.2f of %d processors' % (given.loads[0], os.cpu_count()))
    with tempfile.TemporaryDirectory() as given.folder:
        given.others = build(given.folder)
        if given.users:
            (show_users_instructions if given.instructions else show_users)(given)
        elif given.growth:
            show_growth(given)
        elif given.instructions:
            show_instructions(given)
        else:
            found = [show(work, given) for work in (TEXTS if given.texts else WORKLOADS) if given.texts or work.name in given.only]
            if given.keep:
                (keep_texts if given.texts else keep)(found, given)


if __name__ == '__main__':
    main()
