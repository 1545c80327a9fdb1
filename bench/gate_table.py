#!/usr/bin/env python3
"""Runs a whole gate and prints what each crate took of it.

    bench/gate_table.py [--log FILE] [--keep] [COMMAND ..]
    bench/gate_table.py --watch PID [--keep]
    bench/gate_table.py --read FILE [--keep]

COMMAND is `rt ci --anew` where none is given; it is run at the top of the repository. What it says is
passed on, each line behind the seconds since the start, and written to FILE too. At the end a table shows
by crate, in minutes: when it was proved, from the start; what its proof, its tests and its edits took of
one processor; and how many edits were refused. Below it are the sums, the longest chain of crates that
wait for each other, and the edits that were not refused, or say little.

With --watch what the processes below PID take is read until this script is ended or PID is gone. Then the
sums and the chain alone are printed.

`rt ci` tells no times. When a line came this script looks up; what a job took it reads from /proc, of the
processes that check, build and run a crate, once a second, so a job's last second may be missing. The
first check of an edit's crate, with which the others begin, counts with the edits.

With --keep bench/measured/gate.tsv is written too, from which docs/make makes the tables of docs/PROVING.md.

With --read the table is made from FILE, as an earlier run wrote it; a plain output of `rt ci` is taken
too, of which the numbers of edits alone are known.

Python 3.8, standard library. Linux.
"""
import argparse
import os
import re
import signal
import subprocess
import sys
import threading
import time

sys.dont_write_bytecode = True
ROOT = os.path.dirname(os.path.dirname(os.path.abspath(__file__)))
sys.path.insert(0, os.path.join(ROOT, 'bench'))
import measured  # noqa: E402

TICKS = os.sysconf('SC_CLK_TCK')
KINDS = ['proof', 'tests', 'edits']
STAMPED = re.compile(r'\s*([0-9]+\.[0-9]) (.*)')
ENDING = re.compile(r'[0-9]+ passed, [0-9]+ failed')
TOOK = re.compile(r'took (\w+) (proof|tests|edits) ([0-9.]+)$')


class Processes:
    """What the jobs below a process took of a processor, by crate and kind, as far as was seen."""

    def __init__(self, root):
        self.root = root
        self.jobs = {}  # by process and its start: crate, kind, seconds
        self.is_done = False

    def watch(self):
        while not self.is_done:
            self.look()
            time.sleep(1)

    def look(self):
        """Notes what each job has taken so far."""
        seen = {}
        for name in os.listdir('/proc'):
            if name.isdigit():
                fields = stat_of(name)
                if fields:
                    seen[int(name)] = fields
        children = {}
        for number, (parent, _, _) in seen.items():
            children.setdefault(parent, []).append(number)
        waiting = [(it, None) for it in children.get(self.root, [])]
        while waiting:
            number, job = waiting.pop()
            _, start, seconds = seen[number]
            if job is None:
                told = job_of(number)
                if told:
                    job = (number, start)
                    self.jobs[job] = [*told, 0.0, self.jobs.get(job, [0, 0, 0.0, 0.0])[3]]
            if job:
                self.jobs[job][2] += seconds
            waiting += [(it, job) for it in children.get(number, [])]
        for job in self.jobs.values():
            job[3] = max(job[2], job[3])

    def sums(self):
        sums = {}
        for crate, kind, _, most in self.jobs.values():
            sums[crate, kind] = sums.get((crate, kind), 0.0) + most
        return sums

    def lines(self):
        return ['took %s %s %.1f' % (crate, kind, seconds) for (crate, kind), seconds in sorted(self.sums().items())]


def watched(root):
    """The lines of what the jobs below a process take, until this script is ended or the process is gone."""
    processes = Processes(root)

    def end(signal_number, frame):
        processes.is_done = True

    signal.signal(signal.SIGTERM, end)
    while not processes.is_done and os.path.exists('/proc/%d' % root):
        processes.look()
        time.sleep(1)
    return processes.lines()


def stat_of(number):
    """The parent, the start and the processor seconds of a process, those of its ended children with it."""
    try:
        with open('/proc/%s/stat' % number) as it:
            fields = it.read().rpartition(')')[2].split()
    except OSError:
        return None
    return int(fields[1]), fields[19], sum(map(int, fields[11:15])) / TICKS


def job_of(number):
    """The crate and the kind of a process that checks, builds or runs one; None of any other."""
    try:
        with open('/proc/%d/cmdline' % number, 'rb') as it:
            words = it.read().decode('utf-8', 'replace').split('\0')
        folder = os.readlink('/proc/%d/cwd' % number)
    except OSError:
        return None
    if '--crate-name' not in words[:-1]:
        return None
    crate = words[words.index('--crate-name') + 1]
    if os.path.basename(folder).startswith('rt-edit'):
        return crate, 'edits'
    return crate, 'tests' if '--test' in words else 'proof'


def lines_of(command, log):
    """Runs the command, passes its lines on, and gives them with the seconds at which they came."""
    lines = []

    def keep(text):
        line = '%8.1f %s' % (time.time() - start, text)
        print(line, flush=True)
        if log:
            print(line, file=log, flush=True)
        lines.append(line)

    start = time.time()
    child = subprocess.Popen(command, cwd=ROOT, stdin=subprocess.DEVNULL, stdout=subprocess.PIPE,
                             stderr=subprocess.STDOUT, errors='replace')
    processes = Processes(child.pid)
    watcher = threading.Thread(target=processes.watch, daemon=True)
    watcher.start()
    for text in child.stdout:
        keep(text.rstrip('\n'))
    status = child.wait()
    processes.is_done = True
    watcher.join()
    for line in processes.lines():
        keep(line)
    return lines, status


class Gate:
    """What the lines of a run tell."""

    def __init__(self, lines):
        self.crates = []
        self.proved = {}
        self.kept = set()
        self.edits = {}
        self.odd = []
        self.took = {}
        self.ending = ''
        for line in lines:
            stamped = STAMPED.match(line)
            self.take(float(stamped[1]) if stamped else None, stamped[2] if stamped else line)

    def crate(self, name):
        if name not in self.crates:
            self.crates.append(name)
        return name

    def take(self, seconds, text):
        proved = re.match(r'rt: (\w+) proved$', text)
        kept = re.match(r'rt: (\w+) is kept', text)
        edit = re.match(r'rt: must-fail (\w+)/(\S+): (.*)', text)
        took = TOOK.match(text)
        if proved:
            self.proved[self.crate(proved[1])] = seconds
        elif kept:
            self.kept.add(self.crate(kept[1]))
        elif edit:
            name = self.crate(edit[1])
            is_refused = edit[3].startswith('refused, as it must be')
            self.edits[name] = self.edits.get(name, 0) + is_refused
            if not is_refused or '(only' in edit[3][:40]:
                self.odd.append('%s/%s: %s' % (name, edit[2], edit[3]))
        elif took:
            self.took[self.crate(took[1]), took[2]] = float(took[3])
        elif ENDING.match(text):
            self.ending = text

    def print_table(self):
        print('| Crate | Proved at | Proof | Tests | Edits | Time of edits |')
        print('|---|---|---|---|---|---|')
        order = sorted(self.crates, key=lambda it: (self.proved.get(it) is None, self.proved.get(it) or 0.0))
        for name in order:
            at = self.proved.get(name)
            cells = ['kept' if name in self.kept else minutes(at), self.part(name, 'proof'),
                     self.part(name, 'tests'), str(self.edits.get(name, 0) or '-'), self.part(name, 'edits')]
            print('| `%s` | %s |' % (name, ' | '.join(cells)))
        print()
        self.print_sums()
        print(self.ending)
        for text in self.odd:
            print('odd: %s' % text)

    def keep(self):
        """Writes the minutes by crate, for docs/make."""
        rows = [[name] + [self.part(name, kind) for kind in KINDS] for name in self.crates]
        measured.keep('gate', ['Crate', 'Proof', 'Tests', 'Edits'], rows, how='bench/gate_table.py --keep',
                      what='minutes of one processor that each crate takes of a gate from nothing')

    def print_sums(self):
        sums = {kind: sum(it for (_, of), it in self.took.items() if of == kind) for kind in KINDS}
        print('In processor minutes: %s. Edits: %d.' % (
            ', '.join('%.0f for the %s' % (sums[kind] / 60, kind) for kind in KINDS), sum(self.edits.values())))
        seconds, names = self.longest_chain()
        print('The longest chain, in processor minutes: %.1f. %s' % (
            seconds / 60, ', '.join('%s %s' % (name, self.part(name, 'proof')) for name in names)))

    def longest_chain(self):
        """What the proofs of the crates that wait for each other took, and these crates, the lowest first."""
        below = crates_below()
        found = {}

        def longest(name):
            if name not in found:
                before = max((longest(other) for other in below[name]), default=(0.0, []))
                found[name] = (before[0] + self.took.get((name, 'proof'), 0.0), before[1] + [name])
            return found[name]

        seconds, names = max(map(longest, below), default=(0.0, []))
        return seconds, [name for name in names if (name, 'proof') in self.took]

    def part(self, name, kind):
        return minutes(self.took.get((name, kind)))


def crates_below():
    """The crates of crates.txt, each with those of them that it names."""
    lines = {}
    with open(os.path.join(ROOT, 'crates.txt'), encoding='utf-8') as file:
        for line in file:
            found = re.match(r'([a-z]\w*)[^:]*:(.*)', line)
            if found:
                lines[found[1]] = found[2].split()
    return {name: [other for other in rest if other in lines] for name, rest in lines.items()}


def minutes(seconds):
    return '-' if seconds is None else '%.1f' % (seconds / 60)


def main():
    parser = argparse.ArgumentParser(description='Runs a whole gate and prints what each crate took of it.')
    parser.add_argument('--log', metavar='FILE')
    parser.add_argument('--watch', metavar='PID', type=int)
    parser.add_argument('--read', metavar='FILE')
    parser.add_argument('--keep', action='store_true', help='write bench/measured/gate.tsv')
    parser.add_argument('command', nargs=argparse.REMAINDER)
    given = parser.parse_args()
    if given.read:
        with open(given.read, errors='replace') as it:
            finish(Gate(it.read().split('\n')), given)
        return 0
    if given.watch:
        gate = Gate(watched(given.watch))
        gate.print_sums()
        if given.keep:
            gate.keep()
        return 0
    log = open(given.log, 'w') if given.log else None
    command = [it for it in given.command if it != '--'] or ['rt', 'ci', '--anew']
    lines, status = lines_of(command, log)
    print()
    finish(Gate(lines), given)
    return status


def finish(gate, given):
    gate.print_table()
    if given.keep:
        gate.keep()


if __name__ == '__main__':
    sys.exit(main())
