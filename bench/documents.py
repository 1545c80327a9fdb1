#!/usr/bin/env python3
"""Makes a document to measure on: the same bytes for the same kind, size and seed.

    bench/documents.py log LINES           a log in which each third line is a login
    bench/documents.py sparse LINES        a log in which one line of a thousand is a login
    bench/documents.py text BYTES          words of a small alphabet, twelve a line
    bench/documents.py dna BYTES           bases, sixty a line
    bench/documents.py errors BYTES        a log of a service with an error about every 100,000 bytes
    bench/documents.py runs RUNS           runs of 700 letters a and b, with a blank behind each
    bench/documents.py same BYTES          one letter, again and again
    bench/documents.py sentences BYTES     sentences of English words
    bench/documents.py bases BYTES         bases, without lines
    bench/documents.py letters BYTES       letters a and b, with a c about every 1,000 bytes
    bench/documents.py scripts BYTES       words of five scripts, a script a line
    bench/documents.py few_logins BYTES    a log of workers in which one line of 2,000 is a login
    bench/documents.py many_logins BYTES   the same, with a login in one line of three
    bench/documents.py auth BYTES          a log of a system: sshd, cron, the kernel, an application
    bench/documents.py access BYTES        a log of a web server
    bench/documents.py fasta BYTES         bases, sixty a line, with a header each 20,000 lines
    bench/documents.py corpus BYTES        sentences of English words among made ones

--seed S (1 where none is given) changes all but log and same. The document goes to standard output.
Python 3.8, standard library.
"""
import argparse
import itertools
import random
import sys


def log(lines, seed):
    """Line i is a login where i is a multiple of 3, else a tick."""
    del seed
    for i in range(lines):
        if i % 3 == 0:
            yield 'u%d logged in from 10.%d.%d.%d\n' % (i % 97, i % 256, i // 7 % 256, i % 10)
        else:
            yield 'tick %d\n' % i


def sparse(lines, seed):
    """Lines of a service that mostly do not concern us."""
    pick = random.Random(seed)
    paths = ['/', '/index.html', '/search', '/static/site.css', '/api/items']
    for i in range(lines):
        if pick.randrange(1000) == 0:
            yield 'user%d logged in from %s\n' % (
                pick.randrange(500), '.'.join(str(pick.randrange(256)) for _ in range(4)))
        else:
            yield '%d GET %s %d %dus\n' % (
                1700000000 + i, pick.choice(paths), pick.choice([200, 200, 200, 304, 404]), pick.randrange(90000))


def text(size, seed):
    pick = random.Random(seed)
    made = 0
    while made < size:
        words = (''.join(pick.choice('etaoin') for _ in range(pick.randrange(2, 8))) for _ in range(12))
        line = (' '.join(words) + '\n')[:size - made]
        made += len(line)
        yield line


def dna(size, seed):
    pick = random.Random(seed)
    for start in range(0, size, 61):
        yield (''.join(pick.choice('ACGT') for _ in range(60)) + '\n')[:size - start]


def errors(size, seed):
    pick = random.Random(seed)
    modules = ['net', 'disk', 'auth', 'sched', 'cache', 'http', 'proxy', 'index']
    actions = ['open', 'close', 'flush', 'retry', 'Evict', 'accept', 'EOF seen', 'reload']
    ticks = ['%s [%s] %s %s id=%d took %dms\n' % (
        pick.choice(['INFO', 'DEBUG', 'WARN', 'INFO', 'INFO']), pick.choice(modules), pick.choice(actions),
        ''.join(pick.choice('abcdefghijklmnopqrstuvwxyz') for _ in range(pick.randrange(3, 12))),
        pick.randrange(10**6), pick.randrange(5000)) for _ in range(20000)]
    made, second, due = 0, 0, 100000
    while made < size:
        line = '2024-05-%02d %02d:%02d:%02d ' % (
            second // 86400 % 28 + 1, second // 3600 % 24, second // 60 % 60, second % 60) + pick.choice(ticks)
        second += 1
        if made > due:
            line = '2024-05-01 00:00:00 ERROR ' + pick.choice(['TIMEOUT', 'DISK', 'OOM', 'REFUSED']) + ' on node\n'
            due += 100000
        made += len(line)
        yield line


def runs(count, seed):
    pick = random.Random(seed)
    for _ in range(count):
        yield ''.join(pick.choice('ab') for _ in range(700)) + ' '


def same(size, seed):
    del seed
    yield 'a' * size


WORDS = '''the of and to in a is that it was for on are as with his they at be this from have or by one had not but
    what all were when we there can an your which their said if do will each about how up out them then she many some so
    these would other into has more her two like him see time could no make than first been its who now people my made
    over did down only way find use may water long little very after words called just where most know'''.split()


def sentences(size, seed):
    pick = random.Random(seed)
    made = 0
    while made < size:
        words = ' '.join(pick.choice(WORDS) for _ in range(pick.randrange(5, 16)))
        line = words[0].upper() + words[1:] + ('. ' if pick.random() < .8 else '.\n')
        made += len(line)
        yield line


def bases(size, seed):
    yield ''.join(random.Random(seed).choices('ACGT', k=size))


def letters(size, seed):
    pick = random.Random(seed)
    made = pick.choices('ab', k=size)
    for i in range(1000, size, 1000):
        made[i + pick.randrange(-400, 400)] = 'c'
    yield ''.join(made)


SCRIPTS = [line.split() for line in (
    'naïve café où être garçon Straße über schön año niño coração não święto źródło český příliš',
    'λόγος θάλασσα ἄνθρωπος ὁδός ήλιος νερό γλώσσα ψυχή άγνωστος καλημέρα σπίτι βιβλίο',
    'слово язык книга вода солнце человек дорога утро ночь хлеб зима весна письмо окно',
    'सूर्य पानी किताब भाषा शब्द रात सुबह नदी पर्वत वन मित्र गीत समय',
    '말 물 바다 하늘 사람 아침 저녁 나무 언어 책상 겨울 노래 시간 별빛')]


def scripts(size, seed):
    """Lines of twelve words of one script."""
    pick = random.Random(seed)
    made = 0
    while made < size:
        words = SCRIPTS[pick.randrange(5)]
        line = ' '.join(pick.choice(words) for _ in range(12)) + '\n'
        made += len(line.encode())
        yield line


# The documents of bench/users_queries.tsv. They end with the first line that reaches the size.

USERS = ['u%d' % i for i in range(500)] + ['root', 'admin', 'alice', 'bob_1', 'carol', 'deploy', 'www']


def up_to(size, lines):
    made = 0
    for line in lines:
        yield line
        made += len(line)
        if made >= size:
            return


def address(pick):
    return '%d.%d.%d.%d' % (pick.randrange(1, 255), pick.randrange(256), pick.randrange(256), pick.randrange(256))


def clock(second):
    return '%02d:%02d:%02d' % (second // 3600 % 24, second // 60 % 60, second % 60)


def few_logins(size, seed):
    return up_to(size, logins(.0005, seed))


def many_logins(size, seed):
    return up_to(size, logins(.34, seed))


def logins(share, seed):
    pick = random.Random(seed)
    others = ['worker %d took %dms queue=%d state=%s' % (
        pick.randrange(64), pick.randrange(5000), pick.randrange(100), pick.choice(['idle', 'busy', 'closing'])) for _ in range(5000)]
    for second in itertools.count(1):
        if pick.random() < share:
            what = '%s logged in from %s' % (pick.choice(USERS), address(pick))
        else:
            what = pick.choice(others)
        yield '2026-11-%02d %s %s\n' % (second // 86400 % 28 + 1, clock(second), what)


def auth(size, seed):
    return up_to(size, auth_lines(random.Random(seed)))


def auth_lines(pick):
    for second in itertools.count(1):
        front = 'Nov %2d %s host%d ' % (second // 86400 % 28 + 1, clock(second), pick.randrange(8))
        yield front + auth_message(pick, second) + '\n'


def auth_message(pick, second):
    kind = pick.random()
    if kind < .04:
        return 'sshd[%d]: Failed password for %s%s from %s port %d ssh2' % (
            pick.randrange(1000, 40000), pick.choice(['', '', 'invalid user ']), pick.choice(USERS), address(pick), pick.randrange(1024, 65536))
    if kind < .06:
        return 'sshd[%d]: Accepted publickey for %s from %s port %d ssh2: RSA SHA256:%x' % (
            pick.randrange(1000, 40000), pick.choice(USERS), address(pick), pick.randrange(1024, 65536), pick.getrandbits(128))
    if kind < .061:
        return 'kernel: [%d.%06d] nfs: server %s not responding, timeout' % (second, pick.randrange(10**6), pick.choice(['fs1', 'fs2']))
    if kind < .3:
        return 'systemd[1]: Started Session %d of user %s.' % (pick.randrange(100000), pick.choice(USERS))
    if kind < .5:
        return 'CRON[%d]: (root) CMD (command -v debian-sa1 > /dev/null && debian-sa1 1 1)' % pick.randrange(1000, 40000)
    return 'app[%d]: request id=%d took %dms rc=%d' % (
        pick.randrange(1000, 40000), pick.randrange(10**6), int(pick.expovariate(1 / 200.)), pick.choice([0, 0, 0, 1]))


def access(size, seed):
    return up_to(size, access_lines(random.Random(seed)))


def access_lines(pick):
    paths = ['/', '/index.html', '/search?q=%d', '/static/site.css', '/api/items/%d', '/img/%d.png']
    agents = ['Mozilla/5.0 (X11; Linux x86_64) AppleWebKit/537.36', 'curl/7.88.1', 'Googlebot/2.1 (+http://www.google.com/bot.html)']
    states = [200] * 90 + [304] * 5 + [404] * 4 + [500, 502]
    for second in itertools.count(1):
        path = pick.choice(paths)
        path = path % pick.randrange(100000) if '%d' in path else path
        yield '%s - - [%02d/Nov/2026:%s +0000] "%s %s HTTP/1.1" %d %d "-" "%s"\n' % (
            address(pick), second // 86400 % 28 + 1, clock(second), pick.choice(['GET', 'GET', 'GET', 'POST']), path,
            pick.choice(states), pick.randrange(100000), pick.choice(agents))


def fasta(size, seed):
    return up_to(size, fasta_lines(random.Random(seed)))


def fasta_lines(pick):
    for number in itertools.count(1):
        yield '>chr%d\n' % number
        for _ in range(20000):
            yield ''.join(pick.choices('ACGT', k=60)) + '\n'


COMMON = WORDS + 'going making being colour color grey gray centre center'.split()
SYLLABLES = '''ba be bi bo bu da de di do du fa fe ga ge ka ke ki ko la le li lo lu ma me mi mo mu na ne ni no nu pa pe po
    ra re ri ro ru sa se si so su ta te ti to tu va ve vi wa we za ing er ed ly tion ment ness al'''.split()


def corpus(size, seed):
    return up_to(size, corpus_sentences(random.Random(seed)))


def corpus_sentences(pick):
    rare = [''.join(pick.choices(SYLLABLES, k=pick.randrange(2, 5))) for _ in range(40000)]
    while True:
        words = ' '.join(pick.choice(COMMON) if pick.random() < .6 else rare[min(int(pick.paretovariate(.7)), 39999)]
                         for _ in range(pick.randrange(6, 22)))
        yield words[0].upper() + words[1:] + pick.choice(['.', '.', '.', '?', ',']) + pick.choice([' ', ' ', '\n'])


KINDS = {f.__name__: f for f in (log, sparse, text, dna, errors, runs, same, sentences, bases, letters, scripts, few_logins, many_logins,
                                 auth, access, fasta, corpus)}


def write(kind, size, seed, out):
    """Writes the document to a binary file and gives its length."""
    length = 0
    for line in KINDS[kind](size, seed):
        length += out.write(line.encode())
    return length


def main():
    parser = argparse.ArgumentParser(description='Makes a document to measure on.')
    parser.add_argument('kind', choices=sorted(KINDS))
    parser.add_argument('size', type=int, help='lines of log and sparse, runs of runs, bytes of the others')
    parser.add_argument('--seed', type=int, default=1)
    given = parser.parse_args()
    write(given.kind, given.size, given.seed, sys.stdout.buffer)


if __name__ == '__main__':
    main()
