#!/usr/bin/env python3
"""Makes auth.log and reads.fasta anew, in the folder where it stands: the same bytes at each run."""
import os
import random

HERE = os.path.dirname(os.path.abspath(__file__))


def auth_log(lines=180):
    """Two days of a gate's log: people who log in, and strangers who try names."""
    pick = random.Random(20260304)
    people = [('ada', '198.51.100.4'), ('grace', '198.51.100.17'), ('alan', '192.0.2.80')]
    strangers = ['203.0.113.7', '203.0.113.42', '192.0.2.200']
    names = ['admin', 'root', 'test', 'oracle', 'guest', 'pi']
    text, second, process = [], 22320, 4100

    def line(program, message):
        day, clock = divmod(second, 86400)
        text.append('Mar %2d %02d:%02d:%02d gate %s: %s\n' % (
            4 + day, clock // 3600, clock // 60 % 60, clock % 60, program, message))

    while len(text) < lines:
        second += pick.randrange(20, 1800)
        process += pick.randrange(1, 9)
        sshd, port = 'sshd[%d]' % process, pick.randrange(32768, 61000)
        kind = pick.random()
        if kind < 0.25:
            line('CRON[%d]' % process, 'pam_unix(cron:session): session opened for user root')
            line('CRON[%d]' % process, 'pam_unix(cron:session): session closed for user root')
        elif kind < 0.7:
            name, address = pick.choice(people)
            if pick.random() < 0.2:
                line(sshd, 'Failed password for %s from %s port %d ssh2' % (name, address, port))
                second += pick.randrange(2, 9)
            line(sshd, 'Accepted publickey for %s from %s port %d ssh2' % (name, address, port))
            line(sshd, 'pam_unix(sshd:session): session opened for user %s' % name)
        else:
            address = pick.choice(strangers)
            for _ in range(pick.randrange(1, 4)):
                name = pick.choice(names)
                unknown = '' if name == 'root' else 'invalid user '
                line(sshd, 'Failed password for %s%s from %s port %d ssh2' % (unknown, name, address, port))
                second += pick.randrange(1, 4)
            line(sshd, 'Connection closed by %s port %d [preauth]' % (address, port))
    return ''.join(text)


def reads(records=16, length=120):
    """Short records of DNA, a sequence a line, with some motifs laid in."""
    pick = random.Random(1953)
    text = []
    for number in range(1, records + 1):
        bases = [pick.choice('ACGT') for _ in range(length)]
        for motif in ('TATAAA', 'GATC', 'GATC'):
            if pick.random() < 0.5:
                at = pick.randrange(length - len(motif))
                bases[at:at + len(motif)] = motif
        text.append('>read%02d made for rematch\n%s\n' % (number, ''.join(bases)))
    return ''.join(text)


if __name__ == '__main__':
    for name, made in (('auth.log', auth_log()), ('reads.fasta', reads())):
        with open(os.path.join(HERE, name), 'w', newline='\n') as file:
            file.write(made)
