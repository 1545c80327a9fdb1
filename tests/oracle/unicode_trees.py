#!/usr/bin/env python3
"""The formula of a set of characters, by its definition, and two hundred random sets to compare.

    unicode_trees.py [--sets N] [--seed S] PROGRAM

Strings of bytes of one length have a tree. Of one byte, it is the set of these bytes. Of more, the first
bytes are grouped by equal sets of tails; each group, by ascending least byte, is the group and then the
tree of its tails, and several groups are an alternation of these. A set of characters has the tree of its
UTF-8 texts of one byte, of two, of three and of four, where there are any; several are an alternation.

Each set is written as a class of an atom `/[..]/u`. PROGRAM is asked for `--explain`, and the first line
must have the printed form of the tree that is made here, one string of bytes after another. The exit
status is 0 where all agree.
"""
import argparse
import random
import subprocess
import sys

from modes import formula_text
from query_text import Alt, Cat, One

LAST = 0x10ffff
SURROGATES = range(0xd800, 0xe000)

# where the number of bytes or a leading byte changes, and what lies beside the surrogates
EDGES = (0, 0x7f, 0x80, 0xbf, 0xc0, 0x7ff, 0x800, 0xfff, 0x1000, 0xd7ff, 0xe000, 0xffff, 0x10000,
         0x1ffff, 0x3ffff, 0x40000, 0xfffff, 0x100000, LAST)


# --- The tree of a set ---------------------------------------------------------------------------

def one_or_alt(trees):
    return trees[0] if len(trees) == 1 else Alt(tuple(trees))


def tree_of_strings(strings):
    """The tree of strings of bytes, all of one length, of which there is one at least."""
    if len(strings[0]) == 1:
        return One(frozenset(string[0] for string in strings))
    tails = {}
    for string in strings:
        tails.setdefault(string[0], set()).add(string[1:])
    groups = {}
    for first in sorted(tails):
        groups.setdefault(frozenset(tails[first]), []).append(first)
    # a dictionary keeps the order in which its keys came, which is that of the least first bytes
    return one_or_alt([Cat((One(frozenset(firsts)), tree_of_strings(sorted(rest))))
                       for rest, firsts in groups.items()])


def tree_of_characters(characters):
    """The tree of a set of characters, given by their numbers, of which there is one at least."""
    texts = [chr(c).encode('utf-8') for c in sorted(characters)]
    return one_or_alt([tree_of_strings([text for text in texts if len(text) == length])
                       for length in (1, 2, 3, 4) if any(len(text) == length for text in texts)])


# --- Random sets ---------------------------------------------------------------------------------

def near_edge(draw):
    c = draw.choice(EDGES) + draw.randint(-3, 3) if draw.random() < 0.6 else draw.randint(0, LAST)
    c = min(max(c, 0), LAST)
    return 0xe000 if c in SURROGATES else c


def drawn_ranges(draw):
    ranges = []
    for _ in range(draw.randint(1, 5)):
        low = near_edge(draw)
        high = min(LAST, low + draw.choice((0, 0, 1, 5, 63, 64, 100, 3000)))
        ranges.append((low, 0xe000 if high in SURROGATES else high))
    return ranges


def drawn_set(draw):
    """The text of a class, and the characters that it means."""
    ranges = drawn_ranges(draw)
    negated = draw.random() < 0.04
    items = ['\\u{%x}' % low if low == high else '\\u{%x}-\\u{%x}' % (low, high) for low, high in ranges]
    named = {c for low, high in ranges for c in range(low, high + 1) if c not in SURROGATES}
    if not negated:
        return '[' + ''.join(items) + ']', named
    return '[^' + ''.join(items) + ']', {c for c in range(LAST + 1) if c not in named and c not in SURROGATES}


# --- Comparing -----------------------------------------------------------------------------------

def explained(program, query):
    done = subprocess.run([program, '-e', query, '--explain'], stdout=subprocess.PIPE, stderr=subprocess.PIPE)
    lines = done.stdout.decode('utf-8', 'replace').splitlines()
    return lines[0] if lines else done.stderr.decode('utf-8', 'replace').strip()


def main():
    words = argparse.ArgumentParser(description='compares the formulas of random sets of characters')
    words.add_argument('program', metavar='PROGRAM')
    words.add_argument('--sets', type=int, default=200)
    words.add_argument('--seed', type=int, default=1)
    asked = words.parse_args()
    draw = random.Random(asked.seed)
    other = 0
    for k in range(asked.sets):
        text, characters = drawn_set(draw)
        wanted = 'query /%s/' % formula_text(tree_of_characters(characters))
        given = explained(asked.program, '/%s/u' % text)
        if given != wanted:
            other += 1
            print('set %d, /%s/u\n  wanted %s\n  given  %s' % (k, text, wanted, given))
    print('%d sets, %d of them other' % (asked.sets, other))
    return 1 if other else 0


if __name__ == '__main__':
    sys.exit(main())
