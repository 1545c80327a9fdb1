"""The pages of the manual of the commands beside the program, made of what each says with --help; rematch.1 is written by hand.

docs/make writes them. Python 3.9, standard library.
"""
import argparse
import os
import re
import sys
from unittest import mock

sys.dont_write_bytecode = True
ROOT = os.path.dirname(os.path.dirname(os.path.abspath(__file__)))
sys.path.insert(0, os.path.join(ROOT, 'clients', 'python'))
from rematch.to.convert import main as to_main  # noqa: E402
from rematch.to.piece import cut_main, piece_main  # noqa: E402
from rematch.to.play import main as play_main  # noqa: E402
from rematch.to.relay import main as serve_main  # noqa: E402
from rematch.to.words import OTHER_FORMS  # noqa: E402

PAGES = {
    'rematch-to': (to_main, 'rows of queries as tables, concordances, pages and counts'),
    'rematch-cut': (cut_main, 'cut a document at line ends'),
    'rematch-piece': (piece_main, 'the rows of a query that begin in a piece of a document'),
    'rematch-play': (play_main, 'a page to write a query beside a document'),
    'rematch-serve': (serve_main, 'sessions that tell back what is wrong with a request'),
}


class Seen(Exception):
    """The parser that was asked for its help."""


def parser_of(main, *words):
    def see(parser, *_):
        raise Seen(parser)

    with mock.patch.object(argparse.ArgumentParser, 'print_help', see), mock.patch.object(argparse.ArgumentParser, 'format_help', see):
        try:
            main([*words, '--help'])
        except Seen as seen:
            return seen.args[0]
    raise SystemExit('manual_pages: no help')


def plain(text):
    """A line of text as roff has it."""
    line = ' '.join(text.split()).replace('\\', '\\e').replace('-', '\\-')
    return '\\&' + line if line[:1] in ('.', "'") else line


def item(head, text):
    return ['.TP', head, plain(text)]


def option(action):
    """An option or a word of the command line."""
    value = action.metavar or (action.dest if action.nargs != 0 else '')
    if action.choices and not action.metavar:
        value = '|'.join(map(str, action.choices))
    if not action.option_strings:
        return item('.I ' + plain(value), action.help or '')
    names = '.BR ' + ' ", " '.join(map(plain, action.option_strings)) if len(action.option_strings) > 1 else '.B ' + plain(action.option_strings[0])
    if action.nargs == 0:
        return item(names, action.help or '')
    return item('.BI %s " %s"' % (plain(action.option_strings[-1]), plain(value)), action.help or '')


def paragraphs(text):
    """A text of paragraphs, of which those that end in `name:` with lines below are sections of items."""
    lines = []
    for part in re.split(r'\n\s*\n', (text or '').strip('\n')):
        rows = part.splitlines()
        if len(rows) > 1 and rows[0].endswith(':') and all(row.startswith('  ') for row in rows[1:]):
            lines += ['.SH ' + rows[0][:-1].upper()]
            for row in rows[1:]:
                name, _, rest = row.strip().partition('  ')
                lines += item('.B ' + plain(name), rest)
        elif rows:
            lines += ['.PP', plain(part)]
    return lines


def body(parser):
    actions = [action for action in parser._actions if action.help != argparse.SUPPRESS]
    words = [action for action in actions if not action.option_strings]
    options = [action for action in actions if action.option_strings]
    said, _, examples = (parser.description or '').partition('\n\nexamples:')
    lines = ['.SH DESCRIPTION', *paragraphs(said)[1:]]
    for action in words:
        lines += option(action)
    lines.append('.SH OPTIONS')
    for action in options:
        lines += option(action)
    return lines + paragraphs(examples and 'examples:' + examples) + paragraphs(parser.epilog)


def synopsis(name, parser):
    words = [action.metavar or action.dest for action in parser._actions if not action.option_strings]
    shapes = {'*': '[%s ...]', '?': '[%s]'}
    ends = [shapes.get(action.nargs, '%s') % word
            for word, action in zip(words, (action for action in parser._actions if not action.option_strings))]
    return ['.SH SYNOPSIS', '.B ' + plain(name), '.RI [ option "] .." ' + ' '.join('" %s"' % plain(end) for end in ends)]


def date():
    with open(os.path.join(ROOT, 'man', 'rematch.1'), encoding='utf-8') as file:
        return re.search(r'^\.TH REMATCH 1 (\S+)', file.read(), re.M)[1]


def page(name):
    main, says = PAGES[name]
    parser = parser_of(main)
    lines = [r'.\" Written by docs/make of what %s says with --help.' % name,
             '.TH %s 1 %s rematch "User Commands"' % (name.upper().replace('-', '\\-'), date()),
             '.SH NAME', '%s \\- %s' % (plain(name), says), *synopsis(name, parser), *body(parser)]
    for form in OTHER_FORMS if name == 'rematch-to' else ():
        own = parser_of(main, form)
        lines += ['.SH "REMATCH\\-TO %s"' % form.upper(), *paragraphs(own.description)[1:]]
        for action in own._actions:
            lines += option(action)
        lines += paragraphs(own.epilog)
    others = ['rematch', *(other for other in PAGES if other != name)]
    lines += ['.SH "SEE ALSO"', *('.BR %s (1)%s' % (plain(other), ',' * (other != others[-1])) for other in others)]
    return '\n'.join(lines) + '\n'


def pages():
    """Each page and its text."""
    for name in PAGES:
        yield 'man/%s.1' % name, page(name)
