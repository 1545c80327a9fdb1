"""What to write instead: one table of hints, a line for each note of the program and for what is at its place.

docs/FORMATS.md prints the same table; ``python3 -m rematch.hints`` writes it. The table needs no change of the
program: the program says which fault it is and where, and a hint looks at what is there.
"""
from __future__ import annotations

import re
from typing import NamedTuple, Optional, Tuple

__all__ = ['Hint', 'HINTS', 'NOTES', 'general_note', 'hint_of', 'markdown']


class Hint(NamedTuple):
    """A line of the table: for a note, and where it is given for what is at the place, a remedy.

    ``note`` is the note with A for an offset or a length, B for a length, W for a limit and X for a name.
    ``example`` is a query that meets it, or empty where no query alone does. ``here`` fits the bytes of the query
    from the offset on, and ``before`` those that end there; without either the line is for all other places.
    """

    note: str
    example: str
    text: str
    here: bytes = b''
    before: bytes = b''

    def is_for(self, query: bytes, offset: Optional[int]) -> bool:
        """Whether the line suits this place of the query."""
        if offset is None:
            return not self.here and not self.before
        return (re.match(b'(?s:' + self.here + b')', query[offset:]) is not None
                and re.search(b'(?s:' + self.before + rb')\Z', query[:offset]) is not None)


_UNEXPECTED = 'query: unexpected at A'
_ESCAPE = 'query: bad escape at A'
_REPEAT = 'query: bad repeat at A'
_WORDS = 'the words are union, join, minus, project x (..) and let, in small letters'
_OTHER_WORDS = rb'(?!union|join|minus|project|let|where)(?i:union|join|minus|project|let|where)\b'
_SLASHES = 'write a formula between slashes: /../'
_IS_JOIN = 'and is join here: it has the rows that agree on the variables that both sides share'
_IS_UNION = 'or is union here: it has the rows of either side'
_IS_MINUS = 'not is minus here, between two sides: it has the rows of the left side that the right side does not have'

# The first line of a note that suits the place is given, so lines for any place come last.
HINTS: Tuple[Hint, ...] = (
    Hint(_UNEXPECTED, '/(?:ab)+/', 'a group captures nothing here: write (..)', rb'\?:'),
    Hint(_UNEXPECTED, '/(?=a)/', 'there is no look-around: write the context outside of the capture, or join', rb'\?<?[=!]'),
    Hint(_UNEXPECTED, '/(?P<x>a)/', 'write a capture as !name{..}', rb'\?P?<'),
    Hint(_UNEXPECTED, '/(?i)a/', 'u is the only flag: list both letters, [Ff]', rb'\?[a-z]+[:)]'),
    Hint(_UNEXPECTED, '/*a/', 'a repeat has nothing before it; for the character itself write a backslash before it', rb'[?*+{]'),
    Hint(_UNEXPECTED, '/a/g', 'u is the only flag, and every match is returned without it: drop it', rb'[gsx]+\s*\Z', rb'/'),
    Hint(_UNEXPECTED, '/^a/m', 'u is the only flag; rematch-to, and rematch.expand in Python, read m: ^ and $ are then the start and the end of a line', rb'm\s*\Z', rb'/'),
    Hint(_UNEXPECTED, '/a/i', 'u is the only flag; rematch-to, and rematch.expand in Python, read i; without it write [Aa] for each letter', rb'[A-Za-z]+\s*\Z', rb'/'),
    Hint(_UNEXPECTED, '/usr/bin/', r'the formula ended at the slash before; write a slash inside of a formula as \/', rb'[^\s;|&]', rb'/'),
    Hint(_UNEXPECTED, '/[[:alpha:]]/', r'write a [ in a class as \[; [:alpha:] is not known: with the flag u there is \p{Alphabetic}', rb'\[', rb'\[[^]]*'),
    Hint(_UNEXPECTED, '/[é]/', 'a class over bytes may contain only ASCII: add u after the closing slash', rb'[\x80-\xff]', rb'\[[^]]*'),
    Hint(_UNEXPECTED, '\ufeff/a/', 'the query begins with a byte order mark: save the file without it', rb'\xef\xbb\xbf'),
    Hint(_UNEXPECTED, '/[]/', r'a class is never empty; write a ] in it as \]', rb'\]', rb'\[\^?'),
    Hint(_UNEXPECTED, '/a]/', r'for the character itself write a backslash before it: \] \) \}', rb'[])}]'),
    Hint(_UNEXPECTED, '/!x{a}/ where x > 5', 'after where write only tests, separated by commas: where luhn(x), upper(y); for other conditions look at the texts '
          'of the rows, by csv or in Python', b'', rb'\bwhere\b[^/;]*'),
    Hint(_UNEXPECTED, '/a/ and /b/', _IS_JOIN, rb'(?i:and)\b|&&?'),
    Hint(_UNEXPECTED, '/a/ or /b/', _IS_UNION, rb'(?i:or)\b|\|'),
    Hint(_UNEXPECTED, '/a/ not /b/', _IS_MINUS, rb'(?i:not)\b'),
    Hint(_UNEXPECTED, '/a/ JOIN /b/', _WORDS, _OTHER_WORDS),
    Hint(_UNEXPECTED, 'let w = /a/ w', 'end each let with a ; and write the query after it: let w = /a/; w', rb'[A-Za-z_/(]', rb'\blet\s+\w+\s*=\s*/(?:[^\\/]|\\.)*/u?\s+'),
    Hint(_UNEXPECTED, '# failed', 'a query has no comments; rematch-to leaves out a # and the rest of its line', rb'#|--|//'),
    Hint(_UNEXPECTED, '/a/;', 'only a let ends with a ;', rb';'),
    Hint(_UNEXPECTED, '"a"', _SLASHES, rb"[\"'^\\.$!\d\[\x80-\xff]"),
    Hint(_UNEXPECTED, 'let w = /a/;', 'the query ends too early: after the lets comes the query itself, and every ( needs a )', rb'\Z'),
    Hint(_UNEXPECTED, '/a/ /b/', 'put union, join or minus between two atoms', rb'/'),
    Hint(_UNEXPECTED, 'project (/!x{a}/)', 'a query is let NAME = ..; and then atoms /../, with union, join, minus and project NAMES (..) around them'),
    Hint('query: not closed at A', '/a[/]/', r'write a slash inside of a formula as \/, in a class too', rb'\[[^]/]*/(?!\s*\Z)'),
    Hint('query: not closed at A', '/a', r'the closing slash is missing; write a slash inside of a formula as \/', rb'/'),
    Hint('query: not closed at A', '/(ab/', 'what begins here is not closed before the closing slash; for the character itself write a backslash before it'),
    Hint(_ESCAPE, r'/\bthe\b/', r'write [^\w] before or after the capture; rematch-to, and rematch.expand in Python, read \b at the ends of a formula', rb'\\b'),
    Hint(_ESCAPE, r'/\Bthe/', r'write \w before or after the capture', rb'\\B'),
    Hint(_ESCAPE, r'/\D/', r'write [^\d]', rb'\\D'),
    Hint(_ESCAPE, r'/\W/', r'write [^\w]', rb'\\W'),
    Hint(_ESCAPE, r'/\S+/', r'write [^\s]', rb'\\S'),
    Hint(_ESCAPE, r'/\Aab/', 'the start of the document is ^, straight after the opening slash', rb'\\A'),
    Hint(_ESCAPE, r'/ab\z/', 'the end of the document is $, straight before the closing slash', rb'\\[Zz]'),
    Hint(_ESCAPE, r'/\p{L}/', r'\p{..} needs the flag u after the closing slash, and braces', rb'\\p'),
    Hint(_ESCAPE, r'/\P{L}/u', r'write [^\p{..}], with the flag u', rb'\\P'),
    Hint(_ESCAPE, r'/\u{e9}/', r'\u{..} needs the flag u after the closing slash, and up to six hexadecimal digits of a character', rb'\\u'),
    Hint(_ESCAPE, r'/\x9/', r'\xhh has two digits, and with the flag u ends at \x7f; with the flag u write a character as \u{..}', rb'\\x'),
    Hint(_ESCAPE, r'/\f/', r'write \x0c', rb'\\f'),
    Hint(_ESCAPE, r'/\v/', r'write \x0b', rb'\\v'),
    Hint(_ESCAPE, r'/\0/', r'write \x00', rb'\\0'),
    Hint(_ESCAPE, r'/\h/', r'write [ \t]', rb'\\h'),
    Hint(_ESCAPE, r'/a\R/', r'write (\r?\n)', rb'\\R'),
    Hint(_ESCAPE, r'/(a)\1/', 'there are no back-references: compare the texts of the rows', rb'\\[1-9k]'),
    Hint(_ESCAPE, r'/\q/', r'write a backslash only before ASCII punctuation or one of d w s n t r x, and with the flag u before p and u'),
    Hint('query: bad range at A', r'/[\w-z]/', r'write a - beside \d, \w, \s or \p{..} last in the class', rb'\\[dwsp]|[^]]-\\[dwsp]'),
    Hint('query: bad range at A', '/[z-a]/', 'a range goes from the lower character to the higher one; write a - itself last in the class', rb'[^[]'),
    Hint('query: bad range at A', r'/[^\x00-\xff]/', 'nothing fits this class'),
    Hint(_REPEAT, '/a{,3}/', 'write {0,k}', rb'\{,'),
    Hint(_REPEAT, '/!1st{a}/', 'a name begins with a letter or _', b'', rb'!\d\w*'),
    Hint(_REPEAT, '/!größe{a}/', 'a name has letters of ASCII, digits and _', rb'\{', rb'!\w*[\x80-\xff][\w\x80-\xff]*'),
    Hint(_REPEAT, r'/!{\w+}/', 'a capture has a name: !name{..}', rb'\{', rb'!'),
    Hint(_REPEAT, '/N-{P}-[ST]-{P}/', 'for a pattern of PROSITE write [^P] for {P}, . for x and .{2,4} for x(2,4), and leave out the - between: /!x{N[^P][ST][^P]}/',
         rb'\{[A-Z]+\}', rb'[]A-Zx})]-'),
    Hint(_REPEAT, '/~1{TATA}/', 'rematch-to and rematch-piece read words with mismatches; write the character itself as \\{', rb'\{', rb'~\d'),
    Hint(_REPEAT, '/a%{ip}/', 'rematch-to and rematch-piece read parts; write the character itself as \\{', rb'\{', rb'%'),
    Hint(_REPEAT, '/!x {a}/', r'write a capture as !name{..}, with the ! and without a space; write the character itself as \{', rb'\{(?!\d)', rb'\w\s*'),
    Hint(_REPEAT, '/a{3,2}/', r'write {m}, {m,} or {m,k}, with numbers up to 1,000 in ascending order; write the character itself as \{'),
    Hint('query: repeat after repeat at A', '/"!q{.*?}"/', 'there are no lazy repeats, since every match is returned: drop the ? and say what comes after, as in '
          '!q{[^"]*}"', rb'\?'),
    Hint('query: repeat after repeat at A', '/a++/', 'put the first repeat into a group, (a+)+; there are no possessive repeats'),
    Hint('query: anchor at A', r'/$user{\w+}/', 'write a capture as !name{..}', rb'\$\w+\{'),
    Hint('query: anchor at A', '/(^|,)!x{a}/', 'an anchor applies to the whole formula, not to one arm: write a union, /^!x{..}/ union /,!x{..}/', rb'\^',
          rb'[(|]'),
    Hint('query: anchor at A', '/!x{a}(,|$)/', 'an anchor applies to the whole formula, not to one arm: write a union, /!x{..}$/ union /!x{..},/',
          rb'\$[|)]'),
    Hint('query: anchor at A', '/!x{^a}/', 'write it before the capture, straight after the opening slash: /^!x{..}/', rb'\^', rb'\{'),
    Hint('query: anchor at A', '/!x{a$}/', 'write it after the capture, straight before the closing slash: /!x{..}$/', rb'\$\}'),
    Hint('query: anchor at A', r'/a\n^b/', 'write ^ only straight after the opening slash: it is the start of the document; a line begins after '
          r'\n; write the character itself as \^', rb'\^'),
    Hint('query: anchor at A', '/a$b/', 'write $ only straight before the closing slash: it is the end of the document; a line ends before '
          r'\n; write the character itself as \$'),
    Hint('query: name too long at A', '/!n23456789_123456789_123456789_123{a}/', 'a name has at most 32 bytes'),
    Hint('query: reserved name at A', '/!none{a}/', 'none is the word for no variable: take another name'),
    Hint('query: too deep at A', '', 'at most 100 groups, captures or parentheses are open at once, and a query has at most 100 minus: name parts by let'),
    Hint('query: not UTF-8 at A', '', 'write the query as UTF-8, or drop the u and match bytes'),
    Hint('query: unknown property at A', r'/\p{Greek}/u', r'there are Alphabetic, general categories (Lu, Nd, ..) and L M N P S Z C; for a script '
          r'write a range, [\u{370}-\u{3ff}]'),
    Hint('query: unknown name at A', 'part ip = /a/; /b/', 'rematch-to and rematch-piece read parts; the program has let, which names a '
          'query and not a part of a formula', rb'part\s+\w+\s*='),
    Hint('query: unknown name at A', '/a/ join AND', _WORDS, rb'(?!union|join|minus|project|let|where)(?i:and|or|not|union|join|minus|project|let|where)\b'),
    Hint('query: unknown name at A', 'failed', 'write a formula between slashes, /../; a name is that of a let before it'),
    Hint('query: name twice at A', 'let w = /a/; let w = /b/; w', 'two lets have this name: rename one'),
    Hint('query: unknown test at A', '/!x{a}/ where odd(x)', 'the tests are luhn and upper; test anything else on the rows, by group()'),
    Hint('query: variable X twice', '/!x{a}!x{b}/', 'no way through a formula takes a variable twice: rename one; compare texts on the rows, by group()'),
    Hint('query: variable X under a repeat', '/(!x{a})*/', 'take the capture out of the repeat: each piece is a row of its own'),
    Hint('query: variable X not sure on both sides of join', '/!x{a}|b/ join /!x{.}/', 'on one side some rows are without it (an arm, a ?): '
          'capture it on every way there, project it away, or rename it'),
    Hint('query: variable X not on both sides of minus', '/!x{a}/ minus /b/', 'both sides of minus have the same variables: capture it on '
          'both, or project it away'),
    Hint('query: no variable X to keep', 'project y (/!x{a}/)', 'the expression in the parentheses has no such variable'),
    Hint('query: no variable X to test', '/!x{a}/ where luhn(y)', 'the rows have no such variable: it is not captured, or projected away'),
    Hint('query: more than 32 variables', '', 'a name that occurs in several atoms counts once: use fewer names'),
    Hint('query: longer than 65536 bytes', '', 'shorten the query, or ask several and put their rows together'),
    Hint('size: more than 20000 states', '/(a{1000}){20}/', 'each copy of a repeated part counts, and each letter of each alternative: repeat less, write common beginnings '
          'once, as ab(ate|bey), or ask several queries (rematch-to does for a list, by --words FILE); for the first one after, within a distance, write (pair minus between) join near'),
    Hint('size: more than 2000000 ways', '/((a?){1000}){3}/', 'use fewer alternatives that may follow each other, or fewer captures of the empty '
          'part beside each other that may be left out'),
    Hint('size: filter past W', '', 'leave filter out, or raise W by max_table'),
    Hint('size: table past W', '', 'raise W by max_table, or say more of what comes before a long repeat'),
    Hint('read failed: query', '', 'the file does not exist, is a folder, or cannot be read'),
    Hint('read failed: document', '', 'the file does not exist, is a folder, or cannot be read'),
    Hint('document longer than 268435456 bytes', '', 'rematch-to reads it in pieces, which it cuts at line ends where the query has a reach, and '
          'records of sequences by bed, gff and fasta; in Python rematch.pieces'),
    Hint('cursor: not a cursor', '', 'give the text as Match.cursor or Page.cursor gave it; in a shell put quotes around it'),
    Hint('cursor: other variables', '', 'the cursor is of a query with other variables'),
    Hint('cursor: document of A bytes, not B', '', 'the document has changed since; where it only grew, c1 and the parts without the length '
          'continue (c1;x:0-1)'),
    Hint('cursor: past the document', '', 'the cursor is of a longer document'),
    Hint('write failed', '', 'the output is closed or has no room'),
    Hint('out of memory', '', 'ask for less: anchor the query, or say more of the context of a capture'),
)

NOTES: Tuple[str, ...] = tuple(dict.fromkeys(hint.note for hint in HINTS))

_PARTS = {'A': r'\d+', 'B': r'\d+', 'W': r'\d+', 'X': r'[A-Za-z_]\w*'}


def general_note(note: str) -> Optional[str]:
    """The note as the table has it, with A, B, W and X for what differs from run to run.

    >>> general_note('query: unexpected at 12')
    'query: unexpected at A'
    >>> general_note('cursor: document of 3 bytes, not 2')
    'cursor: document of A bytes, not B'
    """
    for general in NOTES:
        pattern = re.sub(r'\b[ABWX]\b', lambda part: _PARTS[part[0]], general)
        if re.fullmatch(pattern, note):
            return general
    return None


def hint_of(note: str, query: bytes = b'', offset: Optional[int] = None) -> Optional[str]:
    r"""What to do about a note of the program; None for a note that the table does not have.

    ``offset`` counts bytes of ``query`` from 0.

    >>> hint_of('query: bad escape at 1', rb'/\D/', 1)
    'write [^\\d]'
    """
    general = general_note(note)
    return next((hint.text for hint in HINTS if hint.note == general and hint.is_for(query, offset)), None)


def _code(text: str) -> str:
    return '`' + text.replace('|', '\\|') + '`' if text else ''


def markdown() -> str:
    """The table as docs/FORMATS.md prints it."""
    lines = ['| Note | For example | Hint |', '|---|---|---|']
    lines += [f'| {_code(hint.note)} | {_code(hint.example)} | {_shown(hint.text)} |' for hint in HINTS]
    return '\n'.join(lines) + '\n'


def _shown(text: str) -> str:
    """The hint as text of a Markdown cell: the signs that mean something there have a backslash."""
    return re.sub(r'([\\*_\[\]<>|`])', r'\\\1', text)


if __name__ == '__main__':
    print(markdown(), end='')
