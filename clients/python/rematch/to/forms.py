"""The forms of ``rematch-to`` that take one document after another: what each makes of a document, and what is written of it."""
from __future__ import annotations

import os
import sys
from array import array
from collections import Counter
from itertools import islice
from typing import TYPE_CHECKING, Any, Dict, Iterable, Iterator, List, NoReturn, Optional, Sequence, Tuple, Type

from ..match import Row
from .packed import Given
from .tables import Context, Layout, Table, concordance, first_place, has_names, json_lines, shown_text, sorted_contexts
from .jobs import Part
from .lines import count_lines, shown_lines

if TYPE_CHECKING:
    from .convert import Command
    from .sequences import Site

__all__ = ['DOCUMENT_FORMS', 'Drawn', 'Form', 'layout_of', 'refuse']


def refuse(message: str) -> NoReturn:
    """Ends the command since its words do not fit the query: a line, and status 2."""
    print(f'rematch-to: {message}', file=sys.stderr)
    raise SystemExit(2)


class Form:
    """What is made of each document: texts, which are written, or where ``is_text`` is false a value, which `take` gets."""

    is_text = True
    is_sequence = False  # whether records of sequences are searched
    takes_pieces = True  # whether a piece of a document can be done by itself
    reads_once = False  # whether of a document no more is read than its rows, in their order

    def __init__(self, command: 'Command') -> None:
        self.command = command
        self.given = command.given
        self.query = command.query
        self.left: Optional[int] = command.given.most

    def head(self) -> str:
        """What is written before all documents."""
        return ''

    def of(self, found: Given) -> Any:
        """What is made of a document, or of a piece of one."""
        raise NotImplementedError

    def joined(self, texts: Iterable[str]) -> Iterable[str]:
        """The texts of a document, of which there may be others before it."""
        return texts

    def take(self, part: Part, value: Any) -> Iterable[str]:
        """What is written once the value of a part is there."""
        return ()

    def end(self) -> Iterable[str]:
        """What is written behind all documents."""
        return ()

    def limited(self, texts: Iterable[str]) -> Iterator[str]:
        """The texts, as many as are left of those that are asked for."""
        if self.left is None:
            yield from texts
            return
        for text in islice(texts, self.left):
            self.left -= 1
            yield text


def layout_of(given: Any, delimiter: str = ',') -> Layout:
    """The layout of a table that the words ask for."""
    columns = None if given.columns is None else [name.strip() for name in given.columns.split(',')]
    return Layout(columns, bool(given.texts), given.context, bool(given.sentence), given.var, bool(given.characters), delimiter)


class _Csv(Form):
    delimiter = ','

    def __init__(self, command: 'Command') -> None:
        super().__init__(command)
        if self.given.var is not None and self.given.context is None and not self.given.sentence:
            refuse('--var is for --context and --sentence here: give one of them too')
        self.reads_once = self.given.context is None and not self.given.sentence and not self.given.characters
        try:
            self.table = Table(self.query, layout_of(self.given, self.delimiter))
        except ValueError as reason:
            refuse(str(reason))

    def head(self) -> str:
        return '' if self.given.no_head else self.table.head()

    def of(self, found: Given) -> Iterator[str]:
        return self.limited(self.table.lines(found, self.command.rows(found)))


class _Tsv(_Csv):
    delimiter = '\t'


class _Json(Form):
    reads_once = True

    def __init__(self, command: 'Command') -> None:
        super().__init__(command)
        twice = next((name for name in ('document', 'line', *['pattern'] * has_names(self.query)) if name in self.query.variables), None)
        if twice is not None:
            refuse(f'each row has a member {twice}: rename the variable')

    def of(self, found: Given) -> Iterator[str]:
        return self.limited(json_lines(self.query, found, self.command.rows(found), is_texts_alone=bool(self.given.texts)))


class _Parquet(Form):
    """A file of Parquet, which pyarrow writes once all rows are there."""
    is_text = False

    def __init__(self, command: 'Command') -> None:
        from importlib.util import find_spec
        from ..arrow import Columns
        super().__init__(command)
        if find_spec('pyarrow') is None:
            refuse('parquet needs the package pyarrow: pip install pyarrow; csv needs none')
        if self.given.out is None and sys.stdout.isatty():
            refuse('parquet is no text for a terminal: -o NAME writes it to a file')
        try:
            self.columns = Columns(self.query.variables, kind='q', has_lines=True)
        except ValueError as reason:
            refuse(str(reason))

    def of(self, found: Given) -> None:
        data, number = found.data, found.numbers()
        places, lines = array('q'), array('q')
        for row in self.command.rows(found):
            first = first_place(row)
            places.extend(row)
            lines.append(-1 if first is None else number(first))
        name = shown_text(os.fsencode(found.name))
        self.columns.add(name, places, len(lines), lambda start, end: shown_text(data[start:end]), lines)

    def end(self) -> Iterable[str]:
        from ..arrow import parquet_of
        yield parquet_of(self.columns).decode('utf-8', 'surrogateescape')  # of which the output makes the same bytes


class Drawn:
    """So many of a list of any length, each with the same chance; the same ones for the same seed.

    >>> drawn = Drawn(2, 7)
    >>> drawn.add('abcde')
    >>> drawn.in_order()
    ['a', 'd']
    """

    def __init__(self, most: int, seed: int) -> None:
        from random import Random
        self._most = most
        self._chance = Random(seed)
        self._kept: List[Tuple[int, Any]] = []
        self._seen = 0

    def add(self, found: Iterable[Any]) -> None:
        """Goes on with more of the list."""
        for one in found:
            place = self._seen if self._seen < self._most else self._chance.randrange(self._seen + 1)
            if place < self._most:
                self._kept[place:place + 1] = [(self._seen, one)]
            self._seen += 1

    def in_order(self) -> List[Any]:
        """Those that were drawn, in the order of the list."""
        return [one for _, one in sorted(self._kept, key=lambda kept: kept[0])]


class _Kwic(Form):
    def __init__(self, command: 'Command') -> None:
        super().__init__(command)
        name = self.given.var or (self.query.variables or ('',))[0]
        if name not in self.query.variables:
            refuse(f'the query has no variable{" " + name if name else "s"}')
        self.name = name
        self.columns: Optional[int] = None if self.given.sentence else 35 if self.given.columns is None else int(self.given.columns)
        self.label = max(map(len, self.command.names)) + 7
        self.is_text = self.given.sort is None and self.given.sample is None
        self.found: List[Context] = []
        self.drawn = None if self.given.sample is None else Drawn(self.given.most, self.given.sample)

    def of(self, found: Given) -> Any:
        contexts = concordance(self.query, found, self.command.rows(found), self.name, self.columns)
        return self.limited(map(self.shown, contexts)) if self.is_text else list(contexts)

    def shown(self, context: Context) -> str:
        return context.shown(self.columns, self.label, is_coloured=self.command.is_coloured) + '\n'

    def take(self, part: Part, value: List[Context]) -> Iterable[str]:
        if self.drawn is None:
            self.found += value
        else:
            self.drawn.add(value)
        return ()

    def end(self) -> Iterable[str]:
        if self.is_text:
            return
        if self.drawn is not None:
            self.found = self.drawn.in_order()
        yield from map(self.shown, islice(sorted_contexts(self.found, self.given.sort), self.given.most))


_GAP = '--\n'


class _Lines(Form):
    takes_pieces = False

    def __init__(self, command: 'Command') -> None:
        super().__init__(command)
        if self.given.others and self.given.around:
            refuse('-v writes all other lines, so there are none around them: drop -C')
        self.is_first = True  # whether nothing is written yet

    def of(self, found: Given) -> Iterator[str]:
        is_begun = False
        data: bytes = found.data
        name = f'{found.name}:' if len(self.command.names) > 1 else ''
        around, is_coloured = self.given.around or 0, self.command.is_coloured
        left_around = around  # lines after the last one that is asked for
        for line in shown_lines(found, self.command.rows(found), around, others=bool(self.given.others), keep=is_coloured):
            is_counted = line.is_touched and self.left != 0
            if self.left == 0:  # a line after the last one, as grep has it
                if line.is_behind_a_gap or not left_around or not is_begun:
                    return
                left_around -= 1
            elif self.left is not None and is_counted:
                self.left -= 1
            gap = _GAP if around and (line.is_behind_a_gap or not is_begun) else ''
            is_begun = True
            place = name + (f'{line.number}:' if self.given.line_numbers else '')
            yield f'{gap}{place if is_counted else place.replace(":", "-")}{line.text(data, is_coloured=is_coloured)}\n'

    def joined(self, texts: Iterable[str]) -> Iterator[str]:
        """The texts, of which the first of all documents has no gap before it."""
        for text in texts:
            yield text[len(_GAP):] if self.is_first and text.startswith(_GAP) and self.given.around else text
            self.is_first = False


class _Count(Form):
    is_text = False

    def __init__(self, command: 'Command') -> None:
        super().__init__(command)
        self.takes_pieces = self.reads_once = not self.given.lines
        self.total = 0
        self.of_document: Optional[Tuple[str, int]] = None  # of which pieces may come

    def of(self, found: Given) -> int:
        if self.given.lines:
            return count_lines(found, self.command.rows(found))
        rows = found.count(self.query)
        if rows:
            self.command.tell_of_head(found)
        self.command.tell_oddity(found, rows > 0)
        return rows

    def take(self, part: Part, value: int) -> Iterable[str]:
        self.total += value
        is_same = part.piece is not None and part.piece.start > 0 and self.of_document is not None
        if not is_same:
            yield from self.told()
        self.of_document = (part.name, value + (self.of_document[1] if is_same and self.of_document else 0))
        if part.piece is None:
            yield from self.told()

    def told(self) -> Iterable[str]:
        if self.of_document is not None:
            yield f'{self.of_document[1]} {self.of_document[0]}\n'
        self.of_document = None

    def end(self) -> Iterable[str]:
        yield from self.told()
        if len(self.command.names) > 1:
            yield f'{self.total} total\n'


class _Freq(Form):
    is_text = False
    reads_once = True

    def __init__(self, command: 'Command') -> None:
        super().__init__(command)
        every = ['pattern'] * has_names(self.query) + list(self.query.variables)
        self.names: Sequence[str] = every if self.given.var is None else [name.strip() for name in self.given.var.split(',')]
        missing = next((name for name in self.names if name not in every), None)
        if missing is not None:
            refuse(f'the query has no variable {missing}: it has {", ".join(every) or "none"}')
        if not self.names:
            refuse('the query has no variables, and counts are of their texts: put !name{..} around what is counted')
        self.counts: 'Counter[Tuple[bytes, ...]]' = Counter()
        self.at = [-1 if has_names(self.query) and name == 'pattern' else 2 * self.query.variables.index(name) for name in self.names]
        self.takes_pieces = bool(self.given.rows) or set(self.names) == set(every) or self.at == [-1]  # each row has places of its own then

    def of(self, found: Given) -> 'Counter[Tuple[bytes, ...]]':
        data: bytes = found.data
        rows = self.command.rows(found)
        return Counter(tuple([row.pattern.encode() if k < 0 else data[row[k]:row[k + 1]] if row[k] >= 0 else b'' for k in self.at])
                       for row in (rows if self.takes_pieces else self.places(rows)))

    def places(self, rows: Iterable[Row]) -> Iterator[Row]:
        """The rows without those whose spans of what is counted an earlier one has; where one is absent, each row counts."""
        seen = set()
        for row in rows:
            place = tuple([place for k in self.at for place in (row[k:k + 2] if k >= 0 else (row.pattern,))])
            if any(row[k] < 0 for k in self.at if k >= 0) or place not in seen:
                seen.add(place)
                yield row

    def take(self, part: Part, value: 'Counter[Tuple[bytes, ...]]') -> Iterable[str]:
        self.counts.update(value)
        return ()

    def end(self) -> Iterable[str]:
        from .tables import cell_of
        yield '' if self.given.no_head else ','.join(['count', *self.names]) + '\n'
        for texts, count in islice(sorted(self.counts.items(), key=lambda item: (-item[1], item[0])), self.given.most):
            yield ','.join([str(count), *(cell_of(shown_text(text), ',') for text in texts)]) + '\n'


class _Places(Form):
    is_sequence = True
    takes_pieces = False

    def __init__(self, command: 'Command') -> None:
        from ..bounds import NoReach
        from .sequences import has_anchor
        super().__init__(command)
        if has_anchor(self.query):
            raise NoReach(r'an anchor would be of all records together: a record has \n before it and after it')

    def sites(self, found: Given) -> Iterator['Site']:
        """The sites of a document, by record and place where that is asked for."""
        from .sequences import in_order, once, sites
        data: bytes = found.data
        self.tell_letters(found.name, data)
        every = sites(self.query, data, both=not (self.given.forward or self.given.prosite), is_circular=bool(self.given.circular), left_out=self.left_out(found))
        if self.given.strand_once:
            every = once(every)
        return self.command.progress.counted(in_order(every) if self.given.sorted else every)

    def tell_letters(self, name: str, data: bytes) -> None:
        from .nucleotides import has_plain_t, open_letters
        from .fastq import are_reads, head_in_fasta
        from .sequences import are_proteins, are_rna, has_records, name_of_two
        if not has_records(data):
            return  # which is a fault, told alone
        if are_reads(data):
            data = head_in_fasta(data)
        twice = name_of_two(data)
        if twice is not None:
            self.command.tell(f'{name}: two records are called {twice!r}, so a place in it may be of either')
        is_protein = are_proteins(data)
        if is_protein and not (self.given.forward or self.given.prosite):
            self.command.tell(f'{name}: it has letters of proteins, which have no other strand: --forward leaves it out')
        if is_protein and self.given.iupac:
            self.command.tell(f'{name}: it has letters of proteins, and --iupac reads those of the query as nucleotides: drop it')
        if not is_protein and has_plain_t(self.query.text) and are_rna(data):
            self.command.tell(f'{name}: its records have U and no T, and the query has T: write U, or [TU]')
        letters = b'' if is_protein or self.given.iupac or self.given.prosite else open_letters(self.query.text)
        if letters:
            shown = ' '.join(letters.decode())
            self.command.tell(f'{name}: the query has {shown} as plain letter{"s" if len(letters) > 1 else ""}: --iupac has '
                              'each stand for what it means')

    def left_out(self, found: Given) -> Any:
        def tell(rows: int) -> None:
            are = 'row is' if rows == 1 else 'rows are'
            print(f'{found.name}: {rows} {are} left out, whose spans lie in several records or in none', file=sys.stderr)
        return tell


class _Bed(_Places):
    def of(self, found: Given) -> Iterator[str]:
        from .sequences import bed_lines
        return bed_lines(self.sites(found), self.query.variables, frames=bool(self.given.frames))


class _Gff(_Places):
    def head(self) -> str:
        from .sequences import GFF_HEAD
        return GFF_HEAD

    def of(self, found: Given) -> Iterator[str]:
        from .sequences import gff_lines
        return gff_lines(self.sites(found), self.query.variables)


class _Fasta(_Places):
    def of(self, found: Given) -> Iterator[str]:
        from .sequences import fasta_lines
        return fasta_lines(self.sites(found), self.query.variables)


DOCUMENT_FORMS: Dict[str, Type[Form]] = {'csv': _Csv, 'tsv': _Tsv, 'json': _Json, 'parquet': _Parquet, 'kwic': _Kwic, 'lines': _Lines,
                                         'count': _Count, 'freq': _Freq, 'bed': _Bed, 'gff': _Gff, 'fasta': _Fasta}
