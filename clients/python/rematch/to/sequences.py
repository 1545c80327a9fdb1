"""Records of FASTA searched as sequences: lines put together, in capitals, on both strands; rows as BED and GFF.

Records of a strand are one document, each on a line of its own with a line feed before and behind it, so one run searches
many. A long record is searched in windows, which overlap by the most that a row of the query can cover, so that its rows
are those of the whole and one strand of it is held. A line of a file of
sequences is wrapped anywhere and may be in small letters, which hides places from a
search of the file as it is.
"""
from __future__ import annotations

import re
from bisect import bisect_right
from itertools import count
from typing import Callable, Iterable, Iterator, List, NamedTuple, Optional, Sequence, Set, TextIO, Tuple
from urllib.parse import quote

from ..bounds import NoReach, length_of_printed
from ..documents import MOST_BYTES
from ..faults import DocumentError
from ..match import Row
from ..query import Query
from ..reader import read
from .circles import Circles, blocks_of
from .fastq import are_reads, reads_of
from .patterns import MATCH

__all__ = ['GFF_HEAD', 'Record', 'Site', 'are_proteins', 'bed_lines', 'each_record', 'fasta_lines', 'frame_of', 'gff_lines',
           'has_anchor', 'has_records', 'in_order', 'name_of_two', 'once',
           'other_strand', 'records_of', 'sites', 'write_bed', 'write_gff']

_BATCH = 64_000_000  # bytes of records that one run searches
_WINDOW = 32_000_000  # letters of a long record that one run searches
_BLOCK = 4_000_000  # bytes of a record that are read at once
_SPACES = b' \t\r\n'
_CAPITALS = bytes(byte - 32 if 97 <= byte <= 122 else byte for byte in range(256))
_OTHER = bytes.maketrans(b'ACGTURYKMBVDHSWN', b'TGCAAYRMKVBHDSWN')
_OTHER_RNA = bytes.maketrans(b'ACGURYKMBVDHSWN', b'UGCAYRMKVBHDSWN')


class Record(NamedTuple):
    """A sequence of a file: the first word of its head, its letters, in capitals, and how many records are before it."""

    name: str
    letters: bytes
    number: int = 0


class Site(NamedTuple):
    """A row in a record. Places count letters of the forward strand from 0; absent spans are -1, -1."""

    record: Record
    strand: str
    row: Row
    pattern: str = ''  # the name of the pattern, where patterns have names

    def spans(self, names: Sequence[str]) -> List['Named']:
        """The spans that are there, by their places."""
        places = iter(self.row)
        return sorted((Named(start, end, self.name(name)) for name, start, end in zip(names, places, places) if start >= 0))

    def name(self, variable: str) -> str:
        """The name of a span: that of its variable, or of its pattern."""
        return variable if not self.pattern else self.pattern if variable == MATCH else f'{self.pattern}.{variable}'

    def letters(self, start: int, end: int) -> bytes:
        """The letters of a span on the forward strand; in a circle it may go over the end of the record."""
        letters = self.record.letters
        return letters[start:end] + (letters[:end - len(letters)] if end > len(letters) else b'')


class Named(NamedTuple):
    """A span of a variable."""

    start: int
    end: int
    name: str


def records_of(data: bytes) -> List[Record]:
    """The records of a file of sequences; `DocumentError` where it has none.

    >>> records_of(b'>chr1 one\\nGAT\\r\\ntaca\\n>chr2\\n')
    [Record(name='chr1', letters=b'GATTACA', number=0), Record(name='chr2', letters=b'', number=1)]
    """
    return list(each_record(data))


def each_record(data: bytes) -> Iterator[Record]:
    """The records of `records_of`, one after another."""
    if are_reads(data):
        yield from (Record(read.name, read.letters.translate(_CAPITALS, _SPACES), number) for number, read in enumerate(reads_of(data)))
        return
    at = _first_record(data)
    if at < 0:
        raise DocumentError('no record of FASTA, which begins with > at the start of a line, or of FASTQ, which begins with @', 5)
    for number in count():
        end = data.find(b'\n>', at)
        yield _record(data, at, end if end >= 0 else len(data), number)
        if end < 0:
            return
        at = end + 1


def name_of_two(data: bytes) -> Optional[str]:
    """The first name that an earlier record has too; None where each record has its own.

    >>> name_of_two(b'>a one\\nG\\n>b\\n>a two\\nG\\n'), name_of_two(b'>a\\n>b\\n')
    ('a', None)
    """
    names: Set[str] = set()
    for name in _names(data):
        if name in names:
            return name
        names.add(name)
    return None


def _names(data: bytes) -> Iterator[str]:
    if are_reads(data):
        yield from (read.name for read in reads_of(data))
        return
    at = _first_record(data)
    while at >= 0:
        yield _name(data, at, len(data))[0]
        at = data.find(b'\n>', at) + 1 or -1


def _first_record(data: bytes) -> int:
    return 0 if data[:1] == b'>' else data.find(b'\n>') + 1 or -1


def has_records(data: bytes) -> bool:
    """Whether a record of FASTA begins anywhere, or the first one of FASTQ.

    >>> has_records(b'; a note\\n>r\\nGAT\\n'), has_records(b'a > b\\n')
    (True, False)
    """
    return _first_record(data) >= 0 or are_reads(data)


def _record(data: bytes, at: int, end: int, number: int) -> Record:
    name, letters_at = _name(data, at, end)
    return Record(name, _letters(data, letters_at, end), number)


def _name(data: bytes, at: int, end: int) -> Tuple[str, int]:
    """The first word of the head at a place, and where the letters begin."""
    head_end = data.find(b'\n', at, end)
    head = data[at + 1:head_end if head_end >= 0 else end].split()
    return head[0].decode('utf-8', 'backslashreplace') if head else '', head_end + 1 if head_end >= 0 else end


def _letters(data: bytes, start: int, end: int) -> bytes:
    """The letters of some lines, of many in blocks, so that they are held once; lines that begin with ; are notes."""
    if end - start > _BLOCK:
        made = bytearray()
        for at in range(start, end, _BLOCK):
            block = data[at:min(at + _BLOCK, end)]
            if b';' in block:
                break
            made += block.translate(_CAPITALS, _SPACES)
        else:
            return made  # type: ignore[return-value]
    letters = data[start:end]
    if b';' in letters:
        letters = b'\n'.join(line for line in letters.split(b'\n') if not line.startswith(b';'))
    return letters.translate(_CAPITALS, _SPACES)


_PROTEINS = re.compile(rb'[EFILPQefilpq]')  # letters that no nucleotide has, also no open one


def are_proteins(data: bytes) -> bool:
    """Whether the first record has a letter that stands in proteins alone.

    >>> are_proteins(b'>p\\nMKEL\\n'), are_proteins(b'>d\\nACGTN\\n')
    (True, False)
    """
    _, _, letters = data[:1 << 16].partition(b'\n')
    lines = letters.partition(b'\n>')[0].split(b'\n')
    return any(_PROTEINS.search(line) is not None for line in lines if not line.startswith((b';', b'>')))


def are_rna(data: bytes) -> bool:
    """Whether the first records have a U and no T.

    >>> are_rna(b'>Tt\\nGAUC\\n'), are_rna(b'>r\\nGATC\\n')
    (True, False)
    """
    lines = bytes(data[:1 << 16]).upper().split(b'\n')
    letters = b''.join(line for line in lines if not line.startswith((b'>', b';')))
    return b'U' in letters and b'T' not in letters


def in_order(found: Iterable['Site']) -> Iterator['Site']:
    """The sites by the records of the file, and in each by the place of their first letter; all of them are held."""
    def place(site: 'Site') -> Tuple[int, int, int]:
        spans = [span for span in zip(site.row[::2], site.row[1::2]) if span[0] >= 0]
        return site.record.number, min(start for start, _ in spans), max(end for _, end in spans)

    return iter(sorted(found, key=place))


def other_strand(letters: bytes) -> bytes:
    """The letters of the other strand, from its own beginning; those of RNA where there is a U and no T.

    >>> other_strand(b'GATTACAN'), other_strand(b'GAUC')
    (b'NTGTAATC', b'GAUC')
    """
    return letters.translate(_others_of(letters))[::-1]


def _others_of(letters: bytes) -> bytes:
    return _OTHER_RNA if b'U' in letters and b'T' not in letters else _OTHER


def frame_of(site: Site, start: int, end: int) -> str:
    """The reading frame in which a span of the site begins: +1, +2, +3, or -1, -2, -3 counted on the other strand.

    >>> frame_of(Site(Record('r', b'ACGTACGT'), '-', ()), 1, 7)
    '-2'
    """
    length = len(site.record.letters)
    at = start if site.strand == '+' else length - end if end <= length else 2 * length - end
    return f'{site.strand}{at % 3 + 1}'


def sites(query: Query, data: bytes, *, both: bool = True, is_circular: bool = False,
          left_out: Optional[Callable[[int], None]] = None) -> Iterator[Site]:
    """The rows in the records of a file, on the forward strand and then, with ``both``, on the other.

    With ``is_circular`` a site may go over the end of its record, on to the beginning, and its end is then past the record's length.
    ``left_out`` is told how many rows were left out since their spans lie in several records or none. A query with an
    anchor, which would speak of all records together, raises `NoReach`.

    >>> [(site.record.name, site.strand, site.row) for site in sites(Query('/!m{TTAC}/'), b'>chr1\\nGAT\\nTACA\\n>chr2\\ntgtaatc\\n')]
    [('chr1', '+', (2, 6)), ('chr2', '-', (1, 5))]
    """
    if has_anchor(query):
        raise NoReach(r'an anchor would be of all records together: a record has \n before it and after it')
    lost = 0
    for strand in '+-' if both else '+':
        circles = Circles(query, strand) if is_circular else None
        for batch in _batches(each_record(data)):
            for site in _sites_of_batch(query, batch, strand, circles):
                if site is None:
                    lost += 1
                else:
                    yield site
    if lost and left_out is not None:
        left_out(lost)


def _sites_of_batch(query: Query, batch: Sequence[Record], strand: str, circles: Optional[Circles]) -> Iterator[Optional[Site]]:
    if circles is not None:
        yield from circles.closed(_sites_of_batch(query, [circles.opened(record) for record in batch], strand, None))
    elif len(batch) == 1 and len(batch[0].letters) > _WINDOW:
        yield from _sites_of_long(query, batch[0], strand)
    else:
        yield from _sites_of(query, batch, strand)


def has_anchor(query: Query) -> bool:
    """Whether an anchor stands in the query, which would speak of all records together."""
    return any(atom.is_first or atom.is_last for atom in read(query.printed, is_limited=False).atoms)


def _batches(records: Iterable[Record]) -> Iterator[Sequence[Record]]:
    batch: List[Record] = []
    size = 0
    for record in records:
        if batch and size + len(record.letters) > _BATCH:
            yield batch
            batch, size = [], 0
        batch.append(record)
        size += len(record.letters) + 1
    yield batch


def _sites_of(query: Query, records: Sequence[Record], strand: str) -> Iterator[Optional[Site]]:
    lines = [record.letters if strand == '+' else other_strand(record.letters) for record in records]
    starts, at = [], 1
    for line in lines:
        starts.append(at)
        at += len(line) + 1
    for row in query.rows(b'\n' + b''.join([line + b'\n' for line in lines])):
        places = [place for place in row if place >= 0]
        k = bisect_right(starts, min(places, default=0)) - 1
        if not places or k < 0 or max(places) > starts[k] + len(lines[k]):
            yield None
            continue
        yield Site(records[k], strand, _on_record(row, starts[k], len(lines[k]), strand), getattr(row, 'pattern', ''))


def _sites_of_long(query: Query, record: Record, strand: str) -> Iterator[Optional[Site]]:
    """The sites of a long record, in windows where the query has a bound; else in one run, which takes so many bytes at most."""
    total = len(record.letters) + 2
    try:
        most: Optional[int] = length_of_printed(query.printed.encode())
    except NoReach as reason:
        if total > MOST_BYTES:
            fault = DocumentError(f'document longer than {MOST_BYTES} bytes', 6)
            fault.hint = (f'the record {record.name} has {len(record.letters)} letters, which windows could search, but '
                          f'{reason}: give it one, as in '
                          f'[ACGT]{{0,1000}}')
            raise fault from None
        most = None
    if most is None or most > _WINDOW:
        yield from _sites_of(query, [record], strand)
        return
    has_lost = False
    for start in range(0, total, _WINDOW):
        end = min(start + _WINDOW, total)
        first = max(0, start - most)
        for row in query.rows(_window(record.letters, first, min(total, end + most), strand)):
            places = [place + first for place in row if place >= 0]
            if not places:
                has_lost = True
            elif start <= min(places) < end or min(places) == end == total:
                is_within = min(places) > 0 and max(places) < total
                yield Site(record, strand, _on_record(row, 1 - first, total - 2, strand), getattr(row, 'pattern', '')) if is_within else None
    if has_lost:
        yield None


def _window(letters: bytes, first: int, last: int, strand: str) -> bytes:
    """What stands from one place to another where the letters of the strand have a line feed before and behind them."""
    low, high, length = max(first - 1, 0), min(last - 1, len(letters)), len(letters)
    part = letters[low:high] if strand == '+' else letters[length - high:length - low].translate(_others_of(letters))[::-1]
    return (b'\n' if first == 0 else b'') + part + (b'\n' if last == length + 2 else b'')


def _on_record(row: Row, start: int, length: int, strand: str) -> Row:
    """The row with places of its record, on the forward strand."""
    if strand == '+':
        return tuple([place if place < 0 else place - start for place in row])
    turned: List[int] = []
    places = iter(row)
    for first, last in zip(places, places):
        turned += (-1, -1) if first < 0 else (length - (last - start), length - (first - start))
    return tuple(turned)


# -- What is written

def bed_lines(found: Iterable[Site], names: Sequence[str], *, frames: bool = False) -> Iterator[str]:
    """BED of twelve columns, from 0: a row is a line whose spans are its blocks; where they overlap or are empty, a line a span.

    The name is that of the variables, with a point and the number of the row where it has several lines, and with the frame
    behind it where ``frames`` are asked for.
    """
    for number, site in enumerate(found, 1):
        spans = site.spans(names)
        are_apart = all(a.end <= b.start for a, b in zip(spans, spans[1:])) and all(span.start < span.end for span in spans)
        for group in ([spans] if are_apart or len(spans) == 1 else [[span] for span in spans]):
            name = '+'.join(span.name for span in group) + ('' if len(group) == len(spans) else f'.{number}')
            name += f'({frame_of(site, group[0].start, max(span.end for span in group))})' if frames else ''
            blocks = blocks_of([(span.start, span.end) for span in group], len(site.record.letters))
            start, end = blocks[0][0], max(end for _, end in blocks)
            sizes = ','.join(str(block[1] - block[0]) for block in blocks)
            begins = ','.join(str(block[0] - start) for block in blocks)
            yield f'{site.record.name}\t{start}\t{end}\t{name}\t0\t{site.strand}\t{start}\t{end}\t0\t{len(blocks)}\t{sizes}\t{begins}\n'


def write_bed(found: Iterable[Site], names: Sequence[str], out: TextIO, *, frames: bool = False) -> None:
    """Writes the lines of `bed_lines`."""
    out.writelines(bed_lines(found, names, frames=frames))


GFF_HEAD = '##gff-version 3\n'


def gff_lines(found: Iterable[Site], names: Sequence[str]) -> Iterator[str]:
    """GFF3, from 1: a line a span, with the number of its row and its frame. An empty span stands right of its place."""
    for number, site in enumerate(found, 1):
        for span in site.spans(names):
            empty = ';empty=1' if span.start == span.end else ''
            start = max(1, span.start) if empty else span.start + 1
            yield (f'{quote(site.record.name, safe=".:^*$@!+_?|-")}\trematch\tsequence_feature\t{start}\t{max(start, span.end)}\t.\t{site.strand}\t.\t'
                   f'Name={quote(span.name, safe=" .:^*$@!+_?|-")};row={number};frame={frame_of(site, span.start, span.end)}{empty}\n')


def write_gff(found: Iterable[Site], names: Sequence[str], out: TextIO) -> None:
    """Writes a head, and the lines of `gff_lines`."""
    out.write(GFF_HEAD)
    out.writelines(gff_lines(found, names))


def fasta_lines(found: Iterable[Site], names: Sequence[str]) -> Iterator[str]:
    """FASTA: a record a span, ``RECORD:START-END(STRAND) VARIABLE``, counted as in BED, with its letters on that strand.

    >>> print(*fasta_lines(sites(Query('/!m{TTAC}/'), b'>chr2\\ntgtaatc\\n'), ('m',)), sep='', end='')
    >chr2:1-5(-) m
    TTAC
    """
    for site in found:
        for span in site.spans(names):
            letters = site.letters(span.start, span.end)
            letters = other_strand(letters) if site.strand == '-' else letters
            yield f'>{site.record.name}:{span.start}-{span.end}({site.strand}) {span.name}\n{letters.decode("latin-1")}\n'


def once(found: Iterable[Site]) -> Iterator[Site]:
    """The sites without those of the other strand whose spans have the places of one of the forward strand, as palindromes do.

    >>> [site.strand for site in once(sites(Query('/!x{GATC|GAT}/'), b'>r\\nGATC\\n'))]
    ['+', '+', '-']
    """
    seen = set()
    for site in found:
        key = site.record.number, site.pattern, tuple(sorted(zip(site.row[::2], site.row[1::2])))
        if site.strand == '+':
            seen.add(key)
        elif key in seen:
            continue
        yield site
