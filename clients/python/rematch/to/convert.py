"""``rematch-to``: the rows of many documents as tables, lines, a concordance, places in sequences, annotations, a page, or counts."""
from __future__ import annotations

import os
import sys
from contextlib import ExitStack, contextmanager
from importlib import import_module
from itertools import chain, islice
from typing import Any, Callable, Dict, Iterable, Iterator, List, Optional, TextIO, Tuple

from ..advice import Advice, is_of_ends, is_of_rows
from ..documents import Document
from ..faults import CursorError, DocumentError, OutOfMemory, QueryError, RematchError, SizeError
from ..match import Row
from ..pieces import NoReach, reach
from ..query import Query
from ..reader import read
from ..tree import captures_of
from .command import is_watched, line_of, run_told
from .expand import Expanded, captured, expanded
from .doubts import SEVERAL_LINES, doubts_of, has_anchors_alone, has_several_lines, oddity_of
from .encodings import converted, in_form
from .nucleotides import small_letter, with_iupac
from .output import fault_of_output, output, written
from .packed import Given, reach_of_long, too_long
from .progress import Progress
from .forms import DOCUMENT_FORMS, Form, refuse
from .listed import Lists, texts_of_parts
from .merged import SplitQuery
from .jobs import Part, done_in_order, parts_of_documents, read_aside, written_aside
from .row_doubts import MOST_SEEN, doubts_of_rows
from .words import LIST_FORMS, OTHER_FORMS, Words, read_words

__all__ = ['Command', 'main']

_MANY = 3  # documents, of which small ones are asked of one program
_WHOLE = ('bed', 'gff', 'fasta', 'ann', 'follow', 'check', 'why')  # the forms that search otherwise
_ROWS_SEEN = ('csv', 'tsv', 'freq', 'kwic', 'count', 'html')  # the forms of which the rows say what is of rows


def read_source(given: Words) -> bytes:
    """The text of the query, as it is given."""
    if given.list is not None or given.patterns_file is not None:
        return b'/[^\\w]!word{..}[^\\w]/'  # of which nothing is told
    if given.text is not None:
        text = given.text.encode('utf-8', 'surrogateescape')
    elif given.name == '-':
        text = sys.stdin.buffer.read()
    else:
        with open(str(given.name), 'rb') as file:
            text = file.read()
    if not given.prosite:
        return text
    from .prosite import query_of_prosite
    return query_of_prosite(text.decode('utf-8', 'replace')).encode()


class Command:
    """One run of the command: its words, its query, where it writes, and how far it is."""

    def __init__(self, given: Words, out: TextIO, progress: Progress) -> None:
        self.given = given
        self.out = out
        self.progress = progress
        self.names: List[str] = given.documents or ['-']
        self.name: Optional[str] = None  # of the document that is read
        self.has_failed = False  # whether a document could not be read, where there are several
        self.status = 0
        self.afterwards: List[Callable[[], None]] = []  # what is done once the output is whole
        self.lists = Lists(os.path.dirname(given.name) if given.name not in (None, '-') else '', given.normal)
        self.expansion: Expanded = self.expanded(in_form(read_source(given), given.normal))
        self.has_anchors = has_anchors_alone(self.expansion.source)
        self.has_told_of_rows = False
        self.is_converted = bool(given.encoding or given.normal)
        self.reads_once = given.form in ('any', 'check')  # whether of a document no more is read than its rows, in their order
        if given.form == 'check' and given.expanded:
            return
        self.query = self.read_query()
        self.tell_advice()

    def expanded(self, source: bytes) -> Expanded:
        """The query with its conveniences written out; of a pattern of PROSITE it is told how it is given."""
        from .prosite import is_prosite
        try:
            return expanded(source, self.lists)
        except QueryError as fault:
            if self.given.form in ('bed', 'gff', 'fasta', 'check') and is_prosite(source):
                fault.hint = 'a pattern of PROSITE is given with --prosite'
            raise

    @property
    def has_no_query(self) -> bool:
        """Whether words or patterns of a file are searched."""
        return self.given.list is not None or self.given.patterns_file is not None

    @property
    def is_coloured(self) -> bool:
        """Whether what was found is written in colour."""
        return self.given.color == 'always' or (self.given.color in (None, 'auto') and self.out.isatty() and not os.environ.get('NO_COLOR'))

    def read_query(self) -> Query:
        words = {'filter': bool(self.given.filter), 'max_table': self.given.max_table}
        if self.given.list is not None:
            from .wordlist import ListQuery, words_of
            with open(self.given.list, 'rb') as file:
                return ListQuery(words_of(in_form(file.read(), self.given.normal), self.given.list), **words)
        if self.given.patterns_file is not None:
            return self.read_patterns(words)
        texts = texts_of_parts(self.expansion.source, self.lists, self.read_text)
        if len(texts) > 1:
            return self.read_parts(texts, words)
        text = texts[0]
        make = Query
        if len(self.names) >= _MANY and not self.given.filter and self.given.max_table is None and self.given.form not in _WHOLE:
            from .small import SmallDocuments
            make = SmallDocuments
        try:
            query = make(text, **words)
        except QueryError as fault:
            raise self.expansion.fault(fault) from None
        if self.asks_for_lines() and not query.variables:
            made = captured(self.expansion.source, b'match', self.lists)
            if made is None:
                refuse('the query has no capture, so no row has a place: put !name{..} around what the lines have')
            query = make(made.text, **words)
        return query

    def read_patterns(self, words: Dict[str, Any]) -> Query:
        """The named patterns of a file."""
        from .patterns import PatternQuery, patterns_of
        path = str(self.given.patterns_file)
        self.lists = Lists(os.path.dirname(path), self.given.normal)
        with open(path, 'rb') as file:
            patterns = patterns_of(in_form(file.read(), self.given.normal), path, self.text_of_pattern)
        return PatternQuery(patterns, path, **words)

    def text_of_pattern(self, text: str) -> str:
        """The query of a named pattern, which captures all of its formula where it has no capture."""
        from .patterns import MATCH, query_of_formula
        from .prosite import query_of_prosite
        if self.given.prosite:
            return query_of_prosite(text, MATCH)
        source = query_of_formula(text)
        made = expanded(source, self.lists)
        if not any(True for atom in read(made.text, is_limited=False).atoms for _ in captures_of(atom.formula)):
            made = captured(source, MATCH.encode(), self.lists) or made
        self.has_anchors = self.has_anchors or has_anchors_alone(made.source)
        return (with_iupac(made.text) if self.given.iupac else made.text).decode('utf-8', 'surrogateescape')

    def read_parts(self, texts: List[bytes], words: Dict[str, Any]) -> Query:
        """The query, of which the list is cut since it is too long for one."""
        if self.given.form not in (*LIST_FORMS, 'check'):
            refuse(f'the list is too long for one query, and {self.given.form} takes one: give it shorter lists')
        query = SplitQuery(texts, **words)
        if self.asks_for_lines() and not query.variables:
            refuse('the list is too long for one query, so the query needs a capture: put !name{..} around what the lines have')
        return query

    def read_text(self) -> bytes:
        """The query as the program reads it, with its open letters where they are asked for, and the words of its lists that are taken."""
        is_whole = self.lists.part == slice(None)
        text = self.expansion.text if is_whole else expanded(self.expansion.source, self.lists).text
        if not self.given.iupac:
            return text
        try:
            Query(text)  # a fault has its place in the text as it was written
            return with_iupac(text)
        except QueryError as fault:
            raise self.expansion.fault(fault) from None

    def close(self) -> None:
        """Ends what the command has begun."""
        query = getattr(self, 'query', None)
        if query is not None and type(query) is not Query:
            query.close()

    def asks_for_lines(self) -> bool:
        return self.given.form == 'lines' or bool(self.given.lines)

    def tell(self, line: str) -> None:
        """Tells what a reader may not expect of documents and rows, where that is wanted."""
        if not self.given.silent:
            print(line, file=sys.stderr)

    def tell_advice(self) -> None:
        """Tells advice on the query on a terminal, where it is wanted."""
        if self.given.form == 'check' or self.has_no_query or self.given.quiet or self.given.silent or not is_watched():
            return
        is_told = self.given.form == 'count' and not self.query.variables
        if is_told:
            self.tell('advice at 0: the query has no capture, so the count is 1 or 0: put !name{..} around what is counted, or count lines by --lines')
        are_rows_known = is_told or self.asks_for_lines() or self.given.form == 'any'
        for advice in self.advice():
            if not (is_of_rows(advice) and (are_rows_known or (is_of_ends(advice) and self.are_rows_seen()))):
                self.tell(f'advice at {advice.offset}: {advice.message}')

    def are_rows_seen(self) -> bool:
        """Whether the rows themselves say that an end is open, since they are read to the end."""
        return self.given.form in _ROWS_SEEN and (self.given.most is None or self.given.form == 'freq')

    def advice(self) -> List[Advice]:
        """What is accepted and seldom meant, at the place where it was written."""
        text, origin = self.expansion.text, self.expansion.origin
        found = self.expansion.advised()
        small = small_letter(text) if self.given.form in ('bed', 'gff', 'fasta') else None
        if small is not None:
            found.append(Advice(origin(small.offset), 'a small letter fits no record, since the letters of records are raised to capitals: '
                                f'write {small.meant}'))
        return sorted(found, key=lambda advice: advice.offset)

    # -- Documents, one after another

    @contextmanager
    def guarded(self, name: str) -> Iterator[None]:
        """Tells the fault of a document, and goes on with the next one, where there are several."""
        self.name = name
        try:
            yield
        except (DocumentError, OutOfMemory, SizeError, NoReach) as fault:
            if len(self.names) == 1 or (isinstance(fault, SizeError) and 'table' not in fault.note):
                raise
            fault.filename = name  # type: ignore[union-attr]
            print(line_of(fault), file=sys.stderr)
            self.has_failed = True

    def opened(self, part: Part) -> Given:
        """The document of a part; what may hide its rows is told."""
        found = part.given(self.refuse_long if part.piece is None else None, is_read_once=self.reads_once and not self.is_converted)
        if self.is_converted:
            found = converted(found, self.given.encoding, self.given.normal)
        self.progress.begin(found.name, found.document)
        if part.piece is None or part.piece.start == 0:
            for doubt in doubts_of(found.head, self.query, is_sequence=self.given.form in ('bed', 'gff', 'fasta')):
                self.tell(f'{found.name}: {doubt}')
            self.tell_of_lines(found.name, self.has_anchors and has_several_lines(found.data))
        return found

    def tell_of_lines(self, name: str, are_several: bool) -> None:
        """Tells once that anchors are of the document, where it has several lines."""
        if self.has_anchors and are_several:
            self.has_anchors = False
            self.tell(f'{name}: {SEVERAL_LINES}')

    def refuse_long(self) -> None:
        """Raises why a document that is too long for one run cannot be searched, before more of it is unpacked."""
        if self.given.form in ('ann', 'html', 'why') or self.is_converted:
            raise too_long(str(self.name))
        if self.given.form not in ('bed', 'gff', 'fasta'):  # which search each record in windows
            reach_of_long(self.query)

    def rows(self, found: Given) -> Iterator[Row]:
        """The rows of a document, each counted; where there is none it is told what may be the reason."""
        seen: List[Row] = []
        rows = self.progress.counted(found.rows(self.query))
        for row in islice(rows, MOST_SEEN):
            seen.append(row)
            yield row
        doubts = self.doubts_of_rows(found, seen)
        yield from rows
        self.tell_oddity(found, bool(seen))
        for doubt in doubts:
            self.tell(doubt)

    def doubts_of_rows(self, found: Given, seen: List[Row]) -> List[str]:
        """What the rows say of the query, once for all documents."""
        seen = [row for row in seen if found.holds(row)]
        if not seen or self.given.silent or self.has_told_of_rows:
            return []
        doubts = doubts_of_rows(self.query.variables, seen, found.data)
        self.has_told_of_rows = bool(doubts)
        return [f'{found.name}: {doubt}' for doubt in doubts]

    def tell_of_head(self, found: Given) -> None:
        """The same from the rows of the document's beginning, where rows are counted and not read."""
        if not self.given.silent and self.query.variables and not self.has_told_of_rows:
            head = Given(found.name, Document(found.head))
            for doubt in self.doubts_of_rows(head, list(islice(head.rows(self.query), MOST_SEEN))):
                self.tell(doubt)
            self.has_told_of_rows = True  # which is looked at in the first document that has rows

    def tell_oddity(self, found: Given, has_rows: bool) -> None:
        """What may be the reason that a document has no row."""
        oddity = oddity_of(found.head) if found.is_whole and not has_rows else None
        if oddity is not None:
            self.tell(f'{found.name}: no row, and {oddity}')

    def documents(self, form: Form) -> None:
        """Writes what the form makes of each document; where none can be read it writes nothing."""
        self.head: Optional[str] = form.head()
        self.reads_once = form.reads_once
        jobs = 1 if self.given.most is not None and form.is_text else self.given.jobs or 1
        has_read = False
        for part, value in self.values(form, jobs) if jobs > 1 else self.values_in_turn(form):
            has_read = True
            self.out.writelines(self.begun(form.joined(value) if form.is_text else form.take(part, value)))
            if form.left == 0 and form.is_text:
                break
        if has_read:
            self.out.writelines(self.begun(chain(form.end(), ('',))))

    def begun(self, texts: Iterable[str]) -> Iterator[str]:
        """The texts, and before the first of all documents what is written before them."""
        found = iter(texts)
        for text in found:
            if self.head is not None:
                yield self.head
                self.head = None
            yield text
            yield from found

    def values_in_turn(self, form: Form) -> Iterator[Tuple[Part, Any]]:
        for name in self.names:
            with self.guarded(name):
                part = Part(name)
                value = form.of(self.opened(part))
                if form.is_text:
                    self.out.writelines(self.begun(form.joined(value)))  # here, so that a fault in the midst of it is this document's
                    value = ()
                yield part, value

    def values(self, form: Form, jobs: int) -> Iterator[Tuple[Part, Any]]:
        """The same by several processes, which have long documents in pieces where the query has a reach."""
        def work(part: Part) -> Any:
            value = form.of(self.opened(part))
            return written_aside(value) if form.is_text else value

        lines: Optional[int] = None
        if form.takes_pieces and not self.is_converted:
            try:
                lines = reach(self.query)
            except NoReach:
                pass  # each document is then done whole
        for part, value, fault in done_in_order(parts_of_documents(self.names, jobs, lines), jobs, work):
            with self.guarded(part.name):
                if fault is not None:
                    raise fault
                yield part, read_aside(value) if form.is_text else value

    # -- The other forms

    def any(self) -> None:
        for name in self.names:
            with self.guarded(name):
                found = self.opened(Part(name))
                if found.document is not None and self.query.any(found.document) or (found.document is None
                                                                                     and any(True for _ in found.rows(self.query))):
                    self.has_failed = False
                    return
        self.status = 5 if self.has_failed else 1
        self.has_failed = False

    def ann(self) -> None:
        from .tables import write_annotations
        paths = annotation_names(self.names, self.given.out) if is_folder(self.given.out) else [None]
        for name, path in zip(self.names, paths):
            with self.guarded(name):
                found = self.opened(Part(name))
                try:
                    document = Document(found.whole().data[:].decode('utf-8'))
                except UnicodeDecodeError as reason:
                    raise DocumentError(f'no UTF-8 at {reason.start}, and annotations count characters', 5) from None
                if path is None:
                    write_annotations(self.query, document, self.out)
                    continue
                if os.path.islink(path):
                    raise DocumentError(f'{path} is a link, and is not written', 5)
                with written(path) as out:
                    write_annotations(self.query, document, out)

    def html(self) -> None:
        from ..view import page
        most = self.given.most_rows or 5000

        def sections() -> Iterator[Tuple[str, Document, List[Row], bool]]:
            for name in self.names:
                section: Optional[Tuple[str, Document, List[Row], bool]] = None
                with self.guarded(name):
                    found = self.opened(Part(name))
                    whole = found.whole()
                    rows = self.rows(found)
                    shown = list(islice(rows, most))
                    is_cut = next(rows, None) is not None
                    if is_cut:
                        print(f'{name}: the first {most} rows alone; --most-rows asks for more', file=sys.stderr)
                    section = name, whole, shown, is_cut
                if section is not None:
                    yield section

        found = sections()
        first = next(found, None)
        if first is not None or not self.has_failed:
            self.out.writelines(page(chain(() if first is None else (first,), found), self.query.variables, ', '.join(self.names)))

    def follow(self) -> None:
        from .follow import follow
        follow(self)

    def check(self) -> None:
        if self.given.expanded:
            for text in texts_of_parts(self.expansion.source, self.lists, self.read_text):
                self.out.write(text.decode('utf-8', 'surrogateescape') + ('' if text.endswith(b'\n') else '\n'))
            return
        self.out.write(self.query.explanation)
        if isinstance(self.query, SplitQuery):
            self.out.write(f'the list is too long for one query: of {len(self.query.parts)} queries this is the first\n')
        if self.expansion.text != self.expansion.source:
            self.out.write('the program reads no comments, parts, lists, i, m, \\b or ~1{..}: rematch-to writes them out, and --expanded shows what the program reads\n')
        try:
            self.out.write(f'reach {reach(self.query)} line feeds\n')
        except NoReach as reason:
            self.out.write(f'no reach: {reason}\n')
        for advice in self.advice():
            self.out.write(f'advice at {advice.offset}: {advice.message}\n')
        self.query.any(b'')  # which raises where an automaton is too large, as each document would
        self.check_examples()
        self.check_cursor()
        self.check_documents()

    def check_cursor(self) -> None:
        """Raises where the program refuses the cursor; without a document what it says of one is not looked at."""
        if self.given.cursor is not None and not self.given.documents:
            try:
                self.query.findall(b'', after=self.given.cursor, limit=0)
            except CursorError as fault:
                if 'document' not in fault.note:
                    raise

    def check_examples(self) -> None:
        """Runs the examples of the query file."""
        from .examples import BadExample, examples_of, faults_of
        try:
            examples = list(examples_of(self.expansion.source))
        except BadExample as fault:
            self.out.write(f'example in line {fault.line}: {fault}\n')
            self.status = 2
            return
        wrong = list(faults_of(self.query, examples))
        for line, told in wrong:
            self.out.write(f'example in line {line}: {told}\n')
        if examples:
            self.out.write(f'examples {len(examples)}, of which {len(wrong)} fail\n')
        self.status = int(bool(wrong))

    def check_documents(self) -> None:
        """Where the query has no row on a document, says how far it fits."""
        for name in self.given.documents:
            with self.guarded(name):
                found = self.opened(Part(name))
                if found.document is not None and self.given.cursor is not None:
                    self.query.findall(found.document, after=self.given.cursor, limit=0)
                if found.document is not None and not self.query.any(found.document):
                    from .why import told_why
                    self.out.writelines(f'{line}\n' for line in (f'no row on {name}', *told_why(self.query, found.data[:])))

    def why(self) -> None:
        from .why import told_why
        for name in self.names:
            with self.guarded(name):
                data = self.opened(Part(name)).whole().data[:]
                self.out.write(f'{name}\n' if len(self.names) > 1 else '')
                self.out.writelines(line + '\n' for line in told_why(self.query, data))

    def run(self) -> None:
        """Writes all that is asked for; a fault has the name of its document."""
        others: Dict[str, Callable[[], None]] = {'any': self.any, 'ann': self.ann, 'html': self.html, 'follow': self.follow,
                                                 'check': self.check, 'why': self.why}
        try:
            if self.given.form in others:
                others[self.given.form]()
                return
            form = DOCUMENT_FORMS[self.given.form](self)
            if self.given.state is None:
                self.documents(form)
            else:
                from .state import new_lines
                new_lines(self, form.table)  # type: ignore[attr-defined]
        except (RematchError, NoReach) as fault:
            if getattr(fault, 'filename', None) is None:
                fault.filename = self.name  # type: ignore[union-attr]
            raise


def main(words: Optional[Iterable[str]] = None) -> int:
    """Runs the command; the status is that of the program for its faults, 2 for words that are refused, and 1 where one of several
    documents could not be read."""
    asked = list(sys.argv[1:] if words is None else words)
    if asked[:1] and asked[0] in OTHER_FORMS:
        other: Callable[[List[str]], int] = import_module('.' + asked[0], __package__).main
        return other(asked[1:])
    given = read_words(asked)
    _refuse_output(given)
    found: List[int] = []

    def run() -> None:
        with ExitStack() as stack:
            command = Command(given, sys.stdout, stack.enter_context(Progress()))
            stack.callback(command.close)
            fault = None if is_folder(given.out) else fault_of_output(given.out, command.lists.paths)
            if fault is not None:
                refuse(fault)
            command.out = stack.enter_context(output(None if is_folder(given.out) else given.out, comes_at_once=given.form == 'follow'))
            command.run()
        for act in command.afterwards:
            act()
        found.append(1 if command.has_failed else command.status)

    return run_told(run) or (found[0] if found else 0)


def is_folder(name: Optional[str]) -> bool:
    """Whether an output of this name is a folder, which takes the annotations of each document."""
    return name is not None and os.path.isdir(name)


def _refuse_output(given: Words) -> None:
    """Ends the command where its output would be lost, or would be written over what is read."""
    names = [given.out] if given.out else []
    if given.form == 'ann' and is_folder(given.out):
        names = annotation_names(given.documents or ['-'], given.out)
        if len(set(names)) < len(set(map(os.path.normpath, given.documents))):
            refuse('two documents would have annotations of one name: write them into two folders')
    elif given.form == 'ann' and len(given.documents) > 1:
        refuse('ann of several documents needs -o FOLDER')
    documents = given.documents or ([] if given.form == 'check' else ['-'])
    for name in names:
        fault = fault_of_output(name, [*documents, given.name, given.list, given.listed, given.state])
        if fault is not None:
            refuse(fault)


def annotation_names(documents: List[str], folder: Optional[str]) -> List[str]:
    """Where the annotations of documents are written: below the folder, by their base names, or where two agree by more of their paths.

    >>> annotation_names(['a/x.txt', 'b/x.txt', 'b/y.txt'], 'out')
    ['out/a-x.txt.ann', 'out/b-x.txt.ann', 'out/y.txt.ann']
    """
    paths = [[part for part in os.path.normpath(document).split(os.sep) if part] for document in documents]
    names = [parts[-1:] for parts in paths]
    for depth in range(2, max(map(len, paths)) + 1):
        names = [parts[-depth:] if names.count(name) > 1 else name for parts, name in zip(paths, names)]
    return [os.path.join(folder or '', '-'.join(name) + '.ann') for name in names]
