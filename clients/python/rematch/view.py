"""Rows over their document, as HTML: overlapping spans are bars in lanes below the text, and the rows are listed under it.

No script, server or library is needed. The text stays inline elements with one background layer a lane, so that the
browser shapes, orders and wraps it as if nothing were there. Each row that begins on a line is listed below it with its
spans, so that it is seen what belongs together. Each row can have the focus. Where scripts run, a row that is pointed at or has
the focus is lit, arrows go from row to row, and a page of many rows is shown in parts, with a filter.
"""
from __future__ import annotations

import unicodedata
from bisect import bisect_left
from html import escape
from itertools import accumulate, chain
from typing import Dict, Iterable, List, NamedTuple, Optional, Sequence, Tuple

from .documents import Document
from .match import Row
from .visible import BIDI, visible

__all__ = ['fragment', 'page', 'section']

_LIGHT = ['#0b7285', '#c2255c', '#2b8a3e', '#d9480f', '#5f3dc4', '#1864ab', '#a61e4d', '#5c940d']
_DARK = ['#3bc9db', '#f783ac', '#69db7c', '#ffa94d', '#b197fc', '#74c0fc', '#faa2c1', '#c0eb75']
_STEP, _BAR, _LINE = 7, 4, 24  # pixels: from lane to lane, of a bar, of a line of text
_MOST_LANES = 12
_MOST_OF_SPAN = 2000  # lines of a long span that are shown, the first and the last ones
_BLOCK = 4096  # bytes of which the lines are counted together
_SURE, _SURE_WIDE = 16, 72  # bytes of a line that are on its first line on a screen: on any, and on one of 900 pixels
_WHOLE, _PART = 1000, 250  # rows that a page shows at once, and those of a part where it has more
_LISTED = 8  # rows of a line that are listed before the others are folded
_LONG, _KEPT = 400, 120  # signs without a span that are folded, and those that are kept at either end
_TEXT = 60  # signs of a span's text in the list of rows


def _colours(names: Sequence[str]) -> str:
    return ''.join(f'--rm{k}:{colour};' for k, colour in enumerate(names))


_ON_DARK = _colours(_DARK) + '--rm-dim:#adb5bd;--rm-rule:#343a40;--rm-lit:#5c4a00;--rm-own-sign:#dee2e6;--rm-own-ground:#16191d'
_ON_LIGHT = _colours(_LIGHT) + '--rm-dim:#5c636a;--rm-rule:#e9ecef;--rm-lit:#ffe066;--rm-own-sign:#212529;--rm-own-ground:#fff'
# A notebook says whether it is dark, and has colours of its own; elsewhere the system says it.
_DARK_BOOKS = '[data-jp-theme-light="false"] .rm,.vscode-dark .rm,html[theme=dark] .rm,[data-theme=dark] .rm'
_LIGHT_BOOKS = '[data-jp-theme-light="true"] .rm,.vscode-light .rm,html[theme=light] .rm,[data-theme=light] .rm'

STYLE = '''
.rm{''' + _ON_LIGHT + '''}
@media (prefers-color-scheme:dark){.rm{''' + _ON_DARK + '''}}
''' + _LIGHT_BOOKS + '{' + _ON_LIGHT + '}\n' + _DARK_BOOKS + '{' + _ON_DARK + '''}
.rm{font:15px/1.4 system-ui,sans-serif;color:var(--jp-content-font-color1,var(--vscode-editor-foreground,var(--rm-own-sign)));background:var(--jp-layout-color0,var(--vscode-editor-background,var(--rm-own-ground)))}
.rm-key b{display:inline-block;width:1.6em;height:.5em;border-radius:2px;margin:0 .3em 0 1em}
.rm-line{display:flex;align-items:baseline;border-top:1px solid var(--rm-rule);padding:.2em 0;overflow:hidden}
.rm-no{flex:none;width:4.5em;color:var(--rm-dim);font:12px/24px ui-monospace,monospace;text-align:right;padding-right:1em;user-select:none}
.rm-text{font:15px/24px ui-monospace,"DejaVu Sans Mono","Noto Sans Mono",monospace;white-space:pre-wrap;overflow-wrap:anywhere;flex:1;min-width:0;margin-top:var(--rm-near,0)}
@media (min-width:900px){.rm-text{margin-top:var(--rm-wide,0)}}
.rm-s{background-repeat:no-repeat}
.rm-e{border-left:2px solid}
.rm-more,.rm-fold{color:var(--rm-dim);font:11px system-ui,sans-serif}
.rm-skip{color:var(--rm-dim);font:12px system-ui,sans-serif;padding:.4em 0 .4em 5.5em;border-top:1px solid var(--rm-rule)}
.rm-rows{margin:0 0 .5em 5.5em;padding:0;list-style:none;font-size:12px}
.rm-rows .rm-rows{margin-left:0}
.rm-rows li{display:inline-block;margin:0 1.2em .1em 0;scroll-margin-top:4em}
.rm-rows li>b{color:var(--rm-dim);font-weight:normal;margin-right:.5em}
.rm-rows i{display:inline-block;width:.7em;height:.7em;border-radius:2px;margin:0 .3em 0 .6em;font-style:normal}
.rm-rows code{font-family:ui-monospace,"DejaVu Sans Mono",monospace;overflow-wrap:anywhere}
.rm-rows summary{color:var(--rm-dim);cursor:pointer}
.rm-said{position:absolute;width:1px;height:1px;overflow:hidden;clip-path:inset(50%);white-space:nowrap}
.rm :focus-visible{outline:2px solid;outline-offset:1px;border-radius:2px}
.rm-lit{background-color:var(--rm-lit);border-radius:2px}
.rm-rows .rm-lit>b{color:inherit}
@media (max-width:600px){.rm-no{width:2.6em;padding-right:.6em;font-size:11px}.rm-skip{padding-left:3.2em}.rm-rows{margin-left:3.2em}}
'''
PAGE_STYLE = '''
:root{color-scheme:light dark}
body{margin:2em auto;max-width:72em;padding:0 1em;color:#212529;background:#fff;font-family:system-ui,sans-serif}
h1,h2{font-size:1.3em;overflow-wrap:anywhere}
.rm-bar{position:sticky;top:0;display:flex;flex-wrap:wrap;gap:.5em;align-items:center;padding:.5em 0;background:inherit;z-index:1;font-size:14px}
.rm-bar[hidden],[hidden]{display:none}
.rm-bar input{flex:1;min-width:8em}.rm-bar input,.rm-bar button{font:inherit;padding:.2em .5em}
.rm-list li{overflow-wrap:anywhere}
a{color:#1864ab}
@media (prefers-color-scheme:dark){body{color:#dee2e6;background:#16191d}a{color:#74c0fc}}
'''
# The row that is pointed at, or has the focus, is lit with its spans; arrows go from row to row, and open what is folded.
ROWS_SCRIPT = '''
['mouseover','focusin'].forEach(k=>document.addEventListener(k,e=>{const t=e.target.closest&&e.target.closest('[data-r]');
if(k=='focusin'&&!t)return;document.querySelectorAll('.rm-lit').forEach(x=>x.classList.remove('rm-lit'));if(!t)return;const v=t.closest('.rm');
t.dataset.r.split(' ').forEach(r=>v.querySelectorAll('[data-r~="'+r+'"]').forEach(x=>x.classList.add('rm-lit')))}));
document.addEventListener('keydown',e=>{const at=document.activeElement;if(e.ctrlKey||e.altKey||e.metaKey||!at.matches('li[data-r]'))return;
const rows=[...document.querySelectorAll('li[data-r]')].filter(x=>!x.closest('[hidden]'));let to=rows.indexOf(at);
if(e.key=='ArrowDown'||e.key=='ArrowRight')to++;else if(e.key=='ArrowUp'||e.key=='ArrowLeft')to--;
else if(e.key=='Home')to=0;else if(e.key=='End')to=rows.length-1;else return;
e.preventDefault();if(!rows[to])return;const d=rows[to].closest('details');if(d)d.open=true;rows[to].focus()});
'''
# A page of many rows is shown in parts of so many rows, and a filter chooses among all of them. Without scripts all are shown.
_PARTS_SCRIPT = '''
(()=>{const bar=document.querySelector('.rm-bar'),all=[...document.querySelectorAll('.rm-block')],most=PART;
const say=bar.querySelector('output'),box=bar.querySelector('input'),size=b=>+b.dataset.n,sections=[...document.querySelectorAll('section')];
let shown=all,from=0,starts=[];
const parts=()=>{starts=[0];let n=0;shown.forEach((b,k)=>{if(n&&n+size(b)>most){starts.push(k);n=0}n+=size(b)})};
const show=p=>{from=Math.max(0,Math.min(p,starts.length-1));const a=starts[from],z=starts[from+1]??shown.length,on=new Set(shown.slice(a,z));
all.forEach(b=>b.hidden=!on.has(b));sections.forEach(s=>s.hidden=!!s.querySelector('.rm-block')&&!s.querySelector('.rm-block:not([hidden])'));
const count=bs=>bs.reduce((n,b)=>n+size(b),0),before=count(shown.slice(0,a)),here=count(shown.slice(a,z));
say.textContent=here?'rows '+(before+1)+' to '+(before+here)+' of '+count(shown)+(shown.length<all.length?' on lines that have the text':''):'no line has the text';
bar.querySelector('[data-to="-1"]').disabled=!from;bar.querySelector('[data-to="1"]').disabled=from>=starts.length-1};
const filter=()=>{const t=box.value.toLowerCase();shown=t?all.filter(b=>b.textContent.toLowerCase().includes(t)):all;
document.querySelectorAll('.rm-skip').forEach(s=>s.hidden=!!t);parts();show(0)};
let late;box.addEventListener('input',()=>{clearTimeout(late);late=setTimeout(filter,150)});
bar.addEventListener('click',e=>{const to=e.target.dataset.to;if(to){show(from+ +to);scrollTo(0,0)}});
const reach=()=>{const s=document.getElementById(location.hash.slice(1)),b=s&&s.querySelector('.rm-block');if(!b)return;
if(!shown.includes(b)){box.value='';filter()}show(starts.findLastIndex(k=>k<=shown.indexOf(b)));s.scrollIntoView()};
addEventListener('hashchange',reach);bar.hidden=false;parts();show(0);reach()})();
'''


class _Bar(NamedTuple):
    """A span, or the part of it on one line: bytes from ``start`` to ``end``, of variable ``name`` (its number)."""

    start: int
    end: int
    name: int
    begins: bool  # whether the span begins on this line
    ends: bool
    rows: Tuple[int, ...]  # the rows that have the span


class _Lines:
    """The lines of a document, their line feeds included, by what is counted in blocks of it."""

    def __init__(self, data: bytes) -> None:
        self._data = data
        self._starts: Dict[int, int] = {}  # those that were asked for
        counts = (data[start:start + _BLOCK].count(b'\n') for start in range(0, len(data), _BLOCK))
        self._before = list(accumulate(counts, initial=0))  # line feeds before each block
        self.count = self._before[-1] + (data[-1:] != b'\n')  # of lines; an empty document has one

    def number(self, place: int) -> int:
        """The number of the line of a place, from 0; that of the last line at the end."""
        block = place // _BLOCK
        return min(self._before[block] + self._data[block * _BLOCK:place].count(b'\n'), self.count - 1)

    def start(self, line: int) -> int:
        """Where a line begins; of the line behind the last the end."""
        found = self._starts.get(line)
        if found is None:
            before = self._starts.get(line - 1)
            found = self._starts[line] = self._found(line) if before is None else self._data.find(b'\n', before) + 1 or len(self._data)
        return found

    def _found(self, line: int) -> int:
        """The same, by the block that has the line feed before it."""
        if line >= self.count:
            return len(self._data)
        block = max(bisect_left(self._before, line) - 1, 0)
        at = block * _BLOCK
        for _ in range(line - self._before[block]):
            at = self._data.find(b'\n', at) + 1
        return at

    def of(self, start: int, end: int) -> range:
        """The lines on which a span lies."""
        first = self.number(start)
        return range(first, first + 1 if end == start else self.number(end - 1) + 1)


def lanes(bars: Sequence[Tuple[int, int]], most: int = _MOST_LANES) -> List[Optional[int]]:
    """A lane for each bar, in the order of starts: the lowest that is free; None where all ``most`` are taken.

    >>> lanes([(0, 4), (0, 2), (2, 5), (4, 6)], 2)
    [0, 1, 1, 0]
    >>> lanes([(0, 4), (0, 3), (0, 2)], 2)
    [0, 1, None]
    """
    ends: List[int] = []
    found: List[Optional[int]] = []
    for start, end in bars:
        end = max(end, start + 1)
        lane = next((lane for lane, until in enumerate(ends) if until <= start), None)
        if lane is not None:
            ends[lane] = end
        elif len(ends) < most:
            lane = len(ends)
            ends.append(end)
        found.append(lane)
    return found


_SIGNS = {'\t': '→', '\n': '↵', '\r': '␍'}


def _is_kept(sign: str) -> bool:
    return unicodedata.category(sign) in ('Cf', 'Zs') and sign not in BIDI


def _shown(part: bytes) -> str:
    """The text of bytes, in HTML: what is no text as its bytes, what is not seen as a sign."""
    text = part.decode('utf-8', 'backslashreplace')
    if not text.isprintable():
        text = ''.join(sign if sign.isprintable() or _is_kept(sign) else _SIGNS.get(sign, '·') for sign in text)
    return escape(text)


class _View:
    def __init__(self, document: Document, names: Sequence[str], rows: Sequence[Row], first: int = 0, most: int = _MOST_OF_SPAN) -> None:
        self.most = most  # lines of a span that have bars: the first and the last ones
        self.data: bytes = document.data  # type: ignore[assignment]
        self.first = first  # rows that stand before these
        self.document = document
        self.names = names
        self.rows = rows
        self.lines = _Lines(self.data)

    def told(self, start: int, end: int) -> str:
        places = self.document.places
        return f'{start}–{end}' if places is None else f'{places[start]}–{places[end]}'

    # -- Bars

    def bars(self) -> Dict[int, List[_Bar]]:
        """The bars of each line that has some. Equal spans of one variable are one bar."""
        spans: Dict[Tuple[int, int, int], List[int]] = {}
        for number, row in enumerate(self.rows):
            for name in range(len(self.names)):
                if row[2 * name] >= 0:
                    spans.setdefault((row[2 * name], -row[2 * name + 1], name), []).append(number)
        found: Dict[int, List[_Bar]] = {}
        for (start, end, name), rows in sorted(spans.items()):
            lines = self.lines.of(start, -end)
            half = self.most // 2
            for line in lines if len(lines) <= self.most else chain(lines[:half], lines[-half:]):
                first, last = self.lines.start(line), self.lines.start(line + 1)
                bar = _Bar(max(start, first), min(-end, last), name, start >= first, -end <= last, tuple(rows))
                found.setdefault(line, []).append(bar)
        return found

    # -- Parts of the page

    def body(self, context: int) -> Iterable[str]:
        bars = self.bars()
        begun: Dict[int, List[int]] = {}
        for number, row in enumerate(self.rows):
            first = min((start for start in row[::2] if start >= 0), default=0)
            begun.setdefault(self.lines.of(first, first)[0], []).append(number)
        near = {line for at in bars for line in range(at - context, at + context + 1)} | set(begun)
        before = -1
        for line in sorted(line for line in near if 0 <= line < self.lines.count):
            listed = begun.get(line, [])
            yield f'<div class="rm-block" data-n="{len(listed)}">'
            if line != before + 1:
                yield _skipped(line - before - 1)
            before = line
            yield self.line(line, sorted(bars.get(line, []), key=lambda bar: (bar.start, -bar.end)))
            yield self.listed(listed)
            yield '</div>\n'
        if before + 1 < self.lines.count:
            yield _skipped(self.lines.count - before - 1)

    def line(self, line: int, bars: Sequence[_Bar]) -> str:
        start, end = self.lines.start(line), self.lines.start(line + 1)
        number = f'<div class="rm-no" title="{self.told(start, end)}">{line + 1}</div>'
        placed = lanes([(bar.start, bar.end) for bar in bars])
        hidden = placed.count(None)
        more = f' <span class="rm-more">+{hidden} spans in more lanes</span>' if hidden else ''
        # Each piece makes the lines that it is wrapped to as high as its lanes ask for, above as below; what is sure to be on the
        # first line moves it up again.
        high = ''
        for name, sure in (('near', _SURE), ('wide', _SURE_WIDE)):
            near = [lane for bar, lane in zip(bars, placed) if bar.start < start + sure and bar.end > bar.start]
            first = [lane for lane in near if lane is not None]
            high += f'--rm-{name}:-{_depth(first)}px;' if first else ''
        high = high and f' style="{high}"'
        return (f'<div class="rm-line">{number}<div class="rm-text" lang="" dir="auto"{high}>'
                f'{"".join(self.pieces(start, end, bars, placed))}{more}</div></div>\n')

    def pieces(self, start: int, end: int, bars: Sequence[_Bar], placed: Sequence[Optional[int]]) -> Iterable[str]:
        """The text of a line from bar end to bar end; each piece has a background layer for each bar over it."""
        feed = self.data[end - 1:end] == b'\n' and end > start and not any(bar.end == end and bar.end > bar.start for bar in bars)
        stop = end - 1 if feed else end
        seen = [(bar, lane) for bar, lane in zip(bars, placed) if lane is not None]
        cuts = sorted({start, stop, *(min(place, stop) for bar, _ in seen for place in (bar.start, bar.end))})
        over: List[Tuple[_Bar, int]] = []
        coming = 0
        for at, place in enumerate(cuts):
            over = [(bar, lane) for bar, lane in over if bar.end > place]
            while coming < len(seen) and min(seen[coming][0].start, stop) <= place:
                bar, lane = seen[coming]
                coming += 1
                if bar.start == bar.end:
                    yield (f'<span class="rm-e" style="border-color:var(--rm{bar.name % len(_LIGHT)})" title="{self.title(bar)}" '
                           f'data-r="{_numbers(bar)}"></span>')
                else:
                    over.append((bar, lane))
            if at + 1 < len(cuts):
                yield self.piece(place, cuts[at + 1], over)

    def piece(self, start: int, end: int, over: Sequence[Tuple[_Bar, int]]) -> str:
        part = self.data[start:end]
        if not over:
            return _folded(part)
        text = _shown(part)
        deep = _depth([lane for _, lane in over])
        is_turned = bool(text) and unicodedata.bidirectional(text[0]) in ('R', 'AL')
        layers, places, sizes = [], [], []
        for bar, lane in over:
            colour = f'var(--rm{bar.name % len(_LIGHT)})'
            first, last = bar.begins and bar.start == start, bar.ends and bar.end == end
            if is_turned:
                first, last = last, first
            # The ends of a bar are drawn two pixels in, so that neighbours are told apart.
            side = '50%' if first and last else 'right' if first else '0'
            layers.append(f'linear-gradient({colour},{colour})')
            places.append(f'{side} calc(100% - {deep - 3 - lane * _STEP - _BAR}px)')
            sizes.append(f'calc(100% - {2 * (first + last)}px) {_BAR}px')
        title = '&#10;'.join(self.title(bar) for bar, _ in over)
        numbers = ' '.join(dict.fromkeys(' '.join(_numbers(bar) for bar, _ in over).split()))
        return (f'<span class="rm-s" title="{title}" data-r="{numbers}" style="line-height:{_LINE + 2 * deep}px;padding-bottom:{deep}px;'
                f'background-image:{",".join(layers)};background-position:{",".join(places)};background-size:{",".join(sizes)}">{text}</span>')

    def title(self, bar: _Bar) -> str:
        shared = f', {len(bar.rows)} rows' if len(bar.rows) > 1 else f', row {self.first + bar.rows[0] + 1}'
        return f'{escape(self.names[bar.name])} {self.told(bar.start, bar.end)}{shared}'

    def listed(self, numbers: Sequence[int]) -> str:
        """The rows that begin on a line, each with its spans."""
        if not numbers:
            return ''
        shown = ''.join(map(self.item, numbers[:_LISTED]))
        rest = numbers[_LISTED:]
        if rest:
            items = ''.join(map(self.item, rest))
            shown += (f'<li><details><summary>{len(rest)} rows more</summary><ul class="rm-rows" role="list">{items}</ul>'
                      '</details></li>')
        return f'<ul class="rm-rows" role="list" aria-label="rows that begin here">{shown}</ul>\n'

    def item(self, number: int) -> str:
        row = self.rows[number]
        cells = []
        for name, shown in enumerate(self.names):
            start, end = row[2 * name], row[2 * name + 1]
            if start >= 0:
                text = self.data[start:min(end, start + 4 * _TEXT)].decode('utf-8', 'backslashreplace')
                text = text[:_TEXT] + ('…' if len(text) > _TEXT or end > start + 4 * _TEXT else '')
                cells.append(f'<i style="background:var(--rm{name % len(_LIGHT)})"></i>{escape(shown)} {self.told(start, end)} '
                             f'<bdi lang=""><code>{_shown(text.encode("utf-8", "surrogatepass"))}</code></bdi>')
        said = f'<b><span class="rm-said">row </span>{self.first + number + 1}</b>'
        return f'<li data-r="{number}" tabindex="0">{said}{"".join(cells) or "()"}</li>'


def _depth(taken: Sequence[int]) -> int:
    """The pixels below a text that its lanes take."""
    return (max(taken) + 1) * _STEP + 3


def _numbers(bar: _Bar) -> str:
    return ' '.join(map(str, bar.rows))


def _skipped(lines: int) -> str:
    return f'<div class="rm-skip">{lines} line{"s" * (lines > 1)}</div>\n'


def _folded(part: bytes) -> str:
    """Text without a bar; the middle of what is long is left out."""
    if len(part) <= _LONG:
        return _shown(part)
    head, tail = part[:_KEPT].decode('utf-8', 'ignore'), part[-_KEPT:].decode('utf-8', 'ignore')
    left = len(part) - 2 * _KEPT
    return f'{_shown(head.encode())}<span class="rm-fold"> .. {left:,} bytes .. </span>{_shown(tail.encode())}'


def section(document: Document, names: Sequence[str], rows: Sequence[Row], of: Optional[int], context: int,
            first: int = 0, most: int = _MOST_OF_SPAN) -> str:
    """What stands in a view: the number of rows, the colours of the variables, lines with bars, rows; words as of `fragment`.

    Of a span over more than ``most`` lines the first and the last ones are shown.
    """
    view = _View(document, names, rows, first, most)
    told = f'{len(rows)} row{"s" * (len(rows) != 1)}' + (f' of {of}' if of is not None and of > len(rows) else '')
    if rows and not view.data[:].isascii():
        told += f', places in {"bytes" if document.places is None else "characters"}'
    key = ''.join(f'<b style="background:var(--rm{k % len(_LIGHT)})"></b>{escape(name)}' for k, name in enumerate(names))
    return f'<p class="rm-key">{told}{key}</p>\n{"".join(view.body(context))}'


def fragment(document: Document, names: Sequence[str], rows: Sequence[Row], *, of: Optional[int] = None, context: int = 1,
             first: int = 0) -> str:
    """Rows over a document as a piece of HTML with its style, as a notebook shows it.

    ``rows`` are flat places in bytes, -1 for absent; ``of`` is the number of all rows where these are some of them, ``first`` how
    many stand before them, and ``context`` how many lines around a span are shown.

    >>> shown = fragment(Document(b'a <b>'), ['x'], [(2, 5)])
    >>> '&lt;b&gt;' in shown, '<script' in shown
    (True, False)
    """
    return (f'<style>{STYLE}</style><div class="rm" lang="en" role="region" aria-label="rows over their document">'
            f'{section(document, names, rows, of, context, first)}</div>')


def page(sections: Iterable[Tuple[str, Document, Sequence[Row], bool]], names: Sequence[str], title: str) -> Iterable[str]:
    """A whole page, in parts: of each document its title, itself, its rows, and whether there are more of them.

    A page of several documents ends with a list of them. One of more than 1,000 rows is shown in parts, where scripts run, with a
    filter.
    """
    yield (f'<!doctype html>\n<html lang="en"><head><meta charset="utf-8"><meta name="viewport" content="width=device-width">'
           f'<title>{escape(visible(title))}</title><style>{PAGE_STYLE}{STYLE}</style></head><body>\n'
           '<div class="rm-bar" role="search" hidden><button data-to="-1">Previous</button><button data-to="1">Next</button>'
           '<input type="search" aria-label="Lines that have this text" placeholder="Filter lines">'
           '<output aria-live="polite"></output><a href="#documents" hidden>Documents</a></div>\n<main>\n')
    listed: List[str] = []
    total = 0
    for number, (name, document, rows, is_cut) in enumerate(sections, 1):
        first = ', the first rows alone' if is_cut else ''
        yield (f'<section id="doc-{number}" aria-labelledby="h{number}"><h1 id="h{number}">{escape(visible(name))}{first}</h1>'
               f'<div class="rm">{section(document, names, rows, None, 1)}</div></section>\n')
        listed.append(f'<li><a href="#doc-{number}">{escape(visible(name))}</a> {len(rows)} row{"s" * (len(rows) != 1)}{first}</li>')
        total += len(rows)
    yield '</main>\n'
    if len(listed) > 1:
        yield (f'<nav id="documents" aria-labelledby="hd"><h2 id="hd">{len(listed)} documents</h2>'
               f'<ol class="rm-list">{"".join(listed)}</ol></nav>\n')
    parts = _PARTS_SCRIPT.replace('PART', str(_PART)) if total > _WHOLE else ''
    link = "document.querySelector('.rm-bar').hidden=document.querySelector('.rm-bar a').hidden=false;" if len(listed) > 1 else ''
    if link and not parts:
        link += "document.querySelectorAll('.rm-bar>:not(a)').forEach(x=>x.hidden=true);"
    yield f'<script>{ROWS_SCRIPT}{link}{parts}</script></body></html>\n'
