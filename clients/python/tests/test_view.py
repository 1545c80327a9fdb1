"""The page: each span is a bar, each row is listed, and a browser shows the text as it is."""
import html
import os
import random
import re
import subprocess
import unittest
from html.parser import HTMLParser

import rematch
from rematch import view
from rematch.to import convert
from support import EXAMPLES, Folder, needs, needs_speed


class Reader(HTMLParser):
    """The tags are closed in order, and the texts of some elements are kept."""

    def __init__(self, page):
        super().__init__()
        self.open, self.texts, self.items, self.bars = [], [], [], []
        self.feed(page)
        self.close()
        assert not self.open, self.open

    def handle_starttag(self, tag, attributes):
        given = dict(attributes)
        kind = (given.get('class') or '').split(' ')[0]
        if tag not in ('meta', 'input'):
            self.open.append((tag, kind))
        if kind == 'rm-text':
            self.texts.append('')
        if tag == 'li':
            self.items.append('')
        if kind in ('rm-s', 'rm-e'):
            self.bars.append(given)

    def handle_endtag(self, tag):
        assert self.open.pop()[0] == tag

    def handle_data(self, data):
        kinds = [kind for _, kind in self.open]
        if 'rm-text' in kinds and not {'rm-more', 'rm-fold'} & set(kinds):
            self.texts[-1] += data
        if any(tag == 'li' for tag, _ in self.open) and 'rm-said' not in kinds:
            self.items[-1] += data


def shown(document, names, rows, **words):
    return Reader(view.fragment(rematch.Document(document), names, rows, **words))


class Fragments(unittest.TestCase):
    def test_text_and_rows(self):
        read = shown('a <b> é\nc & d\n', ['x', 'y'], [(2, 5, 9, 10), (3, 4, -1, -1)])
        self.assertEqual(read.texts, ['a <b> é', 'c & d'])
        self.assertEqual(read.items, ['1x 2–5 <b>y 8–9 c', '2x 3–4 b'])

    def test_drawn(self):
        """Whatever the rows are, the text is whole, each row is listed, and each span has bars over just its text."""
        pick = random.Random(3)
        for _ in range(300):
            document = ''.join(pick.choice('ab é\n漢&<') for _ in range(pick.randrange(40)))
            data = document.encode()
            places = [at for at in range(len(data) + 1) if at == len(data) or not 0x80 <= data[at] < 0xc0]
            rows = []
            for _ in range(pick.randrange(1, 8)):
                row = []
                for _ in range(2):
                    row += sorted(pick.choice(places) for _ in range(2)) if pick.random() < 0.8 else [-1, -1]
                rows.append(tuple(row))
            read = Reader(view.fragment(rematch.Document(document), ['x', 'y'], rows, context=1000))
            lines = document.split('\n')
            self.assertEqual([text.replace('↵', '') for text in read.texts], lines[:-1] if lines[-1] == '' and len(lines) > 1 else lines)
            self.assertEqual([item.split('x ')[0][:1] != '' for item in read.items], [True] * len(rows))
            for number, row in enumerate(rows):
                over = sum(1 for bar in read.bars if str(number) in bar['data-r'].split())
                has_span = any(place >= 0 for place in row)
                self.assertEqual(over > 0, has_span)

    def test_lanes(self):
        pick = random.Random(4)
        for _ in range(200):
            bars = sorted((start, start + pick.randrange(5)) for start in (pick.randrange(20) for _ in range(12)))
            placed = view.lanes(bars, 5)
            for k, (start, end) in enumerate(bars):
                for j in range(k):
                    if placed[j] is not None and placed[j] == placed[k]:
                        self.assertLessEqual(max(bars[j][1], bars[j][0] + 1), start)

    def test_many(self):
        read = shown(b'a' * 30, ['x'], [(0, k) for k in range(1, 31)])
        self.assertEqual(len([item for item in read.items if 'rows more' not in item]), 30)
        page = view.fragment(rematch.Document(b'a' * 30), ['x'], [(0, k) for k in range(1, 31)], of=500)
        self.assertIn('+18 spans in more lanes', page)
        self.assertIn('30 rows of 500', page)
        self.assertIn('22 rows more', page)

    def test_equal_spans_are_one_bar(self):
        read = shown(b'ab', ['x', 'y'], [(0, 1, 1, 2), (0, 1, 0, 2)])
        self.assertIn('x 0–1, 2 rows', html.unescape(' '.join(bar['title'] for bar in read.bars)))

    def test_lines_are_folded(self):
        page = view.fragment(rematch.Document(b'\n' * 50 + b'a' + b'\n' * 50), ['x'], [(50, 51)])
        self.assertEqual(re.findall(r'rm-skip">([^<]*)<', page), ['49 lines', '48 lines'])
        page = view.fragment(rematch.Document(b'c' * 5000 + b'a'), ['x'], [(5000, 5001)])
        self.assertIn('.. 4,760 bytes ..', page)

    def test_how_places_are_counted(self):
        """It is said where bytes and characters differ."""
        for document, told in (('éa', '1 row, places in characters<'), ('éa'.encode(), '1 row, places in bytes<'), ('ea', '1 row<'), (b'ea', '1 row<')):
            self.assertIn(told, ''.join(rematch.Query('/!x{a}/').findall(document)._repr_html_()), document)

    def test_no_text(self):
        self.assertEqual(shown(b'\xff\x00\ta', ['x'], [(0, 1)]).texts, ['\\xff·→a'])
        self.assertEqual(shown(b'', ['x'], [(0, 0)]).texts, [''])

    def test_is_quick(self):
        rows = [(k % 900, k % 900 + 5) for k in range(5000)]
        self.assertLess(len(view.fragment(rematch.Document(b'a' * 1000), ['x'], rows)), 3000000)


class Pages(Folder):
    def page(self, *words):
        out = os.path.join(self.folder, 'page.html')
        self.assertEqual(convert.main(['html', '-o', out, *words]), 0)
        with open(out, encoding='utf-8') as file:
            return file.read()

    def test_documents(self):
        page = self.page('-e', '/!x{a}/', self.file('one<', b'a'), self.file('two', b'b'))
        self.assertIn('one&lt;</h1>', page)
        self.assertIn('0 rows', page)
        self.assertEqual(page.count('class="rm-text"'), 1)
        self.assertIn('prefers-color-scheme:dark', page)

    def test_first_rows_alone(self):
        self.assertIn('the first rows alone', self.page('--most-rows', '2', '-e', '/!x{a}/', self.file('d', b'aaa')))
        self.assertNotIn('the first rows alone', self.page('--most-rows', '3', '-e', '/!x{a}/', self.file('d', b'aaa')))

    @needs('chromium')
    def test_a_browser_shows_it(self):
        """The text of each line is what a browser has, and it makes a picture, which whoever changes the page looks at."""
        text = 'plain aab\nשלום עולם\nकार्य\n漢字 aa <b>\n'
        self.page('-e', r'/!x{\p{L}+}/u union /!x{a}/', self.file('d', text.encode()))
        address = 'file://' + os.path.join(self.folder, 'page.html')
        words = ['chromium', '--headless', '--no-sandbox', '--disable-gpu', '--user-data-dir=' + os.path.join(self.folder, 'user')]
        try:
            run = subprocess.run([*words, '--dump-dom', address], stdout=subprocess.PIPE, stderr=subprocess.DEVNULL, timeout=100)
        except subprocess.TimeoutExpired:
            self.skipTest('chromium does not answer in time')
        if not run.stdout:
            self.skipTest('chromium does not start here')
        self.assertEqual(Reader(run.stdout.decode()).texts, text.split('\n')[:-1])
        picture = os.environ.get('REMATCH_PICTURE') or os.path.join(self.folder, 'page.png')
        subprocess.run([*words, '--screenshot=' + picture, '--window-size=1000,900', address], stdout=subprocess.DEVNULL,
                       stderr=subprocess.DEVNULL, timeout=100)
        self.assertGreater(os.path.getsize(picture), 5000)

    def made(self, sections):
        """The address of a page."""
        with open(os.path.join(self.folder, 'page.html'), 'w', encoding='utf-8') as file:
            file.writelines(view.page(sections, ['x'], 'made'))
        return 'file://' + file.name

    def test_lists_and_parts(self):
        """Several documents are listed, and only a page of more than 1,000 rows has parts."""
        document = rematch.Document(b'a\n' * 1200)
        rows = [(2 * k, 2 * k + 1) for k in range(1200)]
        one, many = (''.join(view.page(sections, ['x'], 't')) for sections in ([('d', document, rows[:1000], False)],
                                                                              [('d<', document, rows[:900], True), ('e', document, rows[:101], False)]))
        self.assertIn('lang="en"', one)
        self.assertNotIn('findLastIndex', one)
        self.assertNotIn('<nav', one)
        self.assertIn('findLastIndex', many)
        self.assertIn('<a href="#doc-1">d&lt;</a> 900 rows, the first rows alone</li>', many)
        self.assertEqual(many.count('tabindex="0"'), 1001)
        Reader(many)

    @needs('chromium')
    def test_many_rows_in_a_browser(self):
        from browser import Browser
        data = b''.join(b'line %d a\n' % k for k in range(1500))
        rows = [(at - 1, at) for at in range(len(data)) if data[at:at + 1] == b'\n']
        other = b'other a\n\n' * 3
        with Browser() as browser:
            browser.open(self.made([('one', rematch.Document(data), rows, False), ('two', rematch.Document(other), [(6, 7), (15, 16)], False)]))
            said, rows_seen = 'document.querySelector(".rm-bar output").textContent', '[...document.querySelectorAll("li[data-r]")].filter(x => x.checkVisibility()).length'
            self.assertEqual([browser.value(said), browser.value(rows_seen)], ['rows 1 to 250 of 1502', 250])
            self.assertLess(browser.value('document.body.scrollHeight'), 40000)
            browser.press('Tab')  # Next, since Previous is of no use yet
            browser.press('Enter')
            self.assertEqual([browser.value(said), browser.value(rows_seen)], ['rows 251 to 500 of 1502', 250])
            browser.press('Tab')
            browser.write('LINE 77')
            browser.until(said + ' == "rows 1 to 11 of 11 on lines that have the text"')
            self.assertEqual(browser.value('document.querySelector("#doc-2").hidden'), True)
            browser.press('Tab', 2)  # the list of documents, and then the first row
            self.assertEqual(browser.value('document.activeElement.dataset.r'), '77')
            self.assertEqual(browser.value('document.querySelectorAll(".rm-lit").length'), 2)
            browser.press('ArrowDown')
            self.assertEqual(browser.value('document.activeElement.dataset.r'), '770')
            browser.press('End')
            self.assertEqual(browser.value('document.activeElement.dataset.r'), '779')
            browser.value('document.querySelector("#documents a[href=\'#doc-2\']").click()')
            browser.until(said + ' == "rows 1501 to 1502 of 1502"')
            self.assertEqual(browser.value('document.querySelector("input").value'), '')
            browser.press('Tab')
            self.assertEqual(browser.value(rows_seen), 2)
            browser.value('document.querySelector("input").value = "no such text"; document.querySelector("input").dispatchEvent(new Event("input"))')
            browser.until(said + ' == "no line has the text"')

    @needs('chromium')
    def test_folded_rows_by_keyboard(self):
        from browser import Browser
        with Browser(390, 900) as browser:
            browser.open(self.made([('one', rematch.Document(b'a' * 30), [(0, k) for k in range(1, 31)], False)]))
            browser.press('Tab', 8)
            self.assertEqual(browser.value('document.activeElement.dataset.r'), '7')
            browser.press('ArrowDown')
            self.assertEqual(browser.value('[document.activeElement.dataset.r, document.querySelector("details").open]'), ['8', True])
            tree = browser.ask('Accessibility.getFullAXTree')['nodes']
            items = [node for node in tree if node.get('role', {}).get('value') == 'listitem']
            self.assertGreaterEqual(len(items), 30)
            self.assertIn('row 9', ' '.join(node.get('name', {}).get('value', '') for node in tree))

    @needs('chromium')
    def test_lines_keep_their_distance(self):
        """Of a wrapped line those lines are high that have bars, and no others; the text of each keeps its number's height."""
        from browser import Browser
        text = 'word ' * 60
        rows = [(0, k) for k in range(1, 5)]
        with Browser(390, 900) as browser:
            browser.open(self.made([('one', rematch.Document(text), rows, False)]))
            height = browser.value('document.querySelector(".rm-text").getBoundingClientRect().height')
            lines = browser.value('(()=>{const r=document.createRange();r.selectNodeContents(document.querySelector(".rm-text"));'
                                  'return new Set([...r.getClientRects()].filter(x=>x.width>20).map(x=>Math.round(x.bottom/8))).size})()')
            self.assertGreater(lines, 5)
            self.assertLess(height, 24 * lines + 80)
            self.assertEqual(browser.value('document.documentElement.scrollWidth'), 390)

    @needs('chromium')
    def test_colours_of_a_notebook(self):
        from browser import Browser
        shown = view.fragment(rematch.Document(b'ab'), ['x'], [(0, 1)])
        ground = 'getComputedStyle(document.querySelector(".rm")).backgroundColor'
        bar = 'getComputedStyle(document.querySelector(".rm")).getPropertyValue("--rm0").trim()'
        for dark in (False, True):
            with Browser(dark=dark) as browser:
                for begin, wanted in (('<body data-jp-theme-light="false" style="--jp-layout-color0:#111">', ['rgb(17, 17, 17)', '#3bc9db']),
                                      ('<body data-jp-theme-light="true" style="--jp-layout-color0:#fefefe">', ['rgb(254, 254, 254)', '#0b7285']),
                                      ('<body class="vscode-dark" style="--vscode-editor-background:#222">', ['rgb(34, 34, 34)', '#3bc9db']),
                                      ('<html theme=dark><body>', ['rgb(22, 25, 29)', '#3bc9db']),
                                      ('<body>', ['rgb(22, 25, 29)', '#3bc9db'] if dark else ['rgb(255, 255, 255)', '#0b7285'])):
                    with open(os.path.join(self.folder, 'book.html'), 'w') as file:
                        file.write('<!doctype html>' + begin + shown)
                    browser.open('file://' + file.name)
                    self.assertEqual([browser.value(ground), browser.value(bar)], wanted, (begin, dark))

    @needs_speed
    def test_examples(self):
        page = self.page('-q', os.path.join(EXAMPLES, 'of_the.query'), os.path.join(EXAMPLES, 'harbour.txt'))
        query = rematch.Query.from_file(os.path.join(EXAMPLES, 'of_the.query'))
        with open(os.path.join(EXAMPLES, 'harbour.txt'), 'rb') as file:
            self.assertEqual(len([item for item in Reader(page).items if 'rows more' not in item]), query.count(file))


if __name__ == '__main__':
    unittest.main()
