"""The page to try queries: who may ask, what it answers, faults, many rows, questions that take too long; and in a browser."""
import gzip
import json
import os
import signal
import socket
import subprocess
import threading
import time
import tracemalloc
import unittest
import urllib.error
import urllib.request
from unittest import mock

import rematch
from rematch.to import play
from browser import Browser
from commands import asked
from support import CLIENTS, PROGRAM, Folder, children, needs, needs_speed
from test_session import serves

COMMAND = os.path.join(CLIENTS, 'rematch-play')
has_sessions = unittest.skipUnless(serves(PROGRAM), 'the program has no sessions')


class Served(Folder):
    """A server in this process."""

    def begin(self, *words, **more):
        http = play.serve(*words, **more)
        thread = threading.Thread(target=http.serve_forever, args=(0.05,))
        thread.start()

        def end():
            http.shutdown()
            thread.join()
            http.server_close()
            http.player.close()
        self.addCleanup(end)
        return http

    def post(self, http, data, address=None, **heads):
        """The status and what comes back."""
        if not isinstance(data, bytes):
            data = json.dumps(data).encode()
        asked = urllib.request.Request(address or http.address, data=data, headers={name.replace('_', '-'): head for name, head in heads.items()})
        try:
            with urllib.request.urlopen(asked, timeout=100) as reply:
                return reply.status, json.loads(reply.read())
        except urllib.error.HTTPError as fault:
            with fault:
                return fault.code, fault.read().decode()


@has_sessions
class Bounds(Served):
    """What a page may cost, and odd requests."""

    def raw(self, http, *lines, body=b'', wait=20):
        """What comes back of a request that is written as it is."""
        with socket.create_connection(('127.0.0.1', http.server_port), timeout=wait) as connection:
            connection.sendall('\r\n'.join([f'POST {http.path} HTTP/1.1', f'Host: 127.0.0.1:{http.server_port}', *lines, '', '']).encode('latin-1') + body)
            with connection.makefile('rb') as reply:
                return reply.read()

    def test_odd_requests_are_refused(self):
        http = self.begin('', 'a')
        for length in ('\xb2', '1' * 5000, '-1', '0x10', ''):
            self.assertIn(b' 400 ', self.raw(http, 'Content-Length: ' + length).split(b'\r\n')[0], length)
        self.assertIn(b' 411 ', self.raw(http).split(b'\r\n')[0])
        self.assertIn(b' 413 ', self.raw(http, 'Content-Length: 999999999999').split(b'\r\n')[0])
        deep = b'[' * 100000
        self.assertEqual(self.post(http, deep)[0], 400)
        self.assertEqual(self.post(http, {'query': '/!x{a}/', 'first': 0, 'known': 0})[1]['rows'], 1)

    def test_half_a_request_ends(self):
        self.assertEqual(play._Handler.timeout, 30)
        http = self.begin('', 'a')
        with mock.patch.object(play._Handler, 'timeout', 0.3):
            self.assertEqual(self.raw(http, 'Content-Length: 10', body=b'{'), b'')

    @needs_speed
    def test_the_memory_of_the_program(self):
        """A query that would take more than is allowed is told, and the next one has its rows."""
        text = 'ab cd\n' * 20000
        player = play.Player(text, memory=200_000_000)
        self.addCleanup(player.close)
        dear = '/' + ''.join('!v%d{.*}' % number for number in range(32)) + '/'
        self.assertIn('memory', player.ask(dear, None, 0)['fault'])
        self.assertEqual(player.ask('/!x{b} /', None, 0)['rows'], 100)

    @needs_speed
    def test_very_many_lines(self):
        """A screenful is drawn, also of spans over all lines."""
        text = '\n' * 4_000_000
        document = play.document_of_text(text)
        begun = time.monotonic()
        tracemalloc.start()
        html = play.section(document, ('x',), [(k, 4_000_000 - k) for k in range(100)], None, 1, 0, play._LINES_OF_SPAN)
        most = tracemalloc.get_traced_memory()[1]
        tracemalloc.stop()
        self.assertLess((len(html), most), (5_000_000, 60_000_000))
        self.assertLess(time.monotonic() - begun, 60)

    def test_a_packed_document_is_unpacked_up_to_the_limit(self):
        """What is too long is refused before it is unpacked."""
        path = self.file('bomb.gz', gzip.compress(bytes(400_000_000), 1))
        with mock.patch('tempfile.TemporaryFile', side_effect=AssertionError('it was unpacked')):
            for words, status, part in ((('csv', '-e', '/!x{b(.|\\n)*}/', path), 4, 'cannot be cut'), (('ann', '-e', '/!x{b}/', path), 6, 'longer than'),
                                        (('html', '-e', '/!x{b}/', path), 6, 'longer than')):
                found, _, told = asked(*words)
                self.assertEqual((found, part in told), (status, True), told)
            for words in (('why', '-e', '/!x{b}/', path), ('csv', '--encoding', 'latin-1', '-e', '/!x{b}/', path), ('csv', '-e', '/!x{b}/', path),
                          ('count', '-e', '/!x{b}/', path), ('freq', '-e', '/!x{b}/', path)):  # it has no line feed to be cut at
                found, _, told = asked(*words)
                self.assertEqual((found, 'longer than' in told), (6, True), (words, told))
            with self.assertRaises(rematch.DocumentError):
                play._text_of(path)
        with mock.patch('rematch.to.packed._MOST_UNPACKED', 300_000_000):
            found, _, told = asked('lines', '-e', '/!x{b}/', path)
            self.assertEqual((found, 'it holds more than 300000000 bytes' in told), (5, True), told)


class Opened(Folder):
    def test_the_secret_is_no_word_of_a_command(self):
        """--open gives the browser a file that this user alone can read."""
        told = os.path.join(self.folder, 'told')
        browser = self.script('browser', '#!/bin/sh\nfile=${1#file://}\n{ echo "$1"; stat -c %%a "$file" "${file%%/*}"; cat "$file"; } >%s.new\nmv %s.new %s\n' % ((told,) * 3))
        process = subprocess.Popen([COMMAND, '--open'], stdout=subprocess.PIPE, stderr=subprocess.PIPE, env=dict(os.environ, BROWSER=browser + ' %s'),
                                   preexec_fn=lambda: signal.signal(signal.SIGINT, signal.SIG_DFL))
        self.addCleanup(process.kill)
        address = process.stdout.readline().decode().strip()
        ends = time.monotonic() + 60
        while not os.path.exists(told) and time.monotonic() < ends:
            time.sleep(0.05)
        with open(told) as file:
            word, mode, of_folder, *page = file.read().splitlines()
        self.assertRegex(word, '^file:///')
        self.assertNotIn(address.rstrip('/').rsplit('/', 1)[1], word)
        self.assertEqual((mode, of_folder, address in page[0]), ('600', '700', True))
        process.send_signal(signal.SIGINT)
        process.communicate(timeout=100)
        self.assertFalse(os.path.exists(word[7:]))


@has_sessions
class Asked(Served):
    def test_who_may_ask(self):
        http = self.begin('/!x{a}/', 'secret text')
        root = 'http://127.0.0.1:%d' % http.server_port
        self.assertEqual(http.server_address[0], '127.0.0.1')
        with urllib.request.urlopen(http.address, timeout=100) as page:
            self.assertIn(b'secret text', page.read())
            self.assertIn("default-src 'none'", page.headers['Content-Security-Policy'])
            self.assertEqual(page.headers['Cache-Control'], 'no-store')
        question = {'query': '/!x{a}/', 'first': 0, 'document': 'a'}
        for address, heads in ((root + '/', {}), (root + '/' + 'a' * 32 + '/', {}), (http.address + 'x', {}), (None, {'Host': 'evil.example'}),
                               (None, {'Host': 'evil.example:%d' % http.server_port}), (None, {'Origin': 'http://evil.example'}), (None, {'Origin': 'null'})):
            self.assertEqual(self.post(http, question, address, **heads)[0], 404, (address, heads))
            try:
                urllib.request.urlopen(urllib.request.Request(address or http.address, headers=heads), timeout=100).close()
                self.fail(address)
            except urllib.error.HTTPError as fault:
                with fault:
                    self.assertEqual((fault.code, b'secret text' in fault.read()), (404, False))
        self.assertEqual(http.player.document, 'secret text')
        self.assertEqual(self.post(http, question, Origin=root)[1]['rows'], 1)
        self.assertEqual(self.post(http, question, Host='localhost:%d' % http.server_port)[0], 200)

    def test_bad_questions(self):
        http = self.begin()
        for data in (b'', b'{', b'[]', b'{}', b'\xff', b'{"query":1,"first":0}', b'{"query":"","first":"0"}', b'{"query":"","first":0,"known":null}', b'{"query":"","first":0,"document":1}',
                     b'{"query":"","first":0,"why":1}'):
            self.assertEqual(self.post(http, data), (400, 'a question is an object with query and first, and perhaps document, known and why\n'), data)
        self.assertEqual(self.post(http, {'query': '/!x{a}/', 'first': 0, 'document': 'a'})[1]['found'], 1)
        with self.assertRaises(OSError):  # refused before it is read
            status, told = self.post(http, b'a', Content_Length='999999999')
            self.assertEqual((status, told), (413, 'document longer than 16777216 bytes\n'))
            raise OSError

    def test_rows_and_faults(self):
        http = self.begin('', 'aé\n')
        status, told = self.post(http, {'query': '/!x{a+}!y{é}/u', 'first': 0})
        self.assertEqual((status, told['rows'], told['found'], told['more'], told['all'], told['first']), (200, 1, 1, False, True, 0))
        self.assertIn('x 0–1', told['html'])
        self.assertIn('y 1–2', told['html'])
        told = self.post(http, {'query': '/é!x{a**}/', 'first': 0})[1]
        self.assertEqual((told['at'], told['fault'].splitlines()[:3]), (7, ['query: repeat after repeat at 8', '  /é!x{a**}/', '         ^']))
        self.assertIn('hint: ', told['fault'])
        self.assertEqual(self.post(http, {'query': '/!x{b}/', 'first': 0})[1]['rows'], 0)
        self.assertEqual(self.post(http, {'query': '/!x{b}/', 'first': 0, 'document': '<b>'})[1]['html'].count('&lt;'), 1)
        self.assertIn('more than 20000 states', self.post(http, {'query': '/(a{1000}){20}/', 'first': 0, 'known': 1})[1]['fault'])
        self.assertIn('UTF-8', self.post(http, {'query': '/a/', 'first': 0, 'document': '\ud800'})[1]['fault'])
        self.assertEqual(self.post(http, {'query': '/a/', 'first': 0, 'document': 'a'})[1]['rows'], 1)

    def test_advice(self):
        """What is seldom meant is said beside the rows, and how places are counted where that makes a difference."""
        http = self.begin('', 'a 12 c\nb 34 c\n')
        several, apart, capture = 'it has several lines', 'of x, 2 of 2 places have rows that begin alike', 'there is no capture'
        for query, parts in (('/a/', [capture]), ('/^!x{a}/', [several]), ('/^!x{a}/m', []), (r'/ !x{\d+}.*/', [apart]), (r'/ !x{\d+} /', []),
                             (r'/ !x{\d+}/', [apart])):
            told = self.post(http, {'query': query, 'first': 0})[1]['advice']
            self.assertEqual([[part in line for line in told] for part in parts], [[True]] * len(parts), (query, told))
            self.assertEqual(len(told), len(parts), (query, told))
        self.assertNotIn('advice', self.post(http, {'query': '/a**/', 'first': 0})[1])
        self.assertNotIn('places in', self.post(http, {'query': '/!x{a}/', 'first': 0})[1]['html'])
        self.assertIn('1 row, places in characters<', self.post(http, {'query': '/!x{a}/', 'first': 0, 'document': 'éa'})[1]['html'])

    def test_why(self):
        """How far a query fits the document that was given last."""
        http = self.begin('', 'for ada from\nfor o.meyer from\n')
        told = self.post(http, {'query': r'/for !user{\w+} from/i', 'first': 0, 'why': True})[1]['why'].splitlines()
        self.assertEqual((len(told), told[0].split()[0], told[2].split()[0], told[-1]), (4, '2', '1', '          1  rows'))
        self.assertIn("the first in line 2: 'for o'>>>'.meyer from\\n'", told[2])
        self.assertIn('repeat after repeat', self.post(http, {'query': '/a**/', 'first': 0, 'why': True})[1]['why'])
        http.player.seconds = -1.0
        self.assertIn('it takes more than', self.post(http, {'query': '/ab/', 'first': 0, 'why': True})[1]['why'])

    def test_screens(self):
        http = self.begin('', 'a' * 250)
        got = [self.post(http, {'query': '/!x{a}/', 'first': first})[1] for first in (0, 100, 200, 0, 300)]
        self.assertEqual([(told['first'], told['rows'], told['more'], told['found'], told['all']) for told in got],
                         [(0, 100, True, 100, False), (100, 100, True, 200, False), (200, 50, False, 250, True), (0, 100, True, 250, True),
                          (300, 0, False, 250, True)])
        self.assertIn('row </span>101<', got[1]['html'])
        self.assertIn('row 101', got[1]['html'])

    def test_conveniences(self):
        """They are written out, and a fault is at the place where it was written."""
        player = play.Player('Error, err0r, none')
        self.addCleanup(player.close)
        found = player.ask('part e = /~1{error}/i; # any\n/!x{%{e}}/', None, 0)
        self.assertEqual((found.get('fault'), found['rows']), (None, 2))
        for query, at, part in (('# é\n/!x{a**}/', 10, 'repeat after repeat'), ('/a%{b}/', 2, 'no part b'), ('/é~1{a}/iu', 2, 'two letters')):
            found = player.ask(query, None, 0)
            self.assertEqual((found['at'], part in found['fault']), (at, True), found)
        self.assertIn('not UTF-8 at 1', player.ask('/\ud800/', None, 0)['fault'])

    def test_two_pages(self):
        """A page is never answered about the document of another one."""
        http = self.begin('', 'a')
        ask = {'query': '/!x{a}/', 'first': 0}
        self.assertEqual([self.post(http, dict(ask, known=0))[1][name] for name in ('rows', 'known')], [1, 0])
        self.assertEqual([self.post(http, dict(ask, known=0, document='aaa'))[1][name] for name in ('rows', 'known')], [3, 1])
        self.assertEqual(self.post(http, dict(ask, known=0))[1], {'again': True})
        self.assertEqual([self.post(http, dict(ask, known=1))[1][name] for name in ('rows', 'known')], [3, 1])
        self.assertEqual([self.post(http, dict(ask, document='a'))[1][name] for name in ('rows', 'known')], [1, 2])

    def test_a_program_that_has_ended(self):
        player = play.Player('aa')
        self.addCleanup(player.close)
        self.assertEqual(player.ask('/!x{a}/', None, 0)['rows'], 2)
        player._server.kill()
        player._server._process.wait()
        player.ask('/!x{a}/', None, 0)  # the session's rows are all there
        with mock.patch.object(play, '_SCREEN', 1):
            self.assertEqual(player.ask('/!x{a/', None, 0)['fault'].splitlines()[0], 'query: not closed at 1')
            self.assertEqual(player.ask('/!x{a}/', None, 0)['rows'], 1)
            player._server.kill()
            player._server._process.wait()
            self.assertEqual(player.ask('/!x{a}/', None, 1)['rows'], 1)

    def test_a_newer_question_ends_an_older(self):
        player = play.Player('a')
        self.addCleanup(player.close)
        real, entered = player._shown, threading.Event()

        def slow(query, first):
            if query == 'slow':
                entered.set()
                player._server._process.wait(60)
                raise rematch.ProgramError('ended', -9)
            return real(query, first)
        player._shown = slow
        found = []
        thread = threading.Thread(target=lambda: found.append(player.ask('slow', None, 0)))
        thread.start()
        entered.wait(60)
        self.assertEqual(player.ask('/!x{a}/', None, 0)['rows'], 1)
        thread.join()
        self.assertIn('a newer one came', found[0]['fault'])

    def test_too_long(self):
        player = play.Player('a', seconds=60)
        self.addCleanup(player.close)
        player.ask('/!x{a}/', None, 0)
        player.seconds = 0.2

        def slow(query, first):
            os.kill(player._server._process.pid, signal.SIGSTOP)
            return rematch.Session.next(player._session)
        real, player._shown = player._shown, slow
        self.assertEqual(player.ask('/!x{a}/', None, 0)['fault'], 'the query took more than 0.2 seconds, or a newer one came')
        player._shown, player.seconds = real, 60
        self.assertEqual(player.ask('/!x{a}/', None, 0)['rows'], 1)

    def test_nothing_is_left(self):
        before = children()
        http = play.serve('', 'a')
        http.player.ask('/!x{a}/', None, 0)
        http.server_close()
        http.player.close()
        self.assertEqual(children(), before)

    def test_port_that_is_taken(self):
        http, before = self.begin(), children()
        with self.assertRaises(OSError):
            play.serve(port=http.server_port)
        self.assertEqual(children(), before)


class Command(Folder):
    def run_it(self, *words):
        run = subprocess.run([COMMAND, *words], stdout=subprocess.PIPE, stderr=subprocess.PIPE, stdin=subprocess.DEVNULL, timeout=100)
        return run.returncode, run.stdout.decode(), run.stderr.decode()

    def test_refused(self):
        self.assertEqual(self.run_it('/no/such/file')[::2], (5, '/no/such/file: No such file or directory\n'))
        path = self.file('latin', b'caf\xe9')
        self.assertEqual(self.run_it(path)[::2], (5, path + ': no UTF-8 at 3, and the page shows text\n'))
        path = self.file('long', b'a' * 16777217)
        self.assertEqual(self.run_it(path)[::2], (6, path + ': document longer than 16777216 bytes\n'))
        self.assertEqual(self.run_it('-q', '/no/such/query')[::2], (5, '/no/such/query: No such file or directory\n'))
        status, out, told = self.run_it('--port', '70000')
        self.assertEqual((status, out, told.splitlines()[-1]), (2, '', 'rematch-play: error: a port is 0 to 65535, not 70000'))

    @has_sessions
    def test_ends_with_ctrl_c(self):
        path = self.file('text.gz', gzip.compress(b'packed text'))
        query = self.file('query', '/!x{é}/u')
        # Where the tests run in the background they ignore the signal, and so would what they start.
        process = subprocess.Popen([COMMAND, '-q', query, path], stdout=subprocess.PIPE, stderr=subprocess.PIPE,
                                   preexec_fn=lambda: signal.signal(signal.SIGINT, signal.SIG_DFL))
        self.addCleanup(process.kill)
        address = process.stdout.readline().decode().strip()
        self.assertRegex(address, r'^http://127[.]0[.]0[.]1:\d+/[-\w]{32}/$')
        with urllib.request.urlopen(address, timeout=100) as page:
            text = page.read().decode()
        self.assertIn('packed text', text)
        self.assertIn('/!x{é}/u', text)
        process.send_signal(signal.SIGINT)
        self.assertEqual((process.communicate(timeout=100), process.returncode), ((b'', b''), 0))
        with self.assertRaises(OSError):
            urllib.request.urlopen(address, timeout=100)


@has_sessions
@needs('chromium')
class InABrowser(Served):
    def pictured(self, browser, name):
        if os.environ.get('REMATCH_PICTURES'):
            browser.picture(os.path.join(os.environ['REMATCH_PICTURES'], name + '.png'))

    def test_typing(self):
        """By the keyboard alone: a query, a fault, its place, a row, the next rows, back to the query."""
        http = self.begin('', 'one ab\ntwo aab\n' * 60, seconds=60)
        with Browser() as browser:
            browser.open(http.address)
            self.assertEqual(browser.value('getComputedStyle(document.getElementById("fault")).display'), 'none')
            self.assertEqual(browser.value('document.activeElement.id'), 'query')
            browser.write('/!x{a+}!y{b*')
            browser.until('document.getElementById("fault").textContent.includes("^")')
            self.pictured(browser, 'fault-1280')
            browser.write('}/')
            browser.until('document.getElementById("say").textContent == "rows 1 to 100, and more"')
            self.assertEqual(browser.value('document.getElementById("fault").textContent'), '')
            self.pictured(browser, 'rows-1280')
            browser.write('*')
            browser.until('document.getElementById("fault").textContent.includes("hint: ")')
            self.assertEqual(browser.value('getComputedStyle(document.getElementById("there")).display != "none"'), True)
            browser.press('Tab', 2)
            browser.press('Enter')
            self.assertEqual(browser.value('[document.activeElement.id, document.activeElement.selectionStart]'), ['query', 14])
            browser.value('query.setSelectionRange(14, 15)')
            browser.ask('Input.dispatchKeyEvent', type='rawKeyDown', key='Delete', code='Delete', windowsVirtualKeyCode=46)
            browser.until('document.getElementById("say").textContent == "rows 1 to 100, and more"')
            browser.press('Tab', 3)  # the document, Next (First and Previous are of no use yet), the first row
            self.assertEqual(browser.value('document.activeElement.closest("li").dataset.r'), '0')
            self.assertGreater(browser.value('document.querySelectorAll(".rm-lit").length'), 1)
            browser.press('ArrowDown', 2)
            self.assertEqual(browser.value('document.activeElement.dataset.r'), '2')
            browser.press('PageDown')
            browser.until('document.getElementById("say").textContent.startsWith("rows 101 to 200, and")')
            browser.until('document.activeElement.dataset.r == "0"')
            self.assertEqual(browser.value('document.activeElement.textContent.startsWith("row 101")'), True)
            browser.press('Escape')
            self.assertEqual(browser.value('document.activeElement.id'), 'query')

    @needs_speed
    def test_large(self):
        """A document of 1 MB that is changed, and 10,000 rows, of which the last screenful is reached."""
        http = self.begin('/b!x{a}/', seconds=300)
        with Browser(390, 900, dark=True) as browser:
            browser.open(http.address)
            browser.value('text.value = ("c".repeat(99) + "\\n").repeat(9900) + "ba\\n".repeat(10000); text.dispatchEvent(new Event("input"))')
            browser.until('document.getElementById("say").textContent == "rows 1 to 100, and more"', 300)
            self.assertEqual(http.player.document.count('\n'), 19900)
            self.assertLess(browser.value('document.querySelectorAll("#rows li").length'), 101)
            self.assertEqual(browser.value('document.documentElement.scrollWidth'), 390)
            self.pictured(browser, 'large-390-dark')
            browser.value('ask(9900)')
            browser.until('document.getElementById("say").textContent == "rows 9901 to 10000 of 10000"', 300)
            self.assertEqual(browser.value('document.getElementById("on").disabled'), True)


if __name__ == '__main__':
    unittest.main()
