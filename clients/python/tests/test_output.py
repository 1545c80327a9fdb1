"""Where commands write: an output that is an input is refused, what stood there stays where there is a fault, and a terminal gets no control characters."""
import os
import pty
import select
import stat
import subprocess
import sys
import threading
import time
import unittest

from commands import asked
from support import CLIENTS, PYTHON, Folder, needs_speed
from rematch.view import page
from rematch.visible import BIDI, visible

QUERY = ('-e', '/!x{a+}/', '--silent')


class Files(Folder):
    def read(self, path):
        with open(path, 'rb') as file:
            return file.read()

    def test_an_output_that_is_read_is_refused(self):
        document, query = self.file('d', b'aa\n'), self.file('q', b'/!x{a}/')
        linked, hard = os.path.join(self.folder, 'linked'), os.path.join(self.folder, 'hard')
        os.symlink(document, linked)
        os.link(document, hard)
        for words in (('csv', *QUERY, '-o', document, document), ('csv', *QUERY, '-o', linked, document), ('count', *QUERY, '-o', document, linked, linked),
                      ('lines', *QUERY, '-o', hard, document), ('csv', '-q', query, '-o', query, document), ('html', *QUERY, '-o', document, document),
                      ('follow', *QUERY, '--idle', '0', '-o', document, document), ('sql', 'select 1', *QUERY, '-o', document, document)):
            status, out, told = asked(*words)
            self.assertEqual((status, out, 'is read, so it cannot be the output too' in told), (2, '', True), (words, told))
            self.assertEqual((self.read(document), self.read(query)), (b'aa\n', b'/!x{a}/'), words)

    def test_what_is_read_beside_documents_is_no_output(self):
        document, listed = self.file('d', b'aa\n'), self.file('l', os.path.join(self.folder, 'd').encode() + b'\n')
        words, state = self.file('w', b'aa\n'), self.file('s', b'{}')
        query = self.file('q', b'/!x{%{w.txt}}/')
        named = self.file('w.txt', b'aa\n')
        for asked_for, out in ((('csv', '--words', words, '-o', words, document), words), (('csv', '-q', query, '-o', named, document), named), (('csv', *QUERY, '--files-from', listed, '-o', listed), listed),
                               (('csv', *QUERY, '--state', state, '-o', state, document), state)):
            before = self.read(out)
            status, _, told = asked(*asked_for)
            self.assertEqual((status, 'is read, so it cannot be the output too' in told, self.read(out)), (2, True, before), (asked_for, told))

    def test_standard_input_is_no_output(self):
        document = self.file('d', b'aa\n')
        for more in (('csv', *QUERY), ('csv', *QUERY, '-'), ('count', '-q', '-', '/dev/null'), ('sql', 'select 1', *QUERY), ('ann', *QUERY)):
            with open(document, 'rb') as file:
                run = subprocess.run([sys.executable, os.path.join(CLIENTS, 'rematch-to'), *more, '-o', document], stdin=file, stderr=subprocess.PIPE,
                                     env=dict(os.environ, PYTHONPATH=PYTHON), check=False)
            self.assertEqual((run.returncode, b'is read, so it cannot be the output too' in run.stderr), (2, True), (more, run.stderr))
            self.assertEqual(self.read(document), b'aa\n', more)

    def test_a_folder_is_for_annotations_alone(self):
        document, folder = self.file('d', b'aa\n'), os.path.join(self.folder, 'f')
        os.mkdir(folder)
        for form in ('csv', 'html', 'follow', 'count'):
            status, out, told = asked(form, *QUERY, '-o', folder, document)
            self.assertEqual((status, out, 'is a folder' in told), (2, '', True), (form, told))
        self.assertEqual(asked('ann', *QUERY, '-o', folder, document), (0, '', ''))
        self.assertEqual(self.read(os.path.join(folder, 'd.ann')), b'T1\tx 0 1\ta\nT2\tx 0 2\taa\nT3\tx 1 2\ta\n')
        status, _, told = asked('csv', *QUERY, '-o', os.path.join(self.folder, 'no', 'out'), document)
        self.assertEqual((status, os.path.join('no', 'out') + ': No such file' in told), (5, True), told)

    def test_what_was_there_stays_where_there_is_a_fault(self):
        document, out = self.file('d', b'aa\n'), self.file('o', b'old\n')
        for words, status in ((('csv', '-e', '/!x{a/', '-o', out, document), 3), (('csv', *QUERY, '-o', out, os.path.join(self.folder, 'none')), 5),
                              (('csv', *QUERY, '--columns', 'no', '-o', out, document), 2), (('follow', '-e', '/!x{[^,]*}/', '--idle', '0', '-o', out, document), 4)):
            self.assertEqual(asked(*words)[0], status, words)
            self.assertEqual((self.read(out), sorted(os.listdir(self.folder))), (b'old\n', ['d', 'o']), words)

    def test_what_is_written(self):
        document, out = self.file('d', b'aa\n'), self.file('o', b'old\n')
        os.chmod(out, 0o640)
        linked = os.path.join(self.folder, 'linked')
        os.symlink(out, linked)
        for name in (out, linked):
            self.assertEqual(asked('csv', *QUERY, '--columns', 'x', '-o', name, document), (0, '', ''))
            self.assertEqual(self.read(out), b'x\na\naa\na\n')
        self.assertEqual((stat.S_IMODE(os.stat(out).st_mode), os.path.islink(linked)), (0o640, True))
        new, mask = os.path.join(self.folder, 'new'), os.umask(0o027)
        try:
            self.assertEqual(asked('csv', *QUERY, '--columns', 'x', '-o', new, document), (0, '', ''))
        finally:
            os.umask(mask)
        self.assertEqual((self.read(new), stat.S_IMODE(os.stat(new).st_mode)), (b'x\na\naa\na\n', 0o640))
        self.assertEqual(asked('csv', *QUERY, '-o', '/dev/null', document), (0, '', ''))
        self.assertEqual(asked('csv', *QUERY, '-o', os.path.join(self.folder, 'no', 'folder'), document)[0], 5)
        self.assertEqual(sorted(os.listdir(self.folder)), ['d', 'linked', 'new', 'o'])

    @needs_speed
    def test_what_is_followed_comes_at_once(self):
        document, out = self.file('d', b'aa\n'), os.path.join(self.folder, 'o')
        thread = threading.Thread(target=asked, args=('follow', *QUERY, '--from-start', '--idle', '3', '--columns', 'x', '-o', out, document))
        thread.start()
        ends, found = time.monotonic() + 2.5, b''
        while time.monotonic() < ends and found != b'x\na\naa\na\n':
            found = self.read(out) if os.path.exists(out) else b''
            time.sleep(0.05)
        self.assertTrue(thread.is_alive())
        self.assertEqual(found, b'x\na\naa\na\n')
        thread.join()

    def test_annotations_of_equal_names(self):
        paths = []
        for name, data in (('a/x.txt', b'a\n'), ('b/x.txt', b'\na'), ('b/y.txt', b'\n\na')):
            os.makedirs(os.path.join(self.folder, os.path.dirname(name)), exist_ok=True)
            paths.append(self.file(name, data))
        out, kept = os.path.join(self.folder, 'out'), self.file('kept', b'kept\n')
        os.mkdir(out)
        self.assertEqual(asked('ann', *QUERY, '-o', out, *paths), (0, '', ''))
        self.assertEqual({name: self.read(os.path.join(out, name)) for name in os.listdir(out)},
                         {'a-x.txt.ann': b'T1\tx 0 1\ta\n', 'b-x.txt.ann': b'T1\tx 1 2\ta\n', 'y.txt.ann': b'T1\tx 2 3\ta\n'})
        os.remove(os.path.join(out, 'y.txt.ann'))
        os.symlink(kept, os.path.join(out, 'y.txt.ann'))
        status, _, told = asked('ann', *QUERY, '-o', out, *paths)
        self.assertEqual((status, 'is a link, and is not written' in told, self.read(kept)), (1, True, b'kept\n'))
        for name in ('a/x.txt', 'a-x.txt'):
            self.file(name, b'a')
        status, _, told = asked('ann', *QUERY, '-o', out, paths[0], paths[1], os.path.join(self.folder, 'a-x.txt'))
        self.assertEqual((status, 'of one name' in told), (2, True))


class Screens(Folder):
    """Control characters of documents and names on a terminal."""

    def shown(self, *words):
        """What a command writes to a terminal: its output and its notes."""
        ours, theirs = pty.openpty()
        run = subprocess.Popen([sys.executable, os.path.join(CLIENTS, 'rematch-to'), *words], stdin=subprocess.DEVNULL, stdout=theirs, stderr=theirs,
                               env=dict(os.environ, PYTHONPATH=PYTHON))
        os.close(theirs)
        read = b''
        while select.select([ours], [], [], 60)[0]:
            try:
                part = os.read(ours, 65536)
            except OSError:
                break
            if not part:
                break
            read += part
        os.close(ours)
        run.wait(60)
        return read.decode().replace('\r\n', '\n')

    def test_documents(self):
        document = self.file('d', 'a\x1b[2J\u202eb\x9bc\r\n'.encode())
        for form, more in (('lines', ()), ('csv', ('--columns', 'x')), ('tsv', ('--columns', 'x')), ('freq', ()), ('kwic', ()), ('follow', ('--from-start', '--idle', '0'))):
            shown = self.shown(form, '-e', r'/!x{a[^\n]*}\n/', '--silent', *more, document)
            self.assertIn('a·[2J·b·c', shown, form)
            self.assertEqual([sign for sign in shown if sign != '\n' and sign in BIDI + '\x1b\x9b\r'], [sign for sign in shown if sign == '\x1b'][:0 if form not in ('lines', 'kwic') else 2], (form, shown))
        _, out, _ = asked('csv', '-e', r'/!x{a[^\n]*}\n/', '--columns', 'x', document)
        self.assertEqual(out, 'x\n"a\x1b[2J\u202eb\x9bc\r"\n')  # in a pipe it is as it is

    def test_names(self):
        name = self.file('d\x1b[2J\u202e', b'')
        for words in (('csv', '-e', '/!x{a}/', '--columns', 'x', os.path.join(self.folder, 'none\x1b[2J\u202e')), ('csv', '-e', '/!x{a}/', name, os.path.join(name, 'x'))):
            shown = self.shown(*words)
            self.assertIn('·[2J·', shown)
            self.assertEqual([sign for sign in shown if sign in BIDI + '\x1b'], [], shown)

    def test_signs_that_turn_a_line(self):
        """They are shown in a page and in a concordance."""
        self.assertEqual(visible('a' + BIDI + 'b'), 'a' + '·' * 12 + 'b')
        document = self.file('d', 'x a\u202eb\u2066 y'.encode())
        self.assertIn('a·b·', asked('kwic', '-e', '/!x{a[^ ]*}/', document)[1])
        html = asked('html', '-e', '/!x{a[^ ]*}/', document)[1]
        self.assertEqual([sign for sign in html if sign in BIDI], [])
        self.assertIsNotNone(page)


if __name__ == '__main__':
    unittest.main()
