"""Which documents there are: folders, names in a file, packed by zstd; and rows as JSON, and tables without a head."""
import json
import os
import subprocess
import unittest

from support import Folder, needs
from commands import asked, lines


class Documents(Folder):
    def setUp(self):
        super().setUp()
        for name in ('a.log', 'b.txt', 'in/c.log', 'in/deep/d.log'):
            os.makedirs(os.path.dirname(os.path.join(self.folder, name)), exist_ok=True)
            self.file(name, 'x' * len(name))

    def counts(self, *words, **more):
        out, told = lines('count', '-e', '/!x{x}/', *words, **more)
        self.assertEqual(told, [])
        return [line.replace(self.folder + os.sep, '') for line in out]

    def test_folders(self):
        self.assertEqual(self.counts('-r', self.folder), ['5 a.log', '5 b.txt', '8 in/c.log', '13 in/deep/d.log', '31 total'])
        self.assertEqual(self.counts('-r', '--glob', '*.log', self.folder), ['5 a.log', '8 in/c.log', '13 in/deep/d.log', '26 total'])
        self.assertEqual(self.counts('-r', '--glob', 'b*', '--glob', '*/deep/*', self.folder), ['5 b.txt', '13 in/deep/d.log', '18 total'])
        self.assertEqual(self.counts('-r', '--glob', 'none', os.path.join(self.folder, 'a.log')), ['5 a.log'])
        before = os.getcwd()
        self.addCleanup(os.chdir, before)
        os.chdir(os.path.join(self.folder, 'in'))
        self.assertEqual(self.counts('-r'), ['8 ./c.log', '13 ./deep/d.log', '21 total'])
        self.assertEqual(self.counts('-r', '--jobs', '2'), ['8 ./c.log', '13 ./deep/d.log', '21 total'])

    def test_names_in_a_file(self):
        names = [os.path.join(self.folder, name) for name in ('b.txt', 'a.log')]
        listed = self.file('listed', '\n'.join(names) + '\n')
        self.assertEqual(self.counts('--files-from', listed), ['5 b.txt', '5 a.log', '10 total'])
        self.assertEqual(self.counts('--files-from', '-', stdin='\0'.join(names).encode()), ['5 b.txt', '5 a.log', '10 total'])
        self.assertEqual(self.counts('--files-from', listed, os.path.join(self.folder, 'in', 'c.log')), ['8 in/c.log', '5 b.txt', '5 a.log', '18 total'])

    def test_refused(self):
        for words, part in ((('--glob', '*'), 'give -r too'), (('-r', '--glob', 'nothing', self.folder), 'there is no document'),
                            (('--files-from', self.file('none')), 'there is no document'), (('--files-from', os.path.join(self.folder, 'not')), 'No such file')):
            status, out, told = asked('count', '-e', '/a/', *words)
            self.assertEqual((status, out, part in told), (2, '', True), told)
        self.assertEqual(asked('count', '-e', '/a/', self.folder)[0], 5)

    @needs('zstd')
    def test_zstd(self):
        plain = self.file('plain', b'x y' * 100000)
        subprocess.run(['zstd', '-q', plain, '-o', plain + '.packed'], check=True)
        self.assertEqual(self.counts(plain + '.packed'), ['100000 plain.packed'])
        with open(plain + '.packed', 'rb') as file:
            broken = self.file('broken', file.read()[:20])
        status, out, told = asked('count', '-e', '/!x{x}/', broken, plain)
        self.assertEqual((status, out.splitlines()[-1]), (1, '100000 total'))
        self.assertIn('broken: ', told)


class Json(Folder):
    def test_rows(self):
        path = self.file('d', '"\\é\n'.encode() + b'\xff\0a')
        out, told = lines('json', '--quiet', '-e', r'/!x{[^\n]+}\n(!y{.}.a)?/', path)
        self.assertEqual([json.loads(line) for line in out][:2], [
            {'document': path, 'line': 1, 'x': [0, 4, '"\\é'], 'y': [5, 6, '\\xff']}, {'document': path, 'line': 1, 'x': [0, 4, '"\\é'], 'y': None}])
        out, told = lines('json', '--quiet', '--texts', '-n', '1', '-e', '/!x{a}/ union /!y{b}/', path)
        self.assertEqual(json.loads(out[0]), {'document': path, 'line': 2, 'x': 'a', 'y': None})
        self.assertEqual(lines('json', '--quiet', '-e', '/a/', path)[0], ['{"document":%s,"line":null}' % json.dumps(path)])

    def test_refused(self):
        status, out, told = asked('json', '-e', '/!line{a}/', stdin=b'a')
        self.assertEqual((status, out, told.splitlines()[-1]), (2, '', 'rematch-to: each row has a member line: rename the variable'))

    def test_no_head(self):
        path = self.file('d', 'ab')
        self.assertEqual(lines('csv', '--quiet', '--texts', '--no-head', '-e', '/!x{a}/', path)[0], [path + ',1,a'])
        self.assertEqual(lines('freq', '--quiet', '--no-head', '-e', '/!x{a}/', path)[0], ['1,a'])
        self.assertEqual(lines('follow', '--quiet', '--texts', '--no-head', '--from-start', '--idle', '0', '-e', '/!x{a}/', path)[0], [path + ',1,a'])


if __name__ == '__main__':
    unittest.main()
