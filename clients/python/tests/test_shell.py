"""Completion in three shells, and the script that installs."""
import os
import pty
import re
import select
import shutil
import subprocess
import sys
import time
import unittest

from rematch.to.words import FORMS, OTHER_FORMS
from support import CLIENTS, DOCS, EXAMPLES, PROGRAM, ROOT, Folder, needs

SHELL = os.path.join(CLIENTS, 'shell')


def run(words, **more):
    return subprocess.run(words, stdout=subprocess.PIPE, stderr=subprocess.STDOUT, universal_newlines=True, **more)


def options():
    """The options of the program, as docs/FORMATS.md has them."""
    with open(os.path.join(DOCS, 'FORMATS.md'), encoding='utf-8') as file:
        section = re.search(r'\n## The command line\n(.*?)\n## ', file.read(), re.S)[1]
    return re.findall(r'^\| `(--?[a-z-]+)', section, re.M)


def options_of(command):
    """The options of a command beside the program, as it tells them."""
    told = run([os.path.join(CLIENTS, command), '--help']).stdout
    heads = '\n'.join(re.findall(r'^  (-[^\s,]+(?:, -\S+)?)', told, re.M))
    return [option for option in re.findall(r'--?[A-Za-z-]+', heads) if option != '-h']


class Bash(unittest.TestCase):
    def complete(self, *words, command='rematch'):
        function = '_' + command.replace('-', '_')
        text = 'source %s/rematch.bash; COMP_WORDS=(%s "$@"); COMP_CWORD=$#; %s; printf "%%s\\n" "${COMPREPLY[@]}"' % (SHELL, command, function)
        return run(['bash', '--norc', '-c', text, 'bash', *words], cwd=EXAMPLES).stdout.split()

    @needs('bash')
    def test_options(self):
        self.assertGreater(len(options()), 9)
        self.assertLessEqual(set(options()), set(self.complete('-')))
        self.assertEqual(sorted(self.complete('-q', 'box.query', '--')), ['--explain', '--filter', '--max-table', '--serve', '--trial'])
        self.assertNotIn('-t', self.complete('-t', '-'))
        self.assertNotIn('-q', self.complete('-e', '/a/', '-'))
        self.assertEqual(set(self.complete('csv', '-', command='rematch-to')), set(options_of('rematch-to')))

    @needs('bash')
    def test_values(self):
        self.assertEqual(self.complete('-f', ''), ['spans', 'table', 'json'])
        self.assertEqual(self.complete('-f', 't'), ['table'])
        self.assertEqual(self.complete('-a', ''), ['start'])
        queries = [name for name in os.listdir(EXAMPLES) if name.startswith('f') and name.endswith('.query')]
        self.assertEqual(sorted(self.complete('-q', 'f')), sorted(queries))
        self.assertEqual(self.complete('-n', ''), [])
        self.assertEqual(self.complete('-q', 'failed.query', 'auth'), ['auth.log'])
        self.assertEqual(self.complete('h', command='rematch-to'), ['html'])
        self.assertEqual(set(self.complete('', command='rematch-to')), {*FORMS, *OTHER_FORMS})
        self.assertEqual(self.complete('lines', '--color', 'a', command='rematch-to'), ['auto', 'always'])
        self.assertEqual(self.complete('csv', '--jobs', '', command='rematch-to'), [])
        self.assertEqual(self.complete('kwic', '--sort', '', command='rematch-to'), ['left', 'right', 'word'])
        self.assertEqual(self.complete('csv', 'auth', command='rematch-to'), ['auth.log'])
        self.assertEqual(self.complete('box', command='rematch-piece'), ['box.query'])
        self.assertEqual(self.complete('auth', command='rematch-cut'), ['auth.log'])
        for command in ('rematch-play', 'rematch-serve'):
            self.assertEqual(set(self.complete('-', command=command)), set(options_of(command)))
        self.assertEqual(self.complete('--port', '1', 'auth', command='rematch-play'), ['auth.log'])
        self.assertEqual(self.complete('-q', 'failed', command='rematch-play'), ['failed.query'])
        self.assertEqual(self.complete('--seconds', '', command='rematch-serve'), [])


class Fish(Folder):
    def complete(self, line):
        text = 'source %s/rematch.fish; complete -C %r' % (SHELL, line)
        out = run(['fish', '-N', '-c', text], cwd=EXAMPLES, env=dict(os.environ, HOME=self.folder, XDG_CONFIG_HOME=self.folder)).stdout
        return [found.split('\t')[0] for found in out.splitlines()]

    @needs('fish')
    def test_it(self):
        self.assertEqual(set(self.complete('rematch -f ')), {'spans', 'table', 'json'})
        self.assertLessEqual({option for option in options() if option.startswith('--')}, set(self.complete('rematch --')))
        self.assertLessEqual({option for option in options() if not option.startswith('--')}, set(self.complete('rematch -')))
        self.assertLessEqual({*FORMS, *OTHER_FORMS}, set(self.complete('rematch-to ')))
        self.assertLessEqual({option for option in options_of('rematch-to') if option.startswith('--')}, set(self.complete('rematch-to csv --')))
        self.assertIn('failed.query', self.complete('rematch -q fai'))
        for command in ('rematch-play', 'rematch-serve'):
            self.assertLessEqual({option for option in options_of(command) if option.startswith('--')}, set(self.complete(command + ' --')))


class Zsh(Folder):
    def complete(self, line, words):
        """What a terminal shows after two tabs, up to where it has all of these words."""
        master, slave = pty.openpty()
        environment = dict(os.environ, HOME=self.folder, ZDOTDIR=self.folder, TERM='dumb', PS1='> ')
        shell = subprocess.Popen(['zsh', '-f', '-i'], stdin=slave, stdout=slave, stderr=slave, cwd=EXAMPLES, env=environment, start_new_session=True)
        os.close(slave)
        try:
            os.write(master, ('fpath=(%s $fpath); autoload -U compinit; compinit -u -D; LISTMAX=999; echo rea""dy\n' % SHELL).encode())
            self.read(master, ['ready'])
            os.write(master, (line + '\t\t').encode())
            return self.read(master, words)
        finally:
            shell.kill()
            shell.wait()
            os.close(master)

    def read(self, master, words):
        shown, ends = '', time.monotonic() + 60
        while time.monotonic() < ends and not all(word in shown for word in words):
            ready, _, _ = select.select([master], [], [], 1)
            if ready:
                shown += os.read(master, 65536).decode('utf-8', 'replace')
        return shown

    @needs('zsh')
    def test_it(self):
        self.assertEqual(run(['zsh', '-n', os.path.join(SHELL, '_rematch')]).stdout, '')
        for line, words in (('rematch -f ', ['spans', 'table', 'json']), ('rematch -', options()),
                            *((command + ' -', options_of(command)) for command in ('rematch-play', 'rematch-serve'))):
            shown = self.complete(line, words)
            for word in words:
                self.assertIn(word, shown)


class Launcher(Folder):
    """./rematch: behind words and queries that are refused, a line on a terminal says where there is help."""

    def started(self, *words, is_terminal):
        """The status and standard error of a copy of the script beside a program that is built."""
        out = os.path.join(self.folder, 'crates', 'rematch', 'out')
        os.makedirs(out, exist_ok=True)
        os.makedirs(os.path.join(self.folder, '.git'), exist_ok=True)
        os.makedirs(os.path.join(self.folder, 'clients', 'shell'), exist_ok=True)
        for name in ('rematch', 'clients/shell/command'):
            shutil.copy(os.path.join(ROOT, name), os.path.join(self.folder, name))
        self.file('.git/index')
        self.script('crates/rematch/out/rematch', '#!/bin/sh\nexec %s "$@"\n' % PROGRAM)
        self.file('crates/rematch/out/built_at')
        os.utime(os.path.join(self.folder, '.git', 'index'), (0, 0))
        master, slave = pty.openpty()
        try:
            done = subprocess.Popen([os.path.join(self.folder, 'rematch'), *words], stdin=subprocess.DEVNULL, stdout=subprocess.DEVNULL,
                                    stderr=slave if is_terminal else subprocess.PIPE)
            told = b'' if is_terminal else done.stderr.read()
            status = done.wait(60)
            if done.stderr is not None:
                done.stderr.close()
            while is_terminal and select.select([master], [], [], 0.2)[0]:
                told += os.read(master, 65536)
        finally:
            os.close(slave)
            os.close(master)
        return status, told.decode().replace('\r', '').split('\n')[:-1]

    def test_it(self):
        line = 'rematch: `rematch-to check` with the same words says what to write instead'
        for words, status, note in ((['-e', '/a**/', self.folder], 3, 'query: repeat after repeat at 3'), (['--help'], 2, 'bad command line')):
            self.assertEqual(self.started(*words, is_terminal=True), (status, [note, line]))
            self.assertEqual(self.started(*words, is_terminal=False), (status, [note]), 'in a pipe it is the program alone')
        self.assertEqual(self.started('-e', '/!x{a}/', is_terminal=True), (0, ['end']))
        self.assertEqual(self.started('-e', '/!x{a}/', self.folder, is_terminal=True), (5, ['read failed: document']))


class Install(Folder):
    def install(self, *words):
        program = self.script('program', '#!/bin/sh\nexec %s "$@"\n' % PROGRAM)
        return run([os.path.join(SHELL, 'install.sh'), '--prefix', os.path.join(self.folder, 'a prefix'), '--program', program, *words])

    def test_all_of_it(self):
        done = self.install()
        self.assertEqual(done.returncode, 0, done.stdout)
        prefix = os.path.join(self.folder, 'a prefix')
        told = re.findall(r'^(/.*?): ', done.stdout, re.M)
        there = [os.path.join(folder, name) for folder, _, names in os.walk(prefix) for name in names]
        self.assertEqual(sorted(told), sorted(there))
        self.assertIn('not on the path', done.stdout)
        # The installed commands find the installed program.
        environment = {key: value for key, value in os.environ.items() if key not in ('REMATCH', 'PYTHONPATH')}
        environment['PATH'] = os.path.join(prefix, 'bin') + os.pathsep + os.environ['PATH']
        document, query = self.file('d', b'a\na\n'), self.file('q', b'/!x{a}/')
        for words, out in ((['rematch', '-q', query, document], 'x=0-1\nx=2-3\nend\n'), (['rematch-to', 'count', '-q', query, document], '2 %s\n' % document),
                           (['rematch-cut', document, '1'], '0 2\n2 4\n'), (['rematch-piece', query, document, '2', '4'], 'x=2-3\n')):
            self.assertEqual(run(words, env=environment, cwd='/').stdout, out)
        code = 'import rematch; print(rematch.find_program(), rematch.Query("/!x{a}/").count(b"aa"), rematch.__file__)'
        shown = run([sys.executable, '-c', code], env=dict(environment, PYTHONPATH=os.path.join(prefix, 'bin', 'rematch-to')), cwd='/')
        self.assertEqual(shown.stdout, '{0}/libexec/rematch/rematch 2 {0}/bin/rematch-to/rematch/__init__.py\n'.format(prefix))
        # Once more over itself, and away again.
        self.assertEqual(self.install().returncode, 0)
        gone = self.install('--uninstall')
        self.assertEqual((gone.returncode, sorted(re.findall('^removed (.*)', gone.stdout, re.M))), (0, sorted(there)))
        self.assertEqual([name for _, _, names in os.walk(prefix) for name in names], [])
        self.assertEqual(self.install('--uninstall').stdout, '')

    def test_refusals(self):
        script = os.path.join(SHELL, 'install.sh')
        for words in (['--prefix'], ['--what'], ['--prefix', '']):
            self.assertEqual(run([script, *words]).returncode, 2, words)
        done = run([script, '--prefix', self.folder, '--program', os.path.join(self.folder, 'none')])
        self.assertEqual((done.returncode, 'no built program' in done.stdout, os.listdir(self.folder)), (1, True, []))

    def test_the_page_of_the_manual_is_there(self):
        self.assertTrue(os.path.exists(os.path.join(os.path.dirname(CLIENTS), 'man', 'rematch.1')))


if __name__ == '__main__':
    unittest.main()
