"""What the tests of the release share: a small repository with a program in the place of rt, and the report of what failed."""
import gzip
import hashlib
import multiprocessing
import os
import shutil
import subprocess
import sys
import tempfile
import time

HERE = os.path.dirname(os.path.abspath(__file__))
ROOT = os.path.dirname(os.path.dirname(HERE))
CRATES = 'low: arrayvec\nbeside: low\nleft: low\nright: low\nmiddle: left right\nrematch: middle\n'
IDENTITY = 'kit-1 logic 0123456789abcdef'
TOOLS = ['sh', 'gzip', 'sha256sum', 'cksum', 'uname', 'find', 'sort', 'xargs', 'mktemp', 'rm', 'mv', 'cp', 'chmod', 'mkdir',
         'readlink', 'tr', 'getconf', 'cat', 'sleep']  # what the script uses where nothing is built

# It proves nothing: it writes what it is asked into the file $ASKED, and makes the files that a build leaves.
RT = r'''#!/bin/sh
name=${PWD##*/}
[ "$1" = version ] || echo "rt $* in $name" >>"$ASKED"
case $1 in
version) echo "kit-1 logic 0123456789abcdef" ;;
ci) echo "all proved" ;;
lib)
    for below in $(sed -n "s/^$name: //p" ../../crates.txt); do
        [ "$below" = arrayvec ] || [ -e "../$below/out/rlib/stamp" ] || { echo "$below is not built"; exit 1; }
    done
    echo "begin $name $$" >>"$ASKED"
    echo "checking $name"
    [ "$name" != "${FAIL-}" ] || { echo "not proved: $name"; exit 1; }
    sleep "${TAKES:-0}"
    mkdir -p out/rlib out/incremental
    echo built >out/rlib/stamp
    echo kept >out/incremental/work
    echo "end $name $$" >>"$ASKED" ;;
run)
    [ "$name" != "${FAIL-}" ] || { echo "not proved: $name"; exit 1; }
    [ -e ../middle/out/rlib/stamp ] || { echo "middle is not built"; exit 1; }
    mkdir -p out/incremental
    printf '#!/bin/sh\n[ "$1$2" != "-e/!it{is built}/" ] || exit 0\nprintf "built:"; printf "%%s|" "$@"; echo\n' >out/rematch
    chmod +x out/rematch ;;
esac
'''
# What is released in the place of the program.
PROGRAM = '''#!/bin/sh
[ "$1$2" != "-e/!it{is here}/" ] || exit 0
printf "released:"; printf "%s|" "$@"; echo
'''


class Wrong(Exception):
    """Something is not as it has to be."""


def want(got, wanted):
    if got != wanted:
        raise Wrong('wanted %r, got %r' % (wanted, got))


def need(tool):
    if not shutil.which(tool):
        raise Missing(tool)


class Missing(Exception):
    """A tool that a check needs is not installed."""


class Tree:
    """A repository of some crates with the scripts, in a new folder, and folders of programs to stand on the path."""

    def __init__(self, folder):
        self.folder = folder
        self.home = self.made('home')
        self.temporary = self.made('temporary')
        self.path = os.path.join(folder, 'a tree')
        self.asked = os.path.join(folder, 'asked')
        for name in ('low', 'beside', 'left', 'right', 'middle', 'rematch'):
            self.put('crates/%s/src/lib.rt' % name, 'code of %s\n' % name)
        self.put('crates.txt', CRATES)
        self.put('.gitignore', 'out/\n*.log\n__pycache__/\n')
        self.copy('rematch', 'clients/shell/command', 'release/build', 'release/update', 'release/verify', 'release/released.py',
                  'release/libraries.py', 'release/statics.py')
        self.rt = self.made('with rt')
        self.script(os.path.join(self.rt, 'rt'), RT)
        self.tools = self.made('tools')
        for tool in TOOLS:
            if shutil.which(tool):
                os.symlink(shutil.which(tool), os.path.join(self.tools, tool))
        self.git('init', '-q')
        self.commit()

    def made(self, name):
        path = os.path.join(self.folder, name)
        os.mkdir(path)
        return path

    def at(self, name):
        return os.path.join(self.path, name)

    def put(self, name, data):
        os.makedirs(os.path.dirname(self.at(name)), exist_ok=True)
        with open(self.at(name), 'wb') as file:
            file.write(data if isinstance(data, bytes) else data.encode())

    def read(self, name):
        with open(self.at(name), 'rb') as file:
            return file.read()

    def copy(self, *names):
        for name in names:
            os.makedirs(os.path.dirname(self.at(name)), exist_ok=True)
            shutil.copy(os.path.join(ROOT, name), self.at(name))

    @staticmethod
    def script(path, text):
        with open(path, 'w') as file:
            file.write(text)
        os.chmod(path, 0o755)

    def git(self, *words):
        subprocess.run(['git', '-c', 'user.name=a', '-c', 'user.email=a@example.org', *words], cwd=self.path, check=True,
                       stdout=subprocess.DEVNULL, stderr=subprocess.DEVNULL)

    def commit(self):
        self.git('add', '-A')
        self.git('commit', '-qm', 'all', '--allow-empty')

    def environment(self, path, **more):
        kept = {key: value for key, value in os.environ.items()
                if not key.startswith(('REMATCH', 'XDG_', 'GIT_', 'PYTHON'))}
        return {**kept, 'HOME': self.home, 'TMPDIR': self.temporary, 'PATH': path, 'ASKED': self.asked, **more}

    def with_rt(self):
        return self.rt + os.pathsep + os.environ['PATH']

    def run(self, *words, script=None, path=None, cwd=None, before=None, **more):
        """The status, the output, the lines on standard error of the script; it has only the tools, or this path."""
        given = [script or self.at('rematch'), *words]
        done = subprocess.run(given, cwd=cwd or self.folder, env=self.environment(path or self.tools, **more), timeout=300,
                              stdin=subprocess.DEVNULL, stdout=subprocess.PIPE, stderr=subprocess.PIPE, preexec_fn=before)
        return done.returncode, done.stdout.decode(), done.stderr.decode().splitlines()

    def call(self, name, *words, **more):
        """The status and all that a Python script of the release writes, in lines."""
        environment = self.environment(more.pop('path', self.with_rt()), **more)
        done = subprocess.run([sys.executable, self.at(name), *words], env=environment, stdin=subprocess.DEVNULL,
                              stdout=subprocess.PIPE, stderr=subprocess.STDOUT, timeout=300)
        return done.returncode, done.stdout.decode().splitlines()

    def asked_lines(self):
        """What was asked of rt since this was called last."""
        if not os.path.exists(self.asked):
            return []
        with open(self.asked) as file:
            lines = file.read().splitlines()
        os.remove(self.asked)
        return lines

    def release(self, text=PROGRAM):
        """A release of this program, committed."""
        program = os.path.join(self.folder, 'program')
        self.script(program, text)
        want(self.call('release/update', '--program', program)[0], 0)
        self.commit()

    def release_static(self, text):
        """A script in the place of the released static program, committed."""
        data = gzip.compress(text.encode(), mtime=0)
        self.put('release/rematch-x86_64-linux-static.gz', data)
        sums = hashlib.sha256(text.encode()).hexdigest(), hashlib.sha256(data).hexdigest()
        self.put('release/STATIC', '# A text.\nbeside none\nobject none\nprogram %s\npacked %s\nlinker none\n' % sums)
        self.commit()


def on_a_terminal(words, **more):
    """The status of a command, and what it writes to a terminal as its standard error."""
    ours, theirs = os.openpty()
    done = subprocess.run(words, stdin=subprocess.DEVNULL, stdout=subprocess.DEVNULL, stderr=theirs, timeout=300, **more)
    os.write(theirs, b'.')
    read = ''
    while not read.endswith('.'):
        read += os.read(ours, 4096).decode()
    os.close(ours)
    os.close(theirs)
    return done.returncode, read[:-1]


def later():
    """So that what is changed from here on is newer than what was made so far."""
    time.sleep(1.1)


def told_of(check):
    """Whether a check passed, in a new folder, and what there is to say of it; None where it was left out."""
    with tempfile.TemporaryDirectory() as folder:
        try:
            check(os.path.realpath(folder))
            return True, ''
        except Missing as missing:
            return None, 'skipped: %s, without %s' % (check.__name__, missing)
        except Exception as fault:  # whatever a check meets is its failure
            return False, 'FAIL %s: %s: %s' % (check.__name__, type(fault).__name__, fault)


def given_program():
    """The program that `--program PATH` of the command line names, else the one built here, else the released one, else None."""
    words = sys.argv[1:]
    if '--program' in words[:-1]:
        return os.path.abspath(words[words.index('--program') + 1])
    places = [os.path.join(ROOT, 'crates', 'rematch', 'out', 'rematch'), os.path.join(ROOT, 'release', 'out', 'rematch')]
    return next((path for path in places if os.access(path, os.X_OK)), None)


def run_checks(checks):
    """Runs the checks that the command line names, or all, some side by side, prints the count, and returns the exit status."""
    asked = [check for check in checks if check.__name__ in sys.argv[1:]] or checks
    passed = failed = 0
    with multiprocessing.get_context('fork').Pool(os.cpu_count()) as pool:
        for is_passed, text in pool.imap(told_of, asked):
            passed += is_passed is True
            failed += is_passed is False
            if text:
                print(text)
    print('%d passed, %d failed' % (passed, failed))
    return 1 if failed else 0
