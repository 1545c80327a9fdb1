"""What the scripts of this folder share: the released program, and the text SOURCES that says what it was built from."""
import gzip
import hashlib
import os
import re
import subprocess

HERE = os.path.dirname(os.path.abspath(__file__))
ROOT = os.path.dirname(HERE)
PACKED = os.path.join(HERE, 'rematch-x86_64-linux.gz')
BUILT = os.path.join(ROOT, 'crates', 'rematch', 'out', 'rematch')
CRATES = ['crates', 'crates.txt']  # what the proofs are about
GLIBC = (2, 34)  # the oldest C library that the program runs on


class Refused(Exception):
    """The release, or a program for it, is not what it has to be; the text says why."""


def sum_of(data):
    return hashlib.sha256(data).hexdigest()


def read(path):
    with open(path, 'rb') as file:
        return file.read()


def git(*words):
    done = subprocess.run(['git', '-C', ROOT, *words], stdout=subprocess.PIPE, stderr=subprocess.PIPE, universal_newlines=True)
    if done.returncode:
        raise Refused('git %s: %s' % (words[0], done.stderr.strip()))
    return done.stdout


def write(path, data):
    with open(path + '.new', 'wb') as file:
        file.write(data)
    os.replace(path + '.new', path)


class Text:
    """A text of this folder: what a released file is, and a line for each key."""

    def __init__(self, name, says, keys):
        self.name, self.keys = name, keys
        self.path = os.path.join(HERE, name)
        self.head = '# %s release/update writes this, and release/verify checks it.\n' % says

    def named(self):
        """The values of the lines, by their keys."""
        try:
            lines = read(self.path).decode().splitlines()
        except (OSError, UnicodeDecodeError):
            raise Refused('there is no text release/%s; release/update writes it' % self.name)
        found = dict(line.partition(' ')[::2] for line in lines if line and not line.startswith('#'))
        if sorted(found) != sorted(self.keys):
            raise Refused('release/%s has not the lines %s' % (self.name, ', '.join(self.keys)))
        return found

    def write(self, values):
        write(self.path, self.text_of(values))

    def text_of(self, values):
        return (self.head + ''.join('%s %s\n' % (key, values[key]) for key in self.keys)).encode()

    def faults(self, values, data=None):
        """What is wrong with the text, and with the packed file beside it, in lines."""
        if data is not None and sum_of(data) != values['packed']:
            yield 'the packed file has not the sum that %s names' % self.name
        if read(self.path) != self.text_of(values):
            yield '%s is not as release/update writes it' % self.name


SOURCES = Text('SOURCES', 'What rematch-x86_64-linux.gz was built from.',
               ['crates', 'crates.txt', 'files', 'toolchain', 'program', 'packed'])


def packed(program):
    """The same bytes wherever it is packed by the same zlib: no name and no time."""
    return gzip.compress(program, 9, mtime=0)


def program_here(values):
    """The bytes of the released program, checked by their sum."""
    return unpacked_bytes(PACKED, values['program'], 'SOURCES')


def unpacked_bytes(path, wanted, text):
    """What is packed in a file of this folder, checked by the sum that a text names."""
    name = os.path.basename(path)
    try:
        program = gzip.decompress(read(path))
    except (OSError, EOFError, ValueError, gzip.zlib.error):
        raise Refused('release/%s is damaged' % name)
    if sum_of(program) != wanted:
        raise Refused('release/%s is not the program that release/%s names' % (name, text))
    return program


def unpacked(folder):
    """The path of the released program, unpacked into this folder."""
    path = os.path.join(folder, 'rematch')
    program = program_here(SOURCES.named())
    with open(path, 'wb') as file:
        file.write(program)
    os.chmod(path, 0o755)
    return path


# --- The sources ---------------------------------------------------------------------------------

def changed(names=CRATES):
    """The files below these names that git has not, or has in another form, as it prints them."""
    return git('status', '--porcelain', '--untracked-files=all', '--', *names).splitlines()


def ids_of(names):
    """Git's ids of these names, as they were committed last."""
    return dict(zip(names, git('rev-parse', *('HEAD:' + name for name in names)).split()))


def newer_sources(built):
    """The sources of the crates that are newer than what was built of them."""
    time = os.stat(built).st_mtime
    for name in git('ls-files', '-z', '--', *CRATES).split('\0'):
        is_source = name.endswith(('.rt', '.antt')) and '/must-fail/' not in name or name == 'crates.txt'
        if is_source and os.stat(os.path.join(ROOT, name)).st_mtime > time:
            yield name


def check_newer(built):
    """Refuses what is older than its sources."""
    for name in newer_sources(built):
        raise Refused('%s is newer than %s; touch that file if it was built from these sources' % (name, built))


def sum_of_files():
    """The sum that the script `rematch` makes of all files of the crates without git: of a line `SUM  NAME` for each."""
    names = sorted(git('ls-files', '-z', '--', *CRATES).encode().split(b'\0')[:-1])
    root = ROOT.encode()
    lines = b''.join(b'%s  %s\n' % (sum_of(read(os.path.join(root, name))).encode(), name) for name in names)
    return sum_of(lines)


def of_head():
    """What SOURCES has to say of the sources that were committed last."""
    return {**ids_of(CRATES), 'files': sum_of_files()}


def first_line(*words):
    """The first line that a tool says of itself; `none` where it is not installed."""
    try:
        done = subprocess.run(words, stdout=subprocess.PIPE, stderr=subprocess.DEVNULL, universal_newlines=True)
    except OSError:
        return 'none'
    return done.stdout.split('\n')[0].strip()


def toolchain():
    """The identity of the toolchain; None where there is none on the path."""
    said = first_line('rt', 'version')
    return None if said in ('', 'none') else said


def glibc_of(program):
    """The newest version of the C library that the program names; (0, 0) where it names none."""
    versions = re.findall(rb'\0GLIBC_(\d+)\.(\d+)(?=[.\0])', program)
    return max(((int(a), int(b)) for a, b in versions), default=(0, 0))
