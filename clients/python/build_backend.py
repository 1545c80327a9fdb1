"""Builds the wheel of the package, with nothing but Python: with the program inside where there is one, else pure.

So `pip install clients/python` works without a network. The program is the one that the variable REMATCH names, which may be `none`;
else the one built in this checkout, where it is newer than the release; else the released one. Where glibc is older than that needs, or
there is none, it is the released static one. Where neither runs, nothing is built, and the error says so. The wheel has it as
`rematch/bin/rematch`, which the package looks for first, and which the command `rematch` starts. The library for C is inside too, as
`rematch/bin/librematch.so.1`, which queries are answered by: the one that REMATCH_LIBRARY names, which may be `none`, else the released
one, where it runs here. An editable install has the folder's path, and runs the checkout's program.
"""
import base64
import gzip
import hashlib
import os
import re
import shlex
import sys
import tarfile
import zipfile
import zlib

HERE = os.path.dirname(os.path.abspath(__file__))
ROOT = os.path.dirname(os.path.dirname(HERE))
NAME = 'rematch_client'
SCRIPTS = {'rematch-to': 'rematch.to.convert:main', 'rematch-cut': 'rematch.to.piece:cut_main',
           'rematch-piece': 'rematch.to.piece:piece_main', 'rematch-play': 'rematch.to.play:main', 'rematch-serve': 'rematch.to.relay:main'}
GLIBC = (2, 34)  # the oldest C library that the program runs on
GLIBC_OF_LIBRARY = (2, 14)


def _read(*names):
    with open(os.path.join(*names), 'rb') as file:
        return file.read()


def _version():
    return re.search("^VERSION = '(.+?)'", _read(HERE, 'rematch', 'version.py').decode(), re.M)[1]


def _glibc():
    """The version of glibc here; (0, 0) where the system's C library is another."""
    try:
        name, version = os.confstr('CS_GNU_LIBC_VERSION').split()
        return tuple(map(int, version.split('.')[:2])) if name == 'glibc' else (0, 0)
    except (AttributeError, OSError, ValueError):
        return (0, 0)


def _is_machine():
    return sys.platform == 'linux' and os.uname().machine == 'x86_64'


def _program():
    """The bytes of the program, or None."""
    built, sources = os.path.join(ROOT, 'crates', 'rematch', 'out', 'rematch'), os.path.join(ROOT, 'release', 'SOURCES')
    named = os.environ.get('REMATCH')
    if named:
        return None if named == 'none' else _read(named)
    if os.path.isfile(built) and not (os.path.isfile(sources) and os.stat(sources).st_mtime > os.stat(built).st_mtime):
        return _read(built)
    if not os.path.isfile(sources):
        return None
    has_static = os.path.isfile(os.path.join(ROOT, 'release', 'STATIC'))
    if _is_machine() and _glibc() >= GLIBC:
        return _released('SOURCES', 'rematch-x86_64-linux.gz')
    if _is_machine() and has_static:
        return _released('STATIC', 'rematch-x86_64-linux-static.gz')
    machine = os.uname().machine if hasattr(os, 'uname') else 'another processor'
    libc = 'glibc %d.%d' % _glibc() if _glibc() > (0, 0) else 'another C library'
    here = '%s on %s with %s' % (sys.platform, machine, libc)
    raise RuntimeError('the released program needs Linux on x86_64%s, and here is %s; REMATCH=PATH takes another program, and REMATCH=none '
                       'makes a package without one' % ('' if has_static else ' with glibc %d.%d or later' % GLIBC, here))


def _released(text, packed):
    """The bytes of a released program, as a text of the release names it."""
    named = re.search('^program (.+)$', _read(ROOT, 'release', text).decode(), re.M)
    try:
        program = gzip.decompress(_read(ROOT, 'release', packed))
    except (OSError, EOFError, zlib.error):
        program = b''
    if not named or hashlib.sha256(program).hexdigest() != named[1]:
        raise RuntimeError('the release is damaged: release/%s is not the program that %s names' % (packed, text))
    return program


def _library():
    """The bytes of the library for C, or None."""
    named = os.environ.get('REMATCH_LIBRARY')
    if named:
        return None if named == 'none' else _read(named)
    packed, sums = (os.path.join(ROOT, 'release', name) for name in ('librematch-x86_64-linux.tar.xz', 'LIBRARY'))
    if not os.path.isfile(packed) or not os.path.isfile(sums) or not _is_machine() or _glibc() < GLIBC_OF_LIBRARY:
        return None
    wanted = re.search('^librematch.so.1 (.+)$', _read(sums).decode(), re.M)
    try:
        with tarfile.open(packed) as tar:
            library = tar.extractfile('librematch.so.1').read()
    except tarfile.ReadError:
        try:
            import lzma  # noqa: F401
        except ImportError:
            print('the wheel has no library, since this Python has no lzma: queries run the program', file=sys.stderr)
            return None
        library = b''
    if not wanted or hashlib.sha256(library).hexdigest() != wanted[1]:
        raise RuntimeError('the release is damaged: librematch.so.1 is not the library that LIBRARY names')
    return library


def _tag(program):
    if program is None:
        return 'py3-none-any'
    machine = os.uname().machine
    libc = 'manylinux_%d_%d' % GLIBC if machine == 'x86_64' and _glibc() >= GLIBC else 'linux'
    return 'py3-none-%s_%s' % (libc, machine)


def _entries(program, library, base):
    for folder in ('rematch', 'rematch/to'):
        for name in sorted(os.listdir(os.path.join(HERE, folder))):
            if name.endswith('.py') or name == 'py.typed':
                yield folder + '/' + name, _read(HERE, folder, name), 0o644
    if program is not None:
        yield 'rematch/bin/rematch', program, 0o755
        yield base + '.data/scripts/rematch', _read(ROOT, 'clients', 'shell', 'command'), 0o755
    if library is not None:
        yield 'rematch/bin/librematch.so.1', library, 0o755
    yield from _metadata(_tag(program), base)


def _metadata(tag, base):
    lines = ['Metadata-Version: 2.1', 'Name: ' + NAME.replace('_', '-'), 'Version: ' + _version(), 'Requires-Python: >=3.8',
             'Summary: Every match of a query in a document: a client of the program rematch']
    yield base + '.dist-info/METADATA', '\n'.join([*lines, '']).encode(), 0o644
    pure = 'true' if tag.endswith('any') else 'false'
    lines = ['Wheel-Version: 1.0', 'Generator: rematch', 'Root-Is-Purelib: ' + pure, 'Tag: ' + tag]
    yield base + '.dist-info/WHEEL', '\n'.join([*lines, '']).encode(), 0o644
    lines = ['[console_scripts]', *('%s = %s' % pair for pair in SCRIPTS.items())]
    yield base + '.dist-info/entry_points.txt', '\n'.join([*lines, '']).encode(), 0o644


def build_wheel(folder, config_settings=None, metadata_directory=None):
    program, base = _program(), _base()
    library = None if program is None else _library()
    return _write(folder, '%s-%s.whl' % (base, _tag(program)), _entries(program, library, base))


def _base():
    return '%s-%s' % (NAME, _version())


def _write(folder, name, entries):
    """Writes a wheel of these entries; its name."""
    record, base = [], _base()
    with zipfile.ZipFile(os.path.join(folder, name), 'w', zipfile.ZIP_DEFLATED) as out:
        def put(path, data, mode):
            entry = zipfile.ZipInfo(path, (2026, 1, 1, 0, 0, 0))  # the same bytes whenever it is built
            entry.external_attr = (0o100000 | mode) << 16
            entry.compress_type = zipfile.ZIP_DEFLATED
            out.writestr(entry, data)
        for path, data, mode in entries:
            put(path, data, mode)
            digest = base64.urlsafe_b64encode(hashlib.sha256(data).digest()).rstrip(b'=').decode()
            record.append('%s,sha256=%s,%d' % (path, digest, len(data)))
        put(base + '.dist-info/RECORD', '\n'.join([*record, base + '.dist-info/RECORD,,', '']).encode(), 0o644)
    return name


def build_editable(folder, config_settings=None, metadata_directory=None):
    """A wheel that has the path of this folder and the commands; what is edited here is seen at once."""
    base, tag = _base(), 'py3-none-any'
    path = (NAME + '.pth', (HERE + '\n').encode(), 0o644)
    command = '#!/bin/sh\nexec %s "$@"\n' % shlex.quote(os.path.join(ROOT, 'rematch'))
    script = (base + '.data/scripts/rematch', command.encode(), 0o755)
    return _write(folder, '%s-%s.whl' % (base, tag), [path, script, *_metadata(tag, base)])


def build_sdist(folder, config_settings=None):
    raise NotImplementedError('the checkout is the source')


if __name__ == '__main__':
    print(build_wheel(sys.argv[1] if len(sys.argv) > 1 else '.'))
