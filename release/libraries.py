"""The released library for C: what the toolchain has built of the crate rematch_c, and what a compiler has linked of it.

`librematch-x86_64-linux.tar.xz` has these files, and `LIBRARY` their sums, the compiler and git's ids of all that they are made of:

- `librematch_c.a`, as `rt lib` makes it: the same bytes wherever it is built, and compared byte for byte;
- `librematch.so.1` and `librematch.a`, as `library/build` links them with `library/rematch.c`: the same bytes by the same compiler
  and binutils, and compared where those are here;
- `rematch.h`, which is `library/rematch.h`.
"""
import importlib.machinery
import importlib.util
import io
import lzma
import os
import sys
import tarfile
import tempfile

import released
from released import HERE, ROOT, Refused, Text, first_line, read, sum_of

sys.dont_write_bytecode = True
CRATE = os.path.join(ROOT, 'crates', 'rematch_c')
ARCHIVE = os.path.join(CRATE, 'out', 'librematch_c.a')
PACKED = os.path.join(HERE, 'librematch-x86_64-linux.tar.xz')
LINKED = ['librematch.so.1', 'librematch.a']
FILES = ['librematch_c.a', *LINKED, 'rematch.h']
OUTSIDE = ['library/build', 'library/rematch.c', 'library/rematch.h', 'library/rematch.map', 'VERSION']  # what no proof is about
MADE_OF = [*released.CRATES, *OUTSIDE]
LIBRARY = Text('LIBRARY', 'What librematch-x86_64-linux.tar.xz has, and git\'s ids of what it was made of.',
               [*MADE_OF, *FILES, 'packed', 'compiler'])


def is_here():
    """Whether the library's crate is in this tree."""
    return os.path.isdir(CRATE)


def builder():
    loader = importlib.machinery.SourceFileLoader('library_build', os.path.join(ROOT, 'library', 'build'))
    module = importlib.util.module_from_spec(importlib.util.spec_from_loader('library_build', loader))
    loader.exec_module(module)
    return module


def compiler():
    """The compiler and the linker of this machine, by what they say of themselves."""
    return '%s; %s' % (first_line(*builder().compiler(), '--version'), first_line('ld', '--version'))


def linked(archive):
    """The files that are linked here of the bytes of an archive, by their names."""
    build = builder()
    with tempfile.TemporaryDirectory() as folder:
        path = os.path.join(folder, 'librematch_c.a')
        released.write(path, archive)
        try:
            build.build(path, folder)
        except build.Refused as fault:
            raise Refused('library/build: %s' % fault)
        return {name: read(os.path.join(folder, name)) for name in FILES}


def packed(files):
    """The same bytes wherever it is packed by the same liblzma: no owner and no time."""
    out = io.BytesIO()
    with tarfile.open(fileobj=out, mode='w', format=tarfile.USTAR_FORMAT) as tar:
        for name in FILES:
            entry = tarfile.TarInfo(name)
            entry.size, entry.mode = len(files[name]), 0o644
            tar.addfile(entry, io.BytesIO(files[name]))
    return lzma.compress(out.getvalue(), preset=9 | lzma.PRESET_EXTREME)


def files_here():
    """The released files by their names, checked by their sums."""
    values = LIBRARY.named()
    data = read(PACKED)
    if sum_of(data) != values['packed']:
        raise Refused('the packed library has not the sum that LIBRARY names')
    with tarfile.open(fileobj=io.BytesIO(data), mode='r:xz') as tar:
        files = {entry.name: tar.extractfile(entry).read() for entry in tar}
    for name in FILES:
        if sum_of(files.get(name, b'')) != values[name]:
            raise Refused('the released %s is not the one that LIBRARY names' % name)
    return files


def is_built():
    """Whether an archive was built here, and no source is newer."""
    return os.path.isfile(ARCHIVE) and not list(released.newer_sources(ARCHIVE))


def checked_archive():
    """The archive of the crates that are here: the one that was built of them, else the released one of the same crates."""
    for line in released.changed(MADE_OF):
        raise Refused('not committed: %s' % line.strip())
    if is_built():
        return read(ARCHIVE)
    if os.path.isfile(PACKED):
        values, ids = LIBRARY.named(), released.ids_of(released.CRATES)
        if all(values[name] == ids[name] for name in ids):
            return files_here()['librematch_c.a']
    if os.path.isfile(ARCHIVE):
        released.check_newer(ARCHIVE)
    raise Refused('there is no built archive %s; release/build --library makes it' % ARCHIVE)


def update(archive):
    """Writes both files of what is linked here of an archive; the text that says what was written."""
    files = linked(archive)
    data = packed(files)
    values = {**released.ids_of(MADE_OF), **{name: sum_of(files[name]) for name in FILES}}
    released.write(PACKED, data)
    LIBRARY.write({**values, 'packed': sum_of(data), 'compiler': compiler()})
    return 'library: %d bytes packed, sha256 %s of librematch.so.1' % (len(data), values['librematch.so.1'])


def faults():
    """What is wrong with the released library, beside what is built here, in lines."""
    files, values = files_here(), LIBRARY.named()
    yield from LIBRARY.faults(values)
    for line in released.changed(OUTSIDE):
        yield 'not committed: %s' % line.strip()
    for name, here in released.ids_of(MADE_OF).items():
        if values[name] != here:
            yield 'LIBRARY names %s %s, and here is %s' % (name, values[name], here)
    if not is_built():
        print('release/verify: librematch_c.a is not compared, since none was built here of these sources; release/verify without '
              '--built builds it')
    elif files['librematch_c.a'] != read(ARCHIVE):
        yield 'the released librematch_c.a and the built one differ'
    yield from linked_faults(files, values)


def linked_faults(files, values):
    """In what the released libraries are not those that are linked here of the released archive."""
    here = compiler()
    if builder().missing() or here != values['compiler']:
        print('release/verify: librematch.so.1 and librematch.a are not compared, since they were linked by other tools (%s) than '
              'here (%s); what they have of the crates is librematch_c.a' % (values['compiler'], here))
        return
    others = linked(files['librematch_c.a'])
    for name in [*LINKED, 'rematch.h']:
        if files[name] != others[name]:
            yield 'the released %s and the one that is made here differ' % name
