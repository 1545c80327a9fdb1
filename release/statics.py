"""The released static program: the program's own object file, which `rt` has built, linked with a C library into one file.

`rematch-x86_64-linux-static.gz` is that program, and `STATIC` says of what it was linked. It needs Linux on x86-64 and nothing of
the system's: it runs where glibc is older than the other program needs, or where there is none. The linker puts glibc's own code
into it in the place of the system's, and the code of the toolchain between the two, and nothing else. It has the same bytes by the
same compiler, binutils and glibc, and is compared where those are here.
"""
import os
import shutil
import subprocess
import tempfile

import released
from released import HERE, Refused, Text, first_line, read, sum_of

OBJECT = released.BUILT + '.o'
PACKED = os.path.join(HERE, 'rematch-x86_64-linux-static.gz')
STATIC = Text('STATIC', 'What rematch-x86_64-linux-static.gz was linked of: the object file of the program that SOURCES names.',
              ['beside', 'object', 'program', 'packed', 'linker'])
BETWEEN = ['libos_c.a', 'liblibc_c.a']  # the toolchain's own, between a program and the C library
FLAGS = ['-static-pie', '-Wl,--gc-sections', '-Wl,-z,now', '-Wl,-z,relro', '-Wl,-z,noexecstack', '-Wl,--build-id=none', '-Wl,-s']


def is_here():
    """Whether a static program is released, or could be linked of what was built here."""
    return os.path.isfile(PACKED) or os.path.isfile(STATIC.path) or (is_built() and not missing())


def is_built():
    """Whether the object file of a program was left here, and no source is newer."""
    return os.path.isfile(OBJECT) and not list(released.newer_sources(OBJECT))


def compiler():
    return os.environ.get('CC', 'cc').split()


def between():
    """The paths of the toolchain's libraries; None where there is no toolchain."""
    rt = shutil.which('rt')
    folder = os.path.join(os.path.dirname(os.path.dirname(os.path.realpath(rt))), 'c') if rt else None
    paths = [os.path.join(folder, name) for name in BETWEEN] if folder else []
    return paths if paths and all(map(os.path.isfile, paths)) else None


def libc():
    """The path of the static C library that the compiler takes."""
    path = first_line(*compiler(), '-print-file-name=libc.a')
    return path if os.path.isabs(path) and os.path.isfile(path) else None


def linker():
    """What links here: the compiler, the linker, and a sum of each library that is linked."""
    sums = [sum_of(read(path))[:16] for path in [libc(), *(between() or [])] if path]
    return '; '.join([first_line(*compiler(), '--version'), first_line('ld', '--version'), 'libraries ' + ' '.join(sums)])


def missing():
    """What is wanting here to link a static program."""
    tools = [tool for tool in (compiler()[0], 'ld') if not shutil.which(tool)]
    return tools or ['libc.a'] * (libc() is None) + ['the libraries of the toolchain'] * (between() is None)


def linked():
    """The bytes of the static program, linked of the object file that is here."""
    with tempfile.TemporaryDirectory() as folder:
        path = os.path.join(folder, 'rematch')
        words = [*compiler(), *FLAGS, '-o', path, OBJECT, *between()]
        done = subprocess.run(words, stdout=subprocess.PIPE, stderr=subprocess.STDOUT, universal_newlines=True)
        if done.returncode:
            raise Refused('the static program is not linked: %s' % done.stdout.strip())
        return read(path)


def update(beside):
    """Writes both files, or takes them away where nothing can be linked here; the text that says so."""
    lacks = ['an object file %s that is not older than the sources' % OBJECT] * (not is_built()) or missing()
    if lacks:
        for path in (PACKED, STATIC.path):
            if os.path.exists(path):
                os.remove(path)
        return 'static: none is released, without %s' % ', '.join(lacks)
    program = linked()
    data = released.packed(program)
    released.write(PACKED, data)
    STATIC.write({'beside': beside, 'object': sum_of(read(OBJECT)), 'program': sum_of(program), 'packed': sum_of(data),
                  'linker': linker()})
    return 'static: %d bytes, %d packed, sha256 %s' % (len(program), len(data), sum_of(program))


def program_here():
    """The bytes of the released static program, checked by their sum."""
    return released.unpacked_bytes(PACKED, STATIC.named()['program'], 'STATIC')


def faults(beside):
    """What is wrong with the released static program, beside what was built here, in lines."""
    if not os.path.isfile(STATIC.path):
        yield 'no static program is released, and it can be linked here: release/update does'
        return
    values, program = STATIC.named(), program_here()
    yield from STATIC.faults(values, read(PACKED))
    if values['beside'] != beside:
        yield 'STATIC names the program %s, and SOURCES names %s' % (values['beside'], beside)
    if not is_built():
        print('release/verify: the static program is not compared, since no object file was left here of these sources')
    elif sum_of(read(OBJECT)) != values['object']:
        yield 'the static program was linked of another object file than the one that was built here'
    elif missing() or linker() != values['linker']:
        print('release/verify: the static program is not linked anew, since it was linked by other tools (%s) than here (%s); the '
              'object file that it was linked of is compared' % (values['linker'], linker()))
    elif linked() != program:
        yield 'the released static program and the one that is linked here differ'
