"""Runs the program under limits of the system, and measures what it took."""
import os
import resource
import signal
import time
from typing import NamedTuple, Optional


class Limits(NamedTuple):
    clock: float  # seconds from its beginning, then it is ended
    stack: int  # bytes
    memory: int  # bytes of address space, as by `ulimit -v`
    processor: Optional[int] = None  # seconds, as by `ulimit -t`
    tick: float = 0.002  # seconds between two looks at its memory


class Ended(NamedTuple):
    status: int  # or the signal that ended it, negative
    out: bytes
    note: bytes
    seconds: float  # of processor time
    held: float  # mebibytes of memory at most, looked at each tick; 0 where it ended before
    resident: int  # bytes of memory at most, as the system counts them; at least those of this Python
    is_late: bool  # the clock ended it


def lay_out(folder, query, document):
    for name, data in (('Q', query), ('D', document)):
        with open(os.path.join(folder, name), 'wb') as file:
            file.write(data)


def run(program, words, folder, limits):
    """The program with these words in a folder that has a query Q and a document D; with --serve Q has the requests."""
    process = os.fork()
    if not process:
        become(program, words, folder, limits)
    until = time.monotonic() + limits.clock
    held, ended, is_late = 0, 0, False
    while not ended:
        time.sleep(limits.tick)
        held = max(held, held_most(process, program))
        ended, state, used = os.wait4(process, os.WNOHANG)
        if not ended and time.monotonic() > until:
            is_late = True
            os.kill(process, signal.SIGKILL)
    status = os.WEXITSTATUS(state) if os.WIFEXITED(state) else -os.WTERMSIG(state)
    texts = []
    for name in ('out', 'notes'):
        with open(os.path.join(folder, name), 'rb') as file:
            texts.append(file.read())
    return Ended(status, *texts, used.ru_utime + used.ru_stime, held, used.ru_maxrss << 10, is_late)


def become(program, words, folder, limits):
    """Be the program, in this child."""
    try:
        os.chdir(folder)
        for number, name, flags in ((0, 'Q' if '--serve' in words else '/dev/null', os.O_RDONLY),
                                    (1, 'out', os.O_WRONLY | os.O_CREAT | os.O_TRUNC),
                                    (2, 'notes', os.O_WRONLY | os.O_CREAT | os.O_TRUNC)):
            os.dup2(os.open(name, flags, 0o600), number)
        resource.setrlimit(resource.RLIMIT_AS, (limits.memory, limits.memory))
        resource.setrlimit(resource.RLIMIT_STACK, (limits.stack, limits.stack))
        if limits.processor is not None:
            resource.setrlimit(resource.RLIMIT_CPU, (limits.processor, limits.processor + 1))
        os.execv(program, [program] + words)
    finally:
        os._exit(127)


def held_most(process, program):
    """The most that the program has held so far, in mebibytes; 0 before it has begun and once it has ended."""
    try:
        if os.readlink('/proc/%d/exe' % process) != program:
            return 0
        with open('/proc/%d/status' % process) as told:
            return max((int(line.split()[1]) for line in told if line.startswith('VmHWM')), default=0) / 1024
    except OSError:
        return 0
