"""What tests of the commands share: a command in this process, with what it writes."""
import io
import os
import sys
from unittest import mock

from rematch.to import convert


class _Input(io.StringIO):
    """Standard input that is bytes, too."""

    def __init__(self, data):
        super().__init__(data.decode('utf-8', 'replace'))
        self.buffer = io.BufferedReader(io.BytesIO(data))


def asked(*words, stdin=b'', is_watched=True):
    """Status, output and notes of rematch-to in this process, with the notes of a terminal."""
    out, told = io.StringIO(newline=''), io.StringIO()
    with mock.patch('sys.stdout', out), mock.patch('sys.stderr', told), mock.patch('sys.stdin', _Input(stdin)), \
            mock.patch('rematch.to.convert.is_watched', lambda: is_watched):
        try:
            status = convert.main(words)
        except SystemExit as ended:
            status = ended.code
    return status, out.getvalue(), told.getvalue()


def without(folder, text):
    """The text without the folder's name."""
    return text.replace(folder + os.sep, '')


def lines(*words, **more):
    """The lines that a command writes which ends well, and its notes."""
    status, out, told = asked(*words, **more)
    if status != 0:
        sys.__stderr__.write(told)
        raise AssertionError('status %r of %r' % (status, words))
    return out.splitlines(), told.splitlines()
