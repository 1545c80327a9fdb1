"""What the tests share: where things stand, what is skipped, programs that are no rematch, and files for a while."""
import os
import shutil
import stat
import sys
import tempfile
import unittest

HERE = os.path.dirname(os.path.abspath(__file__))
PYTHON = os.path.dirname(HERE)
CLIENTS = os.path.dirname(PYTHON)
ROOT = os.path.dirname(CLIENTS)
EXAMPLES = os.path.join(ROOT, 'examples')
DOCS = os.path.join(ROOT, 'docs')
sys.path[:0] = [path for path in (PYTHON, os.path.join(ROOT, 'tests', 'oracle'), os.path.join(ROOT, 'tests', 'cli')) if path not in sys.path]

import rematch  # noqa: E402

PROGRAM = rematch.find_program()
IS_REFERENCE = PROGRAM.endswith('.py')

needs_speed = unittest.skipIf(IS_REFERENCE, 'the reference is too slow for it')


def needs(*tools):
    """Skips a test where one of these is not installed. A browser is started only where REMATCH_BROWSER is set."""
    if 'chromium' in tools and not os.environ.get('REMATCH_BROWSER'):
        return unittest.skip('REMATCH_BROWSER is not set')
    missing = [tool for tool in tools if shutil.which(tool) is None]
    return unittest.skipIf(missing, '%s is not installed' % ', '.join(missing))


def knows(query):
    """Whether the program takes a query, so that tests of what is newer than it are skipped."""
    try:
        rematch.Query(query)
        return True
    except rematch.QueryError:
        return False


class Folder(unittest.TestCase):
    """Tests with a folder of their own."""

    def setUp(self):
        self.folder = tempfile.mkdtemp()
        self.addCleanup(shutil.rmtree, self.folder, ignore_errors=True)

    def file(self, name, data=b''):
        """The path of a new file."""
        path = os.path.join(self.folder, name)
        with open(path, 'wb') as file:
            file.write(data if isinstance(data, bytes) else data.encode())
        return path

    def script(self, name, text):
        """The path of a new program."""
        path = self.file(name, text)
        os.chmod(path, os.stat(path).st_mode | stat.S_IXUSR)
        return path


def children():
    """The processes that this one has started and that are not over."""
    found = []
    for name in os.listdir('/proc'):
        if name.isdigit():
            try:
                with open('/proc/%s/stat' % name) as file:
                    after = file.read().rpartition(')')[2].split()
                if int(after[1]) == os.getpid():
                    found.append(int(name))
            except OSError:
                pass
    return found
