"""The package as such: examples in its texts, what importing it costs, types."""
import doctest
import importlib.util
import os
import pkgutil
import re
import subprocess
import sys
import tempfile
import unittest
from unittest import mock

import rematch
from support import PROGRAM, PYTHON
from test_session import FAKE, serves


LEFT = {'rematch.__main__'}  # modules and calls without examples that run here
if importlib.util.find_spec('pandas') is None:
    LEFT.add('rematch.pandas')
if importlib.util.find_spec('pyarrow') is None:
    LEFT.add('rematch.query.Query.arrow')


def modules():
    return ['rematch', *(found.name for found in pkgutil.walk_packages(rematch.__path__, 'rematch.') if found.name not in LEFT)]


def load_tests(loader, tests, pattern):
    """The examples in the texts are tests; those of sessions run on the fake server where the program has none."""
    for name in modules():
        module = importlib.import_module(name)
        names = {'Server': lambda: rematch.Server(FAKE)} if name == 'rematch.session' and not serves(PROGRAM) else {}
        examples = doctest.DocTestSuite(module, extraglobs=names, optionflags=doctest.NORMALIZE_WHITESPACE)
        tests.addTests(example for example in examples if example.id() not in LEFT)
    return tests


class Package(unittest.TestCase):
    def test_public_names(self):
        for name in rematch.__all__:
            self.assertIsNotNone(getattr(rematch, name))
            self.assertTrue(getattr(rematch, name).__doc__, name)
            self.assertIn(name, dir(rematch))
        with self.assertRaises(AttributeError):
            rematch.nothing

    def test_public_calls_have_texts_and_types(self):
        for kind in (rematch.Query, rematch.Match, rematch.Matches, rematch.Page, rematch.Document, rematch.Server, rematch.Session):
            for name, value in vars(kind).items():
                if not name.startswith('_') and (callable(value) or isinstance(value, property)):
                    self.assertTrue(value.__doc__, '%s.%s' % (kind.__name__, name))
                    call = value.fget if isinstance(value, property) else value
                    if callable(value) and name not in ('close', 'opened', 'text', 'told', 'watch'):
                        self.assertIn('>>> ', value.__doc__, '%s.%s' % (kind.__name__, name))
                    self.assertIn('return', getattr(call, '__annotations__', {'return': 0}), '%s.%s' % (kind.__name__, name))

    def test_api_page(self):
        """docs/API.md is what the texts of the package give, each of its links has its heading, and another page is told."""
        import api
        made = api.page()
        with open(api.PAGE, encoding='utf-8') as file:
            self.assertEqual(file.read(), made, 'clients/python/api.py writes docs/API.md')
        headings = {api.anchor(line.lstrip('# ')) for line in made.split('\n') if line.startswith('#')}
        links = re.findall(r'\]\(#([^)]*)\)', made)
        self.assertGreater(len(links), 6)
        self.assertEqual(set(links) - headings, set())
        for name in rematch.__all__:
            self.assertRegex(made, r'\n### %s\b' % name)
        with tempfile.NamedTemporaryFile('w', suffix='.md') as file:
            file.write(made.replace('row', 'line', 1))
            file.flush()
            with mock.patch.object(api, 'PAGE', file.name), mock.patch('builtins.print') as told:
                self.assertEqual(api.main(['--check']), 1)
            told.assert_called_once_with('docs/API.md is not up to date: clients/python/api.py writes it')

    def test_typed(self):
        self.assertTrue(os.path.exists(os.path.join(PYTHON, 'rematch', 'py.typed')))

    def test_import_reads_little(self):
        """What importing costs is what it imports; clients/README.md has the time."""
        code = 'import sys; before = set(sys.modules); import rematch; print(*sorted(set(sys.modules) - before))'
        read = subprocess.run([sys.executable, '-c', code], stdout=subprocess.PIPE, universal_newlines=True, check=True).stdout.split()
        for heavy in ('argparse', 'asyncio', 'csv', 'html', 'tempfile', 'unicodedata', 'rematch.hints', 'rematch.view', 'rematch.many',
                      'rematch.follow', 'rematch.replace', 'rematch.calls', 'rematch.arrow', 'http', 'pandas', 'pyarrow'):
            self.assertNotIn(heavy, read)


if __name__ == '__main__':
    unittest.main()
