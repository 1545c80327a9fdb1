"""No module of the package uses a private name of another one."""
import ast
import os
import re
import unittest

import rematch

PACKAGE = os.path.dirname(rematch.__file__)
ALLOWED = {'_replace', '_asdict', '_is_text_encoding'}  # of named tuples, and of what ``codecs.lookup`` returns
IN_TEXT = re.compile(r'\brematch(?:\.\w+)*\._[a-z]\w*')


def is_private(name):
    return name.startswith('_') and not name.endswith('__') and name not in ALLOWED


def attributes_of(kind):
    """The private names that a class has: of its body, of its slots, and those that its methods give to ``self`` and ``cls``."""
    found = {node.name for node in kind.body if isinstance(node, (ast.FunctionDef, ast.AsyncFunctionDef, ast.ClassDef))}
    for node in kind.body:
        targets = node.targets if isinstance(node, ast.Assign) else [node.target] if isinstance(node, ast.AnnAssign) else []
        names = {name.id for target in targets for name in ast.walk(target) if isinstance(name, ast.Name)}
        if '__slots__' in names:
            names |= {text.value for text in ast.walk(node.value) if isinstance(text, ast.Constant) and isinstance(text.value, str)}
        found |= names
    for node in ast.walk(kind):
        if isinstance(node, ast.Attribute) and isinstance(node.ctx, ast.Store) and is_self(node.value):
            found.add(node.attr)
    return {name for name in found if is_private(name)}


def is_self(node):
    return isinstance(node, ast.Name) and node.id in ('self', 'cls')


class Module:
    """The text of a module, and the private names that it uses and does not have."""

    def __init__(self, text):
        self.text = text
        self.tree = ast.parse(text)
        self.kinds = {node.name: node for node in ast.walk(self.tree) if isinstance(node, ast.ClassDef)}
        self.attributes = {name: attributes_of(kind) for name, kind in self.kinds.items()}
        imports = [node for node in ast.walk(self.tree) if isinstance(node, (ast.Import, ast.ImportFrom))]
        self.imports = [(node, [*(getattr(node, 'module', None) or '').split('.'), *(part for name in node.names for part in name.name.split('.'))])
                        for node in imports]
        self.inner = {name.asname or name.name for node in imports if getattr(node, 'level', 0) for name in node.names}
        self.outer = {name.asname or name.name.partition('.')[0] for node in imports if not getattr(node, 'level', 0) for name in node.names}

    def bases(self, name):
        return {base.id for base in self.kinds[name].bases if isinstance(base, ast.Name)}

    def of_family(self, name):
        """The private names of a class and of those of the module that it inherits from or that inherit from it."""
        family, size = {name}, 0
        while size < len(family):
            size = len(family)
            family |= {base for kind in family for base in self.bases(kind) if base in self.kinds}
            family |= {kind for kind in self.kinds if self.bases(kind) & family}
        return set().union(*(self.attributes[kind] for kind in family))

    def foreign(self):
        """The line and the text of each use of another module's private name."""
        for node, parts in self.imports:
            yield from ((node.lineno, f'import of {part}') for part in parts if is_private(part))
        for number, line in enumerate(self.text.split('\n'), 1):
            yield from ((number, found[0]) for found in IN_TEXT.finditer(line))
        yield from self._in(self.tree, set().union(*self.attributes.values()), {})

    def _in(self, node, of_self, given):
        """The uses in a part of the module; ``given`` has the classes that the parameters around it are declared to have."""
        if isinstance(node, ast.ClassDef):
            of_self = self.of_family(node.name)
        if isinstance(node, (ast.FunctionDef, ast.AsyncFunctionDef)):
            words = [*node.args.posonlyargs, *node.args.args, *node.args.kwonlyargs]
            given = {**given, **{word.arg: self.declared(word.annotation) for word in words}}
        if isinstance(node, ast.Attribute) and is_private(node.attr) and not self.is_own(node, of_self, given):
            yield node.lineno, ast.get_source_segment(self.text, node)
        for part in ast.iter_child_nodes(node):
            yield from self._in(part, of_self, given)

    @staticmethod
    def declared(annotation):
        return annotation.value if isinstance(annotation, ast.Constant) else getattr(annotation, 'id', None)

    def is_own(self, node, of_self, given):
        of = node.value
        if is_self(of) or isinstance(of, ast.Call) and getattr(of.func, 'id', None) == 'super':
            return node.attr in of_self
        if isinstance(of, ast.Name):
            if of.id in self.outer and of.id not in given:
                return True  # of a module that is not of the package
            if of.id in self.inner or given.get(of.id) in self.inner:
                return False
        return any(node.attr in names for names in self.attributes.values())


def paths():
    return sorted(os.path.join(place, name) for place, _, names in os.walk(PACKAGE) for name in names if name.endswith('.py'))


def module_at(path):
    with open(path, encoding='utf-8') as file:
        return Module(file.read())


class PrivateNames(unittest.TestCase):
    def test_no_module_uses_those_of_another(self):
        found = []
        for path in paths():
            found += ['%s:%d: %s' % (os.path.relpath(path, PACKAGE), line, use) for line, use in module_at(path).foreign()]
        self.assertEqual(found, [])

    def test_no_class_gives_those_of_its_base(self):
        """A class whose base is in another module has none of the private names of that base."""
        modules = {os.path.relpath(path, PACKAGE)[:-len('.py')]: module_at(path) for path in paths()}
        count, found = 0, []
        for place, module in modules.items():
            for node, _ in module.imports:
                if not getattr(node, 'level', 0) or not node.module:
                    continue
                parts = place.split('/')[:-node.level]
                other = modules.get('/'.join([*parts, *node.module.split('.')]))
                for name in (node.names if other else ()):
                    if name.name not in other.kinds:
                        continue
                    for kind in module.kinds:
                        if name.name in module.bases(kind):
                            count += 1
                            both = module.of_family(kind) & other.of_family(name.name)
                            found += ['%s: %s.%s' % (place, kind, attribute) for attribute in sorted(both)]
        self.assertGreater(count, 5)
        self.assertEqual(found, [])

    def test_each_way_is_found(self):
        """A private name that is planted is told, in whatever way it is used."""
        begin = 'from . import sets\nfrom .documents import Document\nclass Own:\n    def __init__(self): self._mine = 1\n'
        for use, told in (
                ('from ._inner import name', 'import of _inner'), ('from .documents import _all_places', 'import of _all_places'),
                ('import rematch._inner', 'import of _inner'), ('def f(x): return x._data', 'x._data'),
                ('def f(x): x._data = 1', 'x._data'), ('def f(x): return x.document._places', 'x.document._places'),
                ('def f(x: Document): return x._mine', 'x._mine'), ("def f(x: 'Document'): return x._mine", 'x._mine'),
                ('sets._mine', 'sets._mine'), ('class More(Document):\n    def f(self): return self._data', 'self._data'),
                ('class More(Document):\n    def f(self): return self._mine', 'self._mine'),
                ('"""Raises `rematch._inner.Fault`."""', 'rematch._inner')):
            with self.subTest(use=use):
                self.assertIn(told, [text for _, text in Module(begin + use).foreign()])
        for use in ('def f(x): return x._mine', 'class More(Own):\n    def f(self): return self._mine', 'import os\nos._exit(1)',
                    'def f(x): return x._replace(a=1)', 'def _inner(): return _inner'):
            with self.subTest(use=use):
                self.assertEqual(list(Module(begin + use).foreign()), [])


if __name__ == '__main__':
    unittest.main()
