#!/usr/bin/env python3
"""Writes docs/API.md, the page of the package's names, from the texts that stand in it.

    clients/python/api.py [--check]

With --check nothing is written, and the exit status is 1 where the page is not what it would be. Python 3.9, standard library.
"""
import inspect
import os
import re
import sys

HERE = os.path.dirname(os.path.abspath(__file__))
PAGE = os.path.join(HERE, '..', '..', 'docs', 'API.md')
sys.path.insert(0, HERE)

GROUPS = [
    ('Queries', ['Query', 'compile', 'search', 'match', 'fullmatch', 'findall', 'finditer', 'split', 'sub', 'expand']),
    ('Rows', ['Match', 'Matches', 'Page', 'NoVariable']),
    ('Documents', ['Document']),
    ('Faults', ['RematchError', 'QueryError', 'SizeError', 'DocumentError', 'CursorError', 'OutOfMemory', 'ProgramError',
                'ProgramNotFound']),
    ('Many queries in one run', ['Server', 'Served', 'Session', 'SessionError']),
    ('Pieces, machines, advice', ['reach', 'NoReach', 'on_dask', 'advise', 'Advice', 'find_program']),
]
HEAD = '''# The Python package, name by name

`clients/python/api.py` writes this page from the texts of the package; [clients/README.md](../clients/README.md) has a walk
through it. The examples begin with `import rematch` and `from rematch import *`, and are tests.
'''


def wrapped(text, width=120):
    """A paragraph in lines that are not too long."""
    lines = ['']
    for word in text.split():
        if lines[-1] and len(lines[-1]) + 1 + len(word) > width:
            lines.append('')
        lines[-1] += (' ' if lines[-1] else '') + word
    return '\n'.join(lines)


def told(text):
    """A text of the package as Markdown: paragraphs, and examples as blocks."""
    found = []
    for part in re.split(r'\n\s*\n', inspect.cleandoc(text)):
        if part.lstrip().startswith('>>> '):
            found.append('\n'.join(('    ' + line).rstrip() for line in part.split('\n')))
        elif part.startswith('- '):
            found.append('\n'.join('- ' + wrapped(item).replace('\n', '\n  ') for item in re.split(r'\n- ', part[2:])))
        else:
            found.append(wrapped(part.replace('``', '`')))
    return '\n\n'.join(found).replace('``', '`')


def signature(call):
    """The words of a call, without the types."""
    given = inspect.signature(call)
    words = [word for word in given.parameters.values() if word.name not in ('self', 'cls')]
    bare = [word.replace(annotation=inspect.Parameter.empty) for word in words]
    return str(given.replace(parameters=bare, return_annotation=inspect.Signature.empty))


def members(kind):
    """The public calls, properties and described slots of a class, in the order in which they stand."""
    for name, value in vars(kind).items():
        if isinstance(value, (classmethod, staticmethod)):
            value = value.__func__
        if name.startswith('_'):
            continue
        if inspect.ismemberdescriptor(value) and inspect.getdoc(value):
            yield name, value
        elif (inspect.isfunction(value) or isinstance(value, property)) and value.__doc__:
            yield name, value


def of_class(name, kind):
    own = kind.__init__ if '__init__' in vars(kind) and not issubclass(kind, (BaseException, tuple)) else None
    yield f'### {name}{signature(own) if own else ""}\n\n{told(kind.__doc__)}'
    for member, value in members(kind):
        words = signature(value) if inspect.isfunction(value) else ''
        yield f'#### {name}.{member}{words}\n\n{told(inspect.getdoc(value))}'


def anchor(title):
    return re.sub(r'[^\w -]', '', title.lower()).replace(' ', '-')


def page():
    """The whole page."""
    import rematch
    from rematch.session import Served
    named = {**{name: getattr(rematch, name) for name in rematch.__all__}, 'Served': Served}
    listed = {name for _, names in GROUPS for name in names}
    assert listed == set(named), f'GROUPS has not the names of the package: {sorted(listed ^ set(named))}'
    parts, contents = [], []
    for title, names in GROUPS:
        contents.append(f'- [{title}](#{anchor(title)}): ' + ', '.join(f'`{name}`' for name in names))
        parts.append(f'## {title}')
        for name in names:
            value = named[name]
            if inspect.isclass(value):
                parts += of_class(name, value)
            else:
                parts.append(f'### {name}{signature(value)}\n\n{told(value.__doc__)}')
    parts.append(with_pandas())
    contents.append('- [pandas](#pandas): `series.rematch`')
    listing = '\n'.join(wrapped(line, 126).replace('\n', '\n  ') for line in contents)
    return '\n\n'.join([HEAD, listing, *parts]).replace('\n\n\n', '\n\n') + '\n'


def with_pandas():
    """The part on pandas, from the text of the module, since pandas may not be installed."""
    import ast
    with open(os.path.join(HERE, 'rematch', 'pandas.py'), encoding='utf-8') as file:
        module = ast.parse(file.read())
    kind = next(node for node in module.body if isinstance(node, ast.ClassDef))
    parts = ['## pandas', told(ast.get_docstring(module)), told(ast.get_docstring(kind))]
    for call in kind.body:
        if isinstance(call, ast.FunctionDef) and not call.name.startswith('_'):
            words = ', '.join(word.arg for word in call.args.args[1:])
            parts.append(f'### series.rematch.{call.name}({words})\n\n{told(ast.get_docstring(call))}')
    return '\n\n'.join(parts)


def main(words):
    made = page()
    if words not in ([], ['--check']):
        print('usage: clients/python/api.py [--check]', file=sys.stderr)
        return 2
    if words:
        with open(PAGE, encoding='utf-8') as file:
            is_new = file.read() == made
        print('docs/API.md is up to date' if is_new else 'docs/API.md is not up to date: clients/python/api.py writes it')
        return 0 if is_new else 1
    with open(PAGE, 'w', encoding='utf-8') as file:
        file.write(made)
    return 0


if __name__ == '__main__':
    sys.exit(main(sys.argv[1:]))
