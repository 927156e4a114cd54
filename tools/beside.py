#!/usr/bin/env python3
"""Old and new side by side, for docs/DESIGN-PASS.md: what OLD, a tree with crates/, says otherwise than FOLDER, by default this repository.

    python3 tools/beside.py OLD [FOLDER]             public functions, types, ghost items, definitions and laws
    python3 tools/beside.py OLD [FOLDER] --inner     the functions that are not public
    python3 tools/beside.py OLD [FOLDER] --counts    a table: how many of each stand, changed, are gone or new

A `-` is what stood, a `+` what stands. A function goes by its signature and clauses, a type by its text, invariants too, a definition of specs/ by all its
lines, a law of proofs/ (outside the folders of functions) by its statement, with what the modules around it are over. Each is found again by its name in its
file, else in its crate, else in another crate; what is new is named alone. Private laws stand in the list too: one that is gone may have been another's.
"""
import argparse
import collections
import pathlib
import re
import textwrap

from places_read import Tree

ROOT = pathlib.Path(__file__).resolve().parent.parent
HEAD = re.compile(r"( *)(?:(?:abbrev|opaque|unfoldable|pub|private|instance) +)*(?:(?:record|data) +)?([^\s:(){},.=|]+)(?: [^=]*?)? ?:(?: |$)")
Item = collections.namedtuple('Item', 'kind crate file name text')


# ---- reading

def functions(tree):
    for f in tree.functions:
        kind = 'public function' if f.public or f.exported else 'inner function'
        given = ', '.join(f'{name}: {type_}'.removesuffix(': ') for name, type_ in f.parameters)
        head = f'fn {f.name}({given})' + (f' -> {f.result}' if f.result else '')
        clauses = [f'    {word} {{ {text} }}' for word, text in f.clauses]
        yield Item(kind, f.crate, f.file, ' '.join(filter(None, (f.owner, f.name))), '\n'.join([head] + sorted(clauses)))


def types(tree):
    for it in tree.types:
        yield Item('type', it.crate, it.file, it.name, it.text)
    for it in tree.ghosts:
        yield Item('ghost item', it.crate, it.file, ' '.join(filter(None, (it.owner, it.name))), it.text)


def declarations(text):
    """Each declaration of an .antt file: (name, its lines, the modules around it)."""
    modules, name, depth, lines = [], None, 0, []
    for line in re.sub(r'[ \t]*--[^\n]*', '', text).split('\n') + ['end']:
        indent = len(line) - len(line.lstrip())
        if not line.strip() or name and indent > depth:
            lines.append(line)
            continue
        m = HEAD.match(line)
        if name and line.split()[0] == name and not (m and m[2] == name):
            lines.append(line)
            continue
        if name and not re.match(r'unfolding\b', line.strip()):
            yield name, lines, ' '.join(it for _, it in modules)
            name = None
        modules = [it for it in modules if it[0] < indent or not line.strip()]
        if line.lstrip().startswith('module '):
            modules.append((indent, ' '.join(line.split()[2:-1])))
        elif m and m[2] not in ('use', 'mod', 'open', 'let') and not name:
            name, depth, lines = m[2], indent, [line]
        elif name:
            lines.append(line)


def statement(name, lines):
    """A law's lines up to its first equation."""
    body = [n for n, line in enumerate(lines) if n and (line.split()[:1] == [name] or line.strip().startswith('unfolding'))]
    return lines[:body[0]] if body else lines


def texts(tree):
    """The definitions and laws of a tree."""
    for part, kind in (('specs', 'definition'), ('proofs', 'law')):
        for path in sorted((tree.root / 'crates').glob(f'*/{part}/*.antt')):
            crate, _, *rest = path.relative_to(tree.root / 'crates').parts
            for name, lines, around in declarations(path.read_text()):
                said = statement(name, lines) if kind == 'law' else lines
                head = [f'over {around}:'] if around else []
                yield Item(kind, crate, '/'.join(rest), name, '\n'.join(head + textwrap.dedent('\n'.join(it for it in said if it.strip())).split('\n')))


def read(root):
    tree = Tree(root.resolve())
    return [*functions(tree), *types(tree), *texts(tree)]


# ---- comparing

def what(it):
    """An item's kind; a function may become public, and a law a definition."""
    return {'definition': 'law'}.get(it.kind, it.kind.split()[-1])


def same(a, b):
    return a.text.split() == b.text.split() and a.kind == b.kind


def pairs(old, new):
    """(old, new) of each item, None where there is none: by file, name and text, by file and name, by crate and name, by name and text."""
    found, left, rest = [], list(new), list(old)
    for key in (lambda it: it[1:], lambda it: it[1:4], lambda it: (it.crate, it.name), lambda it: (it.name, it.text)):
        by = collections.defaultdict(list)
        for it in left:
            by[what(it), key(it)].append(it)
        again, rest = rest, []
        for it in again:
            if by[what(it), key(it)]:
                found.append((it, by[what(it), key(it)].pop(0)))
            else:
                rest.append(it)
        left = [it for its in by.values() for it in its]
    return found + [(it, None) for it in rest] + [(None, it) for it in left]


def laid(sign, text):
    return '\n'.join(f'{sign} {line}' for line in text.split('\n'))


def show(title, found):
    """The items of a crate that changed or are gone, and the names of those that are new."""
    new = [b.name for a, b in found if a is None]
    other = [(a, b) for a, b in found if a and (b is None or not same(a, b))]
    if not other and not new:
        return
    print(f'\n### {title}\n')
    for a, b in other:
        place = '' if b is None or (a.crate, a.file) == (b.crate, b.file) else f', now {b.crate} {b.file}'
        print(f'{a.kind} `{a.name}`, {a.file}{place}{"" if b else ": gone"}\n\n```\n{laid("-", a.text)}')
        print((laid('+', b.text) + '\n' if b else '') + '```\n')
    if new:
        print('New: ' + ', '.join(f'`{it}`' for it in new) + '.')


def counts(found):
    count = collections.Counter()
    for a, b in found:
        state = 'new' if a is None else 'gone' if b is None else 'same' if same(a, b) else 'changed'
        count[(a or b).kind, state] += 1
    states = ('same', 'changed', 'gone', 'new')
    print('| What | ' + ' | '.join(states) + ' |\n' + '|---' * 5 + '|')
    for kind in ('public function', 'inner function', 'type', 'ghost item', 'definition', 'law'):
        print(f'| {kind} | ' + ' | '.join(str(count[kind, state]) for state in states) + ' |')


def main():
    given = argparse.ArgumentParser(description=__doc__, formatter_class=argparse.RawDescriptionHelpFormatter)
    given.add_argument('old', type=pathlib.Path)
    given.add_argument('folder', nargs='?', default=ROOT, type=pathlib.Path)
    given.add_argument('--inner', action='store_true')
    given.add_argument('--counts', action='store_true')
    asked = given.parse_args()
    found = pairs(read(asked.old), read(asked.folder))
    if asked.counts:
        return counts(found)
    by = collections.defaultdict(list)
    for a, b in found:
        if ((a or b).kind == 'inner function') == asked.inner:
            by[(a or b).crate].append((a, b))
    for crate in sorted(by):
        show(crate, by[crate])


main()
