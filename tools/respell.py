#!/usr/bin/env python3
"""Brings the repository's own definitions and laws to the spelling of today's Rattle, after its port script has run: words in snake case.

    python3 tools/respell.py        at the top of the repository, once

  - A name in camel case that begins with a small letter (`firstNotBelow`) becomes one in snake case (`first_not_below`), in the files of specs/ and proofs/
    and in the clauses and comments of src/. Functions of src/, exported names and strings have none such.
  - Where a law was spelled with a dash (`place-at`), the port script made the dash a `_`, and a definition would now get that name (`placeAt`), the law gets
    its dash back: the two would fall together.
  - The files specs/Contracts.antt become specs/Naming.antt: today's Rattle makes a module `specs.contracts` itself.
"""
import pathlib
import re

WORD = r"(?P<word>[A-Za-z_][\w'=]*(?:-[A-Za-z_0-9][\w'=]*)*)"
TOKEN = {'.antt': re.compile(WORD), '.rt': re.compile(r'"(?:\\.|[^"\\])*"|' + WORD)}  # texts of src/ stay


def camel(word):
    return bool(re.match(r'[a-z]', word)) and bool(re.search(r'[a-z0-9][A-Z]', word))


def snake(word):
    return re.sub(r'([a-z0-9])([A-Z])', r'\1_\2', word).lower()


def files():
    out = []
    for crate in sorted(pathlib.Path('crates').iterdir()):
        for part in ('src', 'specs', 'proofs'):
            out += [p for p in sorted((crate / part).rglob('*')) if p.suffix in ('.rt', '.antt') and 'out' not in p.parts]
    return out


def words(path, text):
    return [m['word'] for m in TOKEN[path.suffix].finditer(text) if m['word']]


def main():
    texts = {p: p.read_text() for p in files()}
    taken = {snake(w) for p, t in texts.items() for w in words(p, t) if camel(w)}
    # laws that the port script gave the name that a definition gets now
    declared = re.compile(r"^ *(?:(?:pub|abbrev|unfoldable|private) +)*([a-z]\w*_\w*) *:", re.M)
    dashed = set()
    for p, t in texts.items():
        if p.suffix == '.antt':
            dashed |= {m[1] for m in declared.finditer(t) if m[1] in taken}
    for p, t in texts.items():
        def turn(m):
            w = m['word']
            if not w:
                return m[0]
            if camel(w):
                return snake(w)
            if p.suffix == '.antt' and w in dashed and t[m.start() - 1] != '.':
                return w.replace('_', '-')
            return w

        new = TOKEN[p.suffix].sub(turn, t)
        new = re.sub(r'specs\.Contracts\b', 'specs.Naming', new)
        if p.name == 'Lib.antt':
            new = re.sub(r'\bmod Contracts\b', 'mod Naming', new)
        if new != t:
            p.write_text(new)
        if p.name == 'Contracts.antt' and p.parent.name == 'specs':
            p.rename(p.with_name('Naming.antt'))
    print('laws with their dash back:', ' '.join(sorted(dashed)))


main()
