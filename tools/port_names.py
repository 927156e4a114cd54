#!/usr/bin/env python3
"""What each definition, law, field and constructor of an .antt file was called at the commit that docs/PORT.md begins with, and is called today.

    python3 tools/port_names.py            prints the names that changed, a line each: crate, file, name then, name today
    python3 tools/port_names.py --pages    writes today's names into the pages, where a name stands in backticks
    python3 tools/port_names.py --check    prints each name in backticks that was a declared one and is none today

Names are read off the declarations of both texts, laid side by side. A name that became two is left alone, and printed.
"""
import collections
import difflib
import pathlib
import re
import subprocess
import sys

LANDED = pathlib.Path('docs/PORT.md').read_text().split()[0]
NAME = r"[^\s(){}.;,@\"«»:`]+"
DECLARED = re.compile(rf"^ *(?:(?:pub|abbrev|unfoldable|private|data|record|axiom) +)*({NAME})(?= (?::|\{{[^:]*\}} :|\(.*\) :|\{{.*\}} :))", re.M)
PAGES = ['README.md', 'NOTICE', 'docs/AUDIT.md', 'docs/BENCHMARKS.md', 'docs/COMMAND.md', 'docs/DECISIONS.md', 'docs/DIFFERENCES.md', 'docs/EXCEPTIONS.md',
         'docs/MAP.md', 'docs/PROMISES.md', 'docs/PROVING.md', 'docs/REFERENCE.md']


def show(path):
    out = subprocess.run(['git', 'show', f'{LANDED}:{path}'], capture_output=True, text=True)
    return out.stdout if out.returncode == 0 else None


def plain(word):
    return re.sub(r'([a-z0-9])([A-Z])', r'\1_\2', word).lower().replace('-', '_').replace('_', '')


def declared(text):
    text = re.sub(r'--.*', '', text)
    out = []
    for m in DECLARED.finditer(text):
        if m[1] not in ('λ', '→', '(', 'use', 'mod', 'module', 'where'):
            out.append(m[1])
    return out


def laws():
    """(crate, file, then, today) of each declaration outside the folders of functions' proofs."""
    paths = subprocess.run(['git', 'ls-tree', '-r', '--name-only', LANDED, 'crates'], capture_output=True, text=True, check=True).stdout.splitlines()
    for path in paths:
        part = path.split('/')
        if not path.endswith('.antt') or part[-1] in ('Lib.antt', 'Proof.antt'):
            continue
        goal = pathlib.Path(path.replace('specs/Contracts.antt', 'specs/Naming.antt'))
        then = declared(show(path))
        now = declared(goal.read_text()) if goal.is_file() else []
        a, b = [plain(x) for x in then], [plain(x) for x in now]
        for tag, i, j, k, l in difflib.SequenceMatcher(None, a, b, autojunk=False).get_opcodes():
            for n in range(i, j):
                yield part[1], '/'.join(part[2:]), then[n], now[k + n - i] if tag == 'equal' or tag == 'replace' and j - i == l - k else None


def names():
    out = collections.defaultdict(set)
    for crate, file, then, now in laws():
        out[then].add(now)
    return out


def all_today():
    out = set()
    for p in pathlib.Path('crates').glob('*/*/**/*.antt'):
        if 'out' not in p.parts:
            out |= set(declared(p.read_text()))
    return out


def main():
    told = names()
    if '--check' in sys.argv:
        today = all_today()
        for page in PAGES:
            text = re.sub(r'^```console\n[\s\S]*?^```$', lambda m: '\n' * m[0].count('\n'), pathlib.Path(page).read_text(), flags=re.M)
            for m in re.finditer(r'`([^`]+)`', text):
                for w in re.findall(r"[A-Za-zℤℕ][\w'ℤℕ-]*", m[1]):
                    if (w in told or re.fullmatch(r'[a-z]+[A-Z]\w*', w)) and w not in today:
                        print(f'{page}:{text[:m.start()].count(chr(10)) + 1}: {w} of `{m[1]}`')
        return
    if '--pages' not in sys.argv:
        for crate, file, then, now in laws():
            if now != then:
                print(crate, file, then, now)
        return
    for page in PAGES:
        text = pathlib.Path(page).read_text()

        def one(m):
            def word(w):
                found = told.get(w[0], {w[0]}) - {None}
                if found == {w[0]} or not found:
                    return w[0]
                if len(found) > 1:
                    print(f'{page}: {w[0]} became {sorted(found)}')
                    return w[0]
                return next(iter(found))
            return '`' + re.sub(r"[A-Za-zℤℕ][\w'ℤℕ-]*", word, m[1]) + '`'

        parts = re.split(r'^(```.*\n[\s\S]*?^```)$', text, flags=re.M)
        new = ''.join(re.sub(r'`([^`]+)`', one, part) if not n % 2 else part if part.startswith('```console') else re.sub(r'[\s\S]+', lambda m: one([None, m[0]])[1:-1], part)
                      for n, part in enumerate(parts))
        if new != text:
            pathlib.Path(page).write_text(new)


if __name__ == '__main__':
    main()
