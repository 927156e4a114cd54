"""The table of docs/CHANGES.md: what each crate holds. Blank lines are counted nowhere; comments, imports and contracts are not code; comments and
imports are neither definitions nor laws. What has to be believed are the definitions that a public promise rests on: not what only inner functions tell
each other (Inner.antt, and keys' Key.antt, a device of proofs), nor the words of the theorems (the crate theorems, lent's Lending, codec's Exact and
Following)."""
import pathlib
import re

ROOT = pathlib.Path(__file__).resolve().parent.parent
# a clause and an import, each over one line or more
CLAUSE = re.compile(r'^([ \t]+)(?:requires|ensures)\b.*(?:\n\1[ \t]+.*)*', re.M)
IMPORT = re.compile(r'^(?:pub )?(?:ghost )?use [^;{\n]*(?:\{[^}]*\})?;?$', re.M)


def lines(files, drop=()):
    return [line for f in files for line in IMPORT.sub('', CLAUSE.sub('', f.read_text())).splitlines()
            if line.strip() and not line.strip().startswith(('//', '--', '#') + tuple(drop))]


def believed(f):
    """Whether a file of specs/ holds what a public promise rests on."""
    words = f.parent.parent.name in ('theorems', 'lent') or (f.parent.parent.name, f.stem) in (('codec', 'Exact'), ('codec', 'Following'))
    return not words and f.stem not in ('Inner', 'Key')


def row(crate):
    src = sorted((crate / 'src').glob('*.rt'))
    specs = [f for f in sorted((crate / 'specs').glob('*.antt')) if f.name != 'Lib.antt']
    laws = [f for f in sorted((crate / 'proofs').glob('*.antt')) if f.name != 'Lib.antt']
    proofs = [f for name in ('Proof', 'Invariants', 'Answers') for f in (crate / 'proofs').rglob(f'{name}.antt')]
    code = lines(src, ('pub mod ',))
    functions = sum(1 for line in code if re.match(r'\s*(pub |pub\(crate\) |pub extern "C" )?fn ', line))
    edits = [len(list((crate / folder).glob('*.edit'))) for folder in ('must-fail', 'edits')]
    believe = lines([f for f in specs if believed(f)])
    others = lines([f for f in specs if not believed(f)])
    return [len(code), functions, len(believe), len(others), len(lines(laws)), len({f.parent for f in proofs}), len(lines(proofs)), *edits]


def main():
    names = [re.split(r'[ :]', line)[0] for line in (ROOT / 'crates.txt').read_text().splitlines() if line and not line.startswith('#')]
    print('| Crate | Code | Functions | Definitions | Other words | Laws | Function proofs | Their lines | Must-fail | Edits |')
    print('|---|---|---|---|---|---|---|---|---|---|')
    total = [0] * 9
    for name in names:
        figures = row(ROOT / 'crates' / name)
        total = [a + b for a, b in zip(total, figures)]
        print('| ' + ' | '.join([name] + [str(n) for n in figures]) + ' |')
    print('| all | ' + ' | '.join(str(n) for n in total) + ' |')


main()
