"""The static libraries of the C interface: crate NAME_c has, of each function that the library NAME offers to C, the same words, and as its body the call
of that function. `python3 scripts/thin.py` fails where one is missing, is too many or differs in more than layout; with --write it writes them all
anew, and the lines of crates.txt are to be written by hand."""
import pathlib
import re
import sys

ROOT = pathlib.Path(__file__).resolve().parent.parent
EXPORT = re.compile(r'((?:^//[^\n]*\n)*)^(#\[unsafe\(no_mangle\)\]\npub extern "C" fn (\w+)\(([^{]*?)\)(?: -> \w+)?\n(?:.*\n)*?)^\{\n(?:.*\n)*?^\}\n', re.M)
WORD = re.compile(r'[^\s(){}\[\],;.:<>&]+')


def module(path):
    """How another crate names the file's module."""
    crate = path.parent.parent.name
    return crate if path.name == 'lib.rt' else f'{crate}::{path.stem}'


def ghosts(text, used):
    """The file's `ghost use` lines, with the names alone that the clauses say."""
    for at, names in re.findall(r'^ghost use (\S+)\.\{([^}]*)\};$', text, re.M):
        items = [it for it in re.split(r',\s*', names) if it.split(' as ')[-1].strip('◌') in used]
        if items:
            yield f'ghost use {at}.{{{", ".join(items)}}};\n'


def types(path, text, used):
    """`use` lines for the types of the signatures, whether the file declares or imports them."""
    here = [it for it in re.findall(r'^pub struct (\w+)', text, re.M) if it in used]
    groups = [(module(path), here)] if here else []
    for at, names, name in re.findall(r'^use ([\w:]+)::(?:\{([^}]*)\}|(\w+));$', text, re.M):
        items = [it for it in re.split(r',\s*', (names or name).strip().strip(',')) if it in used and it[0].isupper()]
        if items:
            groups.append((re.sub(r'^crate\b', path.parent.parent.name, at), items))
    for at, items in sorted(groups):
        yield f'use {at}::{items[0]};\n' if len(items) == 1 else f'use {at}::{{{", ".join(sorted(items))}}};\n'


def thin(crate):
    """What the static library over the crate has to be, or nothing where the crate offers no function to C."""
    made = f'// The static library of crate {crate}: the functions that C calls, each of which calls the one of that name there.\n#![tactic(auto)]\n\n'
    files = [(path, EXPORT.findall(path.read_text())) for path in sorted((ROOT / 'crates' / crate / 'src').glob('*.rt'))]
    files = [it for it in files if it[1]]
    for path, found in files:
        text = path.read_text()
        if len(found) != text.count('#[unsafe(no_mangle)]'):
            sys.exit(f'thin: {path.relative_to(ROOT)}: a function for C that is not read')
        used = set(WORD.findall(''.join(words for _, words, _, _ in found)))
        made += ''.join(ghosts(text, used)) + '\n' + ''.join(types(path, text, used))
        for said, words, name, parameters in found:
            given = re.findall(r'(\w+):', parameters)
            call = f'    {module(path)}::{name}({", ".join(given)})'
            if len(call) > 100:
                call = f'    {module(path)}::{name}(\n        {", ".join(given)},\n    )'
            made += f'\n{said}{words}{{\n{call}\n}}\n'
    return made if files else None


def main():
    bad = []
    squeezed = lambda text: re.sub(r',\)', ')', re.sub(r'\s+', '', text))
    named = {path.name for path in (ROOT / 'crates').iterdir()}
    wanted = {f'{crate}_c': it for crate in sorted(named) if crate.startswith('c_') and not crate.endswith('_c') and (it := thin(crate))}
    for crate, text in wanted.items():
        path = ROOT / 'crates' / crate / 'src' / 'lib.rt'
        if '--write' in sys.argv[1:]:
            path.parent.mkdir(parents=True, exist_ok=True)
            path.write_text(text)
        if not path.is_file() or squeezed(path.read_text()) != squeezed(text):
            bad.append(f'{path.relative_to(ROOT)} is not what scripts/thin.py writes for crate {crate[:-2]}')
    listed = set(re.findall(r'^(\w+) staticlib\b', (ROOT / 'crates.txt').read_text(), re.M))
    bad += [f'crates.txt and what crates/ offers to C differ by {it}' for it in sorted(listed ^ set(wanted))]
    for it in bad:
        print(f'thin: {it}', file=sys.stderr)
    sys.exit(1 if bad else 0)


main()
