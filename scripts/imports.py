"""Names that a file of crates/ imports and does not use. `python3 scripts/imports.py` lists them and fails if there is one; with --fix it takes
them out. A name counts as used where it stands in the file outside comments and import lines, of an operator as ◌≤◌ each of its parts. The traits of std
count as used: a call of a method names none."""
import pathlib
import re
import sys

ROOT = pathlib.Path(__file__).resolve().parent.parent
# an import, over one line or more: what stands before the names, the names in braces or the last one, what stands after
GROUP = re.compile(r'^((?:ghost )?use [^\s{};]+?(?:\.|::)\{)([^{}]*)(\};?)$', re.M)
WHOLE = re.compile(r'^((?:ghost )?use )(\S+?)(?: as (\S+?))?(;?)$', re.M)
PUBLIC = re.compile(r'^pub use [^\n{]*(?:\{[^{}]*\})?;?$', re.M)
# what a name goes on with: in antt a name may have < or ? in it, as `lit<` has
PART = {'.rt': '[^\\s(){}\\[\\],;.λ&*!:<>?|]', '.antt': '[^\\s(){}\\[\\],;.λ&*!:]'}
TRAITS = {'Read', 'Write', 'BufRead', 'Seek', 'Env', 'Debug', 'Display'}


def body(text, comment):
    """The file's text without imports and comments."""
    text = re.sub(WHOLE, '', re.sub(GROUP, '', re.sub(PUBLIC, '', text)))
    return re.sub(rf'(?m)(^|[ \t]){comment}.*$', '', text)


def used(name, text, part):
    """Whether a name stands in the text by itself; of an operator, it or each of its parts."""
    if '◌' in name or name == '[]':
        return name in text or all(p in re.split(r'[\s(){}\[\],;]+', text) for p in name.split('◌') if p)
    return re.search(rf'(?<!{part}){re.escape(name)}(?!{part})', text) is not None


def pruned(path):
    """The file's text without unused names, and those names."""
    text, gone = path.read_text(), []
    rest = body(text, '//' if path.suffix == '.rt' else '--')

    def stays(name):
        name = re.split(r'\s+as\s+', name)[-1].strip()
        return name in TRAITS or used(name, rest, PART[path.suffix])

    def group(found):
        items = [i.strip() for i in found[2].split(',') if i.strip()]
        keep = [i for i in items if stays(i)]
        gone.extend(i for i in items if i not in keep)
        return found[0] if keep == items else found[1] + ', '.join(keep) + found[3] if keep else ''

    def whole(found):
        name = found[3] or re.split(r'::|\.', found[2])[-1]
        if name.endswith(('*', '}')) or stays(name):
            return found[0]
        gone.append(name)
        return ''

    return re.sub(WHOLE, whole, re.sub(GROUP, group, text)), gone


def main():
    bad = 0
    for path in sorted((ROOT / 'crates').rglob('*')):
        if path.suffix not in ('.rt', '.antt') or path.name == 'Lib.antt' or 'out' in path.relative_to(ROOT).parts:
            continue
        text, gone = pruned(path)
        if gone:
            bad += len(gone)
            print(f'imports: {path.relative_to(ROOT)}: {", ".join(gone)}')
            if '--fix' in sys.argv[1:]:
                path.write_text(re.sub(r'\n{3,}', '\n\n', text))
    print(f'imports: {bad} unused' if bad else 'imports: all used')
    sys.exit(1 if bad and '--fix' not in sys.argv[1:] else 0)


main()
