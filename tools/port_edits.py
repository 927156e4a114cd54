#!/usr/bin/env python3
"""Brings the edits (crates/*/must-fail/*.edit, crates/*/edits/*.edit) to today's text, from what they were at the commit that docs/PORT.md begins with.

    python3 tools/port_edits.py [--check]     at the top of the repository; --check writes nothing

Each pair `old:`, `new:` is turned word by word. What a word is called today is read off the file that the pair edits: its old text and today's, laid side by
side. Where the text differs by more than spelling (a clause that is written another way, lines that were laid out anew) the pair stands in tools/port_edits.txt,
as it was and as it is. An old text must stand once in today's file, in the line that stands where the old line stood; a new text must stand nowhere yet.
The line `# fails:` stays as it is; with --names FOLDER it is written anew from what it was: a goal's name by the folder's names.json, which
`rt names FOLDER --old-names` makes, a law's by tools/port_names.py. What `scripts/edits` then says of the first error is right where it differs.
"""
import argparse
import collections
import difflib
import json
import pathlib
import re
import subprocess
import sys

import port_names

LANDED = pathlib.Path('docs/PORT.md').read_text().split()[0]
HERE = pathlib.Path(__file__).resolve().parent
WORD = r"[A-Za-z_ℕℤ¬][\w'′ℕℤ=]*(?:-[\w'′ℕℤ]+)*"
TOKENS = re.compile(rf"Rattle·\w+(?:·specs)?(?:\.[\w-]+)+|{WORD}|\d+|\s+|.", re.S)
HOLES = re.compile(r'(?<![\w◌])_([^\s\w_.,{}()]+ℤ?|\+\+)_(?![\w◌])')


def show(path):
    out = subprocess.run(['git', 'show', f'{LANDED}:{path}'], capture_output=True, text=True)
    return out.stdout if out.returncode == 0 else None


def listed():
    out = subprocess.run(['git', 'ls-tree', '-r', '--name-only', LANDED, 'crates'], capture_output=True, text=True, check=True).stdout
    return [p for p in out.splitlines() if p.endswith('.edit')]


# ---- words

def snake(word):
    return re.sub(r'([a-z0-9])([A-Z])', r'\1_\2', word).lower()


def tight(text):
    """`x .f .g` is `x.f.g`, `(g x .f)` is `(g x).f`."""
    text = re.sub(r"\((%s|\d+)((?: \.[\w-]+)+)\)" % WORD, lambda m: m[1] + m[2].replace(' ', ''), text)
    text = re.sub(r"\((%s(?: (?:%s(?:\.\w+)*|\d+|\([^()]*\)))+)((?: \.[\w-]+)+)\)" % (WORD, WORD), lambda m: f"({m[1]})" + m[2].replace(' ', ''), text)
    text = re.sub(r"\((%s(?: (?:%s(?:\.\w+)*|\d+|\([^()]*\)))+)((?: \.[\w-]+)+)(?= )" % (WORD, WORD), lambda m: f"(({m[1]})" + m[2].replace(' ', ''), text)
    return re.sub(r"(?<=[\w)]) (?=\.[a-z])", '', text)


def spelled(text):
    """What is sure without a look at the file."""
    text = text.replace('·specs.specs.', '.specs.').replace('Rattle·', 'Rattle.').replace('the-variants', 'TheVariants').replace('specs.Contracts', 'specs.Naming')
    text = HOLES.sub(r'◌\1◌', text)
    text = re.sub(r'\(now \((\w+) \.entry\)\)|now \((\w+) \.entry\)', lambda m: (m[1] or m[2]) + '.now', text)
    return tight(text)


def words(text):
    return TOKENS.findall(text)


class Names:
    """What each word of a file, and of all files, is called today."""

    def __init__(self):
        self.files, self.all, self.texts = {}, collections.defaultdict(collections.Counter), {}

    def read(self, path, goal):
        if path in self.files:
            return
        old, new = show(path), pathlib.Path(goal).read_text() if pathlib.Path(goal).is_file() else None
        self.texts[path] = (old, new)
        count = self.files[path] = collections.defaultdict(collections.Counter)
        if old is None or new is None:
            return
        a = [w for w in words(spelled(old)) if not w.isspace()]
        b = [w for w in words(new) if not w.isspace()]
        for tag, i, j, k, l in difflib.SequenceMatcher(None, [snake(w) for w in a], [snake(w) for w in b], autojunk=False).get_opcodes():
            if j - i == l - k:
                for x, y in zip(a[i:j], b[k:l]):
                    count[x][y] += 1
                    self.all[x][y] += 1

    def turn(self, path, text):
        out = []
        for w in words(spelled(text)):
            if re.fullmatch(WORD, w):
                seen = self.files[path].get(w) or self.all.get(w)
                best = seen.most_common(1)[0][0] if seen else None
                if best is None or not re.fullmatch(WORD, best):
                    best = snake(w) if re.match(r'[a-z]', w) and re.search(r'[a-z0-9][A-Z]', w) else w
                w = best
            out.append(w)
        return ''.join(out)


# ---- edits

def table():
    """tools/port_edits.txt: blocks of an edit's path and pairs `- was`, `+ is`, one line each."""
    out, path, was = {}, None, None
    for line in (HERE / 'port_edits.txt').read_text().splitlines():
        if line.startswith('crates/'):
            path = line.strip()
            out[path] = []
        elif line.startswith('- '):
            was = line[2:]
        elif line.startswith('+ '):
            out[path].append((was, line[2:]))
    return out


def moved(old, new, was, text):
    """Whether the line that holds `text` today stands where the line that held `was` stood: their neighbours agree."""
    a, b = [snake(spelled(x)) for x in old.split('\n')], [snake(x) for x in new.split('\n')]
    i = old[:old.index(was)].count('\n')
    j = new[:new.index(text)].count('\n')
    for tag, p, q, r, s in difflib.SequenceMatcher(None, a, b, autojunk=False).get_opcodes():
        if p <= i < q:
            return r <= j < s
    return False


def named(path, line, folder, laws):
    """A line `# fails:` with today's name of the goal or law."""
    crate = path.split('/')[1]
    place, goal, words = re.fullmatch(r'# fails: (\S+) (\S+):( .*)', line).groups()
    file = pathlib.Path(folder) / f'crates/{crate}/names.json'
    needs = {}
    if file.is_file():
        needs = dict(json.loads(file.read_text()).get(f'Rattle-{crate}-proofs.{place.replace("::", ".")}.Lts', {}).get('needs', []))
    now = needs.get(goal) or laws.get((crate, f'proofs/{place.replace("::", "/")}.antt', goal)) or goal
    return f'# fails: {place} {now}:{words}'


def main():
    ask = argparse.ArgumentParser()
    ask.add_argument('--check', action='store_true')
    ask.add_argument('--names', metavar='FOLDER')
    ask.add_argument('--show', action='store_true', help='prints each text that changed')
    given = ask.parse_args()
    by_hand, names, bad, texts = table(), Names(), 0, {}
    laws = {(crate, file, then): now for crate, file, then, now in port_names.laws()} if given.names else {}
    for path in listed():
        texts[path] = show(path)
        for line in texts[path].splitlines():
            if line.startswith('file: '):
                file = '/'.join(path.split('/')[:2]) + '/' + line[6:]
                names.read(file, file.replace('specs/Contracts', 'specs/Naming'))
    for path, text in texts.items():
        hand, file, out, lines = dict(by_hand.get(path, [])), None, [], text.splitlines()
        fails = [x for x in pathlib.Path(path).read_text().splitlines() if x.startswith('# fails:')]
        here = {}
        used = set()

        def turn(line):
            if line in hand:
                used.add(line)
                return hand[line]
            return names.turn(file, line) if file else line

        for line in lines:
            if line.startswith('# fails:'):
                line = named(path, line, given.names, laws) if given.names else fails[0]
            if line.startswith('file: '):
                file = '/'.join(path.split('/')[:2]) + '/' + line[6:]
                line = line.replace('specs/Contracts', 'specs/Naming')
                goal = file.replace('specs/Contracts', 'specs/Naming')
            elif line.startswith('old: '):
                was, old = line[5:], turn(line[5:])
                now = here.get(goal, names.texts[file][1])
                if now.count(old) != 1:
                    bad += 1
                    print(f'{path}: stands {now.count(old)} times\n  - {was}\n  + {old}')
                    near = difflib.get_close_matches(old, now.split('\n'), 2, 0.3)
                    print('\n'.join(f'    ? {x}' for x in near))
                elif file not in here and not moved(*names.texts[file], was, old) and was not in hand:
                    print(f'{path}: look, another place?\n  - {was}\n  + {old}')
                line = 'old: ' + old
            elif line.startswith('new:'):
                rest = line[4:].removeprefix(' ')
                new = turn(rest)
                if given.show and (new, old) != (rest, was):
                    print(f'{path}\n  - {was}\n  + {old}\n  - {rest}\n  + {new}')
                here[goal] = now.replace(old, new)
                line = 'new: ' + new if new else 'new:'
            out.append(line)
        for was in hand.keys() - used:
            bad += 1
            print(f'{path}: not used: {was}')
        new = '\n'.join(out) + '\n'
        if not given.check and new != pathlib.Path(path).read_text():
            pathlib.Path(path).write_text(new)
    print(f'{len(texts)} edits, {bad} texts bad')
    return bad == 0


if __name__ == '__main__':
    sys.exit(0 if main() else 1)
