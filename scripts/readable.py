"""What a reader can hold at a glance; fails, with a line a place, where something is longer: a contract's line over 160 characters, a chain of four or
more `.before` in a proof (name the places on the way), a line of prose over 120 in a page (tables and blocks of code may be longer)."""
import pathlib
import re
import subprocess
import sys

ROOT = pathlib.Path(__file__).resolve().parent.parent


def files(*endings):
    listed = subprocess.run(['git', 'ls-files', '-co', '--exclude-standard'], cwd=ROOT, capture_output=True, text=True, check=True).stdout.split('\n')
    return [ROOT / f for f in listed if f.endswith(endings) and (ROOT / f).is_file()]


def contracts(path, lines):
    return [(n, 'a contract over 160 characters') for n, line in lines if re.match(r'\s*(requires|ensures)', line) and len(line) > 160]


def places(path, lines):
    return [(n, 'a chain of four or more .before') for n, line in lines if re.search(r'(\.before\b ?){4}', line)]


def prose(path, lines):
    found, code = [], False
    for n, line in lines:
        if line.startswith('```'):
            code = not code
        elif not code and len(line) > 120 and not line.startswith(('|', '    ')):
            found.append((n, 'prose over 120 characters'))
    return found


def main():
    bad = 0
    for endings, rule in ((('.rt',), contracts), (('.antt',), places), (('.md',), prose)):
        for path in files(*endings):
            for n, what in rule(path, list(enumerate(path.read_text().split('\n'), 1))):
                bad += 1
                print(f'readable: {path.relative_to(ROOT)}:{n}: {what}', file=sys.stderr)
    sys.exit(1 if bad else 0)


main()
