#!/usr/bin/env python3
"""Holds include/loftsplice.h to what is said of it elsewhere; the archive is not needed. Each call's cost is that of docs/REFERENCE.md, each refusal has
the number and the name that it has there, a limit stands as a number in its macro alone, there is a word on alignment, threads and cost, and a struct
that is laid out otherwise (two fields swapped, or one more) does not compile, as C99, C11 and C++11. Writes a line for each thing that is not so, and
fails if there is one."""
import re
import subprocess
import sys

HEADER = open('include/loftsplice.h').read()
TESTS = [open(f'bindings/c/{name}.c').read() for name in ('test', 'profiles', 'totals', 'header')]
ROWS = [[cell.strip() for cell in line.strip('|').split('|')] for line in open('docs/REFERENCE.md') if line.startswith('|')]
COMPILERS = (('gcc', '-xc', '-std=c99'), ('gcc', '-xc', '-std=c11'), ('g++', '-xc++', '-std=c++11'))
bad = []


def same(what, here, there):
    for name in sorted(set(here) | set(there)):
        if here.get(name) != there.get(name):
            bad.append(f'{what} of {name}: {here.get(name)} in the header, {there.get(name)} in docs/REFERENCE.md')


def costs():
    calls = {name: None for name in re.findall(r'^(?:uint32_t|loftsplice_\w+) loftsplice_(\w+)\(', HEADER, re.M)}
    for comment, name in re.findall(r'/\*((?:(?!\*/).)*)\*/\n(?:uint32_t|loftsplice_\w+) loftsplice_(\w+)\(', HEADER, re.S):
        found = re.search(r' (O\([^.]*)\. $', comment)
        calls[name] = found and found.group(1)
    same('the cost', calls, {row[1].strip('`'): row[5].replace('·', '*') for row in ROWS if len(row) > 5 and 'O(' in row[5]})


def names():
    numbers = {name: number for name, number in re.findall(r'LOFTSPLICE_(\w+) = (\d+),? *\/\*', HEADER)}
    there = {row[1]: row[0] for row in ROWS if re.fullmatch(r'\d+', row[0]) and row[1].isupper()}
    same('the number', numbers, there)
    same('the name', dict(re.findall(r'case LOFTSPLICE_(\w+): return "(\w+)";', HEADER)), {name: name for name in there})


def limits():
    rest = re.sub(r'^#define LOFTSPLICE_MAX_.*$', '', HEADER, flags=re.M)
    for where, text in (('header', rest), ('C test', ''.join(TESTS))):
        for number in re.findall(r'\b4,?09[67]\b|\b57,?3\d\d\b|\bover [\d,]+', text):
            bad.append(f'the {where} says {number!r}, which its macro should say')


def words():
    for word in ('Alignment', 'Threads', 'Cost'):
        if not re.search(rf'^ \* {word}: ', HEADER, re.M):
            bad.append(f'the header has no word on {word.lower()}')


def compiles(text):
    """How many of the compilers take the text."""
    flags = ('-fsyntax-only', '-Wall', '-Wextra', '-Werror', '-pedantic', '-')
    return [c[2] for c in COMPILERS if subprocess.run((*c, *flags), input=text.encode(), capture_output=True, check=False).returncode == 0]


def layout():
    if len(compiles(HEADER)) != len(COMPILERS):
        bad.append('the header does not compile without warnings')
    tried = 0
    for whole, fields, name in re.findall(r'(typedef struct loftsplice_\w+ \{\n(.*?)\} loftsplice_(\w+);)', HEADER, re.S):
        lines = fields.splitlines(keepends=True)
        wrong = [lines[:i] + [lines[i + 1], lines[i]] + lines[i + 2:] for i in range(len(lines) - 1)] + [lines + ['    uint64_t more;\n']]
        for other in wrong:
            tried += 1
            taken = compiles(HEADER.replace(whole, whole.replace(fields, ''.join(other))))
            if taken:
                bad.append(f'loftsplice_{name} compiles as {taken} with the fields {" ".join("".join(other).split())}')
    return tried


costs()
names()
limits()
words()
wrong_layouts = layout()
for line in bad:
    print(f'header: {line}', file=sys.stderr)
if not bad:
    print(f'header: costs, names and limits are as they are said to be; {wrong_layouts} wrong layouts do not compile')
sys.exit(bool(bad))
