#!/usr/bin/env python3
"""The places of docs/DESIGN-PASS.md: what its points 1 to 7 mean in crates/*/src, and point 8 in crates/*/proofs.

    python3 tools/places.py [FOLDER]             a line a place: its point and kind, crate/file:line, what stands there
    python3 tools/places.py [FOLDER] --counts    a table: how many places of each point each crate has
    python3 tools/places.py [FOLDER] --kinds     a table: how many places of each kind, and how many of them are kept
    python3 tools/places.py [FOLDER] --kept      each place that is kept, with its reason, and the reasons that keep none
    python3 tools/places.py --rows OLD [FOLDER]  a table: found in OLD, found now, kept, still to do

FOLDER is a tree with crates/, by default this repository. A place is kept where a line `// Kept: ..` (in a proof `-- Kept: ..`) stands within the six lines
above it. What each kind is stands in KINDS below, in words, and in the function of its point. It goes by text: it knows the names of types, but of no
expression its type.
"""
import argparse
import collections
import functools
import itertools
import pathlib
import re

from places_read import (NUMBERS, KEYWORDS, Constant, Tree, arms, calls, closing, ends, is_constant, is_literal, loops, of_trait, parts, takes_runtime, upto,
                         values, words)

ROOT = pathlib.Path(__file__).resolve().parent.parent
NEAR = 6  # lines above a place in which its reason may stand
SHORT, LONG = 9, 20  # tokens: a body with fewer is no twin; one with fewer is none where the functions that it calls differ too
TOGETHER = 3  # signatures in which parameters go together, and contracts in which a fact stands
KEPT = re.compile(r'\s*(//|--) Kept: \S')
SAID = {'Refused', 'Some', 'None', 'Ok', 'Err'}  # variants that say how a call went

KINDS = {
    '1 enum-refused': 'an own enum with a variant Refused(..)',
    '1 enum-option': 'an own enum of two variants, one with a payload and one without',
    '1 enum-result': 'an own enum of two variants, both with a payload',
    '1 flag-beside': 'a struct with a bool beside other fields, or a result (bool, ..)',
    '1 refusal-beside': 'a struct with a Result, or an enum of the first kind, beside other fields',
    '1 c-number': 'a #[repr(C)] struct with a u32: a refusal, a kind or a flag of the C interface',
    '1 number-out': 'a function with a number as its result that hands back a literal or constant at two places or more, or one that is not 0 or 1',
    '1 number-in': 'a parameter u8, u16 or u32 that is compared with a literal, or any number that is compared with a constant',
    '1 bool-in': 'a parameter of type bool',
    '1 bool-out': 'a function that is handed the runtime and answers whether it went well',
    '1 none-struct': 'a function with no test, loop or operator that fills a field with 0: a value that stands for none',
    '1 const': 'a constant that is a number',
    '2 body': "a function whose body is another one's but for names of values, types, literals and constants",
    '2 calls': 'the same, where the functions that they call differ too, of 20 tokens or more, and more than one call',
    '2 type': "a struct or enum whose fields are another one's but for their types, or (enum, or three fields) but for their names",
    '2 width-name': 'a function whose name ends with 8, 16, 32 or 64',
    '3 counted': 'a while or loop that steps a number by a literal',
    '3 stepped': 'a while or loop that steps a number by a value',
    '3 other': 'any other while or loop',
    '4 convert': "a function of one value that makes an own type of it, or anything of an own enum; not of a struct with a lifetime, nor what C calls",
    '4 construct': 'a function of more values, none lent, all of whose ends are variants, literals or structs, and that calls nothing but functions as above',
    '4 compare': 'a function of two values of one own type, with a bool (this one and the two above not in an impl of a trait)',
    '4 choose': 'a function all of whose ends, two or more, are its parameters: max, min and the like',
    '4 difference': 'a function whose ends are 0 and one subtraction',
    '4 print': 'a function that prints one value and takes nothing but the runtime beside it',
    '4 digits': 'a function that spells or reads numbers: with io::decimal or io::hex, or tests or works with the bytes 45, 48 and 57',
    '4 copy': "a struct made of another one's fields, two or more, by hand",
    '5 parameters': "a signature with two parameters or more that go together: name and type stand in three signatures or more, and in half of all of either's",
    '5 fact': 'a fact (a part of a clause, by its text) of a function, where three contracts or more have it',
    '6 field': 'a field that is an array',
    '6 parameter': 'a parameter that is an array',
    '6 local': 'a local that is an array, io::buffer() or io::large_buffer()',
    '6 counted': 'an array with a usize right behind it in a signature, or a slice with one that the body takes for its end',
    '6 parallel': 'a signature or struct with two slices or arrays side by side',
    '6 halving': 'a while or loop with a division by 2',
    '6 by-constant': 'a function that indexes with a constant: an array in place of a struct',
    '7 match': 'a match of which two arms call different functions, or an if let behind which one is called; no arm Refused, Some, None, Ok or Err',
    '7 if': 'the first if on a bool parameter, or on whether a number parameter is a constant or a literal but 0, behind which a function is called',
    '7 table': 'a function pointer, or dyn',
    '8 walk': 'a file Proof.antt, a walk over the code by hand',
    '8 search': 'a goal whose answer is only `search rules`, in Proof.antt or Answers.antt',
    '8 repeated': 'a law whose statement stands in another place too, but for names',
    '8 same-line': 'a line of answers, 40 characters or more, that stands in three proofs or more of its crate',
}

Place = collections.namedtuple('Place', 'kind crate file line what')

# ---- point 1

def kind_of_enum(it):
    filled = [bool(payload) for _, payload in it.fields]
    if it.word == 'enum' and any(name == 'Refused' and payload for name, payload in it.fields):
        return 'enum-refused'
    if it.word == 'enum' and len(filled) == 2 and any(filled):
        return 'enum-result' if all(filled) else 'enum-option'
    return None


def point_1(tree):
    refusing = {it.name for it in tree.types if kind_of_enum(it) == 'enum-refused'} | {'Result'}
    refusing |= {name for name, type_ in tree.aliases.items() if re.split(r'\W', type_)[0] in refusing}
    for it in tree.types:
        yield from (('1 ' + kind, it, it.name) for kind in kinds_of_type(it, refusing))
    for it in tree.constants:
        if it.type in NUMBERS:
            yield '1 const', it, it.name
    for f in tree.functions:
        yield from (('1 ' + kind, f, what) for kind, what in numbers(f))


def kinds_of_type(it, refusing):
    """The kinds of point 1 that a type has."""
    fields = [type_ for _, type_ in it.fields]
    if kind_of_enum(it):
        yield kind_of_enum(it)
    if it.word == 'struct' and len(fields) > 1 and 'bool' in fields:
        yield 'flag-beside'
    if it.word == 'struct' and len(fields) > 1 and any(re.split(r'\W', type_)[0] in refusing for type_ in fields):
        yield 'refusal-beside'
    if it.c and 'u32' in fields:
        yield 'c-number'


def numbers(f):
    """The kinds of point 1 that a function has."""
    given = [it[0] for it in ends(f.body) if is_constant(it)]
    if not of_trait(f) and f.result in NUMBERS and (len(given) > 1 or any(it not in ('0', '1') for it in given)):
        yield 'number-out', f'{f.name}: {", ".join(given)}'
    if '(bool,' in f.result:
        yield 'flag-beside', f.name
    for name, type_ in f.parameters:
        if type_ == 'bool':
            yield 'bool-in', f'{f.name}: {name}'
        elif type_ in NUMBERS and compared(f.body, name, type_ in ('u8', 'u16', 'u32')):
            yield 'number-in', f'{f.name}: {name}'
    if takes_runtime(f) and f.result == 'bool':
        yield 'bool-out', f.name
    straight = not set(words(f.body)) & set('if match while loop for else + - * / == < <='.split())
    if f.result[:1].isupper() and straight and re.search(r': 0(?= [,}])', ' '.join(words(f.body))):
        yield 'none-struct', f.name


def compared(ts, name, small):
    """Whether a number is compared with a constant; a small one with a literal."""
    for a, b, c in zip(ts, ts[1:], ts[2:]):
        other = [c.text] if a.text == name else [a.text] if c.text == name else []
        if b.text in ('==', '!=', '<', '<=') and is_constant(other) and (small or not is_literal(other)):
            return True
    return small and f'match {name} {{' in ' '.join(words(ts))


# ---- point 2

def shape(f, callee):
    """A body without names: values and types are numbered as they come, literals and constants are one. Where callee is given, a function that is called
    keeps its name, or the one name of its twins."""
    seen, out, ws = {}, [], words(f.body)
    for word, behind in zip(ws, ws[1:] + ['']):
        if is_constant([word]) or '"' in word:
            out.append('#')
        elif word == '::' or behind == '::' and word.islower():
            continue
        elif not re.fullmatch(r'\w+', word) or word in KEYWORDS:
            out.append(word)
        elif callee is not None and behind == '(' and not word[0].isupper():
            out.append(callee.get(stem(word), stem(word)))
        else:
            out.append('T' if word in NUMBERS else f'x{seen.setdefault(word, len(seen))}')
    return len(values(f)), ' '.join(out)


def stem(name):
    return re.sub(r'_?(8|16|32|64)$', '', name)


def alike(functions, callee):
    """The groups of functions with one shape."""
    groups = collections.defaultdict(list)
    for f in functions:
        groups[shape(f, callee)].append(f)
    return [it for it in groups.values() if len(it) > 1]


def bodies(tree):
    """Groups of twins. A call of a twin counts as the call of the other, so it goes on until nothing is joined any more."""
    callee, long = {}, [f for f in tree.functions if len(f.body) >= SHORT]
    while True:
        twins = alike(long, callee)
        joined = {stem(f.name): min(callee.get(stem(g.name), stem(g.name)) for g in it) for it in twins for f in it}
        if all(callee.get(name) == one for name, one in joined.items()):
            return twins
        callee.update(joined)


def type_twins(tree):
    """Groups of types with the same fields but for their types, or but for their names."""
    for part, most in ((0, 2), (1, 3)):
        groups = collections.defaultdict(list)
        for it in tree.types:
            if len(it.fields) >= (2 if it.word == 'enum' else most) and any(payload for _, payload in it.fields):
                groups[it.word, tuple(field[part] for field in it.fields)].append(it)
        yield from (it for it in groups.values() if len(it) > 1)


def is_more_than_a_call(f):
    return '{' in words(f.body) or words(f.body).count(';') > 1


def point_2(tree):
    groups = [('2 body', it) for it in bodies(tree)]
    groups += [('2 calls', it) for it in alike([f for f in tree.functions if len(f.body) >= LONG and is_more_than_a_call(f)], None)]
    groups += [('2 type', it) for it in type_twins(tree)]
    twins = collections.defaultdict(dict)
    for kind, group in groups:
        for at, it in ((id(it), it) for it in group):
            twins[at] = twins[at] or {'kind': kind, 'it': it, 'as': []}
            twins[at]['as'] += [x for x in group if id(x) != at and x not in twins[at]['as']]
    for it in twins.values():
        yield it['kind'], it['it'], f'{it["it"].name}: as ' + ', '.join(f'{x.crate}/{x.file}:{x.line} {x.name}' for x in it['as'])
    for f in tree.functions:
        if stem(f.name) != f.name:
            yield '2 width-name', f, f.name


# ---- point 3

def point_3(tree):
    for f in tree.functions:
        for line, ws in loops(f.body):
            steps = re.findall(r'(?<![.\w] )\b[a-z]\w* [-+]= (\w+)( ;)?', ' '.join(ws))
            kind = 'counted' if any(end and is_literal([by]) for by, end in steps) else 'stepped' if steps else 'other'
            yield '3 ' + kind, f._replace(line=line), f'{f.name}: ' + ' '.join(ws[:ws.index('{')])


# ---- point 4

def point_4(tree):
    converting = {f.name for f in tree.functions if is_conversion(tree, f)}
    for f in tree.functions:
        if not of_trait(f):
            yield from (('4 ' + kind, f, f.name) for kind in by_hand(tree, f, converting))
        for line, what in copies(f):
            yield '4 copy', f._replace(line=line), f'{f.name}: {what}'


def is_conversion(tree, f):
    """One value that an own type is made of, or one of an own enum; no view of lists, nothing that C calls."""
    given = [type_ for name, type_ in f.parameters if name != 'self' and 'HostRuntime' not in type_]
    if len(given) != 1 or len(f.parameters) != 1 or f.exported or not f.result:
        return False
    own = {it.name: it for it in tree.types}.get(given[0])
    return not (own and "'" in own.text) and (tree.own(f.result) or own is not None and own.word == 'enum')


def by_hand(tree, f, converting):
    """The kinds of point 4 that a function has."""
    given, handed, called = values(f), ends(f.body), set(calls(f.body))
    if is_conversion(tree, f):
        yield 'convert'
    plain = len(given) > 1 and not any('&' in type_ for _, type_ in given) and called <= converting and not f.exported
    if plain and tree.own(f.result) and len(handed) > 1 and all(is_made(it) for it in handed):
        yield 'construct'
    mine = [type_ for _, type_ in given if tree.own(type_)]
    if f.result == 'bool' and len(set(mine)) < len(mine):
        yield 'compare'
    names = [[name] for name, _ in given]
    if len(handed) > 1 and all(it in names for it in handed):
        yield 'choose'
    if len(handed) == 2 and ['0'] in handed and any(len(it) == 3 and it[1] == '-' for it in handed):
        yield 'difference'
    if takes_runtime(f) and len(given) == 1 and f.result in ('', 'bool'):
        yield 'print'
    if re.search(r'\bio :: (decimal|hex)\b|[-+<=>] (45|48|57)\b|\b(45|48|57) [-+<]', ' '.join(words(f.body))):
        yield 'digits'


def is_made(expression):
    """Whether an expression is a variant, a literal or a struct, by its beginning."""
    return is_constant(expression) or bool(re.match(r'[A-Z]\w*( ::| \{|$)', ' '.join(expression)))


def copies(f):
    """The structs in a body that take over two fields or more of one value: `let a = x.a;` before, or `a: x.a`."""
    text = ' '.join(words(f.body))
    held = {(name, base) for name, base, field in re.findall(r'let (\w+) = (\w+) \. (\w+) ;', text) if name == field}
    for i, t in enumerate(f.body):
        if t.text == '{' and i and re.match(r'[A-Z]', f.body[i - 1].text):
            fields = [words(it) for it in parts(f.body[i + 1:closing(f.body, i) - 1])]
            taken = collections.Counter(base for it in fields for base in taken_from(it, held))
            if any(n > 1 for n in taken.values()):
                yield t.line, f'{f.body[i - 1].text} from {taken.most_common(1)[0][0]}'


def taken_from(field, held):
    """The values from which a field of a struct is taken over."""
    name = field[0]
    if field[1:] in ([], [':', name]):
        return [base for held_name, base in held if held_name == name]
    return [field[2]] if len(field) == 5 and field[3] == '.' and field[4] == name else []


# ---- point 5

def together(tree):
    """The pairs of parameters that go together, by name and type."""
    signatures = [{it for it in values(f) if it[0] != 'self'} for f in tree.functions]
    single = collections.Counter(it for given in signatures for it in given)
    pairs = collections.Counter(pair for given in signatures for pair in itertools.combinations(sorted(given), 2))
    return {(a, b) for (a, b), n in pairs.items() if n >= TOGETHER and 2 * n >= single[a] + single[b] - n}


def facts(text):
    """The parts of a clause between × outside brackets, each without brackets around it."""
    out, now, deep = [], '', 0
    for c in text:
        deep += (c in '([{') - (c in ')]}')
        if c == '×' and deep == 0:
            out.append(now)
            now = ''
        else:
            now += c
    return [unwrapped(it.strip()) for it in out + [now]]


def unwrapped(fact):
    while fact[:1] == '(' and fact[-1:] == ')' and all(n > 0 for n in itertools.accumulate((c == '(') - (c == ')') for c in fact[:-1])):
        fact = fact[1:-1].strip()
    return fact


def point_5(tree):
    pairs = together(tree)
    for f in tree.functions:
        given = [it for it in values(f) if any((it, o) in pairs or (o, it) in pairs for o in f.parameters)]
        if given:
            yield '5 parameters', f, f'{f.name}: ' + ', '.join(name for name, _ in given)
    having = collections.defaultdict(list)
    for f in tree.functions:
        for fact in dict.fromkeys(it for _, text in f.clauses for it in facts(text)):
            having[fact].append(f)
    for fact, fs in having.items():
        if len(fs) >= TOGETHER:
            yield from (('5 fact', f, f'{f.name}: {fact}') for f in fs)


# ---- point 6

def is_array(type_):
    return bool(re.match(r"(?:&(?:'\w+ )?(?:mut ?)?)?\[[^\]]*;", type_))


def is_list(type_):
    return bool(re.match(r"&(?:'\w+ )?(?:mut ?)?\[", type_)) or is_array(type_)


def point_6(tree):
    for it in tree.types:
        if it.word == 'struct':
            yield from (('6 field', it, f'{it.name}: {name}') for name, type_ in it.fields if is_array(type_))
            if side_by_side(it.fields):
                yield '6 parallel', it, it.name
    for f in tree.functions:
        yield from (('6 ' + kind, f, f'{f.name}: {what}') for kind, what in lists(f))
        for at in zip(f.body, f.body[1:], f.body[2:], f.body[3:], f.body[4:]):
            if re.fullmatch(r'let mut \w+ = (\[|io)', ' '.join(words(at))):
                yield '6 local', f._replace(line=at[0].line), f'{f.name}: {at[2].text}'
        for line, ws in loops(f.body):
            if re.search(r'/ 2\b', ' '.join(ws)):
                yield '6 halving', f._replace(line=line), f.name


def side_by_side(given):
    return any(is_list(a[1]) and is_list(b[1]) for a, b in itertools.pairwise(given))


def lists(f):
    """The kinds of point 6 that a function has: (kind, names)."""
    given, text = values(f), ' '.join(words(f.body))
    for name, type_ in given:
        if is_array(type_):
            yield 'parameter', name
    for (a, list_), (b, type_) in itertools.pairwise(given):
        if is_list(list_) and type_ in ('usize', '&mut usize') and (is_array(list_) or re.search(rf'(<|\.\.|==) {b} [^.\[]', text)):
            yield 'counted', f'{a}, {b}'
    if side_by_side(given):
        yield 'parallel', ', '.join(name for name, type_ in given if is_list(type_))
    by = sorted(set(re.findall(r'\[ ([A-Z][A-Z\d_]+) \]', text)))
    if by:
        yield 'by-constant', ', '.join(by)


# ---- point 7

def point_7(tree):
    for f in tree.functions:
        for i, t in enumerate(f.body):
            if t.text == 'match' and is_switch(f.body, i) or t.text == 'if' and is_one_kind(f.body, i):
                yield '7 match', f._replace(line=t.line), f'{f.name}: ' + head(f.body, i)
        chosen = {parameter_of(f, i): i for i in reversed(range(len(f.body))) if f.body[i].text == 'if'}
        for i in sorted(i for name, i in chosen.items() if name):
            yield '7 if', f._replace(line=f.body[i].line), f'{f.name}: ' + head(f.body, i)
        if any(re.search(r'\bfn\(|\bdyn\b', type_) for _, type_ in f.parameters) or re.search(r'\bfn\(|\bdyn\b', f.result):
            yield '7 table', f, f.name


def head(ts, i):
    return ' '.join(words(ts[i:upto(ts, i, '{')]))


def is_switch(ts, i):
    """Whether two arms of a match on variants call different functions."""
    k = upto(ts, i, '{')
    found = arms(ts[k + 1:closing(ts, k) - 1])
    called = {tuple(calls(it)) for _, it in found if calls(it)}
    return not {word for pattern, _ in found for word in pattern} & SAID and len(called) > 1


def is_one_kind(ts, i):
    """Whether an `if let` on a variant calls a function."""
    k = upto(ts, i, '{')
    pattern = words(ts[i:upto(ts, i, '=')])
    return pattern[1:2] == ['let'] and not set(pattern) & SAID and bool(calls(ts[k:closing(ts, k)]))


def parameter_of(f, i):
    """The parameter on which an `if` chooses whether to call a function; none where it doesn't."""
    k = upto(f.body, i, '{')
    ws = [it for it in words(f.body[i + 1:k]) if it != '!']
    type_ = dict(f.parameters).get(ws[0])
    by_number = len(ws) == 3 and ws[1] in ('==', '!=') and type_ in NUMBERS and is_constant(ws[2:]) and ws[2] != '0'
    return ws[0] if calls(f.body[k:closing(f.body, k)]) and (by_number or len(ws) == 1 and type_ == 'bool') else None


# ---- point 8

def proofs(root):
    """The .antt files of crates/*/proofs: (crate, path in the crate, text)."""
    for path in sorted((root / 'crates').glob('*/proofs/**/*.antt')):
        if path.name != 'Lib.antt':
            crate, *rest = path.relative_to(root / 'crates').parts
            yield crate, '/'.join(rest), path.read_text()


def lemmas(text):
    """Each law of a file: its line, name and statement, with its variables numbered as they come."""
    for m in re.finditer(r"^(?:(?:pub|private) +)*([^\s(){}.;,:]+) :((?: |\n +)\S[^\n]*(?:\n +[^\n]*)*)", text, re.M):
        said, names = ' '.join(m[2].split()), []
        for bound in re.findall(r'[({]((?:[^\s(){}:]+ )+): ', said):
            names += [it for it in bound.split() if it not in names]
        for n, name in enumerate(names):
            said = re.sub(rf"(?<![\w'.]){re.escape(name)}(?![\w'-])", f'v{n}', said)
        if '→' in said and ('≡' in said or re.search(r'\([^():]+ : ', said)) and not re.match(r'(goal|tie)\.|.*→ statement', said):
            yield text.count('\n', 0, m.start()) + 1, m[1], said


def point_8(tree):
    stated, repeated = collections.defaultdict(list), collections.defaultdict(list)
    for crate, file, text in proofs(tree.root):
        where = functools.partial(Constant, crate, file, name='', type='')
        text = re.sub(r'--[^\n]*', '', text)
        if file.endswith('/Proof.antt'):
            yield '8 walk', where(text.count('\n', 0, re.search(r'\S', text).start()) + 1), file.split('/')[-2]
        for n, line in enumerate(text.split('\n'), 1):
            if re.search(r'/(Proof|Answers)\.antt$', file) and line.endswith(' = search rules'):
                yield '8 search', where(n), line.split()[0]
            if len(line.strip()) >= 40 and file.endswith('/Answers.antt') and not re.match(r'use |pub \S+ : goal\.', line):
                repeated[crate, line.strip()].append(where(n))
        for n, name, said in lemmas(text):
            stated[said].append((where(n), name))
    for said, group in stated.items():
        yield from (('8 repeated', it, f'{name} : {said}') for it, name in group if len(group) > 1)
    for (_, line), group in repeated.items():
        yield from (('8 same-line', it, line) for it in group if len({x.file for x in group}) >= 3)


# ---- printing

POINTS = (point_1, point_2, point_3, point_4, point_5, point_6, point_7, point_8)


def places_of(tree):
    """All places of a tree, each once."""
    return list(dict.fromkeys(Place(kind, it.crate, it.file, it.line, what) for point in POINTS for kind, it, what in point(tree)))


def reasons(tree):
    """The lines `// Kept: ..` of each file, and `-- Kept: ..` of a proof."""
    files = [(*tree.where(f), f.read_text()) for f in tree.files] + list(proofs(tree.root))
    return {(crate, file): {n: line.strip() for n, line in enumerate(text.split('\n'), 1) if KEPT.match(line)} for crate, file, text in files}


def reason(kept, place):
    """The line of the nearest reason above a place, or nothing."""
    lines = kept.get((place.crate, place.file), {})
    return next((n for n in range(place.line - 1, place.line - 1 - NEAR, -1) if n in lines), None)


def table(head, rows):
    for it in [head, ['---'] * len(head), *rows]:
        print('| ' + ' | '.join(map(str, it)) + ' |')


def by_crate(tree, places):
    order = [re.split(r'[ :]', line)[0] for line in (tree.root / 'crates.txt').read_text().splitlines() if line and line[0] != '#']
    count = collections.Counter((it.crate, it.kind[0]) for it in places)
    rows = [[crate] + [count[crate, point] for point in '12345678'] for crate in order]
    table(['Crate', *'12345678'], [it for it in rows if any(it[1:])] + [['all'] + [sum(it[i] for it in rows) for i in range(1, 9)]])


def by_kind(places, stays):
    count = collections.Counter(it.kind for it in places)
    table(['Kind', 'What it is', 'Found', 'Kept'], [[kind, what, count[kind], stays[kind]] for kind, what in KINDS.items()])


def by_point(then, now, stays):
    then, now = (collections.Counter(it.kind[0] for it in places) for places in (then, now))
    stays = {point: sum(n for kind, n in stays.items() if kind[0] == point) for point in '12345678'}
    table(['Point', 'Found then', 'Found now', 'Kept with a reason', 'Still to do'], [[p, then[p], now[p], stays[p], now[p] - stays[p]] for p in '12345678'])


def show_kept(places, kept):
    used = set()
    for it in places:
        n = reason(kept, it)
        if n:
            used.add((it.crate, it.file, n))
            print(f'{it.kind}  {it.crate}/{it.file}:{it.line}  {it.what}  {kept[it.crate, it.file][n]}')
    for (crate, file), lines in kept.items():
        for n, line in lines.items():
            if (crate, file, n) not in used:
                print(f'no place  {crate}/{file}:{n}  {line}')


def main():
    given = argparse.ArgumentParser(description=__doc__, formatter_class=argparse.RawDescriptionHelpFormatter)
    given.add_argument('folder', nargs='?', default=ROOT, type=pathlib.Path)
    for flag in ('--counts', '--kinds', '--kept'):
        given.add_argument(flag, action='store_true')
    given.add_argument('--rows', type=pathlib.Path, metavar='OLD')
    asked = given.parse_args()
    tree = Tree(asked.folder.resolve())
    places, kept = places_of(tree), reasons(tree)
    stays = collections.Counter(it.kind for it in places if reason(kept, it))
    if asked.counts:
        by_crate(tree, places)
    elif asked.kinds:
        by_kind(places, stays)
    elif asked.kept:
        show_kept(places, kept)
    elif asked.rows:
        by_point(places_of(Tree(asked.rows.resolve())), places, stays)
    else:
        for it in places:
            print(f'{it.kind}  {it.crate}/{it.file}:{it.line}  {it.what}')


main()
