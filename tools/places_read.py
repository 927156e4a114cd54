#!/usr/bin/env python3
"""Reads Rattle's source for tools/places.py, by text: words, functions with their clauses, types, constants, and what a body hands back. It knows no types of
expressions, and nothing of modules: a type goes by its name."""
import collections
import itertools
import pathlib
import re

Token = collections.namedtuple('Token', 'text line at')
Function = collections.namedtuple('Function', 'crate file line name owner public exported parameters result clauses body')  # owner: what its impl is of
Type = collections.namedtuple('Type', 'crate file line name word c fields text')  # word: struct or enum; fields: (name, type) or (variant, payload)
Ghost = collections.namedtuple('Ghost', 'crate file line name owner text')
Constant = collections.namedtuple('Constant', 'crate file line name type')

TOKEN = re.compile(r'''//[^\n]*|/\*.*?\*/|b?r?"(?:\\.|[^"\\])*"|b?'(?:\\.|[^\\'\n])'|'\w+|0x[\da-fA-F_]+\w*|\d[\d_]*(?:[iu](?:8|16|32|64|size))?
    |[^\W\d]\w*'*|->|=>|::|\.\.=|\.\.|[-+*/%|&^]=|==|!=|<=|>=|&&|\|\||\S''', re.S | re.X)
NUMBERS = {'u8', 'u16', 'u32', 'u64', 'usize', 'i8', 'i16', 'i32', 'i64', 'isize'}
KEYWORDS = set('as break continue else false fn for if in let loop match move mut ref return self true while'.split())
OPEN, CLOSE = {'(': ')', '[': ']', '{': '}'}, set(')]}')


# ---- reading

def tokens(text):
    """The words of a source text, with the line of each; comments are left out."""
    lines = itertools.accumulate((len(line) for line in text.splitlines(True)), initial=0)
    starts = list(lines)
    out, line = [], 1
    for m in TOKEN.finditer(text):
        while line < len(starts) and starts[line] <= m.start():
            line += 1
        if not m[0].startswith(('//', '/*')):
            out.append(Token(m[0], line, m.start()))
    return out


def closing(ts, i):
    """The place behind the bracket that closes the one at i."""
    deep = 0
    for k in range(i, len(ts)):
        deep += (ts[k].text in OPEN) - (ts[k].text in CLOSE)
        if deep == 0:
            return k + 1
    return len(ts)


def upto(ts, i, ends):
    """The first place from i on, outside brackets, with one of the words."""
    while i < len(ts) and ts[i].text not in ends:
        i = closing(ts, i) if ts[i].text in OPEN else i + 1
    return i


def parts(ts, mark=','):
    """The pieces between commas outside brackets, angled ones too."""
    out, now, i, angle = [], [], 0, 0
    while i < len(ts):
        word = ts[i].text
        angle += (word == '<') - (word == '>')
        if word == mark and angle <= 0:
            out.append(now)
            now = []
        elif word in OPEN:
            k = closing(ts, i)
            now += ts[i:k]
            i = k
            continue
        else:
            now.append(ts[i])
        i += 1
    return [it for it in out + [now] if it]


def words(ts):
    return [t.text for t in ts]


def typed(ts):
    """A type's text, laid out."""
    text = re.sub(r' ?([^\w\s]) ?', r'\1', ' '.join(words(ts)))
    return re.sub(r'[,;]|\bmut(?=\W)', r'\g<0> ', text).strip()


def bare(ts):
    """Without attributes and `pub`."""
    i = 0
    while i < len(ts) and ts[i].text in ('#', 'pub', '(', 'mut'):
        i = closing(ts, i + 1) if ts[i].text == '#' else closing(ts, i) if ts[i].text == '(' else i + 1
    return ts[i:]


def named(ts):
    """The pairs (name, type) of parameters or fields; ghost ones are left out."""
    out = []
    for it in map(bare, parts(ts)):
        given = words(it)
        if 'self' in given[:3]:
            out.append(('self', ''))
        elif ':' in given and given[0] != 'ghost':
            out.append((given[0], typed(it[given.index(':') + 1:])))
    return out


def source(text, ts, i, end):
    """The text of a piece, on one line and without comments."""
    return ' '.join(re.sub(r'//[^\n]*', '', text[ts[i].at:ts[end - 1].at + len(ts[end - 1].text)]).split())


def clause(text, ts, i):
    """A clause at i: (kind, text), and the place behind it."""
    k = upto(ts, i, '{')
    end = closing(ts, k)
    return (ts[i].text, source(text, ts, k + 1, end - 1)), end


def behind_angles(ts, i):
    """The place behind `<..>`, where it stands at i."""
    deep = 0
    while i < len(ts) and (deep or ts[i].text == '<'):
        deep += (ts[i].text == '<') - (ts[i].text == '>')
        i += 1
    return i


def function(where, text, ts, i, owner):
    """The function whose `fn` stands at i, and the place behind it."""
    k = upto(ts, behind_angles(ts, i + 2), '(')
    end = closing(ts, k)
    head = upto(ts, end, ('requires', 'ensures', 'where', '{', ';'))
    result = typed(ts[end + 1:head]) if ts[end].text == '->' else ''
    clauses = []
    while head < len(ts) and ts[head].text in ('requires', 'ensures', 'where'):
        if ts[head].text == 'where':
            head = upto(ts, head + 1, ('requires', 'ensures', '{', ';'))
            continue
        found, head = clause(text, ts, head)
        clauses.append(found)
    behind = closing(ts, head) if head < len(ts) and ts[head].text == '{' else head + 1
    before = i - 1
    while ts[before].text in ('const', 'unsafe', 'extern', '"C"'):
        before -= 1
    public, exported = ts[before].text == 'pub', 'extern' in words(ts[before:i])
    return Function(*where, ts[i].line, ts[i + 1].text, owner, public, exported, named(ts[k + 1:end - 1]), result, clauses, ts[head + 1:behind - 1]), behind


def declared(where, text, ts, i):
    """The struct or enum at i, and the place behind it."""
    k = upto(ts, i + 2, ('{', '(', ';'))
    end = closing(ts, k) if ts[k].text in OPEN else k + 1
    given = [it for it in map(bare, parts(ts[k + 1:end - 1])) if it[0].text != 'ghost']
    if ts[i].text == 'enum':
        fields = [(it[0].text, typed(it[1:])) for it in given]
    else:
        fields = named(ts[k + 1:end - 1]) if ts[k].text == '{' else [(str(n), typed(it)) for n, it in enumerate(given)]
    c = bool(re.search(r'repr \( C \) \][^{};]*$', ' '.join(words(ts[max(0, i - 20):i]))))
    return Type(*where, ts[i].line, ts[i + 1].text, ts[i].text, c, tuple(fields), source(text, ts, i, end)), end


def items(where, text):
    """The functions, types, constants and ghost items of a file."""
    ts, i, over, owner = tokens(text), 0, 0, ''
    while i < len(ts):
        word = ts[i].text
        owner = owner if i < over else ''
        if word in ('impl', 'trait'):
            k = upto(ts, i, '{')
            over, owner = closing(ts, k), source(text, ts, i, k)
            i = k + 1
        elif word == 'fn' and re.match(r'\w', ts[i + 1].text):
            found, i = function(where, text, ts, i, owner)
            yield found
        elif word in ('struct', 'enum'):
            found, i = declared(where, text, ts, i)
            yield found
        elif word == 'const' and ts[i + 2].text == ':':
            yield Constant(*where, ts[i].line, ts[i + 1].text, ts[i + 3].text)
            i = upto(ts, i, ';')
        elif word == 'ghost' and ts[i + 1].text != 'use':
            end = closing(ts, upto(ts, i, '{'))
            yield Ghost(*where, ts[i].line, ts[i + 1].text, owner, source(text, ts, i, end))
            i = end
        else:
            i += 1


class Tree:
    """What crates/*/src of a folder declares."""

    def __init__(self, root):
        self.root = pathlib.Path(root)
        self.files = sorted((self.root / 'crates').glob('*/src/**/*.rt'))
        read = [it for f in self.files for it in items(self.where(f), f.read_text())]
        self.functions = [it for it in read if isinstance(it, Function)]
        self.types = [it for it in read if isinstance(it, Type)]
        self.constants = [it for it in read if isinstance(it, Constant)]
        self.ghosts = [it for it in read if isinstance(it, Ghost)]
        self.names = {it.name for it in self.types}
        self.aliases = dict(m for f in self.files for m in re.findall(r'^(?:pub )?type (\w+)[^=\n]* = ([^;]+);', f.read_text(), re.M))

    def where(self, path):
        """A file's crate, and its name below src/."""
        crate, _, *rest = path.relative_to(self.root / 'crates').parts
        return crate, '/'.join(rest)

    def own(self, type_):
        """Whether a type is one of the repository's own, lent or not."""
        return re.sub(r"^&(?:'\w+ )?(?:mut )?|<.*|^.*::", '', type_) in self.names


# ---- what a body hands back

def ends(ts):
    """The expressions that a block hands back, as lists of words: those behind `return`, and the last of each way through it."""
    out = []
    for i, t in enumerate(ts):
        if t.text == 'return':
            out += last(ts[i + 1:upto(ts, i, ';,}')])
    return out + last(tail(ts))


def tail(ts):
    """The last expression of a block; none where it ends with a semicolon."""
    i = begin = 0
    while i < len(ts):
        blocky = ts[begin].text in ('if', 'match', 'while', 'loop', 'for')
        if ts[i].text in OPEN:
            i = closing(ts, i)
            over = blocky and ts[i - 1].text == '}' and i < len(ts) and ts[i].text not in ('else', '.', '?')
            begin = i if over else begin
        else:
            begin = i + 1 if ts[i].text == ';' else begin
            i += 1
    return ts[begin:]


def last(ts):
    """The ends of an expression: of each branch of an `if` and each arm of a `match`, else the expression."""
    word = ts[0].text if ts else ''
    if word == 'if':
        k = upto(ts, 0, '{')
        end = closing(ts, k)
        return last(tail(ts[k + 1:end - 1])) + (last(ts[end + 1:]) if end < len(ts) and ts[end].text == 'else' else [])
    if word == 'match':
        k = upto(ts, 1, '{')
        return [it for arm in arms(ts[k + 1:closing(ts, k) - 1]) for it in last(arm[1])]
    if word == '{':
        return last(tail(ts[1:closing(ts, 0) - 1]))
    return [words(ts)] if ts and word not in ('while', 'loop', 'for', 'let') else []


def arms(ts):
    """The arms of a match: (pattern, expression)."""
    out, i = [], 0
    while i < len(ts):
        k = upto(ts, i, ('=>',))
        end = closing(ts, k + 1) if k + 1 < len(ts) and ts[k + 1].text == '{' else upto(ts, k + 1, ',')
        out.append((words(ts[i:k]), ts[k + 1:end]))
        i = end + 1 if end < len(ts) and ts[end].text == ',' else end
    return [it for it in out if it[1]]


def is_literal(expression):
    return len(expression) == 1 and bool(re.match(r"\d|true$|false$|b?'", expression[0]))


def is_constant(expression):
    return is_literal(expression) or len(expression) == 1 and bool(re.fullmatch(r'[A-Z][A-Z\d_]+', expression[0]))


def loops(ts):
    """Each while and loop: its line, and its words from the condition to the end."""
    for i, t in enumerate(ts):
        if t.text in ('while', 'loop'):
            yield t.line, words(ts[i:closing(ts, upto(ts, i, '{'))])


def calls(ts):
    """The functions that a piece calls, but no constructor and no macro."""
    return [a.text for a, b in itertools.pairwise(ts) if b.text == '(' and re.match(r'[a-z_]\w*$', a.text) and a.text not in KEYWORDS]


def values(f):
    """A function's parameters but the runtime."""
    return [it for it in f.parameters if 'HostRuntime' not in it[1]]


def of_trait(f):
    """Whether a function stands in a trait or in an impl of one."""
    return f.owner.startswith('trait') or ' for ' in f.owner


def takes_runtime(f):
    return len(values(f)) < len(f.parameters)
