#!/usr/bin/env python3
"""Turns the proofs of an older Rattle, walks in proofs/F/Proof.antt, into today's: proofs/F/Invariants.antt and proofs/F/Answers.antt. A proof with lemmas over
places of the code stays a Proof.antt, under today's names.

    python3 tools/answers.py NAMES CRATE [MODULE.FUNCTION ..]        with a + before a function its proof stays a Proof.antt

NAMES is the folder that `rt names NAMES` wrote, of which CRATE's names.json tells the old and the new name of each goal, step and clause. Answers that only
searched are left out, since the check searches by itself. What it could not turn it prints. It proves nothing: `rt check` decides.
"""
import json
import pathlib
import re
import sys

WORD = r"[A-Za-z_][\w'₀₁-]*"
norm = lambda it: re.sub(r'^is(?=place-in$)|-lem$', '', re.sub(r'[-_]+', '-', it).lower())


def labels(crate, function):
    """The names of a function's requires and ensures, from its source."""
    name = function.split('.')[-1]
    for path in sorted(pathlib.Path('crates', crate, 'src').rglob('*.rt')):
        text = path.read_text()
        module = '' if path.stem in ('lib', 'main') else path.stem
        if '.' in function and module and function.split('.')[0] != module:
            continue
        if module == '' and '.' in function and not re.search(r'\bmod %s \{' % function.split('.')[0], text) and 'impl' not in text:
            continue
        for m in re.finditer(r'\bfn %s\b' % re.escape(name), text):
            head = text[m.start():]
            end = re.search(r'\n *\{\n|\)(?: -> [^\n]*)? \{\n', head)
            head = head[:end.start() + 1] if end else head
            given = re.match(r'fn \w+(?:<[^(]*>)?\((.*?)\)\s*(?:->|\n|\{)', head, re.S)
            names = re.findall(r'(?:^|[,(]) *\n? *(?:mut )?(\w+)(?=:|,|$)', given[1]) if given else []
            return (re.findall(r'\brequires (\w+)? ?\{', head), re.findall(r'\bensures (\w+)? ?\{', head), names)
    return ([], [], [])


def blocks(text):
    """The head (comment and use lines), and the declarations, each with the comments above it."""
    lines = text.split('\n')
    head, at = [], 0
    while at < len(lines) and (lines[at].startswith(('--', 'use ', 'pub use')) or not lines[at].strip()):
        if lines[at].startswith('--') and any(l.startswith('use ') for l in head):
            break
        head.append(lines[at])
        at += 1
    out, now = [], []
    for line in lines[at:]:
        if not line.strip():
            if now and not all(l.startswith('--') for l in now):
                out.append(now)
                now = []
            elif now:
                out.append(now)
                now = []
            continue
        now.append(line)
    if now:
        out.append(now)
    merged = []
    for b in out:
        if merged and b[0][:1].isspace():  # a blank line inside a declaration
            merged[-1] += [''] + b
        else:
            merged.append(b)
    return head, merged


class Turned:
    def __init__(self, crate, function, names):
        self.crate, self.function, self.names = crate, function, names
        self.requires, self.ensures, self.params = labels(crate, function)
        n = names
        self.needs = {norm(a): b for a, b in n['needs']}
        self.asks = {b: norm(at[0]) for (a, b), at in zip(n['needs'], n['asked_at'])}
        self.places = {norm(p[0]): n['places_by_name'][i] for i, p in enumerate(n['places'])}
        self.at = {norm(p[0]): i for i, p in enumerate(n['places'])}
        self.left, self.env, self.helpers, self.lifts = [], {}, {}, True
        self.seen_from(None)

    # ---- places: a chain of steps, from one up to the start; the steps of an arm are one step today

    def chain(self, place):
        out, at = [], self.at.get(place)
        while at is not None:
            out.append(at)
            parent = self.names['places'][at][1]
            at = self.at[norm(parent)] if parent is not None else None
        return out

    def is_last(self, i):
        arm = self.names['arms'][i]
        return bool(arm) and self.names['places_by_name'][i] == 'In' + arm[0][2:]

    def hidden(self, chain):
        """The steps of arms that are no places of their own today, seen from the place at the chain's front."""
        out = set()
        for k, i in enumerate(chain):
            if self.is_last(i):
                out |= set(chain[k + 1:k + self.names['arms'][i][1]])
        return out

    def lifted(self, place):
        """The place of the arm that a step belongs to, and how many steps lie between."""
        i = self.at.get(place)
        arm = self.names['arms'][i] if i is not None else None
        if arm and not self.is_last(i):
            for j, p in enumerate(self.names['places']):
                chain = self.chain(norm(p[0]))
                if self.is_last(j) and self.names['arms'][j][0] == arm[0] and i in chain:
                    return norm(p[0]), chain.index(i)
        return place, 0

    def up(self, place, n):
        """The place that so many steps before lead to, and how many steps that is today; an arm's own place where the step is hidden in it."""
        top, off = self.lifted(place)
        chain = self.chain(top)
        k = n + off
        if k >= len(chain):
            return None, n
        hidden = self.hidden(chain)
        while chain[k] in hidden:
            k -= 1
        return norm(self.names['places'][chain[k]][0]), sum(1 for i in chain[:k] if i not in hidden)

    def seen_from(self, place):
        """Sets the old names of steps and their fields as they are seen from a place (from all, where none is given)."""
        n = self.names
        self.fields, self.clauses, self.raw, self.arms, self.own = {}, {}, {}, {}, {}
        chain = self.chain(self.lifted(place)[0] if self.lifts else place) if place else range(len(n['places']))
        hidden = self.hidden(chain) if place else set()
        for i in chain:
            _, _, (old, new), _, subs = n['places'][i]
            if ', .' in new:  # a call in a test: by either name
                short = re.sub(r'-?\d+$', '', norm(old))
                new = next((w for w in new.split(', .') if norm(w).startswith(short)), new.split(', .')[0])
            if old:
                self.fields.setdefault(norm(old), new)
                for a, b in subs:
                    self.raw.setdefault(norm(old), {})[a] = b
            c = n['clauses'][i]
            if c and old:
                self.clauses.setdefault(norm(old), c['fields'])
            arm = n['arms'][i]
            if arm:
                for field, holder, path in arm[2]:
                    if path:
                        self.arms.setdefault((norm(holder), tuple(path)), (arm[0], field))
                    elif self.is_last(i):
                        self.own.setdefault(norm(holder), (arm[0], field))
        for (old, new), _ in n['loops']:
            self.fields[norm(old)] = new

    # ---- paths

    def clause(self, names, rest):
        """Names the clause that a nested tuple's index reads; a walk reads the tuple itself."""
        names = [n for n in names if n]
        if self.walks:
            return rest
        if len(names) == 1:
            return [names[0]] + (rest[1:] if rest[:1] == names else rest)
        if not names or not rest or not rest[0].isdigit():
            return rest
        k, at = 0, 0
        while at < len(rest) and rest[at] == '1' and k < len(names) - 1:
            k, at = k + 1, at + 1
        if k < len(names) - 1:
            if at < len(rest) and rest[at] == '0':
                at += 1
            else:
                return rest
        return [names[k]] + rest[at:]

    def path(self, parts, front=False):
        """A path in today's names; a step's name stands at its front."""
        out, i = [], 0
        while i < len(parts):
            p, rest = parts[i], parts[i + 1:]
            if p == 'before':
                if not self.walks and any(q != 'before' for q in rest):
                    i += 1
                    continue
                out.append(p)
            elif p == 'fits' and rest and rest[0] in self.params and front and all(q == 'before' for q in parts[:i]):
                out.append('ranges')
            elif p == 'good' and front in ('place', 'call') and all(q == 'before' for q in parts[:i]):
                out.append('well_formed')
            elif p == 'ok' and i and not parts[i - 1].isdigit():
                out.append('type_inv')
            elif p == 'pre':
                out.append('requires')
                return out + self.path(self.clause(self.requires, rest))
            elif p in ('inv', 'type-inv', 'well-formed'):
                out.append({'inv': 'invariant'}.get(p, p.replace('-', '_')))
            elif p in ('taken', 'left', 'true', 'false', 'fact'):
                key = norm(parts[i - 1]) if i else ''
                now = {'taken': 'true', 'left': 'false'}.get(p, p)
                out.append(self.raw.get(key, {}).get(now, now))
            elif p == 'requires' and i and False:
                out.append(p)
            else:
                hit = None
                for n in (3, 2, 1):
                    if (norm(p), tuple(rest[:n])) in self.arms:
                        hit = self.arms[(norm(p), tuple(rest[:n]))], n
                        break
                if hit:
                    out += list(hit[0])
                    i += 1 + hit[1]
                    continue
                if norm(p) in self.own and front and all(q == 'before' for q in parts[:i]):
                    out += list(self.own[norm(p)])
                elif norm(p) in self.fields and front and all(q == 'before' for q in parts[:i]):
                    out.append(self.fields[norm(p)])
                    if rest[:1] == ['ensures'] and norm(p) in self.clauses:
                        out.append('ensures')
                        tail = self.clause(self.clauses[norm(p)], rest[1:])
                        return out + self.path(tail)
                elif p == 'requires':
                    out.append(p)
                    tail = self.clause(self.requires, rest)
                    return out + self.path(tail)
                else:
                    out.append(p)
            i += 1
        return out

    def read(self, var, parts):
        """A path in today's names."""
        if var == 'tie':
            return '.'.join([var] + parts)
        n = 0
        while n < len(parts) and parts[n] == 'before':
            n += 1
        place = self.env.get(var)
        if n == len(parts):  # a place
            if place:
                goal, steps = self.up(place, n)
                if goal:
                    return '.'.join([var] + ['before'] * steps)
            return '.'.join([var] + parts)
        if place:
            goal, _ = self.up(place, n)
            self.seen_from(place)
            return '.'.join([var] + self.path(parts[n:], 'place'))
        self.seen_from(None)
        first = parts[n] if n < len(parts) else ''
        known = self.fields.get(norm(first), first)
        return '.'.join([var] + self.path(parts, False if known == first + '-1' else 'call' if var == ')' else 'some'))

    def term(self, text):
        alias, calls, same = {}, {}, {'c'} if self.env.get('c') else set()

        def turn(m):
            if m[1]:  # a let, which may name a place
                value = self.read(m[3], m[4].split('.')[1:]) if m[4] else m[3]
                if m[2]:
                    self.env[m[1]] = self.helpers.get(m[2])
                    return f"let {m[1]} = {m[2]} {value} in"
                if self.env.get(m[3]):
                    chain = self.chain(self.env[m[3]])
                    self.env[m[1]] = norm(self.names['places'][chain[min(m[4].count('.'), len(chain) - 1)]][0])
                return f"let {m[1]} = {value} in"
            var, rest = m[5], m[6].split('.')[1:]
            if var in calls and rest[:1] == ['ensures']:
                return '.'.join([var, 'ensures'] + self.path(self.clause(calls[var], rest[1:])))
            if var in alias:
                return '.'.join([var] + self.path(self.clause(alias[var], rest)))
            return self.read(var, rest)

        out = []
        for row in text.split('\n'):
            if row.lstrip().startswith('--'):
                out.append(row)
                continue
            for m in re.finditer(r"let (%s) = (\S+)\.ensures in" % WORD, row):
                key = norm(m[2].split('.')[-1])
                if key in self.clauses:
                    alias[m[1]] = self.clauses[key]
            for m in re.finditer(r"let (%s) = \S+\.([\w'-]+) in" % WORD, row):
                if norm(m[2]) in self.clauses and m[1] not in alias:
                    calls[m[1]] = self.clauses[norm(m[2])]
            for m in re.finditer(r"let (%s) = \S*\brequires in" % WORD, row):
                alias[m[1]] = self.requires
            if not self.walks:  # all that a place knows is a field of c
                flat = re.sub(r"let (%s) = (%s)(?:\.before)* in *" % (WORD, WORD), lambda m: same.add(m[1]) or '' if m[2] in same else m[0], row)
                if not flat.strip() and row.strip():
                    continue
                row = re.sub(r"(?<![\w.'-])(%s)(?![\w'₀₁-])" % WORD, lambda m: 'c' if m[1] in same else m[1], flat)
                row = re.sub(r"(?<![\w.'-])c(?:\.before)+(?![\w.'-])", 'c', row)
            row = re.sub(r"(to_z w\d+ \(?[\w.'-]*\bloop(?:-\w+)*\.\w+)(?![\w.'-])", r"\1-bits", row)  # a signed variable of a loop
            out.append(re.sub(r"let (%s) = (?:(%s) )?(%s)((?:\.before)*) in(?![\w'-])|((?<![\w.'-])%s|\))((?:\.[\w'-]+)+)" % (WORD, WORD, WORD, WORD), turn, row))
        return '\n'.join(out)

    def opened(self, whole):
        """Notes the places of a declaration's variables."""
        self.env = {}
        for m in re.finditer(r"\((%s) : tie\.([A-Z][\w'-]*)" % WORD, whole):
            self.env[m[1]] = norm(m[2])
        m = re.match(r"(?:abbrev |pub )*(\S+) : tie\.([A-Z][\w'-]*)[^→\n]*→ *(?:tie\.([A-Z][\w'-]*))?", whole)
        if m:
            e = re.search(r"^%s (%s) =" % (re.escape(m[1]), WORD), whole, re.M)
            if e:
                self.env[e[1]] = norm(m[2])
            if m[3]:
                self.helpers[m[1]] = norm(m[3])
        m = re.match(r"(?:abbrev |pub )*(\S+) : \((%s) : tie\.([A-Z][\w'-]*)[^)]*\) → *tie\.([A-Z][\w'-]*)" % WORD, whole)
        if m:
            self.helpers[m[1]] = norm(m[4])
        for m in re.finditer(r"^ +(?:abbrev |pub )*(%s) : tie\.([A-Z][\w'-]*)[^→\n]*$" % WORD, whole, re.M):
            self.env[m[1]] = norm(m[2])
        self.seen_from(next(iter(self.env.values()), None))

    def types(self, text):
        loops = [f"{k}-{o}" for (o, _), _ in self.names['loops'] for k in ('invariant', 'decreases')]

        def turn(m):
            place = self.places.get(self.lifted(norm(m[1]))[0])
            if not place:
                self.left.append('place ' + m[1])
                return m[0]
            self.used.add(place)
            return 'tie.' + place + m[2] if self.walks else place

        return re.sub(r"tie\.([A-Z][\w'-]*)((?: +(?:invariant|decreases)-[\w-]+)*)", turn, text)

    # ---- answers

    def record(self, body, names):
        """A tuple at the end of an answer, as a record by the names of the clauses."""
        if len(names) < 2 or self.walks:
            return body
        text = body.rstrip()
        if not text.endswith(')'):
            return body
        depth, start = 0, None
        for i in range(len(text) - 1, -1, -1):
            depth += (text[i] in ')]}') - (text[i] in '([{')
            if depth == 0:
                start = i
                break
        before = text[:start].rstrip()
        if not (before == '' or before.endswith((' in', '\nin', '=')) or before.endswith('in')):
            return body
        if text[start] != '(':
            return body
        parts = self.tuple(text[start:], len(names))
        if len(parts) != len(names):
            return body
        fields = ''.join(f"\n  {n} = {p.strip()};" for n, p in zip(names, parts))
        return text[:start] + 'record {' + fields + '\n}'

    def tuple(self, text, n):
        inner, depth, parts, start = text[1:-1], 0, [], 0
        for i, ch in enumerate(inner):
            depth += (ch in '([{') - (ch in ')]}')
            if ch == ',' and depth == 0:
                parts.append(inner[start:i])
                start = i + 1
        parts.append(inner[start:])
        parts = [p for p in parts if p.strip()]
        if len(parts) > n:
            return []
        if len(parts) < n and parts and parts[-1].strip().startswith('('):
            last = parts[-1].strip()
            parts = parts[:-1] + self.tuple(last, n - len(parts) + 1)
        return parts

    def goal(self, need):
        return self.needs.get(need) or self.needs.get(re.sub(r'^(overflow|slice)-', '', need)) or self.needs.get(need.replace('overflow-', '')) or self.needs.get(re.sub(r'^nonzero-', '', need)) or self.needs.get(re.sub(r'^slice-bounds-', 'part-', need))

    def split(self, name, code):
        """A declaration's `unfolding` line, its parameters and its body."""
        eq = '\n'.join(code[1:])
        unf = re.match(r"(unfolding [^\n]*)\n", eq)
        if unf:
            eq = eq[unf.end():]
        e = re.match(re.escape(name) + r"((?: \S+)*?) =(?=[ \n])", eq)
        return (unf and unf[1], e and e[1].split(), e and eq[e.end():])

    def asked(self, new):
        if new.endswith('-requires') or '-requires-' in new:
            calls = [p[3] for p in self.names['places'] if p[3] and new.startswith(p[3].split('::')[-1] + '-')]
            if calls and new not in self.names['asked']:
                crate, *path = max(calls, key=lambda it: len(it.split('::')[-1])).split('::')
                return [w for w in labels(crate, '.'.join(path))[0] if w]
        return self.names['asked'].get(new) or (self.ensures if new.startswith('returns') and len(self.ensures) > 1 else [])

    def answer(self, new, pars, body):
        """An answer's body, in today's names."""
        self.env = {pars[0]: self.asks.get(new)} if pars else {}
        self.seen_from(self.asks.get(new))
        where = re.search(r"\n  where\n", body)
        tail = body[where.start():] if where else ''
        main = self.record(self.term(body[:where.start()] if where else body), self.asked(new))
        return main + (self.types(self.term(tail)) if tail else '')

    def walk(self, path, head, decls):
        """A proof with lemmas over places, under today's names."""
        out, have, first, loops = [], {}, [], ''
        for b in decls:
            code, notes = [l for l in b if not l.startswith('--')], [l for l in b if l.startswith('--')]
            whole = '\n'.join(code)
            close = re.search(r"tie\.spec\s+(.*?)\)\s*$", whole, re.S)
            if 'tie.close' in whole:
                first = [w for w in close[1].split() if re.match('(invariant|decreases)-', w)]
                continue
            m = re.match(r"((?:abbrev |pub )*)(\S+) : tie\.(invariant|decreases)-([\w-]+)", whole) if code else None
            if m:
                out.append('\n'.join(notes + [f"{m[1]}{m[2]} : tie.{m[3]}-{dict((norm(o), w) for (o, w), _ in self.names['loops'])[norm(m[4])]}"] + code[1:]))
                continue
            m = re.match(r"(?:pub )?(\S+) : tie\.Need-(\S+)([^\n]*)", whole) if code else None
            if m:
                new = self.goal(norm(m[2]))
                unfolding, pars, body = self.split(m[1], code)
                if not new or pars is None:
                    self.left.append('goal ' + m[2])
                    out.append('\n'.join(['-- LEFT: no such goal: ' + m[2]] + ['-- ' + l for l in b]))
                    continue
                have[new], loops = m[1], m[3]
                out.append('\n'.join(notes + [f"{m[1]} : tie.Need-{new}{m[3]}"] + ([unfolding] if unfolding else []) + [f"{m[1]} {' '.join(pars)} =" + self.answer(new, pars, body)]))
                continue
            self.opened(whole)
            out.append('\n'.join(notes + [self.types(self.term(whole))]))
        name = self.function.split('.')[-1]
        for _, new in self.names['needs']:
            if new not in have:
                self.left.append('new goal ' + new)
                have[new] = new
                out.append(f"{new} : tie.Need-{new}{loops}\n{new} c{' κs' if new.endswith('-requires') else ''} = search rules")
        said = ' '.join(first + [have[new] for _, new in self.names['needs']])
        out.append(f"pub {name}_spec : {{M : Type 1}} → statement M\n{name}_spec = tie.close (tie.spec {said})")
        if 'search rules' in '\n'.join(out) and not any('rules' in l for l in head):
            head = [l for l in head if l.strip()] + ['use borrow.Author.Rules.{rules}']
        path.write_text('\n'.join(l for l in head if l.strip()) + '\n\n' + '\n\n'.join(out) + '\n')
        return self.left

    def run(self, path):
        text = path.read_text()
        if 'as tie' not in text:
            return None
        head, decls = blocks(text)
        self.used = set()
        self.walks = self.function in WALKS
        for b in decls:
            code = [l for l in b if not l.startswith('--')]
            whole = '\n'.join(code)
            if 'tie.close' in whole:
                continue
            m = re.match(r"(?:pub )?(\S+) : tie\.Need-(\S+)", whole)
            if re.search(r"tie\.(?!Need-|invariant-|decreases-)", whole):
                self.walks = True  # a lemma over places
            elif m and self.goal(norm(m[2])) and self.split(m[1], code)[1] is not None:
                names, body = self.asked(self.goal(norm(m[2]))), self.split(m[1], code)[2]
                if len([n for n in names if n]) > 1 and not re.fullmatch(r"\s*search (rules|needs)\s*", body) and self.record(body.split('\n  where')[0], names) == body.split('\n  where')[0]:
                    self.walks = True  # a lemma says all clauses at once
        if self.walks:
            return self.walk(path, head, decls)
        invariants, answers, inv_words = [], [], set()
        loops = {norm(o): (new, vs, ch) for ((o, new), vs), ch in zip(self.names['loops'], self.names['changed'] or [[]] * 9)}
        for b in decls:
            code = [l for l in b if not l.startswith('--')]
            if not code:
                answers.append('\n'.join(b))
                continue
            notes = [l for l in b if l.startswith('--')]
            sig = code[0]
            whole = '\n'.join(code)
            if 'tie.close' in whole:
                continue
            m = re.match(r"(?:abbrev )?(?:pub )?(\S+) : tie\.(invariant|decreases)-([\w-]+)", sig)
            if m:
                name, kind, loop = m[1], m[2], norm(m[3])
                if loop not in loops:
                    self.left.append('loop ' + m[3])
                    continue
                new, vs, ch = loops[loop]
                eq = '\n'.join(l for l in code[1:])
                unf = re.match(r"(unfolding [^\n]*)\n", eq)
                if unf:
                    eq = eq[unf.end():]
                e = re.match(re.escape(name) + r"((?: \S+)*?) =\s*", eq)
                params = e[1].split()
                body = eq[e.end():]
                subs = {}
                flags = ch if len(ch) == len(vs) else [True] * len(vs)
                slots = [('l.' + v) for v, c in zip(vs, flags) if not c] + [('l.initial.' + v) for v, c in zip(vs, flags) if c] + [('l.' + v) for v, c in zip(vs, flags) if c]
                # unchanged variables keep their places among the changed ones' first values
                first, last = [], []
                for v, c in zip(vs, flags):
                    first.append(('l.initial.' if c else 'l.') + v)
                    if c:
                        last.append('l.' + v)
                slots = first + last
                if len(params) == len(slots):
                    subs = dict(zip(params, slots))
                else:
                    base = {}
                    for q in params:
                        v = re.sub(r"[₀₁]$", '', q)
                        base[q] = ('l.initial.' if q.endswith('₀') else 'l.') + v
                    subs = base
                    self.left.append(f'parameters of {kind} {loop}: {len(params)} for {len(slots)}')
                subs.pop('_', None)
                body = re.sub(r"(?<![\w.'-])(%s)(?![\w'₀₁-])" % WORD, lambda w: subs.get(w[1], w[1]), body)
                invariants.append('\n'.join(notes + [f"abbrev pub {kind}-{new} : goal.{kind}-{new}"] + ([unf[1]] if unf else []) + [f"{kind}-{new} l = {body}"]))
                continue
            m = re.match(r"(?:pub )?(\S+) : tie\.Need-(\S+)", sig)
            if m:
                name, new = m[1], self.goal(norm(m[2]))
                unfolding, pars, body = self.split(name, code)
                if pars is None:
                    self.left.append('answer ' + name + ': its form')
                    answers.append('\n'.join(['-- LEFT: ' + name] + ['-- ' + l for l in code]))
                    continue
                if not new:
                    self.left.append('goal ' + m[2])
                    new = name
                    notes = notes + ['-- LEFT: no such goal: ' + m[2]]
                if re.fullmatch(r"\s*(search (rules|needs)|omega arith)\s*", body):
                    continue
                params = ' '.join(q for q in pars if q != 'κs')
                answers.append('\n'.join(notes + [f"pub {new} : goal.{new}"] + ([unfolding] if unfolding else []) + [f"{new} {params} =" + self.answer(new, pars, body)]))
                continue
            self.opened(whole)
            answers.append('\n'.join(notes + [self.types(self.term(whole))]))
        mod = f"Rattle.{self.crate}.proofs.{self.function}"
        uses = [l for l in head if l.startswith('use ') and ' as tie' not in l and '.Statement.' not in l and not l.startswith('use denote.Slice')]
        top = [l for l in head if l.startswith('--')]
        comment = []
        for l in head:
            if l.startswith('--'):
                comment.append(l)
        folder = path.parent
        path.unlink()
        for name in ('Invariants', 'Answers'):
            parts = invariants if name == 'Invariants' else answers
            if not [p for p in parts if not all(l.startswith('--') for l in p.split('\n'))]:
                continue
            lines = (comment if name == 'Answers' or not answers else []) + uses
            if name == 'Invariants':
                lines.append(f"use {mod}.Given as goal")
            else:
                lines.append(f"use {mod}.Goals as goal")
                if self.used:
                    lines.append(f"use {mod}.Goals.{{{', '.join(sorted(self.used))}}}")
            (folder / f"{name}.antt").write_text('\n'.join(lines) + '\n\n' + '\n\n'.join(parts) + '\n')
        if not any(folder.iterdir()):
            folder.rmdir()
        return self.left


def main(names, crate, only):
    listed = json.loads((pathlib.Path(names) / 'crates' / crate / 'names.json').read_text())
    root = pathlib.Path('crates', crate, 'proofs')
    for path in sorted(root.rglob('Proof.antt')):
        function = '.'.join(path.parent.relative_to(root).parts)
        if only and function not in only:
            continue
        key = f"Rattle-{crate}-proofs.{function}.Lts"
        if key not in listed:
            print(f"{function}: no names")
            continue
        left = Turned(crate, function, listed[key]).run(path)
        if left is None:
            print(f"{function}: a walk by hand")
        elif left:
            print(f"{function}: {'; '.join(left)}")


WALKS = {w[1:] for w in sys.argv[3:] if w.startswith('+')}
main(sys.argv[1], sys.argv[2], {w.lstrip('+') for w in sys.argv[3:]})
