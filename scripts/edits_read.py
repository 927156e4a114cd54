"""What an edit says, and whether the prover's answer is the one that it names. The rule stands at the head of scripts/edits."""
import re
import typing


class Bad(Exception):
    """Why an edit does not pass."""


class Edit(typing.NamedTuple):
    crate: str
    label: str
    place: str
    goal: str
    pairs: list  # file, old text, new text


class Found(typing.NamedTuple):
    """The prover's first error."""
    place: str
    goal: str
    says: str


# ---- the edit

def read(path, crate):
    """An edit by its file, as `rt must-fail` reads it, and its line `fails:`."""
    place = goal = file = old = None
    pairs = []
    for line in path.read_text().splitlines():
        if line.startswith('# fails:'):
            told = re.fullmatch(r'# fails: (\S+) (\S+): (\S.*)', line)
            if not told or place:
                raise Bad('its line `# fails: PLACE GOAL: the fact in words` is not of that form, or stands twice')
            place, goal = told[1], told[2]
        elif line.startswith('file: '):
            file = line.removeprefix('file: ')
        elif line.startswith('old: '):
            old = line.removeprefix('old: ')
        elif line.startswith('new:'):
            pairs.append((file, old, line.removeprefix('new:').removeprefix(' ')))
            old = None
    if not pairs:
        raise Bad('it has no pair `old:`, `new:`')
    return Edit(crate, path.stem, place, goal, pairs)


def changed(folder, pairs):
    """The texts of the files that an edit changes, before and after."""
    before, after = {}, {}
    for file, old, new in pairs:
        if not file or '..' in file.split('/') or file.split('/')[0] not in ('src', 'specs') or not (folder / file).is_file():
            raise Bad(f'`file: {file}` names no file of the crate under src/ or specs/')
        before.setdefault(file, (folder / file).read_text())
        text = after.get(file, before[file])
        if not old or text.count(old) != 1:
            raise Bad(f'its old text stands {text.count(old) if old else 0} times in {file}, not once')
        after[file] = text.replace(old, new)
    return before, after


# ---- the names of goals and steps

WORD = re.compile(r"[A-Za-z_][\w'-]*")


def is_name_gone(text):
    return re.search(r'has no .* that can be named from here|has no field|is not in scope', text) is not None


def renamed(before, after, crate):
    """For each function, by its folder below proofs/, the names that its goals and steps had and have, where they differ."""
    out = {}
    for key in before.keys() & after.keys():
        if not isinstance(before[key], dict) or 'needs' not in before[key]:
            continue
        names = {}
        for kinds in ('needs', 'steps', 'places', 'loops'):
            then, now = all_names(before[key], kinds), all_names(after[key], kinds)
            names.update({then[n]: now[n] for n in then.keys() & now.keys() if then[n] != now[n]})
        for then, now in list(names.items()):
            names[f'Need-{then}'] = f'Need-{now}'
            names[f'invariant-{then}'], names[f'decreases-{then}'] = f'invariant-{now}', f'decreases-{now}'
        if any(then != now for then, now in names.items()):
            out[key.removeprefix(f'Rattle-{crate}-proofs.').removesuffix('.Lts').replace('.', '/')] = names
    return out


def all_names(listed, kinds):
    """The names of a function, by those that go by their order."""
    if kinds == 'needs':
        return dict(listed['needs'])
    if kinds == 'loops':
        return dict(loop[0] for loop in listed['loops'])
    if kinds == 'steps':
        return dict(place[2] for place in listed['places'])
    return {place[0]: name for place, name in zip(listed['places'], listed['places_by_name'])}


# ---- the prover's answer

START = re.compile(r'(?:note: )?(/?[^\s:]+\.(?:antt|rt)):\d+:\d+: (?:(error|note): )?(.*)')


def first_error(text, crate):
    """The first error that is not another's consequence, with the lines that belong to it; or, of a function that has no answer for it, the goal that is left."""
    lines = text.splitlines()
    for n, line in enumerate(lines):
        at = START.fullmatch(line)
        if not at or at[2] != 'error' or re.search(r'was not admitted|was rejected, w(as|ere) not checked', at[3]):
            continue
        says = [at[3]]
        for more in lines[n + 1:]:
            if START.fullmatch(more) or re.match(r'(fn|enum|struct|logic|library|crate|note|help)\b', more):
                break
            says.append(more.strip())
        told = re.match(r'`([^`]+)`: (.*)', ' '.join(says), re.S)
        path = re.sub(r'(/(Proof|Answers|Invariants))?\.antt$', '', at[1].removeprefix('./').removeprefix('proofs/'))
        return Found(path.replace('/', '::'), told[1] if told else '?', told[2] if told else ' '.join(says))
    left = re.search(rf'^fn {crate}::(\S+): no proof: .*?`search` did not prove `([^`]+)`', text, re.M)
    if not left:
        return None
    asked = re.search(rf'^note: `{re.escape(left[2])}` of proofs/{left[1].replace("::", "/")}/Answers\.antt must prove: (.*)', text, re.M)
    return Found(left[1], left[2], '`search` did not prove ' + (asked[1] if asked else 'it'))


def relation(statement):
    """What kind of statement it is: its loosest sign outside brackets (`↔` is a pair of two ways, `<` a `≤`), or its first word."""
    flat, depth = '', 0
    for c in statement.replace('↔', '×').replace('<', '≤'):
        depth += (c in '([{') - (c in ')]}')
        flat += c if depth == 0 else ' '
    front = re.match(r'(?:\S*\.)?(?:(Path)|◌(\S+?)◌)\s', flat)
    infix = next((sign for sign in '→×⊎≡≤' if f' {sign} ' in flat), '')
    if front and infix not in ('→', '×', '⊎'):
        return '≡' if front[1] else front[2]
    return infix or (flat.split() or [statement])[0]  # printed only as far as an open bracket: it is like no other


def fact(says):
    """Whether an error says that a fact fails, and not that a proof does not fit."""
    if re.search(r'`omega`: the (goal|part \S+ of the goal) does not follow from what it read\. All of that holds, and the (goal|part) fails, at ', says):
        return True
    if re.match(r'`search`: no proof of .* was found\.|`search` did not prove', says):
        return True
    if re.search(r"must be a path whose two ends are equal, and .* is none|this λ's body is `.*`, but the extension \(path\) type requires `", says):
        return True
    pair = re.search(r'expected type `(.*?)`,? but this has type `(.*?)`', says) or re.search(r'`([^`]*)` ≟ `([^`]*)` does not hold', says)
    if not pair or 'Need-' in pair[1] + pair[2]:
        return False
    computed = re.search(r'computed as far as they go, the two types are `(.*?)` \(expected\) and `(.*?)` \(found\)', says)
    if computed and f'{computed[1]} → Prim.⊥' == computed[2]:  # the contrary is there
        return True
    if 'computed as far as they go, the two types differ only where ' in says:
        return True
    if pair[2].endswith(f' ⊎ {pair[1]}') or pair[2].startswith(f'{pair[1]} ⊎ '):  # what is asked for, or another thing, is there
        return True
    alone = [re.search(rf'computed as far as it goes, the {side} one (?:begins|is) `(.*?)`', says) for side in ('expected', 'found')]
    kinds = {relation(one[1] if one else printed) for one, printed in zip(alone, pair.groups())}
    named = any(kind not in ('→', '×', '⊎', '≡', '≤') for kind in kinds)  # printed by a name, and compared when computed
    return len(kinds) == 1 or named and 'computed as far as they go, the two types first differ where ' in says


def judge(edit, status, text, known):
    """Raises Bad unless the edit was refused where and as it says; known: what a name of the edited code was in the code unedited."""
    if status == 0:
        raise Bad('NOT REFUSED: the crate is still proved')
    if 'logic=not-proved' not in text:
        raise Bad('it did not reach the prover: ' + ' '.join(text.split())[-300:])
    found = first_error(text, edit.crate)
    if found is None:
        raise Bad('no error that can be read: ' + ' '.join(text.split())[-300:])
    found = found._replace(goal=known.get((found.place, found.goal), found.goal))
    where = f'{found.place} {found.goal}: {found.says[:300]}'
    if not fact(found.says):
        raise Bad(f'refused, but a proof no longer fits, which shows no fact: {where}')
    if not edit.place:
        raise Bad(f'it has no line `# fails: PLACE GOAL: the fact in words`; it is refused at {where}')
    if (found.place, found.goal) != (edit.place, edit.goal):
        raise Bad(f'refused elsewhere than at {edit.place} {edit.goal}: {where}')
