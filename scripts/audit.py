"""audit.py COMMAND [--write PAGE | --page PAGE]: has `loftsplice audit` report on windows of columns, under both profiles and in every format, and compares
with what a reader of its own says, which goes record by record. The page is read by a parser: all its tags close, it names nothing outside itself, its
numbers, its picture and its list are those of the window. --page compares the sample's page with a stored one, --write stores it."""
import csv
import html.parser
import io
import json
import pathlib
import random
import re
import struct
import subprocess
import sys
import tempfile
import xml.etree.ElementTree as xml

ROOT = pathlib.Path(__file__).resolve().parent.parent
NAMES = {1: 'SHAPE', 2: 'ENDS', 3: 'REACH', 5: 'WINDOW', 7: 'ORDER', 14: 'COUNT', 15: 'RANGE', 16: 'PROFILE'}
PROOF = 'docs/AUDIT.md: listed-exactly-if in crates/profile_theorems/proofs/Lists.antt'
VOID = {'meta', 'br'}


def record(runs):
    body = b''.join(struct.pack('<qhI', start, step, length) for start, step, length in runs)
    return struct.pack('<IH', 2 + len(body), 1) + body


def elements(runs):
    return [start + step * k for start, step, length in runs for k in range(length)]


def refusal(runs, count, profile, end):
    """16, 14, then those of the column, then the window's. (A record is refused 2 and 3 as it is read, before all of these.)"""
    if profile not in (1, 2):
        return 16
    if count > 4294967295:
        return 14
    numbers = elements(runs)
    if any(b <= a for a, b in zip(numbers, numbers[1:])):
        return 7
    if any(not 0 <= n < count for n in numbers):
        return 15
    return 5 if end > count else 0


def window(runs, profile, start, end):
    """Those that carry the field, and those that are filled."""
    listed = set(elements(runs))
    carried = [i for i in range(start, end) if (i in listed) == (profile == 1)]
    has = set(carried)
    return carried, [i for i in range(start, end) if i not in has]


def ranges(numbers):
    found = []
    for n in numbers:
        if found and found[-1][1] + 1 == n:
            found[-1][1] = n
        else:
            found.append([n, n])
    return found


def as_lines(count, profile, start, end, carried, filled):
    rows = ''.join(f'{a} filled\n' if a == b else f'{a}..{b} filled\n' for a, b in ranges(filled))
    return (f'profile {profile}\nrecords {count}\nwindow {start} {end}\ncarried {len(carried)}\nfilled {len(filled)}\nadds up yes\nproof {PROOF}\n{rows}')


def csv_rows(count, profile, start, end, carried, filled):
    edges = [str(start), str(end - 1)] if start < end else ['', '']
    return [['row', 'first', 'last', 'value'], ['profile', '', '', str(profile)], ['records', '', '', str(count)],
            ['window', *edges, str(max(0, end - start))], ['carried', '', '', str(len(carried))], ['filled', '', '', str(len(filled))],
            ['adds up', '', '', 'yes'], ['proof', '', '', PROOF], *(['filled range', str(a), str(b), str(b - a + 1)] for a, b in ranges(filled))]


def as_json(count, profile, start, end, carried, filled):
    return {'profile': profile, 'records': count, 'start': start, 'end': end, 'carried': len(carried), 'filled': len(filled), 'adds_up': True,
            'proof': PROOF, 'filled_ranges': ranges(filled)}


class Page(html.parser.HTMLParser):
    """The page's tags, which have to close; its texts, by the tag and the class that they stand in."""

    def __init__(self, text):
        super().__init__(convert_charrefs=True)
        self.open, self.texts, self.bad = [], [], []
        self.feed(text)
        self.close()
        if self.open:
            self.bad.append(f'{[entry[0] for entry in self.open]} stay open')

    def handle_starttag(self, tag, attrs):
        names = dict(attrs)
        self.bad += [f'{tag} names {name}' for name in names if name in ('href', 'src', 'srcset', 'action', 'onclick', 'onload')]
        if tag in ('script', 'link', 'img', 'iframe', 'object', 'embed', 'base', 'a'):
            self.bad.append(f'{tag} stands there')
        if tag not in VOID:
            self.texts.append((tag, names.get('class', ''), []))
            self.open.append(self.texts[-1])

    def handle_startendtag(self, tag, attrs):
        pass

    def handle_endtag(self, tag):
        if not self.open or self.open[-1][0] != tag:
            self.bad.append(f'/{tag} closes {[entry[0] for entry in self.open[-1:]]}')
        else:
            self.open.pop()

    def handle_data(self, data):
        for entry in self.open[-1:]:
            entry[2].append(data)

    def of(self, tag, name=None):
        return [''.join(parts) for t, c, parts in self.texts if t == tag and (name is None or c == name)]


def shade(carried, size):
    return 0 if carried == 0 else 10 if carried == size else 1 + carried * 9 // size


def columns(start, end):
    """Up to 600, each with its share of what is left."""
    many, at = min(600, end - start), start
    for x in range(many):
        to = at + (end - at) // (many - x)
        yield at, to
        at = to


def page_faults(text, name, count, profile, start, end, carried, filled):
    page = Page(text)
    faults = list(page.bad)
    if re.search(r'url\(|@import|//(?!www\.w3\.org/2000/svg)', text):
        faults.append('it names something outside')
    tell = '{:,}'.format
    cards = re.findall(r'<b>([\d,]+)</b>', text)
    if cards != [tell(len(filled)), tell(len(carried)), tell(max(0, end - start))]:
        faults.append(f'its numbers are {cards}')
    if f'It adds up: {tell(len(filled))} filled + {tell(len(carried))} carried, of {tell(max(0, end - start))} records.' not in text:
        faults.append('it does not say that the numbers add up')
    if page.of('title')[0] != f'Filled logs: {name}' or page.of('code')[0] != name:
        faults.append(f'the file is {page.of("title")[0]!r}')
    shown = re.findall(r'<li>([^\n]*)</li>', text.split('<ul class="logs">')[1].split('</ul>')[0])
    want = [tell(a) if a == b else f'{tell(a)}&ndash;{tell(b)} <small>{tell(b - a + 1)}</small>' for a, b in ranges(filled)]
    if shown != want:
        faults.append(f'its list is {shown[:5]}, not {want[:5]}')
    pictures = re.findall(r'<svg.*?</svg>', text, re.S)
    if start >= end:
        return faults + (['an empty window has a picture'] if pictures else [])
    drawn = xml.fromstring(pictures[0])
    many = min(600, end - start)
    cells, ground = [0] * many, '{http://www.w3.org/2000/svg}rect'
    if drawn.get('viewBox') != f'0 0 {many} 1' or drawn.find(ground).get('width') != str(many):
        faults.append('the picture has another width')
    for rect in drawn.findall(ground)[1:]:
        x, width = int(rect.get('x')), int(rect.get('width'))
        cells[x:x + width] = [int(rect.get('class')[1:])] * width
    has = set(carried)
    if cells != [shade(sum(i in has for i in range(a, b)), b - a) for a, b in columns(start, end)]:
        faults.append('the picture is another')
    return faults


class Test:
    def __init__(self, command, folder):
        self.command, self.folder, self.run, self.bad = command, folder, 0, 0

    def call(self, *words):
        self.run += 1
        return subprocess.run([self.command, 'audit', *words], cwd=self.folder, capture_output=True)

    def differs(self, words, what):
        self.bad += 1
        print(f'audit: loftsplice audit {" ".join(words)}: {what}', file=sys.stderr)

    def audit(self, name, runs, count, profile, start, end, words):
        """One question, in every format."""
        number = refusal(runs, count, profile, end)
        if number:
            for form in ('', '--format=csv', '--format=json', '--format=html'):
                said = self.call(*words, *([form] if form else []))
                last = said.stderr.decode().splitlines()[-1:]
                if said.returncode != number or said.stdout or last != [f'refused {number} {NAMES[number]}']:
                    self.differs(words, f'{form} status {said.returncode}, last line {last}, not refused {number}')
            return
        told = (count, profile, start, end, *window(runs, profile, start, end))
        said = self.call(*words)
        if said.returncode or said.stderr or said.stdout.decode() != as_lines(*told):
            self.differs(words, f'says {said.stdout[:300]!r} {said.stderr!r}')
        said = self.call(*words, '--format', 'csv')
        if list(csv.reader(io.StringIO(said.stdout.decode()))) != csv_rows(*told):
            self.differs(words, f'as csv says {said.stdout[:300]!r}')
        said = self.call(*words, '--format', 'json')
        if json.loads(said.stdout) != as_json(*told):
            self.differs(words, f'as json says {said.stdout[:300]!r}')
        said = self.call(*words, '--format=html')
        for fault in page_faults(said.stdout.decode(), name, *told):
            self.differs(words, f'as html: {fault}')


def main():
    command = str(pathlib.Path(sys.argv[1]).resolve())
    if len(sys.argv) > 2:
        page = pathlib.Path(sys.argv[3])
        said = subprocess.run([command, 'audit', 'samples/bark.rec', '201', '--format', 'html'], cwd=ROOT, capture_output=True, check=True).stdout
        if sys.argv[2] == '--write':
            page.write_bytes(said)
        elif page.read_bytes() != said:
            sys.exit(f'audit: {page} is not what the command writes of the sample (scripts/audit.py COMMAND --write {page})')
        return
    bark = [(1, 1, 3), (5, 2, 4), (12, 0, 1), (20, 3, 5), (100, 100, 2)]
    with tempfile.TemporaryDirectory() as folder:
        test = Test(command, folder)

        def ask(name, runs, count, profile=1, *edges):
            (pathlib.Path(folder) / name).write_bytes(record(runs))
            words = [name, str(count), *(['--profile', str(profile)] if profile != 1 else []), *map(str, edges)]
            test.audit(name, runs, count, profile, *(edges or (0, count)), words)

        for profile in (1, 2):
            for count, *edges in ((201,), (300,), (201, 0, 0), (201, 5, 5), (201, 7, 3), (201, 200, 201), (201, 0, 1), (201, 3, 150), (4294967295, 0, 700),
                                  (4294967295, 4294967200, 4294967295), (4294967295, 5, 5), (4294967295, 150, 133000)):
                ask('bark', bark, count, profile, *edges)
            # 16, 14, 7, 15, 5, and which comes first
            ask('bark', bark, 200, profile)
            ask('bark', bark, 201, profile, 0, 202)
            ask('bark', bark, 200, profile, 0, 202)
            ask('bark', bark, 4294967296, profile)
            ask('falling', [(10, -5, 2)], 5, profile)
            ask('below', [(-1, 1, 3)], 5, profile)
            ask('none', [], 0, profile)
            ask('none', [], 70000, profile)
            ask('one', [(0, 0, 1)], 1, profile)
            ask('all', [(0, 1, 131100)], 131100, profile)
            ask('every', [(0, 2, 1000)], 2000, profile)
        for profile in (0, 3, 255, 256, 257, 258, 18446744073709551617 % 2**63):
            ask('bark', bark, 4294967296, profile)
        # names that are markup
        for name in ('<b>&amp;"\'.rec', 'a b\u00e4.rec'):
            ask(name, bark, 201)
        chance = random.Random(7)
        for turn in range(40):
            runs, at = [], chance.randrange(3)
            for _ in range(chance.randrange(6)):
                step, length = chance.randrange(1, 5), chance.randrange(1, 60)
                runs.append((at, step, length))
                at += step * (length - 1) + chance.randrange(1, 40)
            count = at + chance.randrange(3)
            edges = [] if turn % 3 == 0 else [chance.randrange(count + 2), chance.randrange(count + 2)]
            ask(f'turn{turn}', runs, count, chance.choice((1, 2)), *edges)
        for number, data in ((2, record([(0, 0, 0)])), (3, record([(2**63 - 1, 1, 2)])), (11, record(bark)[:-1]), (12, b'\x02\0\0\0\3\0')):
            (pathlib.Path(folder) / 'bad').write_bytes(data)
            if test.call('bad', '10').returncode != number:
                test.differs(['bad', '10'], f'is not refused {number}')
    if test.bad:
        sys.exit(f'audit: {test.bad} differences in {test.run} calls')
    print(f'audit: {test.run} reports are those of the window')


main()
