#!/usr/bin/env python3
"""design_places.py [-v] [DIR]: the places of the eight points of docs/DESIGN-PASS.md in the .rt files below DIR (default crates), counted by
patterns; -v lists them. A row is a place to look at; what stands in the page was read."""
import collections, difflib, os, re, sys

args = [a for a in sys.argv[1:] if a != '-v']
verbose = '-v' in sys.argv
root = args[0] if args else 'crates'
rows = collections.OrderedDict()


def row(point, what, place):
    rows.setdefault((point, what), []).append(place)


Fn = collections.namedtuple('Fn', 'path line name params result clauses body')


def functions(path, text):
    lines = text.split('\n')
    for n, l in enumerate(lines):
        m = re.match(r'( *)(?:pub )?(?:const )?(?:extern "C" )?fn (\w+)', l)
        if not m:
            continue
        end = next((k for k in range(n + 1, len(lines)) if lines[k] == m[1] + '}'), n)
        if l.rstrip().endswith('}'):
            end = n
        whole = lines[n:end + 1]
        start = next((k for k, t in enumerate(whole) if t == m[1] + '{'), None)
        if start is None:
            start = next((k for k, t in enumerate(whole) if t.endswith('{')), 0)
        head = ' '.join(t.strip() for t in whole[:start + 1])
        clauses = [t.strip() for t in whole[:start] if re.match(r'\s*(requires|ensures)\b', t)]
        sig = re.split(r'\b(?:requires|ensures)\b', head)[0]
        p = re.search(r'\((.*)\)', sig)
        params = [q.strip() for q in re.split(r',(?![^<\[(]*[>\])])', p[1])] if p and p[1].strip() else []
        params = [q for q in params if q and ':' in q]
        result = (re.search(r'\) -> ([^{]*)', sig) or [None, ''])[1].strip()
        yield Fn(path, n + 1, m[2], params, result, clauses, whole[start + 1:-1])


fns = []
for d, _, names in sorted(os.walk(root)):
    if '/target' in d or '/out' in d or not d.endswith('/src'):
        continue
    for f in sorted(names):
        if not f.endswith('.rt'):
            continue
        path = os.path.join(d, f)
        text = open(path, encoding='utf-8').read()
        code = re.sub(r'//.*', '', text)
        at = lambda m: f'{path}:{text[:m.start()].count(chr(10)) + 1}'
        for m in re.finditer(r'^(?:pub )?enum (\w+) \{(.*?)^\}', text, re.M | re.S):
            if re.search(r'\b(Bad|Failed|Refused|CutShort\b)', m[2]) and m[1] != 'Refusal':
                row(1, 'own enum of the shape of Option or Result', f'{at(m)} {m[1]}')
        for m in re.finditer(r'^(?:pub )?struct (\w+)[^;{]*\{(.*?)^\}', text, re.M | re.S):
            if ': bool' in m[2]:
                row(1, 'flag with values beside it', f'{at(m)} {m[1]}')
            for k in re.findall(r'\b(?:kind: u8|side: u32|category: u32)', m[2]):
                row(1, 'number for a kind', f'{at(m)} {m[1]}: {k}')
        for m in re.finditer(r'^(\s*)(while|loop)\b.*', text, re.M):
            row(3, 'loop with its index or place kept by hand', f'{at(m)} {m[0].strip()}')
        fns += list(functions(path, text))

facts = collections.defaultdict(set)
for f in fns:
    place = f'{f.path}:{f.line} {f.name}'
    body = '\n'.join(f.body)
    for p in f.params:
        if re.match(r'(kind: u8|side: u32|category: u32)$', p):
            row(1, 'number for a kind', f'{place}: {p}')
    if re.match(r'(refusal_number|number_of)$', f.name):
        row(1, 'number for a refusal or a verdict', place)
    if re.match(r'fault$', f.name):
        row(1, 'a fault told of what has none', place)
    if f.result == 'bool' and any('&mut' in p for p in f.params):
        row(1, 'flag that says whether what was lent has changed', place)
    if re.search(r'(^|\n)    (BUCKETS|256|33|0|at)$', body) or re.search(r'_ => (256|0),', body):
        row(1, 'a number that stands for none', place)
    if re.search(r'if (\S+) < (\S+) \{\s*return [^;]*;\s*\}\s*\S+$', body) and len(f.body) <= 6 and f.result not in ('bool',):
        row(4, 'minimum by hand', place)
    if re.search(r'< 0 \{', body) and re.search(r'(0\)|as u64 \+ 1)', body):
        row(4, 'magnitude or maximum by hand', place)
    if re.search(r'\* (256|16777216)\b', body) or re.search(r'- 4294967296', body):
        row(4, 'number of its bytes by hand', place)
    if re.search(r'48 \+|n < 10 \{', body) or f.name in ('put_number', 'put_pointed', 'put_signed_pointed'):
        row(4, 'number printed by hand', place)
    if re.fullmatch(r'(clear|copy|copy_rates|fill)', f.name):
        row(4, 'copied or filled by hand', place)
    if f.name in ('of', 'widened') or (len(f.body) <= 22 and re.search(r'=> 1,\s', body) and f.name.endswith(('number', 'number_of'))):
        row(4, 'conversion by hand', place)
    if len(f.params) >= 6:
        row(5, 'six parameters or more', f'{place}: {len(f.params)}')
    for c in f.clauses:
        if c.startswith('requires'):
            for fact in re.findall(r'\b([A-Z]\w+(?: [A-Z]\w+)?)(?= )', c):
                facts[fact].add(place)
            for fact in re.findall(r'(\w+\.now ≡ (?:\w+\.)?\w+|1 ≤ currency|length \w+\.\w+ ≡ \w+)', c):
                facts[re.sub(r'\.old|\.now(?= ≡)', '', fact)].add(place)
    names = {p.split(':')[0].replace('mut ', '').strip() for p in f.params}
    types = ' '.join(f.params)
    if '[u8]' in types and names & {'at', 'from', 'filled'}:
        row(6, 'bytes with a place or a count beside them', place)
    if any(re.search(r': bool$', p) for p in f.params):
        row(7, 'a flag that chooses', place)
    if re.search(r'match (kind|scenario)\b', body):
        row(7, 'a switch on a number', place)
for fact, places in sorted(facts.items(), key=lambda e: -len(e[1])):
    if len(places) >= 3:
        row(5, 'a fact in three contracts or more', f'{fact}: {len(places)}')


def shape(f):
    s = ' '.join(t.strip() for t in f.params + f.body)
    return re.findall(r'[A-Za-z_]+|\S', re.sub(r'\b\d[\d_]*\b', '#', s))


shapes = [(f, shape(f)) for f in fns if len(f.body) >= 3]
for i, (f, a) in enumerate(shapes):
    for g, b in shapes[:i]:
        if min(len(a), len(b)) * 1.5 < max(len(a), len(b)):
            continue
        m = difflib.SequenceMatcher(None, a, b, autojunk=False)
        if m.real_quick_ratio() > 0.8 and m.quick_ratio() > 0.8 and m.ratio() > 0.8:
            row(2, 'functions alike but for names and numbers', f'{f.path}:{f.line} {f.name} = {g.path}:{g.line} {g.name}')

answers = 0
for d, _, names in os.walk(root):
    for f in names:
        if f == 'Answers.antt' and '/target' not in d and '/out' not in d:
            answers += len(re.findall(r'^(?:pub )?\S+ : goal\.', open(os.path.join(d, f), encoding='utf-8').read(), re.M))
rows[(8, 'answers in Answers.antt')] = [''] * answers

for (point, what), places in sorted(rows.items(), key=lambda e: e[0][0]):
    print(f'{point}  {len(places):4}  {what}')
    if verbose and point != 8:
        for p in places:
            print(f'         {p}')
