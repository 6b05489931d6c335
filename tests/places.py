#!/usr/bin/env python3
"""Counts the places of docs/DESIGN-PASS.md, point by point. Run at the top: tests/places.py [POINT]; with a point it lists them."""
import glob
import re
import sys
from collections import defaultdict

FN = re.compile(r'^[ \t]*(?:pub(?:\(crate\))? )?(?:const )?(?:extern "C" )?fn (\w+)', re.M)
WORD = r'(?:u8|u16|u32|u64|usize|i8|i16|i32|i64)'


def bare(text):
    return re.sub(r'//[^\n]*', '', text)


def functions():
    for path in sorted(glob.glob('crates/*/src/**/*.rt', recursive=True)):
        text = bare(open(path).read())
        for m in FN.finditer(text):
            at, depth, opened, i = m.end(), 0, None, m.end()
            braces = []
            while i < len(text):
                c = text[i]
                if c == '{':
                    if depth == 0:
                        opened = i
                    depth += 1
                elif c == '}':
                    depth -= 1
                    if depth == 0:
                        head = text[at:opened].rstrip()
                        if re.search(r'(requires|ensures)( \w+)?$', head.split('\n')[-1].strip()) or head.endswith(('requires', 'ensures')):
                            braces.append((opened, i + 1))
                        else:
                            break
                i += 1
                if depth == 0 and c == '}' and opened is not None:
                    nxt = text[i:i + 80].lstrip()
                    if not nxt.startswith(('{', 'ensures', 'requires')):
                        break
                    opened = None
            sig = text[m.start():braces[0][0]] if braces else text[m.start():opened]
            clauses = [text[a:b] for a, b in braces]
            body = text[opened:i + 1].rstrip() if opened is not None else ''
            yield path, text[:m.start()].count('\n') + 1, m.group(1), sig, clauses, body


def items(kind):
    for path in sorted(glob.glob('crates/*/src/**/*.rt', recursive=True)):
        text = bare(open(path).read())
        for m in re.finditer(r'^(?:pub )?%s (\w+)[^{;]*\{\n(.*?)^\}' % kind, text, re.M | re.S):
            yield path, text[:m.start()].count('\n') + 1, m.group(1), m.group(2)


def variants(body):
    parts, depth, last = [], 0, ''
    for c in body:
        depth += c in '{(['
        depth -= c in '})]'
        if c == ',' and depth == 0:
            parts.append(last.strip())
            last = ''
        else:
            last += c
    return [p for p in parts + [last.strip()] if p]


def shaped(vs):
    if len(vs) != 2:
        return False
    plain = [v for v in vs if re.fullmatch(r'\w+', v)]
    refused = [v for v in vs if 'Refusal' in v or v.startswith('Refused')]
    return (len(plain) == 1 or bool(refused)) and len(plain) < 2


def point1():
    for path, line, name, body in items('enum'):
        if shaped(variants(body)):
            yield f'{path}:{line} enum {name}: ' + ' | '.join(re.sub(r'\s+', ' ', v) for v in variants(body))
    for path, line, name, sig, _, body in functions():
        if re.search(r'-> (u8|u32)\b', sig) and re.search(r'\.number\(\)|\btold\(|=> 6[456]\b|return 6[456];|^\s*6[456]$', body, re.M):
            yield f'{path}:{line} fn {name}: the number of a refusal'
        if re.search(r'\* 65536', body) and '-> usize' in sig:
            yield f'{path}:{line} fn {name}: a pair as one number'
    for path, line, name, body in items('struct'):
        if re.search(r': bool', body) and re.search(r'\b(is|has|found|ok|known|got|whole)_?\w*: bool', body):
            yield f'{path}:{line} struct {name}: a flag beside values'


def point2():
    same = defaultdict(list)
    for path, line, name, sig, _, body in functions():
        if len(re.findall(r'\S+', body)) < 12:
            continue
        crate = path.split('/')[1]
        t = re.sub(r'\b\d[\w]*\b|0x[0-9A-Fa-f]+', 'N', body)
        t = re.sub(r'\b%s\b' % WORD, 'T', t)
        t = re.sub(r'\b[A-Z]\w*(::\w+)*', 'V', t)
        t = re.sub(r'\b\w+(::\w+)*\(', 'f(', t)
        t = re.sub(r'\.\w+', '.m', t)
        t = re.sub(r'\b[a-z_]\w*\b', 'v', t)
        same[re.sub(r'\s+', ' ', t)].append(f'{path}:{line} fn {name}')
    for group in same.values():
        if len(group) > 1:
            yield ' ~ '.join(group)


def point3():
    for path in sorted(glob.glob('crates/*/src/**/*.rt', recursive=True)):
        for n, text in enumerate(open(path), 1):
            if re.match(r'\s*(while|loop)\b', text):
                yield f'{path}:{n} {text.strip()}'


def point4():
    for path, line, name, sig, _, body in functions():
        arms = re.findall(r'=>', body)
        one = re.search(r'\((?:self|\w+: \w+(?:::\w+)*)\)', sig)
        inner = re.fullmatch(r'\{\s*match \w+ \{(.*)\}\s*\}', body, re.S)
        flat = inner and all(re.fullmatch(r'[\w:| ]+=> [\w:]+,?', a.strip()) for a in inner.group(1).split('\n') if a.strip())
        if name in ('default', 'eq', 'ne', 'clone', 'cmp', 'from', 'fmt') and 'impl' not in sig:
            yield f'{path}:{line} fn {name}'
        elif one and len(arms) > 1 and flat:
            yield f'{path}:{line} fn {name}: a table from one value to another'
        elif re.match(r'(same|is_same|equal|is_equal)\w*', name):
            yield f'{path}:{line} fn {name}: equality'


def point5():
    facts, pairs = defaultdict(set), defaultdict(set)
    for path, line, name, sig, clauses, _ in functions():
        where = f'{path}:{name}'
        for c in clauses:
            for p in re.split(r'×', c):
                p = re.sub(r'\s+', ' ', p.strip(' {}()\n'))
                p = re.sub(r'^\((.*)\)$', r'\1', p)
                if re.match(r'(Seven|Fits|Is|Closed|SizesOf|contents|At|Whole)\b', p):
                    facts[re.sub(r'\b[a-z]\.(now|old)', 'x', p)].add(where)
        ps = re.findall(r'(\w+): ([^,()]+)', sig.split('->')[0])
        for i in range(len(ps) - 1):
            a, b = ps[i], ps[i + 1]
            pairs[f'{a[0]}: {a[1].strip()}, {b[0]}: {b[1].strip()}'].add(where)
    for k, v in sorted(facts.items(), key=lambda x: -len(x[1])):
        if len(v) >= 3:
            yield f'{len(v)} contracts: {k}'
    for k, v in sorted(pairs.items(), key=lambda x: -len(x[1])):
        if len(v) >= 5:
            yield f'{len(v)} signatures: {k}'


def point6():
    for path, line, name, body in items('struct'):
        if re.search(r'\[\w+; ?\w+\]', body) and re.search(r'\b(n|len|count|size|used|at)\w*: (usize|u64|u32|u16)', body):
            yield f'{path}:{line} struct {name}: a buffer and its length'
    for path, line, name, sig, _, _ in functions():
        flat = re.sub(r'\s+', ' ', sig)
        if re.search(r': &?(mut )?\[\w+; ?\w+\],', flat) and re.search(r'\b(n|len|count|used): usize', flat):
            yield f'{path}:{line} fn {name}: a buffer and its length'
        elif re.search(r'(words|values|entries|room|out): &(mut )?\[\w+\], (n|len|count): usize', flat):
            yield f'{path}:{line} fn {name}: a slice and how much of it'


def point7():
    for path, line, name, sig, _, body in functions():
        arms = re.findall(r'=> (?:\w+::)*\w+\(([^()]*)\),', body)
        if len(arms) >= 5 and len(set(arms)) == 1:
            yield f'{path}:{line} fn {name}: {len(arms)} arms that call with the same arguments'


def point8():
    lines = answers = 0
    for path in glob.glob('crates/*/proofs/**/*.antt', recursive=True):
        text = open(path).read()
        lines += text.count('\n')
        answers += len(re.findall(r'^pub [\w.-]+ : goal\.', text, re.M)) if path.endswith('Answers.antt') else 0
    yield f'{lines} lines of proofs, {answers} answers'


def main():
    points = {str(n): f for n, f in enumerate((point1, point2, point3, point4, point5, point6, point7, point8), 1)}
    for n, f in points.items():
        found = list(f())
        print(f'point {n}: {len(found)}' if n != '8' else f'point 8: {found[0]}')
        if sys.argv[1:] == [n]:
            print('\n'.join(found))


main()
