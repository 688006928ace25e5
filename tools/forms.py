#!/usr/bin/env python3
"""Counts the older forms that docs/DESIGN-PASS.md speaks of, in crates/*/src; with -l lists each place.
usage: python3 tools/forms.py [-l] [FOLDER]   (FOLDER holds crates/; the present one if none is given)"""
import glob, re, sys
from collections import Counter, defaultdict

SHAPE = 'Refused|Fault|FaultAt|None|Absent|Missing|Nothing|Done|Malformed|Over|Sound|Wrong|End|Unit'
KEYWORDS = set('fn pub let mut if else match return while loop for in true false break continue'.split())
listing = '-l' in sys.argv
args = [a for a in sys.argv[1:] if a != '-l']
root = args[0] if args else '.'
found = defaultdict(list)


def functions(text):
    """Each function's line, name and body."""
    for m in re.finditer(r'^\s*(?:pub )?fn (\w+)', text, re.M):
        i = m.end()
        depth = 0
        # the body begins with the first `{` at a line's start behind the clauses, or ends the signature's line
        start = re.compile(r'^ *\{$|\) (?:-> [^{;]*)?\{$', re.M).search(text, i)
        if not start:
            continue
        j = text.index('{', start.start())
        k = j
        while k < len(text):
            depth += {'{': 1, '}': -1}.get(text[k], 0)
            k += 1
            if depth == 0:
                break
        yield text[:m.start()].count('\n') + 1, m.group(1), text[j:k]


def shape(body):
    """The body with names and literals blotted out."""
    body = re.sub(r'//[^\n]*', '', body)
    tokens = re.findall(r"b?'(?:\\.|[^'])*'|b?\"[^\"]*\"|\w+|[^\s\w]", body)
    return [t if t in KEYWORDS or not re.match(r"\w|b?['\"]", t) else '_' for t in tokens]


twins = defaultdict(list)
clauses = Counter()
for f in sorted(glob.glob(root + '/crates/*/src/**/*.rt', recursive=True)):
    text = open(f, encoding='utf-8').read()
    name = f[len(root) + 1:]
    lines = text.split('\n')
    for i, line in enumerate(lines, 1):
        code = line.split('//')[0]
        place = f'{name}:{i}'
        if re.search(r'\b(\w+::)?(Refused|Fault)(\(\w+\))? => .*(Refused|Fault)\b', code):
            found['1 an arm that hands a refusal or a fault on'].append(place)
        if re.search(r'number: *\d|wrong_token\(.*, \d+\)|_parameter\(.*, \d\d,', code):
            found['1 a refusal by a bare number'].append(place)
        if re.search(r'\b(kind|role|number|first|punct): u8\b', code):
            found['1 a kind, a role or a refusal typed as a number'].append(place)
        if re.match(r'\s*while\b(?! let).*[<>!]', code):
            found['3 a loop that counts or steps by hand'].append(place)
        if re.search(r'return (true|false);', code):
            found['4 a truth returned from a ladder of ifs'].append(place)
        if re.search(r'\bs: &\[u8\],.*\bc: Cursor|\bc: Cursor,$', code):
            found['5 a list and a cursor as two parameters'].append(place)
        if re.search(r'\bout: &mut \[u8\], at: usize', code):
            found['5 an output and a place as two parameters'].append(place)
        if re.search(r'\[0(u8)?; \d+\]$', code.strip()):
            found['6 a buffer made by a function of its own'].append(place)
    for m in re.finditer(r'^(?:pub )?enum (\w+)[^{]*\{(.*?)^\}', text, re.M | re.S):
        if re.search(r'^ +(%s)[(,]' % SHAPE, m.group(2), re.M):
            found['1 an enum of its own with a case for nothing, an end or a refusal'].append(
                f'{name}: {m.group(1)}')
    for m in re.finditer(r'^\s*requires(?: \w+)? \{ *\(?(.*?)\}$', text, re.M | re.S):
        head = re.match(r'[A-Z]\w+', m.group(1))
        if head:
            clauses[head.group(0)] += 1
    for line, fn, body in functions(text):
        tokens = shape(body)
        if len(tokens) >= 24:
            twins[' '.join(tokens)].append(f'{name}:{line} {fn}')
for group in twins.values():
    if len(group) > 1:
        found['2 a function that differs from another in names or literals alone'] += [' = '.join(group)] * len(group)
for fact, n in clauses.items():
    if n >= 3:
        found['5 a fact required by three functions or more'] += [f'{fact} ({n})']
for point in sorted(found):
    places = found[point]
    print(f'{len(places):4}  {point}')
    if listing:
        for p in dict.fromkeys(places):
            print('          ' + p)
