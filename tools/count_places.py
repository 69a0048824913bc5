#!/usr/bin/env python3
"""Lists the places in src/ that could stand in a newer form, point by point: tools/count_places.py [FOLDER].

A place is a line that one of the patterns below finds. For twins (point 2) it is a function whose body is another's
once names, numbers and types are left out; for facts and parameters (point 5) a clause, or a pair of parameters, that
stands in three or more functions. The list is of candidates: docs/DESIGN-PASS.md says what became of each."""
import collections
import pathlib
import re
import sys

ROOT = pathlib.Path(sys.argv[1] if len(sys.argv) > 1 else '.')
FILES = sorted(ROOT.glob('crates/*/src/**/*.rt'))
TESTS = ROOT / 'crates/tests'

PATTERNS = {
    '1 own Option or Result, flags, codes': [
        r'^    (Unmade|Refused)\b', r'let mut \w+ = (true|false);', r'-> i64', r'\bkind: u8\b',
        r'\b(clock|marks|letter): char\b', r'fn (number|kind|amount|lowest_free)\(.*-> u(8|32)$'],
    '3 loops that count by hand': [r'\bfor \w+ in [^{]*\.\.', r'\bwhile\b', r'\bfor \(\w+, '],
    '4 equality, order, copies, conversion, printing by hand': [
        r'^impl.* (Clone|Copy) for', r'fn (max|min|is_later|is_at)\(', r'\.(value|number|time)(\(\))? (==|!=|<=?|>=?) ',
        r'^    pub fn new\(\w+: u\d+\) -> Result', r'fn (decimal|signed|byte|text|stamp|refusal|value|version|shown|read|basis|amount|answer)\(&mut self',
        r"=> b'"],
    '6 buffers with a length, parallel arrays, indices': [r': \[[^\]]+; ?[\w:]+\]', r'ArrayVec<\w+, \w+>', r'\bplace\(', r'&(mut )?\w+\[\w*\.\.'],
    '7 switches and tables of steps': [r'^pub(\(crate\))? trait', r'\bdyn\b', r'fn\(', r'\w+::\w+\(group\) =>'],
}


def code(path):
    return [(n, line.rstrip()) for n, line in enumerate(path.read_text().splitlines(), 1)
            if not line.lstrip().startswith(('//', 'ghost use'))]


def functions(path):
    """Name, clauses, parameters and body of each function."""
    lines = path.read_text().splitlines()
    at = 0
    while at < len(lines):
        head = re.match(r'( *)(pub(\(crate\))? )?(extern "C" )?fn (\w+)', lines[at])
        if not head or lines[at].rstrip().endswith(';'):
            at += 1
            continue
        pad, name, start = head.group(1), head.group(5), at
        while at < len(lines) and lines[at].rstrip() not in (pad + '}', pad + '{}') and not lines[at].rstrip().endswith('{}'):
            at += 1
        text = lines[start:at + 1]
        opened = next((i for i, line in enumerate(text) if line.rstrip() in (pad + '{', pad + '{}') or (i == 0 and line.rstrip().endswith('{'))), 0)
        clauses = [line.strip() for line in text[:opened] if re.match(r'\s*(requires|ensures)', line)]
        params = re.findall(r'(\w+): (&?[\w:<>\' ,\[\]]+?)[,)]', ' '.join(text[:opened + 1]).split(' requires')[0].split(' ensures')[0])
        yield name, start + 1, clauses, params, text[opened + 1:-1]
        at += 1


def shape(body):
    text = ' '.join(line.split('//')[0].strip() for line in body)
    text = re.sub(r'b?"[^"]*"|b?\'[^\']\'', 'S', text)
    return re.sub(r'[\w:]+', 'w', text).replace(' ', '')


def show(title, places):
    print(f'== {title}: {len(places)}')
    for place in places:
        print('   ' + place)


files = [path for path in FILES if TESTS not in path.parents]
for title, patterns in PATTERNS.items():
    show(title, [f'{path.relative_to(ROOT)}:{n}: {line.strip()}' for path in files for n, line in code(path)
                 if any(re.search(pattern, line) for pattern in patterns)])

shapes, clauses, pairs = collections.defaultdict(list), collections.defaultdict(list), collections.defaultdict(list)
for path in files:
    for name, line, facts, params, body in functions(path):
        at = f'{path.relative_to(ROOT)}:{line} {name}'
        if len(shape(body)) > 12:
            shapes[shape(body)].append(at)
        for fact in facts:
            if fact.startswith('requires') or re.match(r'ensures (own|sites|short)', fact):
                clauses[re.sub(r'\d+', 'N', fact)].append(at)
        for i, one in enumerate(params):
            for two in params[i + 1:]:
                pairs[f'{one[0]}: {one[1]}, {two[0]}: {two[1]}'].append(at)
show('2 twins, by shape', [', '.join(group) for group in shapes.values() if len(group) > 1])
show('5 facts in three or more contracts', [f'{len(group)}: {fact}' for fact, group in sorted(clauses.items()) if len(group) > 2])
show('5 parameters that travel together', [f'{len(group)}: {pair}' for pair, group in sorted(pairs.items()) if len(group) > 2])
