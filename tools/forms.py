#!/usr/bin/env python3
"""forms.py [POINT ..] [--at FOLDER]: the places in crates/*/src of which docs/DESIGN-PASS.md keeps count, point by point, and how many there are.

1 own enums of the shape of Option or Result, a flag beside values, a number for a kind or a refusal   2 functions and types that differ in names alone
3 loops that count by hand   4 tests, copies and conversions written out   5 facts of a value that three contracts or more ask
6 a length beside a buffer, arrays side by side   7 a bool that chooses what is done   8 answers of proofs"""
import collections
import glob
import os
import re
import sys

ARGS = sys.argv[1:]
AT = ARGS.pop(ARGS.index('--at') + 1) if '--at' in ARGS else os.path.join(os.path.dirname(os.path.abspath(__file__)), '..')
POINTS = [a for a in ARGS if a.isdigit()] or list('12345678')
NOTHING = {'Refused', 'Bad', 'Over', 'Sound', 'Accepted', 'Nowhere', 'NoPlan', 'Astray'}


def sources():
    for path in sorted(glob.glob(os.path.join(AT, 'crates', '*', 'src', '*.rt'))):
        text = open(path, encoding='utf-8').read()
        yield path.split('crates' + os.sep, 1)[1].replace(os.sep + 'src', ''), text


def bare(text):
    """the lines that are no comment, no `use` and no attribute"""
    return '\n'.join(l for l in text.split('\n') if not re.match(r'\s*(//|#|(pub )?use |ghost use )', l))


def functions(text):
    """name, head with its clauses, body of each function"""
    text = bare(text)
    for m in re.finditer(r'(?m)^( *)(?:pub )?(?:extern "C" )?fn (\w+)', text):
        end = re.compile(rf'(?m)^{m.group(1)}\}}$').search(text, m.end())
        lines = text[m.start():end.end() if end else len(text)].split('\n')
        start = next((i for i, l in enumerate(lines) if l == m.group(1) + '{' or (l.endswith('{') and not re.match(r'\s*(requires|ensures)', l))), 0)
        yield m.group(2), '\n'.join(lines[:start + 1]), '\n'.join(lines[start:])


def point_1():
    for where, text in sources():
        for m in re.finditer(r'(?ms)^(?:pub )?enum (\w+) \{\n(.*?)^\}', text):
            variants = re.findall(r'(?m)^    (\w+)(\(?)', re.sub(r'//.*', '', m.group(2)))
            carry = sum(1 for _, p in variants if p)
            if (len(variants) == 2 and carry <= 1) or NOTHING & {v for v, _ in variants}:
                yield where, f'enum {m.group(1)}'
        for m in re.finditer(r'(?ms)^(?:pub )?struct (\w+) \{\n(.*?)^\}', text):
            for flag in re.findall(r'(?m)^    (?:pub )?(judged|known|failed|over|full|more|whole): (?:bool|Outcome|Result<\(\), Refusal>)', m.group(2)):
                yield where, f'struct {m.group(1)}, {flag}'
        for m in re.finditer(r'fn (\w+)\([^)]*\b(?:kind|number): u8\b', text):
            yield where, f'fn {m.group(1)}, a number'


def shape(body):
    body = re.sub(r'b?"[^"]*"', 's', body)
    body = re.sub(r'\b[A-Za-z_]\w*\b', lambda m: m.group(0) if m.group(0) in KEYWORDS else 'x', body)
    return re.sub(r'\s+', ' ', re.sub(r'\b\d+\w*\b', '0', body))


KEYWORDS = set('match if else while for loop return let mut in break true false Some None Ok Err as'.split())


def point_2():
    seen = collections.defaultdict(list)
    for where, text in sources():
        if where.startswith(('face_c/', 'benches_c/', 'cases/')):
            continue
        for name, _, body in functions(text):
            s = shape(body)
            if s.count('x') >= 6:
                seen['fn ' + s].append((where, name))
        for m in re.finditer(r'(?ms)^(?:pub )?struct (\w+) \{\n(.*?)^\}', bare(text)):
            fields = re.sub(r'(?m)^    (?:pub )?|\[u8; \w+\]', lambda m: '[bytes]' if 'u8' in m.group(0) else '', m.group(2))
            if '[bytes]' in fields:
                seen['struct ' + fields].append((where, m.group(1)))
    for s, places in seen.items():
        if len(places) > 1:
            for where, name in places:
                yield where, f'{name}, like ' + ', '.join(n for w, n in places if (w, n) != (where, name))[:60]


def point_3():
    for where, text in sources():
        for name, _, body in functions(text):
            for m in re.finditer(r'(?m)^\s*(?:\'\w+: )?while ([^{]*)\{', body):
                counted = [v for v in re.findall(r'\b\w+\b', m.group(1)) if re.search(rf'(?m)^\s*{v} (\+|-)= ', body) or re.search(rf'(?m)^\s*{v} = {v} (\+|-) ', body)]
                if counted:
                    yield where, f'fn {name}, while {m.group(1).strip()}'
            for m in re.finditer(r'(?m)^\s*loop \{', body):
                yield where, f'fn {name}, loop'


def point_4():
    for where, text in sources():
        for name, _, body in functions(text):
            n = len(re.findall(r'return (?:true|false);', body))
            if n:
                yield where, f'fn {name}, {n} return of a truth value'
            for v in re.findall(r'let (\w+) = \w+\.\1;', body):
                yield where, f'fn {name}, let {v}'
            same = len(re.findall(r'(?m)^\s*(\w+): \w+\.\1,$', body))
            if same >= 3:
                yield where, f'fn {name}, {same} fields copied'
            if re.search(r'let mut next = s;', body):
                yield where, f'fn {name}, a copy changed'
            if len(re.findall(r'(?m)^\s*(?:\w+::)?\w+(?:\([^)]*\))? => (?:\w+::\w+\(\w+\)|(?:Ok|Err|Some)\(\w+\)|None|\d+|\w+\.0|\w+),$', body)) >= 2 and 'match' in body:
                yield where, f'fn {name}, a match that hands on'


def facts(head):
    for clause in re.findall(r'requires(?: \w+)? \{ (.*) \}', head):
        for fact in re.split(r' × ', clause):
            fact = fact.strip()
            while fact.startswith('(') and fact.endswith(')') and fact.count('(') == fact.count(')'):
                fact = fact[1:-1]
            yield re.sub(r'\b[a-z]\w*\.(now|old|new)\b|\b[a-z]\b', 'v', fact)


def point_5():
    seen = collections.defaultdict(list)
    for where, text in sources():
        if where.startswith(('face_c/', 'benches_c/')):
            continue
        for name, head, _ in functions(text):
            for fact in set(facts(head)):
                # the bounds of a slice, of a place in it and of a number are said where they are asked
                if not re.search(r'^(\d+ ≤ \w+|\w+ ≤ most_\w+|\w+ < \w+|.* ≤ length v|.*length v (≤|<) .*|.*< length v|v < .*|Among .*)$', fact):
                    seen[fact].append((where, name))
    for fact, places in sorted(seen.items()):
        if len(places) >= 3:
            for where, name in places:
                yield where, f'fn {name}: {fact}'


def point_6():
    for where, text in sources():
        for m in re.finditer(r'(?ms)^(?:pub )?struct (\w+)[^{\n]*\{\n(.*?)^\}', text):
            arrays = re.findall(r': \[', m.group(2))
            if arrays and re.search(r'\blen: usize', m.group(2)):
                yield where, f'struct {m.group(1)}, a length beside a buffer'
            if len(arrays) > 1:
                yield where, f'struct {m.group(1)}, arrays side by side'
        for name, _, body in functions(text):
            if re.search(r'let (?:n|k) = \w+\.len;', body):
                yield where, f'fn {name}, a buffer cut by its length'


def point_7():
    for where, text in sources():
        for name, head, body in functions(text):
            for flag in re.findall(r'\b(\w+): bool', head):
                if re.search(rf'(?m)^    if !?{flag} \{{', body):
                    yield where, f'fn {name}, if {flag}'


def point_8():
    for path in sorted(glob.glob(os.path.join(AT, 'crates', '*', 'proofs', '**', 'Answers.antt'), recursive=True)):
        text = open(path, encoding='utf-8').read()
        where = path.split('crates' + os.sep, 1)[1]
        for name in re.findall(r'(?m)^pub ([\w-]+) : goal\.', text):
            yield where, name


for p in POINTS:
    places = list(globals()['point_' + p]())
    if len(POINTS) == 1:
        for where, what in places:
            print(f'{where}: {what}')
    print(f'point {p}: {len(places)}')
