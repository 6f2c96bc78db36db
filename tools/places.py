#!/usr/bin/env python3
# Counts the places that docs/DESIGN-PASS.md speaks of, in the sources of the crates below a folder.
# Use: tools/places.py [FOLDER] [--list]. With --list each place is shown with its file and line.
import re, sys, os, glob

args = [a for a in sys.argv[1:] if not a.startswith('--')]
show = '--list' in sys.argv
top = args[0] if args else '.'

def files(sub, ending):
    found = []
    for d, _, names in os.walk(os.path.join(top, 'crates')):
        if f'{os.sep}{sub}' in d + os.sep and f'{os.sep}out' not in d:
            found += [os.path.join(d, n) for n in names if n.endswith(ending)]
    return sorted(found)

SRC = [(f, open(f).read().split('\n')) for f in files('src' + os.sep, '.rt')]
TEXT = [(f, '\n'.join(l)) for f, l in SRC]

def tell(name, places):
    print(f'{len(places):5}  {name}')
    if show:
        for p in places:
            print('         ' + p)

def lines(pattern, no=None, keep=lambda f: True):
    out = []
    for f, ls in SRC:
        if keep(f):
            for i, l in enumerate(ls, 1):
                if re.search(pattern, l) and not l.lstrip().startswith('//') and not (no and re.search(no, l)):
                    out.append(f'{f}:{i}: {l.strip()}')
    return out

# All functions: name, parameters as 'name: type', result.
FUN = []
for f, t in TEXT:
    for m in re.finditer(r'\bfn ([a-z_]+)\s*(<[^(]*>)?\s*\(', t):
        at, depth = m.end(), 1
        while depth:
            depth += {'(': 1, ')': -1}.get(t[at], 0)
            at += 1
        inside = t[m.end():at - 1]
        rest = t[at:at + 200]
        r = re.match(r'\s*->\s*([^\n{]+)', rest)
        parts, depth, word = [], 0, ''
        for ch in inside:
            depth += {'<': 1, '(': 1, '[': 1, '>': -1, ')': -1, ']': -1}.get(ch, 0)
            if ch == ',' and depth == 0:
                parts.append(word)
                word = ''
            else:
                word += ch
        parts.append(word)
        ps = [' '.join(p.split()) for p in parts if p.strip()]
        FUN.append((f, m.group(1), ps, (r.group(1).strip() if r else '')))

def product(f):
    return 'tests' not in f

print('1. shapes of Option and Result, flags, numbers for kinds and refusals')
ENUMS = []
for f, t in TEXT:
    for m in re.finditer(r'enum (\w+)[^{;]*\{([^}]*)\}', t):
        vs = [v.strip() for v in m.group(2).split(',') if v.strip() and not v.strip().startswith('//')]
        ENUMS.append((f, m.group(1), [re.sub(r'//.*\n', '', v).strip() for v in vs]))
tell('enums of two cases, one or none of which holds a value', [f'{f}: {n} {v}' for f, n, v in ENUMS if len(v) == 2 and sum('(' in x for x in v) <= 1])
tell('functions that change what is lent and answer a bare bool for whether they did', [f'{f}: {n}' for f, n, p, r in FUN if r == 'bool' and any('&mut' in x for x in p)])
tell('functions that answer a flag in a Result', [f'{f}: {n}' for f, n, p, r in FUN if re.match(r'Result<bool', r)])
tell('functions that answer why not as an Option', [f'{f}: {n} -> {r}' for f, n, p, r in FUN if re.match(r'Option<\w*(Refusal|Error)>', r)])
tell('matches from refusal to number', lines(r'::\w+ => (Some\()?\d+\)?,?$'))
tell('law calls that answer a number', [f'{f}: {n}' for f, n, p, r in FUN if r == 'u8' and not p])
tell('numbers and flags for kinds in tests', lines(r'\b(END|ROW)\b.*: u8|answer_number|\(bool, SongError\)|-> u8', no=r'^use ', keep=lambda f: not product(f)))
tell('enums for one use that stand between a test and a match', [f'{f}: {n}' for f, n, v in ENUMS if n in ('First', 'Stop')])

print('2. twins')
names = {}
for f, n, p, r in FUN:
    if product(f):
        names.setdefault(n, set()).add(f)
tell('functions of one name in several files of the product, but for methods of traits and constructors', sorted(f'{n}: {", ".join(sorted(os.path.relpath(x, top) for x in fs))}' for n, fs in names.items() if len(fs) > 1 and n not in ('fmt', 'from', 'try_from', 'ask', 'new', 'drop', 'missing_cell', 'yes_cell', 'no_cell', 'is_missing', 'largest', 'check')))
tell('tests of a column count from 1 to 16', lines(r'columns < 1|count < 1 .*16|columns > 16'))
tell('types that keep 1 to 16 columns or 4,096 rows by ghost fields of their own', lines(r'(≤ 16|≤ 4096) \},?$'))
tell('pairs of functions for one thing at two types or two sides', [f'{f}: {n}' for f, n, p, r in FUN if n in ('codes_alike', 'numbers_near', 'code_at', 'number_at', 'number_in', 'stands', 'fill', 'need_produce_right_in_final', 'need_produce_result_in_final', 'process_left_unmatched_range', 'process_right_unmatched')])
tell('structs of cells with a column count and a row count', lines(r'struct (Rows|LentRows|Sealed|Gathering|LeftTable)\b'))

print('3. loops')
tell('loops that count an index by hand', lines(r'^\s*(while|loop)\b', no=r'while take_|while let'))
tell('for loops over a range of numbers', lines(r'for \w+ in .*\.\.'))
tell('places that add one by hand', lines(r'\+= 1;'))

print('4. written by hand: equality, conversion, printing')
tell('equality', [f'{f}: {n}' for f, n, p, r in FUN if n in ('same',)])
tell('conversions that are a function', [f'{f}: {n}' for f, n, p, r in FUN if (n == 'of' or n == 'new' and len(p) == 1 and re.match(r'(Result|Option)<', r))])
tell('texts that are put together beside Display', [f'{f}: {n}' for f, n, p, r in FUN if product(f) and n != 'fmt' and (re.search(r'Result<String|anyhow::Error>$', r) or any('&mut String' in x for x in p))])

print('5. parameters that travel together, and facts told again and again')
pairs = {}
for f, n, p, r in FUN:
    if product(f):
        ps = sorted(x for x in p if 'self' not in x)
        for i in range(len(ps)):
            for j in range(i + 1, len(ps)):
                pairs.setdefault((ps[i], ps[j]), []).append(n)
tell('pairs of parameters of one name and type in three or more functions', [f'{a} + {b}: {", ".join(ns)}' for (a, b), ns in sorted(pairs.items()) if len(ns) >= 3])
tell('functions with seven or more parameters', [f'{f}: {n} ({len(p)})' for f, n, p, r in FUN if len(p) >= 7])
facts = {}
for f, t in TEXT:
    for m in re.finditer(r'requires (?:\w+ )?\{ (.*) \}$', t, re.M):
        facts.setdefault(m.group(1), []).append(f)
tell('requires told in three or more contracts', [f'{k}: {len(v)}' for k, v in facts.items() if len(v) >= 3])

print('6. buffers with a length beside them, parallel arrays')
out = []
for f, t in TEXT:
    for m in re.finditer(r'struct (\w+)[^{;]*\{([^}]*)\}', t):
        body = m.group(2)
        if re.search(r'\[\w+; \d+\]|&.*\[\w+\]|Vec<', body) and re.search(r'(count|rows|len|waiting): usize', body):
            out.append(f'{f}: {m.group(1)}')
tell('structs of a buffer and a length', out)
tell('functions that take a buffer and a count of what is in it', [f'{f}: {n}' for f, n, p, r in FUN if any(re.match(r'(page|waiting)\b.*\[', x) for x in p) and any(re.match(r'(count|waiting|rows): usize', x) for x in p)])
tell('functions that fill a buffer and answer how much', [f'{f}: {n}' for f, n, p, r in FUN if r == 'usize' and any('&mut' in x and ('Bytes' in x or '[' in x) for x in p)])

print('7. a switch on the step to run, tables of functions')
tell('matches on a state', lines(r'NLJState::\w+, |match .*\.state\b'))
tell('function pointers and tables of them', lines(r': fn\(|\[fn\('))

print('8. proofs')
ans = 0
lem = 0
alone = 0
for f in files('proofs' + os.sep, '.antt'):
    t = open(f).read()
    alone += t.count('\n')
    if f.endswith('Answers.antt'):
        ans += len(re.findall(r'^pub .* : goal\.', t, re.M))
    elif not f.endswith('Invariants.antt') and not f.endswith('Lib.antt'):
        lem += len(re.findall(r'^\s*(?:pub )?[^\s:=]+ : ', t, re.M))
print(f'{ans:5}  answers\n{lem:5}  lemmas\n{alone:5}  lines of proofs')
tell('uses of lemmas that the library will take away', [f'{f}' for f in files('specs' + os.sep, '.antt') + files('proofs' + os.sep, '.antt') if re.search(r'proofs\.ByRecursion|ContainsAt', open(f).read())])
