#!/usr/bin/env python3
"""Counts the places of docs/DESIGN-PASS.md: python3 tools/places.py [COMMIT] [POINT] [-v]

Reads crates/*/src (and, for point 8, crates/*/proofs) of a commit, or of the working tree, and prints for each point how many places it finds;
with -v each of them. What a place is says the table of that page."""
import collections, difflib, re, subprocess, sys

args = [a for a in sys.argv[1:] if a != '-v']
verbose = '-v' in sys.argv
commit = next((a for a in args if not re.fullmatch('[1-8]', a)), None)
points = [int(a) for a in args if re.fullmatch('[1-8]', a)] or list(range(1, 9))


def git(*a):
    return subprocess.run(('git',) + a, capture_output=True, text=True, check=True).stdout


def files(pattern):
    names = git('ls-tree', '-r', '--name-only', commit) if commit else git('ls-files')
    for name in names.splitlines():
        if re.fullmatch(pattern, name):
            yield name, git('show', f'{commit}:{name}') if commit else open(name).read()


def bare(text):
    return re.sub(r'//[^\n]*', '', text)


def functions(text):
    """Each function: name, parameters as (name, type), result, clauses, body."""
    for m in re.finditer(r'\bfn (\w+)(?:<[^(]*>)?\(', text):
        depth, i = 1, m.end()
        while depth:
            depth += {'(': 1, ')': -1}.get(text[i], 0)
            i += 1
        raw, head = text[m.end():i - 1], text[i:]
        body_at = re.search(r'\n\s*\{\n|\) \{\n|-> [^{\n]*\{\n|^ \{\n', head)
        clauses = head[:body_at.start()] if body_at else head
        j = head.index('{\n', body_at.start()) if body_at else 0
        depth, k = 0, j
        while True:
            depth += {'{': 1, '}': -1}.get(head[k], 0)
            k += 1
            if depth == 0:
                break
        params = [tuple(x.strip() for x in p.split(':', 1)) for p in re.split(r',(?![^<\[(]*[>\])])', raw) if ':' in p]
        result = re.match(r'\s*->\s*([^\n{]+)', head)
        yield m.group(1), params, result.group(1).strip() if result else '', clauses, head[j:k]


src = [(n, bare(t)) for n, t in files(r'crates/[^/]+/src/.*\.rt')]
fns = [(n.split('/')[1], *f) for n, t in src for f in functions(t)]


def lines(pattern):
    return [f'{n}: {l.strip()}' for n, t in src for l in t.splitlines() if re.search(pattern, l)]


def show(point, what, found):
    print(f'{point}  {what}: {len(found)}')
    if verbose:
        for f in found:
            print('     ', f)


if 1 in points:
    show(1, 'enums', lines(r'^\s*(pub )?enum '))
    show(1, 'bool fields', lines(r'^\s+pub \w+: bool,$'))
    show(1, 'numbers for refusals', lines(
        r'refusal: u64|refusal\(.*-> u64|answer_of\(\w+: u64|number: u64\)|return \d+;|Refused\((\d+|u64|n|number|refusal)\)'
        r'|refused(_in)?\(\w+, ?(\d+|number|refusal)\)|unmoved\(\w+, [\w.]+\)|settled\(.*\d+\)|refusal: (\d+|none)'))
if 2 in points:
    def shape(body):
        return ['n' if re.fullmatch(r'\d\w*', t) else 'i' if re.match(r'\w', t) and t not in WORDS else t
                for t in re.findall(r'\w+|\S', body)]
    WORDS = set('if else match let mut return while for in loop true false self'.split())
    bodies = [(c, name, shape(body)) for c, name, _, _, _, body in fns if len(re.findall(r'\w+|\S', body)) >= 30]
    pairs = []
    for a in range(len(bodies)):
        for b in range(a):
            x, y = bodies[a][2], bodies[b][2]
            if min(len(x), len(y)) * 1.15 < max(len(x), len(y)):
                continue
            m = difflib.SequenceMatcher(None, x, y, autojunk=False)
            if m.quick_ratio() >= 0.92 and m.ratio() >= 0.92:
                pairs.append(f'{bodies[b][0]}::{bodies[b][1]} ~ {bodies[a][0]}::{bodies[a][1]}')
    show(2, 'pairs of functions whose bodies differ in names and numbers alone, or nearly', pairs)
if 3 in points:
    show(3, 'while and loop', lines(r'\b(while|loop) .*\{$|\bloop \{$'))
if 4 in points:
    found = []
    for c, name, params, result, _, body in fns:
        inner = body.strip('{} \n')
        one = len(params) == 1 and result and (
            inner.startswith('match ' + params[0][0].split()[-1]) or re.match(r'(let [^;]*;\s*)*(\w+ \{|\[\n)', inner))
        two = len(params) == 2 and params[0][1] == params[1][1] and re.fullmatch(
            r'if \w+ < \w+ \{\s*\w+( - \w+)?\s*\} else \{\s*\w+\s*\}', inner)
        flag = re.search(r'if \w+ \{\s*[01]\s*\} else \{\s*[01]\s*\}', inner)
        if one or two or flag:
            found.append(f'{c}::{name}')
    show(4, 'conversions, comparisons and flags as numbers by hand', found)
if 5 in points:
    facts, groups = collections.Counter(), collections.Counter()
    for c, name, params, _, clauses, _ in fns:
        m = re.search(r'requires \{(.*)\}', clauses)
        if m:
            for fact in set(re.split(r' × ', m.group(1))):
                fact = re.sub(r'(?<![\w.])(space|args|owed|t|s|head|request)\.', '', fact.strip(' ()'))
                facts[fact] += 1
        for size in (4, 3):
            names = [f'{a}: {t}' for a, t in params]
            for i in range(len(names) - size + 1):
                groups[', '.join(re.sub(r"'a ", '', x) for x in names[i:i + size])] += 1
    show(5, 'facts in three or more requires', [f'{n} {f}' for f, n in facts.most_common() if n >= 3])
    show(5, 'rows of three or four parameters in three or more functions', [f'{n} {g}' for g, n in groups.most_common() if n >= 3])
if 6 in points:
    found = []
    for c, name, params, _, _, _ in fns:
        arrays = [a for a, t in params if '[' in t]
        counts = [a for a, t in params if re.fullmatch(r'count|len|at|end|steps|number|fresh', a) and re.fullmatch('u64|usize', t)]
        if arrays and counts:
            found.append(f'{c}::{name}({", ".join(arrays)}; {", ".join(counts)})')
    show(6, 'arrays or slices with a length or a position beside them', found)
if 7 in points:
    found = []
    for c, name, params, _, _, body in fns:
        for a, t in params:
            if t == 'bool' and re.search(r'\bif !?' + a.split()[-1] + r'\b', body):
                found.append(f'{c}::{name}({a})')
    show(7, 'bool parameters that choose a step', found)
if 8 in points:
    answers = [f'{n}: {g}' for n, t in files(r'crates/.*/proofs/.*/Answers\.antt') for g in re.findall(r'^pub (\S+) : goal\.', t, re.M)]
    show(8, 'answers to goals', answers)
    internal = [n for n, t in files(r'crates/.*/proofs/.*\.antt') if re.search(r'^use (mathlib|Prim|native|lib|borrow|base)\.', t, re.M)]
    show(8, "proof files that import from the toolchain's own modules", internal)
