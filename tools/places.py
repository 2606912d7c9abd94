#!/usr/bin/env python3
"""Counts, in crates/*/src, the places that docs/DESIGN-PASS.md counts by a command: `tools/places.py [-l] [TREE]`.

With -l each place is printed. TREE is another checkout to count in. A line of a comment is no place.
1 own Option or Result, flags and numbers that stand for a kind, a refusal or nothing   3 loops that count or walk by hand
4 equality, order, conversion and printing by hand   5 facts that stand in the requires of three or more functions of a crate, and
parameters that travel together in three or more   6 buffers with a length or a count beside them, parallel arrays
7 switches by comparing numbers   2 twins are pairs that only a reader finds; here: functions of one crate, or of two, of one shape."""
import collections, glob, os, re, sys

args = [a for a in sys.argv[1:] if a != '-l']
listed = '-l' in sys.argv[1:]
root = args[0] if args else os.path.join(os.path.dirname(os.path.abspath(__file__)), '..')

PATTERNS = {
    1: r'^(pub )?enum |^    (pub )?\w+: bool,|\bTOO_MANY\b|\bNOBODY\b|^(pub )?fn (\w+_wrong|wire|unwire|refusal|refused|refused_by)\b'
       r'|\bunfit: usize|\bfirst: usize|^(pub )?const (PLACED|FINISHED|WAITING|NEGATED|ENTERED|SPLIT|PAIRED|NOT|SUM|BESIDE|STEP|MASKS|WRITES'
       r'|OPERANDS|PARTS)\b|\.wide\b|\.found\b|\(u8, u8\)|phase: u16|way: usize|st: u64',
    3: r'\bwhile |^\s*loop \{',
    4: r'^(pub )?enum Order\b|^(pub )?fn (larger|wide|number_of|same_numbers|both|order4|order_at|padded|add_digits|add_number|copy_in'
       r'|words_in|longer|wanted|top_of|few)\b|^impl .*(PartialEq|PartialOrd|Ord|Clone|Copy) for|=> (1[0-4]|[1-9]),$',
    6: r'^    (pub )?len: usize,|^    (pub )?values: |\[u16; (2|32)\]|-> \[u16; (WIDEST|65536|8)\]|: &(mut )?(\[u16\]|Values), [nmk]: usize',
    7: r'\b(code|phase) (==|<|<=) |call: u8',
}

def code(text):
    return [(i + 1, l) for i, l in enumerate(text.split('\n')) if not l.strip().startswith('//')]

def functions(text):
    for m in re.finditer(r'^( *)(?:#\[[^\n]*\]\n *)*(?:pub )?(?:extern "C" )?(?:const )?fn (\w+)(?:<[^>]*>)?\(([^{]*?)\)(?: -> [^\n{]*)?\n(.*?)^\1\{', text, re.S | re.M):
        yield m.group(2), m.group(3), m.group(4), text.count('\n', 0, m.start()) + 1

def clauses(head, word):
    out, i = [], 0
    for m in re.finditer(r'\b' + word + r'\s+(?:\w+ )?\{', head):
        depth, j = 1, m.end()
        while depth:
            depth += {'{': 1, '}': -1}.get(head[j], 0)
            j += 1
        out.append(' '.join(head[m.end():j - 1].split()))
    return out

def atoms(clause):
    out, depth, start = [], 0, 0
    for i, ch in enumerate(clause):
        depth += {'(': 1, ')': -1, '{': 1, '}': -1}.get(ch, 0)
        if ch == '×' and depth == 0:
            out.append(clause[start:i])
            start = i + 1
    out.append(clause[start:])
    return [re.sub(r'^\((.*)\)$', r'\1', a.strip()) for a in out]

found = collections.defaultdict(list)
for path in sorted(glob.glob(os.path.join(root, 'crates/*/src/**/*.rt'), recursive=True)):
    name = os.path.relpath(path, root)
    text = open(path).read()
    for i, line in code(text):
        for point, pattern in PATTERNS.items():
            if re.search(pattern, line):
                found[point].append(f'{name}:{i}: {line.strip()}')

for crate in sorted(glob.glob(os.path.join(root, 'crates/*/'))):
    facts, groups = collections.defaultdict(set), collections.defaultdict(set)
    for path in sorted(glob.glob(crate + 'src/**/*.rt', recursive=True)):
        for fn, params, head, line in functions(open(path).read()):
            for c in clauses(head, 'requires'):
                for a in atoms(c):
                    facts[re.sub(r'\.(old|now)\b', '', a)].add(fn)
            ps = [' '.join(p.split()).replace('mut ', '') for p in params.split(',') if ':' in p]
            for k in range(len(ps)):
                for n in (3,):
                    if k + n <= len(ps):
                        groups[', '.join(ps[k:k + n])].add(fn)
    for what, table in (('fact', facts), ('together', groups)):
        for a, fns in sorted(table.items()):
            if len(fns) >= 3:
                found[5].append(f'{os.path.relpath(crate, root)}: {what} {a}: {len(fns)} functions')

for point in (1, 3, 4, 5, 6, 7):
    print(f'point {point}: {len(found[point])}')
    if listed:
        for place in found[point]:
            print('    ' + place)
