#!/usr/bin/env python3
"""Respells the names that this repository gives its own definitions, lemmas, fields and cases, as today's Rattle spells them: words in
snake case (`bodyStart` and `each-needed` become `body_start` and `each_needed`), types and modules as they were.

    tools/respell.py          from the root, once, on what the kit's port.py has made of the older form
    tools/respell.py --list   prints the pairs, and changes nothing

Left alone are the functions of src/ and what is exported, strings, the names that a check makes after the code (those of
proofs/FUNCTION/Proof.antt that answer a `Need-`), and every name of a library. Where two names of a file would fall together it stops
before it writes."""
import glob
import re
import sys
from pathlib import Path

CRATES = [l.split(':')[0] for l in open('crates.txt') if re.match(r'[a-z]', l)]
ANTT = sorted(f for c in CRATES for f in glob.glob(f'crates/{c}/**/*.antt', recursive=True) if '/out/' not in f)
RT = sorted(f for c in CRATES for f in glob.glob(f'crates/{c}/src/**/*.rt', recursive=True))
EDITS = sorted(f for c in CRATES for f in glob.glob(f'crates/{c}/must-fail/*.edit'))
PAGES = ['README.md'] + sorted(glob.glob('docs/*.md')) + ['tools/bends.tsv', 'tools/unused']

WORD = re.compile(r"[^\s(){}\[\];,.:|`\"⌜⌝↦→]+")
HEAD = re.compile(r"^ *(?:(?:unfoldable|abbrev|pub) )*(?:(?:data|record) )?((?:[^\s(){};,.:=]+ )+): ")
# what port.py made of names of the library that these names hold or that the pages and edits cite
LIBRARY = {
    'getD': 'get_or', 'bitAnd': 'bit_and', 'bitOr': 'bit_or', 'bitXor': 'bit_xor', 'vec-len': 'vec_len', '⊎-elim': '⊎_elim',
}


# lemmas that port.py has put into snake case, where the definition that they are about comes to that name now
LEMMAS = {'crates/rules/proofs/Lacked.antt': {'order_from': 'order_from_lem'}}


def walked(file):
    return file.endswith('/Proof.antt')


def odd(name):
    if '◌' in name or name[0].isupper() and '-' not in name:
        return False
    return bool(re.search(r'[a-z][A-Z]', name) or re.search(r'[^\W\d_]-|-[^\W\d_]|\d-|-\d', name))


def snake(name):
    for old, new in LIBRARY.items():
        name = re.sub(rf'(?<![A-Za-z]){re.escape(old)}(?![a-z])', new, name)
    name = re.sub(r'(?<=[a-z0-9])([A-Z])(?=[a-z])', lambda m: '_' + m.group(1).lower(), name)
    return name.replace('-', '_')


def bare(line):
    return re.sub(r'(^| )--( .*)?$', '', line)


def declared():
    """The names that the files under specs/ and proofs/ declare, and those that they bring from elsewhere."""
    names, foreign = {}, set()
    for file in ANTT:
        for line in open(file):
            line = line.rstrip('\n')
            brought = re.match(r'(?:pub )?use ([^{]*)\.\{(.*)\}', line)
            if brought:
                path = brought.group(1).split('.')
                if path[0] != 'Rattle' or path[1] not in CRATES:
                    foreign |= {n.split(' as ')[0] for n in brought.group(2).split(', ')}
                continue
            head = HEAD.match(bare(line))
            if not head or line.startswith('use '):
                continue
            rest = line[head.end():]
            if walked(file) and re.search(r'Need-|-lts|\.Claims|-kinds|-calls|-member', line):
                continue
            for name in head.group(1).split():
                names.setdefault(name, set()).add(file)
    return names, foreign


def fields(files):
    """The fields of records: what may stand behind a dot."""
    found = set()
    for file in files:
        inside = None
        for line in open(file):
            line = bare(line.rstrip('\n'))
            record = re.match(r'( *)(?:pub )?record [^{].* where', line)
            if record:
                inside = len(record.group(1))
                continue
            if inside is not None:
                if line.strip() and len(line) - len(line.lstrip()) <= inside:
                    inside = None
                else:
                    head = HEAD.match(line)
                    if head:
                        found |= set(head.group(1).split())
    return found


def pairs():
    """The new name of each; a lemma that would have the name of a definition gets `_lem`."""
    names, foreign = declared()
    new = {n: snake(n) for n in names if odd(n) and n not in foreign and snake(n) != n}
    kept = {n for n in names if n not in new}
    for n in new:
        if '-' in n and any(o != n and new[o] == new[n] for o in new) or '-' in n and new[n] in kept:
            new[n] += '_lem'
    return new


def turned(line, new, members, code):
    """The line with its names respelled; behind a dot only fields and members of the crates' own modules."""
    def word(m):
        old = m.group(0)
        if old not in new:
            return old
        before = line[:m.start()]
        if before.endswith('.') and not before.endswith('..') and code:
            path = re.search(r"[^\s(){}\[\];,:|`\"]*$", before).group(0)
            own = path.startswith('Rattle.') and path.split('.')[1] in CRATES
            if not own and old not in members:
                return old
        return new[old]
    return WORD.sub(word, line)


def respelled(file, text, new, members):
    lines = text.split('\n')
    for i, line in enumerate(lines):
        if file.endswith('.rt'):
            pieces = re.split(r'("(?:[^"\\]|\\.)*")', line)
            lines[i] = ''.join(p if k % 2 else turned(p, new, members, True) for k, p in enumerate(pieces))
        else:
            lines[i] = turned(line, new, members, file.endswith('.antt'))
    return '\n'.join(lines)


def clashes(file, text, new):
    """Names of the file that would be one afterwards and were not before."""
    words = set(WORD.findall('\n'.join(bare(l) for l in text.split('\n'))))
    return [(o, n) for o, n in new.items() if o in words and n in words]


def main():
    new = pairs()
    if '--list' in sys.argv:
        for old in sorted(new):
            print(old, new[old])
        return 0
    members = fields([f for f in ANTT if not walked(f)])
    code = ANTT + RT
    for file, lemmas in LEMMAS.items():
        Path(file).write_text(respelled(file, Path(file).read_text(), lemmas, members))
    # a function of src/ may have the name of the word that its contract cites, and so may the paths of its proof
    stop = [(f, o, n) for f in ANTT if not walked(f) for o, n in clashes(f, Path(f).read_text(), new)]
    taken = {}
    for o, n in new.items():
        taken.setdefault(n, []).append(o)
    stop += [('twice', *o) for o in taken.values() if len(o) > 1]
    for s in stop:
        print('falls together:', *s)
    if stop and '--force' not in sys.argv:
        return 1
    for file in code:
        text = Path(file).read_text()
        Path(file).write_text(respelled(file, text, new, members))
    # edits and pages still have the names that port.py has respelled, too
    now = set(declared()[0])
    for file in EDITS + PAGES:
        text = Path(file).read_text()
        loose = {**LIBRARY, **{w: snake(w) for w in WORD.findall(text) if odd(w) and snake(w) in now}, **new}
        if file.endswith('.md'):
            text = re.sub(r'`[^`\n]*`', lambda m: turned(m.group(0), loose, members, False), text)
        else:
            text = respelled(file, text, loose, members)
        Path(file).write_text(text)
    return 0


if __name__ == '__main__':
    sys.exit(main())
