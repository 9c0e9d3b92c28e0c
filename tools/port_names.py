#!/usr/bin/env python3
"""Respells the repository's own names as today's Rattle spells them, after the toolchain's port.py: definitions, constructors, fields and
lemmas in snake case; types and modules keep their capitals. A lemma that would get another name's spelling ends in `_lem`.

usage: python3 tools/port_names.py [--list] [ROOT]
"""
import collections
import os
import re
import sys

LISTS = '--list' in sys.argv
ROOT = ([a for a in sys.argv[1:] if not a.startswith('--')] or ['.'])[0]
LETTER = r"A-Za-z0-9_'₀-₉-"
TOKEN = re.compile(r"(?<![%s])(\.?)([a-z][%s]*)" % (LETTER, LETTER))
SIGNATURE = re.compile(r"\s*(?:(?:abbrev|unfoldable|pub|data|record)\s+)*([A-Za-z_][%s]*)\s*(?:\([^:]*\)\s*|\{[^}]*\}\s*)*:(?!:)" % LETTER)
USE = re.compile(r"\s*(?:pub )?(?:ghost )?use ([A-Za-z_·.0-9'-]+?)\.?(?:\{(.*)\})?(?: as \S+)?;?\s*$")


def files(root, endings):
    for folder, dirs, names in os.walk(os.path.join(root, 'crates')):
        dirs[:] = sorted(d for d in dirs if d not in ('out', '.git'))
        for n in sorted(names):
            if n.endswith(endings):
                yield os.path.join(folder, n)


def of_a_function(path):
    """A file of the proof of one function: proofs/F/X.antt, whose names Rattle gives."""
    parts = os.path.relpath(path, ROOT).split('/')
    return len(parts) > 4 and parts[2] == 'proofs'


def snake(name):
    name = name.replace('-', '_')
    name = re.sub(r"(?<=[a-z0-9'])([A-Z])(?=[a-z])", lambda m: '_' + m.group(1).lower(), name)
    return re.sub(r"(?<=[a-z0-9])([A-Z])", lambda m: '_' + m.group(1).lower(), name)


def table():
    declared, foreign = collections.defaultdict(set), collections.defaultdict(set)
    own = set(os.listdir(os.path.join(ROOT, 'crates')))
    for path in files(ROOT, '.antt'):
        for line in open(path, encoding='utf-8'):
            m = USE.match(line)
            if m:
                parts = m.group(1).split('.')
                if not (parts[0] == 'Rattle' and len(parts) > 1 and parts[1] in own):
                    for it in (m.group(2) or '').split(','):
                        foreign[it.strip().split(' as ')[0]].add(path)
                continue
            m = SIGNATURE.match(line)
            if m and not of_a_function(path):
                declared[m.group(1)].add(path)
    names = {n: snake(n) for n in declared if n[0].islower() and snake(n) != n}
    whole = collections.defaultdict(set)
    for n in declared:
        whole[names.get(n, n)].add(n)
    for new, olds in whole.items():
        if len(olds) < 2:
            continue
        lemmas = [n for n in olds if all('/proofs/' in p for p in declared[n]) and not re.search('[A-Z]', n)]
        if len(lemmas) == len(olds):
            lemmas = [n for n in lemmas if n != new]
        for n in lemmas:
            names[n] = new + '_lem'
    return names, foreign, declared


def turned(text, names, skip, dotted):
    def one(m):
        dot, name = m.groups()
        if name not in names or name in skip:
            return m.group(0)
        if dot and not dotted:
            return dot + (snake(name) if re.search('[A-Z]', name) else name)
        return dot + names[name]

    return TOKEN.sub(one, text)


def in_comment(text, names):
    """Of a comment only what stands between backticks, and words with a capital inside."""
    text = re.sub(r'`[^`]*`', lambda m: turned(m.group(0), names, (), True), text)
    return re.sub(r"(?<![%s])[a-z][a-z0-9]*[A-Z][A-Za-z0-9']*" % LETTER, lambda m: names.get(m.group(0), m.group(0)), text)


def split_comment(line, mark):
    i = line.find(mark)
    return (line, '') if i < 0 else (line[:i], line[i:])


def antt(path, names, foreign):
    skip = {n for n in names if path in foreign.get(n, ())}
    out = []
    for line in open(path, encoding='utf-8').read().split('\n'):
        code, comment = split_comment(line, '-- ') if not line.startswith('--') else ('', line)
        out.append(turned(code, names, skip, not of_a_function(path)) + in_comment(comment, names))
    return '\n'.join(out)


def rattle(path, names):
    out, clause = [], 0
    for line in open(path, encoding='utf-8').read().split('\n'):
        code, comment = split_comment(line, '//')
        if not clause and re.match(r'\s*(requires|ensures|ghost|invariant)\b', code):
            clause = 1
            depth = 0
        if clause:
            depth += code.count('{') - code.count('}')
            code = turned(code, names, (), True)
            if depth <= 0:
                clause = 0
        out.append(code + in_comment(comment, names))
    return '\n'.join(out)


def main():
    names, foreign, declared = table()
    if LISTS:
        for n in sorted(names):
            print(n + '\t' + names[n] + '\t' + ' '.join(sorted(os.path.relpath(p, ROOT) for p in declared[n])))
        return
    for path in files(ROOT, ('.antt', '.rt')):
        text = open(path, encoding='utf-8').read()
        new = antt(path, names, foreign) if path.endswith('.antt') else rattle(path, names)
        if new != text:
            open(path, 'w', encoding='utf-8').write(new)


main()
