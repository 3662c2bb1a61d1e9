#!/usr/bin/env python3
"""Respells this repository's own definitions, lemmas, fields and constructors in snake case (`bitCount` and `bit-count`
become `bit_count`), in src/ (contracts and comments), specs/, proofs/ and must-fail/ of every crate. Types, facts and
modules keep their capital; functions of src/, names of the library, strings, names bound inside a proof and the
documents' own single letters (R, A, P, S, Q, F, K) stay as they are.

usage: tools/snake_names.py [TOP]          rewrites the crates below TOP in place
       tools/snake_names.py --list [TOP]   prints OLD NEW for each name, and writes nothing

Where a definition and a lemma of one file would fall together, the lemma gets `_lem` behind its name, as the library's
rule for names says. It was run once, right after port.py; docs/PORT.md names the commit.
"""

import collections
import glob
import os
import re
import sys

CUT = re.compile(r'([\s(){}\[\],;.`]+)')
HUMP = re.compile(r'(?<=[a-z0-9₀-₉])(?=[A-Z])')
WORD = re.compile(r"^[a-z][A-Za-z0-9_'₀-₉≢≡≤<+*∷-]*$")
HEAD = re.compile(r'^((?:(?:abbrev|unfoldable|pub|record|data|ruleset)\s+)*)([^\s:({]+)\s*(?::|\(|\{)')
MEMBER = re.compile(r'^ +((?:abbrev |unfoldable |pub )*)([a-z][^\s:({]*) :( |$)')


def snake(word):
    """A name of words in snake case, or the name itself."""
    if not WORD.match(word) or ('-' not in word and not HUMP.search(word)):
        return word
    return re.sub(r'_+', '_', HUMP.sub('_', word).replace('-', '_')).lower()


def read(path):
    with open(path, encoding='utf-8') as f:
        return f.read()


def files(top, pattern):
    return [p for p in sorted(glob.glob(os.path.join(top, 'crates', pattern), recursive=True)) if '/out/' not in p]


def is_walk(path):
    return path.endswith('/Proof.antt')


def library_names(top, paths):
    """The names that files bring from libraries that are not of this repository."""
    crates = set(os.listdir(os.path.join(top, 'crates')))
    out = set()
    line = re.compile(r'^(?:(?:unfoldable|pub|ghost) )*use ([^\s{;]+?)\.?(?:\{([^}]*)\}| as (\S+))?;?$', re.M)
    for p in paths:
        for m in line.finditer(read(p)):
            part = m[1].split('.')
            if '::' not in m[1] and (part[0] != 'Rattle' or part[1] not in crates):
                for n in (m[2] or '').split(','):
                    out.update(n.strip().split(' as '))
    return out


def declarations(paths):
    """name -> the files that declare it, and the names that are definitions."""
    where, definitions = collections.defaultdict(set), set()
    for p in paths:
        block = False
        for l in read(p).split('\n'):
            m = HEAD.match(l)
            if m and not re.match(r'(use|mod|infix\w*|syntax)\b', m[2]):
                block = bool(re.search(r'\b(record|data)\b', m[1]))
                where[m[2]].add(p)
                if re.search(r'\b(abbrev|unfoldable)\b', m[1]):
                    definitions.add(m[2])
            elif m := MEMBER.match(l):
                where[m[2]].add(p)
                if block or re.search(r'\b(abbrev|unfoldable)\b', m[1]):
                    definitions.add(m[2])
    return where, definitions


def bare(path):
    """A file's words without its comments."""
    mark = '//' if path.endswith('.rt') else '--'
    return {w for l in read(path).split('\n') for w in CUT.split(l.split(mark)[0]) if w}


def table(top):
    theory = [p for p in files(top, '*/specs/**/*.antt') + files(top, '*/proofs/**/*.antt') if not is_walk(p)]
    source = files(top, '*/src/**/*.rt')
    library = library_names(top, theory + source)
    where, definitions = declarations(theory)
    names = {w: snake(w) for w in where if w not in library and snake(w) != w}
    for p in theory + source:
        falls = collections.defaultdict(set)
        for w in bare(p):
            falls[names.get(w, w)].add(w)
        for new, old in falls.items():
            humped = [w for w in old if HUMP.search(w)]
            lemmas = [w for w in old if w in where and w not in humped and (humped or w not in definitions) and w not in library]
            if len(old) > 1 and p.endswith('.antt') and len(lemmas) < len(old):
                for w in lemmas:
                    names[w] = new + '_lem' if not new.endswith('_lem') else new
    return names, theory, source


def respell(code, names, walk, dotted={}):
    out, before = [], ''
    for w in CUT.split(code):
        n = names.get(w, w)
        # in a comment: `Runs.crossing-loads`
        if n == w and before.endswith('.'):
            n = dotted.get(w, w)
        # in a proof that walks the code a name behind a dot may be a step of the code
        if walk and before.endswith('.') and n.endswith('_lem'):
            n = w
        out.append(n)
        before = w or before
    return ''.join(out)


def turned(text, names, path):
    """The text with its names respelled. A comment has words with a dash (`set-up`), so only names with a hump, or behind
    a dot, are turned there; a name that a lemma gives way to is a function's in src/, and keeps its spelling; so does a string."""
    source = path.endswith('.rt')
    mark = '//' if source else '--'
    here = {a: b for a, b in names.items() if not (source and b.endswith('_lem'))}
    humped = {a: b for a, b in here.items() if HUMP.search(a)}
    out = []
    for line in text.split('\n'):
        at = line.find(mark)
        at = at if at == 0 or (at > 0 and line[at - 1] == ' ') else len(line)
        for piece in re.split(r'("(?:[^"\\]|\\.)*")', line[:at]) if source else [line[:at]]:
            out.append(piece if source and piece.startswith('"') else respell(piece, here, is_walk(path)))
        out.append(respell(line[at:], humped, False, here) + '\n')
    return ''.join(out)[:-1]


def main(argv):
    top = ([a for a in argv if not a.startswith('-')] or ['.'])[0]
    names, theory, source = table(top)
    if '--list' in argv:
        print('\n'.join(f'{a} {b}' for a, b in sorted(names.items())))
        return
    walks = [p for p in files(top, '*/proofs/**/Proof.antt')]
    for p in theory + source + walks:
        old = read(p)
        new = turned(old, names, p)
        if new != old:
            with open(p, 'w', encoding='utf-8') as f:
                f.write(new)
    print(f'{len(names)} names')


if __name__ == '__main__':
    main(sys.argv[1:])
