#!/usr/bin/env python3
"""Counts, in crates/*/src of the tree it is run in, the places of docs/DESIGN-PASS.md's points 1 to 7.

    python3 tools/places.py             how many of each kind
    python3 tools/places.py list        each of them, by file and function
"""
import collections
import glob
import re
import sys

TABLES = ('routes', 'joints', 'homes', 'lengths', 'by')
NUMBER = {'u8', 'u32', 'u64', 'usize'}
WORDS = 'let mut if else return for in while match as self true false'.split()
FN = re.compile(r'^( *)((?:pub )?(?:extern "C" )?fn ([A-Za-z_0-9]+))', re.M)


def functions(path):
    """Each function of a file: its name, parameters, result, contract and body, as text without comments."""
    text = re.sub(r'//[^\n]*', '', open(path).read())
    for m in FN.finditer(text):
        at = text.index('(', m.end())
        generic, deep, end = text[m.end():at], 1, at + 1
        while deep:
            deep += {'(': 1, ')': -1}.get(text[end], 0)
            end += 1
        close = re.compile(r'^' + m.group(1) + r'\}$|\{\}$', re.M).search(text, end)
        if not close:
            continue
        rest = text[end:close.end()]
        body = rest.rfind('\n' + m.group(1) + '{\n')
        one = re.match(r'[^{]*?(?=\{)', rest)
        head, code = (rest[:body], rest[body:]) if body >= 0 else (one.group(0), rest[one.end():])
        result = re.match(r'\s*->\s*([^\n{]+)', head)
        yield {'name': m.group(3), 'args': text[at + 1:end - 1], 'generic': generic,
               'result': result.group(1).strip() if result else '', 'contract': head, 'body': code,
               'place': f'{path}: {m.group(3)}'}


def shape(f):
    """A function's parameters and body with its types of numbers, numbers, constants and names told by their order."""
    text = f['args'] + ' -> ' + f['result'] + f['body']
    names = {}

    def told(m):
        w = m.group(0)
        if w in NUMBER:
            return 'T'
        if re.fullmatch(r'[0-9][0-9a-z_]*|[A-Z_][A-Z_0-9]+', w):
            return 'N'
        if w in WORDS:
            return w
        return names.setdefault(w, f'v{len(names)}')

    return re.sub(r'\s+', ' ', re.sub(r'[A-Za-z_0-9]+', told, text))


def own_enums(files):
    for path in files:
        for m in re.finditer(r'enum (\w+) \{([^}]*)\}', open(path).read()):
            cases = [c.strip() for c in m.group(2).split(',\n') if c.strip()]
            if len(cases) == 2 or m.group(1) == 'Decoded':
                yield f'{path}: {m.group(1)}'


def kind_numbers(files):
    for path in files:
        text = open(path).read()
        for m in re.finditer(r'const ((?:NO|NONE|MORE)_\w+|READ|EXECUTE|WRITE|TO_\w+|SPACE|OTHER): ', text):
            yield f'{path}: {m.group(1)}'


def none_by_number(fs):
    for f in fs:
        none = r'return (?:\w+::)?(?:0|7|64|NO_\w+);|\{ 0 \}|\n    (?:0|7|64|NO_\w+)\n\}'
        if f['result'] in NUMBER and re.search(none, f['body']):
            yield f['place']


def byte_helpers(fs):
    for f in fs:
        if re.fullmatch(r'\s*\{\s*[\w.]+ as (?:u8|u32|u64|usize)\s*\}\s*', f['body']):
            yield f['place']


def by_hand(fs):
    for f in fs:
        n = f['name']
        equal = re.match(r'(same|is_(free|booked|done|refused|shown|held|left|ack|unmarked))', n)
        if equal or re.search(r'_code$|^(kind|phase|flag|entry)_of$|refusal_number', n):
            yield f['place']


def printing(fs):
    for f in fs:
        name = re.match(r'(say|show|count$|capacity$|number$|comma$|verdict)', f['name'])
        if name and re.search(r'crates/(telling|show|loads|runs)/', f['place']):
            yield f['place']


def twins(fs):
    groups = collections.defaultdict(list)
    for f in fs:
        if len(f['body'].split()) > 4:
            groups[shape(f)].append(f['place'])
    for g in groups.values():
        if len(g) > 1:
            yield ' = '.join(g)


def while_loops(fs):
    for f in fs:
        for _ in re.finditer(r'\bwhile ', f['body']):
            yield f['place']


def index_loops(fs):
    for f in fs:
        for m in re.finditer(r'for (\w+) in [^{;]*\.\.[^{;]*\{', f['body']):
            if re.search(r'\[[^\]]*\b' + m.group(1) + r'\b[^\]]*\]', f['body'][m.end():]):
                yield f['place']


def table_lists(fs):
    for f in fs:
        if sum(1 for t in TABLES if re.search(r'\b' + t + r': &', f['args'])) >= 2:
            yield f['place']


def long_lists(fs):
    for f in fs:
        if len(re.findall(r'\w+: ', f['args'])) >= 8:
            yield f['place']


def buffers(fs):
    for f in fs:
        if re.search(r'io::buffer\(\)|\[u8; 4096\]', f['args'] + f['result'] + f['body']):
            yield f['place']


def openings(fs):
    for f in fs:
        if re.search(r'let mut routes = ', f['body']):
            yield f['place']


def rounds(fs):
    for f in fs:
        if 'runs/' in f['place'] and re.search(r'told::read\(.*told::write\(', f['body'], re.S):
            yield f['place']


def main():
    files = sorted(glob.glob('crates/*/src/*.rt'))
    fs = [f for path in files for f in functions(path)]
    kinds = [('1 enums of two cases, and Decoded', own_enums(files)),
             ('1 constants for none, for kinds', kind_numbers(files)),
             ('1 functions that answer a number for none', none_by_number(fs)),
             ('2 functions alike but for types, numbers, names', twins(fs)),
             ('3 while loops', while_loops(fs)), ('3 loops over an index that reads or writes by it', index_loops(fs)),
             ('4 functions that turn a number into a wider or narrower one', byte_helpers(fs)),
             ('4 equality and conversion by hand', by_hand(fs)), ('4 printing by hand', printing(fs)),
             ('5 functions that take two or more of the tables', table_lists(fs)),
             ('5 functions of eight or more parameters', long_lists(fs)),
             ('6 buffers with a length beside them', buffers(fs)),
             ('7 openings of a call, written out', openings(fs)), ('7 rounds that differ in a step', rounds(fs))]
    print(f'{len(fs)} functions in {len(files)} files')
    for name, places in kinds:
        places = list(places)
        print(f'{len(places):4} {name}')
        if sys.argv[1:] == ['list']:
            print('\n'.join('       ' + p for p in places))


main()
