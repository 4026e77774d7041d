#!/usr/bin/env python3
"""Counts, in the sources of all crates, the places that docs/DESIGN-PASS.md speaks of: python3 tools/places.py [-v] [FOLDER]

One line for each of its eight points, and with -v each place. It reads text, not types: a place that it names may be fine as it is, and the page says
which are.
"""
import collections
import glob
import os
import re
import sys

VERBOSE = '-v' in sys.argv
ARGS = [a for a in sys.argv[1:] if a != '-v']
TOP = ARGS[0] if ARGS else os.path.dirname(os.path.dirname(os.path.abspath(__file__)))


def blank(text):
    """The text with comments and strings blanked out, each as long as it was."""
    text = re.sub(r'//[^\n]*', lambda m: ' ' * len(m.group()), text)
    return re.sub(r'b?"(?:[^"\\]|\\.)*"', lambda m: '"' + ' ' * (len(m.group()) - 2) + '"', text)


def braced(text, start):
    """The end of the block that opens at or behind start."""
    i = text.index('{', start)
    depth = 0
    for j in range(i, len(text)):
        if text[j] == '{':
            depth += 1
        elif text[j] == '}':
            depth -= 1
            if depth == 0:
                return i, j + 1
    return i, len(text)


class Function:
    def __init__(self, crate, path, name, params, clauses, body, line):
        self.place = f'{crate}/{path}:{line} {name}'
        self.name, self.params, self.clauses, self.body = name, params, clauses, body


def functions(crate, path, text):
    clean = blank(text)
    for m in re.finditer(r'\bfn (\w+)(?:<[^({]*>)?\s*\(', clean):
        depth, j = 1, m.end()
        while depth:
            depth += {'(': 1, ')': -1}.get(clean[j], 0)
            j += 1
        params = [p.strip() for p in re.split(r',(?![^<\[(]*[>\])])', clean[m.end():j - 1]) if p.strip()]
        clauses, at = [], j
        while True:
            n = re.compile(r'\s*(?:->\s*[^\n{]*?)?\s*(?:where\b[^{]*?)?(requires|ensures)\b[^{]*').match(clean, at)
            if not n:
                break
            a, b = braced(clean, n.end(1))
            clauses.append((n.group(1), ' '.join(text[a + 1:b - 1].split())))
            at = b
        if not re.compile(r'[^;{]*\{').match(clean, at):
            continue
        a, b = braced(clean, at)
        yield Function(crate, path, m.group(1), params, clauses, text[a:b], text.count('\n', 0, m.start()) + 1)


FILES = []
for p in sorted(glob.glob(TOP + '/crates/*/src/**/*.rt', recursive=True)):
    crate = p[len(TOP) + 8:].split('/')[0]
    FILES.append((crate, p[len(TOP) + 8 + len(crate) + 5:], open(p).read()))
FUNCTIONS = [f for c, p, t in FILES for f in functions(c, p, t)]
FOUND = collections.OrderedDict()


def found(point, kind, place):
    FOUND.setdefault(point, []).append(f'{kind}: {place}')


# 1. Own types of the shape of Option or Result; a flag beside a value; numbers for refusals or for nothing.
for crate, path, text in FILES:
    clean = blank(text)
    for m in re.finditer(r'\benum (\w+)(?:<[^>]*>)? \{', clean):
        a, b = braced(clean, m.start())
        depth, parts, cut = 0, [], a + 1
        for j in range(a + 1, b - 1):
            depth += {'(': 1, '{': 1, ')': -1, '}': -1}.get(clean[j], 0)
            if clean[j] == ',' and depth == 0:
                parts.append(clean[cut:j].strip())
                cut = j + 1
        parts = [p for p in parts + [clean[cut:b - 1].strip()] if p]
        bare = [p for p in parts if re.fullmatch(r'\w+', p)]
        refuses = [p for p in parts if re.match(r'Refused\(', p)]
        if len(parts) == 2 and (refuses or len(bare) == 1):
            found(1, 'own enum', f'{crate}/{path} {m.group(1)}')
        elif any(re.match(r'\w*Failed$', p) for p in bare):
            found(1, 'failures among an enum\'s variants', f'{crate}/{path} {m.group(1)}')
    for m in re.finditer(r'\bstruct (\w+)(?:<[^>]*>)? \{([^}]*)\}', clean):
        for flag in re.findall(r'(\w+): bool', m.group(2)):
            if m.group(2).count(':') > 1:
                found(1, 'flag beside a value', f'{crate}/{path} {m.group(1)}.{flag}')
        if re.search(r'answer: ReadAnswer', m.group(2)):
            found(1, 'answer beside a record', f'{crate}/{path} {m.group(1)}')
    for m in re.finditer(r'\.number (==|!=) \d+', clean):
        found(1, 'a refusal by its number', f'{crate}/{path}:{text.count(chr(10), 0, m.start()) + 1}')
    for m in re.finditer(r'//[^\n]*(?:\b(?:0|16|the count|past the last) (?:where|if) (?:none|there is none|the form is not)|size is 0 where none)[^\n]*', text):
        found(1, 'a number for none', f'{crate}/{path}:{text.count(chr(10), 0, m.start()) + 1}')

# 2. Functions whose bodies differ only in names of types, in numbers and in names.
TWIN = collections.defaultdict(list)
for f in FUNCTIONS:
    words = re.findall(r'\w+|[^\w\s]', blank(f.body))
    if len(words) < 12:
        continue
    seen, shape = {}, []
    for w in words:
        if re.fullmatch(r'if|else|match|return|let|mut|while|for|in|as|true|false', w) or not re.match(r'\w', w):
            shape.append(w)
        elif re.match(r'\d', w):
            shape.append('0')
        else:
            shape.append('x%d' % seen.setdefault(w, len(seen)))
    TWIN[' '.join(shape)].append(f)
for shape, group in TWIN.items():
    if len(group) > 1:
        found(2, f'{len(group)} of one shape', ', '.join(f.place for f in group))

# 3. Loops that count an index or their turns by hand.
for f in FUNCTIONS:
    clean = blank(f.body)
    for m in re.finditer(r'\bwhile ([^{]*)\{', clean):
        a, b = braced(clean, m.start())
        if any(re.search(r'\b%s\b' % v, m.group(1)) for v in re.findall(r'\b(\w+) [+-]= \w+;', clean[a:b])):
            found(3, 'while', f.place)
    for m in re.finditer(r'\bfor (\w+) in [^{]*\.\.[^{]*\{', clean):
        a, b = braced(clean, m.start())
        if m.group(1) != '_' and re.search(r'\[[^\]]*\b%s\b' % m.group(1), clean[a:b]):
            found(3, 'for over an index', f.place)

# 4. Conversions, comparisons and printing by hand.
for f in FUNCTIONS:
    clean = ' '.join(blank(f.body).split())
    if re.fullmatch(r'\{ \w+ as \w+ \}', clean):
        found(4, 'conversion', f.place)
    if re.fullmatch(r'\{ match \w+ \{ (?:[^=]*=> (?:true|false), )+\} \}', clean):
        found(4, 'match that answers true or false', f.place)
    if len(re.findall(r'if (?:a|b|x|y|p|q|xs|ys)[\w.\[\]]* != [\w.\[\]]+ \{ return false; \}', clean)) > 0 or re.search(r'\ba\.\w+ == b\.\w+ &&', clean):
        found(4, 'equality', f.place)
    if re.search(r'\bio::(?:write_all|print_\w+)\(', clean):
        found(4, 'printing', f.place)
    if re.search(r'-> Row\b', f.body) or f.name == 'row_of':
        found(4, 'conversion', f.place)

# 5. A fact in the contracts of three functions or more; parameters that three functions or more take together.
FACT, PAIR = collections.defaultdict(set), collections.defaultdict(set)
for f in FUNCTIONS:
    for kind, clause in f.clauses:
        if kind == 'requires':
            for fact in re.split(r' × ', clause):
                FACT[(f.place.split('/')[0], fact.strip('() '))].add(f.place)
    for p, q in zip(f.params, f.params[1:]):
        if re.match(r'\w+: ', p) and re.match(r'\w+: ', q) and not re.match(r'console', p):
            PAIR[(f.place.split('/')[0], p + ', ' + q)].add(f.place)
for (crate, fact), places in sorted(FACT.items()):
    if len(places) > 2:
        found(5, f'{len(places)} contracts', f'{crate}: {fact}')
for (crate, pair), places in sorted(PAIR.items()):
    if len(places) > 2:
        found(5, f'{len(places)} functions', f'{crate}: {pair}')

# 6. An array or a slice with its length, or a place in it, beside it.
for crate, path, text in FILES:
    for m in re.finditer(r'\bstruct (\w+)(?:<[^>]*>)? \{([^}]*)\}', blank(text)):
        if re.search(r': \[|: &', m.group(2)) and re.search(r'\b(?:count|len|end|size): u', m.group(2)):
            found(6, 'struct', f'{crate}/{path} {m.group(1)}')
for f in FUNCTIONS:
    params = ', '.join(f.params)
    if re.search(r'(\w+): &(?:mut )?\[\w+\], (?:count|len|start|from): usize', params):
        found(6, 'parameters', f.place)

# 7. A switch on which step to run.
for f in FUNCTIONS:
    clean = ' '.join(blank(f.body).split())
    for m in re.finditer(r'match (?:way|mode|step|next) \{ ((?:[\w:]+ => \w+\([^;]*?\), )+)\}', clean):
        found(7, 'switch', f.place)

# 8. Answers and lines of the proofs of functions.
answers = lines = 0
for p in glob.glob(TOP + '/crates/*/proofs/**/*.antt', recursive=True):
    if p.endswith(('/Answers.antt', '/Invariants.antt')):
        text = open(p).read()
        answers += len(re.findall(r': goal\.', text))
        lines += text.count('\n')

NAMES = {1: 'own Option and Result, flags, numbers', 2: 'twins (groups)', 3: 'loops by hand', 4: 'written by hand',
         5: 'facts and parameters together', 6: 'length beside', 7: 'switches on a step'}
for point, name in NAMES.items():
    places = FOUND.get(point, [])
    kinds = collections.Counter(re.sub(r'^\d+ ', '', p.split(':')[0]) for p in places)
    print(f'{point}. {name}: {len(places)}' + (' (' + ', '.join(f'{k} {n}' for k, n in kinds.most_common()) + ')' if len(kinds) > 1 else ''))
    if VERBOSE:
        for p in places:
            print('     ' + p)
print(f'8. proofs of functions: {answers} answers and invariants, {lines} lines')
