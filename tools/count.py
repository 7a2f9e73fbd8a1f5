#!/usr/bin/env python3
"""Counts the places that docs/DESIGN-PASS.md speaks of, in the checkout whose top it is run in; -v names each place."""
import collections
import glob
import re
import sys

VERBOSE = '-v' in sys.argv[1:]


def told(point, places):
    print(f'{point}: {len(places)}')
    if VERBOSE:
        for place in places:
            print('    ' + place)


def functions(text):
    """Each function of a file: its name, its head and its body."""
    for m in re.finditer(r'^ *(?:pub )?(?:extern "C" )?fn (\w+)', text, re.M):
        start = text.index('\n', m.start())
        indent = len(m.group(0)) - len(m.group(0).lstrip())
        opened = re.compile(rf'^(?: *|.*[^ ] )\{{$', re.M).search(text, m.start())
        closed = re.compile(rf'^ {{{indent}}}\}}$', re.M).search(text, m.start())
        if opened and closed:
            yield m.group(1), text[m.start():opened.end()], text[opened.end():closed.start()]


sources = {f: open(f).read() for f in sorted(glob.glob('crates/*/src/*.rt'))}
code = {f: re.sub(r'//.*', '', s) for f, s in sources.items()}
every = [(f.split('/')[1], name, head, body) for f, s in code.items() for name, head, body in functions(s)]

# 1. enums, and how many of them have a variant for what was not found or not taken
enums = [(f.split('/')[1], m.group(1), m.group(2)) for f, s in code.items() for m in re.finditer(r'enum (\w+) \{(.*?)\n\}', s, re.S)]
told('1. enums', [f'{c}: {name}' for c, name, _ in enums])
told('1. enums of the shape of Option or Result', [f'{c}: {name}' for c, name, b in enums if re.search(r'^ +(Refused|Not|Bad|Stop|Dead)\b', b, re.M)])

# 2. functions whose bodies differ in names and numbers alone
shapes = collections.defaultdict(list)
for c, name, head, body in every:
    shape = re.sub(r'[a-z]?"[^"]*"|\b\w+\b', lambda m: m.group(0) if m.group(0) in ('let', 'mut', 'if', 'else', 'while', 'for', 'in', 'loop', 'match', 'return', 'as') else 'x', body)
    shape = re.sub(r'\s+', ' ', shape)
    if shape.count(';') + shape.count('=>') >= 3:
        shapes[shape].append(f'{c}::{name}')
told('2. groups of functions with bodies of one shape', [', '.join(v) for v in shapes.values() if len(v) > 1])

# 3. loops that are no `for`, and those of them that count by one
loops = [(c, name, body) for c, name, _, body in every for _ in re.findall(r'^ *(?:while|loop)\b', body, re.M)]
told('3. while and loop', [f'{c}::{name}' for c, name, _ in loops])
told('3. of them in functions that count by one', [f'{c}::{name}' for c, name, body in loops if re.search(r'\+= 1;', body)])

# 4. copying, equality, order, conversion and printing by hand: loops that assign or compare places, and digits
told('4. loops that copy, fill or compare place by place', [f'{c}::{name}' for c, name, _, body in every
    if re.search(r'(?:while|for) [^\n]*\{\s*(?:if )?\w+\[[^]]*\] (?:!=|==|=) [^\n;]*;?\s*(?:\{\s*return false;\s*\}\s*)?(?:\w+ \+= 1;\s*)?\}', body)])
told('4. bytes, digits and orders worked out by hand', [f'{c}::{name}' for c, name, _, body in every
    if re.search(r"% 256|\* 256|\* 65536\b.*\* 16777216|b'0' \+|return Compared::", body)])

# 5. facts in the clauses of three functions or more
facts = collections.Counter()
for c, name, head, _ in every:
    seen = set()
    for clause in re.findall(r'(?:requires|ensures)[ \w]* \{(.*?)\}\s', head, re.S):
        for fact in clause.split('×'):
            seen.add(re.sub(r'\.(now|old|new)\b', '', fact.strip().strip('()')))
    facts.update((c, f) for f in seen if f)
told('5. facts in the clauses of three functions of a crate or more', [f'{c}: {f} ({k})' for (c, f), k in facts.most_common() if k >= 3 and 'result' not in f])

# 6. a room with a place beside it; arrays by twos
told('6. parameters: a room and a place in it', [f'{c}::{name}' for c, name, head, _ in every if re.search(r'\b\w+: &mut \[\w+\],\s*\w*(?:at|len|start|end)\w*: usize', head)])
told('6. places by twos', [f'{c}::{name}' for c, name, _, body in every if re.search(r'\[2 \* \w+(?: \+ 1)?\]', body)])

# 7. switches and tables of functions
told('7. parameters that are a bool', [f'{c}::{name}' for c, name, head, _ in every if re.search(r'\w+: bool\b', head.split('requires')[0].split('ensures')[0])])

# 8. answers and lines of proofs
answers = {f: open(f).read() for f in glob.glob('crates/*/proofs/**/*.antt', recursive=True)}
print('8. answers:', sum(len(re.findall(r'^pub \S+ : goal\.', s, re.M)) for s in answers.values()))
print('8. lines of proofs:', sum(s.count('\n') for s in answers.values()))
print('   lines of code:', sum(s.count('\n') for s in sources.values()))
