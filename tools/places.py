#!/usr/bin/env python3
"""Counts the places in crates/*/src and crates/*/proofs that docs/DESIGN-PASS.md speaks of, a row for each kind of place.

    tools/places.py        the counts
    tools/places.py -l     each place as well, as FILE:LINE: TEXT
    tools/places.py -s     the lines that say why a place stays (`// Stays: ..`)

A row counts what its pattern finds: what is found need not be wrong, and the page says of each row what is left and why.
"""
import collections
import glob
import re
import sys

SOURCES = sorted(glob.glob('crates/*/src/**/*.rt', recursive=True))
PROOFS = [f for f in sorted(glob.glob('crates/*/proofs/**/*.antt', recursive=True)) if '/out/' not in f]
LINES = {f: open(f, encoding='utf-8').read().split('\n') for f in SOURCES}
NUMBER = r'u(?:8|16|32|64|size)'


def lines(pattern, only=lambda f: True):
    """Each line that the pattern matches."""
    wanted = re.compile(pattern)
    return [(f, n, text.strip()) for f in SOURCES if only(f) for n, text in enumerate(LINES[f], 1)
            if wanted.search(text) and not text.strip().startswith('//')]


def crate(path):
    return path.split('/')[1]


def enums():
    """Each enum: its place, its name, its cases."""
    for f in SOURCES:
        text = '\n'.join(LINES[f])
        for m in re.finditer(r'enum (\w+)(?:<[^>]*>)? \{\n(.*?)\n\}', text, re.S):
            cases = [c.strip().rstrip(',') for c in m.group(2).split('\n') if c.strip() and not c.strip().startswith('//')]
            yield f, text[:m.start()].count('\n') + 1, m.group(1), cases


ABSENT = {'Unknown', 'InvalidOwnerValue', 'Damaged', 'Past', 'Nothing', 'Nowhere', 'NotKnown', 'Bad', 'Cut', 'Waits'}
ENDED = {'Going'}


def shaped():
    """Enums with a case that stands for 'there is none', that is, a bare one of those names, or for 'it goes on': Option, Result, ControlFlow."""
    found = []
    for f, n, name, cases in enums():
        bare = {c for c in cases if '(' not in c and '{' not in c}
        held = {c.split('(')[0] for c in cases if '(' in c}
        if bare & ABSENT or held & ENDED or cases == ['Accepted', 'Refused(Refusal)']:
            found.append((f, n, f'{name}: {" | ".join(cases)}'))
    return found


def signatures():
    """Each function: its place, its name, the names of its parameters."""
    for f in SOURCES:
        text = '\n'.join(LINES[f])
        for m in re.finditer(r'\bfn (\w+)(?:<[^>]*>)?\(([^{]*?)\)(?: -> [^\n{]*)?\n?(?:\s+(?:requires|ensures)[^\n]*\n)*\s*(?:\{|;)', text, re.S):
            parts = [p.strip() for p in re.split(r',\s*(?![^\[]*\])', m.group(2).replace('\n', ' ')) if p.strip()]
            yield f, text[:m.start()].count('\n') + 1, m.group(1), [re.sub(r':.*', '', p).strip() for p in parts]


def long_lists():
    return [(f, n, f'{name}: {len(names)} parameters') for f, n, name, names in signatures() if len(names) >= 6]


def in_two(pattern):
    """What is named by the pattern in the sources of two crates or more."""
    where = collections.defaultdict(list)
    for f in SOURCES:
        for n, text in enumerate(LINES[f], 1):
            if text.strip().startswith('//'):
                continue
            for m in re.finditer(pattern, text):
                where[m.group(1)].append((f, n, m.group(1)))
    return [(f, n, name) for name, places in sorted(where.items()) if len({crate(f) for f, _, _ in places}) > 1
            for f, n, _ in places[:1]]


def repeated():
    """What three functions or more require, in the same words."""
    where = collections.defaultdict(list)
    for f in SOURCES:
        for n, text in enumerate(LINES[f], 1):
            m = re.search(r'^\s*requires(?: \w+)? \{ (.*) \}', text)
            if m:
                where[m.group(1)].append((f, n, m.group(1)))
    return [place for places in where.values() if len(places) > 2 for place in places]


def whole(patterns):
    return [(f, 1, '') for f in PROOFS if f.split('/')[-1] in patterns]


def lemmas():
    """Lemmas of proofs/ that no file but their own imports and their own file does not use again."""
    texts = {f: open(f, encoding='utf-8').read() for f in sorted(glob.glob('crates/**/*.antt', recursive=True)) + SOURCES + glob.glob('docs/PROMISES.md')
             if '/out/' not in f}
    words = {f: collections.Counter(re.findall(r"[A-Za-z_][A-Za-z0-9_'-]*", t)) for f, t in texts.items()}
    found = []
    for f in PROOFS:
        if f.split('/')[-1] in ('Answers.antt', 'Invariants.antt', 'Lib.antt'):
            continue
        for n, text in enumerate(texts[f].split('\n'), 1):
            m = re.match(r"(?:abbrev |unfoldable )?pub ([a-z][A-Za-z0-9_'-]*) :", text)
            if not m:
                continue
            name = m.group(1)
            defined = len(re.findall(r'^' + re.escape(name) + r'\b', texts[f], re.M))
            if words[f][name] <= defined + 1 and not any(words[g][name] for g in texts if g != f):
                found.append((f, n, name))
    return found


TWINS = r'\b(?:fn|struct|enum) ((?:plain_|robust_|Plain|Robust)\w+)'
ROWS = [
    ('1', 'own enums of the shape of Option, Result or ControlFlow', shaped),
    ('1', 'flags among the fields of a struct', lambda: lines(r'^    (?:pub(?:\(crate\))? )?\w+: bool,')),
    ('1', 'numbers for kinds, calls, modes, places, parts, commands', lambda: lines(r'\b(?:kind|call|mode|part|place|set|what|command): u(?:8|16|32)\b')),
    ('1', 'letters for commands', lambda: lines(r"(?:command|what) == b'|^\s*b'[A-Za-z]' =>|UnknownLetter\(b'")),
    ('2', 'functions of one name in two crates', lambda: in_two(r'\bfn (\w+)')),
    ('2', 'types of one name in two crates', lambda: in_two(r'\b(?:struct|enum) (\w+)')),
    ('2', 'names that begin with plain or robust', lambda: lines(TWINS)),
    ('3', 'loops by `while`', lambda: lines(r'^\s*while (?!let )')),
    ('3', 'loops by `while let` or `loop`', lambda: lines(r'^\s*(?:while let |loop )')),
    ('4', 'copies out of a struct, `let x = y.z;`', lambda: lines(r'^\s*let (?:mut )?[a-z_]+ = [a-z_]+(?:\.[a-z_0-9]+)+;')),
    ('4', '`field: field`', lambda: lines(r'^\s*([a-z_]+): \1,?$')),
    ('4', 'equality by hand', lambda: lines(r'fn (?:same|is_same)\w*\(')),
    ('4', 'kinds compared by their numbers', lambda: lines(r'\w\.0 [=!]= \w+(?:\.\w+)*\.0\b')),
    ('4', 'conversions by hand, `fn number`, `value`, `entry`, `from`, `read_..`', lambda: lines(r'pub fn (?:number|value|entry|from|read_mode|read_call|read_set|new)\(')),
    ('4', 'casts by `as`', lambda: lines(rf'\bas {NUMBER}\b')),
    ('4', 'functions that lay out or print, `put_`, `tell`, `decimal`, `hex`', lambda: lines(r'fn (?:put|tell|text|decimal|hex)\w*[(<]')),
    ('5', 'functions of six parameters or more', long_lists),
    ('5', 'the same `requires` in three functions or more', repeated),
    ('6', 'fixed arrays in types and signatures', lambda: lines(r'\[[A-Za-z0-9]+; [A-Z0-9a-z_]+\]')),
    ('7', 'a `match` on what is to be done', lambda: lines(r'match \*?(?:\w+\.)*(?:operation|work|command|asked|entry|kind|what|set)\b')),
    ('8', 'files of answers', lambda: whole({'Answers.antt'})),
    ('8', 'files of invariants', lambda: whole({'Invariants.antt'})),
    ('8', 'lemmas that nothing names', lemmas),
]

if __name__ == '__main__':
    if sys.argv[1:] == ['-s']:
        for place in [(f, n, text.strip()) for f in SOURCES for n, text in enumerate(LINES[f], 1) if '// Stays: ' in text]:
            print('%s:%d: %s' % place)
        sys.exit(0)
    for point, what, find in ROWS:
        places = find()
        print(f'{point}  {len(places):4d}  {what}')
        if sys.argv[1:] == ['-l']:
            for place in places:
                print('         %s:%d: %s' % place)
