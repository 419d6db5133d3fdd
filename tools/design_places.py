#!/usr/bin/env python3
"""Lists the places of the code that read like the older Rattle, by the points of docs/DESIGN-PASS.md.

    tools/design_places.py            how many places of each point
    tools/design_places.py POINT      the places of one: enums flags numbers twins loops matches rows buffers switches proofs

It reads src/ (and for `proofs` the answers) as text at the top of a checkout. A place that it lists is one to look at, not yet one to change."""
import collections
import glob
import re
import sys

def sources():
    for name in sorted(glob.glob('crates/*/src/**/*.rt', recursive=True)):
        with open(name, encoding='utf8') as f:
            yield name[len('crates/'):], f.read()


def line_of(text, at):
    return text[:at].count('\n') + 1


def functions():
    """each function: its file, its line, its name, its parameters and its body"""
    start = re.compile(r'^([ \t]*)(?:pub(?:\(crate\))? )?fn (\w+)(?:<[^>]*>)?\(([^)]*)\)', re.M)
    for name, text in sources():
        for m in start.finditer(text):
            opening = re.compile(r'^%s\{$|\{$' % m.group(1), re.M).search(text, m.end())
            end = re.compile(r'^%s\}' % m.group(1), re.M).search(text, opening.end()) if opening else None
            if end:
                yield name, line_of(text, m.start(2)), m.group(2), m.group(3), text[opening.end():end.start()]


def found(pattern):
    for name, text in sources():
        for m in re.finditer(pattern, text, re.M):
            yield '%s:%d %s' % (name, line_of(text, m.start()), m.group(0).strip())


def enums():
    """every enum of the tree's own"""
    yield from found(r'^(?:pub(?:\(crate\))? )?enum \w+')


def flags():
    """structs with a bool beside other fields"""
    for name, text in sources():
        for m in re.finditer(r'struct (\w+)(?:<[^>]*>)? \{\n(.*?)\n\}', text, re.S):
            bools = re.findall(r'(\w+): bool', m.group(2))
            if bools:
                yield '%s:%d %s: %s' % (name, line_of(text, m.start()), m.group(1), ', '.join(bools))


def numbers():
    """refusals as numbers (a field, a parameter, a result), and numbers that stand for none or for a kind"""
    yield from found(r'\bnumber: u64')
    yield from found(r'^(?:pub(?:\(crate\))? )?fn \w*refusal\w*\((?:[^)]*)\) -> u64')
    yield from found(r'const (?:NO_\w+|END_TAG|DASH): \w+')
    yield from found(r'\b(?:case: u8|kinds: \[u8; 600\]|breaks: \[u64; 10\]|last: u64)')


def shape(body):
    body = re.sub(r'//.*', '', body)
    tokens = re.findall(r"b?'(?:\\.|[^'])'|\"[^\"]*\"|\w+|[^\w\s]", body)
    words = {'if', 'else', 'while', 'for', 'in', 'match', 'return', 'let', 'mut', 'as', 'true', 'false'}
    return ' '.join(t if t in words or not re.match(r"[\w'\"]", t) else '_' for t in tokens)


def twins():
    """functions of eight lines or more, or with a loop, of one crate that have one shape but for names and numbers"""
    groups = collections.defaultdict(list)
    for name, line, fn, _, body in functions():
        if body.count('\n') >= 7 or 'while ' in body or 'for ' in body:
            groups[name.split('/')[0], shape(body)].append('%s:%d %s' % (name, line, fn))
    for places in groups.values():
        if len(places) > 1:
            yield ' ~ '.join(places)


def loops():
    """loops that count by hand"""
    for name, line, fn, _, body in functions():
        for m in re.finditer(r"^\s*(?:'\w+: )?while .*", body, re.M):
            yield '%s:%d %s: %s' % (name, line, fn, m.group(0).strip())


def matches():
    """a match that only tells variants apart, or turns a variant, letter or number into another"""
    constant = r"(?:true|false|!?\w+|b?'.'|\d[\d_]*|\w+::\w+|0)"
    for name, text in sources():
        for m in re.finditer(r"match (\w+) \{\n((?:[^\n{]+(?:\{[^}]*\})? => %s,\n)+)\s*\}" % constant, text):
            yield '%s:%d match %s' % (name, line_of(text, m.start()), m.group(1))


def rows():
    """functions with six parameters or more"""
    for name, line, fn, parameters, _ in functions():
        n = len([p for p in parameters.split(',') if p.strip()])
        if n >= 6:
            yield '%s:%d %s: %d' % (name, line, fn, n)


def buffers():
    """arrays in structs, and slices with a count of their places beside them"""
    yield from found(r'^\s+(?:pub )?\w+: \[\w+; [\d_]+\],')
    for name, line, fn, parameters, _ in functions():
        if re.search(r'\bn: usize', parameters) and '&' in parameters:
            yield '%s:%d %s' % (name, line, fn)


def switches():
    """a bool or a kind handed down to pick what is done"""
    for name, line, fn, parameters, _ in functions():
        if re.search(r': (?:bool|TallyKind|Figure)\b', parameters):
            yield '%s:%d %s' % (name, line, fn)


def joined():
    """tests joined by a call"""
    yield from found(r'\band\(')


def proofs():
    """the files of answers and invariants"""
    for name in sorted(glob.glob('crates/*/proofs/**/*.antt', recursive=True)):
        if name.endswith(('/Answers.antt', '/Invariants.antt')) and name.count('/') > 3:
            yield name[len('crates/'):]


POINTS = [enums, flags, numbers, twins, loops, matches, rows, buffers, switches, joined, proofs]

if len(sys.argv) > 1:
    for place in dict((p.__name__, p) for p in POINTS)[sys.argv[1]]():
        print(place)
else:
    for p in POINTS:
        print('%4d  %s: %s' % (len(list(p())), p.__name__, p.__doc__))
