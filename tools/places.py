#!/usr/bin/env python3
"""Lists the places in src/ that an older form of the language could have left, by the points of docs/DESIGN-PASS.md.

Usage: places.py [DIR]     (DIR: a checkout's top; this folder where none is named). With -c the counts alone.

A row is a place to look at, not a verdict.
"""
import collections, glob, itertools, re, sys

counts_only = '-c' in sys.argv
top = next((a for a in sys.argv[1:] if a != '-c'), '.')
files = sorted(glob.glob(top + '/crates/*/src/**/*.rt', recursive=True))
text = {f[len(top) + 8:]: re.sub(r'//[^\n]*', '', open(f).read()) for f in files}
found = collections.OrderedDict()


def note(point, place):
    found.setdefault(point, []).append(place)


def items(source, word):
    """(name, body) of each struct or enum."""
    for m in re.finditer(r'\b%s (\w+)[^;{(]*\{' % word, source):
        depth, i = 1, m.end()
        while depth:
            depth += {'{': 1, '}': -1}.get(source[i], 0)
            i += 1
        yield m.group(1), source[m.end():i - 1]


def functions(source):
    """(name, parameters, body) of each function with a body."""
    for m in re.finditer(r'\bfn (\w+)(?:<[^>]*>)?\(', source):
        depth, i = 1, m.end()
        while depth:
            depth += {'(': 1, ')': -1}.get(source[i], 0)
            i += 1
        params = source[m.end():i - 1]
        # Past the clauses, which are in braces after their word.
        while True:
            clause = re.match(r'[^{;]*?\b(?:requires|ensures)\*?[^{;]*\{', source[i:])
            if not clause:
                break
            i += clause.end()
            depth = 1
            while depth:
                depth += {'{': 1, '}': -1}.get(source[i], 0)
                i += 1
        start = re.match(r'[^{;]*\{', source[i:])
        if not start:
            continue
        i += start.end()
        begin, depth = i, 1
        while depth:
            depth += {'{': 1, '}': -1}.get(source[i], 0)
            i += 1
        yield m.group(1), params, source[begin:i - 1]


def split(params):
    return [re.sub(r"'\w+ ", '', p.strip()) for p in re.split(r',(?![^(<\[]*[)>\]])', params) if ':' in p]


same_body = collections.defaultdict(list)
together = collections.defaultdict(list)
clauses = collections.Counter()
for f, source in text.items():
    for name, body in items(source, 'enum'):
        variants = re.findall(r'^\s*(\w+)(\([^)]*\)|\s*\{[^}]*\})?', body, re.M)
        variants = [v for v in re.findall(r'(\w+)(\([^()]*(?:\([^()]*\))*[^()]*\)|\s*\{[^}]*\})?\s*(?:,|$)', body) if v[0]]
        bare = [v for v in variants if not v[1]]
        refused = any('Refusal' in v[1] for v in variants)
        option = len(bare) == 1 and (len(variants) == 2 or bare[0][0] == 'None')
        if refused or option:
            note('1a enums shaped as Option or Result', '%s %s' % (f, name))
    for name, body in items(source, 'struct'):
        if re.search(r': (Verdict|Outcome|WriteAnswer|Result<)', body):
            note('1b a flag with a value beside it', '%s %s' % (f, name))
        for flag in re.findall(r'(\w+): bool', body):
            note('1b a flag with a value beside it', '%s %s.%s' % (f, name, flag))
        if re.search(r'\[\w+; \w+\]', body) and re.search(r'(length|count|buffered|have)\w*: u', body):
            note('6 a buffer with its length beside', '%s %s' % (f, name))
    for name in re.findall(r'const (\w+): (?:usize|u8|u32) = \d', source):
        note('1c constants that are numbers', '%s %s' % (f, name))
    for m in re.finditer(r"^\s*(?:'\w+: )?(?:while |loop \{)|= loop \{", source, re.M):
        note('3a while and loop', '%s:%d' % (f, source[:m.end()].count('\n') + 1))
    for m in re.finditer(r'for \w+ in [^{]*\.\.', source):
        note('3b for over numbers', '%s:%d' % (f, source[:m.end()].count('\n') + 1))
    for line in re.findall(r'^ +(?:requires|ensures).*\}$', source, re.M):
        clauses[re.sub(r'^ +(requires|ensures)\*?( [a-z_0-9]+)? \{', r'\1 {', line)] += 1
    for name, params, body in functions(source):
        arms = re.findall(r'=>\s*([^,{]+|\{[^}]*\}),?\s*$', body, re.M)
        if len(arms) > 1 and all(a in ('true', 'false') for a in arms):
            note('4a tests by arms of true and false', '%s %s' % (f, name))
        if len(arms) > 2 and all(re.fullmatch(r"\d+|b'.'|b?\"[^\"]*\"|Some\(\w+::\w+\)|None|\w+::\w+|Known\(.*\)", a) for a in arms):
            note('4b tables by arms', '%s %s' % (f, name))
        numbers = re.findall(r'^\s*(?:\d+|call::\w+) => \S.*\(', body, re.M)
        if len(numbers) > 1:
            note('7 a switch on a number', '%s %s' % (f, name))
        tokens = re.findall(r"\w+|[^\w\s]", body)
        key = ' '.join('0' if t[0].isdigit() else 'T' if t[0].isupper() else 'F' if t == name else t for t in tokens)
        if len(tokens) >= 12:
            same_body[key].append('%s %s' % (f, name))
        for k in (3, 4, 5):
            for t in itertools.combinations(sorted(set(split(params))), k):
                together[f.split('/')[0], t].append(name)
for places in same_body.values():
    if len(places) > 1:
        note('2 bodies that differ in types and numbers alone', ' ~ '.join(places))
for clause, n in clauses.most_common():
    if n > 2:
        note('5a a clause in three contracts or more', '%d times %s' % (n, clause))
shown = []
for (crate, t), names in sorted(together.items(), key=lambda x: -len(x[0][1])):
    if len(names) > 2 and not any(c == crate and set(t) <= set(u) for c, u in shown):
        shown.append((crate, t))
        note('5b parameters of three functions or more', '%s: %s (%d functions)' % (crate, ', '.join(t), len(names)))
for point in sorted(found):
    print('%4d  %s' % (len(found[point]), point))
    if not counts_only:
        for place in found[point]:
            print('        ' + place)
