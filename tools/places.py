#!/usr/bin/env python3
"""Lists the places in crates/*/src that docs/DESIGN-PASS.md counts: `places.py [POINT..]`.

A function is its text without comments, clauses and ghost lines; tests are left out. Each line printed is one place.

1  matches that turn an Option or a Result by hand, numbers for variants, and functions that compare with a number for none
2  functions whose bodies differ in three names or constants at most
3  loops
4  order, conversion, default and printing written by hand
5  clauses that stand in the contracts of three functions or more, and parameters that travel together through as many
6  lent memory with a count beside it, and links by number
7  calls that differ in one step only: functions alike but for the name of what they call
8  runs of five lines or more that stand twice in the proofs, imports left out
"""
import collections
import glob
import itertools
import re
import sys

FN = re.compile(r'^\s*(?:pub(?:\([a-z]+\))?\s+)?(?:final\s+)?fn\s+(\w+)', re.M)


def sources():
    for path in sorted(glob.glob('crates/*/src/*.rt')):
        if not path.endswith('/tests.rt'):
            yield path, open(path).read().split('#[cfg(test)]')[0]


def functions():
    """(path, line, name, head, clauses, body) of each function with a body."""
    for path, text in sources():
        for m in FN.finditer(text):
            start = m.end()
            depth, i, body = 0, start, None
            clauses = []
            head_end = None
            # a brace that opens a line alone opens the body; a clause's braces stand behind its word
            while i < len(text):
                c = text[i]
                word = re.compile(r'\s(requires|ensures)\*?\s*(\w*)\s*\{').match(text, i)
                if word and depth == 0:
                    if head_end is None:
                        head_end = i
                    j, d = word.end(), 1
                    while d:
                        d += {'{': 1, '}': -1}.get(text[j], 0)
                        j += 1
                    clauses.append((word.group(1), word.group(2), text[word.end():j - 1].strip()))
                    i = j
                    continue
                if c == ';' and depth == 0:
                    break
                if c == '{':
                    if head_end is None:
                        head_end = i
                    j, d = i + 1, 1
                    while d:
                        d += {'{': 1, '}': -1}.get(text[j], 0)
                        j += 1
                    body = text[i + 1:j - 1]
                    break
                depth += {'(': 1, '[': 1, ')': -1, ']': -1}.get(c, 0)
                i += 1
            if body is None:
                continue
            body = re.sub(r'//[^\n]*', '', body)
            yield path, text.count('\n', 0, m.end()) + 1, m.group(1), text[start:head_end], clauses, body


def at(path, line, what):
    print(f'{path}:{line}: {what}')


BY_HAND = re.compile(r'None => (?:return )?(?:None|Ok|Err)\b|Err\(\w+\) => (?:return )?(?:Err|None|Ok)\b'
                     r'|Some\(\w+\) => (?:Some|Ok)\b|Ok\(\w+\) => (?:Ok|Some)\b'
                     r'|else \{\s*return (?:None|Err|Ok|Answer)|Some\(_\) => Err|_ => false|=> true,')


def point1():
    for path, line, name, head, clauses, body in functions():
        if BY_HAND.search(body):
            at(path, line, f'{name}: turns an Option, a Result or an enum by hand')
        if len(re.findall(r'=> \d+,', body)) > 1:
            at(path, line, f'{name}: a number for each variant')
        if re.search(r'\bNONE\b', body):
            at(path, line, f'{name}: a number for none')


def tokens(body):
    return re.findall(r"\w+|'\w+'|[^\s\w]", body)


def alike(least, most):
    fns = [f for f in functions()]
    words = [tokens(f[5]) for f in fns]
    for (f, a), (g, b) in itertools.combinations(list(zip(fns, words)), 2):
        if len(a) != len(b) or len(a) < least:
            continue
        swaps = {(x, y) for x, y in zip(a, b) if x != y}
        if len(swaps) > most or any(not re.match(r"[\w']", x + y) for x, y in swaps):
            continue
        yield f, g, swaps


def point2():
    for f, g, swaps in alike(9, 3):
        at(f[0], f[1], f'{f[2]} and {g[2]} ({g[0]}:{g[1]}): ' + ', '.join(sorted(f'{x}/{y}' for x, y in swaps)))


def point3():
    for path, line, name, head, clauses, body in functions():
        for m in re.finditer(r'^\s*(?:let \w+ = )?(for .*|while .*|loop\b.*) \{', body, re.M):
            at(path, line, f'{name}: {m.group(1)}')


def point4():
    for path, text in sources():
        for n, row in enumerate(text.split('\n'), 1):
            m = re.match(r'impl(<.*?>)? (?:\w+::)*(Compare|Weight|Display|From|TryFrom|Error|PartialEq|Ord|PartialOrd|Default|Clone|Copy)(?=\W).* for ', row)
            if m:
                at(path, n, row.rstrip(' {'))


def plain(clause):
    return re.sub(r'\.(old|new|now)\b', '', clause)


def point5():
    by_clause = collections.defaultdict(set)
    by_params = collections.defaultdict(dict)
    for path, line, name, head, clauses, body in functions():
        crate = path.split('/')[1]
        for word, label, text in clauses:
            by_clause[(crate, plain(text))].add(name)
        params = re.findall(r'\b([a-z]\w*): ', head.split('->')[0])
        if params:
            by_params[crate][name] = set(params)
    for (crate, text), names in sorted(by_clause.items()):
        if len(names) >= 3 and len(text) > 12:
            print(f'{crate}: {len(names)} functions say: {text}')
    for crate, fns in sorted(by_params.items()):
        # the largest groups that two functions share
        groups = {frozenset(a & b) for a, b in itertools.combinations(fns.values(), 2) if len(a & b) > 1}
        for group in sorted(groups, key=sorted):
            names = [n for n, params in fns.items() if group <= params]
            if len(names) >= 4:
                print(f'{crate}: {len(names)} functions take: {", ".join(sorted(group))}')


def point6():
    for path, text in sources():
        for n, row in enumerate(text.split('\n'), 1):
            if re.match(r"\s+(pub(\(crate\))? )?(len|left|at|prev|next|first|last|link): u(16|32|size),", row):
                at(path, n, row.strip())
            elif re.match(r"\s+(pub(\(crate\))? )?\w+: &'a mut \[", row):
                at(path, n, row.strip())


def point7():
    for f, g, swaps in alike(9, 6):
        if any(re.search(rf'\b{x}\(', f[5]) and re.search(rf'\b{y}\(', g[5]) for x, y in swaps):
            at(f[0], f[1], f'{f[2]} and {g[2]} ({g[0]}:{g[1]})')
    for path, text in sources():
        for n, row in enumerate(text.split('\n'), 1):
            if re.search(r'\bfn\(|\bdyn ', row):
                at(path, n, row.strip())


def point8():
    seen = collections.defaultdict(list)
    files = {}
    for path in sorted(glob.glob('crates/*/proofs/**/*.antt', recursive=True)):
        rows = [r.strip() for r in open(path).read().split('\n')]
        files[path] = [(n, r) for n, r in enumerate(rows, 1) if r and not r.startswith(('use ', '--', 'record {', '}'))]
        lines = files[path]
        for i in range(len(lines) - 4):
            seen[tuple(r for n, r in lines[i:i + 5])].append((path, i))
    told = set()
    for key, places in sorted(seen.items(), key=lambda kv: kv[1]):
        for (p, i), (q, j) in itertools.combinations(places, 2):
            a, b = files[p], files[q]
            if i and j and a[i - 1][1] == b[j - 1][1]:
                continue
            n = 0
            while i + n < len(a) and j + n < len(b) and a[i + n][1] == b[j + n][1] and (p != q or i + n < j):
                n += 1
            if n >= 5 and (p, i, q, j) not in told:
                told.add((p, i, q, j))
                print(f'{p}:{a[i][0]}: {n} lines, again at {q}:{b[j][0]}')


def main():
    for p in sys.argv[1:] or '12345678':
        print(f'-- point {p}')
        globals()[f'point{p}']()


main()
