#!/usr/bin/env python3
"""The places in src/ that docs/DESIGN-PASS.md counts, point by point: `python3 tools/design_counts.py [POINT] [--list]`, run at the top of a
checkout (`git worktree add DIR COMMIT` for an older one). It goes by text: a row is a place to look at, and what stays has its line beside it."""
import collections
import glob
import re
import sys

FILES = sorted(glob.glob('crates/*/src/*.rt'))


def lines(pattern, skip=None):
    found = []
    for path in FILES:
        for number, line in enumerate(open(path), 1):
            code = line.split('//')[0] if skip != 'comments' else line
            if re.search(pattern, code):
                found.append(f'{path}:{number}: {line.strip()[:110]}')
    return found


def functions():
    """Name, parameters (name, type), clauses and body of each function."""
    for path in FILES:
        text = open(path).read()
        for m in re.finditer(r'(?ms)^( *)((?:pub )?(?:extern "C" )?fn (\w+)(?:<[^>]*>)?\((.*?)\)[^\n]*?)(?:\n((?:\1    (?:requires|ensures)[^\n]*\n)*)\1\{\n| \{\n)(.*?)^\1\}', text):
            params = [re.sub(r'\s+', ' ', p).strip() for p in re.split(r',(?![^(\[<]*[)\]>])', m.group(4)) if ':' in p]
            yield path, m.group(3), [tuple(x.strip() for x in p.split(':', 1)) for p in params], m.group(5) or '', m.group(6)


def conjuncts(clause):
    parts, depth, start = [], 0, 0
    for i, ch in enumerate(clause):
        depth += ch in '([{'
        depth -= ch in ')]}'
        if ch == '×' and depth == 0:
            parts.append(clause[start:i].strip())
            start = i + 1
    parts.append(clause[start:].strip())
    if len(parts) == 1:
        one = parts[0]
        if one.startswith('(') and one.endswith(')') and '→' not in one and '×' in one:
            return conjuncts(one[1:-1])
        return [one]
    return [c for p in parts for c in conjuncts(p)]


def repeated_facts():
    where = collections.defaultdict(set)
    for path, name, _, clauses, _ in functions():
        for m in re.finditer(r'(?:requires|ensures)(?: \w+)? \{ (.*) \}', clauses):
            for fact in conjuncts(m.group(1)):
                plain = re.sub(r'\b[a-z_]+\.(now|old|new)\b', r'B.\1', fact)
                where[plain].add(f'{path.split("/")[1]}::{name}')
    return [f'{len(fs)} {fact}: {", ".join(sorted(fs))}' for fact, fs in sorted(where.items(), key=lambda e: -len(e[1])) if len(fs) >= 3]


def groups():
    sets = [('starts', 'len', 'end'), ('s', 'n'), ('t', 'sizes'), ('t', 'depths'), ('work', 'list'), ('domains', 'origins', 'reach'), ('file', 'left', 'right'), ('text', 'at'), ('line', 'at'), ('out', 'at')]
    fs = [(p.split('/')[1] + '::' + n, [x for x, _ in ps]) for p, n, ps, _, _ in functions()]
    found = []
    for g in sets:
        at = [n for n, ps in fs if all(x in ps for x in g)]
        if len(at) >= 3:
            found.append(f'{len(at)} {g}: {", ".join(at)}')
    return found


def small():
    value = r'\(?[\w%&. ()]+\)?'
    return [f'{p}: {n}: {b.strip()}' for p, n, _, _, b in functions() if re.fullmatch(value + r' as (u8|u16|u32|u64|usize)|if \w+ [<>] \w+ \{ [\w -]+ \} else \{ \w+ \}', b.strip())]


POINTS = {
    '1 own enums': lambda: lines(r'^(pub )?enum '),
    '1 numbers for kinds or refusals, in fields and parameters': lambda: lines(r'^\s+(pub )?(number|kind|reason|side|condition|rule|code): (u8|u32|usize),'),
    '1 constants that number kinds': lambda: [l for l in lines(r'^(pub )?const [A-Z_]+: u32') if '/numbers.rt' not in l],
    '1 flags beside values': lambda: lines(r'^\s+(pub )?[a-z_]+: bool,'),
    '1 a number for none': lambda: lines(r'//.*\b(0|n) (if|where) (there is none|it is a single|refused|accepted)|//.*is 0 where|// .*\(0 if', 'comments'),
    '3 loops': lambda: lines(r'^\s*(while|loop)\b'),
    '4 functions that only convert or choose': small,
    '4 conversions by as': lambda: lines(r' as (u8|u16|u32|u64|usize|i32)\b'),
    '5 facts in three or more contracts': repeated_facts,
    '5 parameters that travel together': groups,
    '5 functions of more than six parameters': lambda: [f'{p.split("/")[1]}::{n} {len(ps)}' for p, n, ps, _, _ in functions() if len(ps) > 6],
    '8 answers': lambda: [l for path in sorted(glob.glob('crates/*/proofs/**/Answers.antt', recursive=True)) for l in [f'{path}: {x.strip()[:90]}' for x in open(path) if re.match(r'pub [^:]+ : goal\.', x)]],
    "8 answers that cite Rattle's own names": lambda: [f'{path}' for path in sorted(glob.glob('crates/*/proofs/**/*.antt', recursive=True)) for x in open(path) if re.search(r'_known-\d|result-\d\.given', x)],
}

if __name__ == '__main__':
    only = [a for a in sys.argv[1:] if not a.startswith('-')]
    for point, find in POINTS.items():
        if only and not point.startswith(tuple(only)):
            continue
        rows = find()
        print(f'{len(rows):5} {point}')
        if '--list' in sys.argv:
            for row in rows:
                print('     ', row)
