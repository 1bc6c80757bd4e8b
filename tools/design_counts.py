#!/usr/bin/env python3
"""Counts the places of docs/DESIGN-PASS.md in crates/*/src. Usage: design_counts.py [POINT ..] [-l]; -l lists each place."""
import collections
import glob
import re
import sys


def sources():
    for path in sorted(glob.glob('crates/*/src/**/*.rt', recursive=True)):
        yield path.removeprefix('crates/'), open(path).read().splitlines()


def code(line):
    return line.split('//')[0].rstrip()


def matches(pattern):
    for path, lines in sources():
        for i, line in enumerate(lines):
            if re.search(pattern, code(line)):
                yield f'{path}:{i + 1}: {line.strip()}'


def functions():
    """Each function: its place, its name, its parameters, its clauses, its body."""
    for path, lines in sources():
        text = '\n'.join(code(line) for line in lines)
        for m in re.finditer(r'^( *)(?:pub(?:\(crate\))? )?(?:extern "C" )?fn (\w+)', text, re.M):
            end = text.find('\n' + m[1] + '}', m.end())
            whole = text[m.start():end]
            place = f'{path}:{text.count(chr(10), 0, m.start()) + 1}: fn {m[2]}'
            body = whole.find('\n' + m[1] + '{')
            if body < 0:
                body = whole.find('{\n')
            head, rest = whole[:body], whole[body:]
            cut = re.search(r'\n\s+(requires|ensures)\b', head)
            signature = head[:cut.start()] if cut else head
            yield place, signature, head[len(signature):], rest


def loops():
    """Loops whose head tests a counter that the body steps by a literal or a constant, up or down."""
    for path, lines in sources():
        for i, line in enumerate(lines):
            m = re.match(r'(\s*)(while\b.*|loop) \{$', code(line))
            if not m:
                continue
            body = []
            for later in lines[i + 1:]:
                if later.startswith(m[1] + '}'):
                    break
                body.append(code(later))
            names = set(re.findall(r'\b[a-z_]\w*\b', m[2])) - {'while', 'loop', 'len'}
            step = r'^\s*(\w+) (?:= \1 [+-]|[+-]=) (?:\d+|[A-Z][A-Z_]+);$'
            stepped = {s[1] for s in (re.match(step, b) for b in body) if s}
            if stepped & names or (m[2] == 'loop' and stepped):
                yield f'{path}:{i + 1}: {line.strip()}'


def point_1():
    flags = r'^\s+(?:pub )?(?:code|fault|state|kind|found|same|differ|asks|failed): (?:u8|u32|usize|bool|Option<io::Error>),$'
    yield 'numbers and flags beside values', list(matches(flags))
    yield 'enums of the shape of Option or Result', list(matches(r'^(?:pub )?enum (?:Outcome|Answer|Shape|Sought)\b'))
    numbered = r'^(?:pub )?const (?:LIFTING|SUBSTITUTING|NO_ROOM|PAST|OTHER|NAME|LESS|BRACKET|STAR|COLON|EQUALS|COMMA|OPEN|CLOSE|GREATER|UNBRACKET|SPACE|NEWLINE|POINT|PLUS|MINUS): '
    yield 'constants that number kinds, or mean none', list(matches(numbered))
    none = []
    for path, lines in sources():
        for i, line in enumerate(lines):
            if re.search(r'//.*(?:: none\b|length 0\b|past the (?:line|store)|NESTING: it is not|0 where|0: it is not|LINE_LIMIT where|0 if empty)', line):
                none.append(f'{path}:{i + 1}: {line.strip()}')
    yield 'results with a number that means none', none


def point_2():
    shapes = collections.defaultdict(list)
    for place, signature, clauses, body in functions():
        shape = re.sub(r'"[^"]*"|\b\w+\b', lambda m: m[0] if m[0] in KEYWORDS else 'x', body)
        if body.count('\n') >= 4:
            shapes[shape].append(place)
    yield 'functions of one shape', [' = '.join(v) for v in shapes.values() if len(v) > 1]
    fields = collections.defaultdict(list)
    for path, lines in sources():
        text = '\n'.join(code(line) for line in lines)
        for m in re.finditer(r'struct (\w+) \{\n(.*?)\n\}', text, re.S):
            types = tuple(re.findall(r': (.*),', m[2]))
            fields[types].append(f'{path}: struct {m[1]}')
    yield 'structs of one shape', [' = '.join(v) for v in fields.values() if len(v) > 1]


KEYWORDS = set('if else while loop for in match return let mut as true false'.split())


def point_3():
    yield 'loops that count by hand', list(loops())


def point_4():
    yield 'functions that compare, convert or print by hand', [
        p for p, s, c, b in functions()
        if re.search(r'fn (?:same_\w+|code_of|cause_code|reason_of|numbers_of|answer_numbers|outcome_of|pass_on|digit\w*|figure|put_number|say|number|scan\w*|is_reserved)\b', p)
    ]


def point_5():
    facts = collections.Counter()
    for place, signature, clauses, body in functions():
        for clause in set(re.findall(r'(?:requires|ensures)[\w ]*\{(.*?)\}\s*(?=requires|ensures|$)', clauses, re.S)):
            for part in set(re.split(r' × |→', clause)):
                facts[' '.join(part.split()).strip('() ')] += 1
    yield 'facts in three contracts or more', [f'{n} × {f}' for f, n in facts.most_common() if n >= 3 and f]
    groups = collections.Counter()
    for place, signature, clauses, body in functions():
        names = re.findall(r'(\w+): ', signature)
        for i in range(len(names) - 3):
            groups[tuple(names[i:i + 4])] += 1
    yield 'four parameters that travel together, in three functions or more', [f'{n} × {", ".join(g)}' for g, n in groups.most_common() if n >= 3]


def point_6():
    arrays = []
    for path, lines in sources():
        for i, line in enumerate(lines):
            if re.match(r'\s+(?:pub )?\w+: \[.*; .*\],$', code(line)):
                arrays.append(f'{path}:{i + 1}: {line.strip()}')
    yield 'arrays in structs', arrays
    yield 'buffers with a length beside', [p for p, s, c, b in functions() if re.search(r'(?:out|text|page|book|cells): &(?:mut )?\[u\d+\], (?:n|at|length): usize', ' '.join(s.split()))]


def point_7():
    yield 'parameters that say which step to run', [p for p, s, c, b in functions() if re.search(r'\b(?:kind: usize|second: bool|asks: bool|is_last: bool|binds: bool)', s)]


def point_8():
    answers = []
    for path in sorted(glob.glob('crates/*/proofs/**/Answers.antt', recursive=True)):
        n = len(re.findall(r'^pub ', open(path).read(), re.M))
        answers.append((n, path))
    yield 'answers in proofs', [f'{n} {p}' for n, p in answers for _ in range(n)]


def main():
    show = '-l' in sys.argv
    chosen = [a for a in sys.argv[1:] if a != '-l'] or list('12345678')
    for point in chosen:
        for what, places in globals()['point_' + point]():
            print(f'{point}. {what}: {len(places)}')
            if show:
                for place in places:
                    print('   ', place)


main()
