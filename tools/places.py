#!/usr/bin/env python3
"""places.py [--list] [POINT ..]: counts the places of older forms in crates/*/src, point by point (docs/DESIGN-PASS.md).

Run at the top of the repository. --list prints each place; a place with a line `// Kept:` beside it is counted as kept.
"""
import collections
import glob
import re
import sys

NUMBER = r'(?:u8|u16|u32|u64|usize)'


class Function:
    def __init__(self, path, line, comment, name, params, result, contract, body):
        self.path, self.line, self.comment, self.name = path, line, comment, name
        self.params, self.result, self.contract, self.body = params, result, contract, body

    def where(self):
        return f'{self.path}:{self.line} {self.name}'


def read_functions(path):
    """The functions of a file: a body begins at a line that is a brace alone or ends in one."""
    lines = open(path, encoding='utf-8').read().split('\n')
    found, i = [], 0
    while i < len(lines):
        m = re.match(r'( *)(?:pub(?:\(\w+\))? )?(?:const )?(?:extern "C" )?fn (\w+)', lines[i])
        if not m:
            i += 1
            continue
        indent, k = m[1], i
        comment = []
        back = i - 1
        while back >= 0 and re.match(r' *(//|#\[)', lines[back]):
            comment.insert(0, lines[back].strip())
            back -= 1
        head = []
        while k < len(lines) and not (lines[k] == indent + '{' or (lines[k].endswith('{') and 'ensures' not in lines[k] and 'requires' not in lines[k])):
            head.append(lines[k])
            k += 1
        if k < len(lines) and lines[k].endswith('{') and lines[k] != indent + '{':
            head.append(lines[k][:-1])
        body = []
        k += 1
        while k < len(lines) and lines[k] != indent + '}':
            body.append(lines[k])
            k += 1
        text = '\n'.join(head)
        cut = re.search(r'\n *(requires|ensures|where)\b', text)
        signature, contract = (text[:cut.start()], text[cut.start():]) if cut else (text, '')
        p = re.search(r'\((.*)\)(?: -> (.*))?', ' '.join(signature.split()))
        params = [x.strip() for x in re.split(r',(?![^<\[(]*[>\])])', p[1]) if x.strip()] if p else []
        found.append(Function(path, i + 1, comment, m[2], params, (p[2] or '').strip() if p else '', contract, '\n'.join(body)))
        i = k + 1
    return found


def read_types(path):
    """(line, comment, kind, name, [fields or variants])."""
    text = open(path, encoding='utf-8').read()
    for m in re.finditer(r'((?: *//[^\n]*\n| *#\[[^\n]*\n)*)(?:pub )?(struct|enum) (\w+)(?:<[^>]*>)? \{\n(.*?)\n\}', text, re.S):
        members = [re.sub(r'^pub ', '', x.strip().rstrip(',')) for x in m[4].split('\n') if x.strip() and not x.strip().startswith('//')]
        yield text[:m.start(2)].count('\n') + 1, m[1], m[2], m[3], members


def kept(*texts):
    return any('// Kept:' in t for t in texts)


def point_1(files, functions):
    for path in files:
        for line, comment, kind, name, members in read_types(path):
            at = f'{path}:{line} {kind} {name}'
            if kind == 'enum' and len(members) == 2 and any('(' in m for m in members):
                bare = [m for m in members if '(' not in m]
                refused = [m for m in members if re.search(r'Refus|Bad|Malformed', m)]
                if len(bare) == 1 or (refused and len(refused) == 1):
                    yield 'enum of the shape of Option or Result', at, kept(comment)
            if kind == 'enum' and len(members) > 2 and any(re.match(r'(Done|Fine|Given|Nothing|Agreed|Entry)\b', m) for m in members) \
                    and any(re.match(r'(Malformed|Parameter|Short|NoRoom|Refused)\b', m) for m in members):
                yield 'enum of a success and refusals', at, kept(comment)
            if kind == 'struct' and len(members) > 1 and '#[repr(C)]' not in comment:
                for m in members:
                    if re.match(r'(\w+): bool$', m) or re.match(r'wrong: u64$', m):
                        yield 'flag with values beside it', at + '.' + m, kept(comment)
    for f in functions:
        text = ' '.join(f.comment)
        none = re.search(r'\b(0|7|35|none) (where|if|for) |, or 0\b|, else 0\b|; 7 ', text) and '1 where' not in text
        if re.fullmatch(NUMBER, f.result) and none and not f.body.count('extern'):
            yield 'number that stands for none', f.where(), kept(text, f.body)
        if re.fullmatch(NUMBER, f.result) and re.search(r'Whether|whether|refused with|1 where', text) and not re.search(r'How many', text):
            yield 'number for a test or a refusal', f.where(), kept(text, f.body)
        for p in f.params:
            m = re.match(r'(code|kind|opcode): ' + NUMBER, p)
            if m:
                yield 'number for a kind', f'{f.where()}({p})', kept(text, f.body)


def skeleton(text, calls=False):
    """The code with its types, numbers, texts and paths left out."""
    text = re.sub(r'//.*', '', text)
    text = re.sub(r'b?"[^"]*"', '""', text)
    text = re.sub(r"b?'.'", "''", text)
    text = re.sub(r'\b(?:0[xo])?[0-9][0-9a-f_]*(?:u8|u16|u32|u64|usize)?\b', '0', text)
    text = re.sub(r'\b(?:u8|u16|u32|u64|usize)\b', 'T', text)
    text = re.sub(r'\b(?:\w+::)+', '', text)
    text = re.sub(r'\b[A-Z]\w*', 'N', text)
    if calls:
        text = re.sub(r'\b\w+\(', 'f(', text)
    names = {}
    text = re.sub(r'\b[a-z_]\w*\b', lambda m: m[0] if m[0] in KEEP else names.setdefault(m[0], f'x{len(names)}'), text)
    return ' '.join(text.split())


KEEP = {'if', 'else', 'while', 'loop', 'for', 'in', 'let', 'mut', 'match', 'return', 'break', 'true', 'false', 'as', 'self', 'fn', 'x', 'f'}


def twins(functions, calls):
    groups = collections.defaultdict(list)
    for f in functions:
        body = skeleton(f.body, calls)
        if len(body) >= 60:
            groups[(len(f.params), body)].append(f)
    return [g for g in groups.values() if len(g) > 1]


def point_2(files, functions):
    for group in twins(functions, False):
        for f in group:
            others = ', '.join(g.name for g in group if g is not f)
            yield 'same code but for types, numbers and names', f.where() + ' = ' + others, kept(' '.join(f.comment), f.body)
    for size in ('be', 'le'):
        for f in functions:
            if re.fullmatch(rf'(read|store)_{size}(16|32|64)', f.name):
                yield 'one function for each width', f.where(), kept(' '.join(f.comment), f.body)
    names = collections.defaultdict(list)
    for path in files:
        for line, comment, kind, name, members in read_types(path):
            if '#[repr(C)]' not in comment:
                names[name].append((path, line, comment))
    for name, group in names.items():
        if len(group) > 1 and name in ('Next', 'Check', 'Fault', 'Judgement', 'Configured', 'Same', 'Cursor'):
            for path, line, comment in group:
                yield 'type of the same name', f'{path}:{line} {name}', kept(comment)


def loops(body):
    """(head, text) of each `while` or `loop`."""
    lines = body.split('\n')
    for i, line in enumerate(lines):
        m = re.match(r'( *)(?:let \w+ = )?(while .*|loop) \{$', line)
        if m:
            k = i + 1
            while k < len(lines) and lines[k].rstrip(';') != m[1] + '}':
                k += 1
            yield m[2], '\n'.join(lines[max(0, i - 1):k])


def point_3(files, functions):
    for f in functions:
        for head, text in loops(f.body):
            steps = re.findall(r'^ *(\w+) [+-]= ([0-9]+);', text, re.M)
            if any(re.search(rf'\b{name}\b', head) or head == 'loop' for name, _ in steps):
                yield 'index counted by hand', f.where(), kept(' '.join(f.comment), f.body)


def point_4(files, functions):
    for f in functions:
        if f.name == 'from':
            continue
        text = ' '.join(f.comment)
        body = ' '.join(f.body.split())
        if re.search(r'if (\w+) < (\w+) \{ (return )?(\1|\2);? \}', body):
            yield 'minimum, maximum or difference by hand', f.where(), kept(text, f.body)
        elif re.search(r'^if (\w+) \{ (return )?(1|true);? \}|^if \w+ < \w+ \{ return 0; \} \(?\w+ - \w+\)?', body):
            yield 'minimum, maximum or difference by hand', f.where(), kept(text, f.body)
        elif re.fullmatch(r'is_same|\w+_of2', f.name):
            yield 'equality by hand', f.where(), kept(text, f.body)
        elif len(f.params) == 1 and re.match(r'match \w+ \{( *\w+::\w+(\([^)]*\))? => [^{}]*,)+ *\}$', body):
            yield 'conversion by hand', f.where(), kept(text, f.body)
        elif len(f.params) == 1 and re.search(r'^(let \w+ = \w+\.\w+; )*[A-Z]\w+ \{.*\}$', body) and '&' not in f.params[0] and 'self' not in f.params[0]:
            yield 'conversion by hand', f.where(), kept(text, f.body)
        elif len(f.params) == 1 and re.match(r'\w+: u32', f.params[0]) and re.match(r'(if \w+ == \d+ \{ return \w+::\w+; \} )+\w+::\w+$', body):
            yield 'conversion by hand', f.where(), kept(text, f.body)


def point_5(files, functions):
    where = collections.defaultdict(list)
    for f in functions:
        for pair in zip(f.params, f.params[1:]):
            if all(re.match(r'\w+: ', p) for p in pair) and 'extern "C"' not in ' '.join(f.comment):
                where[pair].append(f)
    for pair, group in sorted(where.items(), key=lambda x: -len(x[1])):
        if len(group) >= 5 and 'u8]' not in pair[0] + pair[1] or len(group) >= 8:
            for f in group:
                yield 'parameters together: ' + ', '.join(pair), f.where(), kept(' '.join(f.comment), f.body)
    facts = collections.defaultdict(list)
    for f in functions:
        for clause in re.findall(r'requires(?: \w+)? \{ (.*?) \}\n', f.contract + '\n', re.S):
            for fact in re.split(r' × ', ' '.join(clause.split())):
                facts[fact.strip('() ')].append(f)
    for fact, group in sorted(facts.items(), key=lambda x: -len(x[1])):
        if len(group) >= 3:
            for f in group:
                yield 'fact in contracts: ' + fact[:90], f.where(), kept(' '.join(f.comment), f.body)


def point_6(files, functions):
    for f in functions:
        names = [re.match(r'(?:mut )?(\w+): (.*)', p) for p in f.params]
        names = [(m[1], m[2]) for m in names if m]
        for a, b, c in zip(names, names[1:], names[2:]):
            ranges = (('from', 'to'), ('from', 'n'), ('at', 'n'), ('from', 'end'), ('from', 'count'))
            if re.match(r'&(mut )?\[', a[1]) and b[1] == 'usize' and c[1] == 'usize' and (b[0], c[0]) in ranges:
                yield 'a slice with places beside it', f.where(), kept(' '.join(f.comment), f.body)
        if re.search(r'\[u64; 128\]', ' '.join(f.params)) and 'noted: usize' in f.params:
            yield 'pairs in one array with their number beside it', f.where(), kept(' '.join(f.comment), f.body)
        if 'out: &mut [u8]' in f.params and 'at: usize' in f.params:
            yield 'a buffer with a length beside it', f.where(), kept(' '.join(f.comment), f.body)
    for path in files:
        text = open(path, encoding='utf-8').read()
        for m in re.finditer(r'^((?://.*\n|#\[.*\n)*)(pub )?const (\w+): \[usize; \d+\]', text, re.M):
            yield 'a table of places', f'{path} {m[3]}', kept(m[1])
        for line, comment, kind, name, members in read_types(path):
            if kind == 'struct' and '#[repr(C)]' not in comment and any(re.match(r'len: usize', m) for m in members):
                yield 'a buffer with a length beside it', f'{path}:{line} {name}', kept(comment)


def point_7(files, functions):
    plain = {tuple(sorted(f.where() for f in g)) for g in twins(functions, False)}
    for group in twins(functions, True):
        if tuple(sorted(f.where() for f in group)) in plain or len({skeleton(f.body) for f in group}) == 1 and False:
            continue
        for f in group:
            others = ', '.join(g.name for g in group if g is not f)
            yield 'same code but for the functions called', f.where() + ' = ' + others, kept(' '.join(f.comment), f.body)


def point_8(files, functions):
    for path in sorted(glob.glob('crates/*/proofs/**/Answers.antt', recursive=True)):
        seen = collections.Counter(x.strip() for x in open(path, encoding='utf-8') if re.match(r' *let .{40,}', x))
        for line, n in seen.items():
            if n > 1:
                yield 'a step that several answers say', f'{path}: {line[:70]} ({n} times)', False


POINTS = {str(n): g for n, g in enumerate((point_1, point_2, point_3, point_4, point_5, point_6, point_7, point_8), 1)}


def main():
    listed = '--list' in sys.argv
    wanted = [a for a in sys.argv[1:] if a in POINTS] or list(POINTS)
    files = sorted(glob.glob('crates/*/src/**/*.rt', recursive=True))
    functions = [f for path in files for f in read_functions(path)]
    for n in wanted:
        rows, held = collections.Counter(), 0
        places = list(POINTS[n](files, functions))
        for what, at, is_kept in places:
            rows[what] += 1
            held += is_kept
            if listed:
                print(f'{n} {what}: {at}' + (' (kept)' if is_kept else ''))
        print(f'point {n}: {len(places)} places, {held} of them kept')
        for what, count in sorted(rows.items(), key=lambda x: -x[1]):
            print(f'    {count:4} {what}')


main()
