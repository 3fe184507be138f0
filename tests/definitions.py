"""The definitions of specs/ and the types declared in src/, read as trees of words, and what a name in a file stands for.

A key is a crate, a module and a name. A module of specs/ is its file's path in dots; a file of src/ is `declared.` and its path in dots.
"""
import dataclasses
import re
import sys

TOKEN = re.compile(r"\.(?:«\w+»|[\w'-]*[\w'])(?=[\s(){};,]|\.\w|$)|[^\s(){};,.]+(?:\.[^\s(){};,.]+)*|[(){};,.]")
DECLARED_TOKEN = re.compile(r"'\w+|\w+|[^\w\s]")
COMMENT = re.compile(r'(^|\s)(--|//)(\s.*|$)')
HEADER = re.compile(r'((?:(?:abbrev|unfoldable|pub|private|record|data) )+)(\S+) ')
USE = re.compile(r'(?:ghost |pub )*use ([\w.-]+?)(?:\.\{(.*)\}|(?: as (\S+))?);?$')
HOME = re.compile(r'Rattle\.(?!std\b)(\w+)\.specs\.(.+)$')  # std is the kit's
DECLARATION = re.compile(
    r'(?m)^(?:pub )?(?:(struct|enum) (\w+)(?:<[^>]*>)?\s*([({](?:[^{}()]|\([^()]*\)|\{[^{}]*\})*[)}])|(const) (\w+): [^=]* = ([^;]*);)')
DECLARED_USE = re.compile(r'(?m)^(?:pub )?use (\w+)::(?:(\w+)::)?(?:(\w+)|\{([^{}]*)\});')
PATH = re.compile(r'crates/(\w+)/(specs|src)/(.*)\.(?:antt|rt)')
BRACKETS = {'(': ')', '{': '}'}


@dataclasses.dataclass
class Definition:
    """A `term`, `record`, `data`, `struct`, `enum` or `const`: what it takes, what it is of, and its members or clauses."""
    key: tuple
    kind: str
    takes: list
    type: list
    members: dict  # of a record, data type, struct or enum: from each name to its type
    clauses: list
    scope: 'Scope'


class Scope:
    """The names of a file: what its `use` lines name, and its own."""

    def __init__(self, crate, module):
        self.crate, self.module, self.names, self.aliases = crate, module, {}, {}

    def use(self, line):
        """Takes a `use` line."""
        path, names, alias = line.groups()
        home = HOME.match(path)
        place = home.groups() if home else ('', path)
        if names is None:
            self.aliases[alias or path.rpartition('.')[2]] = place
        for name in names.split(', ') if names else []:
            original, _, other = name.partition(' as ')
            local = (other or original).strip()
            self.names[local.replace('◌', '')] = (*place, original.strip())

    def path(self, name):
        """The crate, module and name that a name of this file stands for; None if no line names it."""
        alias, _, last = name.rpartition('.')
        if alias in self.aliases:
            return (*self.aliases[alias], last)
        return self.names.get(name)


def dotted(token, aliases):
    """The words of a token: `x.f.g` is `x`, `.f` and `.g`; what begins with a module's alias, as `nodes.f`, is one name."""
    first, *rest = token.split('.')
    if not first or not rest:
        return [token]
    return [f'{first}.{rest[0]}', *(f'.{name}' for name in rest[1:])] if first in aliases else [first, *(f'.{name}' for name in rest)]


def tree(text, aliases=()):
    """A text as words; a part in brackets is a tuple, its opening bracket first."""
    levels = [[]]
    for token in TOKEN.findall(text):
        if token in BRACKETS:
            levels.append([token])
        elif token in BRACKETS.values():
            group = tuple(levels.pop())
            levels[-1].append(group)
        else:
            levels[-1] += dotted(token.replace('«', '').replace('»', ''), aliases)
    return levels[0]


def split(nodes, mark, most=-1):
    """The parts of a sequence between marks."""
    parts = [[]]
    for node in nodes:
        if node == mark and len(parts) != most:
            parts.append([])
        else:
            parts[-1].append(node)
    return parts


def indent(line):
    """How many spaces a line begins with."""
    return len(line) - len(line.lstrip())


def statements(lines):
    """Lines gathered into statements: a line that is indented further than the first one, or that closes a bracket, goes on with the one before it."""
    found = []
    for line in lines:
        if indent(line) == indent(lines[0]) and line.lstrip()[0] not in BRACKETS.values():
            found.append([line])
        else:
            found[-1].append(line)
    return found


def blocks(text):
    """The definitions of a file, each with what the module around it takes and its lines; and its `use` lines."""
    around, found, uses = '', [], []
    for line in filter(str.strip, (COMMENT.sub('', line) for line in text.splitlines())):
        if line.startswith(('pub mod ', 'mod ')):
            continue
        if line.startswith('module '):
            around = line.removeprefix('module _').removesuffix(' where')
            continue
        around = around if line.startswith('  ') else ''
        line = line[2:] if around else line
        if re.match(r'(?:ghost |pub )*use ', line):
            uses.append(line)
        elif HEADER.match(line):
            found.append((around, [line]))
        elif found:
            found[-1][1].append(line)
    return found, uses


def clause(lines, aliases):
    """A clause: its left side, its right side, and the clauses that follow its `where`."""
    ends = [at for at, line in enumerate(lines) if line.strip() == 'where'] or [len(lines)]
    left, right = split(tree(' '.join(lines[:ends[0]]), aliases), '=', 2)
    return left, right, statements(lines[ends[0] + 1:]) if lines[ends[0] + 1:] else []


def definition(around, lines, scope):
    """A definition of specs/ from its lines."""
    def words_of(text):
        return tree(text, scope.aliases)
    words, name = HEADER.match(lines[0]).groups()
    kind = ('record' in words and 'record') or ('data' in words and 'data') or 'term'
    key = (scope.crate, scope.module, name)
    if kind == 'term':
        first, *others = statements(lines)
        head = split(words_of(' '.join(first)[len(words):]), ':', 2)
        return Definition(key, kind, words_of(around) + head[0][1:], head[1], {}, [clause(other, scope.aliases) for other in others], scope)
    at = next(at for at, line in enumerate(lines) if line.endswith(' where'))
    head = split(words_of(' '.join(lines[:at + 1])[len(words):]), ':', 2)
    members = {}
    for member in statements(lines[at + 1:]) if lines[at + 1:] else []:
        left, right = split(words_of(' '.join(member)), ':', 2)
        members[left[-1]] = right
    return Definition(key, kind, words_of(around) + head[0][1:], head[1][:-1], members, [], scope)


def unread(scope, line):
    """Ends with a line of specs/ that is in no form that is known here."""
    sys.exit(f'crates/{scope.crate}/specs/{scope.module.replace(".", "/")}.antt: tests/definitions.py cannot read this: {line}')


def read_specs(crate, module, text):
    """The definitions of a file of specs/."""
    scope, (found, uses) = Scope(crate, module), blocks(text)
    made = []
    for line in uses:
        scope.use(USE.match(line) or unread(scope, line))
    for around, lines in found:
        try:
            made.append(definition(around, lines, scope))
        except (ValueError, IndexError, StopIteration):
            unread(scope, lines[0])
    for one in made:
        scope.names.update((name, (crate, module, name)) for name in [one.key[2], *(one.members if one.kind == 'data' else ())])
    return made


def declared_members(kind, body):
    """The fields of a struct or the variants of an enum, from each name to the words of its type."""
    parts, depth = [[]], 0
    for token in DECLARED_TOKEN.findall(body)[1:-1]:
        depth += (token in '([{<') - (token in ')]}>')
        if token == ',' and depth == 0:
            parts.append([])
        elif token != 'pub':
            parts[-1].append(token)
    parts = [part for part in parts if part]
    if kind == 'struct' and body.startswith('('):
        return {str(at): part for at, part in enumerate(parts)}
    return {part[0]: part[2:] if kind == 'struct' else part[1:] for part in parts}


def read_declared(crate, module, text):
    """The structs, enums and constants of a file of src/."""
    scope = Scope(crate, f'declared.{module}')
    text = '\n'.join(COMMENT.sub('', line) for line in text.splitlines())
    for home, file, alone, some in DECLARED_USE.findall(text):
        for name in [alone] if alone else re.findall(r'\w+', some):
            scope.names[name] = (crate if home == 'crate' else home, file, name)
    for kind, name, body, const, constant, value in DECLARATION.findall(text):
        key = (crate, scope.module, name or constant)
        members = declared_members(kind, body) if kind else {}
        yield Definition(key, kind or const, [], DECLARED_TOKEN.findall(value), members, [], scope)
        scope.names[key[2]] = key


def read(texts):
    """The definitions of a tree, by their keys; a tree is a map from paths to texts."""
    found = {}
    for path, text in texts.items():
        if match := PATH.fullmatch(path):
            crate, folder, file = match.groups()
            reader = read_specs if folder == 'specs' else read_declared
            found.update((one.key, one) for one in reader(crate, file.replace('/', '.'), text))
    return found
