"""What one definition says, in words without names of its own: bound variables are numbers, and any other name is what it stands for.

A field `.f` is that of the record that its subject is of, which the types of the names before it tell, as far as they are written. If
they do not, it is that of each record that the definition rests on and that has a field of this name.
"""
import re

from definitions import clause, split, tree

NUMERAL = re.compile(r'(?:0x[0-9a-fA-F_]+|0o[0-7_]+|0b[01_]+|\d[\d_]*)(?:[ui](?:8|16|32|64|size))?')
WIDTH = re.compile(r'[ui](?:8|16|32|64|size)$')
ALONE = {'zero', 'true', 'false', '[]'}  # constructors of the kit that stand alone in a pattern
# of functions of the kit, the arguments that are of the type that is given
KIT = 'Rattle.std.specs.Prelude.'
GIVES = {f'{KIT}get_or': (3,), f'{KIT}cond': (2, 3), f'{KIT}take': (2,), f'{KIT}drop': (2,)}
LIST = f'{KIT}List'
BUILT_IN = {'Type', 'Unit', 'tt', '⊥', '_'}


def numeral(token):
    """The value of a numeral."""
    return str(int(WIDTH.sub('', token).replace('_', ''), 0 if token[:2] in ('0x', '0o', '0b') else 10))


def is_operator(token):
    """Whether a word stands between what it joins."""
    return not any(map(str.isalnum, token)) and token not in ('[]', '⊥', '_')


def is_binder(node):
    """Whether a part in brackets binds names: `(a b : T)`, `{a : T}`."""
    return isinstance(node, tuple) and ':' in node


def applied(kind, bound):
    """A type with types for its variables."""
    if kind is None or not bound:
        return kind
    head, parts = kind
    return bound[head] if head in bound and not parts else (head, tuple(applied(part, bound) for part in parts))


def match(kind, given, bound):
    """Binds the variables of a type by a type that is given for it."""
    if kind is None or given is None:
        return
    if isinstance(kind[0], str) and kind[0].startswith('?') and not kind[1]:
        bound.setdefault(kind[0], given)
    elif kind[0] == given[0]:
        for part, other in zip(kind[1], given[1]):
            match(part, other, bound)


class Statement:
    """What one definition says, in words; a name is a key, a constructor a key and a number, a field a dot, its name and its owners."""

    def __init__(self, world, one):
        self.world, self.one, self.scope, self.words, self.count = world, one, one.scope, [one.kind], 0

    def kind(self, nodes, names=()):
        """The type that words name: what it is and its parts; `→`, and the types of what a function takes and gives."""
        parts = split(nodes, '→')
        if len(parts) > 1:
            kinds = []
            for part in parts:
                bound = [node for node in part if is_binder(node)] if all(map(is_binder, part)) else []
                kinds += [self.kind(node[node.index(':') + 1:], names) for node in bound if node[0] == '(' for _ in node[1:node.index(':')]]
                kinds += [] if bound else [self.kind(part, names)]
            return '→', tuple(kinds)
        if len(nodes) == 1 and isinstance(nodes[0], tuple):
            return self.kind(nodes[0][1:], names)
        if not nodes or isinstance(nodes[0], tuple) or any(isinstance(node, str) and is_operator(node) for node in nodes):
            return None
        entity = None if nodes[0] in names else self.world.lookup(self.scope, nodes[0])
        return entity or f'?{nodes[0]}', tuple(self.kind([node], names) for node in nodes[1:])

    def bind(self, name, kind, names):
        """Names with one more, which takes the next number."""
        self.count += 1
        self.words.append(f'${self.count}')
        return {**names, name: (self.count, kind)}

    def binder(self, node, names):
        """Writes `(a b : T)`."""
        at = node.index(':')
        self.words.append(node[0])
        self.walk(node[at + 1:], names)
        kind = self.kind(node[at + 1:], names)
        for name in node[1:at]:
            names = self.bind(name, kind, names)
        self.words.append(')')
        return names

    def word(self, node, names):
        """Writes a word; gives its type, as far as it is told."""
        if NUMERAL.fullmatch(node):
            self.words.append(numeral(node))
            return None
        if node in names:
            number, kind = names[node]
            self.words.append(f'${number}')
            return kind
        entity = self.world.lookup(self.scope, node)
        self.words.append(entity or node)
        if entity is None and node not in BUILT_IN:
            self.world.missing.add((*self.one.key[:2], node))
        if not isinstance(entity, tuple):
            return ('gives', GIVES[entity]) if entity in GIVES else None
        if isinstance(entity[1], int):
            return self.world.member_kind(entity[0], list(self.world.all[entity[0]].members)[entity[1]])
        return self.world.kind_of(entity)

    @staticmethod
    def given(spine):
        """The type of a head with its arguments, from their types."""
        if not spine or spine[0] is None:
            return None
        head, parts = spine[0]
        if head == 'gives':
            return next((spine[at] for at in parts if at < len(spine) and spine[at]), None)
        if head != '→':
            return spine[0]
        bound = {}
        for part, given in zip(parts, spine[1:]):
            match(part, given, bound)
        rest = parts[min(len(spine), len(parts)) - 1:]
        return applied(rest[0] if len(rest) == 1 else ('→', rest), bound)

    @staticmethod
    def wanted(spine, wanted):
        """The type that the next word of a spine is to have."""
        if not spine:
            return wanted[1][0] if wanted and wanted[0] == LIST and wanted[1] else wanted
        kind = Statement.given(spine)
        return kind[1][0] if kind and kind[0] == '→' else None

    def owners(self, found):
        """Of records, those that the definition rests on; all of them if it rests on none."""
        if len(found) < 2:
            return tuple(found)
        reached = self.world.reached(self.one.key)
        return tuple(key for key in found if key in reached) or tuple(found)

    def field(self, name, subject):
        """Writes a field of a subject; gives the field's type."""
        if subject and subject[0] in self.world.owners.get(name, []):
            self.words.append(('.', name, (subject[0],)))
            return self.world.field_kind(subject, name)
        owners = () if name.isdigit() else self.owners(self.world.owners.get(name, []))  # a part of a pair has no owner
        self.words.append(('.', name, owners))
        return self.world.field_kind((owners[0], ()), name) if len(owners) == 1 else None

    def made(self, node, names, wanted):
        """Writes `record { a = x; b = y }`."""
        fields = [split(part, '=', 2) for part in split(node[1:], ';') if part]
        called = {field[0][0] for field in fields}
        found = [key for key in self.world.owners.get(min(called), []) if self.world.all[key].members.keys() == called]
        owners = (wanted[0],) if wanted and wanted[0] in found else self.owners(found)
        if not (wanted and wanted[0] in found):
            wanted = (owners[0], ()) if len(owners) == 1 else None
        self.words.append('record')
        for left, right in fields:
            self.words.append(('.', left[0], owners))
            self.walk(right, names, self.world.field_kind(wanted, left[0]) if wanted else None)
        self.words.append('}')
        return wanted

    def let(self, nodes, at, names):
        """Writes `let a = x in`; gives where it ends, and the names with that one."""
        end, depth, equal = at, 1, nodes.index('=', at)
        while depth:
            end += 1
            depth += (nodes[end] == 'let') - (nodes[end] == 'in')
        kind = self.kind(nodes[at + 2:equal], names)
        self.words.append('let')
        self.walk(nodes[at + 2:equal], names)
        self.words.append('=')
        given = self.walk(nodes[equal + 1:end], names, kind)
        return end + 1, self.bind(nodes[at], kind or given, names)

    def walk(self, nodes, names, wanted=None):
        """Writes a sequence of words; gives its type, as far as it is told."""
        first, spine, at, joined = names, [], 0, False
        nodes = list(nodes)
        while at < len(nodes):
            node, at = nodes[at], at + 1
            if node == 'let':
                at, names = self.let(nodes, at, names)
                spine = []
            elif node == 'λ':
                self.words.append(node)
                while isinstance(nodes[at], str) and nodes[at] != '.':
                    names, at = self.bind(nodes[at], None, names), at + 1
            elif node == 'record' and at < len(nodes) and isinstance(nodes[at], tuple):
                spine.append(self.made(nodes[at], names, self.wanted(spine, wanted)))
                at += 1
            elif is_binder(node):
                names = self.binder(node, names)
            elif isinstance(node, tuple):
                self.words.append(node[0])
                spine.append(self.walk(node[1:], names, self.wanted(spine, wanted)))
                self.words.append(')')
            elif node[0] == '.' and len(node) > 1:
                spine[-1:] = [self.field(node[1:], spine[-1] if spine else None)]
            elif is_operator(node):
                self.words.append(self.world.lookup(self.scope, node) or node)
                wanted = self.given(spine) if node == '≡' else None if node in '→×' else wanted
                names, spine, joined = first if node == ';' else names, [], True
            else:
                spine.append(self.word(node, names))
        return None if joined else self.given(spine)

    def pattern(self, nodes, kind, names):
        """Writes a pattern; gives the names with those that it binds."""
        for mark in ('∷', ','):
            if mark in nodes:
                parts = split(nodes, mark)
                inner = kind[1][0] if kind and kind[0] == LIST and kind[1] and mark == '∷' else None
                for part in parts[:-1]:
                    names = self.pattern(part, inner, names)
                    self.words.append(mark)
                return self.pattern(parts[-1], kind if mark == '∷' else None, names)
        if len(nodes) == 1 and isinstance(nodes[0], tuple):
            self.words.append(nodes[0][0])
            names = self.pattern(nodes[0][1:], kind, names)
            self.words.append(')')
            return names
        entity = self.world.lookup(self.scope, nodes[0])
        constructor = isinstance(entity, tuple) and isinstance(entity[1], int)
        if len(nodes) == 1 and not constructor and not NUMERAL.fullmatch(nodes[0]) and not (isinstance(entity, str) and nodes[0] in ALONE):
            return self.bind(nodes[0], kind, names)
        taken, bound = self.word(nodes[0], {}), {}
        kinds = taken[1] if taken and taken[0] == '→' else ()
        match(kinds[-1] if kinds else None, kind, bound)
        for node, part in zip(nodes[1:], [*kinds[:-1], *[None] * len(nodes)]):
            names = self.pattern([node], applied(part, bound), names)
        return names

    def clause(self, parts, kind, names):
        """Writes a clause `f p q = x where ..`."""
        left, right, local = parts
        kinds = list(kind[1]) if kind and kind[0] == '→' else [kind]
        self.words.append('|')
        for node in left[1:]:
            implicit = isinstance(node, tuple) and node[0] == '{'
            names = self.pattern([node], None if implicit or len(kinds) < 2 else kinds.pop(0), names)
        heads = [split(tree(' '.join(lines), self.scope.aliases), ':', 2) for lines in local]
        for head in heads:
            names = self.bind(head[0][0], self.kind(head[1], names), names) if len(head) == 2 and len(head[0]) == 1 else names
        self.words.append('=')
        self.walk(right, names, kinds[0] if len(kinds) == 1 else ('→', tuple(kinds)))
        for head, lines in zip(heads, local):
            if len(head) == 2 and len(head[0]) == 1:
                self.walk(head[1], names)
            else:
                inner = clause(lines, self.scope.aliases)
                self.words.append(f'${names[inner[0][0]][0]}')
                self.clause(inner, names[inner[0][0]][1], names)

    def declared(self):
        """Writes a declared type: its members' types in order; a constant: its value."""
        lives = {}
        for word in [*self.one.type, *(word for part in self.one.members.values() for word in (';', *part))]:
            if word.startswith("'"):
                self.words.append(f'${lives.setdefault(word, len(lives))}')
            else:
                self.words.append(numeral(word) if NUMERAL.fullmatch(word) else self.world.lookup_declared(self.scope, word) or word)

    def write(self):
        """The words of the definition."""
        one, names = self.one, {}
        if one.kind in ('struct', 'enum', 'const'):
            self.declared()
            return self.words
        for node in one.takes:
            names = self.binder(node, names)
        self.words.append(':')
        self.walk(one.type, names)
        for name, nodes in one.members.items():
            self.words.append(';')
            self.walk(nodes, names)
            names = self.bind(name, self.kind(nodes, names), names) if one.kind == 'record' else names
        for parts in one.clauses:
            self.clause(parts, self.world.kind_of(one.key), names)
        return self.words
