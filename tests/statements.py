"""A digest of what each definition of specs/ says: its words with, for each name, the digest of what the name stands for.

Comments, layout, `use` lines and the names of crates, files, definitions, fields, constructors and bound variables do not enter; a name
of the kit does, under its full name. So a rename or a move changes no digest, and a change changes those of all that rests on it.
"""
import graphlib
import hashlib
import re

from definitions import read
from wording import Statement, applied


def flat(nodes):
    """The words of a tree."""
    for node in nodes:
        if isinstance(node, str):
            yield node
        else:
            yield from flat(node)


def digest(text):
    """Twelve hexadecimal digits that tell a text from any other."""
    return hashlib.sha256(text.encode()).hexdigest()[:12]


def ordered(graph):
    """The groups of a graph, each after those that it rests on; definitions that rest on each other are one group."""
    groups = {key: frozenset([key]) for key in graph}
    while True:
        joined = {}
        for key, others in graph.items():
            joined.setdefault(groups[key], set()).update({groups[other] for other in others} - {groups[key]})
        try:
            return list(graphlib.TopologicalSorter(joined).static_order())
        except graphlib.CycleError as error:
            cycle = frozenset().union(*error.args[1])
            groups.update(dict.fromkeys(cycle, cycle))


class World:
    """The definitions of a tree, with what each says."""

    def __init__(self, texts):
        self.all = read(texts)
        self.kinds, self.names, self.statements, self.resting, self.missing = {}, {}, {}, {}, set()
        self.owners, self.declared, self.constructors, self.closed = {}, {}, {}, {}
        for key, one in self.all.items():
            if one.kind in ('record', 'struct'):
                for name in one.members:
                    self.owners.setdefault(name, []).append(key)
            if one.kind == 'data':
                self.constructors.update(((*key[:2], name), (key, at)) for at, name in enumerate(one.members))
            if one.kind in ('struct', 'enum', 'const'):
                self.declared.setdefault((key[0], key[2]), key)
            elif one.type == ['Type', '0'] and not one.takes:
                self.closed.setdefault((key[0], key[2]), []).append(key)

    def claim(self, crate, name):
        """The key of a claim."""
        return self.closed[crate, name][0]

    def entity(self, path):
        """What a path names: a key; the key of a type and the number of a constructor; or a name of the kit."""
        crate, module, name = path
        if module.startswith('declared.'):
            key = (crate, *module.removesuffix('.TheVariants').rsplit('.', 1))
            if key in self.all and module.endswith('.TheVariants') and name in self.all[key].members:
                return key, list(self.all[key].members).index(name)
            path = key if key[2] == name else path
        if path in self.all:
            return path
        if crate and path not in self.constructors:
            self.missing.add(path)
        return self.constructors.get(path, f'{module}.{name}')

    def lookup(self, scope, name):
        """What a name in a file stands for; None if it is not named there."""
        path = scope.path(name)
        return self.entity(path) if path else None

    def lookup_declared(self, scope, name):
        """The key that a word of a declared type stands for; None if it is a word of the language."""
        path = scope.names.get(name)
        if path is None:
            return None
        keys = [path, (path[0], f'declared.{path[1]}', name), self.declared.get((path[0], name))]
        return next((key for key in keys if key in self.all), None)

    def kind_of(self, key):
        """The type of a definition's name."""
        if key not in self.kinds:
            one = self.all[key]
            self.kinds[key] = Statement(self, one).kind(one.type) if one.kind == 'term' else None
        return self.kinds[key]

    def member_kind(self, key, name):
        """The type of a field, or of a constructor, by the type that it belongs to."""
        one = self.all[key]
        if one.kind in ('record', 'data'):
            return Statement(self, one).kind(one.members[name])
        kinds = [(owner, ()) if (owner := self.lookup_declared(one.scope, word)) else None for word in one.members[name] if re.match(r'\w', word)]
        if one.kind == 'struct':
            return kinds[0] if len(one.members[name]) == 1 else None
        return ('→', (*kinds, (key, ()))) if kinds else (key, ())

    def field_kind(self, subject, name):
        """The type of a field of a subject, by the subject's own type."""
        names = [name for node in self.all[subject[0]].takes if node[0] == '(' for name in node[1:node.index(':')]]
        return applied(self.member_kind(subject[0], name), {f'?{name}': part for name, part in zip(names, subject[1])})

    def named(self, key):
        """The definitions that a definition names, whatever is bound in it."""
        if key not in self.names:
            one = self.all[key]
            found = (self.lookup(one.scope, word) for word in set(flat([one.takes, one.type, list(one.members.values()), one.clauses])))
            if one.key[1].startswith('declared.'):
                found = (self.lookup_declared(one.scope, word) for word in set(flat([one.type, list(one.members.values())])))
            self.names[key] = {entity if isinstance(entity[1], str) else entity[0] for entity in found if isinstance(entity, tuple)}
        return self.names[key]

    def reached(self, key):
        """All definitions that a definition rests on by names."""
        seen, due = {key}, [key]
        while due:
            new = self.named(due.pop()) - seen
            seen |= new
            due += new
        return seen

    def said(self, key):
        """What a definition says, in words."""
        if key not in self.statements:
            self.statements[key] = Statement(self, self.all[key]).write()
        return self.statements[key]

    def rests(self, key):
        """The definitions that a definition names, and the records whose fields it names."""
        if key not in self.resting:
            found = set()
            for word in self.said(key):
                if isinstance(word, tuple):
                    found.update(word[2] if word[0] == '.' else [word[0] if isinstance(word[1], int) else word])
            self.resting[key] = found - {key}
        return self.resting[key]

    def named_by(self, word, known):
        """A name by the digest of what it stands for: of a constructor and a field the type and the place in it."""
        if word[0] == '.':
            places = sorted(f'{known(key)}#{list(self.all[key].members).index(word[1])}' for key in word[2])
            return f'.{"/".join(places) or word[1]}'
        return f'{known(word[0])}#{word[1]}' if isinstance(word[1], int) else known(word)

    def digest(self, key, known):
        """The digest of a definition, from the digests of those that it rests on; of one in a cycle without those of the cycle."""
        def name(other):
            return 'self' if other == key else known.get(other, 'cycle')
        return digest(' '.join(word if isinstance(word, str) else self.named_by(word, name) for word in self.said(key)))

    def digests(self, keys):
        """The digests of definitions, and of all that they rest on."""
        graph, due, known = {}, list(keys), {}
        while due:
            if (key := due.pop()) not in graph:
                graph[key] = self.rests(key)
                due += graph[key]
        for group in ordered(graph):
            alone = {key: self.digest(key, known) for key in group}
            cycle = sorted(alone.values())
            known.update(alone if len(group) == 1 else {key: digest(' '.join([self.digest(key, known | alone), *cycle])) for key in group})
        return known

    def under(self, key):
        """A definition, and all that it rests on."""
        seen, due = {key}, [key]
        while due:
            new = self.rests(due.pop()) - seen
            seen |= new
            due += new
        return seen
