#!/usr/bin/env python3
"""Holds what each definition of specs/ and each declared type says to what it said before the port, whatever the spelling.

usage: tools/same_specs.py OLD      OLD is a folder with the tree of an older commit, in the older Rattle's spelling:
                                    git archive c361e16 | tar x -C OLD

Each tree is read by its own tests/definitions.py, wording.py and statements.py: a definition is its words with, for each name, the digest of what the
name stands for. The kit's older names are turned to today's, and brackets round one thing alone are dropped. Printed are the definitions that are gone
or new, those whose own words differ, and of a record the fields that are gone, new or different.
"""
import pathlib
import re
import sys

ROOT = pathlib.Path(__file__).resolve().parent.parent
sys.dont_write_bytecode = True
PLACES = ('crates/*/specs/**/*.antt', 'crates/*/src/**/*.rt')
PRELUDE = 'Rattle.std.specs.Prelude.'
KIT = {
    'mathlib.Core.Bool.Bool·beq': 'Rattle.std.specs.Bool.beq', 'lib.ListN.getD': f'{PRELUDE}get_or',
    'lib.Seq.sets': 'Rattle.std.proofs.lemmas.List.Edits.sets', 'lib.Seq.slice': 'Rattle.std.proofs.Math.Seq.slice',
    'lib.Seq.paste': 'Rattle.std.proofs.Math.Seq.paste',
}
OLDER = re.compile(r'(?:Prim\.Native\.Nat|mathlib\.Core\.\w+|lib\.\w+)\.(.+)$')
# In the older spelling a field takes all words before it, and in today's the one before it.
SPREAD = [
    ("        first, spine, at, joined = names, [], 0, False\n", "        first, spine, at, joined, begin = names, [], 0, False, len(self.words)\n"),
    ("            node, at = nodes[at], at + 1\n", "            node, at = nodes[at], at + 1\n            begin = begin if spine else len(self.words)\n"),
    ("                spine = [self.field(node[1:], self.given(spine))]\n",
     "                if len(spine) > 1:\n                    self.words.insert(begin, '(')\n                    self.words.append(')')\n"
     "                spine = [self.field(node[1:], self.given(spine))]\n"),
]


def today(word):
    """A word of a definition under the name that the kit has for it today."""
    if not isinstance(word, str) or word in KIT:
        return KIT.get(word, word)
    older = OLDER.match(word)
    return PRELUDE + re.sub(r'_(?=[^\w]|$)|(?<=[^\w])_', '◌', older[1]) if older else word


def unbracketed(words):
    """Words without the brackets round one thing and its fields."""
    levels = [[]]
    for word in words:
        if word == '(':
            levels.append([])
        elif word == ')' and len(levels) > 1:
            group = levels.pop()
            alone = [part for part in group if not (isinstance(part, tuple) and part[0] == '.')]
            levels[-1] += group if alone == group[:1] else [['(', *group, ')']]
        else:
            levels[-1].append(word)
    return list(flat([part for level in levels for part in level]))


def flat(parts):
    """The words of nested lists."""
    for part in parts:
        if isinstance(part, list):
            yield from flat(part)
        else:
            yield part


def world(root, is_older):
    """The definitions of a tree, as its own readers read them."""
    for name in ('statements', 'definitions', 'wording'):
        sys.modules.pop(name, None)
    sys.path.insert(0, str(root / 'tests'))
    import statements
    import wording
    sys.path.pop(0)
    if is_older:
        text = pathlib.Path(wording.__file__).read_text()
        for old, new in SPREAD:
            text = text.replace(old, new)
        exec(compile(text, wording.__file__, 'exec'), wording.__dict__)
        statements.Statement, statements.applied = wording.Statement, wording.applied
    made = statements.World({str(path.relative_to(root)): path.read_text() for place in PLACES for path in sorted(root.glob(place))})
    said, known = made.said, {}
    made.said = lambda key: known[key] if key in known else known.setdefault(key, unbracketed([today(word) for word in said(key)]))
    return made


def respelled(name):
    """A name in today's spelling."""
    listed = dict(line.split(' ') for line in (ROOT / 'tools/respelled.txt').read_text().splitlines() if line.count(' ') == 1)
    respelled.known = getattr(respelled, 'known', None) or listed
    snake = re.sub(r'(?<=[a-z0-9])([A-Z])', lambda letter: '_' + letter[1].lower(), name) if name[0].islower() else name
    return respelled.known.get(name) or re.sub(r"(?<=[\w'])-(?=\w)", '_', snake)


def label(word, labels):
    """A word that is a name, by the definition of today that it stands for; a field by its record and its name."""
    if isinstance(word, str):
        return word
    if word[0] == '.':
        return f'.{" ".join(sorted(labels.get(key, "?") for key in word[2]))}#{respelled(word[1])}'
    return f'{labels.get(word[0], "?")}#{word[1]}' if isinstance(word[1], int) else labels.get(word, '?')


def fields(made, key, labels):
    """What each field of a record says, bound variables by their order, and fields before it by their names."""
    parts, depth = [[]], 0
    for word in made.said(key)[1:]:
        depth += (word in ('(', '{', 'record')) - (word in (')', '}'))
        parts.append([]) if word == ';' and depth == 0 else parts[-1].append(word)
    before, found = {}, {}
    for name, part in zip(made.all[key].members, parts[1:]):
        order, words = {}, []
        for word in part[:-1]:
            is_bound = isinstance(word, str) and word.startswith('$')
            words.append(before.get(word) or order.setdefault(word, f'#{len(order)}') if is_bound else label(word, labels))
        before[part[-1]] = f'.{respelled(name)}'
        found[respelled(name)] = words
    return found


def paired(old, new, digests):
    """For each older definition the one of today: of its name and crate, if it can be in its file, or saying the same."""
    named, found = {}, {}
    for crate, module, name in new.all:
        named.setdefault((crate, name), []).append((crate, module, name))
    for key in old.all:
        crate, module, name = key
        place = '.'.join(part.capitalize() if part in ('claims', 'cases', 'inner') else part for part in module.split('.'))
        same = [one for word in (respelled(name), name) for one in named.get((crate, word), [])]
        same.sort(key=lambda one: (one[1] != place, digests[0][key] != digests[1][one], one[1].split('.')[-1] != module.split('.')[-1]))
        if same:
            found[key] = same[0]
    return found


def tell(old, new, labels, key, other):
    """A line on a definition whose own words differ."""
    said = f'{".".join(key)}: its words differ from those of {".".join(other)}'
    if old.all[key].kind == new.all[other].kind == 'record':
        then, now = fields(old, key, labels[0]), fields(new, other, labels[1])
        lists = {'gone': then.keys() - now.keys(), 'different': {name for name in then.keys() & now.keys() if then[name] != now[name]},
                 'new': now.keys() - then.keys()}
        said += '; fields ' + ', '.join(f'{word}: {" ".join(sorted(names)) or "none"}' for word, names in lists.items())
    return said


def main(place):
    old, new = world(pathlib.Path(place).resolve(), True), world(ROOT, False)
    digests = old.digests(old.all), new.digests(new.all)
    pairs = paired(old, new, digests)
    differ = {key for key, other in pairs.items() if digests[0][key] != digests[1][other]}
    labels = {key: '.'.join(other) for key, other in pairs.items()}, {key: '.'.join(key) for key in new.all}
    own = [key for key in sorted(differ) if [label(word, labels[0]) for word in old.said(key)] != [label(word, labels[1]) for word in new.said(pairs[key])]]
    for key in sorted(old.all.keys() - pairs.keys()):
        print(f'{".".join(key)}: gone')
    for key in sorted(new.all.keys() - set(pairs.values())):
        print(f'{".".join(key)}: new')
    for key in own:
        print(tell(old, new, labels, key, pairs[key]))
    print(f'same_specs: {len(old.all)} definitions then, {len(new.all)} now; {len(pairs) - len(differ)} say the same; {len(own)} differ in their own words, '
          f'and {len(differ) - len(own)} only in what they rest on')


if len(sys.argv) != 2:
    sys.exit('usage: tools/same_specs.py OLD')
main(sys.argv[1])
