#!/usr/bin/env python3
"""Holds the words of include/draugsten_text.h to the numbers that include/draugsten.h names: none is missing, and none is invented.

Then writes what tests/texts.c expects, words.h, to the folder that is given. `words` has the words for other tests.
"""
import pathlib
import re
import sys

ROOT = pathlib.Path(__file__).resolve().parent.parent
sys.dont_write_bytecode = True
sys.path.insert(0, str(ROOT / 'tools'))
import header  # noqa: E402

TABLE = ROOT / 'include/draugsten_text.h'
# Letters, digits and marks that neither C nor a format of printf takes for something else, on one line.
LINE = re.compile(r'    X\(([A-Z_]+), (-?\d+|0x[0-9a-f]+), "([a-z0-9][ !#-$&-\[\]-~]{1,99})"\)(?: \\)?$')
KIND = re.compile(r'^    DRAUGSTEN_TEXT_(\w+)(?:,|$| )', re.MULTILINE)
# Kinds that are none of the header's: whose numbers they have, and which of these have a line of their own.
FURTHER = {'UNIT_REFUSAL': ('REFUSAL', {21}), 'FORECAST': ('STATUS', {0, 1, -3})}
# Kinds that have numbers beside their lines, as REFUSAL has them: those of node areas are below 30, and those of index areas below 40.
HANDED_ON = {'UNIT_REFUSAL': range(30), 'LOCATION_NUMBER': range(30, 40), 'VIEW_NUMBER': range(30, 40)}


def lines_of(text):
    """The lines of the table, in order: kind, number, words. A line that has another form is refused."""
    lines = []
    for line in text.splitlines():
        found = LINE.match(line)
        if found:
            lines.append((found[1], int(found[2], 0), found[3]))
        elif line.startswith('    X('):
            raise header.Unknown(f'the line {line!r}')
    return lines


def words(kind, number):
    """The words of a number."""
    return next(text for of, value, text in lines_of(TABLE.read_text()) if (of, value) == (kind, number))


def signed(kind, number):
    """A number as the table has it: a status is a signed word."""
    return number - 2**32 if kind == 'STATUS' and number >= 2**31 else number


def named():
    """The numbers that the header names, as the table has them, by their kinds."""
    kinds = {kind: {signed(kind, number) for number in names.values()} for kind, names in header.numbers().items()}
    for kind, (base, own) in FURTHER.items():
        if kind in kinds or not own <= kinds[base]:
            raise header.Unknown(f'the numbers of {kind}')
        kinds[kind] = own
    return kinds


def faults(text, kinds):
    """What is wrong with a table, by the numbers of each kind."""
    lines = [line[:2] for line in lines_of(text)]
    wanted = {(kind, number) for kind, numbers in kinds.items() for number in numbers}
    found = [f'{kind} {number} has no line' for kind, number in sorted(wanted - set(lines))]
    found += [f'{kind} {number} is no number of draugsten.h' for kind, number in sorted(set(lines) - wanted)]
    found += [f'{kind} {number} has two lines' for kind, number in sorted(set(lines)) if lines.count((kind, number)) > 1]
    body = text.partition('enum draugsten_text_kind {')[2].partition('}')[0]
    return found + [f'the kind {kind} is not in the enum, or alone there' for kind in sorted(set(kinds) ^ set(KIND.findall(body)))]


def changed(text):
    """Tables in which a line is dropped, doubled, or that of another number, by what was done."""
    rows = text.splitlines(keepends=True)
    places = [at for at, row in enumerate(rows) if row.startswith('    X(')]
    tables = {f'without {rows[at]}': rows[:at] + rows[at + 1:] for at in places}
    tables |= {f'twice {rows[at]}': rows[:at + 1] + rows[at:] for at in places}
    for number in (23, 99):
        tables |= {f'{number} at {rows[at]}': [*rows[:at], re.sub(', [^,]*, "', f', {number}, "', rows[at]), *rows[at + 1:]] for at in places}
    return {name: ''.join(table) for name, table in tables.items()}


def is_taken(line):
    """Whether a line is taken for one of a table."""
    try:
        return bool(lines_of(f'    {line} \\\n'))
    except header.Unknown:
        return False


def unseen(text, kinds):
    """What could be wrong with a table and would not be found."""
    tables = changed(text) | {f'without the kind {kind}': text.replace(f'    DRAUGSTEN_TEXT_{kind}', '    ') for kind in kinds}
    lines = ['X(STATUS, 0, done)', 'X(STATUS, 0 "done")', 'X(STATUS, 0, "")', 'X(STATUS, 0, "100 %")', 'X(STATUS, 0, "a\\n")', 'X(STATUS, 0, "a", "b")']
    return [name for name, table in tables.items() if not faults(table, kinds)] + [line for line in lines if is_taken(line)]


def expected(text):
    """Numbers with their words, as lines of an array in C: each by the header's name for it and as the table has it, and each status as a word."""
    table = {(kind, number): words for kind, number, words in lines_of(text)}
    rows = [(kind, name, table[kind, signed(kind, number)]) for kind, names in header.numbers().items() for name, number in names.items()]
    rows += [(kind, number, words) for (kind, number), words in table.items()]
    rows += [(kind, f'{number % 2**32}u', words) for (kind, number), words in table.items() if number < 0]
    handed_on = [(kind, number) for kind, numbers in HANDED_ON.items() for number in numbers if ('REFUSAL', number) in table]
    rows += [(kind, number, table['REFUSAL', number]) for kind, number in handed_on if (kind, number) not in table]
    return ''.join(f'{{DRAUGSTEN_TEXT_{kind}, {number}, "{words}"}},\n' for kind, number, words in rows)


def main(folder):
    text, kinds = TABLE.read_text(), named()
    wrong = faults(text, kinds) + [f'this would not be found: {what}' for what in unseen(text, kinds)]
    if wrong:
        print(*(f'texts: {what}' for what in wrong), sep='\n')
        return 1
    (pathlib.Path(folder) / 'words.h').write_text(expected(text))
    return 0


if __name__ == '__main__':
    sys.exit(main(sys.argv[1]))
