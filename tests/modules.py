#!/usr/bin/env python3
"""Holds the LLVM modules of the archives to what the header says of a buffer of length 0: any pointer, also NULL.

tests/modules.py MODULE.. reads the modules that the kit lowers the proved libraries to, before any optimisation
(tools/modules.sh). tools/carry.py has to know every word of a module. Beside that:

- A pointer that a function takes, is given or returns, alone or beside a tag as an Option of a reference has it, has no
  attribute but noundef, which NULL satisfies; a struct that is passed by value in memory also has byval and its alignment.
  A pointer that is loaded has no metadata but !noundef.
  So there is no nonnull, no dereferenceable and no align.
- No pointer is compared or converted to a number, so no answer depends on its value; but for one thing: an export begins with
  putting the address 4096 in the place of a buffer that is NULL, in the same four lines each time. The address is read only as
  far as the length goes, which is 0 there.
- memcpy, memmove and memset have a constant length above 0: they move values. Buffers are copied byte by byte.

That code reads and writes only inside a buffer is proved, and not looked at here. Each fault is also planted in each
module, and has to be found.
"""
import pathlib
import re
import sys

ROOT = pathlib.Path(__file__).resolve().parent.parent
sys.dont_write_bytecode = True
sys.path.insert(0, str(ROOT / 'tools'))
import carry  # noqa: E402
import header  # noqa: E402

TARGET = 'powerpc64le-unknown-linux-gnu'
FUNCTION = re.compile(rf'(define|declare) (?:internal )?(.*?) ?@{carry.NAME}\((.*)\) #\d+(?: {{)?$')
CALL = re.compile(rf'(?:%{carry.NAME} = )?call (.*?) ?@({carry.NAME})\((.*)\)$')
LOAD = re.compile(r'%\S+ = load ptr, ptr %\S+, align [18](?:, !noundef !\d+)?$')
LENGTH = re.compile(r'i64 [1-9]\d*$')
# What stands in the place of a buffer that is NULL.
STAND_IN = re.compile(r'  (%r\d+) = icmp eq ptr (%a\d+), null\n'
                      r'  (%r\d+) = zext i1 \1 to i64\n'
                      r'  (%r\d+) = mul i64 \3, 4096\n'
                      r'  (%r\d+) = getelementptr i8, ptr \2, i64 \4\n'
                      r'  store ptr \5, ptr %r\d+, align 8\n')
EXPORT = re.compile(r'define (?!internal )')
TAKEN = re.compile(r'ptr noundef(?: byval\(\[\d+ x i8\]\) align \d+)?$')
# Within a module, a reference in an Option is a tag and a pointer, which has no attribute.
WITHIN = re.compile(rf'ptr$|{TAKEN.pattern}')
GIVEN = re.compile(r'ptr(?: noundef)?$')
DECLARED = re.compile(r'ptr (?:writeonly|readonly) captures\(none\)$')
RETURNED = re.compile(r'(?:noundef )?ptr$')
RETURNED_WITHIN = re.compile(rf'\{{ i8, ptr \}}$|{RETURNED.pattern}')

# What a function may take and return, by whether it is internal, and by whether it is defined here.
FORMS = {(True, 'define'): (WITHIN, RETURNED_WITHIN), (False, 'define'): (TAKEN, RETURNED), (False, 'declare'): (DECLARED, RETURNED)}

# Faults to plant: in the first line of this kind, in the place of this part, this.
PLANTED = [
    (r'define .*@draugsten_', r'ptr noundef %', 'ptr noundef nonnull %'),
    (r'define .*@draugsten_', r'ptr noundef %', 'ptr noundef dereferenceable(1) %'),
    (r'define .*@draugsten_', r'ptr noundef %', 'ptr noundef align 8 %'),
    (r'define .*@draugsten_', r'ptr noundef %', 'ptr %'),
    (r'define .*@draugsten_', r'noundef ptr @', 'noundef nonnull ptr @'),
    (r'define internal .*ptr', r'ptr noundef %', 'ptr noundef dereferenceable_or_null(8) %'),
    (r'define internal .*ptr', r'ptr noundef %', 'ptr nonnull %'),
    (r'declare .*memmove', r'ptr readonly', 'ptr nonnull readonly'),
    (r'.* call .*@"[^"]*"\(ptr %', r'\(ptr %', '(ptr nonnull %'),
    (r'.* call .*memmove', r'\(ptr %', '(ptr dereferenceable(16) %'),
    (r'.* call .*memmove', r'i64 \d+', 'i64 %r1'),
    (r'.* call .*memmove', r'i64 \d+', 'i64 0'),
    (r'.* load ptr', r'!noundef !(\d+)', r'!nonnull !\1'),
    (r'.* load ptr', r'!noundef !(\d+)', r'!noundef !\1, !dereferenceable !\1'),
    (r'.* load ptr', r'load ptr, (ptr %\S+),.*', r'icmp eq \1, %r1'),
    (r'.* load ptr', r'load ptr, (ptr %\S+),.*', r'ptrtoint \1 to i64'),
    (r'.* icmp eq ptr %a', r'icmp eq ptr (%a\d+), null', r'icmp eq ptr \1, %r1'),
    (r'.* icmp eq ptr %a', r'icmp eq ptr', 'icmp ne ptr'),
]


class Fault(Exception):
    """What makes NULL undefined, or lets an answer depend on a pointer's value."""


def require(form, text):
    """Holds a pointer's type and attributes to a form; what is no pointer may have any."""
    if 'ptr' in text.split() and not form.match(text):
        raise Fault(f'a pointer as {text!r}')


def check_call(returned, name, given):
    require(RETURNED_WITHIN, returned)
    arguments = carry.parts(given)
    for argument in arguments:
        require(GIVEN, argument)
    if name.startswith('llvm.mem') and not any(map(LENGTH.match, arguments)):
        raise Fault(f'{name} with a length that is 0 or not constant')


def check_line(line):
    function, call = FUNCTION.match(line), CALL.match(line)
    if function:
        taken, returned = FORMS[line.startswith('define internal'), function[1]]
        require(returned, function[2])
        for parameter in carry.parts(function[3]):
            require(taken, parameter)
    elif call:
        check_call(*call.groups())
    elif line.startswith(('define', 'declare')) or re.match(r'(?:%\S+ = )?call\b', line):
        raise Fault('a form that is not known')
    elif ' load ptr' in line and not LOAD.match(line):
        raise Fault('a pointer that is loaded with other metadata')
    elif re.search(r'\bicmp \w+ ptr\b|\bptrtoint\b|\binttoptr\b', line):
        raise Fault('a pointer that is compared or converted')


def stand_ins(lines):
    """The numbers of the lines in which an export compares a buffer with NULL, to put the address in its place."""
    found, exported = set(), False
    for number, line in enumerate(lines, 1):
        exported = bool(EXPORT.match(line)) or exported and line != '}'
        if exported and STAND_IN.match('\n'.join(lines[number - 1:number + 4]) + '\n'):
            found.add(number)
    return found


def check(lines):
    """Checks every line of a module."""
    passed = stand_ins(lines)
    for number, line in enumerate(lines, 1):
        try:
            if number not in passed:
                check_line(line.strip())
        except Fault as fault:
            raise Fault(f'line {number}, {fault}: {line.strip()[:160]}') from None


def count_pointers(lines):
    """The pointers that the functions of a module take."""
    heads = filter(None, map(FUNCTION.match, lines))
    return sum(taken.startswith('ptr') for head in heads for taken in carry.parts(head[3]))


def is_found(lines, kind, part, fault):
    """Whether a fault is found in the line that it is planted in."""
    place = next((place for place, line in enumerate(lines) if re.match(kind, line) and re.search(part, line)), None)
    if place is None:
        return False
    try:
        check([*lines[:place], re.sub(part, fault, lines[place], count=1), *lines[place + 1:]])
    except Fault as found:
        return str(found).startswith(f'line {place + 1}, ')
    return False


def main():
    pointers = 0
    for name in sys.argv[1:]:
        lines = pathlib.Path(name).read_text(encoding='utf-8').splitlines()
        try:
            carry.carry(lines, TARGET, '', header.read())
            check(lines)
        except (Fault, carry.Unknown, header.Unknown) as fault:
            sys.exit(f'modules: {name}: {fault}')
        for planted in PLANTED:
            if not is_found(lines, *planted):
                sys.exit(f'modules: {name}: not found, or no line to plant it in: {planted[2]}')
        pointers += count_pointers(lines)
    if not pointers:
        sys.exit('modules: no module, or none with a pointer; name the modules of the archives')
    print(f'{pointers} pointers of functions in {len(sys.argv) - 1} modules, none with another attribute; {len(PLANTED)} planted faults found in each')


main()
