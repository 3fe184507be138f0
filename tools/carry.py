#!/usr/bin/env python3
"""Carries an LLVM module of the kit, written out for x86-64 before any optimisation, over to a Power machine.

carry.py MODULE TARGET LAYOUT writes the module for TARGET to standard output, with the data layout that the compiler there
has. Every line has to be of a form that is known here, with known words alone; anything else is named, and ends with 1. What
is known reads and writes numbers of 8 to 64 bits, pointers and bytes, whose sizes and alignments are the same on the three
machines, and hands parts of memory on as they lie there. What changes:

- the layout and the triple;
- on powerpc64 the bytes of a constant table of numbers of eight bytes, each number's in their other order. A constant is bytes, or has to be such a
  table of src/ (`const NAME: [usize; N]`);
- the attribute captures(none), which allows more to the optimiser, and which the older compiler does not know: left out;
- "target-cpu": left out, so that the compiler's own lowest one of the target is taken;
- on powerpc64 a struct that x86-64 returns in registers is returned in memory, as its calling convention (ELFv1) has it: a
  function is put in front of such an export. On powerpc64le (ELFv2) a struct of 8 or 16 bytes is returned in registers too.
"""
import functools
import pathlib
import re
import sys

sys.dont_write_bytecode = True
import header  # noqa: E402

LAYOUT = 'target datalayout = "e-m:e-p270:32:32-p271:32:32-p272:64:64-i64:64-i128:128-f80:128-n8:16:32:64-S128"'
TRIPLE = 'target triple = "x86_64-unknown-linux-gnu"'
TARGETS = {'powerpc64-unknown-linux-gnu': 'E', 'powerpc64le-unknown-linux-gnu': 'e'}
IN_MEMORY = 'powerpc64-unknown-linux-gnu'  # small structs are returned so
CPU = ' "target-cpu"="x86-64"'
CAPTURES = ' captures(none)'

NUMBERS = 'i1 i8 i16 i32 i64 ptr void x'
OPCODES = {
    *'load store alloca call getelementptr br switch ret unreachable icmp zext trunc'.split(),
    *'add sub mul udiv urem and or xor shl lshr select phi'.split(),
    'extractvalue',  # a part of a struct that a function of the module itself returns
}
WORDS = {*NUMBERS.split(), *'to label align nuw nsw inbounds noundef zeroext true false null eq ne ult ule ugt uge !range !noundef'.split()}
HEAD_WORDS = {*WORDS, *'define internal byval'.split()}
DECLARED_WORDS = {*WORDS, *'declare writeonly readonly captures none immarg'.split()}
INTRINSICS = {'llvm.memcpy.p0.p0.i64', 'llvm.memmove.p0.p0.i64', 'llvm.memset.p0.i64', 'llvm.trap'}
ATTRIBUTES = {
    *'nounwind nocallback nofree willreturn cold noreturn noinline alwaysinline'.split(),
    'memory(argmem: readwrite)', 'memory(argmem: write)', 'memory(inaccessiblemem: write)',
    '"probe-stack"="inline-asm"', '"stack-probe-size"="3072"', CPU.strip(),
}

NAME = r'(?:"[^"]*"|[\w.$-]+)'
LABEL = re.compile(rf'{NAME}: *(;.*)?$')
DEFINE = re.compile(rf'define (internal )?(.*?)@({NAME})\((.*)\) #\d+ {{$')
DECLARE = re.compile(rf'declare .*?@({NAME})\((.*)\) #\d+$')
ATTRIBUTE_LINE = re.compile(r'attributes #\d+ = { (.*) }$')
ATTRIBUTE = re.compile(r'"[^"]*"(?:="[^"]*")?|[\w-]+(?:\([^)]*\))?|\S+')
METADATA = re.compile(r'(!llvm\.ident = !\{!\d+\}|!\d+ = !\{(!"rattle logic=\w+"|i8 0, i8 2)?\})$')
CONSTANT = re.compile(r'(@static\.\d+ = private unnamed_addr constant \[\d+ x i8\] )(?:c"([^"]*)"|zeroinitializer), align ([18])$')
TABLE = re.compile(r'(?m)^(?:pub )?const \w+: \[(?:usize|u64); \w+\] = \[([\d\w,\s]*)\];')
CALL = re.compile(rf'(?:%{NAME} = )?call [^@]*?@({NAME})\(')
INSTRUCTION = re.compile(rf'(?:%{NAME} = )?([^ ]+)')
CASE = re.compile(r'i(8|16|32|64) -?\d+, label ')


class Unknown(Exception):
    """Something that nobody has said how to carry over."""


def check_words(line, allowed):
    """Whether a line has no word but these, beside names, numbers and marks between them."""
    text = re.sub(rf'[@%]{NAME}', ' ', line)
    text = re.sub(r'(?<![\w.])#\d+', ' ', re.sub(r'!\d+', ' ', text))
    for word in re.findall(r'[^\s\[\](){},=]+', text):
        if word not in allowed and not re.fullmatch(r'-?\d+', word):
            raise Unknown(f'the word {word}')


def check_instruction(line, functions):
    opcode = INSTRUCTION.match(line)[1]
    if CASE.match(line) or line == ']':
        opcode = 'switch'
    if opcode not in OPCODES:
        raise Unknown(f'the instruction {opcode}')
    check_words(line, WORDS | {opcode})
    if opcode == 'call':
        callee = CALL.match(line)
        if not callee or callee[1] not in functions:
            raise Unknown('a call of what the module does not define')


def check_top(line):
    """A line outside every function."""
    if line in (LAYOUT, TRIPLE, 'source_filename = "rattle"') or METADATA.match(line) or CONSTANT.match(line):
        return
    attributes, declared = ATTRIBUTE_LINE.match(line), DECLARE.match(line)
    if attributes:
        for attribute in ATTRIBUTE.findall(attributes[1]):
            if attribute not in ATTRIBUTES:
                raise Unknown(f'the attribute {attribute}')
    elif declared:
        if declared[1] not in INTRINSICS:
            raise Unknown(f'the function {declared[1]}, which is declared and not defined')
        check_words(line, DECLARED_WORDS)
    elif line.startswith('target '):
        raise Unknown('another data layout or target')
    else:
        raise Unknown('the line')


def parts(parameters):
    """The parameters of a definition, without their names."""
    return [re.sub(rf' %{NAME}$', '', part) for part in re.split(r', (?![^(]*\))', parameters) if part]


def forms(take, structs):
    """How a parameter may stand in the module: lists of parts."""
    if isinstance(take, header.Buffer):
        return [['ptr noundef', 'i64 noundef']]
    struct = structs.get(take.kind.removeprefix('struct '))
    if not struct:
        return [[f'i{8 * header.NUMBERS[take.kind]} noundef']]
    if struct.size % 8:
        raise Unknown(f'the parameter {take.name}: a struct of {struct.size} bytes, no multiple of 8')
    by_memory = [f'ptr noundef byval([{struct.size} x i8]) align {struct.align}']
    return [by_memory, *in_registers(struct)]


def in_registers(struct):
    """The forms of a struct of one or two numbers of eight bytes, which stand in a register each, here and on the targets."""
    if struct.size > 16 or any(header.NUMBERS.get(field.kind) != 8 or field.counts for field in struct.fields):
        return []
    return [[word] * (struct.size // 8) for word in ('i64', 'i64 noundef')]


def check_export(returned, name, parameters, declared):
    """Whether an export has the form that the header's declaration has on x86-64, and that goes over to the targets."""
    structs, functions = declared
    function = next((function for function in functions if function.name == name), None)
    if not function:
        raise Unknown(f'the export {name}, which the header does not declare')
    rest, answer = parts(parameters), structs[function.answer.removeprefix('struct ')]
    form = {8: 'i64', 16: '{ i64, i64 }'}.get(answer.size, 'noundef ptr')
    if answer.size < 16 and answer.size != 8 or returned.strip() != form:
        raise Unknown(f'{name} returns {returned.strip()} for {answer.size} bytes')
    if form == 'noundef ptr' and (not rest or rest.pop(0) != 'ptr noundef'):
        raise Unknown(f'{name} takes no place for what it returns')
    for take in function.takes:
        form = next((form for form in forms(take, structs) if rest[:len(form)] == form), None)
        if not form:
            raise Unknown(f'{name} takes {take.name} as {rest[:1]}')
        del rest[:len(form)]
    if rest:
        raise Unknown(f'{name} takes more than the header says: {rest}')


def in_memory(returned, name, parameters, attributes):
    """A function that stores in memory what an export returns in registers."""
    given = ', '.join(re.sub(r' noundef', '', part) for part in re.split(r', (?![^(]*\))', parameters) if part)
    return '\n'.join([
        f'define noundef ptr @{name}({", ".join(["ptr noundef %to", *filter(None, [parameters])])}) {attributes} {{',
        f'  %given = call {returned}@"{name}, in registers"({given})',
        f'  store {returned.strip()} %given, ptr %to, align 4',
        '  ret ptr %to', '}', ''])


def carry_head(line, target, declared, behind):
    """The first line of a function, as the target has it."""
    internal, returned, name, parameters = DEFINE.match(line).groups()
    check_words(line.removesuffix('{'), HEAD_WORDS)
    if internal:
        return line
    check_export(returned, name, parameters, declared)
    if target != IN_MEMORY or returned.strip() == 'noundef ptr':
        return line
    behind.append(in_memory(returned, name, parameters, re.search(r'#\d+', line)[0]))
    return f'define internal {returned}@"{name}, in registers"({parameters}) {re.search(r"#[0-9]+", line)[0]} {{'


@functools.cache
def tables():
    """The constant tables of numbers of eight bytes in src/, as they lie in memory on x86-64."""
    root = pathlib.Path(__file__).resolve().parent.parent
    found = [TABLE.findall(path.read_text(encoding='utf-8')) for path in root.glob('crates/*/src/**/*.rt')]
    return {b''.join(int(number, 0).to_bytes(8, 'little') for number in re.findall(r'\w+', table)) for some in found for table in some}


def carry_constant(line, target):
    """A constant, as the target has it."""
    head, text, align = CONSTANT.match(line).groups()
    if align == '1':
        return line
    lies = re.sub(rb'\\([0-9A-F]{2})', lambda escaped: bytes.fromhex(escaped[1].decode()), (text or '').encode('latin-1'))
    if lies not in tables():
        raise Unknown('a constant that is neither bytes nor a table of numbers of src/')
    if TARGETS[target] == 'e':
        return line
    turned = b''.join(lies[at:at + 8][::-1] for at in range(0, len(lies), 8))
    return f'{head}c"{"".join(f"{chr(92)}{byte:02X}" for byte in turned)}", align 8'


def carry_line(line, target, layout):
    """A line that needs no look at its function. The three lines are replaced whole, the two attributes left out."""
    if CONSTANT.match(line):
        return carry_constant(line, target)
    if line == LAYOUT:
        return f'target datalayout = "{layout}"'
    if line == TRIPLE:
        return f'target triple = "{target}"'
    if line.startswith('attributes '):
        return line.replace(CPU, '')
    return line.replace(CAPTURES, '') if line.startswith('declare ') else line


def carry(lines, target, layout, declared):
    """All lines of the module, checked and carried over."""
    functions = {found[1] for found in map(re.compile(rf'(?:define|declare) .*?@({NAME})\(').match, lines) if found}
    inside, written, behind = False, [], []
    for number, line in enumerate(lines, 1):
        try:
            if not line or line.startswith(';'):
                continue
            if DEFINE.match(line) and not inside:
                inside, line = True, carry_head(line, target, declared, behind)
            elif inside and line == '}':
                inside = False
            elif inside and line.startswith('  '):
                check_instruction(line.strip(), functions)
            elif not (inside and LABEL.match(line)):
                check_top(line)
                line = carry_line(line, target, layout)
            written.append(line)
        except Unknown as unknown:
            raise Unknown(f'line {number}, {str(unknown)}: {line.strip()[:160]}') from None
    if LAYOUT not in lines or TRIPLE not in lines:
        raise Unknown('a module without the data layout and the target of the kit')
    return written + behind


def main():
    module, target, layout = sys.argv[1:]
    try:
        if not layout.startswith(TARGETS[target] + '-m:e-') or '-i64:64-n32:64-' not in layout:
            raise Unknown(f'the data layout {layout} of {target}')
        with open(module, encoding='utf-8') as file:
            print('\n'.join(carry(file.read().splitlines(), target, layout, header.read())))
    except (Unknown, header.Unknown) as unknown:
        sys.exit(f'carry: not known: {unknown}')


if __name__ == '__main__':
    main()
