#!/usr/bin/env python3
"""Makes, of include/draugsten.h, the parts of the test that depend on its functions and structs, in a folder:

record_calls.c  for each function one of its name that writes the call to a tape, and calls the true one as under_NAME
play_calls.c    for each function one that takes a call from a tape, makes it, and holds what comes back to the tape
empty_calls.c   for each function one of its name that tries the call with empty buffers, and calls the true one as under_NAME
layout.c        the size of each struct and the place of each field as x86-64 has them, as static assertions
names           each function with the name that record_calls.c and empty_calls.c have for the true one
buffers         each function with each of its buffers; with - if it has none
"""
import pathlib
import sys

ROOT = pathlib.Path(__file__).resolve().parent.parent.parent
sys.dont_write_bytecode = True
sys.path.insert(0, str(ROOT / 'tools'))
import header  # noqa: E402


def each(field, line):
    """A line for a field or, for an array, for each of its elements; {} stands for the index."""
    names = [f'i{level}' for level in range(len(field.counts))]
    index = ''.join(f'[{name}]' for name in names)
    text = '    ' + line.format(index)
    for name, count in reversed(list(zip(names, field.counts))):
        text = f'    for (size_t {name} = 0; {name} < {count}; {name}++)\n    ' + text.replace('\n', '\n    ')
    return text


def struct_lines(struct, one, bytes_line, inner):
    """A line for each field: a number, an array of bytes, or a struct."""
    lines = []
    for field in struct.fields:
        if field.kind == 'uint8_t' and field.counts:
            lines.append('    ' + bytes_line.format(field=field.name, size=f'sizeof value->{field.name}'))
        elif field.kind in header.NUMBERS:
            lines.append(each(field, one(field)))
        else:
            lines.append(each(field, inner(field)))
    return lines


def put_struct(struct):
    lines = struct_lines(
        struct, lambda f: f'tape_number({header.NUMBERS[f.kind]}, value->{f.name}{{}});',
        'tape_bytes(value->{field}, {size});', lambda f: f'put_{f.kind[7:]}(&value->{f.name}{{}});')
    return [f'static void put_{struct.name}(const struct {struct.name} *value)', '{', *lines, '}', '']


def take_struct(struct):
    """Bytes between the fields hold anything."""
    lines = struct_lines(
        struct, lambda f: f'value->{f.name}{{}} = ({f.kind})take_number({header.NUMBERS[f.kind]});',
        'take_bytes(value->{field}, {size});', lambda f: f'take_{f.kind[7:]}(&value->{f.name}{{}});')
    return [f'static void take_{struct.name}(struct {struct.name} *value)', '{', '    memset(value, 0x5a, sizeof *value);', *lines, '}', '']


def same_struct(struct):
    lines = struct_lines(
        struct, lambda f: f'same_number("{struct.name}.{f.name}", {header.NUMBERS[f.kind]}, value->{f.name}{{}});',
        f'same_bytes("{struct.name}.{{field}}", value->{{field}}, {{size}});', lambda f: f'same_{f.kind[7:]}(&value->{f.name}{{}});')
    return [f'static void same_{struct.name}(const struct {struct.name} *value)', '{', *lines, '}', '']


def reached(kinds, structs):
    """The structs of these kinds and those inside them, in the header's order."""
    wanted = set()
    for struct in reversed(structs.values()):
        if f'struct {struct.name}' in kinds or struct.name in wanted:
            wanted |= {struct.name} | {f.kind[7:] for f in struct.fields if f.kind.startswith('struct ')}
    return [struct for struct in structs.values() if struct.name in wanted]


def declared(function, name):
    """A function's declaration under a name."""
    def text(take):
        if isinstance(take, header.Value):
            return f'{take.kind} {take.name}'
        return f'{"" if take.written else "const "}{take.kind} *{take.name}, size_t {take.length}'
    return f'{function.answer} {name}({", ".join(map(text, function.takes)) or "void"})'


def given(function):
    """What a function is called with."""
    return ', '.join(t.name if isinstance(t, header.Value) else f'{t.name}, {t.length}' for t in function.takes)


def slot_numbers(functions):
    """A number for each name of a buffer and size of its elements."""
    keys = {(take.name, take.width): None for f in functions for take in f.takes if isinstance(take, header.Buffer)}
    return {key: number for number, key in enumerate(keys)}


def recorded(number, function, slots):
    before, after = [], []
    for take in function.takes:
        if isinstance(take, header.Buffer):
            slot = slots[take.name, take.width]
            before.append(f'    tape_lend({slot}, {take.name}, {take.length} * {take.width});')
            if take.written:
                after.append(f'    tape_left({slot}, {take.name}, {take.length} * {take.width});')
        elif take.kind in header.NUMBERS:
            before.append(f'    tape_number({header.NUMBERS[take.kind]}, {take.name});')
        else:
            before.append(f'    put_{take.kind[7:]}(&{take.name});')
    return [
        f'{declared(function, "under_" + function.name)};', '', declared(function, function.name), '{', f'    {function.answer} answer;',
        f'    tape_call({number});', *before, f'    answer = under_{function.name}({given(function)});',
        f'    put_{function.answer[7:]}(&answer);', *after, '    return answer;', '}', '']


def played(function, slots):
    takes, checks = [], []
    for take in function.takes:
        if isinstance(take, header.Buffer):
            slot = slots[take.name, take.width]
            takes += [f'    size_t {take.length};', f'    {take.kind} *{take.name} = take_buffer({slot}, "{take.name}", {take.width}, &{take.length});']
            checks.append(f'    same_{"left" if take.written else "kept"}({slot});')
        elif take.kind in header.NUMBERS:
            takes.append(f'    {take.kind} {take.name} = ({take.kind})take_number({header.NUMBERS[take.kind]});')
        else:
            takes += [f'    {take.kind} {take.name};', f'    take_{take.kind[7:]}(&{take.name});']
    return [
        f'static void play_{function.name}(void)', '{', *takes, f'    {function.answer} answer;', f'    answer = {function.name}({given(function)});',
        '    answered();', f'    same_{function.answer[7:]}(&answer);', *checks, '}', '']


def emptied(function):
    """The function that tries a call with empty buffers (tests/empty/empty.h)."""
    buffers = [take for take in function.takes if isinstance(take, header.Buffer)]
    lends = [f'    lend("{take.name}", {take.name}, {take.length} * {take.width});' for take in buffers]
    tries = ', '.join(f'tried({buffers.index(t)}), tried_size({buffers.index(t)}) / {t.width}' if t in buffers else t.name for t in function.takes)
    return [
        f'{declared(function, "under_" + function.name)};', '', declared(function, function.name), '{', f'    {function.answer} answer;',
        f'    begin_call("{function.name}");', *lends, '    while (next_try()) {', f'        answer = under_{function.name}({tries});',
        f'        put_{function.answer[7:]}(&answer);', '    }', f'    return under_{function.name}({given(function)});', '}', '']


def kinds_of(functions):
    return {take.kind for function in functions for take in function.takes}


def record_calls(structs, functions):
    slots, answers = slot_numbers(functions), {function.answer for function in functions}
    puts = [line for struct in reached(kinds_of(functions) | answers, structs) for line in put_struct(struct)]
    calls = [line for number, function in enumerate(functions) for line in recorded(number, function, slots)]
    return ['#include "tape.h"', '', f'const unsigned call_count = {len(functions)};', '', *puts, *calls]


def empty_calls(structs, functions):
    puts = [line for struct in reached({function.answer for function in functions}, structs) for line in put_struct(struct)]
    return ['#include "empty.h"', '#include "tape.h"', '', *puts, *(line for function in functions for line in emptied(function))]


def play_calls(structs, functions):
    slots, answers = slot_numbers(functions), {function.answer for function in functions}
    lines = ['#include "tape.h"', '', '#include <string.h>', '']
    for struct in reached(kinds_of(functions), structs):
        lines += take_struct(struct)
    for struct in reached(answers, structs):
        lines += same_struct(struct)
    for function in functions:
        lines += played(function, slots)
    table = [f'    {{"{function.name}", play_{function.name}}},' for function in functions]
    return [*lines, 'const struct call calls[] = {', *table, '};', 'const unsigned call_count = sizeof calls / sizeof calls[0];']


def layout(structs, _):
    lines = ['#include "draugsten.h"', '']
    for struct in structs.values():
        name = f'struct {struct.name}'
        lines.append(f'_Static_assert(sizeof({name}) == {struct.size} && _Alignof({name}) == {struct.align}, "{name}");')
        for field in struct.fields:
            size = f'sizeof((({name} *)0)->{field.name})'
            count = ' * '.join(map(str, field.counts)) or '1'
            lines.append(f'_Static_assert(offsetof({name}, {field.name}) == {field.offset} && {size} == {count} * sizeof({field.kind}), "{name}.{field.name}");')
    return lines


def names(_, functions):
    return [f'{function.name} under_{function.name}' for function in functions]


def buffers(_, functions):
    named = ((function.name, [take.name for take in function.takes if isinstance(take, header.Buffer)]) for function in functions)
    return [f'{function} {buffer}' for function, names_of in named for buffer in names_of or ['-']]


def main():
    folder = pathlib.Path(sys.argv[1])
    declared_here = header.read()
    calls = {'record_calls.c': record_calls, 'play_calls.c': play_calls, 'empty_calls.c': empty_calls}
    for name, make in {**calls, 'layout.c': layout, 'names': names, 'buffers': buffers}.items():
        (folder / name).write_text('\n'.join([*make(*declared_here), '']))


if __name__ == '__main__':
    main()
