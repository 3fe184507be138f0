"""What include/draugsten.h declares: its structs with their layout on x86-64, its functions, and the numbers that it names.

Whatever stands in the header and is not known here is refused, so that nothing is passed over.
"""
import pathlib
import re

PATH = pathlib.Path(__file__).resolve().parent.parent / 'include/draugsten.h'
NUMBERS = {'uint8_t': 1, 'uint32_t': 4, 'uint64_t': 8, 'size_t': 8}
FIELD = re.compile(r'(struct \w+|\w+) (\w+)((?:\[\w+\])*)$')
POINTER = re.compile(r'(const )?(\w+) \*(\w+)$')
VALUE = re.compile(r'(struct \w+|\w+) (\w+)$')
STRUCT = re.compile(r'struct (\w+) \{(.*?)\};', re.DOTALL)
ENUM = re.compile(r'enum (\w+) \{(.*?)\};', re.DOTALL)
CONSTANT = re.compile(r'(DRAUGSTEN_\w+) = (\d+)$')
DEFINE = re.compile(r'#define (DRAUGSTEN_([A-Z]+)_\w+) (0x[0-9a-f]+)u$')
FUNCTION = re.compile(r'(struct \w+) (\w+)\(([^()]*)\);')
LIMIT = re.compile(r'^#define (\w+) (\d+)$', re.MULTILINE)


class Unknown(Exception):
    """Something that is not known here."""


class Field:
    """A number or a struct, or an array of them: `counts` has the number of elements by each index."""

    def __init__(self, kind, name, counts):
        self.kind, self.name, self.counts = kind, name, counts
        self.offset = 0


class Struct:
    def __init__(self, name, fields):
        self.name, self.fields = name, fields
        self.size = self.align = 0


class Buffer:
    """A pointer and the number of its elements, each of so many bytes."""

    def __init__(self, kind, name, length, written):
        self.kind, self.name, self.length, self.written = kind, name, length, written
        self.width = NUMBERS[kind]


class Value:
    """A number or a struct that is given by value."""

    def __init__(self, kind, name):
        self.kind, self.name = kind, name


class Function:
    def __init__(self, answer, name, takes):
        self.answer, self.name, self.takes = answer, name, takes


def known(kind, structs):
    if kind not in NUMBERS and kind.removeprefix('struct ') not in structs:
        raise Unknown(f'the type {kind}')


def field_of(text, limits, structs):
    found = FIELD.match(text)
    if not found:
        raise Unknown(f'the field {text!r}')
    kind, name, indices = found.groups()
    known(kind, structs)
    counts = [int(limits.get(count, count)) for count in re.findall(r'\[(\w+)\]', indices)]
    return Field(kind, name, counts)


def lay_out(struct, structs):
    """Gives each field its offset, and the struct its size and alignment."""
    struct.align = 1
    for field in struct.fields:
        inner = structs.get(field.kind.removeprefix('struct '))
        size, align = (inner.size, inner.align) if inner else (NUMBERS[field.kind],) * 2
        for count in field.counts:
            size *= count
        field.offset = -(-struct.size // align) * align
        struct.size = field.offset + size
        struct.align = max(struct.align, align)
    struct.size = -(-struct.size // struct.align) * struct.align


def structs_of(text, limits):
    structs = {}
    for name, body in STRUCT.findall(text):
        lines = [' '.join(line.split()) for line in body.split(';')]
        struct = Struct(name, [field_of(line, limits, structs) for line in lines if line])
        lay_out(struct, structs)
        structs[name] = struct
    return structs


def takes_of(text, structs):
    """The buffers and values that a function takes. A pointer is followed by its length."""
    words = [] if text.strip() == 'void' else [' '.join(word.split()) for word in text.split(',')]
    takes = []
    while words:
        word = words.pop(0)
        pointer, value = POINTER.match(word), VALUE.match(word)
        if pointer and pointer[2] in NUMBERS and words and words[0].startswith('size_t '):
            takes.append(Buffer(pointer[2], pointer[3], words.pop(0).split()[1], not pointer[1]))
        elif value:
            known(value[1], structs)
            takes.append(Value(value[1], value[2]))
        else:
            raise Unknown(f'the parameter {word!r}')
    return takes


def uncommented(text):
    text = re.sub(r'/\*.*?\*/', '', text, flags=re.DOTALL)
    return re.sub(r'[ \t]+$', '', text, flags=re.MULTILINE)


def constants_of(body):
    """The names of an enum with their numbers."""
    constants = {}
    for part in filter(None, (' '.join(part.split()) for part in body.split(','))):
        found = CONSTANT.match(part)
        if not found:
            raise Unknown(f'the constant {part!r}')
        constants[found[1]] = int(found[2])
    return constants


def numbers(path=PATH):
    """The names that stand for a number, with it, by what they are: of an enum by its name, of others by the first word of theirs.

    The limits, which are the header's first part, are none of them, and neither are the second names of statuses, as signed numbers.
    """
    limits, calls, text = path.read_text().partition('/* ---- calls */')
    if not calls or '/* ---- limits */' not in limits:
        raise Unknown('a header that does not begin with its limits')
    text = uncommented(text)
    kinds = {name.removeprefix('draugsten_').upper(): constants_of(body) for name, body in ENUM.findall(text)}
    for line in re.findall(r'^#define (?!\w+_SIGNED ).*$', text, re.MULTILINE):
        found = DEFINE.match(line)
        if not found:
            raise Unknown(f'the line {line!r}')
        kinds.setdefault(found[2], {})[found[1]] = int(found[3], 16)
    return kinds


def read(path=PATH):
    """The structs by name and the functions, in the header's order."""
    text = uncommented(path.read_text())
    structs = structs_of(text, dict(LIMIT.findall(text)))
    functions = []
    for answer, name, takes in FUNCTION.findall(text):
        known(answer, structs)
        functions.append(Function(answer, name, takes_of(takes, structs)))
    rest = re.sub(r'^#.*$', '', text, flags=re.MULTILINE)
    for form in (STRUCT, ENUM, FUNCTION):
        rest = form.sub('', rest)
    rest = ' '.join(rest.replace('extern "C" {', '', 1).replace('}', '', 1).split())
    if rest:
        raise Unknown(f'the declaration {rest!r}')
    return structs, functions
