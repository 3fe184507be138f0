"""Journals, inventories and traces: records from what they say, and what records say. The rules are those of the scope documents, written out a second time."""
import struct

LIMIT = 1048576
BODY_LIMIT = 4100


def record(kind, body):
    return struct.pack('<HH', 2 + len(body), kind) + body


def four(number):
    return struct.pack('<I', number)


def node(kind, node_type, *operands):
    return record(kind, struct.pack('<H', node_type) + b''.join(operands))


def entry(flag, type_number, index, code):
    return record(16, struct.pack('<HII', flag, type_number, index) + code)


def words(*numbers):
    """An argument buffer of these words."""
    return struct.pack(f'>{len(numbers)}I', *(number & 0xffffffff for number in numbers))


def call(before, after):
    return record(32, before) + record(33, after)


NODE_FORMS = {1: '<HI', 2: '<HI', 3: '<HII', 4: '<HQI'}
NODE_NUMBERS = {1: ['phandle'], 2: ['phandle'], 3: ['parent', 'drc_index'], 4: ['unit', 'phandle']}
NODE_TYPES = [
    'root', 'openprom', 'rtas', 'vdevice', 'cpu', 'cache', 'options', 'memory', 'ibm,dynamic-reconfiguration-memory', 'ibm,platform-facilities', 'random',
    'compression', 'encryption', 'memory-utilization instrumentation', 'coherent platform facility', 'coherent platform function',
]
KIND_NAMES = {
    1: 'delete', 2: 'update', 3: 'add', 4: 'update in a unit', 5: 'new value', 6: 'deleted property', 16: 'entry', 32: 'before', 33: 'after', 34: 'memory',
}


def decode_node(kind, body):
    if len(body) != struct.calcsize(NODE_FORMS[kind]):
        return None
    node_type, *numbers = struct.unpack(NODE_FORMS[kind], body)
    if node_type not in ((15, 16) if kind == 4 else range(1, 15)):
        return None
    return {'node_type': node_type, 'node_type_name': NODE_TYPES[node_type - 1], **dict(zip(NODE_NUMBERS[kind], numbers))}


def decode_property(kind, body):
    name, nul, value = body[4:].partition(b'\0')
    if len(body) < 4 or not nul or not 1 <= len(name) <= 31 or (len(value) > 32768 if kind == 5 else value):
        return None
    found = {'phandle': int.from_bytes(body[:4], 'little'), 'property': name.decode('latin-1')}
    return {**found, 'value': value.hex()} if kind == 5 else found


def decode_entry(_, body):
    if not 10 + 1 <= len(body) <= 10 + 1023:
        return None
    flag, type_number, index = struct.unpack('<HII', body[:10])
    if flag > 1 or 0 in body[10:]:
        return None
    return {'flag': flag, 'flag_name': ('indicator', 'sensor')[flag], 'type': type_number, 'index': index, 'code': body[10:].decode('latin-1')}


def decode_buffer(_, body):
    return {'buffer': body.hex()} if len(body) <= BODY_LIMIT else None


def decode_memory(_, body):
    return {'address': int.from_bytes(body[:4], 'little'), 'bytes': body[4:].hex()} if 4 + 1 <= len(body) <= BODY_LIMIT else None


DECODERS = {
    'journal': {1: decode_node, 2: decode_node, 3: decode_node, 4: decode_node, 5: decode_property, 6: decode_property},
    'inventory': {16: decode_entry},
    'trace': {32: decode_buffer, 33: decode_buffer, 34: decode_memory},
}


def decode_one(file, data, offset):
    """The kind, the body and the size of the record at an offset, and what it says; None, if it is malformed by itself."""
    if len(data) - offset < 4:
        return None
    length, kind = struct.unpack_from('<HH', data, offset)
    body = data[offset + 4:offset + 2 + length]
    if length < 2 or len(body) != length - 2 or kind not in DECODERS[file] or (file != 'trace' and offset + 2 + length > LIMIT):
        return None
    said = DECODERS[file][kind](kind, body)
    return said and (kind, body, 2 + length, said)


def decode(file, data):
    """The objects of all records before the first that is malformed, and that one's number and offset; None, if there is none."""
    found, offset, calls = [], 0, 0
    while offset < len(data):
        one = decode_one(file, data, offset)
        kind, body, size, said = one or (0, b'', 0, {})
        after = decode_one(file, data, offset + size) if kind == 32 else None
        if not one or kind == 33 or (kind == 32 and (not after or after[0] != 33)):
            return found, (len(found) + 1, offset)
        calls += kind == 32
        found.append({**front(found, offset, kind), **({'call': calls} if after else {}), **said, **(decode_before(body) if after else {})})
        if after:
            found.append({**front(found, offset + size, 33), 'call': calls, **after[3], **decode_after(body, after[1])})
        offset += size + (after[2] if after else 0)
    return found, None


def front(found, offset, kind):
    return {'record': len(found) + 1, 'offset': offset, 'kind': kind, 'name': KIND_NAMES[kind]}


CALLS = {
    1: ('ibm,update-nodes', ['address', 'scope'], ['status']),
    2: ('ibm,get-indices', ['flag', 'type', 'address', 'size', 'Starting Number'], ['status', 'Next Starting Number']),
    3: ('ibm,configure-kernel-dump', ['command', 'address', 'length'], ['status']),
    4: ('ibm,update-properties', ['address', 'scope'], ['status']),
}
STATUSES = {
    0: 'done', 1: 'call again', -1: 'journal or inventory malformed', -3: 'parameter', -4: 'inventory changed', -9: 'already registered', -10: 'dump active',
}


def word_at(buffer, number, signed=False):
    part = buffer[4 * number:4 * number + 4]
    return int.from_bytes(part, 'big', signed=signed) if len(part) == 4 else None


def number_of(buffer):
    """The number of a call: 0, if there is a place for its status."""
    if len(buffer) < 12:
        return 10
    inputs, outputs = word_at(buffer, 1), word_at(buffer, 2)
    if inputs > 16 or outputs > 16:
        return 12
    return 10 if len(buffer) < 12 + 4 * (inputs + outputs) else 0 if outputs else 11


def own_call(buffer):
    """The call of a buffer with counts that are its own."""
    known = CALLS.get(word_at(buffer, 0))
    return known if known and (word_at(buffer, 1), word_at(buffer, 2)) == (len(known[1]), len(known[2])) else None


def meaning(name, value):
    if name is None or value is None:
        return None
    if name == 'address':
        return f'address 0x{value:08x}'
    more = {
        'status': ' ' + STATUSES.get(value, 'of no call'),
        'flag': {0: ' indicator', 1: ' sensor'}.get(value, ' neither indicator nor sensor'),
        'command': {1: ' register', 2: ' unregister', 3: ' complete'}.get(value, ' of none'),
    }
    return f'{name} {value}{more.get(name, "")}'


def named(buffer, name, number):
    value = word_at(buffer, number, name in ('scope', 'status'))
    return {'name': name, 'value': value, 'meaning': meaning(name, value)}


def decode_before(buffer):
    number = number_of(buffer)
    if number:
        return {'token': None, 'call_name': None, 'number': number, 'inputs': []}
    own = own_call(buffer)
    names = own[1] if own else [None] * word_at(buffer, 1)
    inputs = [named(buffer, name, 3 + place) for place, name in enumerate(names)]
    return {'token': word_at(buffer, 0), 'call_name': own and own[0], 'number': None, 'inputs': inputs}


def decode_after(before, after):
    own, start, names = own_call(before), 0, []
    if not number_of(before):
        start = 3 + word_at(before, 1)
        names = own[2] if own else ['status'] + [None] * (word_at(before, 2) - 1)
    outputs = [named(after, name, start + place) for place, name in enumerate(names)]
    beside = [4 * place for place in range((max(len(before), len(after)) + 3) // 4) if not start <= place < start + len(names)]
    changed = sum(before[at:at + 4] != after[at:at + 4] for at in beside)
    return {'status': outputs[0]['value'] if outputs else None, 'outputs': outputs, 'changed_beside_outputs': changed}


def encode(said):
    """A record from the object of it."""
    kind = said['kind']
    if kind in NODE_FORMS:
        return record(kind, struct.pack(NODE_FORMS[kind], said['node_type'], *(said[name] for name in NODE_NUMBERS[kind])))
    if kind in (5, 6):
        return record(kind, four(said['phandle']) + said['property'].encode('latin-1') + b'\0' + bytes.fromhex(said.get('value', '')))
    if kind == 16:
        return entry(said['flag'], said['type'], said['index'], said['code'].encode('latin-1'))
    return record(kind, bytes.fromhex(said['buffer']) if kind < 34 else four(said['address']) + bytes.fromhex(said['bytes']))
