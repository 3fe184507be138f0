/*
 * One partition's calls from beginning to end: a session of update-nodes, another one for one unit, a session of
 * update-properties for one node, in which a value is divided, a session of get-indices, during which the inventory is
 * edited, and a kernel dump structure that is registered and unregistered. Exits with 1 where something is not as it
 * should be.
 */
#include "draugsten.h"

#include <inttypes.h>
#include <stdio.h>
#include <stdlib.h>
#include <string.h>

enum {
    RECORDS = 1500,
    UNIT_RECORDS = 7,
    NODE_AREA = 0x1000,     /* addresses in the partition's memory */
    INDEX_AREA = 0x2000,
    STRUCTURE = 0x2800,
    MEMORY_SIZE = 0x3000,
    STRUCTURE_SIZE = 80,
    SCOPE = 1,
    UNIT_SCOPE = 3,
    INDICATOR = 0,
    SENSOR = 1,
    TYPE = 9006,
    NODE = 0x3000,          /* phandles */
    OTHER_NODE = 0x3001,
    VALUE_SIZE = 6000
};

/* What the platform holds for the partition. */
struct partition {
    uint8_t memory[MEMORY_SIZE];
    uint8_t journal[14 * RECORDS];
    size_t journal_length;
    uint8_t inventory[2048];
    size_t inventory_length;
    uint32_t edition;       /* of the inventory */
    struct draugsten_registration registration;
    struct draugsten_reading reading;
};

static void expect(int holds, const char *what)
{
    if (!holds) {
        fprintf(stderr, "session: not so: %s\n", what);
        exit(1);
    }
}

/* ---- numbers in bytes */

static void put_be16(uint8_t *to, uint32_t value)
{
    to[0] = (uint8_t)(value >> 8);
    to[1] = (uint8_t)value;
}

static void put_be32(uint8_t *to, uint32_t value)
{
    put_be16(to, value >> 16);
    put_be16(to + 2, value);
}

static uint32_t be32(const uint8_t *from)
{
    return (uint32_t)from[0] << 24 | (uint32_t)from[1] << 16 | (uint32_t)from[2] << 8 | from[3];
}

static void put_le16(uint8_t *to, uint32_t value)
{
    to[0] = (uint8_t)value;
    to[1] = (uint8_t)(value >> 8);
}

static void put_le32(uint8_t *to, uint32_t value)
{
    put_le16(to, value);
    put_le16(to + 2, value >> 16);
}

static uint32_t le16(const uint8_t *from)
{
    return (uint32_t)from[1] << 8 | from[0];
}

static uint32_t le32(const uint8_t *from)
{
    return le16(from + 2) << 16 | le16(from);
}

/* ---- one call */

/* Makes the argument buffer, calls, and takes the outputs from it. */
static void call(struct partition *partition, uint32_t token, const uint32_t *inputs, size_t input_count,
                 uint32_t *outputs, size_t output_count)
{
    uint8_t args[4 * (3 + 2 * DRAUGSTEN_COUNT_LIMIT)] = {0};
    size_t outputs_at = 12 + 4 * input_count;
    struct draugsten_answer answer;
    size_t i;

    put_be32(args, token);
    put_be32(args + 4, (uint32_t)input_count);
    put_be32(args + 8, (uint32_t)output_count);
    for (i = 0; i < input_count; i++)
        put_be32(args + 12 + 4 * i, inputs[i]);
    answer = draugsten_call(args, outputs_at + 4 * output_count, partition->memory, sizeof partition->memory,
                            partition->journal, partition->journal_length, partition->inventory,
                            partition->inventory_length, partition->edition, partition->registration,
                            partition->reading);
    expect(answer.number == DRAUGSTEN_NUMBER_STATUS, "the call has a status");
    partition->registration = answer.registration;
    partition->reading = answer.reading;
    for (i = 0; i < output_count; i++)
        outputs[i] = be32(args + outputs_at + 4 * i);
}

static int is_answered(uint32_t status)
{
    return status == DRAUGSTEN_STATUS_DONE || status == DRAUGSTEN_STATUS_CALL_AGAIN;
}

/* ---- update-nodes */

static size_t put_change(uint8_t *to, uint32_t kind, uint32_t node_type, uint32_t phandle, uint32_t drc_index)
{
    uint32_t length = kind == DRAUGSTEN_OPCODE_ADD ? 12 : 8;

    put_le16(to, length);
    put_le16(to + 2, kind);
    put_le16(to + 4, node_type);
    put_le32(to + 6, phandle);
    if (kind == DRAUGSTEN_OPCODE_ADD)
        put_le32(to + 10, drc_index);
    return 2 + length;
}

/* A delete, an update and three additions in turn, of node types 8 to 14 in turn. */
static void make_journal(struct partition *partition)
{
    static const uint32_t kinds[] = {DRAUGSTEN_OPCODE_DELETE, DRAUGSTEN_OPCODE_UPDATE, DRAUGSTEN_OPCODE_ADD,
                                     DRAUGSTEN_OPCODE_ADD, DRAUGSTEN_OPCODE_ADD};
    size_t at = 0;
    uint32_t i;

    for (i = 0; i < RECORDS; i++)
        at += put_change(partition->journal + at, kinds[i % 5], 8 + i % 7, 0x1000 + i, 0x10000000 + i);
    partition->journal_length = at;
}

/* How many records scope 1 reports: each update, and every change of node types 6 and 9 to 14. */
static size_t count_reportable(const struct partition *partition)
{
    size_t count = 0;
    size_t at = 0;

    while (at < partition->journal_length) {
        const uint8_t *record = partition->journal + at;
        uint32_t node_type = le16(record + 4);

        if (le16(record + 2) == DRAUGSTEN_OPCODE_UPDATE || node_type == 6 || node_type >= 9)
            count++;
        at += 2 + le16(record);
    }
    return count;
}

static uint32_t update_nodes(struct partition *partition, uint32_t address, uint32_t scope)
{
    uint32_t inputs[2] = {address, scope};
    uint32_t status;

    call(partition, DRAUGSTEN_TOKEN_UPDATE_NODES, inputs, 2, &status, 1);
    return status;
}

static void print_operation(const uint32_t *words)
{
    switch (words[0]) {
    case DRAUGSTEN_OPCODE_DELETE:
        printf("delete %08" PRIx32, words[1]);
        break;
    case DRAUGSTEN_OPCODE_UPDATE:
        printf("update %08" PRIx32, words[1]);
        break;
    default:
        printf("add %08" PRIx32 " %08" PRIx32, words[1], words[2]);
    }
}

/* Reads the area that an answered call left; gives the number of its operations. */
static size_t read_node_area(const struct partition *partition, uint32_t status, uint32_t scope)
{
    uint32_t words[DRAUGSTEN_ENTRY_ELEMENTS * DRAUGSTEN_NODE_OPERATIONS_LIMIT] = {0};
    struct draugsten_node_reading reading;

    reading = draugsten_read_nodes(partition->memory + NODE_AREA, DRAUGSTEN_NODE_AREA_SIZE, scope, words,
                                   sizeof words / sizeof words[0]);
    expect(reading.refusal == DRAUGSTEN_REFUSAL_NONE, "the node area is read");
    expect(reading.entries > 0, "the node area has operations");
    printf("  status %" PRIu32 ", state %" PRIu32 ", %zu operations, ", status, reading.state, reading.entries);
    print_operation(words);
    printf(" to ");
    print_operation(words + DRAUGSTEN_ENTRY_ELEMENTS * (reading.entries - 1));
    printf("\n");
    return reading.entries;
}

/* An address that is no multiple of 4,096: refused, and memory stays as it is. */
static void call_misaligned(struct partition *partition)
{
    static uint8_t before[MEMORY_SIZE];
    uint32_t address = NODE_AREA + 4;
    uint32_t status;

    memcpy(before, partition->memory, sizeof before);
    status = update_nodes(partition, address, SCOPE);
    expect(status == DRAUGSTEN_STATUS_PARAMETER, "a misaligned address is refused");
    expect(memcmp(before, partition->memory, sizeof before) == 0, "a refused call leaves memory as it is");
    printf("  status %" PRId32 ", address %08" PRIx32 "\n", (int32_t)status, address);
}

static void run_node_session(struct partition *partition)
{
    uint32_t status = DRAUGSTEN_STATUS_CALL_AGAIN;
    size_t operations = 0;
    int calls;

    make_journal(partition);
    printf("update-nodes, %d records, scope %d\n", RECORDS, SCOPE);
    memset(partition->memory + NODE_AREA, 0, 16);
    for (calls = 0; status == DRAUGSTEN_STATUS_CALL_AGAIN; calls++) {
        if (calls == 1)
            call_misaligned(partition);
        status = update_nodes(partition, NODE_AREA, SCOPE);
        expect(is_answered(status), "update-nodes is answered");
        operations += read_node_area(partition, status, SCOPE);
    }
    expect(operations == count_reportable(partition), "every reportable operation is handed out");
    printf("  %zu operations in %d areas\n", operations, calls);
}

/* ---- update-nodes for one unit */

/* The address of a coherent platform facility, as the area has it, and that of another one. */
static const uint32_t unit[2] = {0x80000000, 0x20000002};
static const uint32_t other_unit[2] = {0x80000001, 0x20000002};

static size_t put_unit_change(uint8_t *to, uint32_t node_type, const uint32_t *address, uint32_t phandle)
{
    put_le16(to, 16);
    put_le16(to + 2, 4);
    put_le16(to + 4, node_type);
    put_le32(to + 6, address[1]);
    put_le32(to + 10, address[0]);
    put_le32(to + 14, phandle);
    return 18;
}

/* Updates of the two units in turn, the first of them of `unit`; each has nodes of types 15 and 16. */
static void make_unit_journal(struct partition *partition)
{
    size_t at = 0;
    uint32_t i;

    for (i = 0; i < UNIT_RECORDS; i++)
        at += put_unit_change(partition->journal + at, 15 + i / 2 % 2, i % 2 ? other_unit : unit, 0x2000 + i);
    partition->journal_length = at;
}

/* One call has room for the records of the unit. It leaves the unit's address where it found it. */
static void run_unit_session(struct partition *partition)
{
    uint8_t *area = partition->memory + NODE_AREA;
    uint32_t status;
    size_t operations;

    make_unit_journal(partition);
    printf("update-nodes, %d records, scope %d, unit %08" PRIx32 "%08" PRIx32 "\n", UNIT_RECORDS, UNIT_SCOPE, unit[0],
           unit[1]);
    memset(area, 0, 16);
    put_be32(area + 4, unit[0]);
    put_be32(area + 8, unit[1]);
    status = update_nodes(partition, NODE_AREA, UNIT_SCOPE);
    expect(status == DRAUGSTEN_STATUS_DONE, "one call hands out all records of the unit");
    expect(be32(area + 4) == unit[0] && be32(area + 8) == unit[1], "the answer names the unit");
    operations = read_node_area(partition, status, UNIT_SCOPE);
    expect(operations == (UNIT_RECORDS + 1) / 2, "every record of the unit is handed out, and no other");
}

/* ---- update-properties */

/* A property of a node: a new value, or, where there is none, that it is deleted. */
struct change {
    uint32_t phandle;
    const char *name;
    const uint8_t *value;
    size_t length;
};

/* A value that one area has no room for; make_property_journal fills it. */
static uint8_t long_value[VALUE_SIZE];

static const struct change changes[] = {
    {NODE, "status", (const uint8_t *)"okay", 5},
    {OTHER_NODE, "status", (const uint8_t *)"fail", 5},
    {NODE, "ibm,vpd", long_value, VALUE_SIZE},
    {NODE, "ibm,fail-safe", (const uint8_t *)"", 0},
    {NODE, "linux,phandle", NULL, 0},
};

enum { CHANGES = sizeof changes / sizeof changes[0] };

static size_t put_property(uint8_t *to, const struct change *change)
{
    size_t name_size = strlen(change->name) + 1;

    put_le16(to, (uint32_t)(6 + name_size + change->length));
    put_le16(to + 2, change->value ? 5 : 6);
    put_le32(to + 4, change->phandle);
    memcpy(to + 8, change->name, name_size);
    if (change->length > 0)
        memcpy(to + 8 + name_size, change->value, change->length);
    return 8 + name_size + change->length;
}

static void make_property_journal(struct partition *partition)
{
    size_t at = 0;
    size_t i;

    for (i = 0; i < VALUE_SIZE; i++)
        long_value[i] = (uint8_t)i;
    for (i = 0; i < CHANGES; i++)
        at += put_property(partition->journal + at, &changes[i]);
    partition->journal_length = at;
}

static void print_property(const uint8_t *area, const uint32_t *words)
{
    uint32_t descriptor = words[2];

    printf("    %.*s: ", (int)words[1], (const char *)area + words[0]);
    if (descriptor == DRAUGSTEN_DESCRIPTOR_NAME_ONLY)
        printf("no value\n");
    else if (descriptor == DRAUGSTEN_DESCRIPTOR_DELETED)
        printf("deleted\n");
    else
        printf("%" PRIu32 " bytes%s\n", words[4], descriptor > DRAUGSTEN_DESCRIPTOR_DELETED ? ", more follow" : "");
}

/* Reads the area that an answered call left. The bytes of the long value are joined from `joined` on; gives their end. */
static size_t read_property_area(const struct partition *partition, uint32_t status, uint8_t *value, size_t joined)
{
    static uint32_t words[DRAUGSTEN_PROPERTY_ELEMENTS * DRAUGSTEN_PROPERTIES_LIMIT];
    const uint8_t *area = partition->memory + NODE_AREA;
    struct draugsten_property_reading reading;
    size_t i;

    reading = draugsten_read_properties(area, DRAUGSTEN_PROPERTY_AREA_SIZE, words, sizeof words / sizeof words[0]);
    expect(reading.refusal == DRAUGSTEN_REFUSAL_NONE, "the property area is read");
    expect(reading.phandle == NODE, "the property area names the node");
    printf("  status %" PRIu32 ", state %" PRIu32 ", %zu properties\n", status, reading.state, reading.entries);
    for (i = 0; i < reading.entries; i++) {
        const uint32_t *property = words + DRAUGSTEN_PROPERTY_ELEMENTS * i;

        print_property(area, property);
        if (property[1] == 7 && memcmp(area + property[0], "ibm,vpd", 7) == 0) {
            expect(joined + property[4] <= VALUE_SIZE, "the value is no longer than it was");
            memcpy(value + joined, area + property[3], property[4]);
            joined += property[4];
        }
    }
    return joined;
}

static void run_property_session(struct partition *partition)
{
    static uint8_t value[VALUE_SIZE];
    uint32_t inputs[2] = {NODE_AREA, SCOPE};
    uint32_t status = DRAUGSTEN_STATUS_CALL_AGAIN;
    size_t joined = 0;

    make_property_journal(partition);
    printf("update-properties, %d records, node %08x\n", CHANGES, NODE);
    memset(partition->memory + NODE_AREA, 0, 16);
    put_be32(partition->memory + NODE_AREA, NODE);
    while (status == DRAUGSTEN_STATUS_CALL_AGAIN) {
        call(partition, DRAUGSTEN_TOKEN_UPDATE_PROPERTIES, inputs, 2, &status, 1);
        expect(is_answered(status), "update-properties is answered");
        joined = read_property_area(partition, status, value, joined);
    }
    expect(joined == VALUE_SIZE && memcmp(value, long_value, VALUE_SIZE) == 0, "the joined value is the new one");
    printf("  ibm,vpd: %zu bytes joined\n", joined);
}

/* ---- get-indices */

struct item {
    uint32_t flag;
    uint32_t type;
    uint32_t index;
    const char *code;
};

/* A code of the most bytes; make_inventory fills it. */
static char longest_code[DRAUGSTEN_CODE_LIMIT + 1];

static const struct item items[] = {
    {INDICATOR, TYPE, 0, "U78D8.ND0.0A1B2C3-P0"},
    {INDICATOR, TYPE, 1, "U78D8.ND0.0A1B2C3-P0-C1"},
    {SENSOR, TYPE, 2, "U78D8.ND0.0A1B2C3-P0-C2"},
    {INDICATOR, TYPE + 1, 3, "U78D8.ND0.0A1B2C3-P0-C3"},
    {INDICATOR, TYPE, 4, longest_code},
    {INDICATOR, TYPE, 5, "U78D8.ND0.0A1B2C3-P0-C5"},
};

enum { ITEMS = sizeof items / sizeof items[0], SHOWN = 24 };

/* The one that is added during the reading. */
static const struct item added = {INDICATOR, TYPE, 6, "U78D8.ND0.0A1B2C3-P0-C6"};

static size_t put_item(uint8_t *to, const struct item *item)
{
    size_t code_length = strlen(item->code);

    put_le16(to, (uint32_t)(12 + code_length));
    put_le16(to + 2, 16);
    put_le16(to + 4, item->flag);
    put_le32(to + 6, item->type);
    put_le32(to + 10, item->index);
    memcpy(to + 14, item->code, code_length);
    return 14 + code_length;
}

static void make_inventory(struct partition *partition)
{
    size_t at = 0;
    size_t i;

    memset(longest_code, 'U', DRAUGSTEN_CODE_LIMIT);
    for (i = 0; i < ITEMS; i++) {
        expect(at + 14 + strlen(items[i].code) <= sizeof partition->inventory, "the inventory has room");
        at += put_item(partition->inventory + at, &items[i]);
    }
    partition->inventory_length = at;
}

/* An edit: the item becomes the first one, so every other has another number. */
static void edit_inventory(struct partition *partition, const struct item *item)
{
    struct draugsten_edited edited = draugsten_edit(partition->edition);
    size_t size = 14 + strlen(item->code);

    expect(edited.taken, "the edit is taken");
    expect(partition->inventory_length + size <= sizeof partition->inventory, "the inventory has room");
    memmove(partition->inventory + size, partition->inventory, partition->inventory_length);
    put_item(partition->inventory, item);
    partition->inventory_length += size;
    partition->edition = edited.edition;
    printf("  edited: item %" PRIu32 " is the first one, edition %" PRIu32 "\n", item->index, partition->edition);
}

/* Whether these are the indices of all indicators of the type in the inventory, in order. */
static int are_listed(const struct partition *partition, const uint32_t *indices, size_t count)
{
    size_t found = 0;
    size_t at;

    for (at = 0; at < partition->inventory_length; at += 2 + le16(partition->inventory + at)) {
        const uint8_t *record = partition->inventory + at;

        if (le16(record + 4) != INDICATOR || le32(record + 6) != TYPE)
            continue;
        if (found == count || indices[found] != le32(record + 10))
            return 0;
        found++;
    }
    return found == count;
}

/* The code, or how it begins and its length. */
static void print_code(const char *code, uint64_t length)
{
    if (length <= SHOWN)
        printf("%.*s\n", (int)length, code);
    else
        printf("%.*s.. of %" PRIu64 " bytes\n", SHOWN, code, length);
}

/* Reads the area that an answered call left. Its indices are put from `count` on; gives their end. */
static size_t read_index_area(const struct partition *partition, uint32_t *indices, size_t count)
{
    const uint8_t *area = partition->memory + INDEX_AREA;
    uint64_t numbers[DRAUGSTEN_INDEX_AREA_SUFFICIENT / 4] = {0};
    struct draugsten_index_reading reading;
    size_t i;

    reading = draugsten_read_indices(area, DRAUGSTEN_INDEX_AREA_SUFFICIENT, numbers,
                                     sizeof numbers / sizeof numbers[0]);
    expect(reading.refusal == DRAUGSTEN_REFUSAL_NONE, "the index area is read");
    expect(count + reading.entries <= ITEMS + 1, "there are no more entries than items");
    for (i = 0; i < reading.entries; i++) {
        const uint64_t *entry = numbers + DRAUGSTEN_ENTRY_ELEMENTS * i;

        printf("    %" PRIu64 " ", entry[0]);
        print_code((const char *)area + entry[1], entry[2]);
        indices[count + i] = (uint32_t)entry[0];
    }
    return count + reading.entries;
}

/* Gives the status. An answer puts the Next Starting Number in the place of the number asked for. */
static uint32_t get_indices(struct partition *partition, uint32_t *number)
{
    uint32_t inputs[5] = {INDICATOR, TYPE, INDEX_AREA, DRAUGSTEN_INDEX_AREA_SUFFICIENT, *number};
    uint32_t outputs[2];

    call(partition, DRAUGSTEN_TOKEN_GET_INDICES, inputs, 5, outputs, 2);
    if (is_answered(outputs[0]))
        *number = outputs[1];
    return outputs[0];
}

/* The inventory is edited after the first call. The second one gets -4: the entries so far are dropped, and the reading
 * begins again. */
static void run_index_session(struct partition *partition)
{
    uint32_t indices[ITEMS + 1];
    uint32_t status = DRAUGSTEN_STATUS_CALL_AGAIN;
    uint32_t number = 1;
    size_t entries = 0;
    int calls;

    make_inventory(partition);
    printf("get-indices, indicators of type %d, edition %" PRIu32 "\n", TYPE, partition->edition);
    for (calls = 0; status != DRAUGSTEN_STATUS_DONE; calls++) {
        if (calls == 1)
            edit_inventory(partition, &added);
        status = get_indices(partition, &number);
        if (status == DRAUGSTEN_STATUS_CHANGED) {
            expect(calls == 1, "-4 comes after the edit alone");
            printf("  status %" PRId32 ", begin again\n", (int32_t)status);
            number = 1;
            entries = 0;
            continue;
        }
        expect(is_answered(status), "get-indices is answered");
        printf("  status %" PRIu32 ", next %" PRIu32 "\n", status, number);
        entries = read_index_area(partition, indices, entries);
    }
    expect(are_listed(partition, indices, entries), "every indicator of the type is listed, in order, once");
    printf("  %zu entries of edition %" PRIu32 "\n", entries, partition->edition);
}

/* ---- the kernel dump */

/* A good structure: one section behind the header, requested, and no disk. */
static void make_structure(uint8_t *to)
{
    uint8_t *section = to + 40;

    memset(to, 0, STRUCTURE_SIZE);
    put_be32(to, 1);                /* version */
    put_be16(to + 4, 1);            /* number of sections */
    put_be32(to + 8, 40);           /* offset of the first */
    put_be32(section, 1);           /* request flags */
    put_be16(section + 4, 1);       /* type: CPU state data */
    put_be32(section + 20, 0x1000); /* requested length, low word */
    put_be32(section + 36, 0x2000); /* destination, low word */
}

static void configure_kernel_dump(struct partition *partition, enum draugsten_command command, const char *name)
{
    uint32_t inputs[3] = {command, STRUCTURE, STRUCTURE_SIZE};
    uint32_t status;

    call(partition, DRAUGSTEN_TOKEN_CONFIGURE_KERNEL_DUMP, inputs, 3, &status, 1);
    expect(status == DRAUGSTEN_STATUS_DONE, name);
    printf("  %s: status %" PRIu32 ", phase %" PRIu32 ", copy of %zu bytes\n", name, status,
           partition->registration.phase, partition->registration.length);
}

static void run_dump_commands(struct partition *partition)
{
    const uint8_t *structure = partition->memory + STRUCTURE;

    printf("configure-kernel-dump\n");
    make_structure(partition->memory + STRUCTURE);
    configure_kernel_dump(partition, DRAUGSTEN_COMMAND_REGISTER, "register");
    expect(partition->registration.phase == DRAUGSTEN_PHASE_REGISTERED, "the phase is registered");
    expect(memcmp(partition->registration.copy, structure, STRUCTURE_SIZE) == 0, "the copy is the structure");
    configure_kernel_dump(partition, DRAUGSTEN_COMMAND_UNREGISTER, "unregister");
    expect(partition->registration.phase == DRAUGSTEN_PHASE_NONE, "the phase is none");
}

int main(void)
{
    static struct partition partition;

    partition.registration = draugsten_no_registration();
    partition.reading = draugsten_no_reading();
    run_node_session(&partition);
    run_unit_session(&partition);
    run_property_session(&partition);
    run_index_session(&partition);
    run_dump_commands(&partition);
    expect(fflush(stdout) == 0, "the output is written");
    return 0;
}
