/*
 * A kernel dump from its registration to its end: a structure of four sections is registered, the dump runs, what each
 * section came to is read from the copy, and the dump is completed. Exits with 1 where something is not as it should be.
 */
#include "draugsten.h"

#include <inttypes.h>
#include <stdio.h>
#include <stdlib.h>
#include <string.h>

enum {
    MEMORY_SIZE = 0x3000,   /* of the partition */
    PLATFORM_SIZE = 0x800,  /* of the platform's own memory */
    STRUCTURE = 0x2000,     /* its address in the partition's memory */
    HEADER_SIZE = 40,
    SECTION_SIZE = 40,
    SECTIONS = 4,
    STRUCTURE_SIZE = HEADER_SIZE + SECTIONS * SECTION_SIZE,
    CPU_STATE = 1,          /* types of sections: these two are read from platform memory */
    PAGE_TABLE = 2,
    REAL_MODE_REGION = 0x11,
    KERNEL = 0x100
};

/* What the platform holds for the partition, and its own memory. */
struct partition {
    uint8_t memory[MEMORY_SIZE];
    uint8_t platform[PLATFORM_SIZE];
    struct draugsten_registration registration;
    struct draugsten_reading reading;
};

/* What a section asks for. */
struct section {
    uint32_t type;
    uint32_t source;
    uint32_t requested;
    uint32_t destination;
};

/* The second asks for more than the platform has, the third overlaps itself, the fourth finds too little room. */
static const struct section sections[SECTIONS] = {
    {CPU_STATE, 0x100, 0x400, 0x1800},
    {PAGE_TABLE, 0x700, 0x400, 0x1c00},
    {REAL_MODE_REGION, 0x0, 0x1000, 0x10},
    {KERNEL, 0x1000, 0x200, MEMORY_SIZE - 0x80},
};

static void expect(int holds, const char *what)
{
    if (!holds) {
        fprintf(stderr, "dump: not so: %s\n", what);
        exit(1);
    }
}

/* ---- numbers in bytes */

static void put_be16(uint8_t *to, uint32_t value)
{
    to[0] = (uint8_t)(value >> 8);
    to[1] = (uint8_t)value;
}

static void put_be32(uint8_t *to, uint32_t value)
{
    put_be16(to, value >> 16);
    put_be16(to + 2, value);
}

static uint32_t be16(const uint8_t *from)
{
    return (uint32_t)from[0] << 8 | from[1];
}

static uint32_t be32(const uint8_t *from)
{
    return be16(from) << 16 | be16(from + 2);
}

static uint64_t be64(const uint8_t *from)
{
    return (uint64_t)be32(from) << 32 | be32(from + 4);
}

/* ---- the structure */

/* Numbers of eight bytes have their low word at the end; the high one stays zero. */
static void put_section(uint8_t *to, const struct section *section)
{
    put_be32(to, 1);                        /* request flags */
    put_be16(to + 4, section->type);
    put_be32(to + 12, section->source);
    put_be32(to + 20, section->requested);
    put_be32(to + 36, section->destination);
}

/* No disk: block size, blocks and path are zero. */
static void put_structure(uint8_t *to)
{
    size_t i;

    memset(to, 0, STRUCTURE_SIZE);
    put_be32(to, 1);                        /* version */
    put_be16(to + 4, SECTIONS);
    put_be32(to + 8, HEADER_SIZE);          /* offset of the first section */
    for (i = 0; i < SECTIONS; i++)
        put_section(to + HEADER_SIZE + i * SECTION_SIZE, &sections[i]);
}

/* ---- the commands */

/* Gives the status of a command through the argument buffer. */
static uint32_t configure_kernel_dump(struct partition *partition, enum draugsten_command command)
{
    static const uint8_t none[1];           /* no journal, and no inventory */
    const uint32_t words[] = {DRAUGSTEN_TOKEN_CONFIGURE_KERNEL_DUMP, 3, 1, command, STRUCTURE, STRUCTURE_SIZE, 0};
    uint8_t args[sizeof words];
    struct draugsten_answer answer;
    size_t i;

    for (i = 0; i < sizeof words / sizeof words[0]; i++)
        put_be32(args + 4 * i, words[i]);
    answer = draugsten_call(args, sizeof args, partition->memory, sizeof partition->memory, none, 0, none, 0, 0,
                            partition->registration, partition->reading);
    expect(answer.number == DRAUGSTEN_NUMBER_STATUS, "the call has a status");
    partition->registration = answer.registration;
    partition->reading = answer.reading;
    return be32(args + 24);
}

static uint32_t run_dump(struct partition *partition)
{
    struct draugsten_run run;

    run = draugsten_run_dump(partition->registration, partition->memory, sizeof partition->memory, partition->platform,
                             sizeof partition->platform);
    expect(run.number == DRAUGSTEN_NUMBER_STATUS, "the run has a status");
    partition->registration = run.registration;
    return run.status;
}

static void print_status(const struct partition *partition, const char *name, uint32_t status)
{
    printf("%s: status %" PRId32 ", phase %" PRIu32 "\n", name, (int32_t)status, partition->registration.phase);
}

/* ---- what came of it */

static void print_error(uint32_t flags, uint32_t flag, const char *text)
{
    if (flags & flag)
        printf(", %s", text);
}

static void print_section(const uint8_t *section)
{
    uint32_t flags = be16(section + 6);

    printf("  type %04" PRIx32 ": %" PRIu64 " of %" PRIu64 " bytes to %08" PRIx64, be16(section + 4), be64(section + 24),
           be64(section + 16), be64(section + 32));
    print_error(flags, DRAUGSTEN_SECTION_SOURCE, "the source starts outside");
    print_error(flags, DRAUGSTEN_SECTION_LENGTH, "the source has no more");
    print_error(flags, DRAUGSTEN_SECTION_DESTINATION, "the destination starts outside");
    print_error(flags, DRAUGSTEN_SECTION_ROOM, "the destination has no more room");
    printf("\n");
}

static void print_dump(const struct partition *partition)
{
    const uint8_t *copy = partition->registration.copy;
    uint32_t flags = be16(copy + 6);
    size_t i;

    expect(flags & DRAUGSTEN_DUMP_PERFORMED, "the dump is performed");
    printf("status flags %04" PRIx32 "%s\n", flags, flags & DRAUGSTEN_DUMP_ERROR ? ", an error" : "");
    for (i = 0; i < SECTIONS; i++)
        print_section(copy + HEADER_SIZE + i * SECTION_SIZE);
}

/* Every byte of memory is as the sections, one after the other, have to leave it. */
static void expect_copied(const struct partition *partition, const struct partition *before)
{
    static uint8_t memory[MEMORY_SIZE];

    memcpy(memory, before->memory, sizeof memory);
    memcpy(memory + 0x1800, before->platform + 0x100, 0x400);
    memcpy(memory + 0x1c00, before->platform + 0x700, 0x100);
    memmove(memory + 0x10, memory, 0x1000);
    memcpy(memory + MEMORY_SIZE - 0x80, memory + 0x1000, 0x80);
    expect(memcmp(partition->memory, memory, sizeof memory) == 0, "memory has the bytes of the sections");
    expect(memcmp(partition->platform, before->platform, sizeof before->platform) == 0, "the platform's memory stays");
}

int main(void)
{
    static struct partition partition, before;
    size_t i;

    for (i = 0; i < MEMORY_SIZE; i++)
        partition.memory[i] = (uint8_t)(i * 31 >> 3);
    for (i = 0; i < PLATFORM_SIZE; i++)
        partition.platform[i] = (uint8_t)(i * 37 >> 2);
    put_structure(partition.memory + STRUCTURE);
    partition.registration = draugsten_no_registration();
    partition.reading = draugsten_no_reading();
    print_status(&partition, "register", configure_kernel_dump(&partition, DRAUGSTEN_COMMAND_REGISTER));
    before = partition;
    print_status(&partition, "run", run_dump(&partition));
    print_dump(&partition);
    expect_copied(&partition, &before);
    print_status(&partition, "unregister", configure_kernel_dump(&partition, DRAUGSTEN_COMMAND_UNREGISTER));
    print_status(&partition, "run again", run_dump(&partition));
    print_status(&partition, "complete", configure_kernel_dump(&partition, DRAUGSTEN_COMMAND_COMPLETE));
    expect(fflush(stdout) == 0, "the output is written");
    return 0;
}
