/*
 * Measures the stack that each function of the library takes, and holds it to what the header says. A function runs on a
 * painted stack; the deepest byte that it wrote is looked for, and so is that of a function in its place that only returns.
 * Exits with 1 where a function takes more than the header says, or does not do its work.
 */
#define _GNU_SOURCE
#include "draugsten.h"

#include <stdio.h>
#include <string.h>
#include <ucontext.h>

enum {
    STACK = 65536,
    CALLS = 5,
    NODE_AREA = 0x1000,
    INDEX_AREA = 0x2000,
    INDEX_AREA_SIZE = 12 + DRAUGSTEN_INDEX_AREA_SUFFICIENT, /* of the short code and the long one */
    PROPERTY_AREA = 0x3000,
    EDITION = 8,
    NODE = 9,
    LONG_VALUE = 5000,                                      /* which is divided */
    NODES_SIZE = 34,                                        /* of the journal's records of nodes */
    LONG_RECORD = NODES_SIZE + 12 + 11,                     /* where that of the long value begins */
    SHORT_AREA_SIZE = 16,                                   /* of the short code alone */
    TRACE_SIZE = 1024,
    TABLE_SIZE = 2048,
    SESSIONS = 3,                                           /* of a table */
    DUMP_SECTIONS = 4,
    DUMP_SIZE = 40 + 40 * DUMP_SECTIONS,
    DUMP_LENGTH = 5000,                                     /* bytes that a section copies */
    INDEX = 9,                                              /* of both sensors */
    FIXED_ENTRY = 200                                       /* of the fixed list, behind so many empty ones */
};

static uint8_t stack[STACK] __attribute__((aligned(16)));
static uint8_t memory[0x4000], args[40], dumped[0x4000];
static uint8_t held[DRAUGSTEN_TRACE_RECORD_LIMIT], trace_args[DRAUGSTEN_TRACE_BODY_LIMIT], trace[TRACE_SIZE];
static uint8_t store[DRAUGSTEN_STORE_SIZE], stored[2 * DRAUGSTEN_STORE_SIZE];
static size_t trace_length, whole_length;                  /* the whole records alone */
static uint8_t table_text[TABLE_SIZE], digests[SESSIONS * DRAUGSTEN_DIGEST_SIZE];
static uint32_t words[64];
static uint64_t numbers[64];
static int faults;

/* These take no stack but their return address. In firmware they may take more. */

#ifdef __x86_64__

enum { RETURN_ADDRESS = 8 };

void *memcpy(void *to, const void *from, size_t length)
{
    void *start = to;
    __asm__ volatile("rep movsb" : "+D"(to), "+S"(from), "+c"(length) : : "memory");
    return start;
}

void *memmove(void *to, const void *from, size_t length)
{
    uint8_t *last = (uint8_t *)to + length - 1;
    const uint8_t *last_from = (const uint8_t *)from + length - 1;
    if ((uintptr_t)to <= (uintptr_t)from)
        return memcpy(to, from, length);
    __asm__ volatile("std\n\trep movsb\n\tcld" : "+D"(last), "+S"(last_from), "+c"(length) : : "memory");
    return to;
}

void *memset(void *to, int byte, size_t length)
{
    void *start = to;
    __asm__ volatile("rep stosb" : "+D"(to), "+c"(length) : "a"(byte) : "memory");
    return start;
}

__attribute__((naked, used)) static void only_return(void)
{
    __asm__("mov %rdi, %rax\n\tret");
}

#else

/* On Power the return address is in a register, and is saved in the caller's frame. */
enum { RETURN_ADDRESS = 0 };

/* The compiler must not make a call of the loop. */
#define KEEP_LOOP() __asm__ volatile("" : : : "memory")

void *memcpy(void *to, const void *from, size_t length)
{
    for (size_t i = 0; i < length; i++) {
        ((uint8_t *)to)[i] = ((const uint8_t *)from)[i];
        KEEP_LOOP();
    }
    return to;
}

void *memmove(void *to, const void *from, size_t length)
{
    if ((uintptr_t)to <= (uintptr_t)from)
        return memcpy(to, from, length);
    for (size_t i = length; i-- > 0;) {
        ((uint8_t *)to)[i] = ((const uint8_t *)from)[i];
        KEEP_LOOP();
    }
    return to;
}

void *memset(void *to, int byte, size_t length)
{
    for (size_t i = 0; i < length; i++) {
        ((uint8_t *)to)[i] = (uint8_t)byte;
        KEEP_LOOP();
    }
    return to;
}

__attribute__((noinline, used)) static void only_return(void)
{
    __asm__ volatile("");
}

#endif

/* What is called in the place of each function: itself, or the one that only returns. */
static __typeof__(draugsten_no_registration) *no_registration;
static __typeof__(draugsten_no_reading) *no_reading;
static __typeof__(draugsten_edit) *edit;
static __typeof__(draugsten_call) *call;
static __typeof__(draugsten_run_dump) *run_dump;
static __typeof__(draugsten_replay_start) *replay_start;
static __typeof__(draugsten_replay_feed) *replay_feed;
static __typeof__(draugsten_replay_end) *replay_end;
static __typeof__(draugsten_month_start) *month_start;
static __typeof__(draugsten_month_feed) *month_feed;
static __typeof__(draugsten_month_add) *month_add;
static __typeof__(draugsten_month_merge) *month_merge;
static __typeof__(draugsten_month_share) *month_share;
static __typeof__(draugsten_table_write) *table_write;
static __typeof__(draugsten_table_read) *table_read;
static __typeof__(draugsten_tallies_cleared) *cleared;
static __typeof__(draugsten_tallies_append) *append;
static __typeof__(draugsten_tallies_join) *join;
static __typeof__(draugsten_tallies_recount) *recount;
static __typeof__(draugsten_forecast) *forecast;
static __typeof__(draugsten_intake_start) *intake_start;
static __typeof__(draugsten_intake_burst) *intake_burst;
static __typeof__(draugsten_intake_end) *intake_end;
static __typeof__(draugsten_read_nodes) *read_nodes;
static __typeof__(draugsten_read_indices) *read_indices;
static __typeof__(draugsten_read_properties) *read_properties;
static __typeof__(draugsten_lookup) *lookup;
static __typeof__(draugsten_view_start) *view_start;
static __typeof__(draugsten_view_step) *view_step;

static void choose(int library)
{
    void *nothing = (void *)only_return;
    no_registration = library ? draugsten_no_registration : (__typeof__(no_registration))nothing;
    no_reading = library ? draugsten_no_reading : (__typeof__(no_reading))nothing;
    edit = library ? draugsten_edit : (__typeof__(edit))nothing;
    call = library ? draugsten_call : (__typeof__(call))nothing;
    run_dump = library ? draugsten_run_dump : (__typeof__(run_dump))nothing;
    replay_start = library ? draugsten_replay_start : (__typeof__(replay_start))nothing;
    replay_feed = library ? draugsten_replay_feed : (__typeof__(replay_feed))nothing;
    replay_end = library ? draugsten_replay_end : (__typeof__(replay_end))nothing;
    month_start = library ? draugsten_month_start : (__typeof__(month_start))nothing;
    month_feed = library ? draugsten_month_feed : (__typeof__(month_feed))nothing;
    month_add = library ? draugsten_month_add : (__typeof__(month_add))nothing;
    month_merge = library ? draugsten_month_merge : (__typeof__(month_merge))nothing;
    month_share = library ? draugsten_month_share : (__typeof__(month_share))nothing;
    table_write = library ? draugsten_table_write : (__typeof__(table_write))nothing;
    table_read = library ? draugsten_table_read : (__typeof__(table_read))nothing;
    cleared = library ? draugsten_tallies_cleared : (__typeof__(cleared))nothing;
    append = library ? draugsten_tallies_append : (__typeof__(append))nothing;
    join = library ? draugsten_tallies_join : (__typeof__(join))nothing;
    recount = library ? draugsten_tallies_recount : (__typeof__(recount))nothing;
    forecast = library ? draugsten_forecast : (__typeof__(forecast))nothing;
    intake_start = library ? draugsten_intake_start : (__typeof__(intake_start))nothing;
    intake_burst = library ? draugsten_intake_burst : (__typeof__(intake_burst))nothing;
    intake_end = library ? draugsten_intake_end : (__typeof__(intake_end))nothing;
    read_nodes = library ? draugsten_read_nodes : (__typeof__(read_nodes))nothing;
    read_indices = library ? draugsten_read_indices : (__typeof__(read_indices))nothing;
    read_properties = library ? draugsten_read_properties : (__typeof__(read_properties))nothing;
    lookup = library ? draugsten_lookup : (__typeof__(lookup))nothing;
    view_start = library ? draugsten_view_start : (__typeof__(view_start))nothing;
    view_step = library ? draugsten_view_step : (__typeof__(view_step))nothing;
}

/* A delete, an update and an addition; a short value, a deleted property and, as `prepare` makes it, a long value; sensors
 * with a short code and, as `prepare` makes it, the longest. */
static uint8_t journal[LONG_RECORD + 10 + LONG_VALUE] = {
    8,  0, 1, 0, 11,   0, 1, 0, 0,   0, 8,  0, 2, 0, 11,   0, 2, 0, 0,   0, 12, 0, 3, 0, 11, 0, 3, 0, 0, 0, 4, 0, 0, 0,
    10, 0, 5, 0, NODE, 0, 0, 0, 'a', 0, 'v', 'w', 9, 0, 6, 0, NODE, 0, 0, 0, 'b', 'c', 0};
static uint8_t inventory[17 + 14 + DRAUGSTEN_CODE_LIMIT] = {15, 0, 16, 0, 1, 0, 7, 0, 0, 0, 9, 0, 0, 0, 'U', '7', '8'};

/* The words of an argument buffer for a call of each kind that is answered; of get-indices one goes on with the reading,
 * and one begins afresh. */
static const uint32_t calls[CALLS][10] = {
    {DRAUGSTEN_TOKEN_UPDATE_NODES, 2, 1, NODE_AREA, 1},
    {DRAUGSTEN_TOKEN_GET_INDICES, 5, 2, 1, 7, INDEX_AREA, INDEX_AREA_SIZE, 2},
    {DRAUGSTEN_TOKEN_GET_INDICES, 5, 2, 1, 7, INDEX_AREA, INDEX_AREA_SIZE, 1},
    {DRAUGSTEN_TOKEN_UPDATE_PROPERTIES, 2, 1, PROPERTY_AREA, 1},
    {DRAUGSTEN_TOKEN_CONFIGURE_KERNEL_DUMP, 3, 1, DRAUGSTEN_COMMAND_REGISTER, 0, 80},
};

/* The words of the calls of a trace, all answered: the reading begins in an area that holds one code, and goes on. */
static const uint32_t trace_calls[CALLS][10] = {
    {DRAUGSTEN_TOKEN_UPDATE_NODES, 2, 1, NODE_AREA, 1},
    {DRAUGSTEN_TOKEN_GET_INDICES, 5, 2, 1, 7, INDEX_AREA, SHORT_AREA_SIZE, 1},
    {DRAUGSTEN_TOKEN_GET_INDICES, 5, 2, 1, 7, INDEX_AREA, INDEX_AREA_SIZE, 2},
    {DRAUGSTEN_TOKEN_UPDATE_PROPERTIES, 2, 1, PROPERTY_AREA, 1},
    {DRAUGSTEN_TOKEN_CONFIGURE_KERNEL_DUMP, 3, 1, DRAUGSTEN_COMMAND_REGISTER, 0, 80},
};

/* Type, source and destination of a dump's sections: from the platform, apart, and overlapping in each direction. */
static const uint16_t dump_sections[DUMP_SECTIONS][3] = {
    {1, 0, 0}, {0x11, 0, 6000}, {0x12, 6000, 6001}, {0x100, 6001, 5901}};

static const struct draugsten_reading in_progress = {1, 7, 2, EDITION};
static struct draugsten_registration registration;
static struct draugsten_reading reading;
static struct draugsten_edited edited;
static struct draugsten_answer answer;
static int answered;
static struct draugsten_registration dump;
static struct draugsten_run ran;
static struct draugsten_replay replay;
static struct draugsten_fed fed;
static struct draugsten_ended ended;
static struct draugsten_counting counting;
static struct draugsten_counted counted;
static const struct draugsten_totals totals;
static struct draugsten_added added;
static struct draugsten_merged merged;
static struct draugsten_share share;
static struct draugsten_table table;
static struct draugsten_table_written written;
static struct draugsten_table_found found;
static const struct draugsten_tallied empty;
static struct draugsten_tallied tallied;
static struct draugsten_kept appended, joined;
static struct draugsten_recount counted_anew;
static struct draugsten_forecast_answer forecasted;
static struct draugsten_intake arriving;
static struct draugsten_burst burst;
static struct draugsten_intake_ended at_end;
static struct draugsten_node_reading node_reading;
static struct draugsten_index_reading index_reading;
static struct draugsten_property_reading property_reading;
static const uint8_t fixed[FIXED_ENTRY + 80] = {[FIXED_ENTRY] = 'U'};
static struct draugsten_location listed, in_fixed;
static struct draugsten_cursor cursor;
static struct draugsten_step entry, last;

/* ---- what is measured */

static void starting_registration(void)
{
    registration = no_registration();
}

static void starting_reading(void)
{
    reading = no_reading();
}

static void editing(void)
{
    edited = edit(EDITION);
}

/* Whether the last call is answered, by its number and its status word. */
static int is_answered(const uint8_t *status)
{
    return answer.number == DRAUGSTEN_NUMBER_STATUS && status[0] == 0 && status[3] <= DRAUGSTEN_STATUS_CALL_AGAIN;
}

static void put_args(const uint32_t *from)
{
    for (int byte = 0; byte < 40; byte++)
        args[byte] = (uint8_t)(from[byte / 4] >> (24 - 8 * (byte % 4)));
}

static void calling(void)
{
    memset(memory + PROPERTY_AREA + 4, 0, 12); /* the session's start */
    answered = 0;
    for (int i = 0; i < CALLS; i++) {
        put_args(calls[i]);
        answer = call(args, sizeof args, memory, sizeof memory, journal, sizeof journal, inventory, sizeof inventory,
                      EDITION, registration, in_progress);
        answered += is_answered(args + 12 + 4 * calls[i][1]);
    }
}

static void running(void)
{
    ran = run_dump(dump, dumped, sizeof dumped, journal, sizeof journal);
}

static void starting_replay(void)
{
    replay = replay_start(EDITION);
}

static void feeding(void)
{
    fed = replay_feed(held, sizeof held, trace_args, sizeof trace_args, memory, sizeof memory, journal, sizeof journal,
                      inventory, sizeof inventory, replay, trace, trace_length);
}

/* The same byte by byte, so that each record is held before it is whole. */
static void feeding_bytes(void)
{
    fed.replay = replay;
    for (size_t i = 0; i < trace_length; i++)
        fed = replay_feed(held, sizeof held, trace_args, sizeof trace_args, memory, sizeof memory, journal, sizeof journal,
                          inventory, sizeof inventory, fed.replay, trace + i, 1);
}

static void ending(void)
{
    ended = replay_end(fed.replay);
}

static void starting_month(void)
{
    counting = month_start(EDITION);
}

static void counting_feed(void)
{
    counted = month_feed(held, sizeof held, trace_args, sizeof trace_args, memory, sizeof memory, journal,
                         sizeof journal, inventory, sizeof inventory, counting, trace, trace_length);
}

/* The whole records of the trace, all of whose calls agree. */
static void counting_whole(void)
{
    counted = month_feed(held, sizeof held, trace_args, sizeof trace_args, memory, sizeof memory, journal,
                         sizeof journal, inventory, sizeof inventory, counting, trace, whole_length);
}

static void counting_bytes(void)
{
    counted.counting = counting;
    for (size_t i = 0; i < whole_length; i++)
        counted = month_feed(held, sizeof held, trace_args, sizeof trace_args, memory, sizeof memory, journal,
                             sizeof journal, inventory, sizeof inventory, counted.counting, trace + i, 1);
}

static void adding(void)
{
    added = month_add(totals, counted.counting);
}

static void merging(void)
{
    merged = month_merge(added.totals, added.totals);
}

static void sharing(void)
{
    share = month_share(added.totals);
}

/* Figures of few digits and of many, and the rows of sessions. */
static void writing_table(void)
{
    written = table_write(table, digests, sizeof digests, table_text, sizeof table_text);
}

static void reading_table(void)
{
    found = table_read(table_text, written.length, digests, sizeof digests);
}

static void clearing(void)
{
    tallied = cleared();
}

/* The addition, and the record of the long value, which is the last of the journal. */
static void appending(void)
{
    appended = append(dumped, sizeof dumped, empty, journal + 20, NODES_SIZE - 20);
    appended = append(dumped, sizeof dumped, appended.journal, journal + LONG_RECORD, sizeof journal - LONG_RECORD);
}

static void joining(void)
{
    joined = join(dumped, sizeof dumped, appended.journal, journal, sizeof journal);
}

static void recounting(void)
{
    counted_anew = recount(journal, sizeof journal);
}

static void forecasting(void)
{
    forecasted = forecast(joined.journal.tallies, 1, 3);
}

static void starting_intake(void)
{
    arriving = intake_start(empty);
}

/* The next bytes of the stream, from the journal. */
static void arrive(size_t from, size_t to)
{
    burst = intake_burst(stored, sizeof stored, store, sizeof store, burst.intake, journal + from, to - from);
}

/* The journal, broken inside its first four bytes, its first record, the record of the long value, and that value; then a
 * record whose four bytes are refused. */
static void bursting(void)
{
    static const size_t cuts[] = {0, 3, 7, 31, LONG_RECORD + 5, LONG_RECORD + 2000, sizeof journal};
    burst.intake = arriving;
    for (size_t i = 1; i < sizeof cuts / sizeof cuts[0]; i++)
        arrive(cuts[i - 1], cuts[i]);
    arrive(0, sizeof journal);
    arrive(NODES_SIZE + 4, NODES_SIZE + 8);
}

static void ending_intake(void)
{
    at_end = intake_end(stored, sizeof stored, store, sizeof store, burst.intake);
}

static void reading_nodes(void)
{
    node_reading = read_nodes(memory + NODE_AREA, 4096, 1, words, 64);
}

static void reading_indices(void)
{
    index_reading = read_indices(memory + INDEX_AREA, INDEX_AREA_SIZE, numbers, 64);
}

static void reading_properties(void)
{
    property_reading = read_properties(memory + PROPERTY_AREA, 4096, words, 64);
}

static void looking_up(void)
{
    listed = lookup(memory + INDEX_AREA, INDEX_AREA_SIZE, fixed, sizeof fixed, INDEX);
    in_fixed = lookup(memory + INDEX_AREA, INDEX_AREA_SIZE, fixed, sizeof fixed, FIXED_ENTRY);
}

static void starting_view(void)
{
    cursor = view_start(memory + INDEX_AREA, INDEX_AREA_SIZE);
}

/* Both entries, and the end. */
static void stepping(void)
{
    entry = view_step(memory + INDEX_AREA, INDEX_AREA_SIZE, cursor);
    entry = view_step(memory + INDEX_AREA, INDEX_AREA_SIZE, entry.cursor);
    last = view_step(memory + INDEX_AREA, INDEX_AREA_SIZE, entry.cursor);
}

/* ---- measuring */

/* Runs the work on the painted stack, and looks there for the deepest byte that was written, before anything else can write. */
static void (*measured)(void);
static uint8_t paint;
static size_t untouched;

static void run_measured(void)
{
    measured();
    for (untouched = 0; untouched < STACK && stack[untouched] == paint; untouched++)
        ;
}

/* The bytes from the top of a painted stack to the deepest one that was written. */
static size_t depth(void (*work)(void), int library)
{
    ucontext_t here, there;
    choose(library);
    measured = work;
    for (size_t i = 0; i < STACK; i++)
        stack[i] = paint;
    getcontext(&there);
    there.uc_stack.ss_sp = stack;
    there.uc_stack.ss_size = STACK;
    there.uc_link = &here;
    makecontext(&there, run_measured, 0);
    swapcontext(&here, &there);
    return STACK - untouched;
}

static void measure(const char *name, void (*work)(void), size_t said)
{
    size_t taken = 0;
    for (int i = 0; i < 2; i++) {
        size_t nothing, all;
        paint = i ? 0xa5 : 0x5a;
        nothing = depth(work, 0);
        all = depth(work, 1);
        if (all - nothing + RETURN_ADDRESS > taken)
            taken = all - nothing + RETURN_ADDRESS;
    }
    printf("%s: %zu bytes of stack, of %zu\n", name, taken, said);
    faults += taken > said;
}

/* A dump structure at 0, with one section from 40 on, a node area that is zero, a property area that names the node, the
 * long value, the second sensor, and a table with the largest numbers. */
static void prepare(void)
{
    memset(memory, 0, sizeof memory);
    memory[3] = memory[5] = memory[43] = memory[45] = 1;
    memory[11] = 40;
    memory[PROPERTY_AREA + 3] = NODE;
    table.totals.available = table.agreed = UINT64_MAX;
    memcpy(journal + LONG_RECORD, journal + NODES_SIZE, 10);
    journal[LONG_RECORD] = (8 + LONG_VALUE) % 256;
    journal[LONG_RECORD + 1] = (8 + LONG_VALUE) / 256;
    memcpy(inventory + 17, inventory, 14);
    inventory[17] = (12 + DRAUGSTEN_CODE_LIMIT) % 256;
    inventory[18] = (12 + DRAUGSTEN_CODE_LIMIT) / 256;
    memset(inventory + 17 + 14, 'U', DRAUGSTEN_CODE_LIMIT);
}

static void put_two(uint8_t *to, unsigned number)
{
    to[0] = (uint8_t)(number / 256);
    to[1] = (uint8_t)(number % 256);
}

/* The registration of a dump without a disk. */
static void register_dump(void)
{
    dump = draugsten_no_registration();
    dump.phase = DRAUGSTEN_PHASE_REGISTERED;
    dump.length = DUMP_SIZE;
    put_two(dump.copy + 2, 1);
    put_two(dump.copy + 4, DUMP_SECTIONS);
    put_two(dump.copy + 10, 40);
    for (int i = 0; i < DUMP_SECTIONS; i++) {
        uint8_t *section = dump.copy + 40 + 40 * i;
        put_two(section + 2, 1);
        put_two(section + 4, dump_sections[i][0]);
        put_two(section + 14, dump_sections[i][1]);
        put_two(section + 22, DUMP_LENGTH);
        put_two(section + 38, dump_sections[i][2]);
    }
}

/* Whether each section of the dump that ran copied all of its bytes. */
static int is_dumped(void)
{
    int whole = 0;
    for (int i = 0; i < DUMP_SECTIONS; i++) {
        const uint8_t *actual = ran.registration.copy + 40 + 40 * i + 24;
        whole += actual[6] == DUMP_LENGTH / 256 && actual[7] == DUMP_LENGTH % 256;
    }
    return ran.status == DRAUGSTEN_STATUS_DONE && whole == DUMP_SECTIONS;
}

static void put_record(uint8_t kind, const uint8_t *body, size_t size)
{
    uint8_t head[4] = {(uint8_t)((2 + size) % 256), (uint8_t)((2 + size) / 256), kind, 0};
    memcpy(trace + trace_length, head, 4);
    memcpy(trace + trace_length + 4, body, size);
    trace_length += 4 + size;
}

/* The trace of the calls, as the library answers them, with the start of the property session in front. The last record is
 * not finished. */
static void make_trace(void)
{
    static const uint8_t start[20] = {PROPERTY_AREA % 256, PROPERTY_AREA / 256, 0, 0, 0, 0, 0, NODE};
    struct draugsten_registration next = draugsten_no_registration();
    struct draugsten_reading at = draugsten_no_reading();
    put_record(DRAUGSTEN_TRACE_MEMORY, start, sizeof start);
    memcpy(memory + PROPERTY_AREA, start + 4, sizeof start - 4);
    for (int i = 0; i < CALLS; i++) {
        put_args(trace_calls[i]);
        put_record(DRAUGSTEN_TRACE_BEFORE, args, sizeof args);
        answer = draugsten_call(args, sizeof args, memory, sizeof memory, journal, sizeof journal, inventory,
                                sizeof inventory, EDITION, next, at);
        put_record(DRAUGSTEN_TRACE_AFTER, args, sizeof args);
        faults += !is_answered(args + 12 + 4 * trace_calls[i][1]);
        next = answer.registration;
        at = answer.reading;
    }
    whole_length = trace_length;
    put_record(DRAUGSTEN_TRACE_MEMORY, start, sizeof start);
    trace_length--;
}

static void check(int done, const char *what)
{
    if (!done) {
        printf("stack: %s did not do its work\n", what);
        faults++;
    }
}

/* What was measured came to what it has to come to. */
static void check_work(void)
{
    check(is_dumped(), "a run");
    check(fed.replay.report.number == CALLS && fed.replay.registration.length == 80 && fed.replay.held == 23 &&
              ended.report.verdict == DRAUGSTEN_VERDICT_MALFORMED && ended.report.number == 2 + 2 * CALLS,
          "a replay");
    check(counted.number == 0 && added.number == 0 && added.report.number == CALLS && merged.number == 0 &&
              merged.totals.token_calls[1] == 4 && merged.totals.operations == 6 && share.part == 7 &&
              share.whole == 1019,
          "a month");
    check(written.number == 0 && written.length < TABLE_SIZE && found.number == 0 && found.sessions == SESSIONS &&
              found.table.agreed == UINT64_MAX,
          "a table");
    check(tallied.used == 0 && appended.number == 0 && appended.journal.used == 24 + LONG_VALUE && joined.number == 0 &&
              joined.journal.used == 24 + LONG_VALUE + sizeof journal && joined.journal.tallies.first.additions == 2 &&
              counted_anew.number == 0 && counted_anew.tallies.first.deletes == 1 && forecasted.status == 0,
          "the tallies");
    check(burst.number == DRAUGSTEN_INTAKE_MALFORMED && burst.in_record == 13 &&
              burst.intake.journal.used == 2 * sizeof journal && burst.intake.journal.tallies.first.additions == 2 &&
              at_end.number == DRAUGSTEN_INTAKE_MALFORMED && at_end.in_record == 13,
          "an intake");
    check(reading.number == 1 && edited.edition == EDITION + 1 && answered == CALLS &&
              answer.registration.length == 80 && node_reading.entries == 3 && index_reading.entries == 2 &&
              property_reading.entries == 3,
          "a call or a reading");
    check(listed.buffer == DRAUGSTEN_BUFFER_AREA && listed.length == 3 && in_fixed.buffer == DRAUGSTEN_BUFFER_FIXED &&
              in_fixed.offset == FIXED_ENTRY && in_fixed.length == 1 && cursor.left == 2 && entry.index == INDEX &&
              entry.length == DRAUGSTEN_CODE_LIMIT && last.number == DRAUGSTEN_VIEW_END,
          "a lookup or a view");
}

int main(void)
{
    prepare();
    register_dump();
    make_trace();
    measure("draugsten_no_registration", starting_registration, DRAUGSTEN_STACK_NO_REGISTRATION);
    measure("draugsten_no_reading", starting_reading, DRAUGSTEN_STACK_NO_READING);
    measure("draugsten_edit", editing, DRAUGSTEN_STACK_EDIT);
    measure("draugsten_run_dump", running, DRAUGSTEN_STACK_RUN_DUMP);
    measure("draugsten_replay_start", starting_replay, DRAUGSTEN_STACK_REPLAY_START);
    measure("draugsten_replay_feed", feeding, DRAUGSTEN_STACK_REPLAY_FEED);
    measure("draugsten_replay_feed, byte by byte", feeding_bytes, DRAUGSTEN_STACK_REPLAY_FEED);
    measure("draugsten_replay_end", ending, DRAUGSTEN_STACK_REPLAY_END);
    measure("draugsten_month_start", starting_month, DRAUGSTEN_STACK_MONTH_START);
    measure("draugsten_month_feed", counting_feed, DRAUGSTEN_STACK_MONTH_FEED);
    measure("draugsten_month_feed, to a whole record", counting_whole, DRAUGSTEN_STACK_MONTH_FEED);
    measure("draugsten_month_feed, byte by byte", counting_bytes, DRAUGSTEN_STACK_MONTH_FEED);
    measure("draugsten_month_add", adding, DRAUGSTEN_STACK_MONTH_ADD);
    measure("draugsten_month_merge", merging, DRAUGSTEN_STACK_MONTH_MERGE);
    measure("draugsten_month_share", sharing, DRAUGSTEN_STACK_MONTH_SHARE);
    measure("draugsten_table_write", writing_table, DRAUGSTEN_STACK_TABLE_WRITE);
    measure("draugsten_table_read", reading_table, DRAUGSTEN_STACK_TABLE_READ);
    measure("draugsten_tallies_cleared", clearing, DRAUGSTEN_STACK_TALLIES_CLEARED);
    measure("draugsten_tallies_append", appending, DRAUGSTEN_STACK_TALLIES_APPEND);
    measure("draugsten_tallies_join", joining, DRAUGSTEN_STACK_TALLIES_JOIN);
    measure("draugsten_tallies_recount", recounting, DRAUGSTEN_STACK_TALLIES_RECOUNT);
    measure("draugsten_forecast", forecasting, DRAUGSTEN_STACK_FORECAST);
    measure("draugsten_intake_start", starting_intake, DRAUGSTEN_STACK_INTAKE_START);
    measure("draugsten_intake_burst", bursting, DRAUGSTEN_STACK_INTAKE_BURST);
    measure("draugsten_intake_end", ending_intake, DRAUGSTEN_STACK_INTAKE_END);
    measure("draugsten_call", calling, DRAUGSTEN_STACK_CALL);
    measure("draugsten_read_nodes", reading_nodes, DRAUGSTEN_STACK_READ_NODES);
    measure("draugsten_read_indices", reading_indices, DRAUGSTEN_STACK_READ_INDICES);
    measure("draugsten_read_properties", reading_properties, DRAUGSTEN_STACK_READ_PROPERTIES);
    measure("draugsten_lookup", looking_up, DRAUGSTEN_STACK_LOOKUP);
    measure("draugsten_view_start", starting_view, DRAUGSTEN_STACK_VIEW_START);
    measure("draugsten_view_step", stepping, DRAUGSTEN_STACK_VIEW_STEP);
    check_work();
    return faults ? 1 : 0;
}
