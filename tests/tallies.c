/*
 * Makes appends and joins that are refused, and some beside them that are done: each has to give its number, a refused one
 * the use and the tallies as they were, with no byte of the buffer changed, and one that is done no other byte than those
 * that it puts behind the use. Holds the structures of the tallies to their layout. Exits with 1 where something is not so.
 */
#include "draugsten.h"

#include <stddef.h>
#include <stdio.h>
#include <string.h>

enum {
    SIZE = 32,              /* bytes of the buffer */
    RECORD = 10,            /* bytes of the record */
    LIMIT = DRAUGSTEN_RECORDS_LIMIT,
    PAINT = 0xa5
};

/* A buffer of so many bytes, the use, a count, and so many bytes of two records and one byte more. */
struct try {
    const char *what;
    size_t size;
    size_t used;
    uint64_t count;
    size_t given;
    uint32_t appended;
    uint32_t joined;
};

#define DONE DRAUGSTEN_TALLIES_DONE
#define MALFORMED DRAUGSTEN_TALLIES_MALFORMED
#define NO_ROOM DRAUGSTEN_TALLIES_NO_ROOM
#define NO_JOURNAL DRAUGSTEN_TALLIES_NO_JOURNAL

static const struct try tries[] = {
    {"a record", SIZE, 0, 0, RECORD, DONE, DONE},
    {"two records", SIZE, 0, 0, 2 * RECORD, MALFORMED, DONE},
    {"no byte", SIZE, 0, 0, 0, MALFORMED, DONE},
    {"a record but for its last byte", SIZE, 0, 0, RECORD - 1, MALFORMED, MALFORMED},
    {"a record and a byte", SIZE, 0, 0, RECORD + 1, MALFORMED, MALFORMED},
    {"the last byte of room", SIZE, SIZE - RECORD, 2, RECORD, DONE, DONE},
    {"one byte too few", SIZE, SIZE - RECORD + 1, 2, RECORD, NO_ROOM, NO_ROOM},
    {"two records, room for one", SIZE, SIZE - RECORD, 2, 2 * RECORD, MALFORMED, NO_ROOM},
    {"malformed, and no room", SIZE, SIZE, 2, RECORD + 1, MALFORMED, MALFORMED},
    {"no byte in a full buffer", SIZE, SIZE, 2, 0, MALFORMED, DONE},
    {"a use beyond the buffer", SIZE, SIZE + 1, 2, RECORD, NO_JOURNAL, NO_JOURNAL},
    {"the largest use", SIZE, SIZE_MAX, 2, RECORD, NO_JOURNAL, NO_JOURNAL},
    {"a use beyond the buffer, and malformed", SIZE, SIZE + 1, 2, RECORD + 1, NO_JOURNAL, NO_JOURNAL},
    {"a count that is the use", SIZE, 3, 3, RECORD, DONE, DONE},
    {"a count above the use", SIZE, 3, 4, RECORD, NO_JOURNAL, NO_JOURNAL},
    {"the largest count", SIZE, 3, UINT64_MAX, RECORD, NO_JOURNAL, NO_JOURNAL},
    {"a buffer of no bytes", 0, 0, 0, RECORD, NO_ROOM, NO_ROOM},
    {"to 1,048,576 bytes", LIMIT + SIZE, LIMIT - RECORD, 9, RECORD, DONE, DONE},
    {"to 1,048,577 bytes", LIMIT + SIZE, LIMIT - RECORD + 1, 9, RECORD, NO_ROOM, NO_ROOM},
    {"no byte, 1,048,576 in use", LIMIT + SIZE, LIMIT, 9, 0, MALFORMED, DONE},
    {"no byte, 1,048,577 in use", LIMIT + SIZE, LIMIT + 1, 9, 0, MALFORMED, NO_ROOM},
};

/* Two deletes of node type 11, which negative scopes and scope 1 report, and a byte more. */
static const uint8_t records[2 * RECORD + 1] = {8, 0, 1, 0, 11, 0, 1, 0, 0, 0, 8, 0, 1, 0, 11, 0, 2, 0, 0, 0, 8};

static uint8_t buffer[LIMIT + SIZE], before[LIMIT + SIZE];
static int faults;

static void expect(int holds, const char *name, const char *what)
{
    if (!holds) {
        fprintf(stderr, "tallies: %s: not so: %s\n", name, what);
        faults++;
    }
}

static int same(const struct draugsten_tallies *a, const struct draugsten_tallies *b)
{
    return memcmp(a, b, sizeof *a) == 0;
}

/* The count stands in the last field that is looked at. */
static struct draugsten_tallied journal_of(const struct try *try)
{
    struct draugsten_tallied journal = draugsten_tallies_cleared();

    journal.used = try->used;
    journal.tallies.third.additions = try->count;
    return journal;
}

/* What an operation has to leave where it is done: the bytes behind the use, and their deletes in the tallies. */
static void expect_done(const struct try *try, const struct draugsten_kept *kept)
{
    struct draugsten_tallied journal = journal_of(try);

    journal.used += try->given;
    journal.tallies.negative.deletes = journal.tallies.first.deletes = try->given / RECORD;
    memcpy(before + try->used, records, try->given);
    expect(kept->journal.used == journal.used, try->what, "the use is that of both");
    expect(same(&kept->journal.tallies, &journal.tallies), try->what, "the tallies are those of both");
}

static void expect_refused(const struct try *try, const struct draugsten_kept *kept)
{
    struct draugsten_tallied journal = journal_of(try);

    expect(kept->journal.used == journal.used, try->what, "the use is as it was");
    expect(same(&kept->journal.tallies, &journal.tallies), try->what, "the tallies are as they were");
}

static void run(const struct try *try, __typeof__(draugsten_tallies_append) *operation, uint32_t number)
{
    struct draugsten_kept kept;

    memset(buffer, PAINT, sizeof buffer);
    memset(before, PAINT, sizeof before);
    kept = operation(buffer, try->size, journal_of(try), records, try->given);
    expect(kept.number == number, try->what, "the operation has its number");
    if (number == DONE)
        expect_done(try, &kept);
    else
        expect_refused(try, &kept);
    expect(memcmp(buffer, before, sizeof buffer) == 0, try->what, "no other byte of the buffer changes");
}

static void recount(void)
{
    static const struct draugsten_tallies none;
    struct draugsten_recount counted = draugsten_tallies_recount(records, 2 * RECORD);

    expect(counted.number == DONE && counted.tallies.first.deletes == 2 && counted.tallies.third.deletes == 0,
           "a recount of two records", "they are counted");
    counted = draugsten_tallies_recount(records, sizeof records);
    expect(counted.number == MALFORMED && same(&counted.tallies, &none), "a recount of two records and a byte",
           "it is malformed, with zero tallies");
    counted = draugsten_tallies_recount(records, 0);
    expect(counted.number == DONE && same(&counted.tallies, &none), "a recount of nothing", "its tallies are zero");
}

/* The sizes and places of fields, which the tests of the Rust crate hold their own to. */
static void check_layout(void)
{
    const char *name = "the layout";

    expect(sizeof(struct draugsten_tally) == 24 && sizeof(struct draugsten_tallies) == 96, name, "tallies");
    expect(offsetof(struct draugsten_tally, updates) == 8 && offsetof(struct draugsten_tally, additions) == 16, name,
           "opcodes");
    expect(offsetof(struct draugsten_tallies, first) == 24 && offsetof(struct draugsten_tallies, second) == 48 &&
               offsetof(struct draugsten_tallies, third) == 72,
           name, "scopes");
    expect(sizeof(struct draugsten_tallied) == 104 && offsetof(struct draugsten_tallied, tallies) == 8, name, "tallied");
    expect(sizeof(struct draugsten_kept) == 112 && offsetof(struct draugsten_kept, journal) == 8, name, "kept");
    expect(sizeof(struct draugsten_recount) == 104 && offsetof(struct draugsten_recount, tallies) == 8, name, "recount");
    expect(sizeof(struct draugsten_forecast_answer) == 16 && offsetof(struct draugsten_forecast_answer, next) == 8, name,
           "forecast");
}

int main(void)
{
    size_t i;

    check_layout();
    for (i = 0; i < sizeof tries / sizeof tries[0]; i++) {
        run(&tries[i], draugsten_tallies_append, tries[i].appended);
        run(&tries[i], draugsten_tallies_join, tries[i].joined);
    }
    recount();
    return faults ? 1 : 0;
}
