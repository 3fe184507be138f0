/*
 * Gives bursts and ends to an intake: streams that break inside of each record, ones that are refused, and states and stores
 * that are none. Each has to give its number and its record's; what is refused from the beginning changes no byte of a
 * buffer and nothing of the intake, and no other byte of the journal's buffer changes than those of the records that are
 * stored. Holds the structures of intakes to their layout. Exits with 1 where something is not so.
 */
#include "draugsten.h"

#include <stddef.h>
#include <stdio.h>
#include <string.h>

enum {
    SIZE = 40,              /* bytes of the journal's buffer */
    BEHIND = 16,            /* bytes behind it, which no burst may write */
    STORE = DRAUGSTEN_STORE_SIZE,
    RECORD = 10,            /* bytes of the first record of a stream */
    MOST = 40,              /* bytes of a stream, at the most */
    PAINT = 0xa5
};

#define TAKEN DRAUGSTEN_INTAKE_TAKEN
#define MALFORMED DRAUGSTEN_INTAKE_MALFORMED
#define NO_ROOM DRAUGSTEN_INTAKE_NO_ROOM
#define UNFINISHED DRAUGSTEN_INTAKE_UNFINISHED
#define NO_STATE DRAUGSTEN_INTAKE_NO_STATE
#define SMALL_STORE DRAUGSTEN_INTAKE_SMALL_STORE

/* A buffer of so many bytes, and a stream; how many bytes of it are stored, and what an end says with which record. */
struct stream {
    const char *what;
    size_t size;
    size_t length;
    uint8_t bytes[MOST];
    size_t stored;
    uint32_t number;
    uint64_t record;
};

static const struct stream streams[] = {
    {"nothing", SIZE, 0, {0}, 0, TAKEN, 0},
    {"a delete", SIZE, 10, {8, 0, 1, 0, 11, 0, 1, 0, 0, 0}, 10, TAKEN, 0},
    {"a delete and an addition",
     SIZE, 24, {8, 0, 1, 0, 11, 0, 1, 0, 0, 0, 12, 0, 3, 0, 10, 0, 1, 0, 0, 0, 2, 0, 0, 0}, 24, TAKEN, 0},
    {"a delete and an update in a unit",
     SIZE, 28, {8, 0, 1, 0, 11, 0, 1, 0, 0, 0, 16, 0, 4, 0, 15, 0, 8, 7, 6, 5, 4, 3, 2, 1, 1, 0, 0, 0}, 28, TAKEN, 0},
    {"a delete and a value",
     SIZE, 22, {8, 0, 1, 0, 11, 0, 1, 0, 0, 0, 10, 0, 5, 0, 1, 0, 0, 0, 'a', 0, 'v', 'w'}, 22, TAKEN, 0},
    {"a delete and a deleted property",
     SIZE, 20, {8, 0, 1, 0, 11, 0, 1, 0, 0, 0, 8, 0, 6, 0, 1, 0, 0, 0, 'a', 0}, 20, TAKEN, 0},
    {"three bytes of kind 7", SIZE, 13, {8, 0, 1, 0, 11, 0, 1, 0, 0, 0, 8, 0, 7}, 10, UNFINISHED, 2},
    {"four bytes of kind 7", SIZE, 14, {8, 0, 1, 0, 11, 0, 1, 0, 0, 0, 8, 0, 7, 0}, 10, MALFORMED, 2},
    {"three bytes of length 0", SIZE, 3, {0, 0, 1}, 0, UNFINISHED, 1},
    {"four bytes of length 0", SIZE, 4, {0, 0, 1, 0}, 0, MALFORMED, 1},
    {"three bytes of length 1", SIZE, 3, {1, 0, 1}, 0, UNFINISHED, 1},
    {"four bytes of length 1", SIZE, 4, {1, 0, 1, 0}, 0, MALFORMED, 1},
    {"kind 5 of length 32,806", SIZE, 4, {0x26, 0x80, 5, 0}, 0, UNFINISHED, 1},
    {"kind 5 of length 32,807", SIZE, 4, {0x27, 0x80, 5, 0}, 0, MALFORMED, 1},
    {"kind 6 of length 38", SIZE, 4, {38, 0, 6, 0}, 0, UNFINISHED, 1},
    {"kind 6 of length 39", SIZE, 4, {39, 0, 6, 0}, 0, MALFORMED, 1},
    {"a node type of no node but for a byte", SIZE, 9, {8, 0, 1, 0, 15, 0, 1, 0, 0}, 0, UNFINISHED, 1},
    {"a node type of no node", SIZE, 10, {8, 0, 1, 0, 15, 0, 1, 0, 0, 0}, 0, MALFORMED, 1},
    {"a name of no bytes", SIZE, 10, {8, 0, 6, 0, 1, 0, 0, 0, 0, 0}, 0, MALFORMED, 1},
    {"a record behind a fault",
     SIZE, 24, {8, 0, 1, 0, 11, 0, 1, 0, 0, 0, 8, 0, 0, 0, 8, 0, 1, 0, 11, 0, 1, 0, 0, 0}, 10, MALFORMED, 2},
    {"the last byte of room", 20, 20, {8, 0, 1, 0, 11, 0, 1, 0, 0, 0, 8, 0, 6, 0, 1, 0, 0, 0, 'a', 0}, 20, TAKEN, 0},
    {"one byte too few", 19, 20, {8, 0, 1, 0, 11, 0, 1, 0, 0, 0, 8, 0, 6, 0, 1, 0, 0, 0, 'a', 0}, 10, NO_ROOM, 2},
    {"one byte too few, not complete",
     19, 19, {8, 0, 1, 0, 11, 0, 1, 0, 0, 0, 8, 0, 6, 0, 1, 0, 0, 0, 'a'}, 10, UNFINISHED, 2},
    {"malformed, and no room", 9, 10, {8, 0, 1, 0, 15, 0, 1, 0, 0, 0}, 0, MALFORMED, 1},
};

/* A store of so many bytes, of which so many are held, beginning so; a number and a fault; what both answer. */
struct standing {
    const char *what;
    size_t store;
    size_t held;
    uint8_t front[4];
    uint64_t record;
    uint32_t fault;
    size_t used;
    uint64_t count;
    uint32_t number;
};

static const struct standing standings[] = {
    {"a start", STORE, 0, {0}, 1, 0, 0, 0, TAKEN},
    {"a store of 32,807 bytes", STORE - 1, 0, {0}, 1, 0, 0, 0, SMALL_STORE},
    {"a store of 32,807 bytes and number 0", STORE - 1, 0, {0}, 0, 0, 0, 0, SMALL_STORE},
    {"a store of no bytes", 0, 0, {0}, 1, 0, 0, 0, SMALL_STORE},
    {"number 0", STORE, 0, {0}, 0, 0, 0, 0, NO_STATE},
    {"the last number", STORE, 0, {0}, UINT64_MAX, 0, 0, 0, TAKEN},
    {"fault 50", STORE, 0, {0}, 7, 50, 0, 0, MALFORMED},
    {"fault 51", STORE, 0, {0}, 7, 51, 0, 0, NO_ROOM},
    {"fault 52", STORE, 0, {0}, 7, 52, 0, 0, NO_STATE},
    {"fault 53", STORE, 0, {0}, 7, 53, 0, 0, NO_STATE},
    {"a fault with a byte held", STORE, 1, {8}, 7, 50, 0, 0, NO_STATE},
    {"three bytes of no kind held", STORE, 3, {8, 0, 7, 0}, 1, 0, 0, 0, TAKEN},
    {"four bytes of no kind held", STORE, 4, {8, 0, 7, 0}, 1, 0, 0, 0, NO_STATE},
    {"a record but for a byte held", STORE, 9, {8, 0, 1, 0}, 1, 0, 0, 0, TAKEN},
    {"a whole record held", STORE, 10, {8, 0, 1, 0}, 1, 0, 0, 0, NO_STATE},
    {"the longest record but for a byte held", STORE, STORE - 1, {0x26, 0x80, 5, 0}, 1, 0, 0, 0, TAKEN},
    {"the longest record held", STORE, STORE, {0x26, 0x80, 5, 0}, 1, 0, 0, 0, NO_STATE},
    {"more held than the store has", STORE, STORE + 1, {0x26, 0x80, 5, 0}, 1, 0, 0, 0, NO_STATE},
    {"the largest number held", STORE, SIZE_MAX, {8}, 1, 0, 0, 0, NO_STATE},
    {"a use beyond the buffer", STORE, 0, {0}, 1, 0, SIZE + 1, 0, NO_STATE},
    {"a count that is the use", STORE, 0, {0}, 1, 0, 3, 3, TAKEN},
    {"a count above the use", STORE, 0, {0}, 1, 0, 3, 4, NO_STATE},
};

static uint8_t buffer[SIZE + BEHIND], expected[SIZE + BEHIND], store[STORE], before[STORE];
static int faults;

static void expect(int holds, const char *name, const char *what)
{
    if (!holds) {
        fprintf(stderr, "intakes: %s: not so: %s\n", name, what);
        faults++;
    }
}

static int same_intake(const struct draugsten_intake *a, const struct draugsten_intake *b)
{
    return a->journal.used == b->journal.used && a->number == b->number && a->held == b->held && a->fault == b->fault &&
           memcmp(&a->journal.tallies, &b->journal.tallies, sizeof a->journal.tallies) == 0;
}

/* The numbers that an end gives where the intake stands so. */
static void expect_end(size_t size, size_t store_size, struct draugsten_intake intake, uint32_t number, uint64_t record,
                       const char *name)
{
    struct draugsten_intake_ended ended = draugsten_intake_end(buffer, size, store, store_size, intake);

    expect(ended.number == number && ended.in_record == record, name, "the end has its number and record");
}

/* ---- streams */

/* What a stream leaves, however it came. */
static void expect_left(const struct stream *stream, const struct draugsten_burst *last)
{
    const struct draugsten_intake *intake = &last->intake;
    int stopped = stream->number == MALFORMED || stream->number == NO_ROOM;
    size_t held = stopped ? 0 : stream->length - stream->stored;
    struct draugsten_recount recount = draugsten_tallies_recount(buffer, stream->stored);

    memset(expected, PAINT, sizeof expected);
    memcpy(expected, stream->bytes, stream->stored);
    expect(memcmp(buffer, expected, sizeof buffer) == 0, stream->what, "the records are stored, and no other byte changes");
    expect(intake->journal.used == stream->stored, stream->what, "the use is that of the stored records");
    expect(recount.number == 0 && memcmp(&recount.tallies, &intake->journal.tallies, sizeof recount.tallies) == 0,
           stream->what, "the tallies are those of the stored records");
    expect(intake->held == held && memcmp(store, stream->bytes + stream->stored, held) == 0, stream->what,
           "the rest is held");
    expect(last->number == (stopped ? stream->number : TAKEN), stream->what, "the last burst has its number");
    expect(last->in_record == (stopped ? stream->record : 0), stream->what, "the last burst has its record");
    expect_end(stream->size, STORE, *intake, stream->number, stream->record, stream->what);
}

/* A burst, and one of nothing behind it, which changes nothing. */
static struct draugsten_burst arrive(const struct stream *stream, struct draugsten_intake intake, size_t from, size_t to)
{
    struct draugsten_burst burst, nothing;

    burst = draugsten_intake_burst(buffer, stream->size, store, STORE, intake, stream->bytes + from, to - from);
    nothing = draugsten_intake_burst(buffer, stream->size, store, STORE, burst.intake, stream->bytes, 0);
    expect(nothing.number == burst.number && nothing.in_record == burst.in_record &&
               same_intake(&nothing.intake, &burst.intake),
           stream->what, "a burst of nothing changes nothing");
    return burst;
}

/* Every cutting of a stream in three. */
static void run_stream(const struct stream *stream)
{
    size_t first, second;

    for (first = 0; first <= stream->length; first++) {
        for (second = first; second <= stream->length; second++) {
            struct draugsten_intake start = draugsten_intake_start(draugsten_tallies_cleared());
            struct draugsten_burst burst;

            memset(buffer, PAINT, sizeof buffer);
            memset(store, PAINT, sizeof store);
            burst = arrive(stream, start, 0, first);
            burst = arrive(stream, burst.intake, first, second);
            burst = arrive(stream, burst.intake, second, stream->length);
            expect_left(stream, &burst);
        }
    }
}

/* A burst after a fault, of a good record: nothing changes, not a byte of the store either. */
static void run_stopped(void)
{
    const struct stream *stopped = &streams[7], *good = &streams[1];
    struct draugsten_burst burst, again;

    memset(buffer, PAINT, sizeof buffer);
    burst = arrive(stopped, draugsten_intake_start(draugsten_tallies_cleared()), 0, stopped->length);
    memcpy(before, store, sizeof before);
    memcpy(expected, buffer, sizeof expected);
    again = draugsten_intake_burst(buffer, SIZE, store, STORE, burst.intake, good->bytes, good->length);
    expect(again.number == MALFORMED && again.in_record == 2 && same_intake(&again.intake, &burst.intake),
           "a burst after a fault", "it gets the same refusal");
    expect(memcmp(before, store, sizeof before) == 0 && memcmp(expected, buffer, sizeof expected) == 0,
           "a burst after a fault", "no byte changes");
}

/* An append between bursts: held bytes and number stay. */
static void run_between(void)
{
    const struct stream *good = &streams[1];
    struct draugsten_burst burst;
    struct draugsten_kept kept;

    memset(buffer, PAINT, sizeof buffer);
    burst = arrive(good, draugsten_intake_start(draugsten_tallies_cleared()), 0, 7);
    kept = draugsten_tallies_append(buffer, SIZE, burst.intake.journal, streams[5].bytes + RECORD, RECORD);
    burst.intake.journal = kept.journal;
    burst = arrive(good, burst.intake, 7, good->length);
    expect(kept.number == 0 && burst.number == TAKEN && burst.intake.number == 2 && burst.intake.held == 0,
           "an append between bursts", "the record is finished");
    expect(burst.intake.journal.used == 2 * RECORD && burst.intake.journal.tallies.first.deletes == 1 &&
               memcmp(buffer, streams[5].bytes + RECORD, RECORD) == 0 && memcmp(buffer + RECORD, good->bytes, RECORD) == 0,
           "an append between bursts", "it stands before the record");
}

/* ---- states and stores */

static struct draugsten_intake intake_of(const struct standing *standing)
{
    struct draugsten_intake intake = draugsten_intake_start(draugsten_tallies_cleared());

    intake.journal.used = standing->used;
    intake.journal.tallies.third.additions = standing->count;
    intake.number = standing->record;
    intake.held = standing->held;
    intake.fault = standing->fault;
    return intake;
}

static void run_standing(const struct standing *standing)
{
    struct draugsten_intake intake = intake_of(standing);
    int stopped = standing->number == MALFORMED || standing->number == NO_ROOM;
    int unfinished = standing->number == TAKEN && standing->held > 0;
    size_t length = standing->number == TAKEN ? 0 : RECORD;
    struct draugsten_burst burst;

    memset(buffer, PAINT, sizeof buffer);
    memset(expected, PAINT, sizeof expected);
    memset(store, PAINT, sizeof store);
    memcpy(store, standing->front, sizeof standing->front);
    memcpy(before, store, sizeof before);
    expect_end(SIZE, standing->store, intake, unfinished ? (uint32_t)UNFINISHED : standing->number,
               unfinished || stopped ? standing->record : 0, standing->what);
    burst = draugsten_intake_burst(buffer, SIZE, store, standing->store, intake, streams[1].bytes, length);
    expect(burst.number == standing->number, standing->what, "the burst has its number");
    expect(burst.in_record == (stopped ? standing->record : 0), standing->what, "the burst has its record");
    expect(same_intake(&burst.intake, &intake), standing->what, "the intake is as it was");
    expect(memcmp(buffer, expected, sizeof buffer) == 0, standing->what, "no byte of the buffer changes");
    expect(standing->number == TAKEN || memcmp(store, before, sizeof store) == 0, standing->what,
           "no byte of the store changes");
}

/* The sizes and places of fields, which the tests of the Rust crate hold their own to. */
static void check_layout(void)
{
    const char *name = "the layout";

    expect(sizeof(struct draugsten_intake) == 128 && offsetof(struct draugsten_intake, number) == 104 &&
               offsetof(struct draugsten_intake, held) == 112 && offsetof(struct draugsten_intake, fault) == 120,
           name, "intake");
    expect(sizeof(struct draugsten_burst) == 144 && offsetof(struct draugsten_burst, in_record) == 8 &&
               offsetof(struct draugsten_burst, intake) == 16,
           name, "burst");
    expect(sizeof(struct draugsten_intake_ended) == 16 && offsetof(struct draugsten_intake_ended, in_record) == 8, name,
           "ended");
}

int main(void)
{
    size_t i;

    check_layout();
    for (i = 0; i < sizeof streams / sizeof streams[0]; i++)
        run_stream(&streams[i]);
    run_stopped();
    run_between();
    for (i = 0; i < sizeof standings / sizeof standings[0]; i++)
        run_standing(&standings[i]);
    return faults ? 1 : 0;
}
