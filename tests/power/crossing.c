/*
 * How structs cross by value: a registration, a reading record, a replay, counts and totals whose bytes are all different, given
 * to calls that hand them back as they came. No field has a value that a good one could have, so each call is refused, but the
 * record's. A table of such bytes is written and read back. Exits with 1 where a byte came back otherwise.
 */
#include "draugsten.h"

#include <stdio.h>
#include <string.h>

enum { ROUNDS = 256 };

static int faults;
static unsigned next;

/* Bytes no two of which, with the one behind each, are the same pair within a struct: 1, 2, .., 251, 2, 4, .. */
static void fill(void *value, size_t size)
{
    uint8_t *bytes = value;
    for (size_t i = 0; i < size; i++) {
        unsigned step = 1 + (next + i) / 251;
        bytes[i] = (uint8_t)(1 + (next + i) * step % 251);
    }
    next += 17;
}

static void expect(int holds, const char *what)
{
    if (!holds) {
        printf("crossing: not so: %s\n", what);
        faults++;
    }
}

static int same_registration(const struct draugsten_registration *one, const struct draugsten_registration *other)
{
    return one->phase == other->phase && one->length == other->length && memcmp(one->copy, other->copy, sizeof one->copy) == 0;
}

/* Field by field: nothing is said of the bytes between them. */
static int same_replay(const struct draugsten_replay *one, const struct draugsten_replay *other)
{
    return one->records == other->records && memcmp(&one->report, &other->report, sizeof one->report) == 0 &&
           one->held == other->held && one->waiting == other->waiting && one->edition == other->edition &&
           same_registration(&one->registration, &other->registration) &&
           memcmp(&one->reading, &other->reading, sizeof one->reading) == 0;
}

/* Through a call, behind nine numbers and pointers, and with the record behind it; and through a run, in front of all. */
static void cross_registration(void)
{
    uint8_t byte = 0;
    struct draugsten_registration given;
    struct draugsten_reading reading;
    struct draugsten_answer answer;
    struct draugsten_run run;
    fill(&given, sizeof given);
    fill(&reading, sizeof reading);
    answer = draugsten_call(&byte, 1, &byte, 0, &byte, 0, &byte, 0, 7, given, reading);
    expect(answer.number == DRAUGSTEN_NUMBER_NO_REGISTRATION, "a call refuses a registration of any bytes with 13");
    expect(same_registration(&answer.registration, &given), "a call hands it back bit for bit");
    expect(memcmp(&answer.reading, &reading, sizeof reading) == 0, "and the record");
    run = draugsten_run_dump(given, &byte, 0, &byte, 0);
    expect(run.number == DRAUGSTEN_NUMBER_NO_REGISTRATION && run.status == DRAUGSTEN_STATUS_PARAMETER, "so does a run, with 13");
    expect(same_registration(&run.registration, &given), "a run hands it back bit for bit");
    given.phase = DRAUGSTEN_PHASE_ACTIVE;
    given.length = 500;
    answer = draugsten_call(&byte, 1, &byte, 0, &byte, 0, &byte, 0, 7, given, reading);
    expect(answer.number == DRAUGSTEN_NUMBER_SHORT, "a call without arguments gives 10");
    expect(same_registration(&answer.registration, &given), "with 10 too a registration comes back bit for bit");
    expect(memcmp(&answer.reading, &reading, sizeof reading) == 0, "and the record does");
}

/* Behind ten numbers and pointers, and in front of two. */
static void cross_replay(void)
{
    static uint8_t held[DRAUGSTEN_TRACE_RECORD_LIMIT], args[DRAUGSTEN_TRACE_BODY_LIMIT];
    struct draugsten_counting given;
    struct draugsten_fed fed;
    struct draugsten_counted counted;
    uint8_t byte = 0;
    fill(&given, sizeof given);
    fed = draugsten_replay_feed(held, sizeof held, args, sizeof args, &byte, 0, &byte, 0, &byte, 0, given.replay, &byte, 1);
    expect(fed.number == DRAUGSTEN_REPLAY_NO_STATE, "a feed refuses a replay of any bytes with 14");
    expect(same_replay(&fed.replay, &given.replay), "a feed hands it back bit for bit");
    counted = draugsten_month_feed(held, sizeof held, args, sizeof args, &byte, 0, &byte, 0, &byte, 0, given, &byte, 1);
    expect(counted.number == DRAUGSTEN_MONTH_NO_STATE, "so does a feed that counts, with 14");
    expect(same_replay(&counted.counting.replay, &given.replay) &&
               memcmp(&counted.counting.counts, &given.counts, sizeof given.counts) == 0,
           "a feed that counts hands it back bit for bit");
}

static void cross_figures(void)
{
    struct draugsten_totals totals, more;
    struct draugsten_counting counting;
    struct draugsten_tallied tallied;
    struct draugsten_added added;
    struct draugsten_merged merged;
    struct draugsten_kept kept;
    uint8_t byte = 0;
    fill(&totals, sizeof totals);
    fill(&more, sizeof more);
    fill(&counting, sizeof counting);
    fill(&tallied, sizeof tallied);
    added = draugsten_month_add(totals, counting);
    expect(added.number == DRAUGSTEN_MONTH_NO_STATE, "adding refuses a replay of any bytes with 14");
    expect(memcmp(&added.totals, &totals, sizeof totals) == 0, "adding hands totals back bit for bit");
    merged = draugsten_month_merge(totals, more);
    expect(merged.number == DRAUGSTEN_MONTH_NO_TOTALS, "merging refuses totals of any bytes with 18");
    expect(memcmp(&merged.totals, &totals, sizeof totals) == 0, "merging hands totals back bit for bit");
    kept = draugsten_tallies_append(&byte, 1, tallied, &byte, 1);
    expect(kept.number == DRAUGSTEN_TALLIES_NO_JOURNAL, "an append refuses a use of any bytes with 52");
    expect(memcmp(&kept.journal, &tallied, sizeof tallied) == 0, "an append hands use and tallies back bit for bit");
}

/* In front of two buffers, and out of what a read gives. */
static void cross_table(void)
{
    uint8_t text[2048], digest[DRAUGSTEN_DIGEST_SIZE], back[DRAUGSTEN_DIGEST_SIZE];
    struct draugsten_table table;
    struct draugsten_table_written written;
    struct draugsten_table_found found;
    fill(&table, sizeof table);
    fill(digest, sizeof digest);
    written = draugsten_table_write(table, digest, sizeof digest, text, sizeof text);
    expect(written.number == DRAUGSTEN_TABLE_DONE && written.length < sizeof text, "a table of any bytes is written");
    found = draugsten_table_read(text, written.length, back, sizeof back);
    expect(found.number == DRAUGSTEN_TABLE_DONE && found.sessions == 1, "and read");
    expect(memcmp(&found.table, &table, sizeof table) == 0, "a read gives it back bit for bit");
    expect(memcmp(back, digest, sizeof digest) == 0, "and the digest");
}

/* Structs of 8 and 16 bytes, which a convention may return in registers. */
static void cross_small(void)
{
    uint32_t edition;
    struct draugsten_reading none = draugsten_no_reading();
    struct draugsten_registration start = draugsten_no_registration();
    struct draugsten_edited edited;
    fill(&edition, sizeof edition);
    edited = draugsten_edit(edition);
    expect(edited.taken == 1 && edited.edition == edition + 1, "an edit gives the next edition");
    expect(none.flag == 0 && none.type == 0 && none.number == 1 && none.edition == 0, "no reading is 0, 0, 1, 0");
    expect(start.phase == 0 && start.length == 0 && start.copy[0] == 0 && start.copy[511] == 0, "no registration is zero");
}

int main(void)
{
    for (int i = 0; i < ROUNDS; i++) {
        cross_registration();
        cross_replay();
        cross_figures();
        cross_table();
        cross_small();
    }
    printf("%d registrations, replays, counts, totals, tables and tallies of all different bytes came back as they went\n", ROUNDS);
    return faults ? 1 : 0;
}
