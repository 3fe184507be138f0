/*
 * A journal that is kept with its tallies: records are appended, one is refused, the journal of a second migration is
 * joined, the tallies are held against a recount, and forecasts tell what update-nodes would answer. Exits with 1 where
 * something is not as it should be.
 */
#include "draugsten.h"
#include "draugsten_text.h"

#include <inttypes.h>
#include <stdio.h>
#include <stdlib.h>
#include <string.h>

enum {
    BUFFER_SIZE = 16384,
    SMALL = 96,             /* bytes of it that are lent at first */
    MANY = 1500             /* deletes, more than an area holds */
};

/* A journal: the bytes that are lent for it, and what is kept beside them. */
struct journal {
    uint8_t *buffer;
    size_t size;
    struct draugsten_tallied kept;
};

/* Length and kind of a record are little-endian, and so is all of its body: the node type and a phandle come first. */
static const uint8_t deletion[] = {8, 0, 1, 0, 11, 0, 0x2a, 0, 0, 0};
static const uint8_t update[] = {8, 0, 2, 0, 3, 0, 0, 0x10, 0, 0};
static const uint8_t addition[] = {12, 0, 3, 0, 10, 0, 0, 0x10, 0, 0, 5, 0, 0, 0x10};
static const uint8_t unit_update[] = {16, 0, 4, 0, 15, 0, 8, 7, 6, 5, 4, 3, 2, 1, 0x2b, 0, 0, 0};
static const uint8_t property[] = {8, 0, 6, 0, 0x2a, 0, 0, 0, 'a', 0};
static const uint8_t byte_more[] = {8, 0, 1, 0, 11, 0, 0x2a, 0, 0, 0, 0};

/* What a partition left that moved a second time: two deletes and an update. */
static const uint8_t second_journal[] = {8, 0, 1, 0, 12, 0, 0x30, 0, 0, 0, 8, 0, 1, 0, 6, 0,
                                         0x31, 0, 0, 0, 8, 0, 2, 0, 5, 0, 0x32, 0, 0, 0};

static void expect(int holds, const char *what)
{
    if (!holds) {
        fprintf(stderr, "tallies: not so: %s\n", what);
        exit(1);
    }
}

/* ---- what is done with a journal */

static void print_use(const struct journal *journal, const char *what, uint32_t number)
{
    printf("%s: ", what);
    if (number != DRAUGSTEN_TALLIES_DONE)
        printf("refused by %" PRIu32 ", %s; ", number, draugsten_text(DRAUGSTEN_TEXT_TALLIES_NUMBER, number));
    printf("%zu bytes in use\n", journal->kept.used);
}

static uint32_t append(struct journal *journal, const uint8_t *record, size_t size)
{
    struct draugsten_kept kept;

    kept = draugsten_tallies_append(journal->buffer, journal->size, journal->kept, record, size);
    journal->kept = kept.journal;
    return kept.number;
}

static uint32_t join(struct journal *journal, const uint8_t *part, size_t size)
{
    struct draugsten_kept kept;

    kept = draugsten_tallies_join(journal->buffer, journal->size, journal->kept, part, size);
    journal->kept = kept.journal;
    return kept.number;
}

static void clear(struct journal *journal)
{
    journal->kept = draugsten_tallies_cleared();
}

/* ---- what is told of it */

static void print_tally(const char *name, const struct draugsten_tally *tally)
{
    printf("  %-8s %7" PRIu64 " %7" PRIu64 " %9" PRIu64 "\n", name, tally->deletes, tally->updates, tally->additions);
}

static void print_tallies(const struct draugsten_tallies *tallies)
{
    printf("  %-8s deletes updates additions\n", "scope");
    print_tally("negative", &tallies->negative);
    print_tally("1", &tallies->first);
    print_tally("2", &tallies->second);
    print_tally("3", &tallies->third);
}

/* The tallies have no padding, so bytes tell whether they are the same. */
static void expect_recount(const struct journal *journal)
{
    struct draugsten_recount recount = draugsten_tallies_recount(journal->buffer, journal->kept.used);

    expect(recount.number == DRAUGSTEN_TALLIES_DONE, "the bytes in use are a journal");
    expect(memcmp(&recount.tallies, &journal->kept.tallies, sizeof recount.tallies) == 0, "the recount is the tallies");
}

static void print_forecast(const struct journal *journal, int32_t scope, uint32_t state)
{
    struct draugsten_forecast_answer answer = draugsten_forecast(journal->kept.tallies, (uint32_t)scope, state);

    printf("scope %" PRId32 ", state %" PRIu32 ": status %" PRId32 " %s, next state %" PRIu64 "\n", scope, state,
           (int32_t)answer.status, draugsten_text(DRAUGSTEN_TEXT_STATUS, answer.status), answer.next);
}

/* ---- two journals in one buffer, one after the other */

static void keep_short(struct journal *journal)
{
    journal->size = SMALL;
    print_use(journal, "append a delete", append(journal, deletion, sizeof deletion));
    print_use(journal, "append an update", append(journal, update, sizeof update));
    print_use(journal, "append an addition", append(journal, addition, sizeof addition));
    print_use(journal, "append an update in a unit", append(journal, unit_update, sizeof unit_update));
    print_use(journal, "append a deleted property", append(journal, property, sizeof property));
    print_use(journal, "append a record and a byte", append(journal, byte_more, sizeof byte_more));
    print_use(journal, "join a second journal", join(journal, second_journal, sizeof second_journal));
    print_use(journal, "join it again", join(journal, second_journal, sizeof second_journal));
    print_tallies(&journal->kept.tallies);
    expect_recount(journal);
    print_forecast(journal, 1, 0);
    print_forecast(journal, 1, 6);
    print_forecast(journal, -1, 2);
    print_forecast(journal, 3, 0);
}

static void keep_long(struct journal *journal)
{
    uint32_t number = DRAUGSTEN_TALLIES_DONE;
    int i;

    journal->size = BUFFER_SIZE;
    for (i = 0; i < MANY && number == DRAUGSTEN_TALLIES_DONE; i++)
        number = append(journal, deletion, sizeof deletion);
    print_use(journal, "append 1500 deletes", number);
    expect_recount(journal);
    print_forecast(journal, 1, 0);
    print_forecast(journal, 1, 1018);
    print_forecast(journal, 1, MANY);
}

int main(void)
{
    static uint8_t buffer[BUFFER_SIZE];
    struct journal journal = {buffer, sizeof buffer, {0}};

    clear(&journal);
    keep_short(&journal);
    clear(&journal);
    print_use(&journal, "clear", DRAUGSTEN_TALLIES_DONE);
    keep_long(&journal);
    expect(fflush(stdout) == 0, "the output is written");
    return 0;
}
