/*
 * Replays two recorded sessions over the same journal and inventory, in bursts that break anywhere, and counts their calls:
 * month JOURNAL INVENTORY TRACE TRACE. Writes the totals, and which session is not in them. Exits with 0 where both were
 * added, with 3 where one was refused, and with 1 where a file cannot be read.
 */
#include "draugsten.h"

#include <inttypes.h>
#include <stdio.h>
#include <stdlib.h>
#include <string.h>

enum {
    MEMORY_SIZE = 0x3000,   /* of each session, from zero bytes on */
    EDITION = 7,            /* of its inventory */
    BURST = 100,
    TOKENS = 4,
    STATUSES = 7
};

/* What a replay goes over, and the buffers that it needs. */
struct session {
    uint8_t memory[MEMORY_SIZE];
    uint8_t journal[DRAUGSTEN_RECORDS_LIMIT];
    size_t journal_length;
    uint8_t inventory[DRAUGSTEN_RECORDS_LIMIT];
    size_t inventory_length;
    uint8_t held[DRAUGSTEN_TRACE_RECORD_LIMIT];
    uint8_t args[DRAUGSTEN_TRACE_BODY_LIMIT];
};

static void expect(int holds, const char *what, const char *name)
{
    if (!holds) {
        fprintf(stderr, "month: %s: not so: %s\n", name, what);
        exit(1);
    }
}

static FILE *open_file(const char *name)
{
    FILE *file = fopen(name, "rb");

    expect(file != NULL, "the file can be read", name);
    return file;
}

/* Reads a journal or an inventory; gives its length. */
static size_t read_records(const char *name, uint8_t *to)
{
    FILE *file = open_file(name);
    size_t length = fread(to, 1, DRAUGSTEN_RECORDS_LIMIT, file);

    expect(!ferror(file), "the file can be read", name);
    expect(fgetc(file) == EOF, "the file has at most 1,048,576 bytes", name);
    fclose(file);
    return length;
}

static struct draugsten_counting feed(struct session *session, struct draugsten_counting counting,
                                      const uint8_t *bytes, size_t length)
{
    struct draugsten_counted counted;

    counted = draugsten_month_feed(session->held, sizeof session->held, session->args, sizeof session->args,
                                   session->memory, sizeof session->memory, session->journal, session->journal_length,
                                   session->inventory, session->inventory_length, counting, bytes, length);
    expect(counted.number == DRAUGSTEN_MONTH_ADDED, "the replay is taken", "feed");
    return counted.counting;
}

static struct draugsten_counting replay_trace(struct session *session, const char *name)
{
    FILE *file = open_file(name);
    struct draugsten_counting counting = draugsten_month_start(EDITION);
    uint8_t bytes[BURST];
    size_t length;

    memset(session->memory, 0, sizeof session->memory);
    while ((length = fread(bytes, 1, BURST, file)) > 0)
        counting = feed(session, counting, bytes, length);
    expect(!ferror(file), "the file can be read", name);
    fclose(file);
    return counting;
}

/* Adds a session to the totals; whether it is in them. One that is refused leaves them as they were. */
static int add_trace(struct session *session, struct draugsten_totals *totals, const char *name)
{
    struct draugsten_added added = draugsten_month_add(*totals, replay_trace(session, name));

    *totals = added.totals;
    switch (added.number) {
    case DRAUGSTEN_MONTH_ADDED:
        printf("%s: agreed %" PRIu64 "\n", name, added.report.number);
        return 1;
    case DRAUGSTEN_MONTH_NOT_AGREED:
        printf("%s: %s %" PRIu64 "\n", name,
               added.report.verdict == DRAUGSTEN_VERDICT_DIFFERS ? "differs call" : "malformed record",
               added.report.number);
        return 0;
    default:
        expect(added.number == DRAUGSTEN_MONTH_PAST_LIMIT, "the counts are taken", name);
        printf("%s: a total would pass 2^64 - 1\n", name);
        return 0;
    }
}

static void print_totals(const struct draugsten_totals *totals)
{
    static const int statuses[STATUSES] = {0, 1, -1, -3, -4, -9, -10};
    struct draugsten_share share = draugsten_month_share(*totals);

    for (int token = 0; token < TOKENS; token++) {
        printf("token %d: calls %" PRIu64, token + 1, totals->token_calls[token]);
        for (int status = 0; status < STATUSES; status++)
            if (totals->calls[token][status] > 0)
                printf(", status %d: %" PRIu64, statuses[status], totals->calls[token][status]);
        printf("\n");
    }
    printf("%" PRIu64 " operations took %" PRIu64 " of %" PRIu64 " words: %" PRIu64 "/%" PRIu64 "\n",
           totals->operations, totals->used, totals->available, share.part, share.whole);
}

int main(int count, char **words)
{
    static struct session session;
    static struct draugsten_totals totals;      /* of no trace: all zero */
    int added;

    expect(count == 5, "it is given a journal, an inventory and two traces", "arguments");
    session.journal_length = read_records(words[1], session.journal);
    session.inventory_length = read_records(words[2], session.inventory);
    added = add_trace(&session, &totals, words[3]);
    added += add_trace(&session, &totals, words[4]);
    print_totals(&totals);
    expect(fflush(stdout) == 0, "the output is written", "standard output");
    return added == 2 ? 0 : 3;
}
