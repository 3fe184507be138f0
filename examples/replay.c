/*
 * Replays the recorded session of examples/replay, in bursts that break anywhere: replay JOURNAL INVENTORY TRACE. Writes
 * what it came to in one line. Exits with 0 where all calls agreed, with 3 where one differs or a record is malformed, and
 * with 1 where a file cannot be read.
 */
#include "draugsten.h"

#include <inttypes.h>
#include <stdio.h>
#include <stdlib.h>

enum {
    MEMORY_SIZE = 0x3000,   /* of the session, from zero bytes on */
    EDITION = 7,            /* of its inventory */
    BURST = 100
};

/* What a replay goes over, and the buffers that it needs. */
struct session {
    uint8_t memory[MEMORY_SIZE];
    uint8_t journal[DRAUGSTEN_RECORDS_LIMIT];
    size_t journal_length;
    uint8_t inventory[DRAUGSTEN_RECORDS_LIMIT];
    size_t inventory_length;
    uint8_t held[DRAUGSTEN_TRACE_RECORD_LIMIT];
    uint8_t args[DRAUGSTEN_TRACE_BODY_LIMIT];
};

static void expect(int holds, const char *what, const char *name)
{
    if (!holds) {
        fprintf(stderr, "replay: %s: not so: %s\n", name, what);
        exit(1);
    }
}

static FILE *open_file(const char *name)
{
    FILE *file = fopen(name, "rb");

    expect(file != NULL, "the file can be read", name);
    return file;
}

/* Reads a journal or an inventory; gives its length. */
static size_t read_records(const char *name, uint8_t *to)
{
    FILE *file = open_file(name);
    size_t length = fread(to, 1, DRAUGSTEN_RECORDS_LIMIT, file);

    expect(!ferror(file), "the file can be read", name);
    expect(fgetc(file) == EOF, "the file has at most 1,048,576 bytes", name);
    fclose(file);
    return length;
}

static struct draugsten_replay feed(struct session *session, struct draugsten_replay replay, const uint8_t *bytes,
                                    size_t length)
{
    struct draugsten_fed fed;

    fed = draugsten_replay_feed(session->held, sizeof session->held, session->args, sizeof session->args,
                                session->memory, sizeof session->memory, session->journal, session->journal_length,
                                session->inventory, session->inventory_length, replay, bytes, length);
    expect(fed.number == DRAUGSTEN_REPLAY_TAKEN, "the replay is taken", "feed");
    return fed.replay;
}

static struct draugsten_report replay_trace(struct session *session, const char *name)
{
    FILE *file = open_file(name);
    struct draugsten_replay replay = draugsten_replay_start(EDITION);
    struct draugsten_ended ended;
    uint8_t bytes[BURST];
    size_t length;

    while ((length = fread(bytes, 1, BURST, file)) > 0)
        replay = feed(session, replay, bytes, length);
    expect(!ferror(file), "the file can be read", name);
    fclose(file);
    ended = draugsten_replay_end(replay);
    expect(ended.number == DRAUGSTEN_REPLAY_TAKEN, "the replay is taken", "end");
    return ended.report;
}

static void print_report(const struct draugsten_report *report)
{
    switch (report->verdict) {
    case DRAUGSTEN_VERDICT_AGREED:
        printf("agreed %" PRIu64 "\n", report->number);
        break;
    case DRAUGSTEN_VERDICT_DIFFERS:
        printf("differs call %" PRIu64 " at %" PRIu32 "\n", report->number, report->offset);
        break;
    default:
        printf("malformed record %" PRIu64 "\n", report->number);
    }
}

int main(int count, char **words)
{
    static struct session session;
    struct draugsten_report report;

    expect(count == 4, "it is given a journal, an inventory and a trace", "arguments");
    session.journal_length = read_records(words[1], session.journal);
    session.inventory_length = read_records(words[2], session.inventory);
    report = replay_trace(&session, words[3]);
    print_report(&report);
    expect(fflush(stdout) == 0, "the output is written", "standard output");
    return report.verdict == DRAUGSTEN_VERDICT_AGREED ? 0 : 3;
}
