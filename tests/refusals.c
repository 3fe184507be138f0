/*
 * Makes feeds and ends that the replay refuses, feeds, additions and merges that the month does, and runs of a dump that are
 * refused, and some beside them that are taken: each has to give its number, and a refused one the replay, its counts, the
 * totals or the registration as they were, with no byte of any buffer changed. Holds the structures of the month and of the
 * run to their layout. Exits with 1 where something is not so.
 */
#include "draugsten.h"

#include <stddef.h>
#include <stdio.h>
#include <string.h>

enum {
    HELD = DRAUGSTEN_TRACE_RECORD_LIMIT,
    ARGS = DRAUGSTEN_TRACE_BODY_LIMIT,
    BEHIND = 16,            /* bytes behind those that a feed may write */
    FRONT = 4,              /* bytes of a record's length and kind */
    PAINT = 0xa5
};

/* All are bytes, so none lies between them. */
struct buffers {
    uint8_t held[HELD + BEHIND];
    uint8_t args[ARGS + BEHIND];
    uint8_t memory[BEHIND];
};

/* A feed of a replay that has taken no record, says that so many calls agreed, and holds so many bytes of a front. */
struct try {
    const char *what;
    size_t held_length;
    size_t args_length;
    uint64_t agreed;
    size_t held;
    uint8_t front[FRONT];
    uint32_t number;
};

static const struct try tries[] = {
    {"4,103 bytes for a record", HELD - 1, ARGS, 0, 0, {0}, DRAUGSTEN_REPLAY_NO_ROOM},
    {"4,099 bytes for a buffer", HELD, ARGS - 1, 0, 0, {0}, DRAUGSTEN_REPLAY_NO_ROOM},
    {"a state of no feed, and 4,103 bytes", HELD - 1, ARGS, 1, 0, {0}, DRAUGSTEN_REPLAY_NO_ROOM},
    {"a state of no feed, and 4,099 bytes", HELD, ARGS - 1, 1, 0, {0}, DRAUGSTEN_REPLAY_NO_ROOM},
    {"a state of no feed", HELD, ARGS, 1, 0, {0}, DRAUGSTEN_REPLAY_NO_STATE},
    {"a state of no feed, and more room", HELD + BEHIND, ARGS + BEHIND, 1, 0, {0}, DRAUGSTEN_REPLAY_NO_STATE},
    {"a whole record held", HELD, ARGS, 0, FRONT, {2, 0, 32, 0}, DRAUGSTEN_REPLAY_NO_STATE},
    {"a kind of no record held", HELD, ARGS, 0, FRONT, {3, 0, 35, 0}, DRAUGSTEN_REPLAY_NO_STATE},
    {"a record held but for its body", HELD, ARGS, 0, FRONT, {3, 0, 32, 0}, DRAUGSTEN_REPLAY_TAKEN},
    {"the same, and more room", HELD + BEHIND, ARGS + BEHIND, 0, FRONT, {3, 0, 32, 0}, DRAUGSTEN_REPLAY_TAKEN},
    {"a start", HELD, ARGS, 0, 0, {0}, DRAUGSTEN_REPLAY_TAKEN},
};

/* A record that sets the first byte of memory. Its own first byte alone is fed where something is held, as its body. */
static const uint8_t setting[] = {7, 0, 34, 0, 0, 0, 0, 0, 5};

static int faults;

static void expect(int holds, const char *name, const char *what)
{
    if (!holds) {
        fprintf(stderr, "refusals: %s: not so: %s\n", name, what);
        faults++;
    }
}

static int same_report(const struct draugsten_report *a, const struct draugsten_report *b)
{
    return a->verdict == b->verdict && a->offset == b->offset && a->number == b->number;
}

static int same_registration(const struct draugsten_registration *a, const struct draugsten_registration *b)
{
    return a->phase == b->phase && a->length == b->length && memcmp(a->copy, b->copy, sizeof a->copy) == 0;
}

static int same_reading(const struct draugsten_reading *a, const struct draugsten_reading *b)
{
    return a->flag == b->flag && a->type == b->type && a->number == b->number && a->edition == b->edition;
}

static int same_replay(const struct draugsten_replay *a, const struct draugsten_replay *b)
{
    return a->records == b->records && same_report(&a->report, &b->report) && a->held == b->held &&
           a->waiting == b->waiting && a->edition == b->edition &&
           same_registration(&a->registration, &b->registration) && same_reading(&a->reading, &b->reading);
}

static struct draugsten_fed feed(struct buffers *buffers, size_t held_length, size_t args_length,
                                 struct draugsten_replay replay, const uint8_t *bytes, size_t length)
{
    static const uint8_t none[1];

    return draugsten_replay_feed(buffers->held, held_length, buffers->args, args_length, buffers->memory,
                                 sizeof buffers->memory, none, 0, none, 0, replay, bytes, length);
}

static struct draugsten_replay replay_of(const struct try *try)
{
    struct draugsten_replay replay = draugsten_replay_start(3);

    replay.report.number = try->agreed;
    replay.held = try->held;
    return replay;
}

static void run(const struct try *try)
{
    static struct buffers buffers, before;
    struct draugsten_replay replay = replay_of(try);
    struct draugsten_fed fed;

    memset(&buffers, PAINT, sizeof buffers);
    memcpy(buffers.held, try->front, try->held);
    before = buffers;
    fed = feed(&buffers, try->held_length, try->args_length, replay, setting, try->held > 0 ? 1 : sizeof setting);
    expect(fed.number == try->number, try->what, "the feed has its number");
    expect(memcmp(buffers.held + HELD, before.held + HELD, BEHIND) == 0, try->what, "no byte past 4,104 is written");
    if (try->number == DRAUGSTEN_REPLAY_TAKEN) {
        expect(fed.replay.records == 1 && fed.replay.held == 0, try->what, "its record is taken");
        return;
    }
    expect(same_replay(&fed.replay, &replay), try->what, "the replay is as it was");
    expect(memcmp(&buffers, &before, sizeof buffers) == 0, try->what, "no byte of a buffer changes");
}

/* An end knows a state of no feed, and tells of no trace then. */
static void end_refused(void)
{
    static const struct draugsten_report none = {DRAUGSTEN_VERDICT_MALFORMED, 0, 0};
    struct draugsten_replay replay = draugsten_replay_start(3);
    struct draugsten_ended ended;

    expect(draugsten_replay_end(replay).number == DRAUGSTEN_REPLAY_TAKEN, "the end of a start", "it is taken");
    replay.report.number = 1;
    ended = draugsten_replay_end(replay);
    expect(ended.number == DRAUGSTEN_REPLAY_NO_STATE, "the end of a state of no feed", "it has its number");
    expect(same_report(&ended.report, &none), "the end of a state of no feed", "its report is malformed, 0, 0");
}

/* A record of kind 7 stops a replay, and a later feed changes nothing. */
static void feed_stopped(void)
{
    static const uint8_t bad[] = {3, 0, 7, 0, 1};
    static struct buffers buffers, before;
    struct draugsten_replay stopped;
    struct draugsten_fed fed;

    memset(&buffers, PAINT, sizeof buffers);
    stopped = feed(&buffers, HELD, ARGS, draugsten_replay_start(3), bad, sizeof bad).replay;
    expect(stopped.report.verdict == DRAUGSTEN_VERDICT_MALFORMED, "a kind of no record", "it stops the replay");
    before = buffers;
    fed = feed(&buffers, HELD, ARGS, stopped, setting, sizeof setting);
    expect(fed.number == DRAUGSTEN_REPLAY_TAKEN, "a feed after a stop", "it is taken");
    expect(same_replay(&fed.replay, &stopped), "a feed after a stop", "the replay is as it was");
    expect(memcmp(&buffers, &before, sizeof buffers) == 0, "a feed after a stop", "no byte of a buffer changes");
}

/* ---- the month */

/* A call of update-nodes at address 4, which is refused with -3: 32 and 33. */
static const uint8_t refused_call[] = {
    26, 0, 32, 0, 0, 0, 0, 1, 0, 0, 0, 2, 0, 0, 0, 1, 0, 0, 0, 4, 0, 0, 0, 1, 0, 0, 0, 0,
    26, 0, 33, 0, 0, 0, 0, 1, 0, 0, 0, 2, 0, 0, 0, 1, 0, 0, 0, 4, 0, 0, 0, 1, 0xff, 0xff, 0xff, 0xfd};

enum {
    CALL = sizeof refused_call,
    LAST = CALL / 2 - FRONT - 1,        /* the offset of the status word's last byte */
    WORDS = 1019                        /* available for each answered call of update-nodes */
};

static int same_counting(const struct draugsten_counting *a, const struct draugsten_counting *b)
{
    return same_replay(&a->replay, &b->replay) && memcmp(&a->counts, &b->counts, sizeof a->counts) == 0;
}

static int same_totals(const struct draugsten_totals *a, const struct draugsten_totals *b)
{
    return memcmp(a, b, sizeof *a) == 0;
}

static struct draugsten_counted count(struct buffers *buffers, size_t held_length, size_t args_length,
                                      struct draugsten_counting counting, const uint8_t *bytes, size_t length)
{
    static const uint8_t none[1];

    return draugsten_month_feed(buffers->held, held_length, buffers->args, args_length, buffers->memory,
                                sizeof buffers->memory, none, 0, none, 0, counting, bytes, length);
}

/* The counting replay that has been fed so many bytes of the call. */
static struct draugsten_counting counted(size_t length)
{
    static struct buffers buffers;

    return count(&buffers, HELD, ARGS, draugsten_month_start(3), refused_call, length).counting;
}

static void count_try(const struct try *try, uint64_t calls, uint32_t number)
{
    static struct buffers buffers, before;
    struct draugsten_counting counting = draugsten_month_start(3);
    struct draugsten_counted fed;

    counting.replay = replay_of(try);
    counting.counts.calls[0][DRAUGSTEN_ROW_PARAMETER] = calls;
    memset(&buffers, PAINT, sizeof buffers);
    memcpy(buffers.held, try->front, try->held);
    before = buffers;
    fed = count(&buffers, try->held_length, try->args_length, counting, setting, try->held > 0 ? 1 : sizeof setting);
    expect(fed.number == number, try->what, "the counting feed has its number");
    if (number == DRAUGSTEN_MONTH_ADDED) {
        expect(fed.counting.replay.records == 1, try->what, "the counting feed takes its record");
        return;
    }
    expect(same_counting(&fed.counting, &counting), try->what, "the counting replay is as it was");
    expect(memcmp(&buffers, &before, sizeof buffers) == 0, try->what, "the counting feed changes no byte of a buffer");
}

/* A counting feed is refused where the feed without counts is; and where it is taken, with a count of no call. */
static void count_tries(void)
{
    for (size_t i = 0; i < sizeof tries / sizeof tries[0]; i++) {
        uint32_t number = tries[i].number;

        count_try(&tries[i], 0, number);
        count_try(&tries[i], 1, number == DRAUGSTEN_REPLAY_TAKEN ? DRAUGSTEN_MONTH_NO_STATE : number);
    }
}

/* Totals of no words, with so many calls of update-nodes that were refused with -3. */
static struct draugsten_totals totals_of(uint64_t calls)
{
    struct draugsten_totals totals = {{{0}}, {0}, 0, 0, 0};

    totals.calls[0][DRAUGSTEN_ROW_PARAMETER] = calls;
    totals.token_calls[0] = calls;
    return totals;
}

static void add(const char *what, struct draugsten_totals totals, struct draugsten_counting counting, uint32_t number,
                struct draugsten_report report)
{
    struct draugsten_added added = draugsten_month_add(totals, counting);

    expect(added.number == number, what, "adding has its number");
    expect(same_report(&added.report, &report), what, "adding has its report");
    if (number == DRAUGSTEN_MONTH_ADDED)
        totals = totals_of(totals.token_calls[0] + 1);
    expect(same_totals(&added.totals, &totals), what, "the totals are with the trace, or as they were");
}

/* The checks come in the order 14, 16, 17: totals that are full are in each of them. */
static void add_refused(void)
{
    static const struct draugsten_report none = {DRAUGSTEN_VERDICT_MALFORMED, 0, 0};
    static const struct draugsten_report cut = {DRAUGSTEN_VERDICT_MALFORMED, 0, 1};
    static const struct draugsten_report differs = {DRAUGSTEN_VERDICT_DIFFERS, LAST, 1};
    static const struct draugsten_report agreed = {DRAUGSTEN_VERDICT_AGREED, 0, 1};
    static struct buffers buffers;
    struct draugsten_totals full = totals_of(UINT64_MAX);
    struct draugsten_counting whole = counted(CALL), wrong = whole;

    wrong.counts.calls[0][DRAUGSTEN_ROW_DONE] = 1;
    add("two calls counted of one", full, wrong, DRAUGSTEN_MONTH_NO_STATE, none);
    wrong = whole;
    wrong.counts.operations = 1;
    add("an operation without a word", full, wrong, DRAUGSTEN_MONTH_NO_STATE, none);
    wrong = counted(CALL - 1);
    wrong.replay.report.number = 1;
    add("a state of no feed", full, wrong, DRAUGSTEN_MONTH_NO_STATE, none);
    add("a trace that is cut off", full, counted(CALL - 1), DRAUGSTEN_MONTH_NOT_AGREED, cut);
    wrong = count(&buffers, HELD, ARGS, draugsten_month_start(3), refused_call, CALL - 1).counting;
    wrong = count(&buffers, HELD, ARGS, wrong, setting, 1).counting;
    add("a call that differs", full, wrong, DRAUGSTEN_MONTH_NOT_AGREED, differs);
    add("a call past the last number", full, whole, DRAUGSTEN_MONTH_PAST_LIMIT, agreed);
    add("the last number", totals_of(UINT64_MAX - 1), whole, DRAUGSTEN_MONTH_ADDED, agreed);
    add("the first call", totals_of(0), whole, DRAUGSTEN_MONTH_ADDED, agreed);
}

static void merge(const char *what, struct draugsten_totals totals, struct draugsten_totals more, uint32_t number)
{
    struct draugsten_merged merged = draugsten_month_merge(totals, more);

    expect(merged.number == number, what, "merging has its number");
    if (number == DRAUGSTEN_MONTH_ADDED)
        totals = totals_of(totals.token_calls[0] + more.token_calls[0]);
    expect(same_totals(&merged.totals, &totals), what, "the totals are with the others, or as they were");
}

/* The checks come in the order 18, 17: totals that are full are in each of them. */
static void merge_refused(void)
{
    struct draugsten_totals full = totals_of(UINT64_MAX), wrong = totals_of(1);

    wrong.token_calls[0] = 2;
    merge("calls that are not together", full, wrong, DRAUGSTEN_MONTH_NO_TOTALS);
    wrong = totals_of(1);
    wrong.available = WORDS;
    merge("words that were not available", full, wrong, DRAUGSTEN_MONTH_NO_TOTALS);
    wrong.calls[0][DRAUGSTEN_ROW_DONE] = 1;
    wrong.token_calls[0] = 2;
    wrong.used = WORDS + 1;
    merge("more words than were available", full, wrong, DRAUGSTEN_MONTH_NO_TOTALS);
    wrong.used = 1;
    wrong.operations = 2;
    merge("more operations than words", full, wrong, DRAUGSTEN_MONTH_NO_TOTALS);
    wrong.operations = 1;
    merge("totals past the last number", full, wrong, DRAUGSTEN_MONTH_PAST_LIMIT);
    merge("totals up to the last number", totals_of(UINT64_MAX - 7), totals_of(7), DRAUGSTEN_MONTH_ADDED);
    merge("totals of nothing", full, totals_of(0), DRAUGSTEN_MONTH_ADDED);
}

/* ---- the run of a dump */

/* A good structure of one section, without a disk: eight bytes from address 0 on, to address 8. */
static struct draugsten_registration registered(void)
{
    struct draugsten_registration registration = draugsten_no_registration();
    uint8_t *copy = registration.copy, *section = copy + 40;

    registration.phase = DRAUGSTEN_PHASE_REGISTERED;
    registration.length = 80;
    copy[3] = copy[5] = 1;              /* version, number of sections */
    copy[11] = 40;                      /* offset of the first */
    section[3] = 1;                     /* request flag */
    section[5] = 0x11;                  /* type */
    section[23] = section[39] = 8;      /* requested length, destination */
    return registration;
}

/* A run that is refused: its number, its status, and nothing changes. */
static void refuse_run(const char *what, struct draugsten_registration registration, uint32_t number, uint32_t status)
{
    static const uint8_t platform[BEHIND];
    static struct buffers buffers, before;
    struct draugsten_run run;

    memset(&buffers, PAINT, sizeof buffers);
    before = buffers;
    run = draugsten_run_dump(registration, buffers.memory, sizeof buffers.memory, platform, sizeof platform);
    expect(run.number == number && run.status == status, what, "the run has its number and its status");
    expect(same_registration(&run.registration, &registration), what, "the registration is as it was");
    expect(memcmp(&buffers, &before, sizeof buffers) == 0, what, "no byte of a buffer changes");
}

/* The checks come in the order 13, -10, -3: what each one gives, others behind it would refuse too. */
static void run_refused(void)
{
    struct draugsten_registration wrong = registered();

    wrong.phase = 3;
    refuse_run("phase 3", wrong, DRAUGSTEN_NUMBER_NO_REGISTRATION, DRAUGSTEN_STATUS_PARAMETER);
    wrong.phase = DRAUGSTEN_PHASE_ACTIVE;
    wrong.length = DRAUGSTEN_STRUCTURE_LIMIT + 1;
    refuse_run("active, length 513", wrong, DRAUGSTEN_NUMBER_NO_REGISTRATION, DRAUGSTEN_STATUS_PARAMETER);
    wrong.length = SIZE_MAX;
    refuse_run("active, the largest length", wrong, DRAUGSTEN_NUMBER_NO_REGISTRATION, DRAUGSTEN_STATUS_PARAMETER);
    wrong.length = 0;
    refuse_run("active, length 0", wrong, DRAUGSTEN_NUMBER_STATUS, DRAUGSTEN_STATUS_DUMP_ACTIVE);
    wrong.phase = DRAUGSTEN_PHASE_REGISTERED;
    refuse_run("registered, length 0", wrong, DRAUGSTEN_NUMBER_STATUS, DRAUGSTEN_STATUS_PARAMETER);
    wrong.length = 79;
    refuse_run("registered, length 79", wrong, DRAUGSTEN_NUMBER_STATUS, DRAUGSTEN_STATUS_PARAMETER);
    wrong = registered();
    wrong.phase = DRAUGSTEN_PHASE_NONE;
    refuse_run("nothing registered", wrong, DRAUGSTEN_NUMBER_STATUS, DRAUGSTEN_STATUS_PARAMETER);
    wrong = registered();
    wrong.copy[6] = DRAUGSTEN_DUMP_PERFORMED >> 8;
    refuse_run("a dump that ran, registered", wrong, DRAUGSTEN_NUMBER_STATUS, DRAUGSTEN_STATUS_PARAMETER);
}

/* The same without a fault, over as many bytes of memory: it runs, and the bytes behind these stay. */
static void run_taken(size_t length, uint8_t actual, uint32_t flags)
{
    static struct buffers buffers;
    struct draugsten_run run;
    const uint8_t *copy = run.registration.copy;

    memset(&buffers, PAINT, sizeof buffers);
    memset(buffers.memory, 1, 8);
    run = draugsten_run_dump(registered(), buffers.memory, length, buffers.held, 0);
    expect(run.number == DRAUGSTEN_NUMBER_STATUS && run.status == DRAUGSTEN_STATUS_DONE, "a good run", "it is done");
    expect(run.registration.phase == DRAUGSTEN_PHASE_ACTIVE, "a good run", "it is active");
    expect(run.registration.length == 80, "a good run", "its structure has as many bytes as before");
    expect(copy[71] == actual && copy[46] == flags >> 8, "a good run", "the copy tells of its section");
    expect(memcmp(buffers.memory, buffers.memory + 8, actual) == 0, "a good run", "the bytes are copied");
    for (size_t i = 8 + actual; i < BEHIND; i++)
        expect(buffers.memory[i] == PAINT, "a good run", "no byte behind them is written");
}

/* The sizes and places that rust/src/ffi.rs has too. */
static void check_run_layout(void)
{
    static const size_t found[] = {
        sizeof(struct draugsten_registration), offsetof(struct draugsten_registration, length),
        offsetof(struct draugsten_registration, copy),
        sizeof(struct draugsten_run), offsetof(struct draugsten_run, status),
        offsetof(struct draugsten_run, registration)};
    static const size_t said[] = {528, 8, 16, 536, 4, 8};

    expect(sizeof found == sizeof said && memcmp(found, said, sizeof said) == 0, "the run of a dump", "its layout");
}

/* The sizes and places that rust/src/ffi.rs has too. */
static void check_layout(void)
{
    static const size_t found[] = {
        sizeof(struct draugsten_counts), offsetof(struct draugsten_counts, operations),
        offsetof(struct draugsten_counts, used),
        sizeof(struct draugsten_totals), offsetof(struct draugsten_totals, token_calls),
        offsetof(struct draugsten_totals, operations), offsetof(struct draugsten_totals, used),
        offsetof(struct draugsten_totals, available),
        sizeof(struct draugsten_counting), offsetof(struct draugsten_counting, counts),
        sizeof(struct draugsten_counted), offsetof(struct draugsten_counted, counting),
        sizeof(struct draugsten_added), offsetof(struct draugsten_added, report),
        offsetof(struct draugsten_added, totals),
        sizeof(struct draugsten_merged), offsetof(struct draugsten_merged, totals),
        sizeof(struct draugsten_share), offsetof(struct draugsten_share, whole)};
    static const size_t said[] = {240, 224, 232, 280, 224, 256, 264, 272, 824, 584, 832, 8, 304, 8, 24, 288, 8, 16, 8};

    expect(sizeof found == sizeof said && memcmp(found, said, sizeof said) == 0, "the month", "its layout");
}

int main(void)
{
    for (size_t i = 0; i < sizeof tries / sizeof tries[0]; i++)
        run(&tries[i]);
    end_refused();
    feed_stopped();
    count_tries();
    add_refused();
    merge_refused();
    run_refused();
    run_taken(16, 8, 0);
    run_taken(15, 7, DRAUGSTEN_SECTION_ROOM);
    run_taken(8, 0, DRAUGSTEN_SECTION_DESTINATION | DRAUGSTEN_SECTION_ROOM);
    check_run_layout();
    check_layout();
    return faults != 0;
}
