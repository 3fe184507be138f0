/*
 * Writes the table of a month's totals into a buffer, as one machine does, and reads it back and merges it, as another
 * does. Prints the text, what was read, and what is refused. Exits with 1 if something is not as expected.
 */
#include "draugsten.h"
#include "draugsten_text.h"

#include <inttypes.h>
#include <stdio.h>
#include <stdlib.h>
#include <string.h>

enum {
    SESSIONS = 2,
    DIGESTS = SESSIONS * DRAUGSTEN_DIGEST_SIZE,
    MOST_SESSIONS = 16,     /* that the other machine has room for */
    TEXT = 2048
};

static void expect(int holds, const char *what)
{
    if (!holds) {
        fprintf(stderr, "table: not so: %s\n", what);
        exit(1);
    }
}

/* The totals of two sessions, as draugsten_month_add gives them, and the sessions of the month. */
static struct draugsten_table make_table(void)
{
    static struct draugsten_table table;        /* of no session: all zero */

    table.totals.calls[0][DRAUGSTEN_ROW_DONE] = 2;
    table.totals.calls[0][DRAUGSTEN_ROW_PARAMETER] = 1;
    table.totals.calls[1][DRAUGSTEN_ROW_AGAIN] = 7;
    table.totals.token_calls[0] = 3;
    table.totals.token_calls[1] = 7;
    table.totals.operations = 4;
    table.totals.used = 10;
    table.totals.available = 2038;
    table.added = SESSIONS;
    table.unread = 1;
    table.agreed = 10;
    return table;
}

/* Stands for two digests of sessions: 00, 01, 02 and so on. A true one is a hash of what the session was replayed over. */
static void make_digests(uint8_t *digests)
{
    for (int i = 0; i < DIGESTS; i++)
        digests[i] = (uint8_t)i;
}

/* Writes the table to a text, and gives its length. Asked with no buffer, the library says how long the text is. */
static size_t write_table(uint8_t *text)
{
    uint8_t digests[DIGESTS];
    struct draugsten_table_written written;

    make_digests(digests);
    written = draugsten_table_write(make_table(), digests, sizeof digests, NULL, 0);
    printf("write to no buffer: %" PRIu32 ", %s; %zu bytes are needed\n", written.number,
           draugsten_text(DRAUGSTEN_TEXT_TABLE_NUMBER, written.number), written.length);
    written = draugsten_table_write(make_table(), digests, sizeof digests - 1, text, TEXT);
    printf("write 63 bytes of digests: %" PRIu32 ", %s\n", written.number,
           draugsten_text(DRAUGSTEN_TEXT_TABLE_NUMBER, written.number));
    written = draugsten_table_write(make_table(), digests, sizeof digests, text, TEXT);
    expect(written.number == DRAUGSTEN_TABLE_DONE, "the table is written");
    return written.length;
}

/* Reads a text, and prints what comes of it. */
static struct draugsten_table_found read_table(const char *name, const uint8_t *text, size_t length, uint8_t *digests)
{
    struct draugsten_table_found found;

    found = draugsten_table_read(text, length, digests, MOST_SESSIONS * DRAUGSTEN_DIGEST_SIZE);
    printf("read %s: %" PRIu32 ", %s", name, found.number, draugsten_text(DRAUGSTEN_TEXT_TABLE_NUMBER, found.number));
    if (found.number == DRAUGSTEN_TABLE_NOT_A_TABLE)
        printf("; line %" PRIu64, found.line);
    printf("\n");
    return found;
}

static void print_found(const struct draugsten_table_found *found, const uint8_t *digests)
{
    struct draugsten_totals none = {{{0}}, {0}, 0, 0, 0};
    struct draugsten_merged merged = draugsten_month_merge(none, found->table.totals);
    uint8_t given[DIGESTS];

    expect(merged.number == DRAUGSTEN_MONTH_ADDED, "the totals are those of traces");
    printf("%" PRIu64 " sessions with %" PRIu64 " calls, %" PRIu64 " unread; %" PRIu64 " of %" PRIu64 " words used\n",
           found->table.added, found->table.agreed, found->table.unread, merged.totals.used, merged.totals.available);
    make_digests(given);
    expect(found->sessions == SESSIONS && memcmp(digests, given, DIGESTS) == 0, "the digests are those that were written");
}

int main(void)
{
    static uint8_t text[TEXT], digests[MOST_SESSIONS * DRAUGSTEN_DIGEST_SIZE];
    struct draugsten_table_found found;
    size_t length = write_table(text);

    fwrite(text, 1, length, stdout);
    found = read_table("it back", text, length, digests);
    print_found(&found, digests);
    read_table("it without its last byte", text, length - 1, digests);
    text[strlen("token,status,count\n1,")] = '+';
    read_table("it with another byte", text, length, digests);
    expect(fflush(stdout) == 0, "the output is written");
    return 0;
}
