/*
 * Writes and reads tables of a month that the library refuses, and some beside them that it takes: each has to give its
 * number, what it needs or the line, and a refused one leaves every byte of its buffer as it was. Holds the structures to
 * their layout. Exits with 1 if something is not so.
 */
#include "draugsten.h"

#include <stddef.h>
#include <stdio.h>
#include <stdlib.h>
#include <string.h>

enum {
    FIGURES = 39,
    DIGEST = DRAUGSTEN_DIGEST_SIZE,
    SESSIONS = 2,
    ROOM = 4096,
    BEHIND = 16,            /* bytes after those that a call may write */
    PAINT = 0xa5
};

static int faults;
static uint8_t text[ROOM], digests[SESSIONS * DIGEST];
static size_t length;

static void expect(int holds, const char *name, const char *what)
{
    if (!holds) {
        printf("%s: not so: %s\n", name, what);
        faults++;
    }
}

/* A table in which each figure is another: 0, 1, 2 and so on, and the last is the largest number. */
static struct draugsten_table make_table(void)
{
    struct draugsten_table table;
    uint64_t figures[FIGURES];

    for (int i = 0; i < FIGURES; i++)
        figures[i] = i + 1 < FIGURES ? (uint64_t)i : UINT64_MAX;
    memcpy(&table, figures, sizeof table);
    return table;
}

static int is_painted(const uint8_t *bytes, size_t size)
{
    for (size_t i = 0; i < size; i++)
        if (bytes[i] != PAINT)
            return 0;
    return 1;
}

/* A buffer of exactly so many painted bytes, so that a sanitizer finds what is read or written outside. */
static uint8_t *painted(size_t size)
{
    uint8_t *bytes = malloc(size > 0 ? size : 1);

    if (!bytes)
        exit(1);
    memset(bytes, PAINT, size > 0 ? size : 1);
    return bytes;
}

/* ---- writing */

static void write_to(const char *what, size_t given, size_t room, uint32_t number, size_t told)
{
    uint8_t *out = painted(room);
    struct draugsten_table_written written = draugsten_table_write(make_table(), digests, given, out, room);

    expect(written.number == number, what, "the write has its number");
    expect(written.length == told, what, "it gives the length");
    if (number != DRAUGSTEN_TABLE_DONE) {
        expect(is_painted(out, room), what, "no byte of the buffer changes");
    } else {
        expect(memcmp(out, text, told) == 0, what, "the text is written");
        expect(is_painted(out + told, room - told), what, "no byte after the text changes");
    }
    free(out);
}

/* The checks come in the order 62, 60. */
static void write_all(void)
{
    struct draugsten_table_written written =
        draugsten_table_write(make_table(), digests, sizeof digests, text, sizeof text);

    expect(written.number == DRAUGSTEN_TABLE_DONE, "a table", "it is written");
    length = written.length;
    write_to("a buffer that fits", sizeof digests, length, DRAUGSTEN_TABLE_DONE, length);
    write_to("a longer buffer", sizeof digests, length + BEHIND, DRAUGSTEN_TABLE_DONE, length);
    write_to("one byte too few", sizeof digests, length - 1, DRAUGSTEN_TABLE_NO_ROOM, length);
    write_to("no byte", sizeof digests, 0, DRAUGSTEN_TABLE_NO_ROOM, length);
    write_to("one session, and no byte", DIGEST, 0, DRAUGSTEN_TABLE_NO_ROOM, length - 75);
    write_to("no session, and no byte", 0, 0, DRAUGSTEN_TABLE_NO_ROOM, length - 150);
    write_to("63 bytes of digests", sizeof digests - 1, ROOM, DRAUGSTEN_TABLE_DIGESTS, 0);
    write_to("33 bytes of digests, and no byte", DIGEST + 1, 0, DRAUGSTEN_TABLE_DIGESTS, 0);
    write_to("one byte of digests", 1, ROOM, DRAUGSTEN_TABLE_DIGESTS, 0);
}

/* ---- reading */

/* Reads a copy of so many bytes of a text, with room for so many bytes of digests. */
static void read_from(const char *what, const uint8_t *from, size_t size, size_t room, uint32_t number, uint64_t line,
                      uint64_t sessions)
{
    static const struct draugsten_table none;
    struct draugsten_table table = number == DRAUGSTEN_TABLE_DONE ? make_table() : none;
    size_t stored = number == DRAUGSTEN_TABLE_DONE ? DIGEST * (size_t)sessions : 0;
    uint8_t *copy = painted(size), *to = painted(room);
    struct draugsten_table_found found;

    memcpy(copy, from, size);
    found = draugsten_table_read(copy, size, to, room);
    expect(found.number == number, what, "the read has its number");
    expect(found.line == line, what, "it gives the line");
    expect(found.sessions == sessions, what, "it gives the number of sessions");
    expect(memcmp(&found.table, &table, sizeof table) == 0, what, "it gives the figures, or zeros");
    expect(memcmp(to, digests, stored) == 0, what, "it gives the digests");
    expect(is_painted(to + stored, room - stored), what, "no other byte of the buffer changes");
    free(copy);
    free(to);
}

/* Reads the text with another byte at a place. */
static void read_changed(const char *what, size_t place, uint8_t byte, uint64_t line)
{
    uint8_t other[ROOM];

    memcpy(other, text, length);
    other[place] = byte;
    read_from(what, other, length, sizeof digests, DRAUGSTEN_TABLE_NOT_A_TABLE, line, 0);
}

/* The checks come in the order 61, 60. */
static void read_all(void)
{
    read_from("the text", text, length, sizeof digests, DRAUGSTEN_TABLE_DONE, 0, SESSIONS);
    read_from("the text, and more room", text, length, sizeof digests + BEHIND, DRAUGSTEN_TABLE_DONE, 0, SESSIONS);
    read_from("one byte of room too few", text, length, sizeof digests - 1, DRAUGSTEN_TABLE_NO_ROOM, 0, SESSIONS);
    read_from("no room", text, length, 0, DRAUGSTEN_TABLE_NO_ROOM, 0, SESSIONS);
    read_from("one session less", text, length - 75, DIGEST, DRAUGSTEN_TABLE_DONE, 0, 1);
    read_from("no session, and no room", text, length - 150, 0, DRAUGSTEN_TABLE_DONE, 0, 0);
    read_from("no text", text, 0, sizeof digests, DRAUGSTEN_TABLE_NOT_A_TABLE, 1, 0);
    read_from("the first line alone", text, 19, sizeof digests, DRAUGSTEN_TABLE_NOT_A_TABLE, 2, 0);
    read_from("no newline at the end, and no room", text, length - 1, 0, DRAUGSTEN_TABLE_NOT_A_TABLE, 42, 0);
    read_from("the first session cut off", text, length - 76, sizeof digests, DRAUGSTEN_TABLE_NOT_A_TABLE, 41, 0);
    read_changed("a carriage return", 18, '\r', 1);
    read_changed("another token", 19, '2', 2);
    read_changed("a digit that is none", 23, 'x', 2);
    read_changed("no newline", 24, '0', 2);
    read_changed("a capital digit", length - 4, 'A', 42);
    read_changed("another count of a session", length - 2, '2', 42);
    read_changed("a count of 2^64", length - 152, '6', 40);
}

/* The sizes and places that rust/src/ffi/tables.rs has too. */
static void check_layout(void)
{
    static const size_t found[] = {
        sizeof(struct draugsten_table), offsetof(struct draugsten_table, added), offsetof(struct draugsten_table, refused),
        offsetof(struct draugsten_table, unread), offsetof(struct draugsten_table, agreed),
        sizeof(struct draugsten_table_written), offsetof(struct draugsten_table_written, length),
        sizeof(struct draugsten_table_found), offsetof(struct draugsten_table_found, line),
        offsetof(struct draugsten_table_found, sessions), offsetof(struct draugsten_table_found, table)};
    static const size_t said[] = {8 * FIGURES, 280, 288, 296, 304, 16, 8, 336, 8, 16, 24};

    expect(sizeof found == sizeof said && memcmp(found, said, sizeof said) == 0, "the table", "its layout");
}

int main(void)
{
    for (size_t i = 0; i < sizeof digests; i++)
        digests[i] = (uint8_t)(255 - i);
    write_all();
    read_all();
    check_layout();
    return faults != 0;
}
