/*
 * The tries of empty.h. Ends a program with 3 at the first difference. A memcpy, a memmove or a memset of the library
 * that is given NULL ends it too: the archives call those of this file. At the end of the program it adds to the file
 * that DRAUGSTEN_EMPTY names, for each function that was called, a line for each of its buffers: function, buffer, and
 * how often the buffer was NULL; for one without buffers: function, -, and how often it was called.
 */
#include "empty.h"
#include "tape.h"

#include <stdio.h>
#include <stdlib.h>
#include <string.h>

enum {
    MOST_BUFFERS = 6,
    MOST_LINES = 256,
    OWN = 16,               /* bytes at the pointer of an empty buffer, which nobody may write */
    OWN_BYTE = 0xa5
};

struct buffer {
    const char *name;
    const void *bytes;
    size_t size;
    uint8_t *given;         /* what the try gives in its place */
};

/* What a try came to: the fields of its answer, and then the bytes of the buffers that are not empty. */
struct log {
    uint8_t *bytes;
    size_t size, room;
};

struct line {
    const char *function, *buffer;
    unsigned long count;
};

static const char *function = "no function";
static struct buffer buffers[MOST_BUFFERS];
static unsigned buffer_count, emptied;      /* a bit for each buffer that is empty; 0 before the first try */
static int is_null;
static struct log logs[2];                  /* of the try with pointers, and of that with NULL */
static struct line lines[MOST_LINES];
static unsigned line_count;

static void give_up(const char *what)
{
    fprintf(stderr, "empty: %s: %s\n", function, what);
    exit(1);
}

static int is_empty(unsigned place)
{
    return emptied >> place & 1;
}

static void differs(const char *what)
{
    const char *between = " with empty ";

    fprintf(stderr, "empty: %s", function);
    for (unsigned place = 0; place < buffer_count; place++) {
        if (!is_empty(place))
            continue;
        fprintf(stderr, "%s%s", between, buffers[place].name);
        between = ", ";
    }
    fprintf(stderr, ": %s\n", what);
    exit(3);
}

/* ---- the symbols that the archives need */

void *under_memcpy(void *to, const void *from, size_t size);
void *under_memmove(void *to, const void *from, size_t size);
void *under_memset(void *to, int byte, size_t size);

void *under_memcpy(void *to, const void *from, size_t size)
{
    if (to == NULL || from == NULL)
        differs("memcpy is given NULL");
    return memcpy(to, from, size);
}

void *under_memmove(void *to, const void *from, size_t size)
{
    if (to == NULL || from == NULL)
        differs("memmove is given NULL");
    return memmove(to, from, size);
}

void *under_memset(void *to, int byte, size_t size)
{
    if (to == NULL)
        differs("memset is given NULL");
    return memset(to, byte, size);
}

/* ---- how often each buffer was NULL */

static void write_lines(void)
{
    const char *name = getenv("DRAUGSTEN_EMPTY");
    FILE *file = name ? fopen(name, "a") : NULL;

    if (!file)
        give_up("DRAUGSTEN_EMPTY names no file that can be written");
    for (unsigned i = 0; i < line_count; i++)
        fprintf(file, "%s %s %lu\n", lines[i].function, lines[i].buffer, lines[i].count);
    if (fclose(file) != 0)
        give_up("the file that DRAUGSTEN_EMPTY names cannot be written");
}

static void count(const char *buffer)
{
    unsigned i = 0;

    while (i < line_count && (strcmp(lines[i].function, function) != 0 || strcmp(lines[i].buffer, buffer) != 0))
        i++;
    if (i == MOST_LINES)
        give_up("there are too many functions and buffers; raise MOST_LINES");
    if (line_count == 0 && atexit(write_lines) != 0)
        give_up("nothing can be done at the end of the program");
    if (i == line_count) {
        lines[i].function = function;
        lines[i].buffer = buffer;
        line_count++;
    }
    lines[i].count++;
}

/* ---- what a try came to */

void tape_bytes(const uint8_t *bytes, size_t size)
{
    struct log *log = &logs[is_null];

    if (log->room - log->size < size) {
        log->room = 2 * (log->size + size);
        log->bytes = realloc(log->bytes, log->room);
        if (!log->bytes)
            give_up("there is no memory for a log");
    }
    if (size > 0)
        memcpy(log->bytes + log->size, bytes, size);
    log->size += size;
}

void tape_number(unsigned bytes, uint64_t number)
{
    uint8_t little[8];

    for (unsigned i = 0; i < bytes; i++)
        little[i] = (uint8_t)(number >> 8 * i);
    tape_bytes(little, bytes);
}

static void end_buffer(unsigned place)
{
    struct buffer *buffer = &buffers[place];

    tape_bytes(buffer->given, tried_size(place));
    for (unsigned i = 0; buffer->given && tried_size(place) == 0 && i < OWN; i++)
        if (buffer->given[i] != OWN_BYTE)
            differs("a byte is written at its pointer");
    free(buffer->given);
}

static void end_try(void)
{
    for (unsigned place = 0; place < buffer_count; place++)
        end_buffer(place);
    if (is_null && (logs[0].size != logs[1].size || memcmp(logs[0].bytes, logs[1].bytes, logs[0].size) != 0))
        differs("the answer or a buffer is not the same with NULL");
}

/* ---- a try */

static void begin_buffer(unsigned place)
{
    struct buffer *buffer = &buffers[place];

    if (is_empty(place) && is_null) {
        buffer->given = NULL;
        count(buffer->name);
        return;
    }
    buffer->given = malloc(tried_size(place) > 0 ? tried_size(place) : OWN);
    if (!buffer->given)
        give_up("there is no memory for a buffer");
    if (tried_size(place) > 0)
        memcpy(buffer->given, buffer->bytes, buffer->size);
    else
        memset(buffer->given, OWN_BYTE, OWN);
}

void begin_call(const char *name)
{
    function = name;
    buffer_count = emptied = 0;
    is_null = 1;
}

void lend(const char *name, const void *bytes, size_t size)
{
    if (buffer_count == MOST_BUFFERS)
        give_up("there are too many buffers; raise MOST_BUFFERS");
    buffers[buffer_count++] = (struct buffer){name, bytes, size, NULL};
}

int next_try(void)
{
    if (buffer_count == 0)
        count("-");
    else if (emptied > 0)
        end_try();
    is_null = !is_null;
    if (!is_null)
        emptied++;
    if (emptied >> buffer_count != 0)
        return 0;
    logs[is_null].size = 0;
    for (unsigned place = 0; place < buffer_count; place++)
        begin_buffer(place);
    return 1;
}

void *tried(unsigned place)
{
    return buffers[place].given;
}

size_t tried_size(unsigned place)
{
    return is_empty(place) ? 0 : buffers[place].size;
}
