/*
 * Writes the calls of a program to a tape (tape.h), the file that DRAUGSTEN_TAPE names. calls.py makes a function for each
 * function of the header, which takes its place, writes and calls the true one under another name.
 */
#define _GNU_SOURCE
#include "tape.h"

#include <stdio.h>
#include <stdlib.h>
#include <string.h>
#include <sys/mman.h>
#include <unistd.h>

enum {
    SLOTS = 64,
    CHUNK = 1 << 20,        /* compared at once, to pass over what did not change */
    BLOCK = 64              /* the least piece */
};

static FILE *tape;
static uint64_t calls_told;
static uint8_t *told[SLOTS];    /* what each slot held when it was last told */
static size_t room[SLOTS];

static void give_up(const char *what)
{
    fprintf(stderr, "record: %s\n", what);
    fflush(stderr);
    _exit(1);
}

static void put(const void *bytes, size_t length)
{
    if (fwrite(bytes, 1, length, tape) != length)
        give_up("the tape cannot be written");
}

void tape_number(unsigned bytes, uint64_t number)
{
    uint8_t little[8];
    for (unsigned i = 0; i < bytes; i++)
        little[i] = (uint8_t)(number >> 8 * i);
    put(little, bytes);
}

static void end_tape(void)
{
    tape_number(2, TAPE_END);
    tape_number(8, calls_told);
    if (fclose(tape) != 0)
        give_up("the tape cannot be written");
}

static void begin_tape(void)
{
    const char *name = getenv("DRAUGSTEN_TAPE");
    if (name == NULL || (tape = fopen(name, "wb")) == NULL)
        give_up("DRAUGSTEN_TAPE names no file that can be written");
    put(TAPE_MAGIC, strlen(TAPE_MAGIC));
    tape_number(2, call_count);
    atexit(end_tape);
}

void tape_call(unsigned function)
{
    if (tape == NULL)
        begin_tape();
    calls_told++;
    tape_number(2, function);
}

void tape_bytes(const uint8_t *bytes, size_t length)
{
    put(bytes, length);
}

/* Makes room for so many bytes in a slot. Those that are new are zero, and take no memory until they are written. */
static void make_room(unsigned slot, size_t size)
{
    size_t wanted;
    void *bytes;
    if (slot >= SLOTS)
        give_up("there are too many names of buffers; raise SLOTS");
    wanted = room[slot] ? room[slot] : CHUNK;
    while (wanted < size)
        wanted *= 2;
    if (wanted == room[slot])
        return;
    bytes = told[slot] ? mremap(told[slot], room[slot], wanted, MREMAP_MAYMOVE)
                       : mmap(NULL, wanted, PROT_READ | PROT_WRITE, MAP_PRIVATE | MAP_ANONYMOUS | MAP_NORESERVE, -1, 0);
    if (bytes == MAP_FAILED)
        give_up("there is no memory for a buffer");
    told[slot] = bytes;
    room[slot] = wanted;
}

/* The first block from `at` on that is, or is not, as it was told; the size where there is none. */
static size_t find_block(const uint8_t *now, const uint8_t *before, size_t at, size_t size, int changed)
{
    while (at < size) {
        size_t chunk = size - at < CHUNK ? size - at : CHUNK, block = size - at < BLOCK ? size - at : BLOCK;
        if (changed && at % CHUNK == 0 && memcmp(now + at, before + at, chunk) == 0)
            at += chunk;
        else if ((memcmp(now + at, before + at, block) != 0) == changed)
            return at;
        else
            at += block;
    }
    return size;
}

void tape_left(unsigned slot, const void *bytes, size_t size)
{
    const uint8_t *now = bytes;
    size_t at = 0;
    while ((at = find_block(now, told[slot], at, size, 1)) < size) {
        size_t end = find_block(now, told[slot], at, size, 0);
        tape_number(8, at);
        tape_number(8, end - at);
        put(now + at, end - at);
        memcpy(told[slot] + at, now + at, end - at);
        at = end;
    }
    tape_number(8, TAPE_LAST);
}

void tape_lend(unsigned slot, const void *bytes, size_t size)
{
    make_room(slot, size);
    tape_number(8, size);
    tape_left(slot, bytes, size);
}
