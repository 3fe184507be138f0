/*
 * Makes the calls of a tape (tape.h) again, and holds every answer and every byte of every buffer to it: play [--places] < TAPE.
 * A buffer of bytes lies at an odd address, between bytes that nobody may write. Writes how many calls each function had, or
 * the first difference. With --places it writes instead, for each call, where on the tape its answer and the first piece that
 * it left begin. Exits with 0 where there is no difference, with 3 at the first, and with 1 where the tape cannot be read.
 */
#define _GNU_SOURCE
#include "tape.h"

#include <inttypes.h>
#include <stdio.h>
#include <stdlib.h>
#include <string.h>
#include <sys/mman.h>

enum {
    SLOTS = 64,
    LEAST_ROOM = 1 << 20,
    GUARD = 64,             /* bytes on each side of a buffer that nobody may write */
    GUARD_BYTE = 0xa5,
    MOST_FUNCTIONS = 256
};

/* A buffer: as it is lent, and as it has to be. Between calls they are the same. */
struct slot {
    const char *name;
    unsigned width;
    uint8_t *lent_from, *lent, *expected;
    size_t room, size;
};

static struct slot slots[SLOTS];
static uint64_t calls_made, counts[MOST_FUNCTIONS], numbers_compared, bytes_compared, at;
static uint64_t answer_at, piece_at;
static const char *playing = "no call";

static void give_up(const char *what)
{
    fprintf(stderr, "play: call %" PRIu64 ", %s, byte %" PRIu64 " of the tape: %s\n", calls_made, playing, at, what);
    exit(1);
}

static void differs(const char *what, uint64_t place, uint64_t ours, uint64_t expected)
{
    printf("difference in call %" PRIu64 ", %s: %s, at %" PRIu64 ": %" PRIx64 " here and %" PRIx64 " on the tape\n", calls_made,
           playing, what, place, ours, expected);
    exit(3);
}

/* ---- the tape */

void take_bytes(uint8_t *to, size_t length)
{
    if (fread(to, 1, length, stdin) != length)
        give_up(ferror(stdin) ? "it cannot be read" : "it ends before its end");
    at += length;
}

uint64_t take_number(unsigned bytes)
{
    uint8_t little[8] = {0};
    uint64_t number = 0;
    take_bytes(little, bytes);
    for (unsigned i = bytes; i-- > 0;)
        number = number << 8 | little[i];
    return number;
}

/* ---- buffers */

static void *grow(void *bytes, size_t room, size_t wanted)
{
    void *grown = bytes ? mremap(bytes, room, wanted, MREMAP_MAYMOVE)
                        : mmap(NULL, wanted, PROT_READ | PROT_WRITE, MAP_PRIVATE | MAP_ANONYMOUS | MAP_NORESERVE, -1, 0);
    if (grown == MAP_FAILED)
        give_up("there is no memory for a buffer");
    return grown;
}

/* Makes room for so many bytes and a guard behind them. New bytes are zero, and take no memory until they are written. */
static void make_room(struct slot *slot, size_t size)
{
    size_t wanted = slot->room ? slot->room : LEAST_ROOM;
    while (wanted < size + 4 * GUARD)
        wanted *= 2;
    if (wanted != slot->room) {
        slot->lent_from = grow(slot->lent_from, slot->room, wanted);
        slot->expected = grow(slot->expected, slot->room, wanted);
        slot->room = wanted;
    }
    slot->lent = slot->lent_from + GUARD + (slot->width == 1 ? 1 : 0);
}

/* Where a byte of the tape's little-endian elements stands on this machine. */
static size_t place_of(size_t offset, unsigned width)
{
    const uint16_t one = 1;
    return *(const uint8_t *)&one == 1 ? offset : offset ^ (width - 1);
}

/* Brings the pieces that come next to what is expected and, before a call, also to what is lent. */
static void take_pieces(struct slot *slot, int both)
{
    static uint8_t piece[65536];
    uint64_t offset;
    while ((offset = take_number(8)) != TAPE_LAST) {
        uint64_t length = take_number(8);
        if (length > slot->size || offset > slot->size - length)
            give_up("a piece passes its buffer");
        if (!both && piece_at == 0)
            piece_at = at;
        while (length > 0) {
            size_t part = length < sizeof piece ? length : sizeof piece;
            take_bytes(piece, part);
            for (size_t i = 0; i < part; i++)
                slot->expected[place_of(offset + i, slot->width)] = piece[i];
            if (both)
                memcpy(slot->lent + offset, slot->expected + offset, part);
            offset += part;
            length -= part;
        }
    }
}

void *take_buffer(unsigned number, const char *name, unsigned width, size_t *length)
{
    struct slot *slot;
    uint64_t size = take_number(8);
    if (number >= SLOTS || size % width != 0)
        give_up("a buffer is none");
    slot = &slots[number];
    slot->name = name;
    slot->width = width;
    make_room(slot, size);
    slot->size = size;
    take_pieces(slot, 1);
    memset(slot->lent - GUARD, GUARD_BYTE, GUARD);
    memset(slot->lent + size, GUARD_BYTE, GUARD);
    *length = size / width;
    return slot->lent;
}

/* ---- what comes back */

void answered(void)
{
    answer_at = at;
    piece_at = 0;
}

void same_number(const char *name, unsigned bytes, uint64_t number)
{
    uint64_t expected = take_number(bytes);
    numbers_compared++;
    if (number != expected)
        differs(name, 0, number, expected);
}

void same_bytes(const char *name, const uint8_t *bytes, size_t length)
{
    uint8_t expected[4096];
    for (size_t from = 0; from < length; from += sizeof expected) {
        size_t part = length - from < sizeof expected ? length - from : sizeof expected;
        take_bytes(expected, part);
        for (size_t i = 0; i < part; i++)
            if (bytes[from + i] != expected[i])
                differs(name, from + i, bytes[from + i], expected[i]);
    }
    bytes_compared += length;
}

static void same_guard(const struct slot *slot, const uint8_t *guard, const char *what)
{
    for (size_t i = 0; i < GUARD; i++)
        if (guard[i] != GUARD_BYTE)
            differs(what, (uint64_t)(guard + i - slot->lent), guard[i], GUARD_BYTE);
}

/* A buffer that the call does not write. The guard behind it makes place again for what was told before. */
void same_kept(unsigned number)
{
    struct slot *slot = &slots[number];
    same_guard(slot, slot->lent - GUARD, "a byte in front of a buffer");
    same_guard(slot, slot->lent + slot->size, "a byte behind a buffer");
    memcpy(slot->lent + slot->size, slot->expected + slot->size, GUARD);
    bytes_compared += slot->size;
    if (memcmp(slot->lent, slot->expected, slot->size) == 0)
        return;
    for (size_t i = 0; i < slot->size; i++)
        if (slot->lent[i] != slot->expected[i])
            differs(slot->name, i, slot->lent[i], slot->expected[i]);
}

void same_left(unsigned number)
{
    take_pieces(&slots[number], 0);
    same_kept(number);
}

/* ---- the whole tape */

static void play_call(unsigned function, int places)
{
    if (function >= call_count)
        give_up("a function is none of the header");
    playing = calls[function].name;
    calls_made++;
    counts[function]++;
    calls[function].play();
    if (places)
        printf("%" PRIu64 " %s %" PRIu64 " %" PRIu64 "\n", calls_made, playing, answer_at, piece_at);
}

static void begin(void)
{
    uint8_t magic[sizeof TAPE_MAGIC - 1];
    take_bytes(magic, sizeof magic);
    if (memcmp(magic, TAPE_MAGIC, sizeof magic) != 0 || take_number(2) != call_count || call_count > MOST_FUNCTIONS)
        give_up("this is no tape of this header");
}

int main(int count, char **words)
{
    int places = count == 2 && strcmp(words[1], "--places") == 0;
    unsigned function;
    begin();
    while ((function = (unsigned)take_number(2)) != TAPE_END)
        play_call(function, places);
    if (take_number(8) != calls_made)
        give_up("it tells another number of calls");
    for (unsigned i = 0; i < call_count && !places; i++)
        printf("%s %" PRIu64 "\n", calls[i].name, counts[i]);
    if (!places)
        printf("all %" PRIu64 " %" PRIu64 " %" PRIu64 "\n", calls_made, numbers_compared, bytes_compared);
    if (fflush(stdout) != 0)
        give_up("standard output cannot be written");
    return 0;
}
