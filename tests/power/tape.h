/*
 * A tape holds calls of the library: of each what it was given, and what it answered and left. It is written by a program for
 * x86-64 that links record.c, and read by play.c on any machine. All numbers are little-endian, whatever the machine.
 *
 *   tape      TAPE_MAGIC, the number of functions (2), calls, TAPE_END (2), the number of calls (8)
 *   call      the function, by its place in the header (2), what it takes in the header's order, its answer field by field,
 *             then what each buffer that it writes holds, in the header's order
 *   buffer    before the call its length in bytes (8), then pieces; after the call pieces alone
 *   pieces    for each run of bytes that are not as the buffer of this name held them when it was last told: offset (8), length
 *             (8), bytes; then TAPE_LAST (8). Bytes that were never told are zero.
 *
 * Elements of more than one byte stand little-endian in a piece too. calls.py makes the functions for each call of the header.
 */
#ifndef TAPE_H
#define TAPE_H

#include "draugsten.h"

#define TAPE_MAGIC "draugsten tape 1\n"
#define TAPE_END 0xffffu
#define TAPE_LAST 0xffffffffffffffffu

/* ---- writing, for calls.py's record_calls.c */

void tape_call(unsigned function);
void tape_number(unsigned bytes, uint64_t number);
void tape_bytes(const uint8_t *bytes, size_t length);
/* What a buffer holds before a call, and after it: `slot` tells buffers of different names apart. */
void tape_lend(unsigned slot, const void *bytes, size_t size);
void tape_left(unsigned slot, const void *bytes, size_t size);

/* ---- reading, for calls.py's play_calls.c */

struct call {
    const char *name;
    void (*play)(void);
};

extern const struct call calls[];
extern const unsigned call_count;

uint64_t take_number(unsigned bytes);
void take_bytes(uint8_t *to, size_t length);
/* Lends the buffer of a slot as the tape has it; elements have so many bytes. Gives the number of elements by `length`. */
void *take_buffer(unsigned slot, const char *name, unsigned width, size_t *length);
/* Holds what came back to the tape. */
void answered(void);
void same_number(const char *name, unsigned bytes, uint64_t number);
void same_bytes(const char *name, const uint8_t *bytes, size_t length);
void same_left(unsigned slot);
void same_kept(unsigned slot);

#endif
