/*
 * Tries each call of a program with empty buffers too. tests/power/calls.py makes a function for each function of the
 * header, which takes its place, makes the tries, and then the call itself by the true function, which has another
 * name.
 *
 * For each set of the call's buffers there are two tries: both give the buffers of the set the length 0, the first with
 * a pointer of their own, the second with NULL. All else is as in the call. Both have to answer the same, and to leave
 * the same in the other buffers.
 */
#ifndef EMPTY_H
#define EMPTY_H

#include <stddef.h>

/* Begins a call of a function. */
void begin_call(const char *function);
/* Names the next buffer of the call, of so many bytes. */
void lend(const char *name, const void *bytes, size_t size);
/* Ends a try and begins the next one; 0 if there is none. */
int next_try(void);
/* What the try gives for a buffer, by its place: its pointer, and its bytes. */
void *tried(unsigned place);
size_t tried_size(unsigned place);

#endif
