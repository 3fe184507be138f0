/*
 * Functions that do what a function of the library must not do with NULL and the length 0. Each takes the place of a
 * true one, and the tries have to find it: FAULT is its number.
 */
#include "draugsten.h"
#include "empty.h"

void *under_memcpy(void *to, const void *from, size_t size);

#if FAULT == 1 /* Another answer. */

struct draugsten_cursor under_draugsten_view_start(const uint8_t *area, size_t area_length);

struct draugsten_cursor under_draugsten_view_start(const uint8_t *area, size_t area_length)
{
    return (struct draugsten_cursor){4, area_length < 4 ? area == NULL : area[3]};
}

#elif FAULT == 2 /* Another byte in another buffer. */

struct draugsten_kept under_draugsten_tallies_append(uint8_t *buffer, size_t buffer_length, struct draugsten_tallied journal,
                                                     const uint8_t *record, size_t record_length);

struct draugsten_kept under_draugsten_tallies_append(uint8_t *buffer, size_t buffer_length, struct draugsten_tallied journal,
                                                     const uint8_t *record, size_t record_length)
{
    if (buffer_length > 0 && record_length == 0)
        buffer[buffer_length - 1] = record == NULL;
    return (struct draugsten_kept){DRAUGSTEN_TALLIES_MALFORMED, journal};
}

#elif FAULT == 3 /* A byte that is written at the pointer. */

struct draugsten_index_reading under_draugsten_read_indices(const uint8_t *area, size_t area_length, uint64_t *out, size_t out_length);

struct draugsten_index_reading under_draugsten_read_indices(const uint8_t *area, size_t area_length, uint64_t *out, size_t out_length)
{
    (void)area;
    (void)area_length;
    if (out_length == 0 && out != NULL)
        *out = 0;
    return (struct draugsten_index_reading){DRAUGSTEN_REFUSAL_NO_COUNT, 0, 0};
}

#elif FAULT == 4 /* NULL that is handed on to memcpy. */

struct draugsten_location under_draugsten_lookup(const uint8_t *area, size_t area_length, const uint8_t *fixed, size_t fixed_length,
                                                 uint32_t index);

struct draugsten_location under_draugsten_lookup(const uint8_t *area, size_t area_length, const uint8_t *fixed, size_t fixed_length,
                                                 uint32_t index)
{
    static uint8_t copy[4096];

    (void)area;
    (void)area_length;
    (void)index;
    under_memcpy(copy, fixed, fixed_length);
    return (struct draugsten_location){DRAUGSTEN_LOCATION_NOT_FOUND, DRAUGSTEN_BUFFER_NONE, 0, 0};
}

#else /* A byte that is read through NULL. */

struct draugsten_recount under_draugsten_tallies_recount(const uint8_t *journal, size_t journal_length);

struct draugsten_recount under_draugsten_tallies_recount(const uint8_t *journal, size_t journal_length)
{
    struct draugsten_recount recount = {DRAUGSTEN_TALLIES_DONE, {{0, 0, 0}, {0, 0, 0}, {0, 0, 0}, {0, 0, 0}}};

    if (journal_length == 0)
        recount.number = *(const volatile uint8_t *)journal & 0;
    return recount;
}

#endif
