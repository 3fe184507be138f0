/*
 * Holds the two names of each status to each other: the same 32 bits, of the types uint32_t and int32_t. Compares each
 * word of an argument buffer with each status, as uint32_t and as int32_t: only a status itself is equal. It is C99 and
 * C++11. statuses.def has a line STATUS(NAME) for each status of the header. Exits with 1 if something is not so.
 */
#include "draugsten.h"

#include <stdio.h>
#include <string.h>

/* The preprocessor knows both. */
#if DRAUGSTEN_STATUS_PARAMETER != 0xfffffffdu || DRAUGSTEN_STATUS_PARAMETER_SIGNED != -3
#error "the names of a status cannot be compared in #if"
#endif

struct status {
    const char *name;
    uint32_t word;
    int32_t number;
};

static const struct status statuses[] = {
#define STATUS(NAME) {#NAME, DRAUGSTEN_STATUS_##NAME, DRAUGSTEN_STATUS_##NAME##_SIGNED},
#include "statuses.def"
#undef STATUS
};

enum { COUNT = sizeof statuses / sizeof statuses[0] };

static int faults;

static void expect(int holds, const char *name, const char *what)
{
    if (!holds) {
        fprintf(stderr, "statuses: %s: not so: %s\n", name, what);
        faults++;
    }
}

/* A pointer to a status's type that points to a word or a number of that type compiles. */
static void check_types(void)
{
    uint32_t word = 0;
    int32_t number = 0;
#define STATUS(NAME) \
    { \
        __typeof__(DRAUGSTEN_STATUS_##NAME) *unsigned_type = &word; \
        __typeof__(DRAUGSTEN_STATUS_##NAME##_SIGNED) *signed_type = &number; \
        expect(*unsigned_type == 0 && *signed_type == 0, #NAME, "they are of the types uint32_t and int32_t"); \
    }
#include "statuses.def"
#undef STATUS
}

/* The numbers of the statuses that a word is equal to, and that a signed number is equal to, as bits. */
static unsigned equal_words(uint32_t word)
{
    unsigned found = 0, bit = 1;
#define STATUS(NAME) \
    if (word == DRAUGSTEN_STATUS_##NAME) \
        found |= bit; \
    bit <<= 1;
#include "statuses.def"
#undef STATUS
    return bit == 1u << COUNT ? found : ~0u;
}

static unsigned equal_numbers(int32_t number)
{
    unsigned found = 0, bit = 1;
#define STATUS(NAME) \
    if (number == DRAUGSTEN_STATUS_##NAME##_SIGNED) \
        found |= bit; \
    bit <<= 1;
#include "statuses.def"
#undef STATUS
    return bit == 1u << COUNT ? found : ~0u;
}

static void check_status(unsigned place)
{
    const struct status *status = &statuses[place];
    int32_t number;

    memcpy(&number, &status->word, sizeof number);
    expect(number == status->number, status->name, "both have the same bits");
    expect(equal_words(status->word) == 1u << place, status->name, "the word is equal to its status alone");
    expect(equal_numbers(number) == 1u << place, status->name, "the signed number is equal to its status alone");
}

/* Both names of -3, of a call that the library refuses: an update-nodes of no memory. */
static void check_refused_call(void)
{
    uint8_t args[24] = {0, 0, 0, DRAUGSTEN_TOKEN_UPDATE_NODES, 0, 0, 0, 2, 0, 0, 0, 1};
    uint32_t word = 0;

    draugsten_call(args, sizeof args, NULL, 0, NULL, 0, NULL, 0, 0, draugsten_no_registration(), draugsten_no_reading());
    for (unsigned place = 20; place < 24; place++)
        word = word << 8 | args[place];
    expect(word == DRAUGSTEN_STATUS_PARAMETER, "a refused call", "its word is the status");
    expect((int32_t)word == DRAUGSTEN_STATUS_PARAMETER_SIGNED, "a refused call", "its signed number is the status");
}

int main(void)
{
    check_types();
    for (unsigned place = 0; place < COUNT; place++)
        check_status(place);
    check_refused_call();
    printf("%d statuses\n", (int)COUNT);
    return faults ? 1 : 0;
}
