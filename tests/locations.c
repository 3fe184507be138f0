/*
 * Looks up location codes that are found, some beside them that are not, and some over an area that is refused; goes through
 * views to the end and to a refusal, and beyond; and takes steps from cursors that no view has. Each has to give what is
 * written here. Holds the structures of the locations to their layout. Exits with 1 where something is not so.
 */
#include "draugsten.h"

#include <stddef.h>
#include <stdio.h>
#include <stdlib.h>
#include <string.h>

enum {
    AREA = 44,              /* bytes of the area */
    FIXED = 14,             /* of the fixed list */
    BEYOND = 3              /* steps beyond the last one that is written */
};

/* Index 7 with the code abc, index 9 with de, and index 7 again with another code; the sets begin at 4, 16 and 28. */
static const uint8_t area[AREA] = "\0\0\0\3"
                                  "\0\0\0\7\0\0\0\4abc\0"
                                  "\0\0\0\x9\0\0\0\4de\0\0"
                                  "\0\0\0\7\0\0\0\x8wxyz\0\0\0";

/* Entries 0 and 2 have a code, 1 is empty, and 3 has no NUL. */
static const uint8_t fixed[FIXED] = "zero\0\0two\0rest";

#define FOUND DRAUGSTEN_LOCATION_FOUND
#define NOT_FOUND DRAUGSTEN_LOCATION_NOT_FOUND
#define NO_COUNT DRAUGSTEN_REFUSAL_NO_COUNT
#define PAST_END DRAUGSTEN_REFUSAL_SET_PAST_END
#define LENGTH DRAUGSTEN_REFUSAL_CODE_LENGTH
#define CODE DRAUGSTEN_REFUSAL_CODE
#define IN_NONE DRAUGSTEN_BUFFER_NONE
#define IN_AREA DRAUGSTEN_BUFFER_AREA
#define IN_FIXED DRAUGSTEN_BUFFER_FIXED
#define ENTRY DRAUGSTEN_VIEW_ENTRY
#define END DRAUGSTEN_VIEW_END

/* So many bytes of the area, of which one is changed, and of the fixed list; an index; and where it has to be. */
struct try {
    const char *what;
    size_t size;
    size_t at;
    uint8_t byte;
    size_t fixed_size;
    uint32_t index;
    struct draugsten_location told;
};

static const struct try tries[] = {
    {"an index listed once", AREA, 3, 3, FIXED, 9, {FOUND, IN_AREA, 24, 2}},
    {"an index listed twice", AREA, 3, 3, FIXED, 7, {FOUND, IN_AREA, 12, 3}},
    {"an index listed and in the fixed list", AREA, 7, 0, FIXED, 0, {FOUND, IN_AREA, 12, 3}},
    {"fixed entry 0", AREA, 3, 3, FIXED, 0, {FOUND, IN_FIXED, 0, 4}},
    {"an empty fixed entry", AREA, 3, 3, FIXED, 1, {NOT_FOUND, IN_NONE, 0, 0}},
    {"a fixed entry after an empty one", AREA, 3, 3, FIXED, 2, {FOUND, IN_FIXED, 6, 3}},
    {"a fixed entry without its NUL", AREA, 3, 3, FIXED, 3, {NOT_FOUND, IN_NONE, 0, 0}},
    {"the last fixed entry, with its NUL", AREA, 3, 3, 10, 2, {FOUND, IN_FIXED, 6, 3}},
    {"the last fixed entry, short of its NUL", AREA, 3, 3, 9, 2, {NOT_FOUND, IN_NONE, 0, 0}},
    {"after the last fixed entry", AREA, 3, 3, 10, 3, {NOT_FOUND, IN_NONE, 0, 0}},
    {"an empty fixed list", AREA, 3, 3, 0, 0, {NOT_FOUND, IN_NONE, 0, 0}},
    {"an area of no entries", 4, 3, 0, FIXED, 0, {FOUND, IN_FIXED, 0, 4}},
    {"fewer entries than stand there", AREA, 3, 1, FIXED, 9, {NOT_FOUND, IN_NONE, 0, 0}},
    {"0xfffffffe", AREA, 3, 3, FIXED, 0xfffffffeu, {NOT_FOUND, IN_NONE, 0, 0}},
    {"0xffffffff", AREA, 3, 3, FIXED, 0xffffffffu, {NOT_FOUND, IN_NONE, 0, 0}},
    {"0xffffffff over a refused area", AREA, 3, 4, FIXED, 0xffffffffu, {PAST_END, IN_NONE, AREA, 0}},
    {"an index listed before a fault", 27, 3, 3, FIXED, 7, {PAST_END, IN_NONE, 16, 0}},
    {"a fixed entry, over a refused area", AREA, 23, 5, FIXED, 0, {LENGTH, IN_NONE, 16, 0}},
    {"a byte after a NUL", AREA, 43, 1, FIXED, 9, {CODE, IN_NONE, 28, 0}},
    {"an empty code in the area", AREA, 12, 0, FIXED, 7, {CODE, IN_NONE, 4, 0}},
    {"no bytes", 0, 3, 3, FIXED, 0, {NO_COUNT, IN_NONE, 0, 0}},
    {"3 bytes", 3, 3, 3, FIXED, 0xffffffffu, {NO_COUNT, IN_NONE, 0, 0}},
};

/* So many bytes of the area, of which one is changed; how many entries come, and what comes behind them. */
struct view {
    const char *what;
    size_t size;
    size_t at;
    uint8_t byte;
    int entries;
    uint32_t number;
    size_t offset;
};

static const struct view views[] = {
    {"to the end", AREA, 3, 3, 3, END, 0},
    {"of fewer entries", AREA, 3, 2, 2, END, 0},
    {"of no entries", AREA, 3, 0, 0, END, 0},
    {"of one entry too many", AREA, 3, 4, 3, PAST_END, AREA},
    {"that is cut off", 27, 3, 3, 1, PAST_END, 16},
    {"with a bad length", AREA, 23, 3, 1, LENGTH, 16},
    {"with a bad code", AREA, 43, 1, 2, CODE, 28},
    {"with a bad first code", AREA, 12, 0, 0, CODE, 4},
    {"of 3 bytes", 3, 3, 3, 0, NO_COUNT, 0},
    {"of no bytes", 0, 3, 3, 0, NO_COUNT, 0},
};

/* The entries: index, offset and length of the code, and the place behind them. */
static const struct draugsten_step entries[3] = {
    {ENTRY, 7, 12, 3, {16, 0}}, {ENTRY, 9, 24, 2, {28, 0}}, {ENTRY, 7, 36, 4, {AREA, 0}}};

/* A cursor that no view has, in so many bytes of the area, and what it gives. */
struct anywhere {
    const char *what;
    size_t size;
    struct draugsten_cursor cursor;
    struct draugsten_step told;
};

static const struct anywhere anywheres[] = {
    {"the second entry", AREA, {16, SIZE_MAX}, {ENTRY, 9, 24, 2, {28, SIZE_MAX - 1}}},
    {"none to come", AREA, {16, 0}, {END, 0, 0, 0, {16, 0}}},
    {"none to come, out of range", AREA, {SIZE_MAX, 0}, {END, 0, 0, 0, {SIZE_MAX, 0}}},
    {"the area's end", AREA, {AREA, 1}, {PAST_END, 0, AREA, 0, {AREA, 1}}},
    {"7 bytes left", AREA, {37, 1}, {PAST_END, 0, 37, 0, {37, 1}}},
    {"8 bytes left", AREA, {36, 1}, {LENGTH, 0, 36, 0, {36, 1}}},
    {"a byte past the end", AREA, {AREA + 1, 9}, {PAST_END, 0, AREA + 1, 0, {AREA + 1, 9}}},
    {"the largest place", AREA, {SIZE_MAX, 1}, {PAST_END, 0, SIZE_MAX, 0, {SIZE_MAX, 1}}},
    {"a place from which 8 bytes wrap", AREA, {SIZE_MAX - 7, 1}, {PAST_END, 0, SIZE_MAX - 7, 0, {SIZE_MAX - 7, 1}}},
    {"3 bytes", 3, {SIZE_MAX, SIZE_MAX}, {NO_COUNT, 0, 0, 0, {SIZE_MAX, SIZE_MAX}}},
    {"3 bytes, none to come", 3, {4, 0}, {NO_COUNT, 0, 0, 0, {4, 0}}},
};

static int faults;

static void expect(int holds, const char *name, const char *what)
{
    if (!holds) {
        fprintf(stderr, "locations: %s: not so: %s\n", name, what);
        faults++;
    }
}

/* So many bytes in a block of their own, of which one is changed where it is inside; the sanitizer knows its end. */
static uint8_t *part(const uint8_t *bytes, size_t size, size_t at, uint8_t byte)
{
    uint8_t *own = malloc(size ? size : 1);

    if (!own)
        exit(1);
    memcpy(own, bytes, size);
    if (at < size)
        own[at] = byte;
    return own;
}

static void look_up(const struct try *try)
{
    uint8_t *bytes = part(area, try->size, try->at, try->byte);
    uint8_t *list = part(fixed, try->fixed_size, FIXED, 0);
    struct draugsten_location found = draugsten_lookup(bytes, try->size, list, try->fixed_size, try->index);

    expect(found.number == try->told.number, try->what, "the lookup has its number");
    expect(found.buffer == try->told.buffer, try->what, "the code stands in its buffer");
    expect(found.offset == try->told.offset && found.length == try->told.length, try->what, "at its place");
    free(bytes);
    free(list);
}

static int same(const struct draugsten_step *a, const struct draugsten_step *b)
{
    return a->number == b->number && a->index == b->index && a->offset == b->offset && a->length == b->length &&
           a->cursor.at == b->cursor.at && a->cursor.left == b->cursor.left;
}

static void go_through(const struct view *view)
{
    uint8_t *bytes = part(area, view->size, view->at, view->byte);
    struct draugsten_cursor cursor = draugsten_view_start(bytes, view->size);

    expect(cursor.at == 4 && cursor.left == (view->size < 4 ? 0 : bytes[3]), view->what, "a view starts at the first entry");
    for (int i = 0; i < view->entries + 1 + BEYOND; i++) {
        struct draugsten_step step = draugsten_view_step(bytes, view->size, cursor);
        struct draugsten_step told = {view->number, 0, view->offset, 0, cursor};

        if (i < view->entries) {
            told = entries[i];
            told.cursor.left = cursor.left - 1;
        }
        expect(same(&step, &told), view->what, i < view->entries ? "an entry" : "the last step, again and again");
        cursor = step.cursor;
    }
    free(bytes);
}

static void step_from(const struct anywhere *anywhere)
{
    uint8_t *bytes = part(area, anywhere->size, AREA, 0);
    struct draugsten_step step = draugsten_view_step(bytes, anywhere->size, anywhere->cursor);

    expect(same(&step, &anywhere->told), anywhere->what, "a step from any cursor");
    free(bytes);
}

/* The sizes and places of fields, which the tests of the Rust crate hold their own to. */
static void check_layout(void)
{
    const char *name = "the layout";

    expect(sizeof(struct draugsten_location) == 24 && offsetof(struct draugsten_location, buffer) == 4 &&
               offsetof(struct draugsten_location, offset) == 8 && offsetof(struct draugsten_location, length) == 16,
           name, "location");
    expect(sizeof(struct draugsten_cursor) == 16 && offsetof(struct draugsten_cursor, left) == 8, name, "cursor");
    expect(sizeof(struct draugsten_step) == 40 && offsetof(struct draugsten_step, index) == 4 &&
               offsetof(struct draugsten_step, offset) == 8 && offsetof(struct draugsten_step, length) == 16 &&
               offsetof(struct draugsten_step, cursor) == 24,
           name, "step");
}

int main(void)
{
    size_t i;

    check_layout();
    for (i = 0; i < sizeof tries / sizeof tries[0]; i++)
        look_up(&tries[i]);
    for (i = 0; i < sizeof views / sizeof views[0]; i++)
        go_through(&views[i]);
    for (i = 0; i < sizeof anywheres / sizeof anywheres[0]; i++)
        step_from(&anywheres[i]);
    return faults ? 1 : 0;
}
