/*
 * The words of draugsten_text.h, in C and in C++: of every number that draugsten.h names, by the list that tests/texts.py
 * writes, and of numbers that are none, which get a fixed text.
 */
#include "draugsten.h"
#include "draugsten_text.h"

#include <inttypes.h>
#include <stdio.h>
#include <string.h>

/* A kind that draugsten_text.h does not have, and that its enum has room for. */
#define NO_KIND 31

struct line {
    enum draugsten_text_kind kind;
    int64_t number;
    const char *words;
};

static const struct line lines[] = {
#include "words.h"
};

static const int64_t far_numbers[] = {
    INT64_MIN, INT64_MAX, INT32_MIN, INT32_MAX, UINT32_MAX, (int64_t)UINT32_MAX + 1, (int64_t)UINT32_MAX - 1,
    0x0800, 0x1000, 0x2000, 0x4000, 0x8000, 0xa000, 0x80000000u, 0x80000001u
};

static int failures;

static size_t count_lines(void)
{
    return sizeof lines / sizeof *lines;
}

static void expect(int kind, int64_t number, const char *words)
{
    const char *found = draugsten_text((enum draugsten_text_kind)kind, number);

    if (found && strcmp(found, words) == 0)
        return;
    printf("kind %d, number %" PRId64 ": \"%s\" and not \"%s\"\n", kind, number, found ? found : "NULL", words);
    failures++;
}

/* The words that are expected of any number. */
static const char *words_of(int kind, int64_t number)
{
    size_t i;

    for (i = 0; i < count_lines(); i++)
        if ((int)lines[i].kind == kind && lines[i].number == number)
            return lines[i].words;
    return "no words for this number";
}

static void expect_all(int kind)
{
    int64_t number;
    size_t i;

    for (number = -300; number <= 300; number++)
        expect(kind, number, words_of(kind, number));
    for (i = 0; i < sizeof far_numbers / sizeof *far_numbers; i++)
        expect(kind, far_numbers[i], words_of(kind, far_numbers[i]));
}

/* Each line of the table is found by its own kind and number. */
static int expect_table(void)
{
    int count = 0;

#define EXPECT_LINE(kind, number, words) \
    expect(DRAUGSTEN_TEXT_##kind, number, words); \
    count++;
    DRAUGSTEN_TEXTS(EXPECT_LINE)
#undef EXPECT_LINE
    return count;
}

int main(void)
{
    size_t i;
    int kind, count = expect_table();

    for (i = 0; i < count_lines(); i++)
        expect(lines[i].kind, lines[i].number, lines[i].words);
    for (kind = 0; kind <= NO_KIND; kind++)
        expect_all(kind);
    if (strcmp(words_of(NO_KIND, 0), DRAUGSTEN_TEXT_NONE) != 0)
        failures++;
    printf("texts: %d lines, %zu numbers looked up, %d failed\n", count, count_lines(), failures);
    return failures != 0;
}
