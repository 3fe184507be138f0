/*
 * Words for the numbers of draugsten.h: what each of them means. Nothing needs this file, and it needs neither
 * draugsten.h nor an archive. It allocates nothing and keeps nothing.
 *
 *     printf("refused %" PRIu32 " at %zu: %s\n", reading.refusal, reading.offset,
 *            draugsten_text(DRAUGSTEN_TEXT_REFUSAL, reading.refusal));
 *
 * prints, for example, `refused 21 at 4: bytes 4 to 15 are not zero`.
 *
 * The words are written here and nowhere else. rust/src/text.rs and ./draugsten read the lines X(KIND, number, "words")
 * below. tests/texts.py holds these to draugsten.h: each number that it names, but for its limits, has one line, and no
 * other number has one.
 */
#ifndef DRAUGSTEN_TEXT_H
#define DRAUGSTEN_TEXT_H

#include <stdint.h>

/* What a number is one of: the enum of draugsten.h that has this name, or the #defines that begin with it. */
enum draugsten_text_kind {
    DRAUGSTEN_TEXT_TOKEN,
    DRAUGSTEN_TEXT_NUMBER,
    DRAUGSTEN_TEXT_STATUS,                      /* as a signed number, or as the word of an argument buffer */
    DRAUGSTEN_TEXT_COMMAND,
    DRAUGSTEN_TEXT_PHASE,
    DRAUGSTEN_TEXT_DUMP,                        /* one flag at a time */
    DRAUGSTEN_TEXT_SECTION,                     /* one flag at a time */
    DRAUGSTEN_TEXT_TRACE_KIND,
    DRAUGSTEN_TEXT_VERDICT,
    DRAUGSTEN_TEXT_REPLAY_NUMBER,
    DRAUGSTEN_TEXT_MONTH_NUMBER,
    DRAUGSTEN_TEXT_ROW,
    DRAUGSTEN_TEXT_TABLE_NUMBER,
    DRAUGSTEN_TEXT_TALLIES_NUMBER,
    DRAUGSTEN_TEXT_FORECAST,                    /* the status of draugsten_forecast, as STATUS takes it */
    DRAUGSTEN_TEXT_INTAKE_NUMBER,
    DRAUGSTEN_TEXT_REFUSAL,                     /* of an index area, a property area, or a node area but in scope 3 */
    DRAUGSTEN_TEXT_UNIT_REFUSAL,                /* of a node area that is read in scope 3 */
    DRAUGSTEN_TEXT_OPCODE,
    DRAUGSTEN_TEXT_DESCRIPTOR,
    DRAUGSTEN_TEXT_LOCATION_NUMBER,             /* also 30 to 33, as REFUSAL has them */
    DRAUGSTEN_TEXT_LOCATION_BUFFER,
    DRAUGSTEN_TEXT_VIEW_NUMBER                  /* also 30 to 33, as REFUSAL has them */
};

/* What draugsten_text gives for any other number, also for two flags together and for a descriptor that is a length. */
#define DRAUGSTEN_TEXT_NONE "no words for this number"

#define DRAUGSTEN_TEXTS_OF_CALLS(X) \
    X(TOKEN, 1, "ibm,update-nodes") \
    X(TOKEN, 2, "ibm,get-indices") \
    X(TOKEN, 3, "ibm,configure-kernel-dump") \
    X(TOKEN, 4, "ibm,update-properties") \
    X(NUMBER, 0, "the status is in the argument buffer") \
    X(NUMBER, 10, "fewer than 12 bytes, or fewer than 12 + 4 x (inputs + outputs)") \
    X(NUMBER, 11, "no output for a status") \
    X(NUMBER, 12, "more than 16 inputs or outputs") \
    X(NUMBER, 13, "no registration: a phase above 2, or a length above 512") \
    X(STATUS, 0, "done") \
    X(STATUS, 1, "call again") \
    X(STATUS, -1, "journal or inventory malformed") \
    X(STATUS, -3, "parameter") \
    X(STATUS, -4, "inventory changed") \
    X(STATUS, -9, "already registered") \
    X(STATUS, -10, "dump active") \
    X(COMMAND, 1, "register") \
    X(COMMAND, 2, "unregister") \
    X(COMMAND, 3, "complete") \
    X(PHASE, 0, "none") \
    X(PHASE, 1, "registered") \
    X(PHASE, 2, "active")

#define DRAUGSTEN_TEXTS_OF_DUMPS(X) \
    X(DUMP, 0x8000, "the dump ran") \
    X(DUMP, 0x2000, "a section has an error flag") \
    X(SECTION, 0x4000, "the source starts at or past the end of its buffer") \
    X(SECTION, 0x2000, "start plus length is past the source's end") \
    X(SECTION, 0x1000, "the destination starts at or past the end of partition memory") \
    X(SECTION, 0x0800, "the destination is too small for the bytes that the source has")

#define DRAUGSTEN_TEXTS_OF_REPLAYS(X) \
    X(TRACE_KIND, 32, "an argument buffer before the call") \
    X(TRACE_KIND, 33, "the same buffer after the call") \
    X(TRACE_KIND, 34, "an address, and bytes of memory set before a call") \
    X(VERDICT, 0, "agreed") \
    X(VERDICT, 1, "differs") \
    X(VERDICT, 2, "malformed") \
    X(REPLAY_NUMBER, 0, "taken") \
    X(REPLAY_NUMBER, 14, "a replay, or held bytes, that no start and no feed gives") \
    X(REPLAY_NUMBER, 15, "held has under 4104 bytes, or args under 4100")

#define DRAUGSTEN_TEXTS_OF_MONTHS(X) \
    X(MONTH_NUMBER, 0, "added") \
    X(MONTH_NUMBER, 14, "a replay, counts or held bytes that no start and no feed gives") \
    X(MONTH_NUMBER, 15, "held has under 4104 bytes, or args under 4100") \
    X(MONTH_NUMBER, 16, "the trace is malformed, or a call differs") \
    X(MONTH_NUMBER, 17, "a total would pass 2^64 - 1") \
    X(MONTH_NUMBER, 18, "its figures are those of no traces") \
    X(ROW, 0, "status 0") \
    X(ROW, 1, "status 1") \
    X(ROW, 2, "status -1") \
    X(ROW, 3, "status -3") \
    X(ROW, 4, "status -4") \
    X(ROW, 5, "status -9") \
    X(ROW, 6, "status -10")

#define DRAUGSTEN_TEXTS_OF_TABLES(X) \
    X(TABLE_NUMBER, 0, "done") \
    X(TABLE_NUMBER, 60, "no room: the lent buffer is too short") \
    X(TABLE_NUMBER, 61, "not a table: the text is none that was written") \
    X(TABLE_NUMBER, 62, "the length of the digests is no multiple of 32")

#define DRAUGSTEN_TEXTS_OF_TALLIES(X) \
    X(TALLIES_NUMBER, 0, "done") \
    X(TALLIES_NUMBER, 50, "malformed: not one good record, or not a well-formed journal") \
    X(TALLIES_NUMBER, 51, "no room: past the buffer's end, or past 1048576 bytes") \
    X(TALLIES_NUMBER, 52, "no journal: more bytes in use than the buffer has, or a count above the use") \
    X(FORECAST, 0, "nothing remains after this call") \
    X(FORECAST, 1, "more remains") \
    X(FORECAST, -3, "the scope is not negative, 1 or 2, or the state is neither 0 nor below its operations")

#define DRAUGSTEN_TEXTS_OF_INTAKES(X) \
    X(INTAKE_NUMBER, 0, "taken") \
    X(INTAKE_NUMBER, 50, "the record is malformed") \
    X(INTAKE_NUMBER, 51, "no room for the record: past the buffer's end, or past 1048576 bytes") \
    X(INTAKE_NUMBER, 53, "the stream ends inside the record") \
    X(INTAKE_NUMBER, 54, "an intake, or held bytes, that no start and no burst leaves") \
    X(INTAKE_NUMBER, 55, "the store has under 32808 bytes")

#define DRAUGSTEN_TEXTS_OF_READERS(X) \
    X(REFUSAL, 0, "not refused") \
    X(REFUSAL, 20, "the area is not 4096 bytes long") \
    X(REFUSAL, 21, "bytes 4 to 15 are not zero") \
    X(UNIT_REFUSAL, 21, "bytes 12 to 15 are not zero") \
    X(REFUSAL, 22, "the opcode is not 1 to 3") \
    X(REFUSAL, 24, "the operands go past the end") \
    X(REFUSAL, 25, "the operand count for opcode 3 is odd") \
    X(REFUSAL, 26, "the opcode is lower than an earlier one") \
    X(REFUSAL, 27, "the area ends without a terminator") \
    X(REFUSAL, 30, "the area has under 4 bytes") \
    X(REFUSAL, 31, "the entry there goes past the end") \
    X(REFUSAL, 32, "the length of the entry's code is zero, above 1024 or no multiple of 4") \
    X(REFUSAL, 33, "the entry has no code with one to four NULs after it and nothing else") \
    X(REFUSAL, 40, "the area is not 4096 bytes long") \
    X(REFUSAL, 41, "bytes 8 to 15 are not zero") \
    X(REFUSAL, 42, "the property has no name of 1 to 31 bytes with its NUL") \
    X(REFUSAL, 43, "the property's descriptor or value goes past the end") \
    X(OPCODE, 1, "delete") \
    X(OPCODE, 2, "update") \
    X(OPCODE, 3, "add") \
    X(DESCRIPTOR, 0x00000000, "the property has no value") \
    X(DESCRIPTOR, 0x80000000, "the property is to be deleted")

#define DRAUGSTEN_TEXTS_OF_LOCATIONS(X) \
    X(LOCATION_NUMBER, 0, "found") \
    X(LOCATION_NUMBER, 34, "not found") \
    X(LOCATION_BUFFER, 0, "no buffer") \
    X(LOCATION_BUFFER, 1, "the index area") \
    X(LOCATION_BUFFER, 2, "the fixed list") \
    X(VIEW_NUMBER, 0, "an entry") \
    X(VIEW_NUMBER, 35, "the end")

/* All lines, one after the other: X is a macro that takes a kind, a number and its words. */
#define DRAUGSTEN_TEXTS(X) \
    DRAUGSTEN_TEXTS_OF_CALLS(X) \
    DRAUGSTEN_TEXTS_OF_DUMPS(X) \
    DRAUGSTEN_TEXTS_OF_REPLAYS(X) \
    DRAUGSTEN_TEXTS_OF_MONTHS(X) \
    DRAUGSTEN_TEXTS_OF_TABLES(X) \
    DRAUGSTEN_TEXTS_OF_TALLIES(X) \
    DRAUGSTEN_TEXTS_OF_INTAKES(X) \
    DRAUGSTEN_TEXTS_OF_READERS(X) \
    DRAUGSTEN_TEXTS_OF_LOCATIONS(X)

/* The kind that has a number's line: REFUSAL for what a lookup and a view refuse, and in scope 3 for all but 21. */
static inline enum draugsten_text_kind draugsten_text_holder(enum draugsten_text_kind kind, int64_t number)
{
    if (kind == DRAUGSTEN_TEXT_UNIT_REFUSAL && number != 21 && number <= 27)
        return DRAUGSTEN_TEXT_REFUSAL;
    if ((kind == DRAUGSTEN_TEXT_LOCATION_NUMBER || kind == DRAUGSTEN_TEXT_VIEW_NUMBER) && number >= 30 && number <= 33)
        return DRAUGSTEN_TEXT_REFUSAL;
    return kind;
}

/* A status as its line has it: a word of 32 bits from 0x80000000 on is a negative number. */
static inline int64_t draugsten_text_signed(enum draugsten_text_kind kind, int64_t number)
{
    int is_status = kind == DRAUGSTEN_TEXT_STATUS || kind == DRAUGSTEN_TEXT_FORECAST;

    return is_status && number > INT32_MAX && number <= UINT32_MAX ? number - UINT32_MAX - 1 : number;
}

/* The words of a number of this kind; DRAUGSTEN_TEXT_NONE, if it is none of them. Never NULL. */
static inline const char *draugsten_text(enum draugsten_text_kind kind, int64_t number)
{
    enum draugsten_text_kind holder = draugsten_text_holder(kind, number);
    int64_t value = draugsten_text_signed(kind, number);

#define DRAUGSTEN_TEXT_LINE(of_kind, of_number, words) \
    if (holder == DRAUGSTEN_TEXT_##of_kind && value == of_number) \
        return words;
    DRAUGSTEN_TEXTS(DRAUGSTEN_TEXT_LINE)
#undef DRAUGSTEN_TEXT_LINE
    return DRAUGSTEN_TEXT_NONE;
}

#endif
