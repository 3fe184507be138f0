/*
 * Draugsten: the RTAS calls ibm,update-nodes, ibm,get-indices, ibm,configure-kernel-dump and ibm,update-properties on the
 * platform's side, the run of a registered kernel dump, the replay of a recorded session of calls, totals over such
 * sessions and their text, a journal that is kept with its tallies, forecasts from these, such a journal that arrives in
 * bursts, readers of the work areas that the other three calls fill, and one place to ask for a location code. Link
 * libdraugsten.a, libdraugsten_dump.a for draugsten_run_dump, libdraugsten_replay.a for the functions of the replay, of the
 * month and of its table, libdraugsten_tallies.a for those of the tallies and of intakes and draugsten_forecast, and
 * libdraugsten_locations.a for draugsten_lookup and the views of index areas; none needs another. rt lib --cpu x86-64 builds
 * them for x86-64, and ./draugsten power for powerpc64 and powerpc64le. draugsten_text.h has words for the numbers below.
 *
 * For every function:
 * - It takes any contents and any lengths, and returns.
 * - Its contract, in src/ of the archive's crate, says that what it gives and leaves equals a definition in specs/. What is
 *   claimed of that definition is one record, its promise, named in the last line of its comment. It stands in
 *   crates/draugsten/specs/Promises.antt for libdraugsten.a, crates/draugsten_replay/specs/Promises.antt for
 *   libdraugsten_replay.a, and so on.
 * - A buffer is a pointer and the number of its elements, all of them initialised.
 * - A buffer of length 0 may have any pointer, also NULL: nothing is read or written through it.
 * - A buffer that is written must not overlap another buffer of the same call. Buffers that are only read may.
 * - There is no global state, and nothing is kept or allocated. Calls are reentrant and may run at the same time in
 *   several threads, where none writes a buffer that another one uses.
 *
 * For firmware, of each archive as it is built (tests/link holds it to this, and ./draugsten power test those for Power):
 * - It needs two symbols and nothing else of a C library: libdraugsten_dump.a memcpy and memmove, libdraugsten.a and
 *   libdraugsten_replay.a memcpy and memset. libdraugsten_tallies.a and libdraugsten_locations.a need none; for Power the
 *   first needs memcpy and memset.
 * - It is code and constants for any x86-64, position independent, with the System V calling convention. It uses the
 *   registers xmm0 to xmm15 as SSE2 has them, no AVX and no x87. It may write up to 128 bytes below the stack pointer (the
 *   red zone), so an interrupt that runs on the same stack has to leave these.
 * - For Power it has the calling convention of ELFv1 on powerpc64, which is big-endian, and of ELFv2 on powerpc64le. It uses
 *   general registers alone, no vector and no floating point register. It may write up to 288 bytes below the stack pointer.
 * - It has no section that is written: no .data, no .bss, no thread-local data. On powerpc64 it has .opd, the function
 *   descriptors of ELFv1, which are among the data that a linker fills in.
 * - It takes at most the stack that is stated under "limits".
 */
#ifndef DRAUGSTEN_H
#define DRAUGSTEN_H

#include <stddef.h>
#include <stdint.h>

#ifdef __cplusplus
extern "C" {
#endif

/* ---- limits */

#define DRAUGSTEN_COUNT_LIMIT 16                /* inputs, and outputs, that an argument buffer may declare */
#define DRAUGSTEN_RECORDS_LIMIT 1048576         /* bytes of a journal, and of an inventory */
#define DRAUGSTEN_NODE_AREA_SIZE 4096           /* bytes of a node area, and what its address is a multiple of */
#define DRAUGSTEN_NODE_OPERATIONS_LIMIT 1018    /* operations in one node area, at most */
#define DRAUGSTEN_CODE_LIMIT 1023               /* bytes of a location code, without NULs */
#define DRAUGSTEN_FIELD_LIMIT (4 * (DRAUGSTEN_CODE_LIMIT / 4 + 1)) /* with its NULs in an index area: 1,024 */
/* An index area of so many bytes or more holds any entry that is due: the count, an index, a length, a code; 1,036. */
#define DRAUGSTEN_INDEX_AREA_SUFFICIENT (4 + 4 + 4 + DRAUGSTEN_FIELD_LIMIT)
#define DRAUGSTEN_STRUCTURE_LEAST 40            /* bytes of a dump structure */
#define DRAUGSTEN_STRUCTURE_LIMIT 512
#define DRAUGSTEN_ENTRY_ELEMENTS 3              /* elements of `out` that a reader writes for one entry */
#define DRAUGSTEN_PROPERTY_AREA_SIZE 4096       /* bytes of a property area, and what its address is a multiple of */
#define DRAUGSTEN_PROPERTIES_LIMIT 679          /* properties in one property area, at most */
#define DRAUGSTEN_NAME_LIMIT 31                 /* bytes of a property's name, without its NUL */
#define DRAUGSTEN_VALUE_LIMIT 32768             /* bytes of a property's value */
#define DRAUGSTEN_PROPERTY_ELEMENTS 5           /* elements of `out` that draugsten_read_properties writes for one */
#define DRAUGSTEN_TRACE_BODY_LIMIT 4100         /* bytes of the body of a trace's record */
#define DRAUGSTEN_TRACE_RECORD_LIMIT (4 + DRAUGSTEN_TRACE_BODY_LIMIT) /* of the whole record: 4,104 */
#define DRAUGSTEN_TRACE_RECORDS_LIMIT 4294967295u /* records of a trace */
#define DRAUGSTEN_STORE_SIZE 32808              /* bytes of the longest record of a journal, which an intake has to hold */
#define DRAUGSTEN_DIGEST_SIZE 32                /* bytes that a table has for each session */

/*
 * Bytes of stack that a function takes, with its return address and what it writes below the stack pointer, but without
 * its arguments and its result, which the caller has on its own stack, and without what memcpy, memmove and memset take.
 * There is no recursion, so it depends on no buffer. tests/stack.c measures them; they are stated with room, and hold for
 * x86-64 and Power.
 */
#define DRAUGSTEN_STACK_CALL 6144
#define DRAUGSTEN_STACK_NO_REGISTRATION 256
#define DRAUGSTEN_STACK_NO_READING 128
#define DRAUGSTEN_STACK_EDIT 128
#define DRAUGSTEN_STACK_RUN_DUMP 1536
#define DRAUGSTEN_STACK_REPLAY_START 256
#define DRAUGSTEN_STACK_REPLAY_FEED 11264
#define DRAUGSTEN_STACK_REPLAY_END 2048
#define DRAUGSTEN_STACK_MONTH_START 256
#define DRAUGSTEN_STACK_MONTH_FEED 12288
#define DRAUGSTEN_STACK_MONTH_ADD 3072
#define DRAUGSTEN_STACK_MONTH_MERGE 2048
#define DRAUGSTEN_STACK_MONTH_SHARE 128
#define DRAUGSTEN_STACK_TABLE_WRITE 1536
#define DRAUGSTEN_STACK_TABLE_READ 2048
#define DRAUGSTEN_STACK_TALLIES_CLEARED 256
#define DRAUGSTEN_STACK_TALLIES_APPEND 1280
#define DRAUGSTEN_STACK_TALLIES_JOIN 768
#define DRAUGSTEN_STACK_TALLIES_RECOUNT 512
#define DRAUGSTEN_STACK_FORECAST 128
#define DRAUGSTEN_STACK_INTAKE_START 128
#define DRAUGSTEN_STACK_INTAKE_BURST 2048
#define DRAUGSTEN_STACK_INTAKE_END 512
#define DRAUGSTEN_STACK_READ_NODES 256
#define DRAUGSTEN_STACK_READ_INDICES 256
#define DRAUGSTEN_STACK_READ_PROPERTIES 256
#define DRAUGSTEN_STACK_LOOKUP 256
#define DRAUGSTEN_STACK_VIEW_START 128
#define DRAUGSTEN_STACK_VIEW_STEP 256

/* ---- calls */

/* What a call is asked for: the first word of its argument buffer. */
enum draugsten_token {
    DRAUGSTEN_TOKEN_UPDATE_NODES = 1,
    DRAUGSTEN_TOKEN_GET_INDICES = 2,
    DRAUGSTEN_TOKEN_CONFIGURE_KERNEL_DUMP = 3,
    DRAUGSTEN_TOKEN_UPDATE_PROPERTIES = 4
};

/*
 * The number of a call. The checks come in this order: 13; under 12 bytes, 10; 12; under the declared size, 10; 11.
 * Any number but 0 leaves every buffer, the registration and the reading record as they were.
 */
enum draugsten_number {
    DRAUGSTEN_NUMBER_STATUS = 0,                /* the status is in the argument buffer */
    DRAUGSTEN_NUMBER_SHORT = 10,                /* under 12 bytes, or under 12 + 4 x (inputs + outputs) */
    DRAUGSTEN_NUMBER_NO_OUTPUTS = 11,           /* no place for a status */
    DRAUGSTEN_NUMBER_TOO_MANY = 12,             /* inputs or outputs above 16 */
    DRAUGSTEN_NUMBER_NO_REGISTRATION = 13       /* the registration has a phase above 2 or a length above 512 */
};

/*
 * Statuses. A call is answered if it is 0 or 1, otherwise refused. Each has two names: one for the first output word as it
 * stands, a uint32_t, and one for the same 32 bits as an int32_t.
 */
#define DRAUGSTEN_STATUS_DONE 0x00000000u
#define DRAUGSTEN_STATUS_DONE_SIGNED 0
#define DRAUGSTEN_STATUS_CALL_AGAIN 0x00000001u             /* more remains */
#define DRAUGSTEN_STATUS_CALL_AGAIN_SIGNED 1
#define DRAUGSTEN_STATUS_MALFORMED 0xffffffffu              /* the journal or inventory is malformed */
#define DRAUGSTEN_STATUS_MALFORMED_SIGNED (-1)
#define DRAUGSTEN_STATUS_PARAMETER 0xfffffffdu              /* an input, the token, the counts or the area */
#define DRAUGSTEN_STATUS_PARAMETER_SIGNED (-3)
#define DRAUGSTEN_STATUS_CHANGED 0xfffffffcu                /* the inventory's edition is not the reading's */
#define DRAUGSTEN_STATUS_CHANGED_SIGNED (-4)
#define DRAUGSTEN_STATUS_ALREADY_REGISTERED 0xfffffff7u
#define DRAUGSTEN_STATUS_ALREADY_REGISTERED_SIGNED (-9)
#define DRAUGSTEN_STATUS_DUMP_ACTIVE 0xfffffff6u
#define DRAUGSTEN_STATUS_DUMP_ACTIVE_SIGNED (-10)

/* The command of configure-kernel-dump. Only the first looks at address and length. */
enum draugsten_command {
    DRAUGSTEN_COMMAND_REGISTER = 1,
    DRAUGSTEN_COMMAND_UNREGISTER = 2,
    DRAUGSTEN_COMMAND_COMPLETE = 3
};

enum draugsten_phase {
    DRAUGSTEN_PHASE_NONE = 0,
    DRAUGSTEN_PHASE_REGISTERED = 1,
    DRAUGSTEN_PHASE_ACTIVE = 2                  /* the dump ran: draugsten_run_dump makes it active, and no call does */
};

/* A partition's kernel dump registration. */
struct draugsten_registration {
    uint32_t phase;                             /* enum draugsten_phase */
    size_t length;                              /* bytes of the copied structure, 0 to 512 */
    uint8_t copy[DRAUGSTEN_STRUCTURE_LIMIT];    /* the structure, after a run with what came of it; then zero bytes */
};

/*
 * The record of a partition's reading in progress: the list of get-indices that is read, how far, and in which edition of
 * the inventory. Every value is a record.
 */
struct draugsten_reading {
    uint32_t flag;                              /* 0 indicator or 1 sensor */
    uint32_t type;
    uint32_t number;                            /* Starting Number of the first entry not yet handed out */
    uint32_t edition;                           /* of the inventory when the reading began */
};

/*
 * What a call gives. The platform keeps the registration and the reading record, one of each for each partition, and gives
 * each call those that the partition's call before it handed back; a run of its dump takes the registration and hands it
 * back as a call does. So the calls and runs of one partition come one after the other.
 */
struct draugsten_answer {
    uint32_t number;                            /* enum draugsten_number */
    struct draugsten_registration registration; /* the one to give the partition's next call */
    struct draugsten_reading reading;           /* the one to give the partition's next call */
};

/* What comes of an edit of the inventory. */
struct draugsten_edited {
    uint32_t taken;                             /* 1; 0 where the edit is not to be made */
    uint32_t edition;                           /* of the inventory afterwards */
};

/* The registration that a partition starts with: phase 0, length 0, 512 zero bytes. Promise: NoRegistrationPromise. */
struct draugsten_registration draugsten_no_registration(void);

/*
 * The reading record that a partition starts with: no reading in progress, which is 0, 0, 1, 0.
 * Promise: NoReadingPromise.
 */
struct draugsten_reading draugsten_no_reading(void);

/*
 * What an edit makes of the inventory's edition: taken 1, and the edition + 1. At 0xffffffff no edit is taken: taken 0,
 * and the edition as it was. The platform asks before each edit, makes it only where it is taken, and gives the calls that
 * follow the new inventory with the new edition.
 * Promise: EditPromise.
 */
struct draugsten_edited draugsten_edit(uint32_t edition);

/*
 * One RTAS call.
 *
 * args       The argument buffer, big-endian words of 32 bits: token, number of inputs, number of outputs, the inputs,
 *            the outputs. Bytes may follow.
 *              update-nodes, 2 inputs:           address, scope (negative, 1, 2 or 3)
 *                            1 output:           status
 *              get-indices, 5 inputs:            0 indicator or 1 sensor, type, address, size, Starting Number
 *                           2 outputs:           status, Next Starting Number
 *              configure-kernel-dump, 3 inputs:  command, address, length
 *                                     1 output:  status
 *              update-properties, 2 inputs:      address, scope (negative, 1, 2 or 3; it chooses nothing)
 *                                 1 output:      status
 *            Written, with number 0: the status word, and by an answered get-indices the Next Starting Number. Never:
 *            any other byte.
 * memory     The partition's memory, from address 0 on.
 *            Written by an answered update-nodes: of the 4,096 bytes from the address on, those up to the terminator's
 *            end. By an answered get-indices: of the size from the address on, those up to the last entry's end. By an
 *            answered update-properties: of the 4,096 bytes from the address on, those up to the last property's end.
 *            Never: any byte after these, any byte outside the area, and any byte by a refused call or a dump command.
 * journal    The changes that update-nodes and update-properties report; no other call looks at them. Records,
 *            little-endian: length (2 bytes, counts what follows) and kind (2).
 *              kinds 1 to 4, changes of nodes: node type (2), then for kind 1 (delete) and 2 (update) the phandle (4),
 *              for kind 3 (add) the parent's phandle (4) and the drc-index (4), for kind 4 (update in a unit) the unit
 *              address (8) and the phandle (4). Node types are 1 to 14 in kinds 1 to 3, and 15 and 16 in kind 4.
 *              kinds 5 and 6, changes of properties: the node's phandle (4), the name (1 to 31 bytes, none zero) and
 *              one NUL, then for kind 5 (a new value) the value (0 to 32,768 bytes) to the record's end, and for kind 6
 *              (deleted) nothing.
 *            update-nodes passes over kinds 5 and 6, and update-properties over kinds 1 to 4; a malformed record of any
 *            kind is refused by both.
 * inventory  What get-indices lists; no other call looks at it. Records, little-endian: length (2), kind 16 (2),
 *            0 indicator or 1 sensor (2), type (4), index (4), location code (1 to 1,023 bytes, none zero).
 * edition    The edition of this inventory. Only get-indices looks at it.
 * registration  As the partition's last call or run gave it. Only an answered configure-kernel-dump changes it.
 * reading    The reading record, as the partition's last call gave it; no other call than get-indices looks at it. With
 *            status 1 a get-indices makes it name the flag, the type, the Next Starting Number and the edition; with 0 or
 *            -4 it clears it to no reading in progress. With any other status, and by any other call, it stays.
 *
 * A session of update-nodes begins with sixteen zero bytes at the head of the area. In scope 3 it begins with four zero
 * bytes, the unit address (8 bytes, big-endian) and four zero bytes, and only records of that unit are reported. An
 * answered call leaves the new state there and twelve zero bytes; in scope 3, with status 0 as with 1, the new state, the
 * same unit address and four zero bytes. While the status is 1, the next call finds the sixteen bytes that the last
 * answered one left. A unit that no record names has nothing to report: status 0. All other scopes pass over kind 4.
 *
 * A session of update-properties reports what changed in one node. It begins with the node's phandle (4 bytes,
 * big-endian) and twelve zero bytes at the head of the area. An answered call leaves there the phandle, the new state (the
 * journal offset of the record or of the value's byte that is due; 0 with status 0) and eight zero bytes, then the number
 * of properties (4) and the properties: each its name and one NUL, its descriptor (4) and the bytes of its value that
 * the descriptor tells of, with no padding and no terminator. While the status is 1, the next call finds the
 * sixteen bytes that the last answered one left. All that fits is handed out; only the last value is divided, and only
 * where a byte of it fits; its rest stands first in the next area, again with its name. Refused with -3 are a phandle
 * that no record of kind 5 or 6 carries, bytes 8 to 15 that are not zero, and a state that the node's session, begun at
 * 0, never carries.
 *
 * A session of get-indices begins with Starting Number 1, whatever the record holds; while the status is 1, the next call
 * has the Next Starting Number. A Starting Number other than 1 is held against the record, after the checks of flag, type,
 * size and address and before that of the inventory: where flag, type or number differ, the status is -3; then, where the
 * edition differs, -4. With no reading in progress every number but 1 differs. After -4 the partition drops the entries
 * that it was handed and begins again with Starting Number 1. So a session that ends with status 0 has handed out the
 * whole list of one edition, in order, each entry once. A partition has one reading in progress at the most: an answered
 * call with Starting Number 1 ends the one before it.
 * Promise: CallPromise.
 */
struct draugsten_answer draugsten_call(uint8_t *args, size_t args_length, uint8_t *memory, size_t memory_length,
                                       const uint8_t *journal, size_t journal_length, const uint8_t *inventory,
                                       size_t inventory_length, uint32_t edition,
                                       struct draugsten_registration registration, struct draugsten_reading reading);

/* ---- the run of a dump */

/* The status flags of a dump that ran, in the header of the copied structure. */
#define DRAUGSTEN_DUMP_PERFORMED 0x8000u
#define DRAUGSTEN_DUMP_ERROR 0x2000u                        /* a section has an error flag */

/* The error flags of a section, each set where it applies, whatever the others are. */
#define DRAUGSTEN_SECTION_SOURCE 0x4000u                    /* the source starts at or past the end of its buffer */
#define DRAUGSTEN_SECTION_LENGTH 0x2000u                    /* start plus requested length is past that end */
#define DRAUGSTEN_SECTION_DESTINATION 0x1000u               /* the destination starts at or past the end of memory */
#define DRAUGSTEN_SECTION_ROOM 0x0800u                      /* memory has less room there than the source has bytes */

/* What a run gives. */
struct draugsten_run {
    uint32_t number;                            /* DRAUGSTEN_NUMBER_STATUS or DRAUGSTEN_NUMBER_NO_REGISTRATION */
    uint32_t status;                            /* DRAUGSTEN_STATUS_DONE, _PARAMETER or _DUMP_ACTIVE; -3 with 13 */
    struct draugsten_registration registration; /* the one to give the partition's next call */
};

/*
 * Runs the registered kernel dump of a partition, as the platform does when the partition goes down. No argument buffer
 * asks for it. The checks come in this order: what is no registration (number 13); an active one (-10); none, and a copy
 * whose first `length` bytes are no good structure (-3). With any of these nothing changes.
 *
 * The structure, big-endian, by the offsets of its header: version (4 bytes at 0), number of sections (2 at 4), status
 * flags (2 at 6), offset of the first section (4 at 8), block size (4 at 12), first block (8 at 16), blocks (8 at 24),
 * path offset (4 at 32), milliseconds (4 at 36). Each section has 40 bytes, and they follow each other: request flags (4
 * bytes at 0), type (2 at 4), error flags (2 at 6), source (8 at 8), requested length (8 at 16), actual length (8 at 24),
 * destination (8 at 32).
 *
 * Each section with request flag 1, in order, copies bytes to its destination, an address in partition memory. Those of
 * types 1 and 2 come from platform memory, where the source is a byte offset, and those of every other type from
 * partition memory, where it is an address. As many are copied as are requested, as the source has from its start on, and
 * as there is room for from the destination on; this is the actual length. The destination gets what the source held when
 * the section began, also where the two overlap; what earlier sections copied is there already. A section without request
 * flag 1 copies nothing, and has no error flag. No sum of a start and a length wraps.
 *
 * registration   As the partition's last call gave it. After a run it is active, with the same length, and its copy has
 *                the actual length and the error flags of each section, and in the header's status flags 0x8000 and,
 *                where a section has an error flag, 0x2000. Never: any other byte of the copy. configure-kernel-dump then
 *                gives -10 for the commands 1 and 2, and command 3 completes the dump.
 * memory         The partition's memory, from address 0 on. Written: the bytes at the destination of each section, as
 *                many as its actual length says. Never: any other byte; so the structure there is not updated.
 * platform       The platform's memory. Only read.
 * Promise: RunPromise.
 */
struct draugsten_run draugsten_run_dump(struct draugsten_registration registration, uint8_t *memory,
                                        size_t memory_length, const uint8_t *platform, size_t platform_length);

/* ---- replays */

/*
 * A trace is the recorded session of a partition: records, little-endian, length (2 bytes, counts what follows), kind (2)
 * and body. A body has at most 4,100 bytes, and a trace at most 4,294,967,295 records. A replay makes the calls of a trace
 * again, over a journal, an inventory with its edition, and memory, from no registration and no reading in progress on, and
 * tells the first call whose recorded buffer is not the one that our call leaves.
 */
enum draugsten_trace_kind {
    DRAUGSTEN_TRACE_BEFORE = 32,                /* an argument buffer before the call; its 33 follows at once */
    DRAUGSTEN_TRACE_AFTER = 33,                 /* the same buffer after the call, as it was recorded */
    DRAUGSTEN_TRACE_MEMORY = 34                 /* an address (4), and the bytes that memory gets there, one or more */
};

/*
 * What a replay came to. Malformed are: any other kind, a length under 2, a body above 4,100 bytes, a record that the end
 * cuts off, a 32 with anything but a good 33 right after it (the number is the 32's, and its call is not made), any other
 * 33, a 34 without a byte to set or with bytes past the end of memory (it sets none), and a record past the last number.
 */
enum draugsten_verdict {
    DRAUGSTEN_VERDICT_AGREED = 0,               /* all calls so far agreed */
    DRAUGSTEN_VERDICT_DIFFERS = 1,              /* a call's recorded buffer and ours differ, in length or in a byte */
    DRAUGSTEN_VERDICT_MALFORMED = 2             /* a record is malformed */
};

struct draugsten_report {
    uint32_t verdict;                           /* enum draugsten_verdict */
    uint32_t offset;                            /* the first byte that differs, or the shorter buffer's length; else 0 */
    uint64_t number;                            /* how many calls agreed; or which call, or which record, from 1 on */
};

/*
 * Whether a replay is taken. The checks come in this order: 15; 14. With any number but 0 nothing changes. An end takes no
 * buffer, and never gives 15.
 */
enum draugsten_replay_number {
    DRAUGSTEN_REPLAY_TAKEN = 0,
    DRAUGSTEN_REPLAY_NO_STATE = 14,             /* a replay, or a front of `held`, that no start and no feed gives */
    DRAUGSTEN_REPLAY_NO_ROOM = 15               /* `held` has under 4,104 bytes, or `args` under 4,100 */
};

/* Where a replay stands. Keep it as it is handed back. */
struct draugsten_replay {
    uint64_t records;                           /* records taken */
    struct draugsten_report report;             /* what it came to so far */
    size_t held;                                /* bytes of an unfinished record, at the front of `held` */
    uint32_t waiting;                           /* 0, or 1 + the size of the 32's body that waits, at the front of `args` */
    uint32_t edition;                           /* of the inventory */
    struct draugsten_registration registration; /* as the last call left it */
    struct draugsten_reading reading;           /* as the last call left it */
};

/* What a feed gives. */
struct draugsten_fed {
    uint32_t number;                            /* enum draugsten_replay_number */
    struct draugsten_replay replay;             /* the one to give the next feed; as it was, where it is not taken */
};

/* What an end gives. */
struct draugsten_ended {
    uint32_t number;                            /* DRAUGSTEN_REPLAY_TAKEN or DRAUGSTEN_REPLAY_NO_STATE */
    struct draugsten_report report;             /* of a trace that ends here; with 14 verdict 2, offset 0, number 0 */
};

/* The replay that a trace starts with, over an inventory of this edition. Promise: ReplayPromise. */
struct draugsten_replay draugsten_replay_start(uint32_t edition);

/*
 * Feeds a replay the next bytes of its trace. They may break off anywhere, and there may be none of them: however a trace
 * is cut, its replay comes to the same. So a trace of any length is replayed in the space of these buffers. A difference
 * or a malformed record stops a replay: a later feed gives it back as it was, and changes no byte of `held`, `args` or
 * memory.
 *
 * held       4,104 bytes or more, for a record that is not finished. Written: its bytes, from the front on, as many as
 *            `held` of the replay says. Those between them and 4,104 are scratch: a feed may leave anything there, and
 *            the next one looks at none of them. Never: the bytes past the first 4,104.
 * args       4,100 bytes or more, for the argument buffer of a call. Written. After a difference its front, as many bytes
 *            as the 32 of that call has, is our buffer as our call left it.
 *            Between the feeds of a trace nobody else writes these two; before the first they may hold anything.
 * memory     The partition's memory, from address 0 on. Written by the 34s, and by the calls as draugsten_call writes it.
 *            What was done before a stop stays, also what the call did that differs.
 * journal, inventory  As draugsten_call takes them, the same for each feed of a trace.
 * replay     As draugsten_replay_start gave it, or the last feed of this trace.
 * bytes      The next bytes of the trace.
 * Promise: ReplayPromise.
 */
struct draugsten_fed draugsten_replay_feed(uint8_t *held, size_t held_length, uint8_t *args, size_t args_length,
                                           uint8_t *memory, size_t memory_length, const uint8_t *journal,
                                           size_t journal_length, const uint8_t *inventory, size_t inventory_length,
                                           struct draugsten_replay replay, const uint8_t *bytes, size_t length);

/*
 * What the replay of a trace that ends here comes to: a record that is not finished, and a 32 that waits for its 33, are
 * malformed by the end alone. It changes nothing, and a later feed goes on.
 * Promise: ReplayPromise.
 */
struct draugsten_ended draugsten_replay_end(struct draugsten_replay replay);

/* ---- the month */

/*
 * What the calls of traces came to, in whole numbers. A trace is replayed as above, by draugsten_month_start and
 * draugsten_month_feed in place of draugsten_replay_start and draugsten_replay_feed, and its calls are counted as they are
 * made. At its end draugsten_month_add adds the counts to totals, all of them or none: a trace that is malformed, or one
 * of whose calls differs, adds nothing. Each trace is replayed over its own journal, inventory, edition and memory. Where
 * none is refused, the totals are the same in any order.
 *
 * Counted are the calls with number 0 of the tokens 1 to 4, by their status; numbers of inputs and outputs unlike the
 * call's own are among the -3. Of the calls of update-nodes that were answered (0 or 1) also the operations that they
 * handed out and the words that these took in the area, operators and operands.
 */
enum draugsten_month_number {
    DRAUGSTEN_MONTH_ADDED = 0,
    DRAUGSTEN_MONTH_NO_STATE = 14,              /* a replay, counts or a front of `held` that no start and no feed gives */
    DRAUGSTEN_MONTH_NO_ROOM = 15,               /* a feed: `held` has under 4,104 bytes, or `args` under 4,100 */
    DRAUGSTEN_MONTH_NOT_AGREED = 16,            /* the trace is malformed, or a call differs; the report says which */
    DRAUGSTEN_MONTH_PAST_LIMIT = 17,            /* a total would pass 2^64 - 1 */
    DRAUGSTEN_MONTH_NO_TOTALS = 18              /* figures that do not agree with each other, as those of traces do */
};

/* The statuses, in the order in which their calls are counted. */
enum draugsten_row {
    DRAUGSTEN_ROW_DONE = 0,                     /* 0 */
    DRAUGSTEN_ROW_AGAIN = 1,                    /* 1 */
    DRAUGSTEN_ROW_MALFORMED = 2,                /* -1 */
    DRAUGSTEN_ROW_PARAMETER = 3,                /* -3 */
    DRAUGSTEN_ROW_CHANGED = 4,                  /* -4 */
    DRAUGSTEN_ROW_ALREADY_REGISTERED = 5,       /* -9 */
    DRAUGSTEN_ROW_DUMP_ACTIVE = 6               /* -10 */
};

/* The counts of a trace so far. */
struct draugsten_counts {
    uint64_t calls[4][7];                       /* of the tokens 1 to 4, by enum draugsten_row */
    uint64_t operations;                        /* handed out by update-nodes */
    uint64_t used;                              /* words that they took */
};

/* A replay and its counts. Keep both as they are handed back. */
struct draugsten_counting {
    struct draugsten_replay replay;
    struct draugsten_counts counts;
};

/* What a feed gives. */
struct draugsten_counted {
    uint32_t number;                            /* 0, 14 or 15; the checks come in the order 15, 14 */
    struct draugsten_counting counting;         /* the one to give the next feed; as it was, where it is not taken */
};

/* Totals over traces. Those of no trace are zero in every field. */
struct draugsten_totals {
    uint64_t calls[4][7];                       /* of the tokens 1 to 4, by enum draugsten_row */
    uint64_t token_calls[4];                    /* of the tokens 1 to 4, whatever their status */
    uint64_t operations;                        /* handed out by update-nodes */
    uint64_t used;                              /* words that they took */
    uint64_t available;                         /* 1,019 words for each call of update-nodes that was answered */
};

/* What adding a trace gives. */
struct draugsten_added {
    uint32_t number;                            /* 0, 14, 16 or 17; the checks come in this order: 14, 16, 17 */
    struct draugsten_report report;             /* of the trace; with 14 verdict 2, offset 0, number 0 */
    struct draugsten_totals totals;             /* with the trace; as they were, with any number but 0 */
};

/* What merging totals gives. */
struct draugsten_merged {
    uint32_t number;                            /* 0, 18 or 17; the checks come in the order 18, 17 */
    struct draugsten_totals totals;             /* with the others; as they were, with any number but 0 */
};

/* A share in lowest terms. */
struct draugsten_share {
    uint64_t part;
    uint64_t whole;                             /* 1 or more */
};

/*
 * The replay that a trace starts with, over an inventory of this edition, with nothing counted.
 * Promise: MonthPromise.
 */
struct draugsten_counting draugsten_month_start(uint32_t edition);

/*
 * Feeds a replay the next bytes of its trace, as draugsten_replay_feed does, and counts its calls.
 * Promise: MonthPromise.
 */
struct draugsten_counted draugsten_month_feed(uint8_t *held, size_t held_length, uint8_t *args, size_t args_length,
                                              uint8_t *memory, size_t memory_length, const uint8_t *journal,
                                              size_t journal_length, const uint8_t *inventory, size_t inventory_length,
                                              struct draugsten_counting counting, const uint8_t *bytes, size_t length);

/*
 * Adds the counts of a trace that ends here to totals. A trace that is added twice is counted twice.
 * Promise: MonthPromise.
 */
struct draugsten_added draugsten_month_add(struct draugsten_totals totals, struct draugsten_counting counting);

/*
 * Adds the totals of other traces, `more`, to totals. Refused is `more` where its figures do not agree: the calls of a token
 * are those of its seven statuses together, the available words 1,019 times the answered calls of update-nodes, the
 * operations no more than the used words, and these no more than the available ones. The totals that it is added to are not
 * looked at.
 * Promise: MonthPromise.
 */
struct draugsten_merged draugsten_month_merge(struct draugsten_totals totals, struct draugsten_totals more);

/*
 * The share of the available words that were used: 0 over 1 where no call of update-nodes was answered.
 * Promise: MonthPromise.
 */
struct draugsten_share draugsten_month_share(struct draugsten_totals totals);

/* ---- the table of a month */

/*
 * The text of totals, which one machine writes and another reads. It has a first line, `token,status,count`; a row for each
 * of 39 figures, as `1,-3,7` for 7 calls of token 1 with status -3, `1,all,9` and `used,,10`; and a row for each session,
 * `session,DIGEST,1`. A DIGEST is 32 bytes that say which session it is, in 64 hexadecimal digits. The rows stand in the
 * order of the fields, but the calls of a token follow those of its seven statuses. A figure is decimal, without a zero
 * before it. Each line ends with a newline, the byte 10, and nothing else.
 *
 * What was written reads back as the same figures and digests, and no other text is read. The figures may be any: merging
 * judges totals, and nobody judges whether as many sessions were added as there are digests.
 */
enum draugsten_table_number {
    DRAUGSTEN_TABLE_DONE = 0,
    DRAUGSTEN_TABLE_NO_ROOM = 60,               /* the lent buffer is too short */
    DRAUGSTEN_TABLE_NOT_A_TABLE = 61,           /* a read: the text is none that was written */
    DRAUGSTEN_TABLE_DIGESTS = 62                /* a write: the digests' length is no multiple of 32 */
};

/* The 39 figures of a table. */
struct draugsten_table {
    struct draugsten_totals totals;
    uint64_t added;                             /* sessions that are in the totals */
    uint64_t refused;                           /* sessions that were refused */
    uint64_t unread;                            /* sessions that could not be read */
    uint64_t agreed;                            /* calls of the sessions that are in the totals */
};

/* What writing a table gives. */
struct draugsten_table_written {
    uint32_t number;                            /* 0, 62 or 60; the checks come in the order 62, 60 */
    size_t length;                              /* of the text; with 60 that of the buffer it needs; with 62 zero */
};

/* What reading a table gives. */
struct draugsten_table_found {
    uint32_t number;                            /* 0, 61 or 60; the checks come in the order 61, 60 */
    uint64_t line;                              /* with 61 the first line, from 1, that is not as written; otherwise zero */
    uint64_t sessions;                          /* how many digests the text has; with 61 zero */
    struct draugsten_table table;               /* all zero, with any number but 0 */
};

/*
 * Writes the text of a table and of the digests of its sessions.
 *
 * digests  32 bytes for each session, one after the other. Only read.
 * out      The text, from its front on; bytes after it stay as they were. With any number but 0 no byte of it changes. If
 *          the text has more than 2^64 - 1 bytes, the length that it needs is given as 2^64 - 1.
 * Promise: TablePromise.
 */
struct draugsten_table_written draugsten_table_write(struct draugsten_table table, const uint8_t *digests,
                                                     size_t digests_length, uint8_t *out, size_t out_length);

/*
 * Reads the table of a text, and the digests of its sessions.
 *
 * text     The whole text. Only read.
 * digests  32 bytes for each session, in the order of the text, from its front on; bytes after them stay as they were. With
 *          any number but 0 no byte of it changes.
 * Promise: TablePromise.
 */
struct draugsten_table_found draugsten_table_read(const uint8_t *text, size_t text_length, uint8_t *digests,
                                                  size_t digests_length);

/* ---- tallies */

/*
 * A journal that is kept in a lent buffer, of which a number of bytes are in use, and beside it its tallies: how many
 * operations each scope holds, by opcode. A journal starts with what draugsten_tallies_cleared gives; records are appended
 * and whole journals joined to it, and each operation is given the buffer, the use and the tallies that the one before it
 * left. Where nobody else writes any of them, the bytes in use are a well-formed journal after every operation, and its
 * tallies are those of draugsten_tallies_recount; bytes of the buffer after the use may be any, and may change.
 *
 * The checks come in this order: 52; 50; 51. With any number but 0 use and tallies are handed back as they came, and no
 * byte of the buffer changes.
 */
enum draugsten_tallies_number {
    DRAUGSTEN_TALLIES_DONE = 0,
    DRAUGSTEN_TALLIES_MALFORMED = 50,           /* what is given is not one good record, or not a well-formed journal */
    DRAUGSTEN_TALLIES_NO_ROOM = 51,             /* it would pass the buffer's end, or 1,048,576 bytes */
    DRAUGSTEN_TALLIES_NO_JOURNAL = 52           /* more bytes in use than the buffer has, or a count above the use */
};

/* How many operations of each opcode a scope holds. */
struct draugsten_tally {
    uint64_t deletes;
    uint64_t updates;
    uint64_t additions;
};

/*
 * The tallies of a journal. Records of kind 4 are updates of scope 3 and of no other; records of kinds 5 and 6 are counted
 * nowhere.
 */
struct draugsten_tallies {
    struct draugsten_tally negative;            /* any negative scope */
    struct draugsten_tally first;               /* scope 1 */
    struct draugsten_tally second;              /* scope 2 */
    struct draugsten_tally third;               /* scope 3, all units together */
};

/* What is kept beside the buffer of a journal. Keep it as it is handed back. */
struct draugsten_tallied {
    size_t used;                                /* bytes in use, from the buffer's front on */
    struct draugsten_tallies tallies;           /* of the journal that they are */
};

/* What an operation gives. */
struct draugsten_kept {
    uint32_t number;                            /* enum draugsten_tallies_number */
    struct draugsten_tallied journal;           /* the one to give the next operation */
};

/* What counting a whole journal anew gives. */
struct draugsten_recount {
    uint32_t number;                            /* DRAUGSTEN_TALLIES_DONE or DRAUGSTEN_TALLIES_MALFORMED */
    struct draugsten_tallies tallies;           /* of the journal; all zero, where it is malformed */
};

/*
 * What update-nodes would answer. With tallies that no journal has, the next state can pass 2^32 - 1, so it has 64 bits.
 */
struct draugsten_forecast_answer {
    uint32_t status;                            /* DRAUGSTEN_STATUS_DONE, _CALL_AGAIN or _PARAMETER */
    uint64_t next;                              /* with status 1 the state that the call would leave; otherwise 0 */
};

/*
 * The use and the tallies of an empty journal: 0 bytes, and zero counts. A journal starts with them, and is cleared by going
 * on with them; no byte of its buffer changes by that.
 * Promise: TalliesPromise.
 */
struct draugsten_tallied draugsten_tallies_cleared(void);

/*
 * Appends one record to a journal. What it takes does not depend on the bytes in use: none of them is looked at.
 *
 * buffer   Where the journal stands, from the front on. Written, with number 0: the bytes of the record, right after those
 *          in use. Never: any other byte. Exactly full is room: of the buffer, and of the 1,048,576 bytes of a journal.
 * journal  As the operation before it gave it. A use above the buffer's length is refused with 52, and so is a count above
 *          the use. A use above 1,048,576 bytes in a longer buffer has no room for a record.
 * record   Exactly one record of kinds 1 to 6, as draugsten_call takes it in a journal; no bytes, two records, or a record
 *          and a byte more are malformed. Only read.
 * Promise: TalliesPromise.
 */
struct draugsten_kept draugsten_tallies_append(uint8_t *buffer, size_t buffer_length, struct draugsten_tallied journal,
                                               const uint8_t *record, size_t record_length);

/*
 * Joins a whole journal to a journal, end to end, and adds its tallies. What is in use already is not counted anew.
 *
 * buffer, journal  As draugsten_tallies_append takes them. Written, with number 0: the bytes of the part, right after those
 *                  in use. Never: any other byte.
 * part             A well-formed journal; one of more than 1,048,576 bytes is malformed. An empty one is joined, where the
 *                  use is at most 1,048,576 bytes, and changes nothing. Only read.
 * Promise: JoinPromise.
 */
struct draugsten_kept draugsten_tallies_join(uint8_t *buffer, size_t buffer_length, struct draugsten_tallied journal,
                                             const uint8_t *part, size_t part_length);

/* The tallies of a journal, counted anew in one pass. It is only read. Promise: RecountPromise. */
struct draugsten_recount draugsten_tallies_recount(const uint8_t *journal, size_t journal_length);

/*
 * What an update-nodes call would answer in this scope from this state on, told from the tallies of its journal alone: the
 * status of the call on a good address and zero reserved bytes, and the state that it would leave. Scopes are as in an
 * argument buffer: 0x80000000 and above are negative. All scopes but the negative ones, 1 and 2 get -3, scope 3 too, since
 * its tallies are over all units. Any tallies are taken, and no sum of them wraps: the answer is that of a list with so many
 * operations.
 * Promise: ForecastPromise.
 */
struct draugsten_forecast_answer draugsten_forecast(struct draugsten_tallies tallies, uint32_t scope, uint32_t state);

/* ---- intakes */

/*
 * A journal that arrives in bursts, which may break anywhere. Each record goes to a tallied journal, as
 * draugsten_tallies_append puts it there, when its last byte is in; the bytes of one that is not finished are held in a
 * second buffer, the store. However a stream is cut, bursts of nothing included, the records stored, the tallies and the
 * first fault with its record's number are those of the same bytes given in one burst.
 *
 * The records of a stream are numbered from 1 on, also where the journal held some before; the number stays at 2^64 - 1. A
 * record's length and kind are judged when its first four bytes are in: of kinds 1 and 2 the length is 8, of kind 3 it is
 * 12, of kind 4 it is 16, of kind 5 it is 8 to 32,806, of kind 6 it is 8 to 38. The rest is judged when it is complete, and
 * whether there is room only where it is good. So four bytes can be malformed, and three are unfinished whatever they say.
 *
 * A fault, 50 or 51, stops an intake. The good records before it are stored, also those of the same burst; every later
 * burst, one of nothing too, and every end get the same number and record, and change nothing.
 *
 * The checks come in this order: 55; 54; then what the stream brings. With 54 and 55 nothing changes: no byte of the two
 * buffers, and the intake is handed back as it came. What a start over a journal of the tallies gives, and a burst after it,
 * is never refused with 54, where nobody else writes the held bytes.
 */
enum draugsten_intake_number {
    DRAUGSTEN_INTAKE_TAKEN = 0,
    DRAUGSTEN_INTAKE_MALFORMED = 50,            /* a record's first four bytes are refused, or it is complete and not good */
    DRAUGSTEN_INTAKE_NO_ROOM = 51,              /* a good record would pass the buffer's end, or 1,048,576 bytes */
    DRAUGSTEN_INTAKE_UNFINISHED = 53,           /* an end inside a record; no burst gives it */
    DRAUGSTEN_INTAKE_NO_STATE = 54,             /* an intake, or a front of the store, that no start and no burst leaves */
    DRAUGSTEN_INTAKE_SMALL_STORE = 55           /* a store under 32,808 bytes */
};

/*
 * Where an intake stands between bursts. Keep it as it is handed back. Between bursts the journal may be appended to, joined
 * to and cleared: then what these give is put in the place of `journal`, and the other fields stay.
 *
 * 54 refuse: number 0; a fault other than 0, 50 and 51; a fault with bytes held; a use or a count that
 * draugsten_tallies_append refuses with 52; and held bytes that are not those of an unfinished record: more than the store
 * has, a whole record or more, or a record whose first four bytes are refused.
 */
struct draugsten_intake {
    struct draugsten_tallied journal;           /* of the journal that the records are stored in */
    uint64_t number;                            /* of the record that the stream is inside, comes to, or was stopped by */
    size_t held;                                /* bytes of an unfinished record, at the front of the store */
    uint32_t fault;                             /* 0, DRAUGSTEN_INTAKE_MALFORMED or DRAUGSTEN_INTAKE_NO_ROOM */
};

/* What a burst gives. */
struct draugsten_burst {
    uint32_t number;                            /* enum draugsten_intake_number, but for 53 */
    uint64_t in_record;                         /* the record's number with 50 and 51; otherwise 0 */
    struct draugsten_intake intake;             /* the one to give the next burst */
};

/* What an end gives. */
struct draugsten_intake_ended {
    uint32_t number;                            /* enum draugsten_intake_number */
    uint64_t in_record;                         /* the record's number with 50, 51 and 53; otherwise 0 */
};

/*
 * The intake that a stream starts with, over a journal as it is: number 1, nothing held, no fault.
 * Promise: IntakePromise.
 */
struct draugsten_intake draugsten_intake_start(struct draugsten_tallied journal);

/*
 * Takes the next bytes of a stream. There may be none of them.
 *
 * buffer  Where the journal stands, as draugsten_tallies_append takes it. Written: the bytes of the records that are stored,
 *         right after those in use. Never: any other byte.
 * store   32,808 bytes or more, for a record that is not finished. Written, if bytes are held: right after them, the bytes
 *         of the burst that their record still lacks (only up to its fourth byte, if its first four are refused); if fewer
 *         than 18 are held and the burst has 18 or more, at least its first 18. Then, from the front on, the bytes
 *         that are held now, as many as `held` of the intake says; the next burst looks at no others. Never: any other
 *         byte, any byte with 54 or 55, and any byte once the intake has stopped. Before the first burst the store may
 *         hold anything; between bursts nobody else writes the held bytes.
 * intake  As draugsten_intake_start gave it, or the last burst of this stream.
 * bytes   The next bytes of the stream. Only read.
 * Promise: IntakePromise.
 */
struct draugsten_burst draugsten_intake_burst(uint8_t *buffer, size_t buffer_length, uint8_t *store, size_t store_length,
                                              struct draugsten_intake intake, const uint8_t *bytes, size_t length);

/*
 * What there is to say where the stream ends here: nothing; 53, inside a record; or the fault that stopped the intake. It
 * changes nothing, and a later burst goes on where the record stopped. Both buffers are only read.
 * Promise: IntakePromise.
 */
struct draugsten_intake_ended draugsten_intake_end(const uint8_t *buffer, size_t buffer_length, const uint8_t *store,
                                                   size_t store_length, struct draugsten_intake intake);

/* ---- readers */

/* Why a reader refuses an area. */
enum draugsten_refusal {
    DRAUGSTEN_REFUSAL_NONE = 0,
    /* node areas: 20, 21, then at each operator 22, 25, 26, 24, in this order */
    DRAUGSTEN_REFUSAL_AREA_SIZE = 20,           /* not 4,096 bytes; at 0 */
    DRAUGSTEN_REFUSAL_RESERVED = 21,            /* bytes 4 to 15 not zero; at 4. In scope 3: 12 to 15; at 12 */
    DRAUGSTEN_REFUSAL_OPCODE = 22,              /* opcode not 1 to 3; 22 to 26 at the operator */
    /* 23, operand count zero, is withdrawn and not used again: such an operator is passed over */
    DRAUGSTEN_REFUSAL_OPERANDS_PAST_END = 24,
    DRAUGSTEN_REFUSAL_ODD_OPERANDS = 25,        /* odd count for opcode 3 */
    DRAUGSTEN_REFUSAL_ORDER = 26,               /* opcode lower than an earlier one */
    DRAUGSTEN_REFUSAL_NO_TERMINATOR = 27,       /* the area ends before a zero word; at 4096 */
    /* index areas: 30, then at each set 31 (under 8 bytes left), 32, 31 (the code past the end), 33 */
    DRAUGSTEN_REFUSAL_NO_COUNT = 30,            /* under 4 bytes; at 0 */
    DRAUGSTEN_REFUSAL_SET_PAST_END = 31,        /* 31 to 33 at the set: index, length, code */
    DRAUGSTEN_REFUSAL_CODE_LENGTH = 32,         /* zero, above 1,024 or no multiple of 4 */
    DRAUGSTEN_REFUSAL_CODE = 33,                /* not a code, then one to four NULs, then nothing else */
    /* property areas: 40, 41, then at each property 42, 43 */
    DRAUGSTEN_REFUSAL_PROPERTY_AREA_SIZE = 40,  /* not 4,096 bytes; at 0 */
    DRAUGSTEN_REFUSAL_PROPERTY_RESERVED = 41,   /* bytes 8 to 15 not zero; at 8 */
    DRAUGSTEN_REFUSAL_PROPERTY_NAME = 42,       /* not 1 to 31 bytes and a NUL; 42 and 43 at the property */
    DRAUGSTEN_REFUSAL_PROPERTY_PAST_END = 43    /* descriptor or value past the end */
};

enum draugsten_opcode {
    DRAUGSTEN_OPCODE_DELETE = 1,                /* phandle */
    DRAUGSTEN_OPCODE_UPDATE = 2,                /* phandle */
    DRAUGSTEN_OPCODE_ADD = 3                    /* parent's phandle, drc-index */
};

/* A property's descriptor. */
#define DRAUGSTEN_DESCRIPTOR_NAME_ONLY 0x00000000u      /* a property with no value */
#define DRAUGSTEN_DESCRIPTOR_DELETED 0x80000000u        /* the property is to be deleted */
/*
 * Any other number below 0x80000000 is the length of the bytes that follow and complete the value. One above it is the
 * two's complement of the length of bytes whose rest later calls hand out: the bytes of a name are joined, in order, until
 * a descriptor that is not above 0x80000000.
 */

struct draugsten_node_reading {
    uint32_t refusal;                           /* enum draugsten_refusal */
    uint32_t state;                             /* the area's State Variable; 0 with a refusal */
    size_t offset;                              /* the refusal's place in the area, in bytes; otherwise 0 */
    size_t entries;                             /* all operations of the area; 0 with a refusal */
};

struct draugsten_index_reading {
    uint32_t refusal;                           /* enum draugsten_refusal */
    size_t offset;                              /* the refusal's place in the area, in bytes; otherwise 0 */
    size_t entries;                             /* all entries of the area; 0 with a refusal */
};

struct draugsten_property_reading {
    uint32_t refusal;                           /* enum draugsten_refusal */
    uint32_t phandle;                           /* of the area; 0 with a refusal */
    uint32_t state;                             /* the area's State Variable; 0 with a refusal */
    size_t offset;                              /* the refusal's place in the area, in bytes; otherwise 0 */
    size_t entries;                             /* all properties of the area; 0 with a refusal */
};

/*
 * Reads a node area, as update-nodes leaves it.
 *
 * area  The whole area. Only read.
 * scope The scope of the call. In scope 3 bytes 4 to 11 hold the unit address and only bytes 12 to 15 have to be zero.
 *       With any other number, also one that is no scope, bytes 4 to 15 have to be zero. The scope itself is never refused.
 * out   Written, where nothing is refused: for each operation three words, opcode, first operand, second operand or 0,
 *       as many whole operations as out_length words have room for; 3 x 1,018 words hold any area's. Never: the words
 *       after these, and any word with a refusal.
 * Promise: ReadNodesPromise.
 */
struct draugsten_node_reading draugsten_read_nodes(const uint8_t *area, size_t area_length, uint32_t scope,
                                                   uint32_t *out, size_t out_length);

/*
 * Reads an index area, as get-indices leaves it. Bytes after the last entry are not looked at.
 *
 * area  The area. Only read.
 * out   Written, where nothing is refused: for each entry three numbers, index, byte offset of its code in the area,
 *       length of the code without NULs, as many whole entries as out_length numbers have room for; area_length / 4
 *       numbers hold any area's. Never: the numbers after these, and any number with a refusal.
 * Promise: ReadIndicesPromise.
 */
struct draugsten_index_reading draugsten_read_indices(const uint8_t *area, size_t area_length, uint64_t *out,
                                                      size_t out_length);

/*
 * Reads a property area, as update-properties leaves it. Phandle and state may be any, and bytes after the last property
 * are not looked at.
 *
 * area  The whole area. Only read.
 * out   Written, where nothing is refused: for each property five words, byte offset of its name in the area, length of
 *       the name without its NUL, the descriptor, byte offset of its value in the area, length of the value's bytes there;
 *       as many whole properties as out_length words have room for; 5 x 679 words hold any area's. Never: the words
 *       after these, and any word with a refusal.
 * Promise: ReadPropertiesPromise.
 */
struct draugsten_property_reading draugsten_read_properties(const uint8_t *area, size_t area_length, uint32_t *out,
                                                            size_t out_length);

/* ---- locations */

/*
 * A location code is asked for by an index. It stands in an index area, as get-indices leaves it, or in the fixed list:
 * codes one after the other, each ended by a NUL, of which the first is that of index 0, the next that of index 1, and so
 * on. An entry of the fixed list may be empty, and counts as an entry; bytes after the last NUL are an entry without its
 * NUL; a code there may have any length.
 */

/* What a lookup comes to. */
enum draugsten_location_number {
    DRAUGSTEN_LOCATION_FOUND = 0,
    /* 30 to 33, of enum draugsten_refusal: the area is refused, as its reader refuses it */
    DRAUGSTEN_LOCATION_NOT_FOUND = 34
};

/* Which buffer a code stands in. */
enum draugsten_location_buffer {
    DRAUGSTEN_BUFFER_NONE = 0,                  /* with any number but 0 */
    DRAUGSTEN_BUFFER_AREA = 1,
    DRAUGSTEN_BUFFER_FIXED = 2
};

/* What a step of a view comes to. */
enum draugsten_view_number {
    DRAUGSTEN_VIEW_ENTRY = 0,
    /* 30 to 33, of enum draugsten_refusal: the area is refused there */
    DRAUGSTEN_VIEW_END = 35
};

/* Where the code of an index stands, without its NULs. */
struct draugsten_location {
    uint32_t number;                            /* enum draugsten_location_number, or 30 to 33 */
    uint32_t buffer;                            /* enum draugsten_location_buffer */
    size_t offset;                              /* of the code in its buffer, or of the refusal in the area; otherwise 0 */
    size_t length;                              /* of the code, 1 or more; 0 where there is none */
};

/* Where a view stands. Only what a start or a step gives has a meaning; any other is answered too. */
struct draugsten_cursor {
    size_t at;                                  /* the byte of the area where the next entry begins */
    size_t left;                                /* entries that are still to come */
};

/* What a step of a view gives. */
struct draugsten_step {
    uint32_t number;                            /* enum draugsten_view_number, or 30 to 33 */
    uint32_t index;                             /* of the entry; otherwise 0 */
    size_t offset;                              /* of the entry's code in the area, or of the refusal; otherwise 0 */
    size_t length;                              /* of the code without its NULs; 0 where there is no entry */
    struct draugsten_cursor cursor;             /* the one for the next step; at the end and at a refusal it stays */
};

/*
 * Where the code of an index stands.
 *
 * area   An index area. It is read whole first: a refused one refuses every index, also one that it lists before the fault.
 *        Bytes after the last entry are not looked at. Only read.
 * fixed  The fixed list. Only read.
 * index  An index that the area lists wins, by its first entry; otherwise the entry of the fixed list with this number is
 *        taken. Not found are an index that neither has, one whose entry of the fixed list is empty or without its NUL, and
 *        0xffffffff always, also where the area lists it.
 * Promise: LookupPromise.
 */
struct draugsten_location draugsten_lookup(const uint8_t *area, size_t area_length, const uint8_t *fixed,
                                           size_t fixed_length, uint32_t index);

/*
 * A view of an index area, before its first entry. The caller keeps the area, which is only read, and the cursor.
 * Promise: ViewPromise.
 */
struct draugsten_cursor draugsten_view_start(const uint8_t *area, size_t area_length);

/*
 * A step of a view. From the start, with the cursor of each step given to the next, the steps are the area's entries in
 * order, then the end, again and again. Over an area that is refused they are the entries before the fault, and then the
 * refusal with its offset, again and again. Any cursor is answered: with 31 at it where under 8 bytes are left, and with 35
 * where no entry is to come. An area of under 4 bytes has 30 at 0, from any cursor.
 * Promise: ViewPromise.
 */
struct draugsten_step draugsten_view_step(const uint8_t *area, size_t area_length, struct draugsten_cursor cursor);

#ifdef __cplusplus
}
#endif

#endif
