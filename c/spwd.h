/*
 * spwd.h: the SpaceWire-D initiator box for C99 and C++11.
 *
 * One box is one spwd_box, which the caller owns. The library keeps nothing of its own, takes no heap and calls nothing but memset.
 * A box MUST BE CLEARED (spwd_clear) before any other use: memory fresh from a declaration or from malloc holds no box. A load may
 * be the first call too, since it clears. Ask spwd_version_fits once, at the start.
 *
 * Everything below follows document 01, "The initiator box described, with its rules"; its numbers are the constants here, and
 * docs/CARD.md says of each what it means and what to do about it, in the words that spwd_words.h answers. What is proved of each function
 * of the archive (spwd_raw.h) is its contract in crates/spwd_c; the functions here are thin over these, tested and not proved.
 *
 * Devices, kinds, lengths, transaction numbers, slots, routers, rates and the byte of a time-code have 8 or 16 bits in document 01. The
 * functions here take them in 64, so that no number is cut on its way in: a length of 65,636 is refused as over SPWD_LENGTH_MOST, and does
 * not become 100. One that is over its width is refused by the number that document 01 has for it, in document 01's order; a negative one
 * is over every width. The two numbers that have all their values are taken as they are: a clock has 32 bits and runs round, and a status
 * is one byte of a packet, of which document 01 refuses none.
 *
 * What the caller owes, since no proof reaches it: pointers are valid for the size given; a file, a record buffer or room for writing
 * out does not overlap the box; one call at a time on one box. A pointer may be NULL where the size beside it is 0.
 *
 * Link with libspwd_c.a, which c/library builds under target/c:
 *     x86-64/libspwd_c.a    Linux on any x86-64 (ELF, the System V calling convention, position-independent), as the Rattle kit compiles it
 *     native/libspwd_c.a    the machine that c/library runs on. On x86-64 that is the same file; on aarch64 it is the same code, compiled
 *                           for that machine by the kit's clang at the same -O3 (rt lib --target aarch64-unknown-linux-gnu, which makes
 *                           it on x86-64 too)
 * The kit compiles for these two alone. Pointers and size_t have 64 bits in both, since sizes cross as such; their calling conventions leave
 * open what stands above a narrower number in a register, since the archive widens none; and the C library linked beside it brings memset.
 * That for aarch64 was run as an older kit made it, and not yet as today's does.
 */
#ifndef SPWD_H
#define SPWD_H

#include "spwd_raw.h"
#include "spwd_words.h"

#include <stdbool.h>
#include <stddef.h>
#include <stdint.h>

/* ---- the version of the archive's interface: one more with each change of what is lent, of the numbers that its calls take and give
 * back, or of the bytes of a plan file or a record */

#define SPWD_VERSION 5

/* ---- sizes */

enum spwd_size {
    SPWD_FILE_MOST = 16384,    /* bytes of a plan file that is not refused for its length alone */
    SPWD_WRITTEN_MOST = 16384, /* bytes of a plan written out: room that is always enough */
    SPWD_RECORD_SIZE = 8,
    SPWD_RECORDS_MOST = 17,
    SPWD_RECORDS_ROOM = SPWD_RECORD_SIZE * SPWD_RECORDS_MOST, /* the least record buffer that a time-code takes */
    SPWD_LINE_ROOM = 40, /* bytes of the buffer for a printed verdict */
    SPWD_SLOTS = 64,
    SPWD_INITIATORS_MOST = 8,
    SPWD_PATHS_MOST = 128, /* and as many replies: one for each path at most */
    SPWD_WAITING_MOST = 8,
    SPWD_LENGTH_MOST = 4096, /* data bytes of a request, and of a sheet */
    SPWD_ROUTERS_MOST = 7, /* routers of a path or a reply, and of each way of a sheet */
    SPWD_RATE_LEAST = 2, /* Mbit/s of a sheet, and of a plan's times */
    SPWD_RATE_MOST = 400,
    SPWD_LATENCY_MOST = 1000000, /* nanoseconds of each latency, of a sheet and of a plan's times */
    SPWD_SLOT_LENGTH_MOST = 1000000 /* nanoseconds of a slot in a plan's times */
};

/* ---- the numbers of documents 01 and 02. Fields that hold them have a fixed width, so that a struct is laid out alike whatever size a compiler
 * gives to an enum: switch ((spwd_refusal)answer.number) lets it warn of those that are left out. */

/* Verdicts. What stands in `values` of a spwd_verdict is given beside each; what is not named is 0.
 * SPWD_NO_ENTRY is judged after SPWD_NO_INTERVALS and before SPWD_OVERRUN.
 * A reply (field 07) is judged as a path is, but its links are walked from the target back to the initiator; SPWD_NO_PATH is also given to
 * a reply whose pair has no path, and SPWD_TOO_MANY to none. */
typedef enum spwd_verdict_number {
    SPWD_ACCEPTED = 0,           /* devices, links, paths, entries; replies are not counted */
    SPWD_FILE_TOO_LONG = 1,      /* 0 */
    SPWD_CUT_OFF = 2,            /* 2 to 11: offset of the tag of the field at fault */
    SPWD_UNKNOWN_TAG = 3,
    SPWD_TAG_ORDER = 4,
    SPWD_FIELD_LENGTH = 5,
    SPWD_OUT_OF_RANGE = 6,
    SPWD_GIVEN_BEFORE = 7,
    SPWD_NOT_GIVEN = 8,
    SPWD_TOO_MANY = 9,
    SPWD_NO_WALK = 10,
    SPWD_NO_PATH = 11,
    SPWD_NO_INTERVALS = 12,      /* file length */
    SPWD_OVERRUN = 13,           /* initiator, slot */
    SPWD_CLASH = 14,             /* slot, smaller initiator, greater initiator, link; the links of a command and of its reply count */
    SPWD_NO_ENTRY = 15           /* file length */
} spwd_verdict_number;

/* Refusals of events, of the next turn and of writing out. */
typedef enum spwd_refusal {
    SPWD_TAKEN = 0,              /* not refused */
    SPWD_NO_PLAN = 20,           /* every event, next turn, writing out */
    SPWD_UPPER_BITS = 21,        /* time-code */
    SPWD_NO_INITIATOR = 22,      /* request, reply, next turn */
    SPWD_UNKNOWN_KIND = 23,      /* request */
    SPWD_LENGTH_OVER_MOST = 24,  /* request, next turn */
    SPWD_NOT_PERMITTED = 25,     /* request, next turn: 256 bytes for each slot of a span, or what the plan's times allow */
    SPWD_LINE_FULL = 26,         /* request */
    SPWD_NOTHING_LIVE = 27,      /* reply */
    SPWD_OTHER_TRANSACTION = 28, /* reply */
    SPWD_SMALL_BUFFER = 29,      /* time-code */
    SPWD_SMALL_ROOM = 30,        /* writing out */
    SPWD_SLOT_OVER_MOST = 33     /* next turn */
} spwd_refusal;

/* Kinds of records. */
typedef enum spwd_record_kind {
    SPWD_RECORD_EARLY = 1,
    SPWD_RECORD_LATE = 2,
    SPWD_RECORD_OUT_OF_SEQUENCE = 3,
    SPWD_RECORD_TRANSACTION_LATE = 4,
    SPWD_RECORD_STARTED = 5,
    SPWD_RECORD_STILL_LIVE = 6   /* does not occur with an accepted plan */
} spwd_record_kind;

/* Kinds of requests, and classes of a reply's status. */
typedef enum spwd_request_kind { SPWD_READ = 0, SPWD_WRITE = 1 } spwd_request_kind;
typedef enum spwd_status_class { SPWD_SUCCESS = 0, SPWD_ERROR = 1, SPWD_RESERVED = 2 } spwd_status_class;

/* ---- memory that the caller lends */

/* Plan memory: 14,864 bytes. */
typedef struct spwd_plan {
    uint64_t sets[3];
    uint8_t ends[128];
    uint8_t rows[8];
    uint64_t reach[8];
    uint8_t paths[2816]; /* 128 rows of 11 bytes for the paths, and as many for the replies */
    uint8_t spans[512];
    uint64_t aims[1152]; /* 512 for the targets of the entries; 512 and 128 for where turns are: slots by target and by span */
    uint32_t numbers[524];
} spwd_plan;

/* One box: all memory that it needs, 15,656 bytes. Only `watchdog` is for the caller to read and write.
 *
 * The image of a box is these bytes as they stand in memory. A jig that programs boxes writes them and reads them back (c/jig.c), and the
 * desk's spwd-counter reads them from a file. On the machines named above numbers have their least significant byte first:
 *     offset   bytes
 *          0      24   plan.sets       3 numbers of 8 bytes
 *         24     128   plan.ends
 *        152       8   plan.rows
 *        160      64   plan.reach      8 numbers of 8 bytes
 *        224   2,816   plan.paths
 *      3,040     512   plan.spans
 *      3,552   9,216   plan.aims       1,152 numbers of 8 bytes
 *     12,768   2,096   plan.numbers    524 numbers of 4 bytes
 *     14,864     768   run             96 numbers of 8 bytes
 *     15,632      20   watchdog        5 numbers of 4 bytes
 *     15,652       1   last
 *     15,653       3   padding         of no number: it may hold anything, and nothing looks at it
 * After a clear all of it is 0, the padding apart. Of bytes that were read back, spwd_is_blank and spwd_holds alone may be asked before it is
 * known what they are: all other functions are proved of boxes that came from a clear, a load or an event. */
typedef struct spwd_box {
    spwd_plan plan;
    uint64_t run[96];
    spwd_watchdog watchdog;
    uint8_t last[1];
} spwd_box;

/* ---- what calls give back */

typedef struct spwd_verdict {
    uint32_t number; /* a spwd_verdict_number */
    uint32_t values[4];
} spwd_verdict;

/* SPWD_TAKEN and what the event answers, or a refusal's number; all else 0. */
typedef struct spwd_answer {
    uint32_t number;       /* a spwd_refusal */
    uint32_t records;      /* a time-code: how many records it wrote */
    uint32_t transaction;  /* a request: its transaction number */
    uint32_t target;       /* a reply: the ended transaction's target, length, status and class of status */
    uint32_t length;
    uint32_t status;
    uint32_t status_class; /* a spwd_status_class */
    uint32_t reading;      /* a clock reading: 1 if it reports lateness */
} spwd_answer;

/* SPWD_TAKEN and how many slots on the next turn is, 1 to SPWD_SLOTS; or a refusal's number and 0. */
typedef struct spwd_turn {
    uint32_t number; /* a spwd_refusal */
    uint32_t count;
} spwd_turn;

/* SPWD_TAKEN and the size, or a refusal's number and 0. */
typedef struct spwd_written {
    uint32_t number; /* a spwd_refusal */
    uint32_t size;
} spwd_written;

/* The four latencies of a sheet, in nanoseconds, by their letters in source document 000, section 4. */
typedef struct spwd_latencies {
    uint32_t a; /* from the time-code to the start of the command */
    uint32_t d; /* the target authorises the command */
    uint32_t f; /* data between link and memory, beyond the time to send it */
    uint32_t g; /* from the last data to the start of the reply */
} spwd_latencies;

/* SPWD_TAKEN, the time of a transaction and those of its terms that are worked out, in nanoseconds, by their letters; or a number and 0. */
typedef struct spwd_terms {
    uint32_t number; /* SPWD_TAKEN, or SPWD_OUT_OF_RANGE */
    uint32_t total;  /* these five and the four latencies */
    uint32_t b;      /* the command through the routers */
    uint32_t c;      /* sending the command's header */
    uint32_t e;      /* sending the data and its CRC */
    uint32_t h;      /* the reply through the routers */
    uint32_t i;      /* sending the reply */
} spwd_terms;

/* One record of a time-code. Kinds 1 to 3 fill kind and value, the rest is 0. */
typedef struct spwd_record {
    uint8_t kind; /* a spwd_record_kind */
    uint8_t initiator;
    uint8_t target;
    uint8_t value; /* of the time-code: the slot */
    uint16_t transaction; /* its number */
    uint16_t length;
} spwd_record;

/* ---- sizes held at compile time, a narrower number, results that must be looked at (a compiler that can warns where one is not), and a
 * function that is not to be inlined where it is called */

#ifdef __cplusplus
#define SPWD_HOLDS(name, fact) static_assert(fact, #name)
#define SPWD_NARROW(type, number) static_cast<type>(number)
#else
#define SPWD_HOLDS(name, fact) typedef char spwd_holds_##name[(fact) ? 1 : -1]
#define SPWD_NARROW(type, number) ((type)(number))
#endif

#if (defined(__cplusplus) && __cplusplus >= 201703L) || (defined(__STDC_VERSION__) && __STDC_VERSION__ >= 202311L)
#define SPWD_MUST_LOOK [[nodiscard]]
#elif defined(__GNUC__)
#define SPWD_MUST_LOOK __attribute__((warn_unused_result))
#else
#define SPWD_MUST_LOOK
#endif

#ifdef __GNUC__
#define SPWD_APART __attribute__((noinline, unused)) static
#else
#define SPWD_APART static inline
#endif

SPWD_HOLDS(sizes_of_64_bits, sizeof(size_t) == 8 && sizeof(void *) == 8);
SPWD_HOLDS(records_room, SPWD_RECORDS_ROOM == 136);
SPWD_HOLDS(image_sets, offsetof(spwd_box, plan) == 0 && offsetof(spwd_plan, sets) == 0);
SPWD_HOLDS(image_ends, offsetof(spwd_plan, ends) == 24);
SPWD_HOLDS(image_rows, offsetof(spwd_plan, rows) == 152);
SPWD_HOLDS(image_reach, offsetof(spwd_plan, reach) == 160);
SPWD_HOLDS(image_paths, offsetof(spwd_plan, paths) == 224);
SPWD_HOLDS(image_spans, offsetof(spwd_plan, spans) == 3040);
SPWD_HOLDS(image_aims, offsetof(spwd_plan, aims) == 3552);
SPWD_HOLDS(image_numbers, offsetof(spwd_plan, numbers) == 12768);
SPWD_HOLDS(plan_without_gaps, sizeof(spwd_plan) == 14864);
SPWD_HOLDS(image_run, offsetof(spwd_box, run) == 14864);
SPWD_HOLDS(image_watchdog, offsetof(spwd_box, watchdog) == 15632);
SPWD_HOLDS(image_last, offsetof(spwd_box, last) == 15652);
SPWD_HOLDS(box_without_gaps_but_at_its_end, sizeof(spwd_box) == 15656);

/* ---- numbers on their way into the archive: one that is over the width becomes the greatest of the width, which document 01 refuses by
 * the same number. No device, kind or slot is 255, nor a time-code's byte or a number of routers; no length and no rate is 65,535. */

static inline uint8_t spwd_in_8_bits(uint64_t number)
{
    return number > UINT8_MAX ? SPWD_NARROW(uint8_t, UINT8_MAX) : SPWD_NARROW(uint8_t, number);
}

static inline uint16_t spwd_in_16_bits(uint64_t number)
{
    return number > UINT16_MAX ? SPWD_NARROW(uint16_t, UINT16_MAX) : SPWD_NARROW(uint16_t, number);
}

/* ---- the box */

static inline spwd_answer spwd_answer_of(const uint32_t numbers[8])
{
    spwd_answer answer;
    answer.number = numbers[0];
    answer.records = numbers[1];
    answer.transaction = numbers[2];
    answer.target = numbers[3];
    answer.length = numbers[4];
    answer.status = numbers[5];
    answer.status_class = numbers[6];
    answer.reading = numbers[7];
    return answer;
}

/* Answers the version of the archive that is linked.
 * Refusals: none. */
static inline uint32_t spwd_version(void)
{
    return spwd_c_version();
}

/* Says whether this header and the archive have the same version. If not, no other function here may be called.
 * Refusals: none. */
SPWD_MUST_LOOK static inline bool spwd_version_fits(void)
{
    return spwd_version() == SPWD_VERSION;
}

/* Makes the box the one before any load, every number of it and the five, whatever memory held before.
 * Refusals: none.
 * Left as it was: nothing. */
static inline void spwd_clear(spwd_box *box)
{
    spwd_plan *plan = &box->plan;
    spwd_c_clear(plan->sets, plan->ends, plan->rows, plan->reach, plan->paths, plan->spans, plan->aims, plan->numbers, box->run,
                 box->last, &box->watchdog);
}

/* Judges a plan file and, if it is accepted, puts the box under its plan: nothing waiting or live, the intervals in the five.
 * Refusals: verdicts SPWD_FILE_TOO_LONG to SPWD_NO_ENTRY; the box is then that of a clear.
 * Left as it was: the file. What the box held before is gone either way. */
SPWD_MUST_LOOK static inline spwd_verdict spwd_load(spwd_box *box, const uint8_t *file, size_t size)
{
    static const uint8_t nothing[1] = {0};
    spwd_plan *plan = &box->plan;
    spwd_verdict verdict;
    uint32_t numbers[5];
    size_t place;
    spwd_c_load(size == 0 ? nothing : file, size, plan->sets, plan->ends, plan->rows, plan->reach, plan->paths, plan->spans,
                plan->aims, plan->numbers, box->run, box->last, &box->watchdog, numbers);
    verdict.number = numbers[0];
    for (place = 0; place < 4; place++) {
        verdict.values[place] = numbers[place + 1];
    }
    return verdict;
}

/* Takes a time-code: answers how many records of SPWD_RECORD_SIZE bytes it wrote to the buffer, and updates the five.
 * Refusals: SPWD_NO_PLAN, SPWD_UPPER_BITS (byte from 64 on), SPWD_SMALL_BUFFER (room under SPWD_RECORDS_ROOM).
 * Left as it was: the buffer beyond the records; on a refusal everything, the whole buffer and the five too. */
SPWD_MUST_LOOK static inline spwd_answer spwd_time_code(spwd_box *box, uint64_t byte, uint32_t clock, uint8_t *records, size_t room)
{
    const spwd_plan *plan = &box->plan;
    uint8_t nothing[1] = {0};
    uint32_t answer[8];
    spwd_c_time_code(plan->spans, plan->aims, plan->numbers, box->run, box->last, &box->watchdog, spwd_in_8_bits(byte), clock,
                     room == 0 ? nothing : records, room, answer);
    return spwd_answer_of(answer);
}

/* Puts a request (SPWD_READ or SPWD_WRITE) into its initiator's line and answers its transaction number.
 * Refusals: SPWD_NO_PLAN, SPWD_NO_INITIATOR (every initiator from 64 on too), SPWD_UNKNOWN_KIND (every kind but the two),
 * SPWD_LENGTH_OVER_MOST (length over SPWD_LENGTH_MOST), SPWD_NOT_PERMITTED (every target from 64 on too), SPWD_LINE_FULL.
 * Left as it was: the five; on a refusal everything, and the number is not used up. */
SPWD_MUST_LOOK static inline spwd_answer spwd_request(spwd_box *box, uint64_t initiator, uint64_t target, uint64_t kind,
                                                      uint64_t length)
{
    const spwd_plan *plan = &box->plan;
    uint32_t answer[8];
    spwd_c_request(plan->rows, plan->aims, plan->numbers, box->run, spwd_in_8_bits(initiator), spwd_in_8_bits(target),
                   spwd_in_8_bits(kind), spwd_in_16_bits(length), answer);
    return spwd_answer_of(answer);
}

/* The answer to a reply whose transaction number is over its width, and so no live one's; spwd_reply asks for it. A copy of what the
 * initiators have is asked with number 0: it is refused as any other that is not the live one's, and where it is the live one's,
 * the answer is SPWD_OTHER_TRANSACTION. */
SPWD_APART spwd_answer spwd_reply_to_none(const spwd_box *box, uint64_t initiator)
{
    const spwd_plan *plan = &box->plan;
    uint64_t run[96];
    uint32_t answer[8];
    size_t place;
    for (place = 0; place < 96; place++) {
        run[place] = box->run[place];
    }
    spwd_c_reply(plan->rows, plan->numbers, run, spwd_in_8_bits(initiator), 0, 0, answer);
    if (answer[0] == SPWD_TAKEN) {
        for (place = 0; place < 8; place++) {
            answer[place] = 0;
        }
        answer[0] = SPWD_OTHER_TRANSACTION;
    }
    return spwd_answer_of(answer);
}

/* Ends the live transaction of an initiator and answers its target and length, the status and its class. The status is handed on as the
 * one byte that a packet has for it.
 * Refusals: SPWD_NO_PLAN, SPWD_NO_INITIATOR (every initiator from 64 on too), SPWD_NOTHING_LIVE, SPWD_OTHER_TRANSACTION (every number
 * over 65,535 too).
 * Left as it was: lines and the five; on a refusal everything. */
SPWD_MUST_LOOK static inline spwd_answer spwd_reply(spwd_box *box, uint64_t initiator, uint64_t transaction, uint8_t status)
{
    const spwd_plan *plan = &box->plan;
    uint32_t answer[8];
    if (transaction > UINT16_MAX) {
        return spwd_reply_to_none(box, initiator);
    }
    spwd_c_reply(plan->rows, plan->numbers, box->run, spwd_in_8_bits(initiator), SPWD_NARROW(uint16_t, transaction), status, answer);
    return spwd_answer_of(answer);
}

/* Takes a clock reading: answers 1, once, if the next time-code is overdue by it, and notes in the five that it was reported.
 * Refusals: SPWD_NO_PLAN.
 * Left as it was: all but the five; where it answers 0 or refuses, the five too. */
SPWD_MUST_LOOK static inline spwd_answer spwd_reading(spwd_box *box, uint32_t clock)
{
    uint32_t answer[8];
    spwd_c_reading(box->plan.numbers, &box->watchdog, clock, answer);
    return spwd_answer_of(answer);
}

/* Answers how many slots after this one the next turn is: the next slot at which an entry of the initiator stands that permits the target
 * with this length. 1 is the slot after it, SPWD_SLOTS that slot again. Only the plan is asked, not what waits or is live.
 * With the slot of the last time-code taken since the load, if there was one: a request that is taken now, into an empty line, starts at
 * the count-th time-code from here, if all of them are in sequence.
 * Refusals: SPWD_NO_PLAN, SPWD_NO_INITIATOR (every initiator from 64 on too), SPWD_LENGTH_OVER_MOST (length over SPWD_LENGTH_MOST),
 * SPWD_NOT_PERMITTED (every target from 64 on too), SPWD_SLOT_OVER_MOST (slot from SPWD_SLOTS on).
 * Left as it was: everything. */
SPWD_MUST_LOOK static inline spwd_turn spwd_next(const spwd_box *box, uint64_t initiator, uint64_t target, uint64_t length,
                                                 uint64_t slot)
{
    const spwd_plan *plan = &box->plan;
    spwd_turn turn;
    uint32_t answer[2];
    spwd_c_next(plan->rows, plan->aims, plan->numbers, spwd_in_8_bits(initiator), spwd_in_8_bits(target), spwd_in_16_bits(length),
                spwd_in_8_bits(slot), answer);
    turn.number = answer[0];
    turn.count = answer[1];
    return turn;
}

/* Writes the plan out as a file, in canonical order, and answers its size (at most SPWD_WRITTEN_MOST).
 * Refusals: SPWD_NO_PLAN, SPWD_SMALL_ROOM.
 * Left as it was: the box; room beyond the size; on a refusal all of the room. */
SPWD_MUST_LOOK static inline spwd_written spwd_write_out(const spwd_box *box, uint8_t *out, size_t room)
{
    const spwd_plan *plan = &box->plan;
    uint8_t nothing[1] = {0};
    spwd_written written;
    uint32_t answer[2];
    spwd_c_write_out(plan->sets, plan->ends, plan->rows, plan->paths, plan->spans, plan->aims, plan->numbers,
                     room == 0 ? nothing : out, room, answer);
    written.number = answer[0];
    written.size = answer[1];
    return written;
}

/* Prints the one line of a verdict, newline at its end and no zero byte after it, and answers how many bytes it has.
 * Refusals: none; numbers that are no verdict's are cut to their widths and printed all the same.
 * Left as it was: the buffer beyond the line. */
static inline size_t spwd_print(const spwd_verdict *verdict, uint8_t line[SPWD_LINE_ROOM])
{
    uint32_t numbers[5];
    size_t place;
    numbers[0] = verdict->number;
    for (place = 0; place < 4; place++) {
        numbers[place + 1] = verdict->values[place];
    }
    return spwd_c_print(numbers, line);
}

/* Works out how long one transaction takes whose reply has a way of its own: over so many routers on the command's way and so many on the
 * reply's, which are the links of each less one, at a rate in Mbit/s, with so many data bytes and these latencies. No box is asked.
 * The terms b and c go by the command's routers, but for the reply address in c; it and the terms h and i go by the reply's.
 * Refusals: SPWD_OUT_OF_RANGE (over SPWD_ROUTERS_MOST on either way, a rate outside SPWD_RATE_LEAST to SPWD_RATE_MOST, over
 * SPWD_LENGTH_MOST, a latency over SPWD_LATENCY_MOST).
 * Left as it was: everything. */
SPWD_MUST_LOOK static inline spwd_terms spwd_sheet2(uint64_t command_routers, uint64_t reply_routers, uint64_t rate, uint64_t length,
                                                    spwd_latencies latencies)
{
    uint32_t given[4];
    uint32_t answer[7];
    spwd_terms terms;
    given[0] = latencies.a;
    given[1] = latencies.d;
    given[2] = latencies.f;
    given[3] = latencies.g;
    spwd_c_sheet(spwd_in_8_bits(command_routers), spwd_in_8_bits(reply_routers), spwd_in_16_bits(rate), spwd_in_16_bits(length), given,
                 answer);
    terms.number = answer[0];
    terms.total = answer[1];
    terms.b = answer[2];
    terms.c = answer[3];
    terms.e = answer[4];
    terms.h = answer[5];
    terms.i = answer[6];
    return terms;
}

/* The same for a reply that goes back over the links of its command: both ways have so many routers.
 * Refusals: those of spwd_sheet2.
 * Left as it was: everything. */
SPWD_MUST_LOOK static inline spwd_terms spwd_sheet(uint64_t routers, uint64_t rate, uint64_t length, spwd_latencies latencies)
{
    return spwd_sheet2(routers, routers, rate, length, latencies);
}

/* Says whether every number of the box and of the five is that of a clear.
 * Refusals: none; any memory may be asked about.
 * Left as it was: everything. */
SPWD_MUST_LOOK static inline bool spwd_is_blank(const spwd_box *box)
{
    const spwd_plan *plan = &box->plan;
    return spwd_c_is_blank(plan->sets, plan->ends, plan->rows, plan->reach, plan->paths, plan->spans, plan->aims, plan->numbers,
                           box->run, box->last, &box->watchdog) != 0;
}

/* Says whether the box holds the plan of this file, whatever the order of its fields. `other` is plan memory to read the file into.
 * Refusals: none; a file that a load refuses is no plan, and the answer is false.
 * Left as it was: the box. `other` need not be cleared before, and has the file's plan afterwards, or none. */
SPWD_MUST_LOOK static inline bool spwd_holds(const spwd_box *box, const uint8_t *file, size_t size, spwd_plan *other)
{
    static const uint8_t nothing[1] = {0};
    const spwd_plan *plan = &box->plan;
    return spwd_c_holds(size == 0 ? nothing : file, size, plan->sets, plan->ends, plan->rows, plan->reach, plan->paths, plan->spans,
                        plan->aims, plan->numbers, other->sets, other->ends, other->rows, other->reach, other->paths, other->spans,
                        other->aims, other->numbers) != 0;
}

/* Reads the record at a place of the buffer, counted from 0.
 * Refusals: none; places from the answer's `records` on hold no record.
 * Left as it was: the buffer. */
static inline spwd_record spwd_record_at(const uint8_t *records, size_t place)
{
    const uint8_t *bytes = records + place * SPWD_RECORD_SIZE;
    spwd_record record;
    record.kind = bytes[0];
    record.initiator = bytes[1];
    record.target = bytes[2];
    record.value = bytes[3];
    record.transaction = SPWD_NARROW(uint16_t, bytes[4] << 8 | bytes[5]);
    record.length = SPWD_NARROW(uint16_t, bytes[6] << 8 | bytes[7]);
    return record;
}

#undef SPWD_HOLDS
#undef SPWD_NARROW
#undef SPWD_MUST_LOOK
#undef SPWD_APART

#endif
