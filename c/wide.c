/* wide: every function of spwd.h that takes a number of 8 or 16 bits, with numbers at its width, one over it and far over it, most of them
 * such that what is left of them in the width would be taken; with one such number and with several at once, under a plan and without one.
 * The status is 1 if one is not refused by document 01's number for it, smaller number first, or a refusal changes the box or the buffer. */
#include "spwd.h"

#include <stdio.h>
#include <string.h>

/* plans/smallest.plan with a span of 2: one link between nodes 1 and 2, and 1 may start to 2 in slot 0, with 512 bytes at most. */
static const uint8_t plan[] = {
    0x01, 0, 2, 1, 0, 0x01, 0, 2, 2, 0, 0x02, 0, 3, 0, 1, 2, 0x03, 0, 3, 1, 2, 0,
    0x04, 0, 4, 1, 0, 2, 2, 0x05, 0, 8, 0, 0, 0, 90, 0, 0, 0, 110,
};

/* What is taken: initiator, target, length. */
enum { FROM = 1, TO = 2, BYTES = 100 };

/* Boxes to ask: how much is in them. */
enum state { NO_PLAN, IDLE, LIVE, LIVE_AGAIN, FULL, STATES };

/* Numbers that are at or over a width, by their place: see `over`. */
enum { FORMS = 8 };

static unsigned long asked;
static unsigned long wrong;

/* A number that is at or over this width. Those of places 2 to 6 have `taken` in the width. */
static uint64_t over(uint64_t taken, unsigned bits, unsigned place)
{
    uint64_t width = UINT64_C(1) << bits;
    switch (place % FORMS) {
    case 0:
        return width - 1; /* no device, kind, length, slot .. is the greatest of its width */
    case 1:
        return width;
    case 2:
        return taken + width;
    case 3:
        return taken + 3 * width;
    case 4:
        return taken + (UINT64_C(1) << 32);
    case 5:
        return taken + (UINT64_C(1) << 63);
    case 6:
        return taken - width; /* what a negative int becomes */
    default:
        return UINT64_MAX;
    }
}

/* The number that is taken, or where `fault` is not 0 one at or over its width. */
static uint64_t given(unsigned fault, uint64_t taken, unsigned bits, unsigned place)
{
    return fault != 0 ? over(taken, bits, place) : taken;
}

static void judge(const char *what, unsigned state, unsigned faults, unsigned place, uint32_t number, uint32_t want, int unchanged)
{
    asked++;
    if (number != want || !unchanged) {
        wrong++;
        printf("%s, box %u, faults %u, form %u: %lu in place of %lu%s\n", what, state, faults, place, (unsigned long)number,
               (unsigned long)want, unchanged ? "" : ", and something has changed");
    }
}

/* Whether an answer is a refusal's number and nothing else, and left the box as it was; one that is taken may change it. */
static int is_left(spwd_answer answer, const spwd_box *before, const spwd_box *after)
{
    uint32_t rest = answer.records | answer.transaction | answer.target | answer.length | answer.status | answer.status_class | answer.reading;
    return answer.number == SPWD_TAKEN || (rest == 0 && memcmp(before, after, sizeof *before) == 0);
}

static void request(const spwd_box *box, unsigned state, unsigned faults, unsigned place)
{
    uint32_t want = state == NO_PLAN ? SPWD_NO_PLAN
                  : (faults & 1) != 0 ? SPWD_NO_INITIATOR
                  : (faults & 2) != 0 ? SPWD_UNKNOWN_KIND
                  : (faults & 4) != 0 ? SPWD_LENGTH_OVER_MOST
                  : (faults & 8) != 0 ? SPWD_NOT_PERMITTED
                  : state == FULL ? SPWD_LINE_FULL : SPWD_TAKEN;
    spwd_box after;
    spwd_answer answer;
    memcpy(&after, box, sizeof after);
    answer = spwd_request(&after, given(faults & 1, FROM, 8, place), given(faults & 8, TO, 8, place + 1),
                          given(faults & 2, SPWD_WRITE, 8, place + 2), given(faults & 4, BYTES, 16, place + 3));
    judge("request", state, faults, place, answer.number, want, is_left(answer, box, &after));
}

static void reply(const spwd_box *box, unsigned state, unsigned faults, unsigned place)
{
    uint32_t want = state == NO_PLAN ? SPWD_NO_PLAN
                  : (faults & 1) != 0 ? SPWD_NO_INITIATOR
                  : state != LIVE && state != LIVE_AGAIN ? SPWD_NOTHING_LIVE
                  : (faults & 2) != 0 ? SPWD_OTHER_TRANSACTION : SPWD_TAKEN;
    uint64_t live = state == LIVE_AGAIN ? 1 : 0;
    spwd_box after;
    spwd_answer answer;
    memcpy(&after, box, sizeof after);
    answer = spwd_reply(&after, given(faults & 1, FROM, 8, place), given(faults & 2, live, 16, place + 1), 0);
    judge("reply", state, faults, place, answer.number, want, is_left(answer, box, &after));
}

static void time_code(const spwd_box *box, unsigned state, unsigned faults, unsigned place)
{
    uint32_t want = state == NO_PLAN ? SPWD_NO_PLAN
                  : (faults & 1) != 0 ? SPWD_UPPER_BITS
                  : (faults & 2) != 0 ? SPWD_SMALL_BUFFER : SPWD_TAKEN;
    uint8_t records[SPWD_RECORDS_ROOM], marks[SPWD_RECORDS_ROOM];
    spwd_box after;
    spwd_answer answer;
    memcpy(&after, box, sizeof after);
    memset(records, 0xA5, sizeof records);
    memset(marks, 0xA5, sizeof marks);
    answer = spwd_time_code(&after, given(faults & 1, 2, 8, place), 1000, records, sizeof records - ((faults & 2) != 0 ? 1 : 0));
    judge("time-code", state, faults, place, answer.number, want,
          is_left(answer, box, &after) && (answer.number == SPWD_TAKEN || memcmp(records, marks, sizeof marks) == 0));
}

static void next(const spwd_box *box, unsigned state, unsigned faults, unsigned place)
{
    uint32_t want = state == NO_PLAN ? SPWD_NO_PLAN
                  : (faults & 1) != 0 ? SPWD_NO_INITIATOR
                  : (faults & 2) != 0 ? SPWD_LENGTH_OVER_MOST
                  : (faults & 4) != 0 ? SPWD_NOT_PERMITTED
                  : (faults & 8) != 0 ? SPWD_SLOT_OVER_MOST : SPWD_TAKEN;
    spwd_turn turn = spwd_next(box, given(faults & 1, FROM, 8, place), given(faults & 4, TO, 8, place + 1),
                               given(faults & 2, BYTES, 16, place + 2), given(faults & 8, 3, 8, place + 3));
    judge("next turn", state, faults, place, turn.number, want, turn.count == (want == SPWD_TAKEN ? 61u : 0u));
}

/* A sheet that is refused has no term; one that is not has a total. */
static void judge_terms(const char *what, unsigned faults, unsigned place, spwd_terms terms)
{
    uint32_t rest = terms.total | terms.b | terms.c | terms.e | terms.h | terms.i;
    uint32_t want = SPWD_TAKEN;
    if (faults != 0) {
        want = SPWD_OUT_OF_RANGE;
    }
    judge(what, 0, faults, place, terms.number, want, (rest == 0) == (faults != 0));
}

static void sheet(unsigned faults, unsigned place)
{
    static const spwd_latencies latencies = {5000, 5000, 5000, 5000};
    uint64_t routers = given(faults & 1, 4, 8, place), back = given(faults & 2, 2, 8, place + 1);
    uint64_t rate = given(faults & 4, 200, 16, place + 2), length = given(faults & 8, BYTES, 16, place + 3);
    judge_terms("sheet2", faults, place, spwd_sheet2(routers, back, rate, length, latencies));
    judge_terms("sheet", faults & 13, place, spwd_sheet(routers, rate, length, latencies));
}

/* One request taken, and the time-codes from this slot up to slot 0, at which it starts. */
static int start(spwd_box *box, unsigned slot)
{
    uint8_t records[SPWD_RECORDS_ROOM];
    int taken = spwd_request(box, FROM, TO, SPWD_READ, BYTES).number == SPWD_TAKEN;
    for (; slot <= SPWD_SLOTS; slot++) {
        taken = spwd_time_code(box, slot % SPWD_SLOTS, 0, records, sizeof records).number == SPWD_TAKEN && taken;
    }
    return taken;
}

/* A box of this state; 0 if it cannot be had. */
static int make(spwd_box *box, unsigned state)
{
    unsigned count = state == FULL ? SPWD_WAITING_MOST : 0;
    int made = 1;
    memset(box, 0, sizeof *box);
    spwd_clear(box);
    if (state != NO_PLAN) {
        made = spwd_load(box, plan, sizeof plan).number == SPWD_ACCEPTED;
    }
    if (state == LIVE || state == LIVE_AGAIN) {
        made = made && start(box, SPWD_SLOTS);
    }
    if (state == LIVE_AGAIN) {
        made = made && spwd_reply(box, FROM, 0, 0).number == SPWD_TAKEN && start(box, 1);
    }
    while (count-- > 0) {
        made = made && spwd_request(box, FROM, TO, SPWD_READ, BYTES).number == SPWD_TAKEN;
    }
    return made;
}

int main(void)
{
    static spwd_box box;
    unsigned state, faults, place;
    for (state = 0; state < STATES; state++) {
        if (!make(&box, state)) {
            printf("no box of state %u\n", state);
            return 1;
        }
        for (faults = 0; faults < 16; faults++) {
            for (place = 0; place < FORMS; place++) {
                request(&box, state, faults, place);
                reply(&box, state, faults & 3, place);
                time_code(&box, state, faults & 3, place);
                next(&box, state, faults, place);
                sheet(faults, place);
            }
        }
    }
    printf("%lu asked, %lu wrong\n", asked, wrong);
    return wrong == 0 ? 0 : 1;
}
