/*
 * example [FILE]: prints three sheets, then loads a plan (FILE, or the first sample of document 01), runs the box for one epoch of 64
 * time-codes with a few requests, replies and a clock reading, and prints what it answers. Without FILE it prints c/example.expected;
 * rust/spwd/examples/epoch.rs does the same in Rust.
 */
#include "spwd.h"

#include <stdio.h>
#include <string.h>

/* plans/sample-first.plan: nodes 1 to 4, routers 10 and 11; 1 may start to 3 and 2 to 4 in slot 0; intervals 90 to 110. */
static const uint8_t first_sample[] = {
    0x01, 0, 2, 1, 0, 0x01, 0, 2, 2, 0, 0x01, 0, 2, 3, 0, 0x01, 0, 2, 4, 0, 0x01, 0, 2, 10, 1, 0x01, 0, 2, 11, 1,
    0x02, 0, 3, 0, 1, 10, 0x02, 0, 3, 1, 2, 11, 0x02, 0, 3, 2, 10, 3, 0x02, 0, 3, 3, 11, 4, 0x02, 0, 3, 4, 10, 11,
    0x03, 0, 4, 1, 3, 0, 2, 0x03, 0, 5, 1, 4, 0, 4, 3, 0x03, 0, 4, 2, 4, 1, 3, 0x03, 0, 5, 2, 3, 1, 4, 2,
    0x04, 0, 4, 1, 0, 1, 3, 0x04, 0, 4, 2, 0, 1, 4,
    0x05, 0, 8, 0, 0, 0, 90, 0, 0, 0, 110,
};

static const spwd_latencies latencies = {5000, 5000, 5000, 5000};

/* How long a transaction of so many bytes takes over four routers at 200 Mbit/s, with 5 us for each latency. */
static void sheet(uint16_t length)
{
    spwd_terms terms = spwd_sheet(4, 200, length, latencies);
    printf("sheet of %u bytes: ", (unsigned)length);
    if (terms.number == SPWD_TAKEN) {
        printf("%lu ns, %lu of them for the data\n", (unsigned long)terms.total, (unsigned long)terms.e);
    } else {
        printf("refused %lu\n", (unsigned long)terms.number);
    }
}

/* The same where the reply comes home another way, over so many routers. */
static void sheet2(uint8_t reply_routers, uint16_t length)
{
    spwd_terms terms = spwd_sheet2(4, reply_routers, 200, length, latencies);
    printf("sheet of %u bytes, reply over %u routers: ", (unsigned)length, (unsigned)reply_routers);
    if (terms.number == SPWD_TAKEN) {
        printf("%lu ns, %lu of them for the reply\n", (unsigned long)terms.total, (unsigned long)(terms.h + terms.i));
    } else {
        printf("refused %lu\n", (unsigned long)terms.number);
    }
}

static void print_record(spwd_record record)
{
    static const char *const words[] = {"?", "early", "late", "out of sequence", "transaction late", "started", "still live"};
    unsigned kind = record.kind <= SPWD_RECORD_STILL_LIVE ? record.kind : 0u;
    printf("  slot %u: %s", (unsigned)record.value, words[kind]);
    if (kind >= SPWD_RECORD_TRANSACTION_LATE) {
        printf(" %u to %u, number %u, %u bytes", (unsigned)record.initiator, (unsigned)record.target, (unsigned)record.transaction,
               (unsigned)record.length);
    }
    printf("\n");
}

static void time_code(spwd_box *box, uint8_t value, uint32_t clock)
{
    uint8_t records[SPWD_RECORDS_ROOM];
    spwd_answer answer = spwd_time_code(box, value, clock, records, sizeof records);
    uint32_t place;
    if (answer.number != SPWD_TAKEN) {
        printf("time-code %u at %lu: refused %lu\n", (unsigned)value, (unsigned long)clock, (unsigned long)answer.number);
        return;
    }
    if (answer.records != 0) {
        printf("time-code %u at %lu: records %lu\n", (unsigned)value, (unsigned long)clock, (unsigned long)answer.records);
    }
    for (place = 0; place < answer.records; place++) {
        print_record(spwd_record_at(records, place));
    }
}

static void request(spwd_box *box, uint8_t initiator, uint8_t target, uint8_t kind, uint16_t length)
{
    spwd_answer answer = spwd_request(box, initiator, target, kind, length);
    printf("request %u to %u, %s, %u bytes: ", (unsigned)initiator, (unsigned)target, kind == SPWD_READ ? "read" : "write",
           (unsigned)length);
    if (answer.number == SPWD_TAKEN) {
        printf("number %lu\n", (unsigned long)answer.transaction);
    } else {
        printf("refused %lu\n", (unsigned long)answer.number);
    }
}

/* When such a request may start, counted from a slot. */
static void next(const spwd_box *box, uint8_t initiator, uint8_t target, uint16_t length, uint8_t slot)
{
    spwd_turn turn = spwd_next(box, initiator, target, length, slot);
    printf("next turn of %u to %u, %u bytes, from slot %u: ", (unsigned)initiator, (unsigned)target, (unsigned)length, (unsigned)slot);
    if (turn.number == SPWD_TAKEN) {
        printf("count %lu\n", (unsigned long)turn.count);
    } else {
        printf("refused %lu\n", (unsigned long)turn.number);
    }
}

static void reply(spwd_box *box, uint8_t initiator, uint16_t transaction, uint8_t status)
{
    spwd_answer answer = spwd_reply(box, initiator, transaction, status);
    printf("reply to %u, number %u, status %u: ", (unsigned)initiator, (unsigned)transaction, (unsigned)status);
    if (answer.number == SPWD_TAKEN) {
        printf("from %lu, %lu bytes, class %lu\n", (unsigned long)answer.target, (unsigned long)answer.length,
               (unsigned long)answer.status_class);
    } else {
        printf("refused %lu\n", (unsigned long)answer.number);
    }
}

static void reading(spwd_box *box, uint32_t clock)
{
    spwd_answer answer = spwd_reading(box, clock);
    if (answer.number == SPWD_TAKEN) {
        printf("reading at %lu: %lu\n", (unsigned long)clock, (unsigned long)answer.reading);
    } else {
        printf("reading at %lu: refused %lu\n", (unsigned long)clock, (unsigned long)answer.number);
    }
}

/* How long after the one before it the time-code of this value comes: 20 is early, 30 and 40 are late. */
static uint32_t after_the_last(uint8_t value)
{
    switch (value) {
    case 20:
        return 89;
    case 30:
    case 40:
        return 111;
    default:
        return 100;
    }
}

/* What happens between the time-code of this value and the next. What is asked for after 62 starts at the second time-code, as the count
 * of its next turn says. The reading after 39 reports that 40 is late, so 40 does not. */
static void between(spwd_box *box, uint8_t value, uint32_t clock)
{
    switch (value) {
    case 62:
        next(box, 1, 3, 100, value);
        next(box, 1, 3, 100, SPWD_SLOTS);
        request(box, 1, 3, SPWD_READ, 100);
        request(box, 1, 3, SPWD_WRITE, 256);
        request(box, 1, 3, SPWD_READ, 257);
        request(box, 1, 4, SPWD_READ, 8);
        request(box, 2, 4, SPWD_WRITE, 0);
        break;
    case 0:
        next(box, 1, 3, 256, value);
        reply(box, 1, 7, 0);
        reply(box, 1, 0, 0);
        reply(box, 1, 0, 0);
        break;
    case 1:
        reply(box, 2, 0, 0);
        break;
    case 39:
        reading(box, clock + 110);
        reading(box, clock + 111);
        reading(box, clock + 111);
        break;
    default:
        break;
    }
}

/* The values 62, 63, 0, 1, .. 61: after 63 comes 0. */
static void epoch(spwd_box *box)
{
    uint32_t clock = UINT32_MAX - 1000; /* it runs round past its top on the way */
    unsigned count;
    for (count = 0; count < SPWD_SLOTS; count++) {
        uint8_t value = (uint8_t)((62u + count) % SPWD_SLOTS);
        clock += after_the_last(value);
        time_code(box, value, clock);
        between(box, value, clock);
    }
}

/* Prints the verdict, and gives the status of the program: 0 if the plan is accepted and comes out again as it went in. */
static int run(spwd_box *box, const uint8_t *file, size_t size)
{
    static uint8_t out[SPWD_WRITTEN_MOST];
    static spwd_plan other;
    uint8_t line[SPWD_LINE_ROOM];
    spwd_verdict verdict = spwd_load(box, file, size);
    spwd_written written;
    fwrite(line, 1, spwd_print(&verdict, line), stdout);
    if (verdict.number != SPWD_ACCEPTED) {
        return 1;
    }
    epoch(box);
    written = spwd_write_out(box, out, sizeof out);
    printf("written out: %lu bytes\n", (unsigned long)written.size);
    if (written.number != SPWD_TAKEN || !spwd_holds(box, out, written.size, &other)) {
        return 1;
    }
    spwd_clear(box);
    printf("cleared: %s\n", spwd_is_blank(box) ? "blank" : "not blank");
    return spwd_is_blank(box) ? 0 : 1;
}

int main(int count, char **arguments)
{
    static uint8_t file[SPWD_FILE_MOST + 1]; /* one byte more than a plan has decides that it has too many */
    static spwd_box box;
    size_t size = sizeof first_sample;
    if (!spwd_version_fits()) {
        fprintf(stderr, "the header has version %lu, the archive %lu\n", (unsigned long)SPWD_VERSION, (unsigned long)spwd_version());
        return 3;
    }
    sheet(256);
    sheet(SPWD_LENGTH_MOST + 1);
    sheet2(2, 256);
    memcpy(file, first_sample, size);
    if (count > 1) {
        FILE *stream = fopen(arguments[1], "rb");
        if (stream == NULL) {
            perror(arguments[1]);
            return 2;
        }
        size = fread(file, 1, sizeof file, stream);
        fclose(stream);
    }
    spwd_clear(&box);
    return run(&box, file, size);
}
