/* lent FILE..: every array of a box lent by itself, from malloc and so with nothing stored in it before the clear; then each file loaded,
 * and next turns, some events, writing out into rooms of many sizes, and the reread; and sheets, the arrays of which are lent in the same
 * way. For valgrind: no byte may be read that nothing was stored to, and none outside an array. The status is 1 if the box is not blank
 * after the clear, or does not hold the file that it accepted, or a next turn or a sheet is not refused where it should be. */
#include "spwd_raw.h"

#include <stdio.h>
#include <stdlib.h>

struct plan {
    uint64_t *sets, *reach, *aims;
    uint8_t *ends, *rows, *paths, *spans;
    uint32_t *numbers;
};

static void *room(size_t size) {
    void *bytes = malloc(size == 0 ? 1 : size);
    if (bytes == NULL) exit(2);
    return bytes;
}

static struct plan lend(void) {
    return (struct plan){room(24), room(64), room(9216), room(128), room(8), room(2816), room(512), room(2096)};
}

static void take_back(struct plan p) {
    free(p.sets), free(p.reach), free(p.aims), free(p.ends), free(p.rows), free(p.paths), free(p.spans), free(p.numbers);
}

/* Whether a next turn is a count of 1 to 64, and of a slot over 63 there is none; or refused with 0, without a plan with 20. */
static int turns(struct plan p, int held) {
    uint32_t *answer = room(8), n = 0;
    int right = 1;
    for (uint8_t i = 0; i < 64; i++)
        for (uint8_t t = 0; t < 64; t++)
            for (uint8_t slot = 0; slot < 70; slot = (uint8_t)(slot + 5)) {
                spwd_c_next(p.rows, p.aims, p.numbers, i, t, (uint16_t)(n++ * 97 % 5000), slot, answer);
                right = right && (answer[0] == 20) == !held;
                right = right && (answer[0] == 0 ? slot < 64 && answer[1] >= 1 && answer[1] <= 64 : answer[1] == 0);
            }
    free(answer);
    return right;
}

static void events(struct plan p, uint64_t *run, uint8_t *last, spwd_watchdog *five, uint32_t *answer) {
    uint8_t *records = room(136);
    for (uint32_t n = 0; n < 300; n++) {
        for (uint8_t i = 0; i < 64; i++)
            for (uint8_t t = 0; t < 64; t = (uint8_t)(t + 3))
                spwd_c_request(p.rows, p.aims, p.numbers, run, i, t, (uint8_t)(n % 3), (uint16_t)(n * 97 % 5000), answer);
        spwd_c_time_code(p.spans, p.aims, p.numbers, run, last, five, (uint8_t)(n % 66), n * 100, records, n % 50 == 0 ? 135 : 136, answer);
        for (uint8_t i = 0; i < 64; i++) spwd_c_reply(p.rows, p.numbers, run, i, (uint16_t)(n / 2), (uint8_t)(n % 20), answer);
        spwd_c_reading(p.numbers, five, n * 101, answer);
    }
    free(records);
}

static void write_out(struct plan p, uint32_t *answer) {
    for (size_t size = 0; size < 17000; size += 1 + size / 3) {
        uint8_t *out = room(size);
        spwd_c_write_out(p.sets, p.ends, p.rows, p.paths, p.spans, p.aims, p.numbers, out, size, answer);
        free(out);
    }
}

/* Whether each sheet is refused exactly where a number is out of its range; one that is refused answers 6 and six times 0. */
static int sheets(void) {
    uint32_t *latencies = room(16), *answer = room(28);
    int right = 1;
    for (uint32_t n = 0; n < 4096; n++) {
        uint8_t command = (uint8_t)(n % 9), reply = (uint8_t)(n / 3 % 9);
        uint16_t rate = (uint16_t)(n % 404), length = (uint16_t)(n * 7 % 4099);
        uint32_t number, rest = 0;
        for (uint32_t l = 0; l < 4; l++) latencies[l] = n % 11 == l ? 1000001 : n * 244;
        spwd_c_sheet(command, reply, rate, length, latencies, answer);
        number = command > 7 || reply > 7 || rate < 2 || rate > 400 || length > 4096 || n % 11 < 4 ? 6 : 0;
        for (int term = 1; term < 7; term++) rest |= answer[term];
        right = right && answer[0] == number && (rest == 0) == (number == 6);
    }
    free(latencies), free(answer);
    return right;
}

int main(int count, char **names) {
    struct plan p = lend();
    uint64_t *run = room(768);
    uint8_t *last = room(1), *line = room(40), *file = room(20000);
    spwd_watchdog *five = room(20);
    uint32_t *verdict = room(20), *answer = room(32);
    spwd_c_clear(p.sets, p.ends, p.rows, p.reach, p.paths, p.spans, p.aims, p.numbers, run, last, five);
    if (!spwd_c_is_blank(p.sets, p.ends, p.rows, p.reach, p.paths, p.spans, p.aims, p.numbers, run, last, five)) return 1;
    for (int n = 1; n < count; n++) {
        FILE *from = fopen(names[n], "rb");
        if (from == NULL) return 2;
        size_t size = fread(file, 1, 20000, from);
        fclose(from);
        struct plan other = lend();
        spwd_c_load(file, size, p.sets, p.ends, p.rows, p.reach, p.paths, p.spans, p.aims, p.numbers, run, last, five, verdict);
        fwrite(line, 1, spwd_c_print(verdict, line), stdout);
        if (!turns(p, verdict[0] == 0)) return 1;
        events(p, run, last, five, answer);
        write_out(p, answer);
        uint32_t held = spwd_c_holds(file, size, p.sets, p.ends, p.rows, p.reach, p.paths, p.spans, p.aims, p.numbers, other.sets,
                                     other.ends, other.rows, other.reach, other.paths, other.spans, other.aims, other.numbers);
        take_back(other);
        if (held != (verdict[0] == 0)) return 1;
    }
    take_back(p);
    if (!sheets()) return 1;
    free(run), free(last), free(line), free(file), free(five), free(verdict), free(answer);
    return 0;
}
