/*
 * spwd_raw.h: the functions of the archive, in numbers and pointers. spwd.h includes it; its functions are the ones to call.
 *
 * For a caller who lends each array by itself, or declares them to another language. What is proved of each is its contract in
 * crates/spwd_c; what the numbers are is said in spwd.h, and what the caller owes at its head.
 */
#ifndef SPWD_RAW_H
#define SPWD_RAW_H

#include <stddef.h>
#include <stdint.h>

/* The watchdog's five numbers, as they stand in `watchdog` of a box. The caller may write others there before any call. */
typedef struct spwd_watchdog {
    uint32_t last;     /* clock of the last time-code */
    uint32_t seen;     /* whether one was seen since the load: 0 is no, all else is yes */
    uint32_t reported; /* whether a reading has reported the present lateness: 0 is no, all else is yes */
    uint32_t least;    /* least interval between time-codes; 0 means never early */
    uint32_t greatest; /* greatest interval between time-codes */
} spwd_watchdog;

#ifdef __cplusplus
extern "C" {
#endif

uint32_t spwd_c_version(void);
void spwd_c_clear(uint64_t sets[3], uint8_t ends[128], uint8_t rows[8], uint64_t reach[8], uint8_t paths[2816], uint8_t spans[512],
                  uint64_t aims[1152], uint32_t numbers[524], uint64_t run[96], uint8_t last[1], spwd_watchdog *watchdog);
void spwd_c_load(const uint8_t *file, size_t size, uint64_t sets[3], uint8_t ends[128], uint8_t rows[8], uint64_t reach[8],
                 uint8_t paths[2816], uint8_t spans[512], uint64_t aims[1152], uint32_t numbers[524], uint64_t run[96], uint8_t last[1],
                 spwd_watchdog *watchdog, uint32_t verdict[5]);
void spwd_c_time_code(const uint8_t spans[512], const uint64_t aims[1152], const uint32_t numbers[524], uint64_t run[96], uint8_t last[1],
                      spwd_watchdog *watchdog, uint8_t byte, uint32_t clock, uint8_t *records, size_t room, uint32_t answer[8]);
void spwd_c_request(const uint8_t rows[8], const uint64_t aims[1152], const uint32_t numbers[524], uint64_t run[96], uint8_t initiator,
                    uint8_t target, uint8_t kind, uint16_t length, uint32_t answer[8]);
void spwd_c_reply(const uint8_t rows[8], const uint32_t numbers[524], uint64_t run[96], uint8_t initiator, uint16_t transaction,
                  uint8_t status, uint32_t answer[8]);
void spwd_c_reading(const uint32_t numbers[524], spwd_watchdog *watchdog, uint32_t clock, uint32_t answer[8]);
void spwd_c_next(const uint8_t rows[8], const uint64_t aims[1152], const uint32_t numbers[524], uint8_t initiator, uint8_t target,
                 uint16_t length, uint8_t slot, uint32_t answer[2]);
void spwd_c_write_out(const uint64_t sets[3], const uint8_t ends[128], const uint8_t rows[8], const uint8_t paths[2816],
                      const uint8_t spans[512], const uint64_t aims[1152], const uint32_t numbers[524], uint8_t *out, size_t room,
                      uint32_t answer[2]);
size_t spwd_c_print(const uint32_t verdict[5], uint8_t line[40]);
void spwd_c_sheet(uint8_t command_routers, uint8_t reply_routers, uint16_t rate, uint16_t length, const uint32_t latencies[4],
                  uint32_t answer[7]);
uint32_t spwd_c_is_blank(const uint64_t sets[3], const uint8_t ends[128], const uint8_t rows[8], const uint64_t reach[8],
                         const uint8_t paths[2816], const uint8_t spans[512], const uint64_t aims[1152], const uint32_t numbers[524],
                         const uint64_t run[96], const uint8_t last[1], const spwd_watchdog *watchdog);
uint32_t spwd_c_holds(const uint8_t *file, size_t size, const uint64_t sets[3], const uint8_t ends[128], const uint8_t rows[8],
                      const uint64_t reach[8], const uint8_t paths[2816], const uint8_t spans[512], const uint64_t aims[1152],
                      const uint32_t numbers[524], uint64_t other_sets[3], uint8_t other_ends[128], uint8_t other_rows[8],
                      uint64_t other_reach[8], uint8_t other_paths[2816], uint8_t other_spans[512], uint64_t other_aims[1152],
                      uint32_t other_numbers[524]);

#ifdef __cplusplus
}
#endif

#endif
