/* The check and the engine for station tables, as proved functions, for C and C++.
 *
 * Link libstation.a (`tools/build station` writes it to target/staticlib/). No function allocates, keeps a pointer or
 * touches anything but what is lent to it. Each takes every text, schedule and buffer length; the buffers of one call
 * must not overlap. What each answers and leaves in each buffer is proved: docs/C_INTERFACE.md.
 */
#ifndef STATION_H
#define STATION_H

#include <stdbool.h>
#include <stddef.h>
#include <stdint.h>

#ifdef __cplusplus
extern "C" {
#endif

/* number: 0, or the refusal 1 to 13; line: the line that goes with it, counted from 0 at the header;
 * bytes: how many bytes of a report were written. */
struct station_answer {
    uint32_t number, line;
    size_t bytes;
};

/* The exports, on numbers only: bytes + 2^32 * (line + 2^16 * number). They want an address at length 0 too. */
uint64_t station_report_packed(const uint8_t *text, size_t text_length, uint8_t *out, size_t out_length);
uint64_t station_run_packed(const uint8_t *text, size_t text_length, const uint8_t *schedule, size_t schedule_length,
                            uint8_t *answers, size_t answers_length, int32_t *cells, size_t cells_length);
bool station_may_load_text(const uint8_t *text, size_t text_length);

static inline struct station_answer station_unpacked(uint64_t packed) {
    struct station_answer answer = {(uint32_t)(packed >> 48), (uint32_t)(packed >> 32 & 0xffff), (size_t)(packed & 0xffffffff)};
    return answer;
}

/* The report of a table text into `out`. Accepted: number 0, and `bytes` bytes of out are the report, those behind
 * unchanged. Refused: 1 to 12 as the text breaks the rules, then 13 where out is shorter than the report; out unchanged.
 * Here and below an address may be null where its length is 0. */
static inline struct station_answer station_report(const uint8_t *text, size_t text_length, uint8_t *out, size_t out_length) {
    uint8_t none = 0;
    return station_unpacked(station_report_packed(text || text_length ? text : &none, text_length,
                                                  out || out_length ? out : &none, out_length));
}

/* Steps a table by a schedule, each byte a thread number. Accepted: answers has one byte for each step, 0 where it ran
 * and 14 to 18 where it was refused, and cells the final values, places behind unchanged. Refused: 1 to 12, then 13
 * where answers is shorter than the schedule or cells shorter than the table's cells; both buffers unchanged.
 * 16: the thread waits, its TAKE for a lock that anybody holds, its TAKER for one that is held for writing or by itself. */
static inline struct station_answer station_run(const uint8_t *text, size_t text_length, const uint8_t *schedule,
                                                size_t schedule_length, uint8_t *answers, size_t answers_length,
                                                int32_t *cells, size_t cells_length) {
    uint8_t none = 0;
    int32_t no_cell = 0;
    return station_unpacked(station_run_packed(text || text_length ? text : &none, text_length,
                                               schedule || schedule_length ? schedule : &none, schedule_length,
                                               answers || answers_length ? answers : &none, answers_length,
                                               cells || cells_length ? cells : &no_cell, cells_length));
}

/* Whether the table may be loaded: the text is accepted and its report counts no unguarded cell and no stray GIVE. If
 * so, no order of steps has two threads before conflicting accesses of one cell: docs/GUARANTEE.md. */
static inline bool station_may_load(const uint8_t *text, size_t text_length) {
    uint8_t none = 0;
    return station_may_load_text(text || text_length ? text : &none, text_length);
}

#ifdef __cplusplus
}
#endif

#endif
