/* A fuzzer's harness for include/station.h. Built and run by tests/fuzz/run.
 *
 * Instrumented: this file, mutate.c and the inline functions of station.h, with the address and undefined-behaviour sanitizers and libFuzzer's
 * coverage. Not instrumented: the proved library, which is machine code. So two things stand in for it:
 * - every buffer lies against a page that may not be touched, behind it in the first call and before it in the second, so a byte
 *   read or written outside on that side by the library stops the run;
 * - what the library answered is counted as coverage (`met`), so the fuzzer keeps texts that lead to a new answer.
 *
 * Input: schedule length, three bytes for buffer lengths, the schedule, the text.
 */
#include <stdio.h>
#include <stdlib.h>
#include <string.h>
#include <sys/mman.h>

#include "station.h"

#define PAGE 4096
#define ROOM (10 * PAGE) /* the largest room */
#define FILL 0xa5
#define REPORT_LONGEST 28273 /* 49 * (64 + 512 + 1) */

/* To see the harness fail: the library is told one byte more than the report's buffer has. */
#ifdef ONE_MORE
#define TOLD(length) ((length) + 1)
#else
#define TOLD(length) (length)
#endif

#define DEMAND(x) \
    do { \
        if (!(x)) { \
            fprintf(stderr, "line %d: %s\n", __LINE__, #x); \
            abort(); \
        } \
    } while (0)

/* One buffer's room, with a page on either side that may not be touched. */
struct room {
    uint8_t *begin;
    size_t size;
};

static struct room text_room, schedule_room, out_room, answers_room, cells_room;
static uint8_t fill[ROOM];
static uint64_t refusals[20], answers_met[20], calls, loads;

/* Coverage: one counter each for (refusal, line), an answer and the one before it, two operations in a row, sizes. */
__attribute__((section("__libfuzzer_extra_counters"))) static uint8_t met[8192];

static void meet(unsigned kind, unsigned what) {
    met[kind * 1024 + what % 1024] = 1;
}

static struct room room(size_t size) {
    uint8_t *whole = mmap(NULL, size + 2 * PAGE, PROT_NONE, MAP_PRIVATE | MAP_ANONYMOUS, -1, 0);
    DEMAND(whole != MAP_FAILED);
    DEMAND(mprotect(whole + PAGE, size, PROT_READ | PROT_WRITE) == 0);
    return (struct room){whole + PAGE, size};
}

/* The place for `length` bytes, against the page behind or the page before; the whole room is filled. */
static uint8_t *filled(struct room r, size_t length, bool behind) {
    DEMAND(length <= r.size);
    memcpy(r.begin, fill, r.size);
    return behind ? r.begin + r.size - length : r.begin;
}

static uint8_t *copied(struct room r, const uint8_t *bytes, size_t length, bool behind) {
    uint8_t *at = filled(r, length, behind);
    if (length)
        memcpy(at, bytes, length);
    return at;
}

/* All of a room but `length` bytes at `at` is as it was filled. */
static bool kept_but(struct room r, const uint8_t *at, size_t length) {
    size_t before = (size_t)(at - r.begin);
    return memcmp(r.begin, fill, before) == 0 && memcmp(at + length, fill, r.size - before - length) == 0;
}

struct input {
    const uint8_t *text, *schedule;
    size_t text_length, schedule_length;
    int near_report, near_answers, near_cells;
};

static struct input split(const uint8_t *data, size_t size) {
    static const uint8_t none[4];
    const uint8_t *head = size < 4 ? none : data;
    size_t rest = size < 4 ? 0 : size - 4, k = head[0] < rest ? head[0] : rest;
    const uint8_t *body = size < 4 ? none : data + 4;
    return (struct input){body + k, body, rest - k, k, head[1] - 64, head[2] - 64, head[3] - 64};
}

/* A length near the needed one: below 64 shorter, above longer. */
static size_t length_near(size_t needed, int difference) {
    return difference < 0 && (size_t)-difference > needed ? 0 : needed + difference;
}

static struct station_answer report_once(struct input in, size_t length, bool behind, uint8_t *copy) {
    uint8_t *text = copied(text_room, in.text, in.text_length, behind);
    uint8_t *out = filled(out_room, length, behind);
    struct station_answer said = station_report(text, in.text_length, out, TOLD(length));
    DEMAND(in.text_length == 0 || memcmp(text, in.text, in.text_length) == 0);
    DEMAND(said.number <= 13 && said.bytes % 49 == 0 && said.bytes <= length);
    DEMAND(said.number ? said.bytes == 0 : said.bytes >= 98 && said.line == 0);
    DEMAND(kept_but(out_room, out, said.bytes));
    memcpy(copy, out, said.bytes);
    calls++;
    return said;
}

/* The report by a long buffer, then by one of a chosen length, twice; `copy` has it. */
static struct station_answer reported(struct input in, uint8_t *copy) {
    static uint8_t again[ROOM];
    struct station_answer said = report_once(in, REPORT_LONGEST, true, copy);
    DEMAND(said.number != 13);
    size_t length = length_near(said.bytes, in.near_report);
    for (int turn = 0; turn < 2; turn++) {
        struct station_answer second = report_once(in, length, turn == 0, again);
        if (said.number) {
            DEMAND(second.number == said.number && second.line == said.line);
        } else if (length < said.bytes) {
            DEMAND(second.number == 13 && second.line == 0);
        } else {
            DEMAND(second.number == 0 && second.bytes == said.bytes && memcmp(again, copy, said.bytes) == 0);
        }
        refusals[second.number]++;
        meet(0, second.number * 64 + (second.line < 63 ? second.line : 63));
    }
    return said;
}

static long field(const uint8_t *line, int j) {
    char chars[7] = {0};
    memcpy(chars, line + 6 * j, 6);
    return strtol(chars, NULL, 10);
}

/* Cells of a report, and whether both totals are 0. */
static size_t looked_through(const uint8_t *report, size_t bytes, bool *clean) {
    size_t cells = 0, strays = 0, unguarded = 0, lines = bytes / 49;
    for (size_t i = 0; i < lines; i++) {
        const uint8_t *line = report + 49 * i;
        long kind = field(line, 0);
        DEMAND(line[48] == '\n' && kind == (i + 1 == lines ? 59 : strays || field(line, 0) == 52 ? 52 : 51));
        cells += kind == 51;
        strays += kind == 52;
        if (kind == 51) {
            unguarded += field(line, 6) == 1;
            DEMAND(field(line, 6) == (field(line, 4) == 1 && field(line, 5) == 0));
            meet(1, (unsigned)(field(line, 4) * 512 + (field(line, 5) & 15) * 16 + (field(line, 2) & 3) * 4 + (field(line, 3) & 3)));
        }
    }
    const uint8_t *total = report + bytes - 49;
    DEMAND(field(total, 1) == (long)unguarded && field(total, 2) == (long)strays);
    meet(2, (unsigned)((unguarded < 31 ? unguarded : 31) * 32 + (strays < 31 ? strays : 31)));
    *clean = unguarded == 0 && strays == 0;
    return cells;
}

static void run_once(struct input in, struct station_answer text_said, size_t cells, bool behind, uint8_t *copy) {
    size_t answers_length = length_near(in.schedule_length, in.near_answers), cells_length = length_near(cells, in.near_cells);
    uint8_t *text = copied(text_room, in.text, in.text_length, behind);
    uint8_t *schedule = copied(schedule_room, in.schedule, in.schedule_length, behind);
    uint8_t *answers = filled(answers_room, answers_length, behind);
    uint8_t *values = filled(cells_room, 4 * cells_length, behind);
    struct station_answer said = station_run(text, in.text_length, schedule, in.schedule_length, answers, answers_length,
                                             (int32_t *)(void *)values, cells_length);
    unsigned number = text_said.number ? text_said.number : answers_length < in.schedule_length || cells_length < cells ? 13 : 0;
    DEMAND(said.number == number && said.line == text_said.line && said.bytes == 0);
    DEMAND(in.text_length == 0 || memcmp(text, in.text, in.text_length) == 0);
    DEMAND(in.schedule_length == 0 || memcmp(schedule, in.schedule, in.schedule_length) == 0);
    size_t steps = number ? 0 : in.schedule_length, written = number ? 0 : 4 * cells;
    DEMAND(kept_but(answers_room, answers, steps) && kept_but(cells_room, values, written));
    memcpy(copy, answers, steps);
    memcpy(copy + steps, values, written);
    for (size_t i = 0; i < steps; i++) {
        DEMAND(answers[i] == 0 || (answers[i] >= 14 && answers[i] <= 18)); /* no 19: docs/GUARANTEE.md */
        answers_met[answers[i]]++;
        meet(3, (i ? answers[i - 1] : 31u) * 32 + answers[i]);
    }
    refusals[number]++;
    calls++;
}

/* Pairs of operations in a row, and the counts of an accepted table. */
static void meet_shape(const uint8_t *text, size_t length) {
    for (size_t i = 49; i + 49 < length; i += 49)
        if (field(text + i, 0) == 4)
            meet(4, (unsigned)(field(text + i, 1) * 16 + field(text + i + 49, 1)));
    for (int j = 1; j < 6; j++)
        meet(5, (unsigned)(j * 64 + (field(text, j) < 63 ? field(text, j) : 63)));
}

int LLVMFuzzerTestOneInput(const uint8_t *data, size_t size) {
    static uint8_t report[ROOM], first[PAGE], second[PAGE];
    if (size > ROOM)
        return -1;
    struct input in = split(data, size);
    struct station_answer said = reported(in, report);
    bool clean = false;
    size_t cells = said.number ? 0 : looked_through(report, said.bytes, &clean);
    for (int behind = 0; behind < 2; behind++) {
        uint8_t *text = copied(text_room, in.text, in.text_length, behind);
        DEMAND(station_may_load(text, in.text_length) == clean);
        calls++;
    }
    loads += clean;
    memset(first, 0, sizeof first);
    memset(second, 0, sizeof second);
    run_once(in, said, cells, true, first);
    run_once(in, said, cells, false, second);
    DEMAND(memcmp(first, second, sizeof first) == 0);
    if (said.number == 0)
        meet_shape(in.text, in.text_length);
    return 0;
}

static void tell(void) {
    fprintf(stderr, "calls %llu; texts that may be loaded %llu\nrefusals 0 to 13 met:", (unsigned long long)calls, (unsigned long long)loads);
    for (int n = 0; n <= 13; n++)
        fprintf(stderr, " %llu", (unsigned long long)refusals[n]);
    fprintf(stderr, "\nanswers to steps 0 and 14 to 18 met: %llu", (unsigned long long)answers_met[0]);
    for (int n = 14; n <= 18; n++)
        fprintf(stderr, " %llu", (unsigned long long)answers_met[n]);
    fprintf(stderr, "\n");
}

int LLVMFuzzerInitialize(int *count, char ***words) {
    (void)count, (void)words;
    memset(fill, FILL, sizeof fill);
    text_room = room(ROOM), out_room = room(ROOM);
    schedule_room = room(PAGE), answers_room = room(PAGE), cells_room = room(PAGE);
    atexit(tell);
    return 0;
}
