/* include/station.h over functions that only look at what they are given, for tests/header: addresses, lengths and the packed number.
 * With -DLIBRARY it runs over libstation.a. C and C++. */
#include <stdio.h>
#include <string.h>

#include "station.h"
#include "station.h"

static int passed, failed;

static void expect(const char *what, int holds) {
    if (holds)
        passed++;
    else {
        failed++;
        printf("not so: %s\n", what);
    }
}

static uint8_t text[147], out[4096], schedule[4], answers[4];
static int32_t cells[64];

#ifndef LIBRARY
static const void *seen[4];
static size_t lengths[4];

static void look(int i, const void *address, size_t length) {
    seen[i] = address;
    lengths[i] = length;
}

#ifdef __cplusplus
extern "C" {
#endif
uint64_t station_report_packed(const uint8_t *t, size_t n, uint8_t *o, size_t m) {
    look(0, t, n);
    look(1, o, m);
    return (uint64_t)12 << 48 | (uint64_t)672 << 32 | 28224;
}

uint64_t station_run_packed(const uint8_t *t, size_t n, const uint8_t *s, size_t k, uint8_t *a, size_t m, int32_t *c, size_t l) {
    look(0, t, n);
    look(1, s, k);
    look(2, a, m);
    look(3, c, l);
    return (uint64_t)0xffff << 48 | (uint64_t)0xffff << 32 | 0xffffffffu;
}

bool station_may_load_text(const uint8_t *t, size_t n) {
    look(0, t, n);
    return n == 3;
}
#ifdef __cplusplus
}
#endif

static void all(void) {
    struct station_answer said = station_report(text, 3, out, 4);
    expect("the packed number is taken apart", said.number == 12 && said.line == 672 && said.bytes == 28224);
    expect("addresses and lengths pass as they are", seen[0] == text && lengths[0] == 3 && seen[1] == out && lengths[1] == 4);
    station_report(text, 0, out, 0);
    expect("an address stays at length 0", seen[0] == text && seen[1] == out && !lengths[0] && !lengths[1]);
    station_report(NULL, 0, NULL, 0);
    expect("no address at length 0 gets one", seen[0] && seen[1]);
    station_report(NULL, 1, NULL, 1);
    expect("no address at another length stays none", !seen[0] && !seen[1] && lengths[0] == 1 && lengths[1] == 1);
    said = station_run(text, 1, schedule, 2, answers, 3, cells, 4);
    expect("the largest packed number", said.number == 0xffff && said.line == 0xffff && said.bytes == 0xffffffffu);
    expect("a run's addresses and lengths", seen[0] == text && seen[1] == schedule && seen[2] == answers && seen[3] == cells &&
           lengths[0] == 1 && lengths[1] == 2 && lengths[2] == 3 && lengths[3] == 4);
    station_run(NULL, 0, NULL, 0, NULL, 0, NULL, 0);
    expect("a run with nothing gets addresses", seen[0] && seen[1] && seen[2] && seen[3]);
    station_run(NULL, 1, NULL, 2, NULL, 3, NULL, 4);
    expect("a run's missing addresses stay none", !seen[0] && !seen[1] && !seen[2] && !seen[3] && lengths[3] == 4);
    expect("may_load's answer", station_may_load(text, 3) && seen[0] == text && !station_may_load(text, 2));
    station_may_load(NULL, 0);
    expect("may_load with nothing gets an address", seen[0] != NULL);
    station_may_load(NULL, 3);
    expect("may_load's missing address stays none", !seen[0]);
}
#else
static const char smallest[] =
    "     1     1     0     0     1     1     0     0\n"
    "     3     1     0     0     0     0     0     0\n"
    "     4    12     0     0     0     0     0     0\n";

static void all(void) {
    static const char clean[] = "    59     0     0     0     0     0     0     0\n";
    struct station_answer said;
    memcpy(text, smallest, sizeof text);
    said = station_report(text, 147, out, sizeof out);
    expect("the report of the smallest table", said.number == 0 && said.line == 0 && said.bytes == 98 && !memcmp(out + 49, clean, 49));
    expect("it may be loaded", station_may_load(text, 147));
    expect("nothing may not", !station_may_load(NULL, 0));
    said = station_report(NULL, 0, NULL, 0);
    expect("nothing is refused for its length", said.number == 1 && said.line == 0 && said.bytes == 0);
    said = station_report(text, 147, NULL, 0);
    expect("no room for the report", said.number == 13 && said.bytes == 0);
    schedule[0] = schedule[1] = 0;
    cells[0] = 7;
    said = station_run(text, 147, schedule, 2, answers, 4, cells, 64);
    expect("a run", said.number == 0 && answers[0] == 0 && answers[1] == 15 && cells[0] == 0);
    said = station_run(text, 147, NULL, 0, NULL, 0, cells, 1);
    expect("an empty run with no addresses", said.number == 0);
    said = station_run(text, 147, NULL, 0, NULL, 0, NULL, 0);
    expect("no room for the cell", said.number == 13);
}
#endif

int main(void) {
    all();
    printf("%d passed, %d failed\n", passed, failed);
    return failed != 0;
}
