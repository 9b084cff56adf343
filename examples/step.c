/* Reads a table text, says whether it may be loaded, prints its report, and steps it by a schedule.
 *
 *     cc -Iinclude -o step examples/step.c target/staticlib/libstation.a
 *     ./step TABLE [THREAD ...]      a schedule is thread numbers, as 0 0 1 0 1
 */
#include <stdio.h>
#include <stdlib.h>

#include "station.h"

static uint8_t text[65536], report[65536], schedule[65536], answers[65536];
static int32_t cells[64];

int main(int count, char **words) {
    if (count < 2) {
        fprintf(stderr, "usage: step TABLE [THREAD ...]\n");
        return 2;
    }
    FILE *file = fopen(words[1], "rb");
    if (!file) {
        perror(words[1]);
        return 2;
    }
    size_t length = fread(text, 1, sizeof text, file);
    fclose(file);

    struct station_answer said = station_report(text, length, report, sizeof report);
    if (said.number) {
        printf("refused: %u, line %u\n", said.number, said.line);
        return 1;
    }
    fwrite(report, 1, said.bytes, stdout);
    printf("may be loaded: %s\n", station_may_load(text, length) ? "yes" : "no");

    size_t steps = 0;
    for (int i = 2; i < count && steps < sizeof schedule; i++)
        schedule[steps++] = (uint8_t)atoi(words[i]);
    struct station_answer ran = station_run(text, length, schedule, steps, answers, sizeof answers, cells, 64);
    if (ran.number) {
        printf("refused: %u, line %u\n", ran.number, ran.line);
        return 1;
    }
    for (size_t i = 0; i < steps; i++)
        printf("thread %u: %u\n", schedule[i], answers[i]);
    for (int i = 0; i < 64; i++)
        if (cells[i])
            printf("cell %d: %d\n", i, cells[i]);
    return 0;
}
