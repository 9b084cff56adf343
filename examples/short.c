/* Lends each call a buffer that is one place too short: refusal 13, and the buffer stays as it was.
 *
 *     cc -Iinclude -o short examples/short.c target/staticlib/libstation.a
 *     ./short TABLE
 */
#include <stdio.h>

#include "station.h"

static uint8_t text[65536], report[65536], answers[3];
static int32_t cells[64];
static const uint8_t schedule[4] = {0, 0, 1, 1};

int main(int count, char **words) {
    FILE *file = count == 2 ? fopen(words[1], "rb") : NULL;
    if (!file)
        return 2;
    size_t length = fread(text, 1, sizeof text, file);
    fclose(file);

    size_t needed = station_report(text, length, report, sizeof report).bytes;
    printf("the report needs %zu bytes\n", needed);
    if (!needed)
        return 1;
    report[0] = '?';
    struct station_answer said = station_report(text, length, report, needed - 1);
    printf("%zu bytes lent: %u, line %u, first byte %c\n", needed - 1, said.number, said.line, report[0]);
    answers[0] = '?';
    said = station_run(text, length, schedule, 4, answers, 3, cells, 64);
    printf("3 answers lent for 4 steps: %u, line %u, first byte %c\n", said.number, said.line, answers[0]);
    said = station_run(text, length, schedule, 3, answers, 3, cells, 0);
    printf("no cell lent: %u, line %u, first byte %c\n", said.number, said.line, answers[0]);
    return 0;
}
