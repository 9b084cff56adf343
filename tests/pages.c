/* `check` and `station_steps` over the static library, for tests/pages where those programs are not built.
 *
 *     pages check [TABLE]              the report of a table text, or line 50
 *     pages steps TABLE SCHEDULE       a line 55 for each step and a line for each cell, or line 50
 */
#include <stdio.h>
#include <stdlib.h>
#include <string.h>

#include "station.h"

static uint8_t text[65536], schedule[65536], out[65536];
static int32_t cells[64];

static size_t read_all(FILE *file, uint8_t *into) {
    if (!file)
        return 0;
    size_t length = fread(into, 1, sizeof text, file);
    fclose(file);
    return length;
}

static void print_three(unsigned first, unsigned second, unsigned third) {
    printf("%6u%6u%6u     0     0     0     0     0\n", first, second, third);
}

static void check(size_t length) {
    struct station_answer said = station_report(text, length, out, sizeof out);
    if (said.number)
        print_three(50, said.number, said.line);
    else
        fwrite(out, 1, said.bytes, stdout);
}

static void steps(size_t length, size_t count) {
    struct station_answer ran = station_run(text, length, schedule, count, out, sizeof out, cells, 64);
    if (ran.number) {
        print_three(50, ran.number, ran.line);
        return;
    }
    for (size_t i = 0; i < count; i++)
        print_three(55, schedule[i], out[i]);
    for (int i = 0; i < atoi((const char *)text + 6); i++)
        printf("cell %d %d\n", i, (int)cells[i]);
}

int main(int count, char **words) {
    if (count == 2 && !strcmp(words[1], "check"))
        check(read_all(stdin, text));
    else if (count == 3 && !strcmp(words[1], "check"))
        check(read_all(fopen(words[2], "rb"), text));
    else if (count == 4 && !strcmp(words[1], "steps"))
        steps(read_all(fopen(words[2], "rb"), text), read_all(fopen(words[3], "rb"), schedule));
    else
        return 2;
    return 0;
}
