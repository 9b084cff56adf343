/* How much stack a call of the check and of the engine takes: each runs on a stack of its own that was filled before. */
#include <stdio.h>
#include <string.h>
#include <ucontext.h>

#include "station.h"

#define SIZE (1 << 20)
static uint8_t stack[SIZE], text[65536], out[65536], answers[65536], schedule[4096];
static int32_t cells[64];
static size_t length;
static ucontext_t caller, callee;

static void check(void) { station_report(text, length, out, sizeof out); }
static void load(void) { station_may_load(text, length); }
static void run(void) { station_run(text, length, schedule, sizeof schedule, answers, sizeof answers, cells, 64); }

static size_t used(void (*call)(void)) {
    memset(stack, 0xa5, SIZE);
    getcontext(&callee);
    callee.uc_stack.ss_sp = stack;
    callee.uc_stack.ss_size = SIZE;
    callee.uc_link = &caller;
    makecontext(&callee, call, 0);
    swapcontext(&caller, &callee);
    size_t left = 0;
    while (left < SIZE && stack[left] == 0xa5)
        left++;
    return SIZE - left;
}

int main(int count, char **words) {
    size_t most[3] = {0, 0, 0};
    void (*calls[3])(void) = {check, load, run};
    for (int i = 1; i < count; i++) {
        FILE *file = fopen(words[i], "rb");
        if (!file)
            return 2;
        length = fread(text, 1, sizeof text, file);
        fclose(file);
        for (int k = 0; k < 3; k++) {
            size_t n = used(calls[k]);
            if (n > most[k])
                most[k] = n;
        }
    }
    printf("stack: report %zu bytes, may_load %zu bytes, run %zu bytes\n", most[0], most[1], most[2]);
    return 0;
}
