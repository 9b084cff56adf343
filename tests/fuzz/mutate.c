/* Changes to an input that know a table's form: a field, an operation, a line more or less with its counts, two lines exchanged. */
#include <stdint.h>
#include <stdio.h>
#include <stdlib.h>
#include <string.h>

size_t LLVMFuzzerMutate(uint8_t *data, size_t size, size_t max_size);

static uint32_t state;

static unsigned below(unsigned n) {
    state = state * 1664525u + 1013904223u;
    return (state >> 8) % (n ? n : 1);
}

static long get(const uint8_t *line, int j) {
    char chars[7] = {0};
    memcpy(chars, line + 6 * j, 6);
    return strtol(chars, NULL, 10);
}

static void put(uint8_t *line, int j, long value) {
    char chars[16];
    snprintf(chars, sizeof chars, "%6ld", value);
    memcpy(line + 6 * j, chars, 6);
}

static void add(uint8_t *line, int j, long change) {
    long value = get(line, j) + change;
    if (value >= 0 && value < 1000)
        put(line, j, value);
}

static long number(void) {
    static const long edges[] = {-1, 16, 17, 31, 32, 33, 63, 64, 65, 127, 128, 129, 511, 512, 513, 999999, -99999};
    return below(4) ? (long)below(below(3) ? 15 : 40) : edges[below(sizeof edges / sizeof *edges)];
}

/* A new line at place i; lines behind it move. */
static void open_line(uint8_t *text, size_t lines, size_t i) {
    memmove(text + 49 * (i + 1), text + 49 * i, 49 * (lines - i));
    memset(text + 49 * i, ' ', 49);
    for (int j = 0; j < 8; j++)
        put(text + 49 * i, j, 0);
    text[49 * i + 48] = '\n';
}

/* The line of the routine that has statement s, or 0. */
static size_t routine_line(const uint8_t *text, size_t lines, long s) {
    size_t first = 1 + (size_t)get(text, 3), last = first + (size_t)get(text, 4);
    for (size_t i = first; i < last && i < lines; i++) {
        s -= get(text + 49 * i, 1);
        if (s < 0)
            return i;
    }
    return 0;
}

static void random_statement(uint8_t *line) {
    unsigned op = 1 + below(13);
    put(line, 0, 4);
    put(line, 1, op);
    for (int j = 2; j < 8; j++)
        put(line, j, 0);
    if (op != 12)
        put(line, 2, below(3) ? (long)below(12) : (long)below(64));
    if (op == 7 || ((op == 8 || op == 9) && below(2)))
        put(line, 3, below(12));
    if ((op == 8 || op == 9) && below(3) == 0)
        put(line, 4, below(12));
}

/* A statement more (change 1) or less (-1), with the routine's count and the header's. Answers the lines afterwards. */
static size_t statement_count(uint8_t *text, size_t lines, size_t room, int change) {
    size_t base = 1 + (size_t)get(text, 3) + (size_t)get(text, 4);
    if (base >= lines || (change > 0 && lines == room))
        return lines;
    size_t i = base + below((unsigned)(lines - base)), routine = routine_line(text, lines, (long)(i - base));
    if (routine == 0)
        return lines;
    add(text, 5, change);
    add(text + 49 * routine, 1, change);
    if (change > 0) {
        open_line(text, lines, i);
        random_statement(text + 49 * i);
        return lines + 1;
    }
    memmove(text + 49 * i, text + 49 * (i + 1), 49 * (lines - i - 1));
    return lines - 1;
}

static size_t handle_more(uint8_t *text, size_t lines, size_t room) {
    size_t handles = (size_t)get(text, 3), i = 1 + below((unsigned)handles + 1);
    if (i > lines || lines == room)
        return lines;
    long routine = i > 1 ? get(text + 49 * (i - 1), 1) : 0;
    open_line(text, lines, i);
    uint8_t *line = text + 49 * i;
    put(line, 0, 2);
    put(line, 1, routine + below(2));
    put(line, 2, 1 + below(2));
    put(line, 3, below(4) != 0);
    put(line, 4, get(line, 3) ? below(3) : 0);
    add(text, 3, 1);
    return lines + 1;
}

/* A routine more at the end, of one RETURN; some statement comes to name it. */
static size_t routine_more(uint8_t *text, size_t lines, size_t room) {
    size_t base = 1 + (size_t)get(text, 3) + (size_t)get(text, 4);
    if (base >= lines || lines + 2 > room)
        return lines;
    uint8_t *naming = text + 49 * (base + below((unsigned)(lines - base)));
    random_statement(naming);
    put(naming, 1, 8 + below(2));
    put(naming, 2, get(text, 4));
    put(naming, 3, 0);
    put(naming, 4, 0);
    open_line(text, lines, base);
    put(text + 49 * base, 0, 3);
    put(text + 49 * base, 1, 1);
    open_line(text, lines + 1, lines + 1);
    put(text + 49 * (lines + 1), 0, 4);
    put(text + 49 * (lines + 1), 1, 12);
    add(text, 4, 1);
    add(text, 5, 1);
    return lines + 2;
}

static void exchange(uint8_t *text, size_t lines) {
    uint8_t kept[49], *a = text + 49 * below((unsigned)lines), *b = text + 49 * below((unsigned)lines);
    memcpy(kept, a, 49);
    memmove(a, b, 49);
    memcpy(b, kept, 49);
}

static size_t change_text(uint8_t *text, size_t lines, size_t room) {
    size_t base = 1 + (size_t)get(text, 3) + (size_t)get(text, 4);
    switch (below(10)) {
    case 0: return statement_count(text, lines, room, 1);
    case 1: return lines > 2 ? statement_count(text, lines, room, -1) : lines;
    case 2: return handle_more(text, lines, room);
    case 3: return routine_more(text, lines, room);
    case 4: exchange(text, lines); return lines;
    case 5: case 6:
        if (base < lines)
            random_statement(text + 49 * (base + below((unsigned)(lines - base))));
        return lines;
    default: put(text + 49 * below((unsigned)lines), (int)below(8), number()); return lines;
    }
}

size_t LLVMFuzzerCustomMutator(uint8_t *data, size_t size, size_t max_size, unsigned seed) {
    state = seed * 2654435761u + 1;
    if (size < 4 || below(8) == 0)
        return LLVMFuzzerMutate(data, size, max_size);
    size_t k = data[0] < size - 4 ? data[0] : size - 4, lines = (size - 4 - k) / 49;
    uint8_t *text = data + 4 + k;
    if (below(6) == 0) {
        /* Control bytes, or a byte of the schedule. */
        size_t i = below((unsigned)(4 + k));
        data[i] = (uint8_t)(i == 0 ? data[0] : i < 4 ? 56 + below(16) : below(18));
        return size;
    }
    if (lines == 0 || get(text, 3) < 0 || get(text, 3) > 128 || get(text, 4) < 0 || get(text, 4) > 33)
        return LLVMFuzzerMutate(data, size, max_size);
    size_t room = (max_size - 4 - k) / 49;
    lines = change_text(text, lines, room);
    return 4 + k + 49 * lines;
}
