// The person looks delays up as docs/delays.md says.
#include "person.h"

#include <stdlib.h>
#include <string.h>

static bool are_ticks(int64_t number) {
    return -MOST_TICKS <= number && number <= MOST_TICKS;
}

static uint32_t take_delay(void *sink, const int *values) {
    delay *rows = sink;
    if (values[0] < 0 || values[0] >= ARCS || !are_ticks(values[1]))
        return 6;
    rows[values[0]] = (delay){true, values[1]};
    return 0;
}

answer person_loads_delays(const uint8_t *bytes, size_t length, delay *rows, size_t row_count) {
    delay after[ARCS];
    if (row_count != ARCS)
        return (answer){.number = 14};
    memcpy(after, rows, sizeof after);
    answer told = person_reads(DELAYS_FILE, bytes, length, take_delay, after);
    if (told.number == 0)
        memcpy(rows, after, sizeof after);
    return told;
}

// Ticks under a margin: the least whole number that is not below ticks times permille over 1,000, found by trying upward
// from below.
static int64_t raise(int64_t ticks, int64_t permille) {
    int64_t product = ticks * permille, quotient = product / 1000 - 1;
    while (quotient * 1000 < product)
        quotient++;
    return quotient;
}

static answer fault(int number, uint32_t cause, uint32_t level) {
    return (answer){.number = 12, .arc = (uint32_t)number, .cause = cause, .level = level};
}

answer person_asks(const book *graph, int number, const delays *source, int *ticks) {
    if ((size_t)number >= source->row_count || !source->rows[number].marked)
        return fault(number, 1, 0);
    int64_t found = source->rows[number].ticks;
    if (!are_ticks(found))
        return fault(number, 2, 0);
    if (source->under_margin) {
        uint32_t permille = source->permille;
        found = raise(found, permille < 1000 ? 1000 : permille > 2000 ? 2000 : permille);
        if (!are_ticks(found))
            return fault(number, 3, 1);
    }
    found += graph->arcs[number].trim;
    if (!are_ticks(found))
        return (answer){.number = 13, .arc = (uint32_t)number};
    *ticks = (int)found;
    return (answer){0};
}
