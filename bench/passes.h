// The passes of a timing in plain C: what the benchmarks hold the library against.
#ifndef PASSES_H
#define PASSES_H

#include <stdbool.h>
#include <stdint.h>

enum { NODES = 256, ARCS = 1024, LINES = 4096, LIMIT = 1000000 };

typedef struct {
    uint8_t from, to;
    int32_t trim;
    uint16_t sets;
} LiveArc;

typedef struct {
    bool live;
    LiveArc arc;
} ArcSlot;

typedef struct {
    bool set;
    int32_t ticks;
} TimeSlot;

typedef struct {
    uint16_t taken;
    ArcSlot arcs[ARCS];
    TimeSlot starts[NODES], ends[NODES];
} Graph;

typedef struct {
    bool marked;
    int32_t ticks;
} Row;

typedef struct {
    uint16_t node, tag, back_arc, back_line, fore_arc, fore_line;
    bool required;
} Line;

typedef struct {
    bool timed;
    uint16_t line;
} Entry;

// The tables that a timing fills.
extern Line lines[LINES];
extern int32_t arrivals[LINES], required[LINES], slacks[NODES];
extern Entry nodes[NODES];

// The whole timing into so many lines: how many it needs, or -1 where it is refused.
int time_graph(const Graph *g, const Row *table, int line_count);

#endif
