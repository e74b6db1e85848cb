// A person who answers the door's calls with pencil and paper: from docs/files.md, docs/graph.md, docs/delays.md,
// docs/timing.md, docs/sheet.md and docs/refusals.md. Nothing here is shared with the library, not even its header.
#ifndef PERSON_H
#define PERSON_H

#include <stdbool.h>
#include <stddef.h>
#include <stdint.h>

enum {
    NODES = 256,
    ARCS = 1024,
    SETS = 16,
    MOST_LINES = 4096,
    NO_NODE = 256,
    NO_ARC = 1024,
    NO_LINE = 4096,
    MOST_TICKS = 1000000,
    MOST_BYTES = 60000
};

typedef struct {
    uint32_t number;
    bool shown;
    int32_t ticks;
    uint64_t value, line;
    uint32_t arc, cause, level;
} answer;

// ---- the graph

typedef struct {
    bool live;
    int from, to, trim;
    unsigned sets;
} arc;

typedef struct {
    bool set;
    int ticks;
} bound;

typedef struct {
    bool made, trying;
    int tried_arc, earlier_trim;
    int taken;
    arc arcs[ARCS];
    bound starts[NODES], ends[NODES];
} book;

typedef enum { ADD_ARC, DROP_ARC, SET_START, SET_END, SET_TRIM, PAIR, CLEAR } call_kind;

typedef struct {
    call_kind kind;
    int32_t numbers[3];
} call;

typedef enum { ARCS_FILE, DELAYS_FILE, BOUNDS_FILE, FALSE_SETS_FILE } file_kind;

// Takes a value line's values, in the order of docs/files.md (a side is 0 for a start and 1 for an end), and answers 0
// or the number of a refusal.
typedef uint32_t taker(void *sink, const int *values);

answer person_reads(file_kind kind, const uint8_t *bytes, size_t length, taker *take, void *sink);

answer person_makes(book *graph, const call *made);
answer person_loads(book *graph, file_kind kind, const uint8_t *bytes, size_t length);
answer person_opens(book *graph, int32_t number, int32_t ticks);
answer person_ends(book *graph);
answer person_shows_taken(const book *graph);
answer person_shows_arc(const book *graph, int32_t number, arc *found);
answer person_shows_start(const book *graph, int32_t node);
answer person_shows_end(const book *graph, int32_t node);

// ---- the delays

typedef struct {
    bool marked;
    int ticks;
} delay;

answer person_loads_delays(const uint8_t *bytes, size_t length, delay *rows, size_t row_count);

// ---- timing and tracing

typedef struct {
    bool staged, early;
} measure;

// The second place is 0 where a measure has one.
typedef struct {
    int places[2];
} row;

typedef struct {
    int node, tag, back_arc, back_line, fore_arc, fore_line;
    bool required;
} line;

typedef struct {
    bool timed;
    int line;
} node_entry;

typedef struct {
    size_t line_count, arrival_count, required_count, node_count, slack_count;
    line *lines;
    row *arrivals, *required;
    node_entry *nodes;
    row *slacks;
} tables;

// The delays of a timing: rows, under a margin or not.
typedef struct {
    const delay *rows;
    size_t row_count;
    bool under_margin;
    uint32_t permille;
} delays;

// The ticks of a live arc with its trim, or a refusal by 12 or 13.
answer person_asks(const book *graph, int number, const delays *source, int *ticks);

answer person_times(const book *graph, const delays *source, measure how, tables *sheet);
answer person_traces(int32_t node, const tables *sheet, uint16_t *list, size_t list_count);

// Holds the slacks and the shown paths of an accepted timing against the list of all open complete paths, and says what
// is wrong, or nothing. Blocks with too many paths are passed over: listed says whether it was not.
const char *person_lists(const book *graph, const delays *source, measure how, const tables *sheet, bool *listed);

#endif
