/* The timer for programs in C and C++: the static library that crates/door makes.
 *
 * Every call answers on all arguments: wrong numbers, tables of wrong lengths and memory in which no graph was made are
 * refused by a number (below, and docs/refusals.md). A refused call changes nothing, but for a refused timing, which leaves
 * blank tables, and a refused trace, which fills its list with 1,024. What no call can see for itself is the caller's to
 * keep:
 *
 *  - a pointer is not null and is aligned for its type, and as many elements as the length beside it says lie there,
 *    which is so even where that length is 0;
 *  - what a call writes overlaps nothing else that is passed to the same call, and until it returns no other thread reads
 *    or writes that, or writes what the call only reads;
 *  - the bytes of a ripotyngue_graph are all 0 before the first call (a static one, calloc or memset), and are written
 *    afterwards by these calls alone. It may be copied and moved as a whole;
 *  - a bool in what is passed is 0 or 1, and a place of a measure (a member of ripotyngue_ticks, ripotyngue_staged_ticks
 *    and the two early ones) lies within 1,000,000,000 of zero. Tables whose bytes are all 0 are so, and the calls leave
 *    them so.
 *
 * No call allocates, prints, waits, or keeps a pointer. A call takes up to some 110 kB of stack.
 */
#ifndef RIPOTYNGUE_H
#define RIPOTYNGUE_H

#include <stdbool.h>
#include <stddef.h>
#include <stdint.h>

#ifdef __cplusplus
extern "C" {
#endif

enum {
    RIPOTYNGUE_NODES = 256,      /* nodes are 0 to 255 */
    RIPOTYNGUE_ARCS = 1024,      /* arcs are 0 to 1,023, sets 0 to 15, ticks within 1,000,000 of zero */
    RIPOTYNGUE_MOST_LINES = 4096,
    RIPOTYNGUE_NO_NODE = 256,    /* the marks for none in lines, entries and lists */
    RIPOTYNGUE_NO_ARC = 1024,
    RIPOTYNGUE_NO_LINE = 4096
};

/* What the number of an answer says. */
enum {
    RIPOTYNGUE_ACCEPTED = 0,
    RIPOTYNGUE_NO_BYTES = 1,         /* the file has no bytes */
    RIPOTYNGUE_TOO_LONG = 2,         /* the file has more than 60,000 bytes */
    RIPOTYNGUE_NAMES_LINE = 3,       /* the names line is wrong */
    RIPOTYNGUE_VALUE_LINE = 4,       /* a value line is wrong */
    RIPOTYNGUE_END_LINE = 5,         /* the end line is missing, wrong, or followed by bytes */
    RIPOTYNGUE_OUT_OF_RANGE = 6,     /* a number is out of range */
    RIPOTYNGUE_NOT_RISING = 7,       /* a new arc's from is not below its to */
    RIPOTYNGUE_FULL = 8,             /* all 1,024 arc numbers are taken */
    RIPOTYNGUE_NOT_LIVE = 9,         /* the arc is not live */
    RIPOTYNGUE_IN_SET = 10,          /* the arc to be dropped is in a false set */
    RIPOTYNGUE_NO_PATH = 11,         /* no live arc lies on a path from the one node of a pair to the other */
    RIPOTYNGUE_NO_DELAY = 12,        /* a live arc has no delay: arc, cause and level say which and why */
    RIPOTYNGUE_DELAY_RANGE = 13,     /* a live arc's delay plus trim is out of range: arc says which */
    RIPOTYNGUE_WRONG_LENGTH = 14,    /* a table has the wrong length */
    RIPOTYNGUE_TOO_FEW_LINES = 15,   /* the tables have fewer lines than the sheet */
    RIPOTYNGUE_BROKEN_LINK = 16,     /* a line of the tables that a trace follows is no line of a sheet */
    RIPOTYNGUE_SHORT_LIST = 17,      /* the list has fewer places than the path has arcs */
    RIPOTYNGUE_NOT_MADE = 30,        /* no graph was made in this memory */
    RIPOTYNGUE_TRIAL_OPEN = 31,      /* a trial is open: end it first */
    RIPOTYNGUE_NO_TRIAL = 32         /* no trial is open */
};

/* What a call answers. A member that a call has nothing to say of is 0. */
typedef struct {
    uint32_t number; /* 0 accepted, any other: refused, and why */
    bool shown;      /* whether value or ticks says something */
    int32_t ticks;   /* of a node's start or end */
    uint64_t value;  /* the number of a new arc, or a count */
    uint64_t line;   /* of a refused file; 0 is the whole file */
    uint32_t arc;    /* of number 12 and 13 */
    uint32_t cause;  /* of number 12: 1 no row or no mark, 2 ticks out of range, 3 out of range after a margin */
    uint32_t level;  /* of number 12: 0 the rows, 1 the margin */
} ripotyngue_answer;

/* A live arc. Bit s of sets says whether false set s holds it. */
typedef struct {
    uint8_t from, to;
    int32_t trim;
    uint16_t sets;
} ripotyngue_live_arc;

/* A graph in the caller's memory, some 20 kB. Its members are no one's but the calls'. */
typedef struct {
    bool live;
    ripotyngue_live_arc arc;
} ripotyngue_private_arc;

typedef struct {
    bool set;
    int32_t ticks;
} ripotyngue_private_time;

typedef struct {
    uint16_t taken;
    ripotyngue_private_arc arcs[RIPOTYNGUE_ARCS];
    ripotyngue_private_time starts[RIPOTYNGUE_NODES];
    ripotyngue_private_time ends[RIPOTYNGUE_NODES];
} ripotyngue_private_graph;

typedef struct {
    uint32_t seal;
    bool on_trial;
    int32_t arc;
    int32_t earlier;
    ripotyngue_private_graph graph;
} ripotyngue_graph;

/* The delay of the arc whose number is the row's place; without the mark there is none. */
typedef struct {
    bool marked;
    int32_t ticks;
} ripotyngue_delay;

/* The measures: ticks, or ticks and where those are equal the number of arcs; and both read early, where each place has
 * the opposite sign, so that the earliest arrival is the one that counts. */
typedef struct { int32_t ticks; } ripotyngue_ticks;
typedef struct { int32_t ticks, stages; } ripotyngue_staged_ticks;
typedef struct { ripotyngue_ticks value; } ripotyngue_early_ticks;
typedef struct { ripotyngue_staged_ticks value; } ripotyngue_early_staged_ticks;

/* A line of the sheet: a node and a tag that an arrival reaches. Its times are in the tables arrivals and required, at
 * its place; required[i] means nothing unless lines[i].required. */
typedef struct {
    uint16_t node;
    uint16_t tag;
    uint16_t back_arc, back_line; /* where its arrival comes from; no arc and no line at a start */
    uint16_t fore_arc, fore_line; /* where its required time comes from; no arc and no line at an end */
    bool required;
} ripotyngue_line;

/* A node: whether it has a slack, which then is in the table slacks at its place, and the line that has it. */
typedef struct {
    bool timed;
    uint16_t line;
} ripotyngue_node;

/* ---- the graph (docs/graph.md) */

/* Makes a new graph, without arcs, starts, ends and trial, whatever graph was there. */
void ripotyngue_new(ripotyngue_graph *graph);

/* The calls that change a graph: each refused by 31 while a trial is open. A refused call changes nothing. */
ripotyngue_answer ripotyngue_add_arc(ripotyngue_graph *graph, int32_t from, int32_t to); /* value: its number */
ripotyngue_answer ripotyngue_drop_arc(ripotyngue_graph *graph, int32_t arc);
ripotyngue_answer ripotyngue_set_start(ripotyngue_graph *graph, int32_t node, int32_t ticks);
ripotyngue_answer ripotyngue_set_end(ripotyngue_graph *graph, int32_t node, int32_t ticks);
ripotyngue_answer ripotyngue_set_trim(ripotyngue_graph *graph, int32_t arc, int32_t ticks);
ripotyngue_answer ripotyngue_pair(ripotyngue_graph *graph, int32_t set, int32_t from, int32_t to);
ripotyngue_answer ripotyngue_clear(ripotyngue_graph *graph, int32_t set);

/* The calls of a file's lines, all or none (docs/files.md). */
ripotyngue_answer ripotyngue_load_arcs(ripotyngue_graph *graph, const uint8_t *bytes, size_t length);
ripotyngue_answer ripotyngue_load_bounds(ripotyngue_graph *graph, const uint8_t *bytes, size_t length);
ripotyngue_answer ripotyngue_load_false_sets(ripotyngue_graph *graph, const uint8_t *bytes, size_t length);

/* A trial: an arc's trim for a while. A refused opening opens none; the end puts the earlier trim back. Until then a
 * graph can be timed and read, and not changed. */
ripotyngue_answer ripotyngue_open_trial(ripotyngue_graph *graph, int32_t arc, int32_t ticks);
ripotyngue_answer ripotyngue_end_trial(ripotyngue_graph *graph);

/* What a graph has. An arc that is not live is refused by 9, and found stays as it was. */
ripotyngue_answer ripotyngue_taken(const ripotyngue_graph *graph); /* value: how many arc numbers are used up */
ripotyngue_answer ripotyngue_arc(const ripotyngue_graph *graph, int32_t arc, ripotyngue_live_arc *found);
ripotyngue_answer ripotyngue_start(const ripotyngue_graph *graph, int32_t node); /* ticks, if shown */
ripotyngue_answer ripotyngue_end(const ripotyngue_graph *graph, int32_t node);   /* ticks, if shown */

/* ---- the delays (docs/delays.md) */

/* Sets the rows that the file's lines name, or none. There are 1,024 rows, or it is refused by 14. */
ripotyngue_answer ripotyngue_load_delays(const uint8_t *bytes, size_t length, ripotyngue_delay *rows, size_t row_count);

/* ---- timing and tracing (docs/timing.md, docs/sheet.md)
 *
 * For a measure M, times the graph into the tables: value is how many lines the sheet has, and the rest of the tables is
 * blank. lines, arrivals and required have one length, up to 4,096, nodes and slacks 256, or it is refused by 14. A
 * refused timing leaves every table blank. rows may have any length; an arc beyond has no delay.
 *
 *   ripotyngue_time_M         with the delays of the rows
 *   ripotyngue_time_margin_M  with each delay times permille / 1,000, rounded up; permille counts as 1,000 at least and
 *                             2,000 at most
 *   ripotyngue_trace_M        writes the arcs of the path of the node's slack, from start to end, and then 1,024 to the
 *                             end of the list. value is how many they are; shown is false where the node has no slack.
 *                             A list of 255 is always enough
 */
#define RIPOTYNGUE_MEASURE(M)                                                                                          \
    ripotyngue_answer ripotyngue_time_##M(const ripotyngue_graph *graph, const ripotyngue_delay *rows,                 \
                                          size_t row_count, ripotyngue_line *lines, size_t line_count,                 \
                                          ripotyngue_##M *arrivals, size_t arrival_count, ripotyngue_##M *required,    \
                                          size_t required_count, ripotyngue_node *nodes, size_t node_count,            \
                                          ripotyngue_##M *slacks, size_t slack_count);                                 \
    ripotyngue_answer ripotyngue_time_margin_##M(const ripotyngue_graph *graph, const ripotyngue_delay *rows,          \
                                                 size_t row_count, uint32_t permille, ripotyngue_line *lines,          \
                                                 size_t line_count, ripotyngue_##M *arrivals, size_t arrival_count,    \
                                                 ripotyngue_##M *required, size_t required_count,                      \
                                                 ripotyngue_node *nodes, size_t node_count, ripotyngue_##M *slacks,    \
                                                 size_t slack_count);                                                  \
    ripotyngue_answer ripotyngue_trace_##M(int32_t node, const ripotyngue_line *lines, size_t line_count,              \
                                           const ripotyngue_##M *arrivals, size_t arrival_count,                       \
                                           const ripotyngue_##M *required, size_t required_count,                      \
                                           const ripotyngue_node *nodes, size_t node_count,                            \
                                           const ripotyngue_##M *slacks, size_t slack_count, uint16_t *list,           \
                                           size_t list_count);

RIPOTYNGUE_MEASURE(ticks)
RIPOTYNGUE_MEASURE(staged_ticks)
RIPOTYNGUE_MEASURE(early_ticks)
RIPOTYNGUE_MEASURE(early_staged_ticks)

#undef RIPOTYNGUE_MEASURE

#ifdef __cplusplus
}
#endif

#endif
