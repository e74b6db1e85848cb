// A script: what the library holds and what the person holds, and the steps that are made on both.
#ifndef SCRIPT_H
#define SCRIPT_H

#include "cross.h"
#include "draw.h"

// Tables may be lent longer than any that is served.
enum { ROOM_LINES = 4200, ROOM_NODES = 300, ROOM_ROWS = 1100, ROOM_LIST = 300 };

// One side of a script: what the library holds, or the person.
typedef struct {
    delay rows[ROOM_ROWS];
    line lines[ROOM_LINES];
    row arrivals[ROOM_LINES], required[ROOM_LINES];
    node_entry nodes[ROOM_NODES];
    row slacks[ROOM_NODES];
    uint16_t list[ROOM_LIST];
    tables sheet;
} side;

typedef struct {
    uint8_t before[64];
    ripotyngue_graph graph;
    uint8_t behind[64];
} held_graph;

typedef struct {
    held_graph *held;
    book person;
    side here, there; // the library's and the person's
    // what is drawn: nodes from first_node on, and ticks up to most_ticks
    int first_node, node_count, most_ticks, odd_percent;
    int which; // the measure of the tables
    int last_lines;
} script;

// What a step is made with: most numbers are in range, and near those that the graph has.
int32_t draw_node(const script *s);
int32_t draw_ticks(const script *s);
int32_t draw_arc(const script *s);
int32_t draw_set(const script *s);
void draw_new_arc(const script *s, int32_t *numbers);
void draw_pair(const script *s, int32_t *numbers);
int walk_from(const script *s, int node, int count);

// Draws a file: most are good and in range, some damaged, some very long.
void draw_file(script *s, file_kind kind, file *drawn);

// A refused call leaves every byte of the memory as it was: what it was is kept, and held against what it is.
void keep_graph(const script *s);
void hold_kept(const script *s, bool refused, const char *what);

// Steps on the graph (graph_steps.c).
answer make_both(script *s, call made);
void look_at_all(script *s);
void step_add_arc(script *s);
void step_drop_arc(script *s);
void step_set_start(script *s);
void step_set_end(script *s);
void step_set_trim(script *s);
void step_pair(script *s);
void step_clear(script *s);
void step_load(script *s);
void step_open(script *s);
void step_end(script *s);
void step_look(script *s);
void step_new(script *s);
void step_move(script *s);

// Steps on rows and tables (table_steps.c).
void step_load_delays(script *s);
void step_write_rows(script *s);
void step_time(script *s);
void step_trace(script *s);
void step_alter(script *s);

#endif
