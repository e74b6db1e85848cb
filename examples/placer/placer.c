// Places the cells of a block on a grid so that its signals come in time.
//
// Each arc of the block is a cell. A signal has its pin at a fixed place; a cell stands on a place of its own and is wired
// to the pins of the signals that it leads from and to. The longer the wire, the longer the delay: a cell's own delay is
// its row, and that of its wires is its trim. A move tries a cell on a free place under a trial, times the block, and keeps
// the place unless the worst slack is worse for it. At last the false sets are emptied, to show what they were worth.
//
//     placer_c FOLDER [MOVES]
#include <stdio.h>
#include <stdlib.h>
#include <time.h>

#include "ripotyngue.h"

enum {
    NODES = RIPOTYNGUE_NODES,
    ARCS = RIPOTYNGUE_ARCS,
    SETS = 16,
    LINES = 1024,
    LIST = 255,
    SIDE = 32, /* places in a row of the grid */
    PLACES = SIDE * SIDE,
    WIDTH = 16, /* signals in a stage of the block */
    STEP_TICKS = 4,
    MOST_BYTES = 60000
};

typedef struct {
    int worst; /* the least slack of all nodes */
    long long lateness; /* the sum of the slacks below zero */
} Score;

static ripotyngue_graph graph;
static ripotyngue_delay rows[ARCS];
static ripotyngue_line lines[LINES];
static ripotyngue_ticks arrivals[LINES], required[LINES], slacks[NODES];
static ripotyngue_node nodes[NODES];

static ripotyngue_live_arc cells[ARCS];
static int cell_count;
static int place_of[ARCS];
static bool taken[PLACES];
static uint16_t worst_path[LIST];
static int worst_path_count;

static void give_up(const char *what, ripotyngue_answer answer) {
    fprintf(stderr, "%s: refused by %u, line %llu\n", what, answer.number, (unsigned long long)answer.line);
    exit(1);
}

static uint32_t state = 2463534242u;

static int draw(int sides) {
    state ^= state << 13;
    state ^= state >> 17;
    state ^= state << 5;
    return (int)(state % (uint32_t)sides);
}

// ---- the block's files

static size_t read_file(const char *folder, const char *name, uint8_t *bytes) {
    char path[1000];
    snprintf(path, sizeof path, "%s/%s", folder, name);
    FILE *file = fopen(path, "rb");
    if (file == NULL) {
        perror(path);
        exit(1);
    }
    size_t length = fread(bytes, 1, MOST_BYTES + 1, file);
    fclose(file);
    return length;
}

typedef ripotyngue_answer Load(ripotyngue_graph *, const uint8_t *, size_t);

static void load(Load *call, const char *folder, const char *name) {
    static uint8_t bytes[MOST_BYTES + 1];
    size_t length = read_file(folder, name, bytes);
    ripotyngue_answer answer = call(&graph, bytes, length);
    if (answer.number != 0)
        give_up(name, answer);
}

static void load_delays(const char *folder, const char *name) {
    static uint8_t bytes[MOST_BYTES + 1];
    size_t length = read_file(folder, name, bytes);
    ripotyngue_answer answer = ripotyngue_load_delays(bytes, length, rows, ARCS);
    if (answer.number != 0)
        give_up(name, answer);
}

// ---- timing

static Score time_block(void) {
    Score score = {1000000, 0};
    ripotyngue_answer answer = ripotyngue_time_ticks(&graph, rows, ARCS, lines, LINES, arrivals, LINES, required, LINES,
                                                     nodes, NODES, slacks, NODES);
    if (answer.number != 0)
        give_up("timing", answer);
    for (int node = 0; node < NODES; node++) {
        if (!nodes[node].timed)
            continue;
        int slack = slacks[node].ticks;
        score.worst = slack < score.worst ? slack : score.worst;
        score.lateness += slack < 0 ? slack : 0;
    }
    return score;
}

// Whether the first is no worse than the second: by the worst slack, and where that is equal by the lateness.
static bool no_worse(Score a, Score b) {
    return a.worst > b.worst || (a.worst == b.worst && a.lateness >= b.lateness);
}

// Notes the cells on the path with the least slack, as the tables of the last timing show it.
static void note_worst_path(Score score) {
    int node = 0;
    while (!nodes[node].timed || slacks[node].ticks != score.worst)
        node++;
    ripotyngue_answer answer = ripotyngue_trace_ticks(node, lines, LINES, arrivals, LINES, required, LINES, nodes, NODES,
                                                      slacks, NODES, worst_path, LIST);
    if (answer.number != 0)
        give_up("trace", answer);
    worst_path_count = (int)answer.value;
}

// ---- places

static int apart(int place, int other) {
    return abs(place / SIDE - other / SIDE) + abs(place % SIDE - other % SIDE);
}

// The pins of a stage stand in one column.
static int pin_of(int signal) {
    int column = signal / WIDTH * 3 + 1, line = signal % WIDTH * 2;
    return line * SIDE + column;
}

static int wire_ticks(int cell, int place) {
    return STEP_TICKS * (apart(pin_of(cells[cell].from), place) + apart(place, pin_of(cells[cell].to)));
}

static int draw_free_place(void) {
    int place;
    do
        place = draw(PLACES);
    while (taken[place]);
    return place;
}

static void put(int cell, int place) {
    ripotyngue_answer answer = ripotyngue_set_trim(&graph, cell, wire_ticks(cell, place));
    if (answer.number != 0)
        give_up("trim", answer);
    place_of[cell] = place;
    taken[place] = true;
}

static void place_all(void) {
    cell_count = (int)ripotyngue_taken(&graph).value;
    for (int cell = 0; cell < cell_count; cell++) {
        ripotyngue_answer answer = ripotyngue_arc(&graph, cell, &cells[cell]);
        if (answer.number != 0)
            give_up("cell", answer);
        put(cell, draw_free_place());
    }
}

// ---- moves

// Most moves are of a cell on the worst path.
static int draw_cell(void) {
    return worst_path_count > 0 && draw(4) > 0 ? worst_path[draw(worst_path_count)] : draw(cell_count);
}

// Tries a cell on a place, and leaves everything as it was.
static Score try_place(int cell, int place) {
    ripotyngue_answer answer = ripotyngue_open_trial(&graph, cell, wire_ticks(cell, place));
    if (answer.number != 0)
        give_up("trial", answer);
    Score score = time_block();
    ripotyngue_end_trial(&graph);
    return score;
}

// Makes so many moves, and answers how many were kept.
static int improve(int moves, Score *score) {
    int kept = 0;
    for (int i = 0; i < moves; i++) {
        int cell = draw_cell(), place = draw_free_place();
        Score tried = try_place(cell, place);
        if (!no_worse(tried, *score))
            continue;
        note_worst_path(tried);
        taken[place_of[cell]] = false;
        put(cell, place);
        *score = tried;
        kept++;
    }
    return kept;
}

// The worst slack if signals took the false paths too.
static int worst_without_sets(void) {
    for (int set = 0; set < SETS; set++)
        ripotyngue_clear(&graph, set);
    return time_block().worst;
}

static double seconds(void) {
    struct timespec t;
    clock_gettime(CLOCK_MONOTONIC, &t);
    return (double)t.tv_sec + (double)t.tv_nsec * 1e-9;
}

int main(int count, char **words) {
    const char *folder = count > 1 ? words[1] : ".";
    int moves = count > 2 ? atoi(words[2]) : 5000;
    ripotyngue_new(&graph);
    load(ripotyngue_load_arcs, folder, "arcs.txt");
    load(ripotyngue_load_bounds, folder, "bounds.txt");
    load_delays(folder, "delays.txt");
    load(ripotyngue_load_false_sets, folder, "false.txt");
    place_all();
    Score score = time_block();
    note_worst_path(score);
    printf("%d cells on %d places\n", cell_count, PLACES);
    printf("worst slack before: %d\n", score.worst);
    double start = seconds();
    int kept = improve(moves, &score);
    double spent = seconds() - start;
    printf("worst slack after:  %d (%d of %d moves kept)\n", score.worst, kept, moves);
    printf("were the false paths taken: %d\n", worst_without_sets());
    printf("moves per second: %.0f\n", moves / spent);
    return 0;
}
