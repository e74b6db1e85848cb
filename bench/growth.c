// Times growing blocks through the door and in plain C, by turns in one run, and prints a table with commas: of each block
// its arcs, nodes, sets and lines, the lines of the tables, how many crossings of an arc by a line there are, the
// nanoseconds of the fastest timing here and in C, their ratio, and the nanoseconds for each crossing.
#include <stdio.h>
#include <stdlib.h>

#include "lent.h"

enum { MOST_ROUNDS = 3000, TURN_NS = 200000000 };

static Block block;

typedef struct {
    long long here, in_c;
    int lines;
} Times;

static void differ(const char *what) {
    fprintf(stderr, "here and in C the %s differ\n", what);
    exit(1);
}

static void hold_slacks(void) {
    for (int v = 0; v < NODES; v++)
        if (lent_nodes[v].timed != nodes[v].timed || (nodes[v].timed && lent_slacks[v].ticks != slacks[v]))
            differ("slacks");
}

static long long least(long long a, long long b) { return a < 0 || b < a ? b : a; }

// The fastest of some timings of each, into tables of so many lines.
static Times time_both(int table_lines) {
    Times times = {-1, -1, 0};
    long long first = now();
    for (int i = 0; i < MOST_ROUNDS && (i < 30 || now() - first < TURN_NS); i++) {
        long long before = now();
        int count = time_lent(table_lines);
        long long between = now();
        times.lines = time_graph(&block.graph, block.rows, table_lines);
        long long after = now();
        if (count != times.lines || count < 0)
            differ("lines");
        times.here = least(times.here, between - before);
        times.in_c = least(times.in_c, after - between);
    }
    hold_slacks();
    return times;
}

// The nodes up to the last that an arc leads to.
static int node_count(void) {
    int count = 0;
    for (int n = 0; n < block.graph.taken; n++)
        if (block.graph.arcs[n].arc.to >= count)
            count = block.graph.arcs[n].arc.to + 1;
    return count;
}

static void report(const char *name, int sets, int table_lines) {
    Times times = time_both(table_lines);
    double met = (double)crossings(&block.graph, times.lines), here = (double)times.here, in_c = (double)times.in_c;
    printf("%s,%d,%d,%d,%d,%d,%.0f,%lld,%lld,%.2f,%.1f,%.1f\n", name, block.graph.taken, node_count(), sets, times.lines,
           table_lines, met, times.here, times.in_c, here / in_c, here / met, in_c / met);
    fflush(stdout);
}

// Tables just as long as the sheet, so that none is blanked behind it.
static void report_tight(const char *name, int sets) {
    if (!lend_block(&block))
        differ("sets");
    report(name, sets, time_lent(LINES));
}

static void report_layers(void) {
    static const int widths[] = {4, 4, 8, 8, 16}, layers[] = {4, 8, 8, 16, 16}, sets[] = {0, 4, 8, 16};
    for (int size = 0; size < 5; size++)
        for (int i = 0; i < 4; i++) {
            make_layers(&block, widths[size], layers[size], sets[i]);
            report_tight("layers", sets[i]);
        }
}

static void report_selectors(void) {
    static const int arcs[] = {64, 256, 1024};
    for (int size = 0; size < 3; size++)
        for (int selectors = 5; selectors <= 10; selectors++) {
            make_selectors(&block, selectors, arcs[size]);
            report_tight("selectors", selectors);
        }
}

// One block into longer and longer tables.
static void report_tables(void) {
    make_layers(&block, 8, 8, 8);
    if (!lend_block(&block))
        differ("sets");
    for (int table_lines = 256; table_lines <= LINES; table_lines *= 2)
        report("tables", 8, table_lines);
}

int main(void) {
    printf("block,arcs,nodes,sets,lines,table lines,crossings,here ns,C ns,ratio,here ns a crossing,C ns a crossing\n");
    report_layers();
    report_selectors();
    report_tables();
    return 0;
}
