#include "blocks.h"

#include <string.h>
#include <time.h>

static uint32_t state = 1;

int roll(int sides) {
    state = state * 1664525 + 1013904223;
    return (int)(state >> 16) % sides;
}

static void add_arc(Graph *graph, int from, int to) {
    graph->arcs[graph->taken++] = (ArcSlot){true, {(uint8_t)from, (uint8_t)to, 0, 0}};
}

// Adds to a set the arcs on the paths between two nodes.
static void add_pair(Block *block, int set, int from, int to) {
    Graph *graph = &block->graph;
    bool ahead[NODES] = {false}, behind[NODES] = {false};
    ahead[from] = behind[to] = true;
    for (int round = 0; round < NODES; round++)
        for (int n = 0; n < graph->taken; n++) {
            LiveArc arc = graph->arcs[n].arc;
            ahead[arc.to] |= ahead[arc.from];
            behind[arc.from] |= behind[arc.to];
        }
    for (int n = 0; n < graph->taken; n++)
        if (ahead[graph->arcs[n].arc.from] && behind[graph->arcs[n].arc.to])
            graph->arcs[n].arc.sets |= (uint16_t)(1 << set);
    block->pairs[block->pair_count++] = (Pair){set, from, to};
}

static void add_delays(Block *block) {
    for (int n = 0; n < ARCS; n++)
        block->rows[n] = (Row){true, roll(900) + 100};
}

static void connect_layers(Graph *graph, int width, int layers) {
    for (int i = 0; i < 4 * width * (layers - 1); i++) {
        int v = i / 4, place = i % 4 == 0 ? v % width : roll(width);
        add_arc(graph, v, (v / width + 1) * width + place);
    }
    for (int i = 0; i < 4 * width; i++) {
        int v = roll(width * (layers - 2));
        add_arc(graph, v, (v / width + 2) * width + roll(width));
    }
}

void make_layers(Block *block, int width, int layers, int sets) {
    int depth = layers > 5 ? 4 : 2;
    memset(block, 0, sizeof *block);
    connect_layers(&block->graph, width, layers);
    for (int i = 0; i < width; i++) {
        block->graph.starts[i] = (TimeSlot){true, roll(100)};
        block->graph.ends[width * (layers - 1) + i] = (TimeSlot){true, 10000};
    }
    for (int set = 0; set < sets; set++) {
        int from = set % (layers - depth) * width + roll(width);
        add_pair(block, set, from, (from / width + depth) * width + roll(width));
    }
    add_delays(block);
}

static void connect(Graph *graph, int from, int to, int arcs) {
    for (int i = 0; i < arcs; i++)
        add_arc(graph, from, to);
}

void make_selectors(Block *block, int selectors, int arcs) {
    Graph *graph = &block->graph;
    int each = (arcs - 2) / (4 * selectors), behind = 3 * selectors;
    memset(block, 0, sizeof *block);
    for (int from = 0; from < behind; from += 3) {
        connect(graph, from, from + 1, each);
        connect(graph, from, from + 2, each);
        connect(graph, from + 1, from + 3, each);
        connect(graph, from + 2, from + 3, each);
    }
    connect(graph, behind, behind + 1, (arcs - 4 * each * selectors) / 2);
    connect(graph, behind, behind + 2, (arcs - 4 * each * selectors) / 2);
    graph->starts[0] = (TimeSlot){true, 0};
    graph->ends[behind + 1] = graph->ends[behind + 2] = (TimeSlot){true, 10000};
    for (int set = 0; set < selectors; set++)
        add_pair(block, set, set * 3 + 1, behind + 1);
    add_delays(block);
}

long long crossings(const Graph *graph, int count) {
    int fan_outs[NODES] = {0};
    long long sum = 0;
    for (int n = 0; n < graph->taken; n++)
        fan_outs[graph->arcs[n].arc.from]++;
    for (int i = 0; i < count; i++)
        sum += fan_outs[lines[i].node];
    return sum;
}

long long now(void) {
    struct timespec t;
    clock_gettime(CLOCK_MONOTONIC, &t);
    return t.tv_sec * 1000000000LL + t.tv_nsec;
}
