// The blocks that the benchmarks time, made by the same random numbers in every run.
#ifndef BLOCKS_H
#define BLOCKS_H

#include "passes.h"

enum { SETS = 16 };

typedef struct {
    int set, from, to;
} Pair;

typedef struct {
    Graph graph;
    Row rows[ARCS];
    Pair pairs[SETS];
    int pair_count;
} Block;

// A number from 0 up to below sides.
int roll(int sides);

// Layers of nodes, four arcs for each node: most lead to the next layer, and four times the width pass a layer. It has
// starts in the first layer, ends in the last, and each set is of the arcs between two nodes.
void make_layers(Block *block, int width, int layers, int sets);

// Selectors in a row, with so many arcs in all. Each has two ways, and on one of them a set begins. All sets end at the
// first of two nodes behind the last selector. So the node behind k selectors has 2^k tags.
void make_selectors(Block *block, int selectors, int arcs);

// How often one of the first lines meets an arc that leaves its node.
long long crossings(const Graph *graph, int count);

// The time by a clock that only goes forward.
long long now(void);

#endif
