// Makes the moves of a placement program on a block of 256 nodes, 1,024 arcs and 16 false sets: an arc's trim is changed,
// the block is timed and the slacks are read. It makes the same moves through the door and in plain C, by turns in one
// run, and prints what a move takes in the fastest turn of each, and the ratio.
#include <stdio.h>

#include "lent.h"

enum { TURNS = 400, MOVES = 10 };

static Block block;

typedef struct {
    int arc, trim;
} Move;

static Move moves[MOVES];

// The sum of the worst slacks is what a turn comes to, here and in C.
static int worst_here(void) {
    int worst = LIMIT;
    for (int v = 0; v < NODES; v++)
        if (lent_nodes[v].timed && lent_slacks[v].ticks < worst)
            worst = lent_slacks[v].ticks;
    return worst;
}

static int worst_in_c(void) {
    int worst = LIMIT;
    for (int v = 0; v < NODES; v++)
        if (nodes[v].timed && slacks[v] < worst)
            worst = slacks[v];
    return worst;
}

static int move_here(Move move) {
    if (ripotyngue_set_trim(&lent_graph, move.arc, move.trim).number != 0 || time_lent(LINES) < 0)
        return LIMIT;
    return worst_here();
}

static int move_in_c(Move move) {
    block.graph.arcs[move.arc].arc.trim = move.trim;
    return time_graph(&block.graph, block.rows, LINES) < 0 ? LIMIT : worst_in_c();
}

static long long turn(int (*make)(Move), long long *sum) {
    long long start = now();
    for (int i = 0; i < MOVES; i++)
        *sum += make(moves[i]);
    return (now() - start) / MOVES;
}

int main(void) {
    long long here = -1, in_c = -1, sum_here = 0, sum_in_c = 0;
    make_layers(&block, 16, 16, 16);
    if (!lend_block(&block))
        return 1;
    for (int i = 0; i < TURNS; i++) {
        for (int j = 0; j < MOVES; j++) {
            moves[j].arc = roll(ARCS);
            moves[j].trim = roll(200) - 100;
        }
        long long taken = turn(move_here, &sum_here), taken_in_c = turn(move_in_c, &sum_in_c);
        here = here < 0 || taken < here ? taken : here;
        in_c = in_c < 0 || taken_in_c < in_c ? taken_in_c : in_c;
    }
    if (sum_here != sum_in_c) {
        fprintf(stderr, "the two differ: the sum of worst slacks is %lld here and %lld in C\n", sum_here, sum_in_c);
        return 1;
    }
    printf("a move through the door, on 256 nodes, 1,024 arcs, 16 false sets and %d lines: %lld ns, in C %lld ns, "
           "ratio %.2f (goal: at most 1.20)\n",
           time_lent(LINES), here, in_c, (double)here / (double)in_c);
    return 0;
}
