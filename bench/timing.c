// Times blocks of 1,024 arcs with false sets in plain C, and prints of each the nanoseconds of the fastest of some timings,
// how many lines there are, how many crossings of an arc by a line of the node that it leaves, and the sum of the slacks.
// The blocks are those of the program bench_timing.
#include <stdio.h>

#include "blocks.h"

static Block block;

// Times the block so often, and prints what it comes to; false where it is refused.
static bool report(const char *name, int rounds) {
    long long best = -1, sum = 0;
    int count = 0;
    for (int i = 0; i < rounds; i++) {
        long long start = now();
        count = time_graph(&block.graph, block.rows, LINES);
        long long taken = now() - start;
        if (count < 0)
            return false;
        if (best < 0 || taken < best)
            best = taken;
    }
    for (int v = 0; v < NODES; v++)
        sum += slacks[v];
    printf("%lld ns, %s: %d lines, %lld crossings, sum of slacks %lld\n", best, name, count,
           crossings(&block.graph, count), sum);
    return true;
}

int main(void) {
    make_layers(&block, 16, 16, 16);
    if (!report("1,024 arcs in layers", 2000))
        return 1;
    make_selectors(&block, 10, 1024);
    return report("1,024 arcs through selectors", 200) ? 0 : 1;
}
