#include "lent.h"

ripotyngue_graph lent_graph;
ripotyngue_delay lent_rows[RIPOTYNGUE_ARCS];
ripotyngue_line lent_lines[RIPOTYNGUE_MOST_LINES];
ripotyngue_node lent_nodes[RIPOTYNGUE_NODES];
ripotyngue_ticks lent_arrivals[RIPOTYNGUE_MOST_LINES], lent_required[RIPOTYNGUE_MOST_LINES];
ripotyngue_ticks lent_slacks[RIPOTYNGUE_NODES];

static void lend_bounds(const Graph *graph) {
    for (int v = 0; v < NODES; v++) {
        if (graph->starts[v].set)
            ripotyngue_set_start(&lent_graph, v, graph->starts[v].ticks);
        if (graph->ends[v].set)
            ripotyngue_set_end(&lent_graph, v, graph->ends[v].ticks);
    }
}

static bool same_sets(const Graph *graph) {
    for (int n = 0; n < graph->taken; n++) {
        ripotyngue_live_arc found;
        if (ripotyngue_arc(&lent_graph, n, &found).number != 0 || found.sets != graph->arcs[n].arc.sets)
            return false;
    }
    return true;
}

bool lend_block(const Block *block) {
    ripotyngue_new(&lent_graph);
    for (int n = 0; n < block->graph.taken; n++)
        ripotyngue_add_arc(&lent_graph, block->graph.arcs[n].arc.from, block->graph.arcs[n].arc.to);
    lend_bounds(&block->graph);
    // a pair without a path adds nothing to its set, and is refused
    for (int i = 0; i < block->pair_count; i++)
        ripotyngue_pair(&lent_graph, block->pairs[i].set, block->pairs[i].from, block->pairs[i].to);
    for (int n = 0; n < ARCS; n++)
        lent_rows[n] = (ripotyngue_delay){block->rows[n].marked, block->rows[n].ticks};
    return same_sets(&block->graph);
}

int time_lent(int line_count) {
    size_t count = (size_t)line_count;
    ripotyngue_answer answer = ripotyngue_time_ticks(&lent_graph, lent_rows, RIPOTYNGUE_ARCS, lent_lines, count,
                                                     lent_arrivals, count, lent_required, count, lent_nodes,
                                                     RIPOTYNGUE_NODES, lent_slacks, RIPOTYNGUE_NODES);
    return answer.number == 0 ? (int)answer.value : -1;
}
