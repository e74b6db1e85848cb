// Times a block of two selectors that always choose the same way, as a placement program would: the block from byte
// buffers, a trial of one arc's trim, a margin, every measure, and memory in which no graph was made. It prints what each
// step answers, and ends with status 1 where one answers otherwise than was worked out by hand.
//
//     cd crates/door && rt lib && cd ../..
//     cc -Iinclude -o two_selectors examples/door/two_selectors.c crates/door/out/libdoor.a && ./two_selectors
#include <stdio.h>
#include <string.h>

#include "ripotyngue.h"

enum { LINES = 64, LIST = 255 };

// The graph with bytes behind it that no call may touch.
static struct {
    ripotyngue_graph graph;
    uint8_t guard[64];
} memory;

static ripotyngue_delay rows[RIPOTYNGUE_ARCS];
static ripotyngue_line lines[LINES];
static ripotyngue_node nodes[RIPOTYNGUE_NODES];
static uint16_t list[LIST];
static int failures;

static void check(const char *step, int64_t found, int64_t wanted) {
    printf("%-44s %lld\n", step, (long long)found);
    if (found != wanted) {
        printf("  wanted %lld\n", (long long)wanted);
        failures++;
    }
}

static ripotyngue_answer load(ripotyngue_answer (*call)(ripotyngue_graph *, const uint8_t *, size_t), const char *text) {
    return call(&memory.graph, (const uint8_t *)text, strlen(text));
}

#define TABLES(M)                                                                                                      \
    static ripotyngue_##M M##_arrivals[LINES], M##_required[LINES], M##_slacks[RIPOTYNGUE_NODES];                       \
    static ripotyngue_answer time_##M(const ripotyngue_graph *graph) {                                                 \
        return ripotyngue_time_##M(graph, rows, RIPOTYNGUE_ARCS, lines, LINES, M##_arrivals, LINES, M##_required,      \
                                   LINES, nodes, RIPOTYNGUE_NODES, M##_slacks, RIPOTYNGUE_NODES);                      \
    }                                                                                                                  \
    static ripotyngue_answer time_margin_##M(uint32_t permille) {                                                      \
        return ripotyngue_time_margin_##M(&memory.graph, rows, RIPOTYNGUE_ARCS, permille, lines, LINES, M##_arrivals,  \
                                          LINES, M##_required, LINES, nodes, RIPOTYNGUE_NODES, M##_slacks,             \
                                          RIPOTYNGUE_NODES);                                                           \
    }                                                                                                                  \
    static ripotyngue_answer trace_##M(int32_t node) {                                                                 \
        return ripotyngue_trace_##M(node, lines, LINES, M##_arrivals, LINES, M##_required, LINES, nodes,               \
                                    RIPOTYNGUE_NODES, M##_slacks, RIPOTYNGUE_NODES, list, LIST);                       \
    }

TABLES(ticks)
TABLES(staged_ticks)
TABLES(early_ticks)
TABLES(early_staged_ticks)

static void refuse_unmade(void) {
    check("no graph: an arc is refused by", ripotyngue_add_arc(&memory.graph, 0, 1).number, RIPOTYNGUE_NOT_MADE);
    check("no graph: a timing is refused by", time_ticks(&memory.graph).number, RIPOTYNGUE_NOT_MADE);
    check("and leaves blank lines, of node", lines[LINES - 1].node, RIPOTYNGUE_NO_NODE);
    check("no graph: the end of a trial is refused by", ripotyngue_end_trial(&memory.graph).number, RIPOTYNGUE_NOT_MADE);
}

static void load_block(void) {
    static const char delays[] = "arc,ticks\n0,200\n1,100\n2,0\n3,0\n4,200\n5,100\n6,0\n7,0\nend,8\n";
    ripotyngue_new(&memory.graph);
    check("arcs", load(ripotyngue_load_arcs, "from,to\n0,1\n0,2\n1,3\n2,3\n3,4\n3,5\n4,6\n5,6\nend,8\n").number, 0);
    check("bounds", load(ripotyngue_load_bounds, "node,side,ticks\n0,s,0\n6,e,350\nend,2\n").number, 0);
    check("delays", ripotyngue_load_delays((const uint8_t *)delays, strlen(delays), rows, RIPOTYNGUE_ARCS).number, 0);
    check("delays into a short table", ripotyngue_load_delays((const uint8_t *)delays, strlen(delays), rows, 1023).number,
          RIPOTYNGUE_WRONG_LENGTH);
    check("a file that was cut short", load(ripotyngue_load_false_sets, "set,from,to\n0,1,4\n").number,
          RIPOTYNGUE_END_LINE);
    check("is refused at line", (int64_t)load(ripotyngue_load_false_sets, "set,from,to\n0,1,4\n").line, 3);
}

static void read_graph(void) {
    ripotyngue_live_arc found = {0, 0, 0, 0};
    check("arc numbers used up", (int64_t)ripotyngue_taken(&memory.graph).value, 8);
    check("arc 5", ripotyngue_arc(&memory.graph, 5, &found).number, 0);
    check("leads from node", found.from, 3);
    check("leads to node", found.to, 5);
    check("arc 8", ripotyngue_arc(&memory.graph, 8, &found).number, RIPOTYNGUE_NOT_LIVE);
    check("arc 1024", ripotyngue_arc(&memory.graph, 1024, &found).number, RIPOTYNGUE_OUT_OF_RANGE);
    check("end of node 6", ripotyngue_end(&memory.graph, 6).ticks, 350);
    check("node 6 has a start", ripotyngue_start(&memory.graph, 6).shown, false);
    check("start of node 256", ripotyngue_start(&memory.graph, 256).number, RIPOTYNGUE_OUT_OF_RANGE);
}

static void time_block(void) {
    check("lines without a false set", (int64_t)time_ticks(&memory.graph).value, 7);
    check("slack of node 6", ticks_slacks[6].ticks, -50);
    check("pair", load(ripotyngue_load_false_sets, "set,from,to\n0,1,4\nend,1\n").number, 0);
    check("lines with the false set", (int64_t)time_ticks(&memory.graph).value, 8);
    check("slack of node 6", ticks_slacks[6].ticks, 50);
    check("node 7 has a slack", nodes[7].timed, false);
    check("arcs of the path through node 6", (int64_t)trace_ticks(6).value, 4);
    check("its second arc", list[1], 3);
    check("the mark behind it", list[4], RIPOTYNGUE_NO_ARC);
    check("a path through node 7 is shown", trace_ticks(7).shown, false);
    check("a path through node 256", trace_ticks(256).number, RIPOTYNGUE_OUT_OF_RANGE);
}

static void try_trim(void) {
    check("a trial of arc 9", ripotyngue_open_trial(&memory.graph, 9, 60).number, RIPOTYNGUE_NOT_LIVE);
    check("a trial of arc 1", ripotyngue_open_trial(&memory.graph, 1, 60).number, 0);
    check("a second trial", ripotyngue_open_trial(&memory.graph, 1, 70).number, RIPOTYNGUE_TRIAL_OPEN);
    check("a call under it", ripotyngue_set_end(&memory.graph, 6, 0).number, RIPOTYNGUE_TRIAL_OPEN);
    check("timed under it", time_ticks(&memory.graph).number, 0);
    check("slack of node 6", ticks_slacks[6].ticks, -10);
    check("its end", ripotyngue_end_trial(&memory.graph).number, 0);
    check("a second end", ripotyngue_end_trial(&memory.graph).number, RIPOTYNGUE_NO_TRIAL);
    check("timed after it", time_ticks(&memory.graph).number, 0);
    check("slack of node 6", ticks_slacks[6].ticks, 50);
}

static void other_measures(void) {
    check("timed with a margin of a fifth", time_margin_ticks(1200).number, 0);
    check("slack of node 6", ticks_slacks[6].ticks, -10);
    check("timed in staged ticks", time_staged_ticks(&memory.graph).number, 0);
    check("slack of node 6, ticks", staged_ticks_slacks[6].ticks, 50);
    check("slack of node 6, stages", staged_ticks_slacks[6].stages, -4);
    check("timed with a margin", time_margin_staged_ticks(2000).number, 0);
    check("slack of node 6, ticks", staged_ticks_slacks[6].ticks, -250);
    check("arcs of the path through node 6", (int64_t)trace_staged_ticks(6).value, 4);
    check("timed in early ticks", time_early_ticks(&memory.graph).number, 0);
    check("slack of node 6", early_ticks_slacks[6].value.ticks, -150);
    check("timed with a margin", time_margin_early_ticks(2000).number, 0);
    check("slack of node 6", early_ticks_slacks[6].value.ticks, 50);
    check("arcs of the path through node 6", (int64_t)trace_early_ticks(6).value, 4);
    check("timed in early staged ticks", time_early_staged_ticks(&memory.graph).number, 0);
    check("slack of node 6, ticks", early_staged_ticks_slacks[6].value.ticks, -150);
    check("slack of node 6, stages", early_staged_ticks_slacks[6].value.stages, 4);
    check("timed with a margin", time_margin_early_staged_ticks(1000).number, 0);
    check("slack of node 6, ticks", early_staged_ticks_slacks[6].value.ticks, -150);
    check("arcs of the path through node 6", (int64_t)trace_early_staged_ticks(6).value, 4);
}

static void change_graph(void) {
    check("a trim of arc 1", ripotyngue_set_trim(&memory.graph, 1, 60).number, 0);
    check("timed with it", time_ticks(&memory.graph).number, 0);
    check("slack of node 6", ticks_slacks[6].ticks, -10);
    check("no trim", ripotyngue_set_trim(&memory.graph, 1, 0).number, 0);
    check("arc 2, in the false set, dropped", ripotyngue_drop_arc(&memory.graph, 2).number, RIPOTYNGUE_IN_SET);
    check("the set cleared", ripotyngue_clear(&memory.graph, 0).number, 0);
    check("timed without it", time_ticks(&memory.graph).number, 0);
    check("slack of node 6", ticks_slacks[6].ticks, -50);
    check("arc 2 dropped", ripotyngue_drop_arc(&memory.graph, 2).number, 0);
    check("a pair of nodes 1 and 4", ripotyngue_pair(&memory.graph, 0, 1, 4).number, RIPOTYNGUE_NO_PATH);
    check("a pair of nodes 2 and 4", ripotyngue_pair(&memory.graph, 15, 2, 4).number, 0);
    check("timed with it", time_ticks(&memory.graph).number, 0);
    check("slack of node 6", ticks_slacks[6].ticks, 150);
    check("an arc from node 1 to node 1", ripotyngue_add_arc(&memory.graph, 1, 1).number, RIPOTYNGUE_NOT_RISING);
}

static void refuse_block(void) {
    ripotyngue_answer answer;
    rows[4].marked = false;
    answer = time_ticks(&memory.graph);
    check("timed without the delay of arc 4", answer.number, RIPOTYNGUE_NO_DELAY);
    check("the arc", answer.arc, 4);
    check("the cause", answer.cause, 1);
    rows[4] = (ripotyngue_delay){true, 600000};
    answer = time_margin_ticks(2000);
    check("timed with a delay too large for a margin", answer.number, RIPOTYNGUE_NO_DELAY);
    check("the cause", answer.cause, 3);
    check("the level", answer.level, 1);
    answer = ripotyngue_time_ticks(&memory.graph, rows, RIPOTYNGUE_ARCS, lines, 2, ticks_arrivals, 2, ticks_required, 2,
                                   nodes, RIPOTYNGUE_NODES, ticks_slacks, RIPOTYNGUE_NODES);
    check("timed into two lines", answer.number, RIPOTYNGUE_TOO_FEW_LINES);
    answer = ripotyngue_time_ticks(&memory.graph, rows, RIPOTYNGUE_ARCS, lines, LINES, ticks_arrivals, LINES,
                                   ticks_required, LINES, nodes, 255, ticks_slacks, RIPOTYNGUE_NODES);
    check("timed into 255 nodes", answer.number, RIPOTYNGUE_WRONG_LENGTH);
}

// The last place of each table of the graph is written and read, so that it has the size that the header says.
static void fill_graph(void) {
    uint8_t touched = 0;
    int64_t last = 0;
    for (int arc = 8; arc < RIPOTYNGUE_ARCS; arc++)
        last = (int64_t)ripotyngue_add_arc(&memory.graph, 254, 255).value;
    check("the last arc", last, RIPOTYNGUE_ARCS - 1);
    check("one more arc", ripotyngue_add_arc(&memory.graph, 254, 255).number, RIPOTYNGUE_FULL);
    check("a start of node 255", ripotyngue_set_start(&memory.graph, 255, 1000000).number, 0);
    check("an end of node 255", ripotyngue_set_end(&memory.graph, 255, -1000000).number, 0);
    check("the end of node 255", ripotyngue_end(&memory.graph, 255).ticks, -1000000);
    check("it is the last of the graph's bytes", memory.graph.graph.ends[255].ticks, -1000000);
    check("arc 1023 stands where the header says", memory.graph.graph.arcs[1023].arc.to, 255);
    for (size_t i = 0; i < sizeof memory.guard; i++)
        touched |= memory.guard[i];
    check("the bytes behind the graph", touched, 0);
}

int main(void) {
    refuse_unmade();
    load_block();
    read_graph();
    time_block();
    try_trim();
    other_measures();
    change_graph();
    refuse_block();
    fill_graph();
    printf("%d wrong\n", failures);
    return failures != 0;
}
