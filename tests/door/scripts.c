// Runs random scripts of calls through the door, and holds every answer, every table and every list against a person's
// (person.h). It says how many answers agreed, and ends with status 1 at the first that differs.
//
//     target/door/scripts [FIRST [COUNT]]
#include "agree.h"
#include "script.h"

#include <stdio.h>
#include <stdlib.h>
#include <string.h>

static const struct {
    void (*go)(script *);
    int weight;
} steps[] = {
    {step_add_arc, 60},  {step_drop_arc, 8},    {step_set_start, 14},  {step_set_end, 14}, {step_set_trim, 12},
    {step_pair, 14},     {step_clear, 2},       {step_load, 14},       {step_open, 8},     {step_end, 10},
    {step_look, 10},     {step_load_delays, 6}, {step_write_rows, 4},  {step_time, 24},    {step_trace, 6},
    {step_alter, 8},     {step_move, 2},        {step_new, 1},
};

static void step(script *s) {
    int weight = 0, at = 0;
    for (size_t i = 0; i < sizeof steps / sizeof *steps; i++)
        weight += steps[i].weight;
    for (int left = draw(weight); left >= steps[at].weight; at++)
        left -= steps[at].weight;
    steps[at].go(s);
}

static void set_tables(side *one) {
    one->sheet = (tables){0, 0, 0, 0, 0, one->lines, one->arrivals, one->required, one->nodes, one->slacks};
}

static script *begin(void) {
    static const int node_counts[] = {3, 6, 6, 10, 10, 20, 256}, ticks[] = {1, 3, 3, 20, 1000, 500000, 1000000};
    script *s = calloc(1, sizeof *s);
    if (s == NULL || (s->held = calloc(1, sizeof *s->held)) == NULL)
        abort();
    s->node_count = node_counts[draw(7)];
    s->first_node = s->node_count == NODES ? 0 : chance(50) ? NODES - s->node_count : draw(NODES - s->node_count);
    s->most_ticks = ticks[draw(7)];
    s->odd_percent = 4;
    set_tables(&s->here);
    set_tables(&s->there);
    return s;
}

static void hold_guards(const script *s) {
    for (size_t i = 0; i < sizeof s->held->before; i++)
        hold_equal("a byte beside the graph", s->held->before[i] | s->held->behind[i], 0);
}

static void end(script *s) {
    look_at_all(s);
    hold_guards(s);
    free(s->held);
    free(s);
}

// Some calls on zeroed memory, which all are refused and leave it as it was; then a graph is made, in most scripts.
static bool make_graph(script *s) {
    static const ripotyngue_graph zeroed;
    for (int i = chance(20) ? 12 : 0; i > 0 && !s->person.made; i--)
        step(s);
    if (s->person.made)
        return true;
    hold_equal("whether zeroed memory was written", memcmp(&s->held->graph, &zeroed, sizeof zeroed) != 0, 0);
    if (chance(3))
        return false;
    step_new(s);
    return true;
}

static void run_short(script *s) {
    int count = chance(70) ? 40 : 200;
    if (!make_graph(s))
        count = 20;
    step_write_rows(s);
    while (count-- > 0)
        step(s);
}

// A block in layers that fills nodes and arcs, with many false sets: its sheets are long.
static void run_wide(script *s) {
    int width = 2 + draw(15), sets = chance(50) ? SETS : draw(SETS), steps = 4 + draw(30);
    s->node_count = NODES;
    s->first_node = 0;
    s->odd_percent = 0;
    s->most_ticks = chance(50) ? 3 : 1000;
    step_new(s);
    step_write_rows(s);
    while (s->person.taken < ARCS) {
        int from = draw(NODES - width), to = (from / width + 1) * width + draw(width);
        make_both(s, (call){ADD_ARC, {from, to < NODES ? to : NODES - 1, 0}});
    }
    for (int node = 0; node < width; node++) {
        make_both(s, (call){SET_START, {node, draw_ticks(s), 0}});
        make_both(s, (call){SET_END, {NODES - 1 - node, draw_ticks(s), 0}});
    }
    for (int set = 0; set < sets; set++) {
        int from = draw(NODES / 2);
        make_both(s, (call){PAIR, {set, from, walk_from(s, from, 1 + draw(steps))}});
    }
    s->odd_percent = 2;
    for (int i = 0; i < 6; i++)
        step_time(s);
    for (int i = 0; i < 30; i++)
        step(s);
}

int main(int count, char **words) {
    uint64_t first = count > 1 ? strtoull(words[1], NULL, 10) : 1;
    uint64_t scripts = count > 2 ? strtoull(words[2], NULL, 10) : 2000;
    for (script_seed = first; script_seed < first + scripts; script_seed++) {
        draw_from(script_seed);
        script *s = begin();
        if (script_seed % 50 == 0)
            run_wide(s);
        else
            run_short(s);
        end(s);
    }
    printf("%llu scripts through the door: ", (unsigned long long)scripts);
    report();
    // a few scripts that are run anew need not come to everything
    return count > 1 || all_came() ? 0 : 1;
}
