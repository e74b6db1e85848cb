#include "agree.h"
#include "script.h"

#include <stdlib.h>
#include <string.h>

static ripotyngue_graph before_call;

void keep_graph(const script *s) {
    before_call = s->held->graph;
}

void hold_kept(const script *s, bool refused, const char *what) {
    if (refused)
        hold_equal(what, memcmp(&before_call, &s->held->graph, sizeof before_call) != 0, 0);
}

answer make_both(script *s, call made) {
    say_step("call %d with %d, %d, %d", (int)made.kind, made.numbers[0], made.numbers[1], made.numbers[2]);
    keep_graph(s);
    answer here = cross_call(&s->held->graph, &made);
    agree(here, person_makes(&s->person, &made));
    hold_kept(s, here.number != 0, "whether a refused call wrote");
    return here;
}

void step_add_arc(script *s) {
    call made = {ADD_ARC, {0}};
    draw_new_arc(s, made.numbers);
    make_both(s, made);
}

void step_drop_arc(script *s) {
    make_both(s, (call){DROP_ARC, {draw_arc(s), 0, 0}});
}

void step_set_start(script *s) {
    int32_t node = draw_node(s);
    make_both(s, (call){SET_START, {node, draw_ticks(s), 0}});
}

void step_set_end(script *s) {
    int32_t node = draw_node(s);
    make_both(s, (call){SET_END, {node, draw_ticks(s), 0}});
}

void step_set_trim(script *s) {
    int32_t number = draw_arc(s);
    make_both(s, (call){SET_TRIM, {number, draw_ticks(s), 0}});
}

void step_pair(script *s) {
    call made = {PAIR, {0}};
    draw_pair(s, made.numbers);
    make_both(s, made);
}

void step_clear(script *s) {
    make_both(s, (call){CLEAR, {draw_set(s), 0, 0}});
}

void step_load(script *s) {
    static const file_kind kinds[] = {ARCS_FILE, BOUNDS_FILE, FALSE_SETS_FILE};
    static file drawn;
    file_kind kind = kinds[draw(3)];
    draw_file(s, kind, &drawn);
    say_step("load of a file of kind %d", (int)kind);
    keep_graph(s);
    answer here = cross_load(&s->held->graph, kind, drawn.bytes, drawn.length);
    agree(here, person_loads(&s->person, kind, drawn.bytes, drawn.length));
    hold_kept(s, here.number != 0, "whether a refused call wrote");
}

void step_open(script *s) {
    int32_t number = draw_arc(s), ticks = draw_ticks(s);
    say_step("trial of arc %d with %d", number, ticks);
    keep_graph(s);
    answer here = cross_open(&s->held->graph, number, ticks);
    agree(here, person_opens(&s->person, number, ticks));
    hold_kept(s, here.number != 0, "whether a refused call wrote");
}

void step_end(script *s) {
    say_step("end of a trial");
    keep_graph(s);
    answer here = cross_end(&s->held->graph);
    agree(here, person_ends(&s->person));
    hold_kept(s, here.number != 0, "whether a refused call wrote");
}

static void show_arc(const script *s, int32_t number) {
    arc here = {false, 7, 9, -5, 3}, there = here;
    say_step("look at arc %d", number);
    agree(cross_arc(&s->held->graph, number, &here), person_shows_arc(&s->person, number, &there));
    hold_equal("from", here.from, there.from);
    hold_equal("to", here.to, there.to);
    hold_equal("the trim", here.trim, there.trim);
    hold_equal("the sets", here.sets, there.sets);
}

static void show_bounds(const script *s, int32_t node) {
    say_step("look at the start of node %d", node);
    agree(cross_start_of(&s->held->graph, node), person_shows_start(&s->person, node));
    say_step("look at the end of node %d", node);
    agree(cross_end_of(&s->held->graph, node), person_shows_end(&s->person, node));
}

static void show_taken(const script *s) {
    say_step("look at how many numbers are taken");
    agree(cross_taken(&s->held->graph), person_shows_taken(&s->person));
}

void step_look(script *s) {
    show_taken(s);
    show_arc(s, draw_arc(s));
    show_bounds(s, draw_node(s));
}

void look_at_all(script *s) {
    show_taken(s);
    for (int n = 0; n < s->person.taken + 2; n++)
        show_arc(s, n);
    for (int node = 0; node < NODES; node++)
        show_bounds(s, node);
}

void step_new(script *s) {
    ripotyngue_new(&s->held->graph);
    memset(&s->person, 0, sizeof s->person);
    s->person.made = true;
}

// Another memory, into which the graph moves.
void step_move(script *s) {
    held_graph *other = malloc(sizeof *other);
    if (other == NULL)
        abort();
    memcpy(other, s->held, sizeof *other);
    free(s->held);
    s->held = other;
}
