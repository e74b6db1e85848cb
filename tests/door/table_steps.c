#include "agree.h"
#include "script.h"

#include <stdio.h>
#include <stdlib.h>
#include <string.h>

void step_load_delays(script *s) {
    static file drawn;
    size_t row_count = chance(90) ? ARCS : (size_t)draw(ROOM_ROWS);
    draw_file(s, DELAYS_FILE, &drawn);
    say_step("load of a delay file into %zu rows", row_count);
    agree(cross_load_delays(drawn.bytes, drawn.length, s->here.rows, row_count),
          person_loads_delays(drawn.bytes, drawn.length, s->there.rows, row_count));
    for (int i = 0; i < ROOM_ROWS; i++) {
        hold_equal("the mark of a row", s->here.rows[i].marked, s->there.rows[i].marked);
        hold_equal("the ticks of a row", s->here.rows[i].ticks, s->there.rows[i].ticks);
    }
}

// The caller writes the rows itself: any numbers, with or without marks.
void step_write_rows(script *s) {
    int odd_percent = s->odd_percent, unmarked_percent = chance(80) ? 0 : 2;
    s->odd_percent = chance(80) ? 0 : 1;
    for (int i = 0; i < ROOM_ROWS; i++) {
        s->there.rows[i].marked = !chance(unmarked_percent);
        s->there.rows[i].ticks = draw_ticks(s);
    }
    s->odd_percent = odd_percent;
    memcpy(s->here.rows, s->there.rows, sizeof s->here.rows);
}

static size_t draw_line_count(const script *s) {
    if (chance(s->node_count == NODES ? 50 : 5))
        return MOST_LINES;
    if (chance(20) && s->last_lines > 0)
        return (size_t)(s->last_lines - 1 + draw(2));
    return (size_t)draw(chance(50) ? 64 : 600);
}

// Most tables have the right lengths; of the others one is drawn anew, or the lines are too many.
static void draw_lengths(script *s) {
    size_t lines = draw_line_count(s);
    tables sheet = s->there.sheet;
    sheet.line_count = sheet.arrival_count = sheet.required_count = lines;
    sheet.node_count = sheet.slack_count = NODES;
    if (chance(8)) {
        size_t *lengths[] = {&sheet.line_count, &sheet.arrival_count, &sheet.required_count, &sheet.node_count,
                             &sheet.slack_count};
        int one = draw(5);
        *lengths[one] = (size_t)draw(one < 3 ? ROOM_LINES : ROOM_NODES);
    }
    if (chance(2))
        sheet.line_count = sheet.arrival_count = sheet.required_count = MOST_LINES + 1 + (size_t)draw(50);
    size_t *kept[] = {&s->here.sheet.line_count, &s->here.sheet.arrival_count, &s->here.sheet.required_count,
                      &s->here.sheet.node_count, &s->here.sheet.slack_count};
    size_t drawn[] = {sheet.line_count, sheet.arrival_count, sheet.required_count, sheet.node_count, sheet.slack_count};
    for (int i = 0; i < 5; i++)
        *kept[i] = drawn[i];
    s->there.sheet = sheet;
}

static row draw_row(measure how) {
    int most = chance(50) ? 1000 : 1000000000;
    row drawn = {{draw(2 * most + 1) - most, 0}};
    if (how.staged)
        drawn.places[1] = draw(2 * most + 1) - most;
    return drawn;
}

static line draw_line(void) {
    line drawn;
    drawn.node = draw(300);
    drawn.tag = draw(65536);
    drawn.back_arc = draw(1100);
    drawn.back_line = draw(4200);
    drawn.fore_arc = draw(1100);
    drawn.fore_line = draw(4200);
    drawn.required = chance(50);
    return drawn;
}

static node_entry draw_entry(void) {
    node_entry drawn;
    drawn.timed = chance(50);
    drawn.line = draw(4200);
    return drawn;
}

// Whatever stood in the tables is gone after a timing.
static void litter_tables(script *s) {
    measure how = measure_of(s->which);
    tables *sheet = &s->there.sheet;
    for (size_t i = 0; i < sheet->line_count; i++)
        sheet->lines[i] = draw_line();
    for (size_t i = 0; i < sheet->arrival_count; i++)
        sheet->arrivals[i] = draw_row(how);
    for (size_t i = 0; i < sheet->required_count; i++)
        sheet->required[i] = draw_row(how);
    for (size_t i = 0; i < sheet->node_count; i++)
        sheet->nodes[i] = draw_entry();
    for (size_t i = 0; i < sheet->slack_count; i++)
        sheet->slacks[i] = draw_row(how);
}

// Both sides hold what the person's tables have.
static void share_tables(script *s) {
    memcpy(s->here.lines, s->there.lines, sizeof s->here.lines);
    memcpy(s->here.arrivals, s->there.arrivals, sizeof s->here.arrivals);
    memcpy(s->here.required, s->there.required, sizeof s->here.required);
    memcpy(s->here.nodes, s->there.nodes, sizeof s->here.nodes);
    memcpy(s->here.slacks, s->there.slacks, sizeof s->here.slacks);
}

static delays draw_source(const delay *rows) {
    static const uint32_t factors[] = {0,    1,    999,  1000,  1001,  1007,      1200,     1500,
                                       1999, 2000, 2001, 65535, 66536, UINT32_MAX, 1u << 31, 1u << 16};
    uint32_t drawn = factors[draw((int)(sizeof factors / sizeof *factors))];
    delays source = {.rows = rows};
    source.row_count = chance(90) ? ARCS : (size_t)draw(ROOM_ROWS);
    source.under_margin = chance(40);
    source.permille = chance(50) ? drawn : 1000 + (uint32_t)draw(1001);
    return source;
}

static void hold_list_of_paths(const script *s, const delays *source) {
    bool listed;
    const char *wrong = person_lists(&s->person, source, measure_of(s->which), &s->here.sheet, &listed);
    seen.listed += listed;
    if (wrong == NULL)
        return;
    printf("script %llu, %s: %s\n", (unsigned long long)script_seed, said_step(), wrong);
    exit(1);
}

static void trace_node(script *s, int32_t node, size_t list_count) {
    for (size_t i = 0; i < list_count; i++)
        s->here.list[i] = s->there.list[i] = (uint16_t)draw(2000);
    say_step("trace of node %d into a list of %zu", node, list_count);
    agree(cross_trace(s->which, node, &s->here.sheet, s->here.list, list_count),
          person_traces(node, &s->there.sheet, s->there.list, list_count));
    for (size_t i = 0; i < list_count; i++)
        hold_equal("an arc of the list", s->here.list[i], s->there.list[i]);
    seen.traces++;
}

static void trace_all(script *s) {
    for (int node = s->first_node; node < s->first_node + s->node_count; node++)
        if (s->node_count <= 20 || chance(10))
            trace_node(s, node, chance(90) ? 255 : (size_t)draw(6));
    hold_tables(&s->here.sheet, &s->there.sheet);
}

void step_time(script *s) {
    delays there = draw_source(s->there.rows), here = there;
    here.rows = s->here.rows;
    s->which = draw(MEASURES);
    draw_lengths(s);
    litter_tables(s);
    share_tables(s);
    say_step("timing by measure %d into %zu lines", s->which, s->there.sheet.line_count);
    keep_graph(s);
    answer told = cross_time(s->which, &s->held->graph, &here, &s->here.sheet);
    agree(told, person_times(&s->person, &there, measure_of(s->which), &s->there.sheet));
    hold_tables(&s->here.sheet, &s->there.sheet);
    hold_kept(s, true, "whether a timing wrote into the graph");
    seen.timings++;
    if (told.number != 0)
        return;
    seen.accepted++;
    seen.under_margin += there.under_margin;
    seen.under_trial += s->person.trying;
    s->last_lines = (int)told.value;
    if (s->last_lines > seen.most_lines)
        seen.most_lines = s->last_lines;
    hold_list_of_paths(s, &there);
    trace_all(s);
}

void step_trace(script *s) {
    int32_t node = draw_node(s);
    trace_node(s, node, (size_t)draw(ROOM_LIST));
}

static int draw_link(int marks, int near) {
    switch (draw(5)) {
    case 0:
        return marks;
    case 1:
        return draw(65536);
    case 2:
        return marks - 1 + draw(3);
    default:
        return draw(near > 0 ? near : 1);
    }
}

static void alter_once(script *s) {
    tables *sheet = &s->there.sheet;
    int near = s->last_lines + 1;
    line *one = sheet->line_count > 0 ? &sheet->lines[(size_t)draw(near) % sheet->line_count] : NULL;
    node_entry *entry = sheet->node_count > 0 ? &sheet->nodes[(size_t)draw(NODES) % sheet->node_count] : NULL;
    int what = draw(6);
    if (what < 4 && one != NULL)
        *(what == 0   ? &one->back_arc
          : what == 1 ? &one->fore_arc
          : what == 2 ? &one->back_line
                      : &one->fore_line) = draw_link(what < 2 ? NO_ARC : NO_LINE, near);
    if (what == 4 && entry != NULL)
        entry->timed = chance(70);
    if (what == 5 && entry != NULL)
        entry->line = draw_link(NO_LINE, near);
}

void step_alter(script *s) {
    if (chance(5)) {
        draw_lengths(s);
        litter_tables(s);
    }
    for (int i = draw(6); i >= 0; i--)
        alter_once(s);
    share_tables(s);
    seen.altered++;
    trace_all(s);
}
