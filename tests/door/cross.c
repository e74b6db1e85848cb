#include "cross.h"

#include <stdio.h>
#include <stdlib.h>
#include <string.h>

enum { GUARD = 64, GUARD_BYTE = 0xA5 };

// ---- what is lent to the library, between bytes that it may not touch

static void *lend(size_t count, size_t size) {
    uint8_t *bytes = malloc(GUARD + count * size + GUARD);
    if (bytes == NULL)
        abort();
    memset(bytes, GUARD_BYTE, GUARD + count * size + GUARD);
    return bytes + GUARD;
}

static void *lend_copy(const void *content, size_t count, size_t size) {
    void *lent = lend(count, size);
    if (count > 0)
        memcpy(lent, content, count * size);
    return lent;
}

static void give_back(void *lent, size_t count, size_t size) {
    uint8_t *before = (uint8_t *)lent - GUARD, *behind = (uint8_t *)lent + count * size;
    for (int i = 0; i < GUARD; i++)
        if (before[i] != GUARD_BYTE || behind[i] != GUARD_BYTE) {
            printf("the library wrote beside what was lent to it\n");
            exit(1);
        }
    free(before);
}

static answer answered(ripotyngue_answer told) {
    return (answer){told.number, told.shown, told.ticks, told.value, told.line, told.arc, told.cause, told.level};
}

// ---- the graph

answer cross_call(ripotyngue_graph *graph, const call *made) {
    const int32_t *numbers = made->numbers;
    switch (made->kind) {
    case ADD_ARC:
        return answered(ripotyngue_add_arc(graph, numbers[0], numbers[1]));
    case DROP_ARC:
        return answered(ripotyngue_drop_arc(graph, numbers[0]));
    case SET_START:
        return answered(ripotyngue_set_start(graph, numbers[0], numbers[1]));
    case SET_END:
        return answered(ripotyngue_set_end(graph, numbers[0], numbers[1]));
    case SET_TRIM:
        return answered(ripotyngue_set_trim(graph, numbers[0], numbers[1]));
    case PAIR:
        return answered(ripotyngue_pair(graph, numbers[0], numbers[1], numbers[2]));
    case CLEAR:
        return answered(ripotyngue_clear(graph, numbers[0]));
    }
    return (answer){0};
}

answer cross_load(ripotyngue_graph *graph, file_kind kind, const uint8_t *bytes, size_t length) {
    uint8_t *lent = lend_copy(bytes, length, 1);
    ripotyngue_answer told = kind == ARCS_FILE     ? ripotyngue_load_arcs(graph, lent, length)
                             : kind == BOUNDS_FILE ? ripotyngue_load_bounds(graph, lent, length)
                                                   : ripotyngue_load_false_sets(graph, lent, length);
    give_back(lent, length, 1);
    return answered(told);
}

answer cross_open(ripotyngue_graph *graph, int32_t number, int32_t ticks) {
    return answered(ripotyngue_open_trial(graph, number, ticks));
}

answer cross_end(ripotyngue_graph *graph) {
    return answered(ripotyngue_end_trial(graph));
}

answer cross_taken(const ripotyngue_graph *graph) {
    return answered(ripotyngue_taken(graph));
}

answer cross_arc(const ripotyngue_graph *graph, int32_t number, arc *found) {
    ripotyngue_live_arc one = {(uint8_t)found->from, (uint8_t)found->to, found->trim, (uint16_t)found->sets};
    ripotyngue_answer told = ripotyngue_arc(graph, number, &one);
    *found = (arc){told.number == 0 || found->live, one.from, one.to, one.trim, one.sets};
    return answered(told);
}

answer cross_start_of(const ripotyngue_graph *graph, int32_t node) {
    return answered(ripotyngue_start(graph, node));
}

answer cross_end_of(const ripotyngue_graph *graph, int32_t node) {
    return answered(ripotyngue_end(graph, node));
}

// ---- the delays

static ripotyngue_delay *lend_rows(const delay *rows, size_t count) {
    ripotyngue_delay *lent = lend(count, sizeof *lent);
    for (size_t i = 0; i < count; i++)
        lent[i] = (ripotyngue_delay){rows[i].marked, rows[i].ticks};
    return lent;
}

static void take_rows(delay *rows, size_t count, ripotyngue_delay *lent) {
    for (size_t i = 0; i < count; i++)
        rows[i] = (delay){lent[i].marked, lent[i].ticks};
    give_back(lent, count, sizeof *lent);
}

answer cross_load_delays(const uint8_t *bytes, size_t length, delay *rows, size_t row_count) {
    uint8_t *lent = lend_copy(bytes, length, 1);
    ripotyngue_delay *lent_rows = lend_rows(rows, row_count);
    ripotyngue_answer told = ripotyngue_load_delays(lent, length, lent_rows, row_count);
    take_rows(rows, row_count, lent_rows);
    give_back(lent, length, 1);
    return answered(told);
}

// ---- the tables

static ripotyngue_line *lend_lines(const tables *sheet) {
    ripotyngue_line *lent = lend(sheet->line_count, sizeof *lent);
    for (size_t i = 0; i < sheet->line_count; i++) {
        const line *one = &sheet->lines[i];
        lent[i] = (ripotyngue_line){(uint16_t)one->node,     (uint16_t)one->tag,      (uint16_t)one->back_arc,
                                    (uint16_t)one->back_line, (uint16_t)one->fore_arc, (uint16_t)one->fore_line,
                                    one->required};
    }
    return lent;
}

static void take_lines(tables *sheet, ripotyngue_line *lent) {
    for (size_t i = 0; i < sheet->line_count; i++) {
        const ripotyngue_line *one = &lent[i];
        sheet->lines[i] = (line){one->node,     one->tag,       one->back_arc, one->back_line,
                                 one->fore_arc, one->fore_line, one->required};
    }
    give_back(lent, sheet->line_count, sizeof *lent);
}

static ripotyngue_node *lend_nodes(const tables *sheet) {
    ripotyngue_node *lent = lend(sheet->node_count, sizeof *lent);
    for (size_t i = 0; i < sheet->node_count; i++)
        lent[i] = (ripotyngue_node){sheet->nodes[i].timed, (uint16_t)sheet->nodes[i].line};
    return lent;
}

static void take_nodes(tables *sheet, ripotyngue_node *lent) {
    for (size_t i = 0; i < sheet->node_count; i++)
        sheet->nodes[i] = (node_entry){lent[i].timed, lent[i].line};
    give_back(lent, sheet->node_count, sizeof *lent);
}

// ---- the measures

static ripotyngue_ticks make_ticks(row one) {
    return (ripotyngue_ticks){one.places[0]};
}

static row read_ticks(ripotyngue_ticks one) {
    return (row){{one.ticks, 0}};
}

static ripotyngue_staged_ticks make_staged_ticks(row one) {
    return (ripotyngue_staged_ticks){one.places[0], one.places[1]};
}

static row read_staged_ticks(ripotyngue_staged_ticks one) {
    return (row){{one.ticks, one.stages}};
}

static ripotyngue_early_ticks make_early_ticks(row one) {
    return (ripotyngue_early_ticks){make_ticks(one)};
}

static row read_early_ticks(ripotyngue_early_ticks one) {
    return read_ticks(one.value);
}

static ripotyngue_early_staged_ticks make_early_staged_ticks(row one) {
    return (ripotyngue_early_staged_ticks){make_staged_ticks(one)};
}

static row read_early_staged_ticks(ripotyngue_early_staged_ticks one) {
    return read_staged_ticks(one.value);
}

// For a measure M: its tables lent and taken back, and its timing and tracing with them.
#define CROSSINGS(M)                                                                                                   \
    static ripotyngue_##M *lend_##M(const row *rows, size_t count) {                                                   \
        ripotyngue_##M *lent = lend(count, sizeof *lent);                                                              \
        for (size_t i = 0; i < count; i++)                                                                             \
            lent[i] = make_##M(rows[i]);                                                                               \
        return lent;                                                                                                   \
    }                                                                                                                  \
    static void take_##M(row *rows, size_t count, ripotyngue_##M *lent) {                                              \
        for (size_t i = 0; i < count; i++)                                                                             \
            rows[i] = read_##M(lent[i]);                                                                               \
        give_back(lent, count, sizeof *lent);                                                                          \
    }                                                                                                                  \
    static answer time_##M(const ripotyngue_graph *graph, const ripotyngue_delay *rows, const delays *source,          \
                           tables *t) {                                                                                \
        ripotyngue_line *lines = lend_lines(t);                                                                        \
        ripotyngue_##M *arrivals = lend_##M(t->arrivals, t->arrival_count);                                            \
        ripotyngue_##M *required = lend_##M(t->required, t->required_count);                                           \
        ripotyngue_node *nodes = lend_nodes(t);                                                                        \
        ripotyngue_##M *slacks = lend_##M(t->slacks, t->slack_count);                                                  \
        ripotyngue_answer told =                                                                                       \
            source->under_margin                                                                                       \
                ? ripotyngue_time_margin_##M(graph, rows, source->row_count, source->permille, lines, t->line_count,   \
                                             arrivals, t->arrival_count, required, t->required_count, nodes,           \
                                             t->node_count, slacks, t->slack_count)                                    \
                : ripotyngue_time_##M(graph, rows, source->row_count, lines, t->line_count, arrivals,                  \
                                      t->arrival_count, required, t->required_count, nodes, t->node_count, slacks,     \
                                      t->slack_count);                                                                 \
        take_lines(t, lines);                                                                                          \
        take_##M(t->arrivals, t->arrival_count, arrivals);                                                             \
        take_##M(t->required, t->required_count, required);                                                            \
        take_nodes(t, nodes);                                                                                          \
        take_##M(t->slacks, t->slack_count, slacks);                                                                   \
        return answered(told);                                                                                             \
    }                                                                                                                  \
    static answer trace_##M(int32_t node, const tables *t, uint16_t *list, size_t list_count) {                        \
        tables copy = *t;                                                                                              \
        ripotyngue_line *lines = lend_lines(t);                                                                        \
        ripotyngue_##M *arrivals = lend_##M(t->arrivals, t->arrival_count);                                            \
        ripotyngue_##M *required = lend_##M(t->required, t->required_count);                                           \
        ripotyngue_node *nodes = lend_nodes(t);                                                                        \
        ripotyngue_##M *slacks = lend_##M(t->slacks, t->slack_count);                                                  \
        ripotyngue_answer told = ripotyngue_trace_##M(node, lines, t->line_count, arrivals, t->arrival_count, required, \
                                                      t->required_count, nodes, t->node_count, slacks, t->slack_count, \
                                                      list, list_count);                                               \
        take_lines(&copy, lines);                                                                                      \
        take_##M(copy.arrivals, t->arrival_count, arrivals);                                                           \
        take_##M(copy.required, t->required_count, required);                                                          \
        take_nodes(&copy, nodes);                                                                                      \
        take_##M(copy.slacks, t->slack_count, slacks);                                                                 \
        return answered(told);                                                                                             \
    }

CROSSINGS(ticks)
CROSSINGS(staged_ticks)
CROSSINGS(early_ticks)
CROSSINGS(early_staged_ticks)

static const struct {
    measure how;
    answer (*time)(const ripotyngue_graph *, const ripotyngue_delay *, const delays *, tables *);
    answer (*trace)(int32_t, const tables *, uint16_t *, size_t);
} measures[MEASURES] = {
    {{false, false}, time_ticks, trace_ticks},
    {{true, false}, time_staged_ticks, trace_staged_ticks},
    {{false, true}, time_early_ticks, trace_early_ticks},
    {{true, true}, time_early_staged_ticks, trace_early_staged_ticks},
};

measure measure_of(int which) {
    return measures[which].how;
}

answer cross_time(int which, const ripotyngue_graph *graph, const delays *source, tables *sheet) {
    ripotyngue_delay *rows = lend_rows(source->rows, source->row_count);
    answer told = measures[which].time(graph, rows, source, sheet);
    give_back(rows, source->row_count, sizeof *rows);
    return told;
}

answer cross_trace(int which, int32_t node, const tables *sheet, uint16_t *list, size_t list_count) {
    uint16_t *lent = lend_copy(list, list_count, sizeof *list);
    answer told = measures[which].trace(node, sheet, lent, list_count);
    if (list_count > 0)
        memcpy(list, lent, list_count * sizeof *list);
    give_back(lent, list_count, sizeof *lent);
    return told;
}
