// The person keeps a book of a graph as docs/graph.md says.
#include "person.h"

#include <string.h>

enum { NOT_MADE = 30, TRIAL_OPEN = 31, NO_TRIAL = 32 };

static bool within(int64_t number, int64_t least, int64_t most) {
    return least <= number && number <= most;
}

static bool is_node(int32_t number) {
    return within(number, 0, NODES - 1);
}

static bool is_arc(int32_t number) {
    return within(number, 0, ARCS - 1);
}

static bool are_ticks(int32_t number) {
    return within(number, -MOST_TICKS, MOST_TICKS);
}

static uint32_t add_arc(book *graph, int32_t from, int32_t to, uint64_t *number) {
    if (!is_node(from) || !is_node(to))
        return 6;
    if (from >= to)
        return 7;
    if (graph->taken == ARCS)
        return 8;
    *number = (uint64_t)graph->taken;
    graph->arcs[graph->taken] = (arc){true, from, to, 0, 0};
    graph->taken++;
    return 0;
}

static uint32_t drop_arc(book *graph, int32_t number) {
    if (!is_arc(number))
        return 6;
    if (!graph->arcs[number].live)
        return 9;
    if (graph->arcs[number].sets != 0)
        return 10;
    graph->arcs[number].live = false;
    return 0;
}

static uint32_t set_bound(bound *bounds, int32_t node, int32_t ticks) {
    if (!is_node(node) || !are_ticks(ticks))
        return 6;
    bounds[node] = (bound){true, ticks};
    return 0;
}

static uint32_t set_trim(book *graph, int32_t number, int32_t ticks) {
    if (!is_arc(number) || !are_ticks(ticks))
        return 6;
    if (!graph->arcs[number].live)
        return 9;
    graph->arcs[number].trim = ticks;
    return 0;
}

// Marks the nodes that paths of live arcs lead to from a node, or from which they lead to it: marks are spread over the
// arcs until none is new.
static void spread(const book *graph, int node, bool forward, bool marked[NODES]) {
    memset(marked, 0, NODES * sizeof *marked);
    marked[node] = true;
    for (bool grew = true; grew;) {
        grew = false;
        for (int n = 0; n < graph->taken; n++) {
            const arc *one = &graph->arcs[n];
            int here = forward ? one->from : one->to, there = forward ? one->to : one->from;
            if (one->live && marked[here] && !marked[there])
                grew = marked[there] = true;
        }
    }
}

static uint32_t add_pair(book *graph, int32_t set, int32_t from, int32_t to) {
    bool ahead[NODES], behind[NODES];
    int added = 0;
    if (!within(set, 0, SETS - 1) || !is_node(from) || !is_node(to))
        return 6;
    spread(graph, from, true, ahead);
    spread(graph, to, false, behind);
    for (int n = 0; n < graph->taken; n++) {
        arc *one = &graph->arcs[n];
        if (!one->live || !ahead[one->from] || !behind[one->to])
            continue;
        one->sets |= 1u << set;
        added++;
    }
    return added == 0 ? 11 : 0;
}

static uint32_t clear(book *graph, int32_t set) {
    if (!within(set, 0, SETS - 1))
        return 6;
    for (int n = 0; n < graph->taken; n++)
        graph->arcs[n].sets &= ~(1u << set);
    return 0;
}

static uint32_t make(book *graph, const call *made, uint64_t *number) {
    const int32_t *numbers = made->numbers;
    switch (made->kind) {
    case ADD_ARC:
        return add_arc(graph, numbers[0], numbers[1], number);
    case DROP_ARC:
        return drop_arc(graph, numbers[0]);
    case SET_START:
        return set_bound(graph->starts, numbers[0], numbers[1]);
    case SET_END:
        return set_bound(graph->ends, numbers[0], numbers[1]);
    case SET_TRIM:
        return set_trim(graph, numbers[0], numbers[1]);
    case PAIR:
        return add_pair(graph, numbers[0], numbers[1], numbers[2]);
    case CLEAR:
        return clear(graph, numbers[0]);
    }
    return 0;
}

// Why no call that changes a graph is served now, or 0.
static uint32_t closed(const book *graph) {
    if (!graph->made)
        return NOT_MADE;
    return graph->trying ? TRIAL_OPEN : 0;
}

answer person_makes(book *graph, const call *made) {
    answer told = {.number = closed(graph)};
    if (told.number == 0)
        told.number = make(graph, made, &told.value);
    told.shown = told.number == 0 && made->kind == ADD_ARC;
    return told;
}

static uint32_t take_arc(void *sink, const int *values) {
    uint64_t number;
    return add_arc(sink, values[0], values[1], &number);
}

static uint32_t take_bound(void *sink, const int *values) {
    book *graph = sink;
    return set_bound(values[1] ? graph->ends : graph->starts, values[0], values[2]);
}

static uint32_t take_pair(void *sink, const int *values) {
    return add_pair(sink, values[0], values[1], values[2]);
}

answer person_loads(book *graph, file_kind kind, const uint8_t *bytes, size_t length) {
    taker *take = kind == ARCS_FILE ? take_arc : kind == BOUNDS_FILE ? take_bound : take_pair;
    answer told = {.number = closed(graph)};
    if (told.number != 0)
        return told;
    book after = *graph;
    told = person_reads(kind, bytes, length, take, &after);
    if (told.number == 0)
        *graph = after;
    return told;
}

answer person_opens(book *graph, int32_t number, int32_t ticks) {
    answer told = {.number = closed(graph)};
    if (told.number != 0)
        return told;
    int earlier = is_arc(number) ? graph->arcs[number].trim : 0;
    told.number = set_trim(graph, number, ticks);
    if (told.number == 0) {
        graph->trying = true;
        graph->tried_arc = number;
        graph->earlier_trim = earlier;
    }
    return told;
}

answer person_ends(book *graph) {
    if (!graph->made)
        return (answer){.number = NOT_MADE};
    if (!graph->trying)
        return (answer){.number = NO_TRIAL};
    graph->arcs[graph->tried_arc].trim = graph->earlier_trim;
    graph->trying = false;
    return (answer){0};
}

answer person_shows_taken(const book *graph) {
    if (!graph->made)
        return (answer){.number = NOT_MADE};
    return (answer){.shown = true, .value = (uint64_t)graph->taken};
}

answer person_shows_arc(const book *graph, int32_t number, arc *found) {
    if (!graph->made)
        return (answer){.number = NOT_MADE};
    if (!is_arc(number))
        return (answer){.number = 6};
    if (!graph->arcs[number].live)
        return (answer){.number = 9};
    *found = graph->arcs[number];
    return (answer){0};
}

static answer show_bound(const book *graph, const bound *bounds, int32_t node) {
    if (!graph->made)
        return (answer){.number = NOT_MADE};
    if (!is_node(node))
        return (answer){.number = 6};
    return bounds[node].set ? (answer){.shown = true, .ticks = bounds[node].ticks} : (answer){0};
}

answer person_shows_start(const book *graph, int32_t node) {
    return show_bound(graph, graph->starts, node);
}

answer person_shows_end(const book *graph, int32_t node) {
    return show_bound(graph, graph->ends, node);
}
