// The person lists every path of a small block, and asks of each whether it is open, as docs/timing.md says. What the
// passes made of tags is held against that list.
#include "person.h"

#include <string.h>

enum { MOST_PATHS = 2000 };

// A path under way, and what was found on the way: of each node the least slack of the open complete paths through it.
typedef struct {
    const book *graph;
    const delays *source;
    measure how;
    int arcs[NODES], count;
    bool timed[NODES];
    row slacks[NODES];
} list_of_paths;

static row row_of(measure how, int ticks, int stages) {
    int sign = how.early ? -1 : 1;
    return (row){{sign * ticks, how.staged ? sign * stages : 0}};
}

static bool less(row a, row b) {
    return a.places[0] < b.places[0] || (a.places[0] == b.places[0] && a.places[1] < b.places[1]);
}

// Whether some arc of the set goes from a node, or to it.
static bool touches(const book *graph, int set, int node, bool leaves) {
    for (int n = 0; n < graph->taken; n++) {
        const arc *one = &graph->arcs[n];
        if (one->live && (one->sets >> set & 1) && (leaves ? one->from : one->to) == node)
            return true;
    }
    return false;
}

// Whether the arcs from place first to place last are a stretch of the set from where it begins to where it ends.
static bool is_false_stretch(const book *graph, const int *arcs, int first, int last, int set) {
    for (int i = first; i <= last; i++)
        if (!(graph->arcs[arcs[i]].sets >> set & 1))
            return false;
    int begin = graph->arcs[arcs[first]].from, end = graph->arcs[arcs[last]].to;
    return !touches(graph, set, begin, false) && !touches(graph, set, end, true);
}

static bool is_open(const book *graph, const int *arcs, int count) {
    for (int set = 0; set < SETS; set++)
        for (int first = 0; first < count; first++)
            for (int last = first; last < count; last++)
                if (is_false_stretch(graph, arcs, first, last, set))
                    return false;
    return true;
}

// The slack of a path that begins at one node and ends at the other.
static row slack_of(const list_of_paths *paths, int first, int last) {
    const book *graph = paths->graph;
    int left = graph->ends[last].ticks - graph->starts[first].ticks;
    for (int i = 0; i < paths->count; i++) {
        int ticks = 0;
        person_asks(graph, paths->arcs[i], paths->source, &ticks);
        left -= ticks;
    }
    return row_of(paths->how, left, -paths->count);
}

static void hold(list_of_paths *paths, int node, row slack) {
    if (!paths->timed[node] || less(slack, paths->slacks[node]))
        paths->slacks[node] = slack;
    paths->timed[node] = true;
}

static void end_path(list_of_paths *paths, int first, int last) {
    if (!is_open(paths->graph, paths->arcs, paths->count))
        return;
    row slack = slack_of(paths, first, last);
    hold(paths, first, slack);
    for (int i = 0; i < paths->count; i++)
        hold(paths, paths->graph->arcs[paths->arcs[i]].to, slack);
}

static void go_on(list_of_paths *paths, int first, int node) {
    const book *graph = paths->graph;
    if (graph->ends[node].set)
        end_path(paths, first, node);
    for (int n = 0; n < graph->taken; n++) {
        if (!graph->arcs[n].live || graph->arcs[n].from != node)
            continue;
        paths->arcs[paths->count++] = n;
        go_on(paths, first, graph->arcs[n].to);
        paths->count--;
    }
}

// Dead ends are walked too, so that how many ways there are is bounded before any is walked.
static bool has_few_ways(const book *graph) {
    double ways[NODES] = {0}, sum = 0;
    for (int node = NODES - 1; node >= 0; node--) {
        ways[node] = 1;
        for (int n = 0; n < graph->taken; n++)
            if (graph->arcs[n].live && graph->arcs[n].from == node)
                ways[node] += ways[graph->arcs[n].to];
        sum += graph->starts[node].set ? ways[node] : 0;
    }
    return sum <= MOST_PATHS;
}

// Whether the shown arcs are an open complete path through the node with that slack.
static bool shows(list_of_paths *paths, int node, const uint16_t *list, int count) {
    const book *graph = paths->graph;
    int first = count > 0 ? graph->arcs[list[0]].from : node, here = first;
    bool through = first == node;
    paths->count = count;
    for (int i = 0; i < count; i++) {
        const arc *one = &graph->arcs[list[i]];
        if (!one->live || one->from != here)
            return false;
        here = one->to;
        through = through || here == node;
        paths->arcs[i] = list[i];
    }
    if (!through || !graph->starts[first].set || !graph->ends[here].set || !is_open(graph, paths->arcs, count))
        return false;
    row slack = slack_of(paths, first, here);
    return memcmp(&slack, &paths->slacks[node], sizeof slack) == 0;
}

static const char *hold_node(list_of_paths *paths, int node, const tables *sheet) {
    uint16_t list[NODES - 1];
    if (sheet->nodes[node].timed != paths->timed[node])
        return "a node has a slack where no open path runs, or none where one runs";
    if (!paths->timed[node])
        return NULL;
    if (memcmp(&sheet->slacks[node], &paths->slacks[node], sizeof paths->slacks[node]) != 0)
        return "a node's slack is not the least of its open paths";
    answer told = person_traces(node, sheet, list, NODES - 1);
    if (told.number != 0 || !shows(paths, node, list, (int)told.value))
        return "a shown path is no open complete path with its node's slack";
    return NULL;
}

const char *person_lists(const book *graph, const delays *source, measure how, const tables *sheet, bool *listed) {
    list_of_paths paths = {.graph = graph, .source = source, .how = how};
    *listed = has_few_ways(graph);
    if (!*listed)
        return NULL;
    for (int node = 0; node < NODES; node++)
        if (graph->starts[node].set)
            go_on(&paths, node, node);
    for (int node = 0; node < NODES; node++) {
        const char *wrong = hold_node(&paths, node, sheet);
        if (wrong != NULL)
            return wrong;
    }
    return NULL;
}
