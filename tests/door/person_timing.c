// The person times a block and traces a path as docs/timing.md and docs/sheet.md say.
#include "person.h"

#include <stdlib.h>
#include <string.h>

enum { NOT_MADE = 30, WRONG_LENGTH = 14, TOO_FEW_LINES = 15, BROKEN_LINK = 16, SHORT_LIST = 17, START = -1, END = -1 };

static const line blank_line = {NO_NODE, 0, NO_ARC, NO_LINE, NO_ARC, NO_LINE, false};
static const node_entry blank_entry = {false, NO_LINE};

// A block: a graph whose live arcs have rows, with the sets that begin and end at each node.
typedef struct {
    const book *graph;
    measure how;
    row rows[ARCS];
    unsigned begins[NODES], ends[NODES];
} block;

// What comes to a node: a tag with a row, over an arc from a line, or from a start.
typedef struct {
    int tag, arc, line;
    row time;
} arrival;

typedef struct {
    arrival *items;
    size_t count, room;
} arrivals;

static row row_of(measure how, int ticks, int stages) {
    int sign = how.early ? -1 : 1;
    return (row){{sign * ticks, how.staged ? sign * stages : 0}};
}

static row plus(row a, row b, int sign) {
    return (row){{a.places[0] + sign * b.places[0], a.places[1] + sign * b.places[1]}};
}

// Below 0 where a is before b, and 0 where they are equal.
static int order(row a, row b) {
    int at = a.places[0] == b.places[0];
    return (a.places[at] > b.places[at]) - (a.places[at] < b.places[at]);
}

static void find_ends_of_sets(block *timed) {
    const book *graph = timed->graph;
    for (int node = 0; node < NODES; node++) {
        unsigned enter = 0, leave = 0;
        for (int n = 0; n < graph->taken; n++) {
            const arc *one = &graph->arcs[n];
            if (one->live && one->to == node)
                enter |= one->sets;
            if (one->live && one->from == node)
                leave |= one->sets;
        }
        timed->begins[node] = leave & ~enter;
        timed->ends[node] = enter & ~leave;
    }
}

static answer make_block(const book *graph, const delays *source, measure how, block *made) {
    made->graph = graph;
    made->how = how;
    for (int n = 0; n < graph->taken; n++) {
        int ticks = 0;
        if (!graph->arcs[n].live)
            continue;
        answer told = person_asks(graph, n, source, &ticks);
        if (told.number != 0)
            return told;
        made->rows[n] = row_of(how, ticks, 1);
    }
    find_ends_of_sets(made);
    return (answer){0};
}

// Whether a tag passes an arc undropped, and as which.
static bool passes(const block *timed, int number, int tag, int *passed) {
    const arc *one = &timed->graph->arcs[number];
    unsigned sets = one->sets & ((unsigned)tag | timed->begins[one->from]);
    *passed = (int)sets;
    return (sets & timed->ends[one->to]) == 0;
}

// Of one node's arrivals the lower tag first, and under one tag the one that wins: the latest, of equals the start, then
// the lowest arc, then the lowest line.
static int by_tag_then_winner(const void *first, const void *second) {
    const arrival *a = first, *b = second;
    int later = order(b->time, a->time);
    if (a->tag != b->tag)
        return a->tag - b->tag;
    if (later != 0)
        return later;
    return a->arc != b->arc ? a->arc - b->arc : a->line - b->line;
}

static void note(arrivals *noted, arrival one) {
    if (noted->count == noted->room) {
        noted->room = noted->room * 2 + 64;
        noted->items = realloc(noted->items, noted->room * sizeof *noted->items);
        if (noted->items == NULL)
            abort();
    }
    noted->items[noted->count++] = one;
}

static void note_crossings(const block *timed, int number, const tables *sheet, int lines, arrivals *noted) {
    for (int i = 0; i < lines; i++) {
        arrival one = {.arc = number, .line = i};
        if (sheet->lines[i].node != timed->graph->arcs[number].from ||
            !passes(timed, number, sheet->lines[i].tag, &one.tag))
            continue;
        one.time = plus(sheet->arrivals[i], timed->rows[number], 1);
        note(noted, one);
    }
}

// All that comes to a node, sorted.
static void note_arrivals(const block *timed, int node, const tables *sheet, int lines, arrivals *noted) {
    const book *graph = timed->graph;
    noted->count = 0;
    if (graph->starts[node].set)
        note(noted, (arrival){0, START, 0, row_of(timed->how, graph->starts[node].ticks, 0)});
    for (int n = 0; n < graph->taken; n++)
        if (graph->arcs[n].live && graph->arcs[n].to == node)
            note_crossings(timed, n, sheet, lines, noted);
    if (noted->count > 0)
        qsort(noted->items, noted->count, sizeof *noted->items, by_tag_then_winner);
}

static void write_line(tables *sheet, int at, int node, const arrival *one) {
    line written = blank_line;
    written.node = node;
    written.tag = one->tag;
    if (one->arc != START) {
        written.back_arc = one->arc;
        written.back_line = one->line;
    }
    sheet->lines[at] = written;
    sheet->arrivals[at] = one->time;
}

// Writes a line for each tag that comes to a node; the count of all lines then, or -1 where the table has no room.
static int write_node(const block *timed, int node, tables *sheet, int lines, arrivals *noted) {
    note_arrivals(timed, node, sheet, lines, noted);
    for (size_t i = 0; i < noted->count; i++) {
        if (i > 0 && noted->items[i].tag == noted->items[i - 1].tag)
            continue;
        if ((size_t)lines == sheet->line_count)
            return -1;
        write_line(sheet, lines++, node, &noted->items[i]);
    }
    return lines;
}

static int write_lines(const block *timed, tables *sheet) {
    arrivals noted = {0};
    int lines = 0;
    for (int node = 0; node < NODES && lines >= 0; node++)
        lines = write_node(timed, node, sheet, lines, &noted);
    free(noted.items);
    return lines;
}

// The line of a node and tag among the lines, or -1.
static int line_at(const tables *sheet, int lines, int from, int node, int tag) {
    for (int i = from; i < lines; i++)
        if (sheet->lines[i].node == node && sheet->lines[i].tag == tag)
            return i;
    return -1;
}

static void ask(tables *sheet, int at, row time, int number, int beyond) {
    line *asked = &sheet->lines[at];
    if (asked->required && order(sheet->required[at], time) <= 0)
        return;
    asked->required = true;
    asked->fore_arc = number == END ? NO_ARC : number;
    asked->fore_line = number == END ? NO_LINE : beyond;
    sheet->required[at] = time;
}

// What an arc asks of a line of the node that it leaves.
static void ask_over(const block *timed, tables *sheet, int lines, int at, int number) {
    int tag, beyond;
    if (!passes(timed, number, sheet->lines[at].tag, &tag))
        return;
    beyond = line_at(sheet, lines, at + 1, timed->graph->arcs[number].to, tag);
    if (beyond >= 0 && sheet->lines[beyond].required)
        ask(sheet, at, plus(sheet->required[beyond], timed->rows[number], -1), number, beyond);
}

static void require_line(const block *timed, tables *sheet, int lines, int at) {
    const book *graph = timed->graph;
    int node = sheet->lines[at].node;
    if (graph->ends[node].set)
        ask(sheet, at, row_of(timed->how, graph->ends[node].ticks, 0), END, 0);
    for (int n = 0; n < graph->taken; n++)
        if (graph->arcs[n].live && graph->arcs[n].from == node)
            ask_over(timed, sheet, lines, at, n);
}

static void write_slacks(tables *sheet, int lines) {
    for (int i = 0; i < lines; i++) {
        node_entry *entry = &sheet->nodes[sheet->lines[i].node];
        row *slack = &sheet->slacks[sheet->lines[i].node];
        row found = plus(sheet->required[i], sheet->arrivals[i], -1);
        if (!sheet->lines[i].required || (entry->timed && order(*slack, found) <= 0))
            continue;
        *entry = (node_entry){true, i};
        *slack = found;
    }
}

static void blank(tables *sheet) {
    for (size_t i = 0; i < sheet->line_count; i++)
        sheet->lines[i] = blank_line;
    memset(sheet->arrivals, 0, sheet->arrival_count * sizeof *sheet->arrivals);
    memset(sheet->required, 0, sheet->required_count * sizeof *sheet->required);
    for (size_t i = 0; i < sheet->node_count; i++)
        sheet->nodes[i] = blank_entry;
    memset(sheet->slacks, 0, sheet->slack_count * sizeof *sheet->slacks);
}

static bool well_sized(const tables *sheet) {
    return sheet->line_count <= MOST_LINES && sheet->arrival_count == sheet->line_count &&
           sheet->required_count == sheet->line_count && sheet->node_count == NODES && sheet->slack_count == NODES;
}

answer person_times(const book *graph, const delays *source, measure how, tables *sheet) {
    block timed = {0};
    blank(sheet);
    if (!graph->made)
        return (answer){.number = NOT_MADE};
    if (!well_sized(sheet))
        return (answer){.number = WRONG_LENGTH};
    answer told = make_block(graph, source, how, &timed);
    if (told.number != 0)
        return told;
    int lines = write_lines(&timed, sheet);
    if (lines < 0) {
        blank(sheet);
        return (answer){.number = TOO_FEW_LINES};
    }
    for (int i = lines - 1; i >= 0; i--)
        require_line(&timed, sheet, lines, i);
    write_slacks(sheet, lines);
    return (answer){.shown = true, .value = (uint64_t)lines};
}

// ---- tracing

// Whether there is a link back or fore, its arc and its line; the line is -1 where the link is broken.
static bool follows(const tables *sheet, int at, bool back, int *number, int *there) {
    const line *here = &sheet->lines[at];
    *number = back ? here->back_arc : here->fore_arc;
    *there = back ? here->back_line : here->fore_line;
    if (*number == NO_ARC && *there == NO_LINE)
        return false;
    bool beyond = back ? *there < at : *there > at && (size_t)*there < sheet->line_count;
    if (*number >= NO_ARC || !beyond)
        *there = -1;
    return true;
}

// Writes the arcs of a walk from a line on, in its order; how many they are, or -1 where a link is broken.
static int walk(const tables *sheet, int at, bool back, uint16_t *arcs) {
    int count = 0, number, there;
    while (follows(sheet, at, back, &number, &there)) {
        if (there < 0)
            return -1;
        arcs[count++] = (uint16_t)number;
        at = there;
    }
    return count;
}

static answer trace_from(int at, const tables *sheet, uint16_t *list, size_t list_count) {
    uint16_t before[MOST_LINES], behind[MOST_LINES];
    if ((size_t)at >= sheet->line_count)
        return (answer){.number = BROKEN_LINK};
    int back = walk(sheet, at, true, before), fore = walk(sheet, at, false, behind);
    if (back < 0 || fore < 0)
        return (answer){.number = BROKEN_LINK};
    if ((size_t)(back + fore) > list_count)
        return (answer){.number = SHORT_LIST};
    for (int i = 0; i < back; i++)
        list[i] = before[back - 1 - i];
    memcpy(list + back, behind, (size_t)fore * sizeof *list);
    return (answer){.shown = true, .value = (uint64_t)(back + fore)};
}

answer person_traces(int32_t node, const tables *sheet, uint16_t *list, size_t list_count) {
    for (size_t i = 0; i < list_count; i++)
        list[i] = NO_ARC;
    if (!well_sized(sheet))
        return (answer){.number = WRONG_LENGTH};
    if (node < 0 || node >= NODES)
        return (answer){.number = 6};
    if (!sheet->nodes[node].timed)
        return (answer){0};
    return trace_from(sheet->nodes[node].line, sheet, list, list_count);
}
