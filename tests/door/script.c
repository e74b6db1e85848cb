#include "script.h"

int32_t draw_node(const script *s) {
    return chance(s->odd_percent) ? draw_odd() : s->first_node + draw(s->node_count);
}

int32_t draw_ticks(const script *s) {
    if (chance(s->odd_percent))
        return draw_odd();
    int less = chance(30) ? s->most_ticks / 2 : 0;
    return draw(s->most_ticks + 1) - less;
}

int32_t draw_arc(const script *s) {
    if (chance(s->odd_percent) || s->person.taken == 0)
        return draw_odd();
    return draw(s->person.taken + (chance(5) ? 3 : 0));
}

int32_t draw_set(const script *s) {
    return chance(s->odd_percent) ? draw_odd() : draw(chance(50) ? 2 : SETS);
}

void draw_new_arc(const script *s, int32_t *numbers) {
    numbers[0] = draw_node(s);
    numbers[1] = draw_node(s);
    if (numbers[0] > numbers[1] && chance(95)) {
        int32_t kept = numbers[0];
        numbers[0] = numbers[1];
        numbers[1] = kept;
    }
}

// Where an arc that leaves the node leads, drawn from all that do; the node itself where none does.
static int step_from(const script *s, int node) {
    int there = node, found = 0;
    for (int n = 0; n < s->person.taken; n++) {
        const arc *one = &s->person.arcs[n];
        if (one->live && one->from == node && draw(++found) == 0)
            there = one->to;
    }
    return there;
}

int walk_from(const script *s, int node, int count) {
    for (int i = 0; i < count; i++)
        node = step_from(s, node);
    return node;
}

void draw_pair(const script *s, int32_t *numbers) {
    numbers[0] = draw_set(s);
    numbers[1] = draw_node(s);
    numbers[2] = draw_node(s);
    if (s->person.taken == 0 || chance(15))
        return;
    const arc *one = &s->person.arcs[draw(s->person.taken)];
    numbers[1] = one->from;
    numbers[2] = walk_from(s, one->to, draw(4));
}

static void draw_values(void *drawing, file_kind kind, int *values) {
    const script *s = drawing;
    int32_t numbers[3] = {0};
    switch (kind) {
    case ARCS_FILE:
        draw_new_arc(s, numbers);
        break;
    case DELAYS_FILE:
        numbers[0] = chance(80) ? draw(ARCS) : draw_arc(s);
        numbers[1] = draw_ticks(s);
        break;
    case BOUNDS_FILE:
        numbers[0] = draw_node(s);
        numbers[1] = draw(2);
        numbers[2] = draw_ticks(s);
        break;
    case FALSE_SETS_FILE:
        draw_pair(s, numbers);
        break;
    }
    for (int i = 0; i < 3; i++)
        values[i] = numbers[i] % 10000000;
}

void draw_file(script *s, file_kind kind, file *drawn) {
    int odd_percent = s->odd_percent;
    s->odd_percent = chance(80) ? 0 : 3;
    // the person takes long over thousands of pairs in a large graph
    if (chance(1) && (kind != FALSE_SETS_FILE || s->person.taken < 40))
        write_long_file(drawn, kind, MOST_BYTES - 2 + (size_t)draw(4), draw_values, s);
    else
        write_file(drawn, kind, draw(chance(80) ? 8 : 60), draw_values, s);
    if (chance(drawn->length < MOST_BYTES - 100 ? 30 : 10))
        damage_file(drawn);
    s->odd_percent = odd_percent;
}
