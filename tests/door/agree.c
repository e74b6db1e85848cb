#include "agree.h"

#include <stdarg.h>
#include <stdio.h>
#include <stdlib.h>

counts seen;
uint64_t script_seed;
static char step_words[120];

void say_step(const char *format, ...) {
    va_list values;
    va_start(values, format);
    vsnprintf(step_words, sizeof step_words, format, values);
    va_end(values);
}

const char *said_step(void) {
    return step_words;
}

static void differ(const char *what, long long here, long long there) {
    printf("script %llu, %s: %s is %lld through the door, and %lld by the person\n", (unsigned long long)script_seed,
           step_words, what, here, there);
    exit(1);
}

void hold_equal(const char *what, long long here, long long there) {
    if (here != there)
        differ(what, here, there);
}

void agree(answer here, answer there) {
    hold_equal("the number", here.number, there.number);
    hold_equal("shown", here.shown, there.shown);
    hold_equal("the ticks", here.ticks, there.ticks);
    hold_equal("the value", (long long)here.value, (long long)there.value);
    hold_equal("the line", (long long)here.line, (long long)there.line);
    hold_equal("the arc", here.arc, there.arc);
    hold_equal("the cause", here.cause, there.cause);
    hold_equal("the level", here.level, there.level);
    seen.answers++;
    seen.by_number[there.number]++;
    seen.by_cause[there.cause]++;
}

static void hold_lines(const tables *here, const tables *there) {
    for (size_t i = 0; i < there->line_count; i++) {
        const line *a = &here->lines[i], *b = &there->lines[i];
        hold_equal("the node of a line", a->node, b->node);
        hold_equal("the tag of a line", a->tag, b->tag);
        hold_equal("a back arc", a->back_arc, b->back_arc);
        hold_equal("a back line", a->back_line, b->back_line);
        hold_equal("a fore arc", a->fore_arc, b->fore_arc);
        hold_equal("a fore line", a->fore_line, b->fore_line);
        hold_equal("whether a line is asked", a->required, b->required);
    }
}

static void hold_rows(const char *what, const row *here, const row *there, size_t count) {
    for (size_t i = 0; i < count; i++) {
        hold_equal(what, here[i].places[0], there[i].places[0]);
        hold_equal(what, here[i].places[1], there[i].places[1]);
    }
}

void hold_tables(const tables *here, const tables *there) {
    hold_lines(here, there);
    hold_rows("an arrival", here->arrivals, there->arrivals, there->arrival_count);
    hold_rows("a required time", here->required, there->required, there->required_count);
    for (size_t i = 0; i < there->node_count; i++) {
        hold_equal("whether a node has a slack", here->nodes[i].timed, there->nodes[i].timed);
        hold_equal("the line of a slack", here->nodes[i].line, there->nodes[i].line);
    }
    hold_rows("a slack", here->slacks, there->slacks, there->slack_count);
}

void report(void) {
    printf("%ld answers agreed\n", seen.answers);
    printf("%ld timings, %ld accepted: %ld under a margin, %ld under a trial, up to %ld lines, %ld held against the list of "
           "all paths\n",
           seen.timings, seen.accepted, seen.under_margin, seen.under_trial, seen.most_lines, seen.listed);
    printf("%ld traces, and tables altered %ld times\n", seen.traces, seen.altered);
    printf("how often each number came:");
    for (int i = 0; i <= MOST_NUMBER; i++)
        if (seen.by_number[i] > 0)
            printf(" %d:%ld", i, seen.by_number[i]);
    printf("; of 12 by cause: 1:%ld 2:%ld 3:%ld\n", seen.by_cause[1], seen.by_cause[2], seen.by_cause[3]);
}

bool all_came(void) {
    static const int numbers[] = {0, 1, 2, 3, 4, 5, 6, 7, 8, 9, 10, 11, 12, 13, 14, 15, 16, 17, 30, 31, 32};
    for (size_t i = 0; i < sizeof numbers / sizeof *numbers; i++)
        if (seen.by_number[numbers[i]] == 0) {
            printf("number %d never came\n", numbers[i]);
            return false;
        }
    return seen.by_cause[1] > 0 && seen.by_cause[2] > 0 && seen.by_cause[3] > 0;
}
