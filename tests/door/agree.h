// Comparisons of what came through the door with what the person has, and how many agreed. The first that differs is told
// with its script and step, and ends the program with status 1.
#ifndef AGREE_H
#define AGREE_H

#include "person.h"

enum { MOST_NUMBER = 32 };

typedef struct {
    long answers, timings, accepted, under_margin, under_trial, traces, altered, listed, most_lines;
    long by_number[MOST_NUMBER + 1], by_cause[4];
} counts;

extern counts seen;
extern uint64_t script_seed;

// Says what is being tried, for the words of a difference.
void say_step(const char *format, ...);
const char *said_step(void);

void hold_equal(const char *what, long long here, long long there);
void agree(answer here, answer there);
void hold_tables(const tables *here, const tables *there);

void report(void);

// Whether each refusal and each cause came: scripts that never came to one would show nothing of it.
bool all_came(void);

#endif
