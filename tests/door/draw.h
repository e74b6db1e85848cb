// Random numbers, the same in every run, and random files. No expression draws twice unless C says in which order, so that
// they are the same with every compiler.
#ifndef DRAW_H
#define DRAW_H

#include "person.h"

void draw_from(uint64_t seed);
int draw(int sides);
bool chance(int percent);

// A number that is out of range for most things.
int32_t draw_odd(void);

enum { MOST_FILE = 70000 };

typedef struct {
    uint8_t bytes[MOST_FILE];
    size_t length;
} file;

// Draws the values of a value line, in the order of docs/files.md.
typedef void drawer(void *script, file_kind kind, int *values);

// Writes a good file with that many value lines, its names in a random order.
void write_file(file *written, file_kind kind, int value_lines, drawer *draw_values, void *script);

// Changes a good file at random, so that most are good no more.
void damage_file(file *written);

// Writes a good file of so many bytes, if value lines are drawn that fit.
void write_long_file(file *written, file_kind kind, size_t bytes, drawer *draw_values, void *script);

#endif
