/* A plain C reader of false-set files, with the checks of the Rattle reader: size, names in any order, fields and
 * their form, the end line's count, nothing after it. It answers the number of value lines, or minus the refusal's
 * number. The benchmark compares its rate with the Rattle reader's. */
#include "reader.h"

#include <stdint.h>
#include <string.h>

#define MOST_BYTES 60000
#define COLUMNS 3

static const char *const names[COLUMNS] = { "set", "from", "to" };

/* A number: one to seven digits, no leading zero, a minus sign where below zero and no "-0". */
static int read_number(const unsigned char *text, size_t length, int32_t *value)
{
    int negative = length > 0 && text[0] == '-';
    size_t i = negative ? 1 : 0;
    size_t digits = length - i;
    int32_t n = 0;

    if (digits < 1 || digits > 7 || (digits > 1 && text[i] == '0'))
        return 0;
    for (; i < length; i++) {
        if (text[i] < '0' || text[i] > '9')
            return 0;
        n = n * 10 + (text[i] - '0');
    }
    if (negative && n == 0)
        return 0;
    *value = negative ? -n : n;
    return 1;
}

/* Splits a line at its commas into at most three fields; answers how many there are, or 0 where there are more. */
static int split(const unsigned char *line, size_t length, const unsigned char **field, size_t *size)
{
    int count = 0;
    const unsigned char *end = line + length;

    for (;;) {
        const unsigned char *p = line;
        while (p < end && *p != ',')
            p++;
        if (count == COLUMNS)
            return 0;
        field[count] = line;
        size[count++] = (size_t)(p - line);
        if (p == end)
            return count;
        line = p + 1;
    }
}

static int is_text(const unsigned char *field, size_t size, const char *text)
{
    return size == strlen(text) && memcmp(field, text, size) == 0;
}

/* Where each column stands in the names line; 0 where the names are not the kind's, each once. */
static int find_columns(const unsigned char **field, size_t *size, int count, int *place)
{
    if (count != COLUMNS)
        return 0;
    for (int i = 0; i < COLUMNS; i++) {
        place[i] = -1;
        for (int j = 0; j < COLUMNS; j++)
            if (is_text(field[j], size[j], names[i]))
                place[i] = j;
        if (place[i] < 0)
            return 0;
    }
    return 1;
}

struct pair { int32_t set, from, to; };

static long read_false_sets(const unsigned char *bytes, size_t length, struct pair *last)
{
    const unsigned char *p = bytes, *end = bytes + length;
    const unsigned char *field[COLUMNS];
    size_t size[COLUMNS];
    int place[COLUMNS];
    long lines = 0;

    if (length == 0)
        return -1;
    if (length > MOST_BYTES)
        return -2;
    const unsigned char *feed = memchr(p, '\n', (size_t)(end - p));
    if (!feed || !find_columns(field, size, split(p, (size_t)(feed - p), field, size), place))
        return -3;
    for (p = feed + 1;; p = feed + 1) {
        feed = p < end ? memchr(p, '\n', (size_t)(end - p)) : NULL;
        size_t room = (size_t)((feed ? feed : end) - p);
        int ends = room >= 3 && memcmp(p, "end", 3) == 0 && (room == 3 || p[3] == ',');
        if (!feed)
            return p == end || ends ? -5 : -4;
        int count = split(p, room, field, size);
        if (ends) {
            int32_t n;
            if (count != 2 || !read_number(field[1], size[1], &n) || n != lines)
                return -5;
            return feed + 1 == end ? lines : -5;
        }
        struct pair pair;
        if (count != COLUMNS || !read_number(field[place[0]], size[place[0]], &pair.set)
            || !read_number(field[place[1]], size[place[1]], &pair.from)
            || !read_number(field[place[2]], size[place[2]], &pair.to))
            return -4;
        *last = pair;
        lines++;
    }
}

long plain_count_false_sets(const unsigned char *bytes, size_t length)
{
    struct pair last = { 0, 0, 0 };
    long lines = read_false_sets(bytes, length, &last);

    /* keeps the records from being optimised away */
    __asm__ volatile("" : : "r"(&last) : "memory");
    return lines;
}
