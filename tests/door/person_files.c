// The person reads files as docs/files.md says.
#include "person.h"

#include <string.h>

enum { MOST_COLUMNS = 3 };

typedef struct {
    const uint8_t *bytes;
    size_t length;
} text;

static const char *const columns[4][MOST_COLUMNS + 1] = {
    {"from", "to", NULL},
    {"arc", "ticks", NULL},
    {"node", "side", "ticks", NULL},
    {"set", "from", "to", NULL},
};

static answer refused_at(uint32_t number, uint64_t at) {
    return (answer){.number = number, .line = at};
}

static bool reads(text piece, const char *word) {
    return piece.length == strlen(word) && memcmp(piece.bytes, word, piece.length) == 0;
}

// What stands before the first mark, and all of it where there is none; rest keeps what stands behind the mark.
static text cut(text *rest, uint8_t mark, bool *marked) {
    size_t at = 0;
    while (at < rest->length && rest->bytes[at] != mark)
        at++;
    text part = {rest->bytes, at};
    *marked = at < rest->length;
    rest->bytes += at + *marked;
    rest->length -= at + *marked;
    return part;
}

// Writes the first fields of a line, and answers how many there are.
static int split(text whole, text fields[MOST_COLUMNS]) {
    int count = 0;
    bool comma = true;
    while (comma) {
        text field = cut(&whole, ',', &comma);
        if (count < MOST_COLUMNS)
            fields[count] = field;
        count++;
    }
    return count;
}

static int column_count(file_kind kind) {
    return columns[kind][2] == NULL ? 2 : 3;
}

// For each field of the names line its column, if each column is named once.
static bool names_columns(file_kind kind, text names, int order[MOST_COLUMNS]) {
    text fields[MOST_COLUMNS];
    bool named[MOST_COLUMNS] = {false};
    int count = column_count(kind);
    if (split(names, fields) != count)
        return false;
    for (int i = 0; i < count; i++) {
        int column = 0;
        while (column < count && !reads(fields[i], columns[kind][column]))
            column++;
        if (column == count || named[column])
            return false;
        named[column] = true;
        order[i] = column;
    }
    return true;
}

static bool read_number(text field, int *value) {
    bool below = field.length > 0 && field.bytes[0] == '-';
    size_t digits = field.length - below;
    int sum = 0;
    if (digits < 1 || digits > 7 || (field.bytes[below] == '0' && field.length > 1))
        return false;
    for (size_t i = below; i < field.length; i++) {
        if (field.bytes[i] < '0' || field.bytes[i] > '9')
            return false;
        sum = sum * 10 + (field.bytes[i] - '0');
    }
    *value = below ? -sum : sum;
    return true;
}

static bool read_value(const char *column, text field, int *value) {
    if (strcmp(column, "side") != 0)
        return read_number(field, value);
    *value = reads(field, "e");
    return reads(field, "s") || reads(field, "e");
}

static bool read_values(file_kind kind, text whole, const int order[MOST_COLUMNS], int values[MOST_COLUMNS]) {
    text fields[MOST_COLUMNS];
    int count = column_count(kind);
    if (split(whole, fields) != count)
        return false;
    for (int i = 0; i < count; i++)
        if (!read_value(columns[kind][order[i]], fields[i], &values[order[i]]))
            return false;
    return true;
}

static bool is_end_line(text whole) {
    bool comma;
    return reads(cut(&whole, ',', &comma), "end");
}

static bool counts(text whole, int value_lines) {
    text fields[MOST_COLUMNS];
    int said;
    return split(whole, fields) == 2 && read_number(fields[1], &said) && said == value_lines;
}

// Everything behind the names line; the lines are numbered from 2.
static answer read_lines(file_kind kind, text rest, const int order[MOST_COLUMNS], taker *take, void *sink) {
    for (int at = 2;; at++) {
        int values[MOST_COLUMNS];
        bool ended;
        if (rest.length == 0)
            return refused_at(5, (uint64_t)at);
        text whole = cut(&rest, '\n', &ended);
        if (is_end_line(whole)) {
            if (!ended || !counts(whole, at - 2))
                return refused_at(5, (uint64_t)at);
            return rest.length > 0 ? refused_at(5, (uint64_t)at + 1) : (answer){0};
        }
        if (!ended || !read_values(kind, whole, order, values))
            return refused_at(4, (uint64_t)at);
        uint32_t number = take(sink, values);
        if (number != 0)
            return refused_at(number, (uint64_t)at);
    }
}

answer person_reads(file_kind kind, const uint8_t *bytes, size_t length, taker *take, void *sink) {
    int order[MOST_COLUMNS];
    bool ended;
    text rest = {bytes, length};
    if (length == 0)
        return refused_at(1, 0);
    if (length > MOST_BYTES)
        return refused_at(2, 0);
    text names = cut(&rest, '\n', &ended);
    if (!ended || !names_columns(kind, names, order))
        return refused_at(3, 1);
    return read_lines(kind, rest, order, take, sink);
}
