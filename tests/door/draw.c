#include "draw.h"

#include <stdarg.h>
#include <stdio.h>
#include <string.h>

static uint64_t state;

void draw_from(uint64_t seed) {
    state = seed * 0x9E3779B97F4A7C15u + 0xD1B54A32D192ED03u;
}

int draw(int sides) {
    state ^= state << 13;
    state ^= state >> 7;
    state ^= state << 17;
    return (int)((state >> 33) % (uint64_t)sides);
}

bool chance(int percent) {
    return draw(100) < percent;
}

int32_t draw_odd(void) {
    static const int32_t odd[] = {-1,      16,       255,      256,       257,       1023,     1024,     1025,
                                  4096,    65536,    65537,    1000000,   1000001,   -1000000, -1000001, 9999999,
                                  -256,    1 << 24,  -9999999, INT32_MAX, INT32_MIN, 0,        -65536,   65535};
    if (chance(20)) {
        uint32_t high = (uint32_t)draw(1 << 16);
        return (int32_t)(high << 16 | (uint32_t)draw(1 << 16));
    }
    return odd[draw((int)(sizeof odd / sizeof *odd))];
}

// ---- files

static const char *const columns[4][3] = {
    {"from", "to", NULL}, {"arc", "ticks", NULL}, {"node", "side", "ticks"}, {"set", "from", "to"}};

static void put(file *written, const char *format, ...) {
    va_list values;
    va_start(values, format);
    written->length +=
        (size_t)vsnprintf((char *)written->bytes + written->length, MOST_FILE - written->length, format, values);
    va_end(values);
}

static int column_count(file_kind kind) {
    return columns[kind][2] == NULL ? 2 : 3;
}

static void shuffle(int *order, int count) {
    for (int i = 0; i < count; i++)
        order[i] = i;
    for (int i = count - 1; i > 0; i--) {
        int other = draw(i + 1), kept = order[i];
        order[i] = order[other];
        order[other] = kept;
    }
}

static void put_names(file *written, file_kind kind, const int *order) {
    for (int i = 0; i < column_count(kind); i++)
        put(written, "%s%s", i > 0 ? "," : "", columns[kind][order[i]]);
    put(written, "\n");
}

static void put_line(file *written, file_kind kind, const int *order, const int *values) {
    for (int i = 0; i < column_count(kind); i++) {
        if (i > 0)
            put(written, ",");
        if (kind == BOUNDS_FILE && order[i] == 1)
            put(written, "%c", values[1] ? 'e' : 's');
        else
            put(written, "%d", values[order[i]]);
    }
    put(written, "\n");
}

void write_file(file *written, file_kind kind, int value_lines, drawer *draw_values, void *script) {
    int order[3], values[3];
    written->length = 0;
    shuffle(order, column_count(kind));
    put_names(written, kind, order);
    for (int i = 0; i < value_lines; i++) {
        draw_values(script, kind, values);
        put_line(written, kind, order, values);
    }
    put(written, "end,%d\n", value_lines);
}

// How many bytes stand between what is written and the end of a file of so many bytes, with its end line.
static int bytes_left(const file *written, int value_lines, size_t bytes) {
    return (int)bytes - (int)written->length - snprintf(NULL, 0, "end,%d\n", value_lines);
}

void write_long_file(file *written, file_kind kind, size_t bytes, drawer *draw_values, void *script) {
    int order[3], values[3], value_lines = 0;
    written->length = 0;
    shuffle(order, column_count(kind));
    put_names(written, kind, order);
    for (int tries = 0; tries < 200 && bytes_left(written, value_lines, bytes) > 0;) {
        size_t kept = written->length;
        draw_values(script, kind, values);
        put_line(written, kind, order, values);
        int left = bytes_left(written, value_lines + 1, bytes);
        // a line that leaves no room for another, and some, is drawn anew
        bool fits = left == 0 || left > 6;
        tries = fits ? 0 : tries + 1;
        value_lines += fits;
        if (!fits)
            written->length = kept;
    }
    put(written, "end,%d\n", value_lines);
}

static void remove_at(file *written, size_t at, size_t count) {
    memmove(written->bytes + at, written->bytes + at + count, written->length - at - count);
    written->length -= count;
}

static void insert_at(file *written, size_t at, const char *piece) {
    size_t count = strlen(piece);
    memmove(written->bytes + at + count, written->bytes + at, written->length - at);
    memcpy(written->bytes + at, piece, count);
    written->length += count;
}

static const char *draw_piece(void) {
    static const char *const pieces[] = {
        "",         ",",   "\n",   "-",  "0",    "end",  "end,",      "end,0\n", "end\n",   " ",      "9",     "1234567",
        "12345678", "s",   "e",    "\r", "\xff", "-0",   ",,",        "\n\n",    "+1",      "ending,1\n", "END", "0,s,0\n",
        "1,2\n",    "0,1,2\n", "01", "-1", "-01",  "from", "to",        "arc",     "ticks",   "node",   "side",  "set"};
    return pieces[draw((int)(sizeof pieces / sizeof *pieces))];
}

static bool ends_field(uint8_t byte) {
    return byte == ',' || byte == '\n';
}

// Puts a piece in the place of the field at a byte.
static void replace_field(file *written, size_t at) {
    size_t first = at, last = at;
    while (first > 0 && !ends_field(written->bytes[first - 1]))
        first--;
    while (last < written->length && !ends_field(written->bytes[last]))
        last++;
    remove_at(written, first, last - first);
    insert_at(written, first, draw_piece());
}

static void damage_once(file *written) {
    size_t at = (size_t)draw((int)written->length);
    if (chance(30))
        at /= 8;
    switch (draw(9)) {
    case 0:
        written->length = at;
        break;
    case 1:
        written->bytes[at] = (uint8_t)draw(256);
        break;
    case 2:
        remove_at(written, at, 1);
        break;
    case 3:
        insert_at(written, at, draw_piece());
        break;
    case 4:
        put(written, "%s", draw_piece());
        break;
    case 5:
        written->bytes[at] = (uint8_t)"\n,0-es9"[draw(7)];
        break;
    default:
        replace_field(written, at);
    }
}

void damage_file(file *written) {
    for (int i = draw(3); i >= 0 && written->length > 0; i--)
        damage_once(written);
}
