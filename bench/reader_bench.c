/* Reads one good false-set file of just under 60,000 bytes many times with the Rattle reader and with the plain C
 * reader, in turns, and prints both rates and their ratio. Usage: reader_bench [ROUNDS] */
#include "reader.h"

#include <stdint.h>
#include <stdio.h>
#include <stdlib.h>
#include <time.h>

#define MOST_BYTES 60000
#define READS_A_ROUND 200

uint64_t ripotyngue_count_false_sets(const unsigned char *bytes, size_t length);

static double now_ns(void)
{
    struct timespec t;

    clock_gettime(CLOCK_MONOTONIC, &t);
    return (double)t.tv_sec * 1e9 + (double)t.tv_nsec;
}

/* Pairs of nodes in rising order, in sets 0 to 15, from a fixed start. */
static size_t make_file(char *text)
{
    uint32_t state = 7;
    int lines = 0, length = sprintf(text, "set,from,to\n");

    for (;;) {
        state = state * 1103515245u + 12345u;
        unsigned set = (state >> 16) % 16;
        state = state * 1103515245u + 12345u;
        unsigned from = (state >> 16) % 255;
        state = state * 1103515245u + 12345u;
        unsigned to = from + 1 + (state >> 16) % (255 - from);
        char line[32];
        int size = sprintf(line, "%u,%u,%u\n", set, from, to);
        if (length + size + 10 > MOST_BYTES)
            break;
        length += sprintf(text + length, "%s", line);
        lines++;
    }
    return (size_t)(length + sprintf(text + length, "end,%d\n", lines));
}

int main(int argc, char **argv)
{
    static char text[MOST_BYTES + 64];
    size_t length = make_file(text);
    const unsigned char *bytes = (const unsigned char *)text;
    int rounds = argc > 1 ? atoi(argv[1]) : 20;
    double best[2] = { 1e18, 1e18 };
    long total[2] = { 0, 0 };

    for (int round = 0; round < rounds; round++)
        for (int which = 0; which < 2; which++) {
            double start = now_ns();
            for (int i = 0; i < READS_A_ROUND; i++)
                total[which] += which ? plain_count_false_sets(bytes, length)
                                      : (long)ripotyngue_count_false_sets(bytes, length);
            double took = (now_ns() - start) / READS_A_ROUND;
            if (took < best[which])
                best[which] = took;
        }
    if (total[0] != total[1]) {
        fprintf(stderr, "the readers disagree: %ld and %ld value lines\n", total[0], total[1]);
        return 1;
    }
    printf("reader: %zu bytes, %ld value lines, best of %d rounds\n", length, total[0] / rounds / READS_A_ROUND, rounds);
    printf("  Rattle  %7.0f MB/s\n  plain C %7.0f MB/s\n", length * 1e3 / best[0], length * 1e3 / best[1]);
    printf("  rate of the Rattle reader to the plain C reader: %.2f (goal: at least 0.70)\n", best[1] / best[0]);
    return 0;
}
