/* A plain C reader of false-set files: the number of value lines, or minus the refusal's number. */
#ifndef RIPOTYNGUE_BENCH_READER_H
#define RIPOTYNGUE_BENCH_READER_H

#include <stddef.h>

long plain_count_false_sets(const unsigned char *bytes, size_t length);

#endif
